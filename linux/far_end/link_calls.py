"""Calls on links: made and deleted, up and down, MTU and MAC address."""
from .controller_calls import after_moving, forget_primary, leave_and_enter
from .errors import Refused
from .machine import set_link
from .profile import BOND_MODES, VLAN_PROTOCOLS, Link, PortOptions, default_mac
from .text import write_mac

# A bridge's MTU that is stated as it is counts as not stated, and follows the ports. So it is made with another.
OTHER_MTU = "1499"


def new_links(network, link):
    """The links that a call makes: a veth comes with its peer, and a VLAN is like its base."""
    if link.kind == "veth":
        return [link, Link(link.peer, "veth", default_mac(link.peer), peer=link.name)]
    if link.kind == "vlan":
        base = network.links[link.base]
        link.mtu, link.mac = base.mtu, base.mac
    return [link]


def kind_words(links):
    link = links[0]
    return {
        # Some modes begin with the link monitor on.
        "bond": lambda: ["mode", BOND_MODES[link.mode], "miimon", "0"],
        "vlan": lambda: ["protocol", VLAN_PROTOCOLS[link.protocol], "id", str(link.vlan_id)],
        "vrf": lambda: ["table", str(link.table)],
        "veth": lambda: ["peer", "name", link.peer, "address", write_mac(links[1].mac)],
    }.get(link.kind, list)()


def add_link(machine, link):
    links = new_links(machine.network, link)
    if any("%" in it.name for it in links):
        raise Refused(2, "% in a link's name is a pattern for Linux")
    is_bridge = link.kind == "bridge"
    base = ["link", link.base] if link.kind == "vlan" else []
    machine.run([["link", "add", *base, "name", link.name, "address", write_mac(link.mac), "mtu", OTHER_MTU if is_bridge else str(link.mtu),
                  "type", link.kind, *kind_words(links)]], 2)
    for it in links:
        machine.network.put(it)
        machine.stated.add(it.name)
    if is_bridge:
        machine.pinned.add(link.name)
        machine.mend(machine.mtu_lines([link.name]))


def del_link(machine, name):
    network = machine.network
    link, ports = network.links[name], network.ports_of(name)
    if link.kind == "ethernet":                 # that of a container is a veth, and Linux would delete it
        raise Refused(3, f"{name} is a device")
    ends = [name, link.peer] if link.kind == "veth" else [name]
    gone = ends + network.over(ends)
    machine.spare_in_deleting(ends)
    if link.kind in ("bond", "vrf"):
        machine.spare_in_closing(ports)
    machine.spare_hidden(ports)
    left = [(it, network.links[it].controller) for it in gone if network.links[it].controller not in (None, *gone)]
    for port, controller in left:
        forget_primary(machine, port, controller)
    machine.run([["link", "del", "dev", name]], 3)
    if len(gone) > 1:
        machine.ip.forget()
    remove(machine, gone, ports)
    for port in ports:
        after_moving(machine, port, link.kind, name)
    follow(machine, {controller for _, controller in left})


def remove(machine, gone, ports):
    for name in gone:
        machine.network.take(name)
        machine.untold.lines.pop(name, None)
        machine.untold.hidden.pop(name, None)
        machine.stated.discard(name)
        machine.pinned.discard(name)
    for port in ports:
        if port in machine.network.links:
            machine.network.links[port].controller, machine.network.links[port].port = None, PortOptions()
    machine.network.ports.pop(gone[0], None)


def follow(machine, controllers):
    """Controllers whose ports were deleted: what of them came from these is stated again."""
    for controller in sorted(controllers):
        if machine.network.links[controller].kind != "vrf":
            machine.stated.discard(controller)
            machine.mend(machine.follower_lines(controller))


def up(machine, name):
    """VLANs over a link rise with it: those that were down go down again, told or not."""
    link, network = machine.network.links[name], machine.network
    down = []
    if not link.is_up:
        machine.spare_hidden([name])
        down = sorted(network.vlans.get(name, ()))
        down += [it.name for it in machine.untold.strangers.get(name, ()) if it.is_vlan_over and not it.is_up]
    machine.run([set_link(name, "up"), *(set_link(it, "down") for it in down)], 17)
    link.is_up = True


def down(machine, name):
    machine.run([set_link(name, "down")], 1)
    network = machine.network
    for it in [name, *network.over([name])]:
        link = network.links[it]
        link.is_up, link.addresses = False, {a for a in link.addresses if len(a.address) == 4}
        machine.untold.lines.pop(it, None)
        network.routes.pop(it, None)


def set_mtu(machine, name, mtu):
    network = machine.network
    link = network.links[name]
    for it in machine.untold.strangers.get(name, ()):
        if it.mtu > mtu:
            raise Refused(8, f"{it.name} over it has MTU {it.mtu}, and isn't told")
    machine.run([set_link(name, "mtu", str(mtu))], 8)
    if link.kind == "bridge" and link.mtu != mtu:
        machine.pinned.add(name)
    link.mtu = mtu
    for it in network.over([name]):
        network.links[it].mtu = min(network.links[it].mtu, mtu)
    # A bond gives its MTU to its ports, and a bridge takes that of its own.
    lines = machine.mtu_lines(network.ports_of(name)) if link.kind == "bond" else []
    controller = network.links.get(link.controller)
    if controller and controller.kind == "bridge" and controller.name not in machine.pinned:
        lines += machine.mtu_lines([controller.name])
    machine.mend(lines)


def set_mac(machine, name, mac):
    network = machine.network
    link = network.links[name]
    controller = network.links.get(link.controller)
    if controller and controller.kind == "bond":
        leave_and_enter(machine, link, controller, mac)
        return
    machine.run([set_link(name, "address", write_mac(mac))], 14)
    link.mac = mac
    machine.stated.add(name)
    # VLANs that have a link's MAC address change with it; a bridge may have that of a port.
    ports = network.ports_of(name) if link.kind == "bond" else []
    lines = machine.mac_lines(network.over([name, *ports]))
    if controller and controller.kind == "bridge":
        lines += machine.mac_lines([controller.name, *network.over([controller.name])])
    machine.mend(lines)
