"""Calls on controllers and their ports: options of bonds, bridges and ports, and ports that come and go."""
from .address_calls import route_line
from .errors import Refused
from .machine import set_link
from .profile import HASH_POLICIES, LACP_RATES, MODES_WITH_PRIMARY, PortOptions
from .text import write_mac

BOND_PRIMARY = "/sys/class/net/{}/bonding/primary"
BRIDGE_WORDS = ("stp_state", "priority", "forward_delay", "hello_time", "max_age", "ageing_time")


def set_primary(machine, bond, port):
    """By sysfs: ip has no word that takes a primary away."""
    try:
        with open(BOND_PRIMARY.format(bond), "w", encoding="utf-8") as file:
            file.write((port or "") + "\n")
    except OSError as e:
        raise Refused(14, f"primary of {bond}: {e.strerror}") from None
    machine.has_changed = True
    link = machine.network.links[bond]
    link.bond = link.bond._replace(primary=port)


def forget_primary(machine, port, controller):
    """A bond knows its former primary by name, and would make it primary again when it comes back."""
    if machine.network.links[controller].bond.primary == port:
        set_primary(machine, controller, None)


def lines_after_closing(machine, names, with_mtus):
    """What puts links and the VLANs over them back after they were closed, or closed and opened; and the lines of what isn't told."""
    network, every = machine.network, [*names, *machine.network.over(names)]
    links = [network.links[it] for it in every]
    lines = machine.mtu_lines(names) if with_mtus else []
    lines += [set_link(it.name, "up") for it in links if it.is_up] + [set_link(it.name, "down") for it in links if not it.is_up]
    lines += [["address", "add", str(a), "dev", it.name] for it in links if it.is_up for a in it.addresses if len(a.address) == 16]
    lines += [route_line("add", key, hop, it) for it in every for key, hop in network.routes.get(it, {}).items()]
    return lines, [line for it in links if it.is_up for line in machine.untold.lines.get(it.name, ())]


def after_moving(machine, port, kind, controller):
    """States again what Linux changes of a port that came to a controller or left it, and of the controller."""
    network = machine.network
    lines, untold = [], []
    if kind == "bond" or kind == "vrf" and network.links[port].is_up:
        lines, untold = lines_after_closing(machine, [port], kind == "bond")
    if kind == "bond":
        machine.stated.discard(controller)      # a bond whose last port left has a new MAC address
        lines += machine.mac_lines(network.over([port]))
    if kind in ("bond", "bridge") and controller in network.links:
        lines += machine.follower_lines(controller)
    machine.mend(lines, untold)


def leave_and_enter(machine, link, bond, mac):
    """Sets the MAC address of a bond's port: the bond gives back the one that the port came with, so the port leaves and comes."""
    machine.spare_in_closing([link.name])
    is_primary = bond.bond.primary == link.name
    forget_primary(machine, link.name, bond.name)
    name = link.name
    machine.run([set_link(name, "nomaster"), set_link(name, "down"), set_link(name, "address", write_mac(mac)),
                 set_link(name, "master", bond.name)], 14)
    link.mac = mac
    after_moving(machine, name, "bond", bond.name)
    if is_primary:
        set_primary(machine, bond.name, name)


def monitor_words(old, new):
    """Delays need the link monitor and are counted in its intervals, so they are taken away before it changes."""
    clear = [["updelay", "0", "downdelay", "0"]] if old.updelay or old.downdelay else []
    delays = ["updelay", str(new.updelay), "downdelay", str(new.downdelay)] if new.miimon else []
    return [*clear, ["miimon", str(new.miimon), *delays]]


def set_bond(machine, name, new):
    link = machine.network.links[name]
    old, is_closed = link.bond, link.is_up and new.lacp_rate != link.bond.lacp_rate
    lines = []
    if new.hash_policy != old.hash_policy:
        lines.append(set_link(name, "type", "bond", "xmit_hash_policy", HASH_POLICIES[new.hash_policy]))
    if is_closed:                               # the rate can be set only while the bond is down
        machine.spare_in_closing([name])
        lines.append(set_link(name, "down"))
    if new.lacp_rate != old.lacp_rate:
        lines.append(set_link(name, "type", "bond", "lacp_rate", LACP_RATES[new.lacp_rate]))
    if new[3:] != old[3:]:
        lines += [set_link(name, "type", "bond", *words) for words in monitor_words(old, new)]
    machine.run(lines, 14)
    if is_closed:
        machine.mend(*lines_after_closing(machine, [name], False))
    if new.primary != old.primary:
        set_primary(machine, name, new.primary)
    link.bond = new


def set_bridge(machine, name, new):
    """Linux counts the times in hundredths of a second."""
    values = (new.stp, new.priority, *(it * 100 for it in new[2:]))
    words = [word for key, value in zip(BRIDGE_WORDS, values) for word in (key, str(value))]
    machine.run([set_link(name, "type", "bridge", *words)], 14)
    machine.network.links[name].bridge = new


def port_line(port, options):
    return set_link(port, "type", "bridge_slave", "cost", str(options.cost), "priority", str(options.priority),
                    "hairpin", "on" if options.hairpin else "off")


def attach(machine, port, controller):
    link = machine.network.links[controller]
    if link.kind != "bridge":
        machine.spare_in_closing([port])
    if link.kind == "bond" and link.mode in MODES_WITH_PRIMARY and not link.bond.primary:
        set_primary(machine, controller, None)
    machine.run([set_link(port, "master", controller)], 10)
    machine.network.lead(port, controller)
    if link.kind == "bridge":
        machine.mend([port_line(port, PortOptions())])
    after_moving(machine, port, link.kind, controller)


def detach(machine, port):
    controller = machine.network.links[port].controller
    if controller is None:
        raise Refused(13, f"{port} is no port")
    kind = machine.network.links[controller].kind
    if kind != "bridge":
        machine.spare_in_closing([port])
    machine.spare_hidden([port])
    forget_primary(machine, port, controller)
    machine.run([set_link(port, "nomaster")], 13)
    machine.network.lead(port, None)
    after_moving(machine, port, kind, controller)


def set_port(machine, port, options):
    machine.run([port_line(port, options)], 14)
    machine.network.links[port].port = options
