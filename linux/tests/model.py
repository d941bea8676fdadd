"""The calls of the kernel as docs/KERNEL.md has them, on networks of the profile: what tests compare a Linux with. It is written from
that page alone, and shares the data and the image with the far end, and no step."""
import copy

from far_end.profile import (ACTIONS, BASES, BOND_MODES, HASH_POLICIES, LACP_RATES, MODES_WITH_PRIMARY, TAKES, VLAN_PROTOCOLS,
                             BondOptions, BridgeOptions, Hop, Link, Network, PortOptions, Prefix, RouteKey, Rule, default_mac)
from far_end.text import write_address, write_mac

BOOL = ("false", "true")


class No(Exception):
    """The call is refused with this number."""


def need(number, holds):
    if not holds:
        raise No(number)


def depends(network, name, on):
    """Whether a link depends on another: a VLAN on its base, a controller on its ports."""
    seen, todo = set(), [name]
    while todo:
        it = todo.pop()
        if it == on:
            return True
        if it not in seen:
            seen.add(it)
            todo += ([network.links[it].base] if network.links[it].base else []) + network.ports_of(it)
    return False


def bond_fits(network, link, bond):
    if bond.primary and (network.links.get(bond.primary) is None or network.links[bond.primary].controller != link.name
                         or link.mode not in MODES_WITH_PRIMARY):
        return False
    if bond.lacp_rate and BOND_MODES[link.mode] != "802.3ad":
        return False
    delays = bond.updelay, bond.downdelay
    return not any(delays) or bond.miimon and not any(it % bond.miimon for it in delays)


def link_of(network, name):
    need(1, name in network.links)
    return network.links[name]


def add_link(network, link):
    need(2, link.name not in network.links and (link.kind != "veth" or link.peer not in network.links and link.peer != link.name))
    need(3, link.kind != "ethernet")
    link = copy.deepcopy(link)
    if link.kind == "vlan":
        base = network.links.get(link.base)
        need(4, base and base.kind in BASES)
        same = [it for it in network.links.values() if (it.base, it.protocol, it.vlan_id) == (link.base, link.protocol, link.vlan_id)]
        need(5, not same)
        link.mtu, link.mac = base.mtu, base.mac
    network.put(link)
    if link.kind == "veth":
        network.put(Link(link.peer, "veth", default_mac(link.peer), peer=link.name))


def without_primary(network, controller, port):
    link = network.links.get(controller)
    if link and link.bond.primary == port:
        link.bond = link.bond._replace(primary=None)


def del_link(network, name):
    link = link_of(network, name)
    need(3, link.kind != "ethernet")
    ends = [name] + ([link.peer] if link.kind == "veth" else [])
    for it in ends + network.over(ends):
        for port in network.ports_of(it):
            network.lead(port, None)
        without_primary(network, network.links[it].controller, it)
        network.take(it)


def up(network, name):
    link = link_of(network, name)
    need(7, not link.base or network.links[link.base].is_up)
    link.is_up = True


def down(network, name):
    link_of(network, name)
    for it in [name, *network.over([name])]:
        link = network.links[it]
        link.is_up = False
        link.addresses = {a for a in link.addresses if len(a.address) == 4}
        network.routes.pop(it, None)


def set_mtu(network, name, mtu):
    link = link_of(network, name)
    need(8, 68 <= mtu <= 65535 and (not link.base or mtu <= network.links[link.base].mtu))
    link.mtu = mtu
    for it in network.over([name]):
        network.links[it].mtu = min(network.links[it].mtu, mtu)


def set_mac(network, name, mac):
    link_of(network, name).mac = mac


def set_bond(network, name, options):
    link = link_of(network, name)
    need(14, link.kind == "bond" and bond_fits(network, link, options))
    link.bond = options


def set_bridge(network, name, options):
    link = link_of(network, name)
    in_range = 2 <= options.forward_delay <= 30 and 1 <= options.hello_time <= 10 and 6 <= options.max_age <= 40
    need(14, link.kind == "bridge" and in_range)
    link.bridge = options


def attach(network, port, controller):
    link, to = link_of(network, port), link_of(network, controller)
    need(6, not depends(network, port, controller))
    need(9, link.controller is None)
    need(10, link.kind in TAKES.get(to.kind, ()))
    need(11, to.kind != "bond" or not link.is_up)
    need(12, to.kind == "vrf" or not link.addresses)
    network.lead(port, controller)


def detach(network, port):
    link = link_of(network, port)
    need(13, link.controller)
    without_primary(network, link.controller, port)
    network.lead(port, None)


def set_port(network, port, options):
    link = link_of(network, port)
    need(13, link.controller)
    need(14, network.links[link.controller].kind == "bridge" and options.cost >= 1 and options.priority <= 63)
    link.port = options


def add_address(network, name, prefix):
    link = link_of(network, name)
    need(12, not link.controller or network.links[link.controller].kind == "vrf")
    need(15, all(it.address != prefix.address for it in link.addresses))
    need(17, link.is_up or len(prefix.address) == 4)
    need(23, len(link.addresses) < 64)
    link.addresses.add(prefix)


def del_address(network, name, prefix):
    link = link_of(network, name)
    need(16, prefix in link.addresses)
    link.addresses.discard(prefix)
    routes = network.routes.get(name, {})
    for key in [key for key, hop in routes.items() if hop.gateway and not link.reaches(hop.gateway)]:
        del routes[key]


def add_route(network, key, gateway, device):
    link = link_of(network, device)
    need(17, link.is_up)
    need(18, not gateway or link.reaches(gateway))
    need(19, all(key not in those for those in network.routes.values()))
    network.routes.setdefault(device, {})[key] = Hop(gateway, "")


def del_route(network, key, gateway, device):
    hop = network.routes.get(device, {}).get(key)
    need(20, hop and hop.gateway == gateway)
    del network.routes[device][key]


def rules_of(network, rule):
    return network.rules.setdefault((rule.priority, rule.is_ipv6), set())


def add_rule(network, rule):
    need(21, rule not in rules_of(network, rule))
    rules_of(network, rule).add(rule)


def del_rule(network, rule):
    need(22, rule in rules_of(network, rule))
    rules_of(network, rule).discard(rule)


def set_dns(network, servers, search):
    network.servers, network.search = list(servers), list(search)


def accepts(network, call):
    """Makes a call, a function of these and what it takes, and says whether it was accepted. A refused one changes nothing."""
    try:
        call[0](network, *call[1:])
    except No:
        return False
    return True


# Spelling, as docs/FORMATS.md has it

def mac_text(mac):
    return write_mac(mac).upper()


def some(value):
    return "-" if value is None else str(value)


def spell_link(link):
    if link.kind == "vlan":
        return f"link add link {link.base} name {link.name} type vlan protocol {VLAN_PROTOCOLS[link.protocol]} id {link.vlan_id}"
    own = {"bond": lambda: f" mode {BOND_MODES[link.mode]}", "vrf": lambda: f" table {link.table}",
           "veth": lambda: f" peer name {link.peer}"}.get(link.kind, str)()
    return f"link add name {link.name} type {link.kind}{own}"


def spell_bond(name, o):
    return (f"#! set-bond {name} primary={some(o.primary)} lacp_rate={LACP_RATES[o.lacp_rate]} xmit_hash_policy={HASH_POLICIES[o.hash_policy]} "
            f"miimon={o.miimon} updelay={o.updelay} downdelay={o.downdelay}")


def spell_bridge(name, o):
    return (f"#! set-bridge {name} stp={BOOL[o.stp]} priority={o.priority} forward-delay={o.forward_delay} hello-time={o.hello_time} "
            f"max-age={o.max_age} mac-ageing-time={o.ageing_time}")


def spell_route(verb, key, gateway, device):
    via = f"via {write_address(gateway)} " if gateway else ""
    return f"route {verb} {key.destination} {via}dev {device} table {key.table} metric {key.metric}"


def spell_rule(verb, r):
    target = ACTIONS[r.action] if r.action else r.table
    return (f"#! {verb}-rule {r.priority} {('ipv4', 'ipv6')[r.is_ipv6]} from={some(r.source)} to={some(r.destination)} iif={some(r.iif)} "
            f"mark={r.mark} mask={r.mask} target={target}")


SPELLINGS = {
    add_link: spell_link,
    del_link: lambda name: f"link del dev {name}",
    up: lambda name: f"link set dev {name} up",
    down: lambda name: f"link set dev {name} down",
    set_mtu: lambda name, mtu: f"link set dev {name} mtu {mtu}",
    set_mac: lambda name, mac: f"link set dev {name} address {mac_text(mac)}",
    set_bond: spell_bond,
    set_bridge: spell_bridge,
    attach: lambda port, controller: f"link set dev {port} master {controller}",
    detach: lambda port: f"link set dev {port} nomaster",
    set_port: lambda port, o: f"#! set-port {port} cost={o.cost} priority={o.priority} hairpin={BOOL[o.hairpin]}",
    add_address: lambda name, prefix: f"address add {prefix} dev {name}",
    del_address: lambda name, prefix: f"address del {prefix} dev {name}",
    add_route: lambda *words: spell_route("add", *words),
    del_route: lambda *words: spell_route("del", *words),
    add_rule: lambda rule: spell_rule("add", rule),
    del_rule: lambda rule: spell_rule("del", rule),
    set_dns: lambda servers, search: f"#! set-dns servers={','.join(map(write_address, servers))} search={','.join(search)}",
}


def spell(call):
    return SPELLINGS[call[0]](*call[1:])
