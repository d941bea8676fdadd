"""The image of a network, version 2, byte by byte as docs/STORED.md has it."""
from .profile import KINDS, MAX_ADDRESSES, MAX_DNS, MAX_LINK_ADDRESSES, MAX_LINKS, MAX_ROUTES, MAX_RULES
from .errors import Fault

VERSION = b"NMS2"


def number(value, size):
    return int(value).to_bytes(size, "big")


def name(text):
    return number(len(text), 1) + text.encode() if text else b"\0"


def address(value):
    return (b"\6" if len(value) == 16 else b"\4") + value if value else b"\0"


def prefix(value):
    return address(value.address) + number(value.length, 1)


def optional_prefix(value):
    return b"\1" + prefix(value) if value else b"\0"


def prefix_order(value):
    return len(value.address), value.address, value.length


def kind(link):
    own = {
        "ethernet": lambda: link.permanent_mac,
        "bond": lambda: number(link.mode, 1),
        "vlan": lambda: name(link.base) + number(link.vlan_id, 2) + number(link.protocol, 1),
        "vrf": lambda: number(link.table, 4),
        "veth": lambda: name(link.peer),
    }.get(link.kind, bytes)
    return number(KINDS.index(link.kind) + 1, 1) + own()


def numbers(values, sizes):
    return b"".join(map(number, values, sizes))


def options(link):
    if link.kind == "bond":
        return name(link.bond.primary) + numbers(link.bond[1:], (1, 1, 4, 4, 4))
    return numbers(link.bridge, (1, 2, 1, 1, 1, 4)) if link.kind == "bridge" else b""


def link(it):
    addresses = sorted(it.addresses, key=prefix_order)
    return b"".join((
        name(it.name), kind(it), number(it.is_up, 1), number(it.mtu, 4), it.mac, name(it.controller), options(it),
        numbers(it.port, (2, 1, 1)), number(len(addresses), 1), *map(prefix, addresses)))


def route(key, hop, device):
    return prefix(key.destination) + number(key.table, 4) + number(key.metric, 4) + address(hop.gateway) + name(device)


def route_order(entry):
    return prefix_order(entry[0].destination), entry[0].table, entry[0].metric


def rule(it):
    target = number(it.action, 1) + (b"" if it.action else number(it.table, 4))
    return b"".join((
        number(it.priority, 4), number(6 if it.is_ipv6 else 4, 1), optional_prefix(it.source), optional_prefix(it.destination),
        name(it.iif), number(it.mark, 4), number(it.mask, 4), target))


def rule_order(it):
    """By all fields; nothing comes before something."""
    ends = [(1, prefix_order(end)) if end else (0,) for end in (it.source, it.destination)]
    return it.priority, it.is_ipv6, *ends, (1, it.iif) if it.iif else (0,), it.mark, it.mask, it.action, it.table


def keep_limits(network, routes, rules):
    """More than the profile has is a fault: a network cut short would be a lie."""
    counts = [len(it.addresses) for it in network.links.values()]
    for what, count, most in (
            ("links", len(network.links), MAX_LINKS), ("addresses on a link", max(counts, default=0), MAX_LINK_ADDRESSES),
            ("addresses", sum(counts), MAX_ADDRESSES), ("routes", len(routes), MAX_ROUTES), ("rules", len(rules), MAX_RULES),
            ("DNS servers", len(network.servers), MAX_DNS), ("search domains", len(network.search), MAX_DNS)):
        if count > most:
            raise Fault(f"{count} {what}, and the profile has at most {most}")


def image_of(network):
    routes = [(key, hop, device) for device, those in network.routes.items() for key, hop in those.items()]
    rules = [it for those in network.rules.values() for it in those]
    keep_limits(network, routes, rules)
    return b"".join((
        VERSION,
        number(len(network.links), 2), *(link(network.links[it]) for it in sorted(network.links)),
        number(len(routes), 2), *(route(*it) for it in sorted(routes, key=route_order)),
        number(len(rules), 2), *map(rule, sorted(rules, key=rule_order)),
        number(len(network.servers), 1), *map(address, network.servers),
        number(len(network.search), 1), *map(name, network.search)))
