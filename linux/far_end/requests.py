"""Requests: `dump`, or one call in the spelling of `plan --batch` (docs/FORMATS.md). What isn't exactly one of these forms is a fault."""
import re

from .address_calls import add_address, add_route, add_rule, del_address, del_route, del_rule, set_dns
from .controller_calls import attach, detach, set_bond, set_bridge, set_port
from .errors import Fault, Refused
from .link_calls import add_link, del_link, down, set_mac, set_mtu, up
from .profile import (ACTIONS, BOND_MODES, HASH_POLICIES, LACP_RATES, VLAN_PROTOCOLS, BondOptions, BridgeOptions, Link, PortOptions,
                      RouteKey, Rule, default_mac)
from .text import read_address, read_mac, read_prefix

DUMP = "dump"
# What an answer begins with (crates/peer_core/specs/Protocol.antt). Any other sign is a fault for the program. No namespace is
# without a network, so the answer that there is none is never given.
DONE, REFUSED, NETWORK, FAULT = b"+", b"-", b"=", b"!"

NUMBER, PREFIX = r"0|[1-9][0-9]{0,9}", r"[0-9a-f:.]+/(?:0|[1-9][0-9]{0,2})"
NAME, ADDRESS, DOMAIN = r"[!-.0-9;-~]{1,15}", r"[0-9a-f:.]+", r"[!-+\--~]{1,253}"


def choice(words):
    return "|".join(map(re.escape, words)), words.index


def optional(pattern, read):
    return f"-|{pattern}", lambda text: None if text == "-" else read(text)


def listed(pattern, read):
    return f"(?:(?:{pattern})(?:,(?:{pattern}))*)?", lambda text: [read(it) for it in text.split(",") if it]


def read_target(text):
    """A rule's action and table."""
    return (ACTIONS.index(text), 0) if text in ACTIONS[1:] else (0, int(text))


# The words in capitals of the forms below: how they are spelled, and as what they are read.
WORDS = {
    "NAME": (NAME, str),
    "PORT": optional(NAME, str),
    "N": (NUMBER, int),
    "PREFIX": (PREFIX, read_prefix),
    "END": optional(PREFIX, read_prefix),
    "ADDRESS": (ADDRESS, read_address),
    "ADDRESSES": listed(ADDRESS, read_address),
    "DOMAINS": listed(DOMAIN, str),
    "MAC": ("[0-9A-F]{2}(?::[0-9A-F]{2}){5}", read_mac),
    "BOOL": choice(("false", "true")),
    "MODE": choice(BOND_MODES),
    "RATE": choice(LACP_RATES),
    "POLICY": choice(HASH_POLICIES),
    "PROTOCOL": choice(VLAN_PROTOCOLS),
    "FAMILY": choice(("ipv4", "ipv6")),
    "TARGET": (f"{NUMBER}|{'|'.join(ACTIONS[1:])}", read_target),
}


def new(kind):
    """A reader of a new link's name and what its kind has."""
    own = {"bond": ("mode",), "vlan": ("protocol", "vlan_id"), "vrf": ("table",), "veth": ("peer",)}.get(kind, ())
    return lambda name, *values: (add_link, Link(name, kind, default_mac(name), **dict(zip(own, values))))


def new_vlan(base, name, protocol, vlan_id):
    call, link = new("vlan")(name, protocol, vlan_id)
    link.base = base
    return call, link


def routed(call):
    return lambda destination, gateway, device, table, metric: (call, RouteKey(destination, table, metric), gateway, device)


def routed_directly(call):
    return lambda destination, device, table, metric: (call, RouteKey(destination, table, metric), None, device)


def ruled(call):
    def read(priority, family, source, destination, iif, mark, mask, target):
        return call, Rule(priority, family == 1, source, destination, iif, mark, mask, *target)
    return read


def made(call, options=None):
    """A reader of a call that takes what it names, the last of it as options."""
    return lambda name, *values: (call, name, options(*values)) if options else (call, name, *values)


BOND_FORM = "primary=PORT lacp_rate=RATE xmit_hash_policy=POLICY miimon=N updelay=N downdelay=N"
BRIDGE_FORM = "stp=BOOL priority=N forward-delay=N hello-time=N max-age=N mac-ageing-time=N"
RULE_FORM = "N FAMILY from=END to=END iif=PORT mark=N mask=N target=TARGET"

FORMS = {
    "link add name NAME type bond mode MODE": new("bond"),
    "link add name NAME type bridge": new("bridge"),
    "link add link NAME name NAME type vlan protocol PROTOCOL id N": new_vlan,
    "link add name NAME type vrf table N": new("vrf"),
    "link add name NAME type dummy": new("dummy"),
    "link add name NAME type veth peer name NAME": new("veth"),
    "link del dev NAME": made(del_link),
    "link set dev NAME up": made(up),
    "link set dev NAME down": made(down),
    "link set dev NAME mtu N": made(set_mtu),
    "link set dev NAME address MAC": made(set_mac),
    "link set dev NAME master NAME": made(attach),
    "link set dev NAME nomaster": made(detach),
    "address add PREFIX dev NAME": lambda prefix, name: (add_address, name, prefix),
    "address del PREFIX dev NAME": lambda prefix, name: (del_address, name, prefix),
    "route add PREFIX via ADDRESS dev NAME table N metric N": routed(add_route),
    "route del PREFIX via ADDRESS dev NAME table N metric N": routed(del_route),
    "route add PREFIX dev NAME table N metric N": routed_directly(add_route),
    "route del PREFIX dev NAME table N metric N": routed_directly(del_route),
    f"#! set-bond NAME {BOND_FORM}": made(set_bond, BondOptions),
    f"#! set-bridge NAME {BRIDGE_FORM}": made(set_bridge, BridgeOptions),
    "#! set-port NAME cost=N priority=N hairpin=BOOL": made(set_port, PortOptions),
    f"#! add-rule {RULE_FORM}": ruled(add_rule),
    f"#! del-rule {RULE_FORM}": ruled(del_rule),
    "#! set-dns servers=ADDRESSES search=DOMAINS": made(set_dns),
}


def compiled(form):
    """A form as a pattern, and how each of its words is read."""
    parts = re.split(r"\b([A-Z]+)\b", form)
    pattern = "".join(f"({WORDS[it][0]})" if at % 2 else re.escape(it) for at, it in enumerate(parts))
    return re.compile(pattern), [WORDS[it][1] for it in parts[1::2]]


COMPILED = [(*compiled(form), make) for form, make in FORMS.items()]


def read_call(line):
    """The function of a call, and what it takes beside the machine."""
    for pattern, readers, make in COMPILED:
        if found := pattern.fullmatch(line):
            try:
                return make(*(read(text) for read, text in zip(readers, found.groups())))
            except (OSError, ValueError):
                break
    raise Fault(f"a request that can't be read: {line[:200]!r}")


def make_call(machine, line):
    """Makes a call. Whatever is refused or fails ends what is known: the next call reads first. A refusal says that nothing was changed,
    so a call that is refused half way is a fault."""
    call, *arguments = read_call(line)
    if not machine.is_known:
        machine.read()
    machine.is_known = machine.has_changed = False
    try:
        call(machine, *arguments)
    except (KeyError, Refused) as e:
        refused = e if isinstance(e, Refused) else Refused(1, f"no link {e}")
        raise Fault(f"half done: {refused}") if machine.has_changed else refused from None
    machine.is_known = True
