"""The network of the profile, as docs/KERNEL.md has it: links, routes, rules and DNS."""
from dataclasses import dataclass, field
from typing import NamedTuple

from .text import Prefix, is_link_local, number_of

# In the order of their numbers in an image; kinds are numbered from 1, the others from 0.
KINDS = ("ethernet", "bond", "bridge", "vlan", "vrf", "dummy", "veth")
BOND_MODES = ("balance-rr", "active-backup", "balance-xor", "broadcast", "802.3ad", "balance-tlb", "balance-alb")
MODES_WITH_PRIMARY = (1, 5, 6)
HASH_POLICIES = ("layer2", "layer2+3", "layer3+4", "encap2+3", "encap3+4", "vlan+srcmac")
LACP_RATES = ("slow", "fast")
VLAN_PROTOCOLS = ("802.1Q", "802.1ad")
# What a rule does; the first looks up a table.
ACTIONS = ("table", "blackhole", "unreachable", "prohibit")

BASES = frozenset(KINDS) - {"vrf"}
TAKES = {"bond": frozenset(("ethernet", "dummy", "veth")), "bridge": BASES - {"bridge"}, "vrf": BASES}

MAX_LINKS, MAX_LINK_ADDRESSES, MAX_ADDRESSES, MAX_ROUTES, MAX_RULES, MAX_DNS = 1024, 64, 8192, 8192, 2048, 16


class BondOptions(NamedTuple):
    primary: str | None = None
    lacp_rate: int = 0
    hash_policy: int = 0
    miimon: int = 0
    updelay: int = 0
    downdelay: int = 0


class BridgeOptions(NamedTuple):
    """Times in seconds."""
    stp: int = 0
    priority: int = 32768
    forward_delay: int = 15
    hello_time: int = 2
    max_age: int = 20
    ageing_time: int = 300


class PortOptions(NamedTuple):
    """Of a port of a bridge."""
    cost: int = 100
    priority: int = 32
    hairpin: int = 0


@dataclass
class Link:
    name: str
    kind: str
    mac: bytes
    mtu: int = 1500
    is_up: bool = False
    controller: str | None = None
    permanent_mac: bytes = b""          # of Ethernet
    mode: int = 0                       # of a bond
    base: str = ""                      # of a VLAN, with its id and protocol
    vlan_id: int = 0
    protocol: int = 0
    table: int = 0                      # of a VRF
    peer: str = ""                      # of a veth
    bond: BondOptions = BondOptions()
    bridge: BridgeOptions = BridgeOptions()
    port: PortOptions = PortOptions()
    addresses: set[Prefix] = field(default_factory=set)

    def reaches(self, gateway):
        """Whether a gateway is on-link here."""
        bits = len(gateway) * 8
        return is_link_local(gateway) or any(
            len(a.address) == len(gateway) and number_of(a.address) >> bits - a.length == number_of(gateway) >> bits - a.length
            for a in self.addresses)


class RouteKey(NamedTuple):
    destination: Prefix
    table: int
    metric: int


class Hop(NamedTuple):
    """Where a route leads, with the number of the protocol that Linux has it under."""
    gateway: bytes | None
    protocol: str


class Rule(NamedTuple):
    priority: int
    is_ipv6: bool
    source: Prefix | None
    destination: Prefix | None
    iif: str | None
    mark: int
    mask: int
    action: int
    table: int                          # 0 where the action looks up none


def default_mac(name):
    """The MAC address of a new link."""
    return (b"\x02" + name.encode()[:5]).ljust(6, b"\0")


class Network:
    """A network, with the VLANs over each link and the ports of each controller at hand."""

    def __init__(self):
        self.links = {}
        self.vlans = {}                 # names of VLANs, by base
        self.ports = {}                 # names of ports, by controller
        self.routes = {}                # {RouteKey: Hop}, by device
        self.rules = {}                 # sets of rules, by priority and family
        self.servers = []
        self.search = []

    def put(self, link):
        self.links[link.name] = link
        if link.base:
            self.vlans.setdefault(link.base, set()).add(link.name)
        if link.controller:
            self.ports.setdefault(link.controller, set()).add(link.name)

    def take(self, name):
        """Takes a link out, with its routes."""
        link = self.links.pop(name)
        self.routes.pop(name, None)
        if link.base:
            self.vlans[link.base].discard(name)
        if link.controller:
            self.ports[link.controller].discard(name)

    def lead(self, port, controller):
        """Gives a port a controller or none, and the port options of the beginning."""
        link = self.links[port]
        if link.controller:
            self.ports[link.controller].discard(port)
        link.controller, link.port = controller, PortOptions()
        self.put(link)

    def over(self, names):
        """The VLANs over links, in any depth, bases first."""
        found = list(names)
        for base in found:
            found += sorted(self.vlans.get(base, ()))
        return found[len(names):]

    def ports_of(self, name):
        return sorted(self.ports.get(name, ()))
