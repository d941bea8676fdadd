"""Random calls that the model accepts, clear of values that Linux takes from nobody (docs/LINUX.md lists them)."""
import copy
import ipaddress

from far_end.profile import (BOND_MODES, MODES_WITH_PRIMARY, BondOptions, BridgeOptions, Link, PortOptions, RouteKey, Rule, default_mac)
from far_end.text import Prefix, read_prefix
from . import model

MTUS = (1280, 1400, 1500, 2000, 9000)
NAMES = {"bond": ("b0", "b1"), "bridge": ("br0", "br1"), "vlan": ("v1", "v2", "v3", "v4"), "vrf": ("r0", "r1"), "dummy": ("d0", "d1"), "veth": ("p0", "p1")}
VRF_TABLES = {"r0": 300, "r1": 301}
TABLES = (254, 254, 100, 300, 301)
METRICS = (0, 100, 1024)


class Draw:
    """Draws calls on a network, which it changes as the model does."""

    def __init__(self, rng, network, kinds=tuple(NAMES)):
        self.rng, self.network, self.kinds = rng, network, sorted(kinds)

    def name(self, *kinds):
        names = [it.name for it in self.network.links.values() if not kinds or it.kind in kinds]
        return self.rng.choice(sorted(names)) if names else None

    def mac(self):
        return bytes((2, *(self.rng.randrange(256) for _ in range(5))))

    # Links

    def add_link(self):
        kind = self.rng.choice(self.kinds)
        link = Link(self.rng.choice(NAMES[kind]), kind, b"")
        link.mac = default_mac(link.name)
        if kind == "bond":
            link.mode = self.rng.randrange(len(BOND_MODES))
        elif kind == "vlan":
            link.base, link.vlan_id, link.protocol = self.name(), self.rng.randrange(1, 4), self.rng.randrange(2)
        elif kind == "vrf":
            link.table = VRF_TABLES[link.name]
        elif kind == "veth":
            link.peer = link.name.replace("p", "q")
        return model.add_link, link

    def del_link(self):
        return model.del_link, self.name(*NAMES)

    def up(self):
        return model.up, self.name()

    def down(self):
        return model.down, self.name()

    def set_mtu(self):
        return model.set_mtu, self.name(), self.rng.choice(MTUS)

    def set_mac(self):
        return model.set_mac, self.name(), self.mac()

    # Controllers

    def set_bond(self):
        name = self.name("bond")
        link = self.network.links[name]
        ports = self.network.ports_of(name)
        primary = self.rng.choice([None, *ports]) if link.mode in MODES_WITH_PRIMARY else None
        rate = self.rng.randrange(2) if BOND_MODES[link.mode] == "802.3ad" else 0
        miimon = self.rng.choice((0, 50, 100))
        delays = [miimon * self.rng.randrange(3) for _ in range(2)]
        return model.set_bond, name, BondOptions(primary, rate, self.rng.randrange(6), miimon, *delays)

    def set_bridge(self):
        r = self.rng
        return model.set_bridge, self.name("bridge"), BridgeOptions(
            r.randrange(2), r.choice((0, 4096, 32768, 65535)), r.randrange(2, 31), r.randrange(1, 11), r.randrange(6, 41), r.choice((0, 60, 300)))

    def attach(self):
        port, controller = self.name(), self.name("bond", "bridge", "vrf")
        link = self.network.links[port]
        other = self.network.links.get(link.peer)
        # Both ends of a veth in bridges are a loop, in which frames go round for ever.
        if other and other.controller:
            return None
        return model.attach, port, controller

    def detach(self):
        ports = sorted(it.name for it in self.network.links.values() if it.controller)
        return (model.detach, self.rng.choice(ports)) if ports else None

    def set_port(self):
        ports = sorted(it.name for it in self.network.links.values() if it.controller and self.network.links[it.controller].kind == "bridge")
        options = PortOptions(self.rng.choice((1, 100, 65535)), self.rng.randrange(64), self.rng.randrange(2))
        return (model.set_port, self.rng.choice(ports), options) if ports else None

    # Addresses and routes

    def add_address(self):
        net, host = self.rng.randrange(1, 4), self.rng.randrange(1, 5)
        text = self.rng.choice((f"192.168.{net}.{host}/24", f"192.168.{net}.{host}/24", f"172.16.{net}.{host}/32",
                                f"2001:db8:{net}::{host}/64", f"2001:db8:{net}::{host}/64"))
        return model.add_address, self.name(), read_prefix(text)

    def del_address(self):
        found = sorted((it.name, a) for it in self.network.links.values() for a in it.addresses)
        return (model.del_address, *self.rng.choice(found)) if found else None

    def gateway(self, link, is_ipv6):
        """One in a subnet of the link, and no address of anybody here; or none."""
        nets = sorted(a for a in link.addresses if (len(a.address) == 16) == is_ipv6 and a.length < len(a.address) * 8)
        if not nets or self.rng.random() < 0.3:
            return None
        it = self.rng.choice(nets)
        network = ipaddress.ip_network((it.address, it.length), strict=False)
        return (network.network_address + self.rng.randrange(50, 60)).packed

    def add_route(self):
        names = sorted(it.name for it in self.network.links.values() if it.is_up and it.kind != "vrf" and it.addresses)
        if not names:
            return None
        device, is_ipv6, net = self.rng.choice(names), self.rng.random() < 0.5, self.rng.randrange(1, 5)
        text = self.rng.choice((f"2001:db8:f{net}::/48", "::/0") if is_ipv6 else (f"10.{net}.0.0/16", f"10.{net}.{net}.0/24", "0.0.0.0/0"))
        key = RouteKey(read_prefix(text), self.rng.choice(TABLES), self.rng.choice(METRICS))
        return model.add_route, key, self.gateway(self.network.links[device], is_ipv6), device

    def del_route(self):
        found = [(key, hop.gateway, device) for device, those in sorted(self.network.routes.items()) for key, hop in sorted(those.items())]
        return (model.del_route, *self.rng.choice(found)) if found else None

    # Rules and DNS

    def add_rule(self):
        r, is_ipv6 = self.rng, self.rng.random() < 0.5
        ends = [read_prefix(f"2001:db8:{r.randrange(3)}::/48" if is_ipv6 else f"10.{r.randrange(3)}.0.0/16") if r.random() < 0.5 else None for _ in range(2)]
        mark, mask = r.choice(((0, 0), (0, 0), (5, 0xFFFFFFFF), (5, 0xFF), (0, 0xFF)))
        action = r.choice((0, 0, 0, 1, 2, 3))
        iif = r.choice((None, None, "eth1", "x9"))
        # A rule that lets no lookup through keeps Linux from finding gateways.
        if action and not any(ends) and not iif and not mark:
            return None
        return model.add_rule, Rule(r.randrange(100, 104), is_ipv6, *ends, iif, mark, mask, action, 0 if action else r.choice((100, 254)))

    def del_rule(self):
        found = sorted((it for those in self.network.rules.values() for it in those), key=repr)
        return (model.del_rule, self.rng.choice(found)) if found else None

    def set_dns(self):
        servers = self.rng.sample(("192.0.2.53", "192.0.2.54", "2001:db8::53"), self.rng.randrange(4))
        return model.set_dns, [read_prefix(it).address for it in servers], self.rng.sample(("example.com", "a.example"), self.rng.randrange(3))

    WEIGHTS = {add_link: 10, del_link: 3, up: 10, down: 3, set_mtu: 5, set_mac: 4, set_bond: 4, set_bridge: 2, attach: 8, detach: 4,
               set_port: 2, add_address: 12, del_address: 5, add_route: 10, del_route: 3, add_rule: 4, del_rule: 2, set_dns: 1}

    def call(self):
        """A call that the model accepts, made on the network."""
        while True:
            drawn = self.rng.choices(list(self.WEIGHTS), list(self.WEIGHTS.values()))[0]
            try:
                call = drawn(self)
            except KeyError:                    # there is no bond, or no bridge
                continue
            if call and None not in call[1:2] and model.accepts(self.network, copy.deepcopy(call)):
                return call
