"""Reads an image of version 2 (docs/STORED.md) as a network; and writes one as the kernel area of a simulated state."""
import pathlib

from far_end.profile import KINDS, BondOptions, BridgeOptions, Hop, Link, Network, PortOptions, RouteKey, Rule
from far_end.text import Prefix


class Bytes:
    def __init__(self, data):
        self.data, self.at = data, 0

    def take(self, count):
        self.at += count
        assert self.at <= len(self.data)
        return self.data[self.at - count:self.at]

    def number(self, size):
        return int.from_bytes(self.take(size), "big")

    def name(self):
        return self.take(self.number(1)).decode() or None

    def address(self):
        return {0: lambda: None, 4: lambda: self.take(4), 6: lambda: self.take(16)}[self.number(1)]()

    def prefix(self):
        return Prefix(self.address(), self.number(1))

    def some_prefix(self):
        return self.prefix() if self.number(1) else None


def read_link(b):
    link = Link(b.name(), KINDS[b.number(1) - 1], b"")
    if link.kind == "ethernet":
        link.permanent_mac = b.take(6)
    elif link.kind == "bond":
        link.mode = b.number(1)
    elif link.kind == "vlan":
        link.base, link.vlan_id, link.protocol = b.name(), b.number(2), b.number(1)
    elif link.kind == "vrf":
        link.table = b.number(4)
    elif link.kind == "veth":
        link.peer = b.name()
    link.is_up, link.mtu, link.mac, link.controller = bool(b.number(1)), b.number(4), b.take(6), b.name()
    if link.kind == "bond":
        link.bond = BondOptions(b.name(), *map(b.number, (1, 1, 4, 4, 4)))
    elif link.kind == "bridge":
        link.bridge = BridgeOptions(*map(b.number, (1, 2, 1, 1, 1, 4)))
    link.port = PortOptions(*map(b.number, (2, 1, 1)))
    link.addresses = {b.prefix() for _ in range(b.number(1))}
    return link


def read_rule(b):
    priority, is_ipv6 = b.number(4), b.number(1) == 6
    source, destination, iif, mark, mask = b.some_prefix(), b.some_prefix(), b.name(), b.number(4), b.number(4)
    action = b.number(1)
    return Rule(priority, is_ipv6, source, destination, iif, mark, mask, action, 0 if action else b.number(4))


def read_image(data):
    b, network = Bytes(data), Network()
    assert b.take(4) == b"NMS2"
    for _ in range(b.number(2)):
        network.put(read_link(b))
    for _ in range(b.number(2)):
        key = RouteKey(b.prefix(), b.number(4), b.number(4))
        gateway = b.address()
        network.routes.setdefault(b.name(), {})[key] = Hop(gateway, "")
    for _ in range(b.number(2)):
        rule = read_rule(b)
        network.rules.setdefault((rule.priority, rule.is_ipv6), set()).add(rule)
    network.servers = [b.address() for _ in range(b.number(1))]
    network.search = [b.name() for _ in range(b.number(1))]
    assert b.at == len(data)
    return network


def store(folder, image):
    """A simulated state with this network: slot 0, and no journal."""
    folder = pathlib.Path(folder)
    folder.mkdir(exist_ok=True)
    (folder / "kernel").write_bytes(b"\0" + len(image).to_bytes(4, "big") + image)
    (folder / "cell").write_bytes(b"")
    return folder
