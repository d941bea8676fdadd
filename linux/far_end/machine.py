"""What is known of the machine: its network, and what it has beside that. A dump reads all anew; a call changes what is known as the
model does, and reads nothing."""
import sys
from dataclasses import dataclass, field
from typing import NamedTuple

from .dns import read_dns
from .errors import Fault, Refused
from .image import image_of
from .ip import Commands
from .links import drop_addresses, read_addresses, read_links
from .profile import Network
from .routes import read_routes, read_rules
from .text import write_mac

# What ip says of an addition or deletion whose end is there already.
SO_ALREADY = ("File exists", "No such process")


class Stranger(NamedTuple):
    """A link that isn't told, over or in one that is."""
    name: str
    is_vlan_over: bool
    is_up: bool
    mtu: int                            # 0 where it doesn't stand over it


@dataclass
class Untold:
    """What the machine has that the profile can't say, and that is left as it is."""
    strangers: dict = field(default_factory=dict)       # lists of Stranger, by the link that they stand on or in
    lines: dict = field(default_factory=dict)           # lines that put addresses and routes back, by link
    hidden: dict = field(default_factory=dict)          # addresses that a port, or a link that is down, can't have, by link
    fixed: set = field(default_factory=set)             # devices with routes that no line could put back
    rules: set = field(default_factory=set)             # priority, family and target of rules
    dns: list = field(default_factory=list)             # lines of resolv.conf


class Machine:
    """The network namespace of this process, and a resolv.conf."""

    def __init__(self, resolv="/etc/resolv.conf", wait=30, verbose=False):
        self.resolv = resolv
        self.ip = Commands(wait, verbose)
        self.network, self.untold = Network(), Untold()
        self.is_known = False
        # Whether the call that is being made changed something already.
        self.has_changed = False
        # Links whose MAC address was stated, and bridges whose MTU was: Linux changes them by itself before, and not after.
        self.stated, self.pinned = set(), set()
        self.said = set()

    # Reading

    def say_left_out(self, what, why):
        """Says each thing once."""
        if (what, why) not in self.said:
            self.said.add((what, why))
            print(f"left out: {what}, {why}", file=sys.stderr, flush=True)

    def read(self):
        self.ip.forget()
        raws = {it["ifname"]: it for it in self.ip.show("-details", "address", "show") if "LOOPBACK" not in it["flags"]}
        network, untold = Network(), Untold()
        for link in read_links(raws, self.say_left_out).values():
            network.put(link)
        for name, link in network.links.items():
            untold.lines[name] = read_addresses(link, raws[name].get("addr_info", []), self.say_left_out)
            untold.hidden[name] = drop_addresses(link, network.links, self.say_left_out)
        untold.strangers = strangers_of(raws, network.links)
        for family, ipv6 in (("-4", False), ("-6", True)):
            # By number (-N): names of tables and protocols are the machine's own.
            routes = self.ip.show(family, "-N", "-details", "route", "show", "table", "all")
            read_routes(routes, ipv6, network, untold, self.say_left_out)
            read_rules(self.ip.show(family, "-N", "rule", "show"), ipv6, network, untold, self.say_left_out)
        read_dns(self.resolv, network, untold)
        self.network, self.untold = network, untold
        self.stated, self.pinned = set(), set()
        self.is_known = True

    def dump(self):
        """The image of the network, read anew."""
        self.is_known = False
        self.read()
        return image_of(self.network)

    # Running

    def run(self, lines, number, ipv6=False):
        """Runs the lines of a call. Where one fails the call is refused with this number. Those after it are run all the same, so what
        makes no sense without it belongs in a run of its own."""
        failed = self.ip.run(lines, ipv6)
        self.has_changed |= len(failed) < len(lines)
        for line, words in failed:
            raise Refused(number, f"ip {' '.join(line)}: {words}")

    def mend(self, lines, untold=()):
        """Puts back what went by a call, without asking what did: what is so already is well. Of what isn't told a failure is said."""
        own = set(map(id, lines))
        failed = [it for it in self.ip.run([*lines, *untold]) if not any(words in it[1] for words in SO_ALREADY)]
        for line, words in failed:
            print(f"not put back: ip {' '.join(line)}: {words}", file=sys.stderr, flush=True)
        if any(id(line) in own for line, _ in failed):
            raise Fault("what went with a call couldn't be put back")

    # Lines that state what is known of links

    def mtu_lines(self, names):
        """The MTUs of links and of the VLANs over them."""
        return [set_link(it, "mtu", str(self.network.links[it].mtu)) for it in [*names, *self.network.over(names)]]

    def mac_lines(self, names):
        """The MAC addresses of links, of those that weren't stated yet."""
        new = [it for it in names if it not in self.stated]
        self.stated.update(new)
        return [set_link(it, "address", write_mac(self.network.links[it].mac)) for it in new]

    def follower_lines(self, controller):
        """What of a bridge, or of a bond that has another MAC address, follows its ports: of those it comes from."""
        link = self.network.links[controller]
        sizes = self.mtu_lines([controller]) if link.kind == "bridge" and controller not in self.pinned else []
        return sizes + self.mac_lines([controller, *self.network.over([controller])])

    # Refusing for the sake of what isn't told

    def spare_in_closing(self, names):
        """Refuses a call that closes links, where they or VLANs over them have something that isn't told and couldn't be put back."""
        for name in [*names, *self.network.over(names)]:
            for it in self.untold.strangers.get(name, ()):
                if it.is_vlan_over:
                    raise Refused(10, f"{name} has {it.name} on it, which isn't told")
            if name in self.untold.fixed:
                raise Refused(10, f"{name} has a route that isn't told and couldn't be put back")

    def spare_hidden(self, names):
        """Refuses a call after which addresses would be told that aren't: of ports that leave a controller, and of links that go up."""
        for name in names:
            for it in self.untold.hidden.get(name, ()):
                raise Refused(10, f"{name} has {it}, which isn't told while it is a port, or down")

    def spare_in_deleting(self, names):
        """Refuses a call that deletes links, where something that isn't told stands on or in them."""
        for name in [*names, *self.network.over(names)]:
            for it in self.untold.strangers.get(name, ()):
                raise Refused(10, f"{name} has {it.name} on it, which isn't told")


def set_link(name, *words):
    """A line that sets a link. Its name stands after `dev`, since it may be a word of ip's."""
    return ["link", "set", "dev", name, *words]


def strangers_of(raws, links):
    """The links that aren't told, by the links that are told and on or in which they stand."""
    found = {}
    for name, raw in raws.items():
        if name in links:
            continue
        base, controller = raw.get("link"), raw.get("master")
        is_vlan = raw.get("linkinfo", {}).get("info_kind") == "vlan"
        for at in {base, controller} & set(links):
            stranger = Stranger(name, is_vlan and at != controller, "UP" in raw["flags"], raw["mtu"] if at == base else 0)
            found.setdefault(at, []).append(stranger)
    return found
