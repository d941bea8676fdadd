"""Machines with what the profile can't say: what of it is left out, said, and left as it is, while random calls are made beside it.

usage: states.py CALLS [WORD..]       (the states whose titles have one of the words)"""
import copy
import io
import pathlib
import contextlib
import random
import sys
import tempfile

sys.dont_write_bytecode = True
sys.path.insert(0, str(pathlib.Path(__file__).resolve().parent.parent))

from far_end import serving                                     # noqa: E402
from far_end.image import image_of                              # noqa: E402
from far_end.machine import Machine                             # noqa: E402
from tests import model, room                                   # noqa: E402
from tests.calls import difference                              # noqa: E402
from tests.draw import NAMES, Draw                                  # noqa: E402
from tests.images import read_image                             # noqa: E402

UP = "ip link set eth1 up; ip link set eth2 up; ip address add 192.168.1.2/24 dev eth1; ip address add 2001:db8:1::2/64 dev eth1; "

# Title, what other hands did, and of what is left out the beginnings of the lines; a kernel that lacks something skips the state.
STATES = {
    "links of other types": (
        UP + "ip link add m0 link eth1 type macvlan; ip link add t0 type ifb; ip tuntap add name u0 mode tun; ip link add g0 type gretap local 192.168.1.2 remote 192.168.1.9; "
        "ip link add v9 link t0 type vlan id 9", ["m0, type macvlan", "t0, type ifb", "u0, type", "g0, type gretap", "v9, its base t0"], ""),
    "a link in a controller that isn't told": (
        "ip link add t0 type bridge vlan_filtering 1; ip link set eth4 master t0", ["t0, VLAN filtering", "eth4, its controller t0"], ""),
    "a tap in a bridge that is told": (
        "ip link add br0 type bridge; ip tuntap add name t0 mode tap; ip link set t0 master br0; ip link set eth1 master br0", ["t0, type"], ""),
    "addresses that the profile lacks": (
        UP + "ip link add br0 type bridge; ip link set eth3 master br0; ip address add 10.9.9.9/24 dev eth3; ip address add 10.8.8.8 peer 10.8.8.9 dev eth1; "
        "ip address add 2001:db8:2::7/64 dev eth1 valid_lft 3000 preferred_lft 2000; ip address add 10.7.7.7/24 dev eth2 valid_lft 3000 preferred_lft 2000; "
        "ip address add 2001:db8:3::8/128 peer 2001:db8:3::9/128 dev eth2",
        ["eth3 10.9.9.9/24", "eth1 10.8.8.8/32", "eth1 2001:db8:2::7/64", "eth2 10.7.7.7/24", "eth2 2001:db8:3::8/128"], ""),
    "a gateway that is on-link by a flag or a route alone": (
        UP + "ip address add 10.6.0.2/32 dev eth2; ip route add 10.6.0.1 dev eth2; ip route add 10.5.0.0/16 via 10.6.0.1 dev eth2; "
        "ip route add 10.4.9.0/24 via 10.6.0.7 dev eth2 onlink", ["route 10.5.0.0/16 dev eth2", "route 10.4.9.0/24 dev eth2"], ""),
    "routes of other managers": (
        UP + "ip route add 10.9.0.0/16 via 192.168.1.9 dev eth1 proto dhcp; ip route add 2001:db8:99::/48 via 2001:db8:1::9 dev eth1 proto ra; "
        "ip route add 10.8.0.0/16 dev eth1 src 192.168.1.2", ["route 10.9.0.0/16 dev eth1", "route 2001:db8:99::/48 dev eth1", "route 10.8.0.0/16 dev eth1"], ""),
    "routes with what the profile lacks": (
        UP + "ip address add 192.168.2.2/24 dev eth2; ip route add 10.9.0.0/16 nexthop via 192.168.1.9 dev eth1 nexthop via 192.168.2.9 dev eth2; "
        "ip route add 10.8.0.0/16 via 192.168.1.9 dev eth1 mtu 1300; ip route add 10.7.0.0/16 tos 0x10 via 192.168.1.9 dev eth1; "
        "ip route add 10.6.0.0/16 via inet6 fe80::9 dev eth1; ip nexthop add id 7 via 192.168.1.9 dev eth1; ip route add 10.5.0.0/16 nhid 7",
        ["route 10.9.0.0/16", "route 10.8.0.0/16", "route 10.7.0.0/16", "route 10.6.0.0/16", "route 10.5.0.0/16"], ""),
    "routes to nowhere": (UP + "ip route add blackhole 10.9.0.0/16; ip route add unreachable 2001:db8:9::/48; ip route add prohibit 10.8.0.0/16 table 100", [], ""),
    "bridges with what the profile lacks": (
        "ip link add f0 type bridge vlan_filtering 1; ip link add f1 type bridge forward_delay 250; ip link add f2 type bridge ageing_time 12345; ip link set eth3 master f1",
        ["f0, VLAN filtering", "f1, its STP or times", "f2, its STP or times", "eth3, its controller f1"], ""),
    "VLANs with what the profile lacks": (
        UP + "ip link add w0 link eth1 type vlan id 11 loose_binding on; ip link add w1 link eth1 type vlan id 12 gvrp on; "
        "ip link add w2 link eth1 type vlan id 13 egress-qos-map 1:2; ip link add w3 link eth1 type vlan id 0; ip link set w0 up",
        ["w0, its base, id, flags or maps", "w1, its base", "w2, its base", "w3, its base"], ""),
    "a bond with an ARP monitor": (
        "ip link add o0 type bond mode active-backup arp_interval 100 arp_ip_target 192.168.1.9; ip link set eth4 master o0", ["o0, its monitor", "eth4, its controller o0"], ""),
    "a VRF, and veths with an end elsewhere": (
        UP + "ip link add r0 type vrf table 300; ip link set r0 up; ip link set eth2 master r0; ip link add k0 type veth peer name k1; ip link set k1 master r0; "
        "ip link add n0 type veth peer name n1 netns $FAR; ip link add y0 type veth peer name y1; ip link add f0 type bridge vlan_filtering 1; ip link set y1 master f0",
        ["f0, VLAN filtering", "y1, its controller f0", "y0, its peer"], ""),
    "rules with what the profile lacks": (
        UP + "ip rule add pref 100 oif eth1 table 100; ip rule add pref 101 not from 10.0.0.0/8 table 100; ip rule add pref 102 ipproto tcp dport 22 table 100; "
        "ip rule add pref 103 tos 0x10 table 100; ip rule add pref 104 uidrange 0-9 table 100; ip rule add pref 105 table main suppress_prefixlength 0; "
        "ip rule add pref 106 goto 32766; ip -6 rule add pref 100 oif eth1 table 100",
        [f"rule {at}" for at in range(100, 107)], ""),
    "names that a batch doesn't carry": (
        "ip link add 'a#b' type dummy; ip link add 'a\"b' type bridge; ip link add name up type dummy; ip link add name dev type dummy; ip link add \"it's\" type dummy; "
        "ip link add 'c\\d' type dummy; ip link add 'e%f' type dummy; ip link add \"$(printf 'z\\377')\" type bridge", ["e%f, its name", "z"], ""),
    "resolv.conf with more": ("", [], "# by hand\nnameserver fe80::1%eth1\noptions ndots:3\nnameserver 192.0.2.53\nsearch example.com\n"),
}
LEFT_DNS = ("# by hand", "nameserver fe80::1%eth1", "options ndots:3")
VOLATILE = {"operstate", "stats64", "stats", "valid_life_time", "preferred_life_time", "tentative", "flags", "expires", "qdisc", "mtu_change"}
REASONS = {2, 3, 8, 10, 22}


def still(value):
    """What ip prints, without what changes by itself."""
    if isinstance(value, dict):
        return {key: still(it) for key, it in value.items() if key not in VOLATILE and not key.endswith("_timer")}
    return [still(it) for it in value] if isinstance(value, list) else value


class Look:
    """What isn't told, as a fresh far end and ip see it."""

    def __init__(self, folder):
        errors = io.StringIO()
        with contextlib.redirect_stderr(errors):
            self.machine = Machine(f"{folder}/resolv.conf", room.WAIT)
            self.image = self.machine.dump()
        self.left_out = {it.removeprefix("left out: ") for it in errors.getvalue().splitlines()}
        links = self.machine.ip.show("-details", "link", "show")
        self.links = {it["ifname"]: still(it) for it in links if it["ifname"] not in self.machine.network.links}
        self.flags = {it["ifname"]: "UP" in it["flags"] for it in links if it["ifname"] in self.links}
        self.nowhere = [still(it) for family in ("-4", "-6") for it in self.machine.ip.show(family, "-N", "route", "show", "table", "all") if it.get("type", "1") in ("6", "7", "8")
                        and it.get("dev") != "lo"]
        self.dns = [it for it in open(f"{folder}/resolv.conf", encoding="utf-8").read().splitlines() if it in LEFT_DNS] if pathlib.Path(f"{folder}/resolv.conf").exists() else []

    def differs(self, other):
        return [f"    {key}: {getattr(self, key)}\n      then {getattr(other, key)}" for key in ("left_out", "links", "flags", "nowhere", "dns") if getattr(self, key) != getattr(other, key)]


class Beside(Draw):
    """Calls that don't themselves take away what isn't told: no link of the beginning is closed or deleted."""

    def __init__(self, rng, network, kinds):
        super().__init__(rng, network, kinds)
        self.first = set(network.links)

    def call(self):
        while True:
            before = copy.deepcopy(self.network)
            call = super().call()
            closes = call[0] in (model.down, model.del_link) and call[1] in self.first
            is_last = call[0] is model.del_address and call[1] in self.first
            if not closes and not is_last:
                return call
            self.network.__dict__.update(before.__dict__)


def state(title, count, results):
    setup, wanted, resolv = STATES[title]
    holder_pid = int(results["far"])
    with tempfile.TemporaryDirectory() as folder:
        if resolv:
            pathlib.Path(f"{folder}/resolv.conf").write_text(resolv, encoding="utf-8")
        lacking = []
        for line in filter(None, (it.strip() for it in setup.replace("$FAR", str(holder_pid)).split(";"))):
            if room.sh(f"{line} 2>&1 || echo lacking", check=False).strip().endswith("lacking"):
                lacking.append(line)
        look = Look(folder)
        bad = [f"    not left out: {it}" for it in wanted if not any(line.startswith(it) for line in look.left_out) and not lacking]
        (pathlib.Path(results["images"]) / f"state-{list(STATES).index(title)}.image").write_bytes(look.image)
        rng = random.Random(title)
        machine = Machine(f"{folder}/resolv.conf", room.WAIT)
        network = read_image(look.image)
        kinds = [it for it in NAMES if room.has(it)]
        refused, made = [], 0
        errors = io.StringIO()
        for _ in range(count):
            before = copy.deepcopy(network)
            line = model.spell(Beside(rng, network, kinds).call())
            with contextlib.redirect_stderr(errors):
                answer = serving.answer(machine, line)
                image = machine.dump()
            made += 1
            if answer != b"+":
                refused.append(f"{line}: {answer!r} {errors.getvalue().splitlines()[-1:]}")
                network = before
                bad += [] if answer[1] in REASONS else [f"    refused: {refused[-1]}"]
            found = difference(image, image_of(network))
            if found:
                bad += [f"    after {line} ({answer!r})", *found]
                break
        bad += look.differs(Look(folder))
        print(f"{'FAILED' if bad else 'ok    '} {title}: {made} calls, {len(refused)} refused for what isn't told" + (f"; this kernel lacks: {lacking}" if lacking else ""),
              *(f"       {it}" for it in refused), *bad, sep="\n", flush=True)
        return 1 if bad else 0


def apart(title, count, images):
    """With the process of the far namespace at hand."""
    def work():
        return state(title, count, {"far": room.HOLDER.pid, "images": images})
    return room.apart(work)


def main(words):
    count, named = int(words[0]), words[1:]
    titles = [it for it in STATES if not named or any(word in it for word in named)]
    images = tempfile.mkdtemp(prefix="states-")
    failed = sum(bool(apart(it, count, images)) for it in titles)
    print(f"states: {len(titles) - failed} of {len(titles)}")
    return 1 if failed else 0


if __name__ == "__main__":
    sys.exit(main(sys.argv[1:]))
