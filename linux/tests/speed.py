"""Processor time of the far end, its ip's included, beside that of one plain `ip -batch` for the same lines.

usage: speed.py VLANS            makes a fifth as many VLANs with two addresses each, then that many; the far end is to take at most
                                 three times a plain one with a dump
       speed.py calls VLANS..    each call among so many VLANs, made and undone again and again: milliseconds a call, as a table"""
import pathlib
import resource
import subprocess
import sys
import tempfile
import time

sys.dont_write_bytecode = True
sys.path.insert(0, str(pathlib.Path(__file__).resolve().parent.parent))

from far_end import serving                                     # noqa: E402
from far_end.machine import Machine                             # noqa: E402
from tests import room                                          # noqa: E402


# How often a call is made for the table.
TIMES = 100


def used():
    """Seconds of this process and of those that ended."""
    each = [resource.getrusage(it) for it in (resource.RUSAGE_SELF, resource.RUSAGE_CHILDREN)]
    return sum(it.ru_utime + it.ru_stime for it in each)


def lines(count):
    """VLANs over one device, each with an address of both families, up."""
    yield "link set dev eth1 up"
    for at in range(count):
        yield f"link add link eth1 name v{at} type vlan protocol 802.1Q id {at + 1}"
        yield f"link set dev v{at} up"
        yield f"address add 10.{at // 250}.{at % 250}.1/24 dev v{at}"
        yield f"address add 2001:db8:{at:x}::1/64 dev v{at}"


def bridges(count):
    """The same over bridges, where the kernel has no VLANs."""
    for at in range(count):
        yield f"link add name v{at} type bridge"
        yield f"link set dev v{at} up"
        yield f"address add 10.{at // 250}.{at % 250}.1/24 dev v{at}"
        yield f"address add 2001:db8:{at:x}::1/64 dev v{at}"


def plain(wanted):
    before = used()
    subprocess.run(["ip", "-batch", "-"], input="\n".join(wanted) + "\n", text=True, check=True, capture_output=True)
    return used() - before


def end_batches(machine):
    """An `ip` that stays ends with its input, and counts when it has."""
    machine.ip.forget()
    time.sleep(0.5)
    subprocess.run(["true"], check=True)


def far(wanted):
    with tempfile.TemporaryDirectory() as folder:
        machine = Machine(f"{folder}/resolv.conf", wait=300)
        before = used()
        for line in wanted:
            assert serving.answer(machine, line) == b"+", line
        end_batches(machine)
        made = used() - before
        before = used()
        machine.dump()
        return made, used() - before


# A title, a call, and the one that undoes it; and how a plain ip is told them, where that isn't the same.
CALLS = (
    ("a new link; deleted", "link add name y0 type bridge", "link del dev y0"),
    ("up; down", "link set dev x0 up", "link set dev x0 down"),
    ("MTU", "link set dev x0 mtu 1400", "link set dev x0 mtu 1500"),
    ("MTU of the base of all", "link set dev eth1 mtu 9000", "link set dev eth1 mtu 8000"),
    ("MAC address", "link set dev x0 address 02:00:00:00:00:07", "link set dev x0 address 02:00:00:00:00:08"),
    ("to a controller; from it", "link set dev eth2 master x0", "link set dev eth2 nomaster"),
    ("options of a bridge", "#! set-bridge x0 stp=false priority=4096 forward-delay=4 hello-time=2 max-age=20 mac-ageing-time=300",
     "#! set-bridge x0 stp=false priority=8192 forward-delay=4 hello-time=2 max-age=20 mac-ageing-time=300",
     "link set dev x0 type bridge stp_state 0 priority 4096", "link set dev x0 type bridge stp_state 0 priority 8192"),
    ("IPv4 address; deleted", "address add 192.0.2.1/24 dev x1", "address del 192.0.2.1/24 dev x1"),
    ("IPv6 address; deleted", "address add 2001:db8:f::1/64 dev x1", "address del 2001:db8:f::1/64 dev x1"),
    ("IPv4 route; deleted", "route add 203.0.113.0/24 dev x1 table 254 metric 7", "route del 203.0.113.0/24 dev x1 table 254 metric 7"),
    ("IPv6 route; deleted", "route add 2001:db8:ff::/48 dev x1 table 254 metric 7", "route del 2001:db8:ff::/48 dev x1 table 254 metric 7"),
    ("rule; deleted", "#! add-rule 100 ipv4 from=- to=- iif=x0 mark=0 mask=0 target=100", "#! del-rule 100 ipv4 from=- to=- iif=x0 mark=0 mask=0 target=100",
     "rule add pref 100 iif x0 table 100", "rule del pref 100 iif x0 table 100"),
    ("DNS", "#! set-dns servers=192.0.2.53 search=", "#! set-dns servers= search="),
)


def alternating(pair, times):
    return [it for _ in range(times) for it in pair]


def each_call(count):
    """Milliseconds a call, by title: of the far end and of a plain ip."""
    told = {}
    room.ip([*lines_here(count), "link set dev eth1 mtu 8000", "link add name x0 type bridge", "link add name x1 type bridge", "link set dev x1 up"])
    with tempfile.TemporaryDirectory() as folder:
        machine = Machine(f"{folder}/resolv.conf", wait=300)
        for title, *words in CALLS:
            machine.dump()
            before = used()
            for line in alternating(words[:2], TIMES):
                assert serving.answer(machine, line) == b"+", line
            end_batches(machine)
            mine = used() - before
            told[title] = mine / TIMES * 500, None if words[0].startswith("#! set-dns") else plain(alternating(words[-2:], TIMES)) / TIMES * 500
        for title, line in (("down, of the base of all", "link set dev eth1 down"), ("up, of the base of all", "link set dev eth1 up")):
            machine.dump()
            before = used()
            assert serving.answer(machine, line) == b"+", line
            end_batches(machine)
            told[title] = (used() - before) * 1000, None
        before = used()
        for _ in range(5):
            machine.dump()
        told["a dump"] = (used() - before) * 200, None
    return told


def lines_here(count):
    has_vlans = not room.sh("ip link add link eth1 name x type vlan id 9 2>&1", check=False)
    room.sh("ip link del x", check=False)
    return list((lines if has_vlans else bridges)(count))


def one_size(count, results):
    results.write_text(repr(each_call(count)), encoding="utf-8")
    return 0


def calls(counts):
    with tempfile.TemporaryDirectory() as folder:
        told = []
        for count in counts:
            path = pathlib.Path(folder) / str(count)
            if room.apart(one_size, count, path):
                return 1
            told.append(eval(path.read_text(encoding="utf-8")))
    print("| a call among links | " + " | ".join(map(str, counts)) + " |\n|---" * 1 + "|---" * len(counts) + "|")
    for title in told[0]:
        print(f"| {title} | " + " | ".join(f"{it[title][0]:.2f}" + (f" ({it[title][1]:.2f})" if it[title][1] is not None else "") for it in told) + " |")
    return 0


def one(what, count, results):
    wanted = lines_here(count)
    results.write_text(repr((plain(wanted),) if what == "plain" else far(wanted)), encoding="utf-8")
    return 0


def main(words):
    if words[0] == "calls":
        return calls([int(it) for it in words[1:]])
    status = 0
    with tempfile.TemporaryDirectory() as folder:
        for count in (int(words[0]) // 5, int(words[0])):
            told = []
            for what in ("plain", "far"):
                path = pathlib.Path(folder) / what
                status |= room.apart(one, what, count, path)
                told += eval(path.read_text(encoding="utf-8"))
            of = told[1] / (told[0] + told[2])
            print(f"speed: {count} links with two addresses each, {4 * count} lines: plain {told[0]:.2f} s, far end {told[1]:.2f} s, one dump {told[2]:.2f} s; "
                  f"the far end takes {of:.1f} times a plain one with a dump", flush=True)
            status |= of > 3
    return status


if __name__ == "__main__":
    sys.exit(main(sys.argv[1:]))
