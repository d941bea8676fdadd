"""The proved program itself over a Linux: README's session, changes that are killed at each request and rolled back, refusals, deadlines, a
service, and what is said of a folder that can't be worked with.

usage: sessions.py PROGRAM [WORD..]       (the cases whose titles have one of the words)"""
import fcntl
import itertools
import json
import os
import pathlib
import pty
import re
import shlex
import subprocess
import sys
import tempfile
import time

sys.dont_write_bytecode = True
sys.path.insert(0, str(pathlib.Path(__file__).resolve().parent.parent))

from tests import room                                          # noqa: E402

HERE = pathlib.Path(__file__).resolve().parent
LAUNCHER, UNITS = HERE.parent / "nmstatectl-linux", HERE.parent / "units"
TOP = HERE.parents[1]
README, PAGE, TASKS = TOP / "README.md", TOP / "docs" / "LINUX.md", TOP / "examples" / "tasks"
BUILT = TOP / "crates" / "nmstatectl_peer" / "out" / "nmstatectl_peer"
MTU = {"interfaces": [{"name": "eth1", "type": "ethernet", "mtu": 9000}]}
# What any kernel has that these tests run on, with several calls of each kind.
BRIDGE = {"interfaces": [
    {"name": "br7", "type": "linux-bridge", "state": "up", "ipv4": {"enabled": True, "address": [{"ip": "192.0.2.1", "prefix-length": 24}]},
     "ipv6": {"enabled": True, "address": [{"ip": "2001:db8:7::1", "prefix-length": 64}]}, "bridge": {"port": [{"name": "eth1"}, {"name": "eth2"}]}},
    {"name": "eth1", "type": "ethernet", "mtu": 1400}, {"name": "eth4", "type": "ethernet", "state": "down"}],
    "routes": {"config": [{"destination": "198.51.100.0/24", "next-hop-interface": "br7", "next-hop-address": "192.0.2.9"}]}}
HOST_FAULTS = (4, 5, 10)
SKIPPED = 77
BOOT, RECOVER = "nmstatectl-linux.service", "nmstatectl-linux-recover.service"
# What there is before: a machine that is in use.
BEFORE = """
link set eth3 up
link set eth4 up
address add 192.168.3.1/24 dev eth3
address add 2001:db8:3::1/64 dev eth3
address add 192.168.4.1/24 dev eth4
address add 2001:db8:4::1/64 dev eth4
route add 10.4.0.0/16 via 192.168.4.9 dev eth4 proto static
route add 2001:db8:44::/48 via 2001:db8:4::9 dev eth4 metric 77 proto static
rule add pref 100 from 10.0.0.0/8 table 100
"""


# What isn't compared: counters, and what Linux keeps of a link that was up once.
COUNTERS = {"stats64", "stats", "qdisc"}


def still(value):
    """What ip prints, without counters."""
    if isinstance(value, dict):
        return {key: still(it) for key, it in value.items() if key not in COUNTERS and not key.endswith("_timer")}
    return [still(it) for it in value] if isinstance(value, list) else value


def settle():
    """Waits for IPv6 addresses that Linux still looks for on the wire: their routes come after that. Those of links without a carrier wait for ever."""
    for _ in range(50):
        links = json.loads(room.sh("ip -json address show") or "[]")
        if not any(it.get("tentative") for link in links if link.get("operstate") in ("UP", "UNKNOWN") for it in link.get("addr_info", [])):
            return
        time.sleep(0.2)


def shown():
    """All that ip shows, without counters and what changes by itself."""
    settle()
    parts = {}
    for words in ("-details address show", "-4 route show table all", "-6 route show table all", "-4 rule show", "-6 rule show"):
        parts[words] = json.loads(room.sh(f"ip -json {words}") or "[]")
    up = {it["ifname"]: "UP" in it.get("flags", []) for it in parts["-details address show"] if it}
    text = {words: sorted(json.dumps(still(it), sort_keys=True) for it in those if it) for words, those in parts.items()}
    return {"up": up, **text}


def differs(before, now):
    found = []
    for key in before:
        if before[key] != now[key]:
            one, other = (before[key], now[key]) if isinstance(before[key], dict) else (set(before[key]), set(now[key]))
            found += [f"{key}: {one} {other}"] if isinstance(one, dict) else [f"{key}: gone {one - other}, new {other - one}"]
    return found


class Session:
    """Commands on a machine, and where they differ from what must be."""

    def __init__(self, program, folder):
        self.program, self.folder, self.bad = program, folder, []
        self.state = f"{folder}/state"
        os.mkdir(self.state)

    def file(self, name, document):
        path = f"{self.folder}/{name}"
        pathlib.Path(path).write_text(json.dumps(document), encoding="utf-8")
        return path

    def command(self, program=None):
        return [str(LAUNCHER), "--resolv", f"{self.folder}/resolv.conf", "--program", str(program or self.program)]

    def run(self, *words, program=None, path=None, **env):
        env = dict(os.environ, PROGRAM=self.program, **env)
        if path:
            env["PATH"] = f"{path}:{env['PATH']}"
        words = [*self.command(program), "--state", self.state, *words]
        return subprocess.run(words, capture_output=True, text=True, env=env, check=False, timeout=300, start_new_session=True)

    def start(self, unit):
        """What a unit of linux/units runs, with folders of the session's own, as one that systemd starts: each line as far as all are done."""
        places = {"/usr/bin/nmstatectl-linux": shlex.join(self.command()), "/var/lib/nmstatectl-linux": self.state,
                  "/etc/nmstatectl.d": f"{self.folder}/documents", "/run/nmstatectl-linux": f"{self.folder}/booted"}
        said = ""
        for line in re.findall(r"(?m)^ExecStart(?:Pre)?=(.*)", (UNITS / unit).read_text(encoding="utf-8")):
            for place, own in places.items():
                line = re.sub(rf"(?<!\S){place}(?![\w-])", own, line) if place.startswith("/usr") else line.replace(place, own)
            ran = subprocess.run(shlex.split(line.replace("$$", "$").replace("%%", "%")), capture_output=True, text=True, check=False, timeout=300)
            said += ran.stdout + ran.stderr
            if ran.returncode:
                return f"{said}[{ran.returncode}]"
        return said

    def wants(self, ran, status, out=None, error=None):
        if ran.returncode != status or out is not None and ran.stdout != out or error is not None and error not in ran.stderr:
            self.bad.append(f"{ran.args[6:]}: status {ran.returncode}, {ran.stdout!r} {ran.stderr!r}; and not {status} {out!r} {error!r}")

    def says(self, said, wanted):
        self.bad += [] if said == wanted else [f"{said!r}, and not {wanted!r}"]

    def same(self, before, what):
        self.bad += [f"{what}: {it}" for it in differs(before, shown())]


def one_mtu(s):
    before = shown()
    s.wants(s.run("apply", s.file("mtu.json", MTU)), 0, "applied\n")
    now = shown()
    text = next(it for it in now["-details address show"] if '"ifname": "eth1"' in it)
    old = next(it for it in before["-details address show"] if '"ifname": "eth1"' in it)
    s.bad += [] if text == old.replace('"mtu": 1500', '"mtu": 9000') else [f"{old} {text}"]
    before["-details address show"] = now["-details address show"] = [it for it in now["-details address show"] if it != text]
    s.bad += differs(before, now)
    s.wants(s.run("recover"), 0, "nothing to recover\n")


def shown_again(s):
    """What is shown can be applied, and changes nothing."""
    before = shown()
    path = f"{s.folder}/shown.yml"
    pathlib.Path(path).write_text(s.run("show").stdout, encoding="utf-8")
    s.wants(s.run("plan", path), 0, "")
    s.wants(s.run("apply", path), 0, "applied\n")
    s.same(before, "show | apply")
    s.wants(s.run("check"), 0, "kernel 4 links, checkpoint none\n")
    s.wants(s.run("init", str(TASKS / "hardware.yml")), 3, "", "error: state exists")


def taken_back(s, document=None):
    before = shown()
    ran = s.run("apply", "--no-commit", "--timeout", "600", document or s.file("bridge.json", BRIDGE))
    s.wants(ran, 0)
    s.bad += [] if ran.stdout.startswith("applied, waiting until ") else [ran.stdout]
    addresses = room.sh("ip -br address")
    s.bad += [] if document or "br7" in addresses and "192.0.2.1/24" in addresses else [addresses]
    s.bad += [] if not document or "bond0.5@bond0" in addresses and "198.51.100.2/24" in addresses else [addresses]
    s.wants(s.run("rollback"), 0, "rolled back\n")
    s.same(before, "rollback")


def bond_taken_back(s):
    taken_back(s, str(TASKS / "bond-vlan.yml"))


def due(s):
    before = shown()
    path = s.file("bridge.json", BRIDGE)
    s.wants(s.run("apply", "--no-commit", "--timeout", "1", path), 0)
    time.sleep(2.1)
    s.wants(s.run("commit"), 3, "", "error: expired change")
    s.says(s.start(RECOVER), "restored\n")
    s.same(before, "the timer's recover")
    s.wants(s.run("apply", "--no-commit", "--timeout", "600", path), 0)
    s.bad += [] if s.start(RECOVER).startswith("waiting until ") else ["recover didn't wait"]
    s.wants(s.run("commit"), 0, "committed\n")
    s.says(s.start(RECOVER), "nothing to recover\n")


def requests_of(s, document):
    """How many requests an apply makes, by killing it later and later."""
    before = shown()
    for at in range(1, 100):
        ran = s.run("apply", document, program=str(HERE / "killing.py"), KILL_AT=str(at))
        if ran.returncode == 0:
            return at
        s.bad += [] if ran.returncode == 137 else [f"killed at {at}: status {ran.returncode} {ran.stderr}"]
        back = s.run("recover")
        s.bad += [] if back.stdout in ("restored\n", "nothing to recover\n") else [f"killed at {at}: {back.stdout} {back.stderr}"]
        s.same(before, f"killed at request {at}, recover")
        if s.bad:
            return at
    return 100


def killed(s):
    print(f"       {requests_of(s, s.file('bridge.json', BRIDGE)) - 1} requests", flush=True)


def bond_killed(s):
    print(f"       {requests_of(s, str(TASKS / 'bond-vlan.yml')) - 1} requests", flush=True)


def far_end_killed(s, document=None):
    """After each run of lines, between the runs of a call too."""
    before, path = shown(), document or s.file("bridge.json", BRIDGE)
    tools = f"{s.folder}/tools"
    os.mkdir(tools)
    os.symlink(HERE / "cutting_ip", f"{tools}/ip")
    for at in range(1, 100):
        count = f"{s.folder}/count"
        pathlib.Path(count).write_text("", encoding="ascii")
        ran = s.run("apply", path, path=tools, CUT_AT=str(at), CUT_COUNT=count)
        time.sleep(0.5)
        if ran.returncode == 0:
            break
        s.bad += [] if ran.returncode == -9 else [f"cut at {at}: status {ran.returncode} {ran.stderr}"]
        back = s.run("recover")
        s.bad += [] if back.stdout in ("restored\n", "nothing to recover\n") else [f"cut at {at}: {back.stdout} {back.stderr}"]
        s.same(before, f"the far end killed after run {at}, recover")
        if s.bad:
            return
    print(f"       {at - 1} runs", flush=True)


def hung_up(s):
    """A terminal that hangs up in the middle stops nothing."""
    ran = s.run("apply", s.file("bridge.json", BRIDGE), program=str(HERE / "killing.py"), KILL_AT="5", KILL_BY="hang-up")
    s.wants(ran, 0, "applied\n")
    s.bad += [] if "192.0.2.1/24" in room.sh("ip -br address show dev br7") else ["no br7"]


def cut(s):
    """Where the pipes are cut in the middle the program says a fault, and the far end ends with its status."""
    before, path = shown(), s.file("bridge.json", BRIDGE)
    for at in (1, 2, 5, 9):
        ran = s.run("apply", path, program=str(HERE / "killing.py"), KILL_AT=str(at), KILL_BY="cut")
        s.bad += [] if ran.returncode in HOST_FAULTS and "host fault" in ran.stderr else [f"cut at {at}: {ran.returncode} {ran.stdout} {ran.stderr}"]
        s.bad += [] if s.run("recover").stdout in ("restored\n", "nothing to recover\n") else [f"cut at {at}: no recover"]
        s.same(before, f"cut at request {at}, recover")


def bond_far_end_killed(s):
    far_end_killed(s, str(TASKS / "bond-vlan.yml"))


def refused(s):
    before = shown()
    document = {"interfaces": [{"name": "eth1", "type": "ethernet", "mtu": 1400}, {"name": "all", "type": "linux-bridge", "state": "up"}]}
    ran = s.run("apply", s.file("all.json", document))
    s.wants(ran, 4, "", "rolled back")
    s.bad += [] if "refused: ip link add name all" in ran.stderr else [ran.stderr]
    s.same(before, "refused")


def not_verified(s):
    """IPv6 goes from a link whose MTU is below 1280."""
    before = shown()
    ran = s.run("apply", s.file("small.json", {"interfaces": [{"name": "eth4", "type": "ethernet", "mtu": 1000}]}))
    s.bad += [] if ran.returncode in (4, 9) and "rolled back" in ran.stderr else [f"{ran.returncode} {ran.stdout} {ran.stderr}"]
    s.same(before, "not verified")


def service(s):
    """As the unit does it at boot: twice in one, and then after another boot, where a change was left half way by the first."""
    folder = pathlib.Path(s.folder) / "documents"
    folder.mkdir()
    (folder / "10-mtu.yml").write_text(json.dumps(MTU), encoding="utf-8")
    (folder / "20-bridge.yml").write_text(json.dumps(BRIDGE), encoding="utf-8")
    s.says(s.start(BOOT), "nothing to recover\napplied 10-mtu.yml\napplied 20-bridge.yml\n")
    s.bad += [] if sorted(it.name for it in folder.iterdir()) == ["10-mtu.applied", "20-bridge.applied"] else [str(list(folder.iterdir()))]
    s.says(s.start(BOOT), "nothing to recover\n")
    room.ip(["link del dev br7", "link set eth1 mtu 1500"])
    s.run("apply", s.file("mtu.json", MTU), program=str(HERE / "killing.py"), KILL_AT="2")
    s.bad += [] if os.path.getsize(f"{s.state}/cell") else ["no checkpoint is left"]
    os.unlink(f"{s.folder}/booted")
    s.says(s.start(BOOT), "nothing to recover\napplied 10-mtu.yml\napplied 20-bridge.yml\n")
    s.bad += [] if "192.0.2.1/24" in room.sh("ip -br address show dev br7") else ["no br7 after the second boot"]


def folders(s):
    path = s.file("mtu.json", MTU)
    os.rename(s.state, s.state + ".away")
    s.wants(s.run("apply", path), 5, "", "the folder of the state isn't there")
    os.rename(s.state + ".away", s.state)
    lock = os.open(s.state, os.O_RDONLY)
    fcntl.flock(lock, fcntl.LOCK_EX)
    s.wants(s.run("apply", path), 5, "", f"is in use by process {os.getpid()}")
    os.close(lock)
    s.wants(s.run("apply", path), 0, "applied\n")


def terminal(s):
    """On a terminal an error line is followed by what it means and what to write instead; elsewhere it isn't."""
    path = s.file("eth9.json", {"interfaces": [{"name": "eth9", "mtu": 9000}]})
    s.bad += [] if s.run("apply", path).stderr == "error: merge rule 2 NoType at eth9\n" else ["more than the line without a terminal"]
    ours, theirs = pty.openpty()
    ran = subprocess.run([*s.command(), "--state", s.state, "apply", path], stdout=subprocess.DEVNULL, stderr=theirs, check=False, timeout=300)
    os.close(theirs)
    said = os.read(ours, 65536).decode()
    s.bad += [] if ran.returncode == 1 and said.startswith("error: merge rule 2 NoType at eth9\r\n  there is no link eth9; ") and "write instead: a name that show prints" in said else [said]


def readme(s):
    """README's first session as it is printed there, but for `init`: a machine has its network."""
    block = re.search(r"(?m)^    \$ nmstatectl init .*\n(?:    .*\n)*", README.read_text(encoding="utf-8")).group()
    tool = pathlib.Path(s.folder) / "nmstatectl"
    tool.write_text(f'#!/bin/sh\nexec {shlex.join(s.command())} --state {s.state} "$@"\n', encoding="utf-8")
    tool.chmod(0o755)
    env = dict(os.environ, PATH=f"{s.folder}:{os.environ['PATH']}")
    for part in re.sub(r"(?m)^    ", "", block).split("$ ")[2:]:
        line, _, printed = part.partition("\n")
        ran = subprocess.run(["bash", "-c", line], cwd=TASKS, env=env, stdin=subprocess.DEVNULL, stdout=subprocess.PIPE, stderr=subprocess.STDOUT, text=True, check=False, timeout=300)
        s.says(f"{line}\n{ran.stdout}" + (f"[{ran.returncode}]\n" if ran.returncode else ""), f"{line}\n{printed}")
    s.bad += [] if "bond0.5@bond0" in room.sh("ip -br address") else ["no bond0.5"]


# Runs the commands of standard input as a terminal would show them, in a mount namespace with files of its own.
SHELL = """
mount --make-rprivate / && mount -t tmpfs none /run || exit
export TMPDIR=/run
while IFS= read -r line <&9; do
    printf '$ %s\\n' "$line"
    eval "$line" </dev/null 2>&1
    status=$?
    [ "$status" = 0 ] || printf '[%s]\\n' "$status"
done 9<&0
"""


def pasted(s):
    """The lines of docs/LINUX.md that try it, as they stand; on a kernel without bonds the first of their blocks."""
    if not BUILT.exists():
        s.bad.append(f"there is no {BUILT}")
        return
    section = PAGE.read_text(encoding="utf-8").partition("## Try it without risk")[2].partition("\n## ")[0]
    blocks = re.findall(r"(?m)^    \$ .*\n(?:    .*\n)*", section)
    text = re.sub(r"(?m)^    ", "", "".join(blocks if room.has("bond") else blocks[:1]))
    lines = "".join(re.findall(r"(?m)^\$ (.*\n)", text))
    # The other namespaces end with this mount namespace.
    ran = subprocess.run(["unshare", "-m", "bash", "-c", SHELL], cwd=TOP, input=lines, capture_output=True, text=True, check=False, timeout=600)
    said = re.sub(r"(until|made|deadline) \d{9,}", r"\1 D", re.sub(r"/run/tmp\.\w+", "$dir", ran.stdout + ran.stderr))
    one, other = ([it.rstrip() for it in text.splitlines()] for text in (said, text))
    s.bad += [f"pasted: {a!r}, and not {b!r}" for a, b in itertools.zip_longest(one, other) if a != b][:3]


CASES = {
    "an MTU, and nothing else": (one_mtu, ""), "what docs/LINUX.md says to try": (pasted, ""), "what is shown is applied": (shown_again, ""), "a bridge, rolled back": (taken_back, ""),
    "a bond with a VLAN, rolled back": (bond_taken_back, "bond"), "a deadline": (due, ""), "killed at each request": (killed, ""),
    "killed at each request, with a bond": (bond_killed, "bond"), "the far end killed after each run": (far_end_killed, ""),
    "the far end killed after each run, with a bond": (bond_far_end_killed, "bond"), "a hang-up": (hung_up, ""), "the pipes are cut": (cut, ""), "a call refused": (refused, ""), "not verified": (not_verified, ""),
    "a service": (service, ""), "folders of the state": (folders, ""), "on a terminal": (terminal, ""), "README's session": (readme, "bond"),
}


def one(program, title):
    case, kind = CASES[title]
    if kind and not room.has(kind):
        print(f"skipped {title}: this kernel has no {kind}", flush=True)
        return SKIPPED
    with tempfile.TemporaryDirectory() as folder:
        room.ip(BEFORE.strip().splitlines())
        session = Session(program, folder)
        case(session)
    print(f"{'FAILED' if session.bad else 'ok    '} {title}", *(f"       {it}" for it in session.bad), sep="\n", flush=True)
    return 1 if session.bad else 0


def main(words):
    program, named = os.path.abspath(words[0]), words[1:]
    told = [room.apart(one, program, it) for it in CASES if not named or any(word in it for word in named)]
    skipped = told.count(SKIPPED)
    print(f"sessions: {told.count(0)} of {len(told) - skipped}" + (f", {skipped} skipped" if skipped else ""))
    return 0 if told.count(0) + skipped == len(told) else 1


if __name__ == "__main__":
    sys.exit(main(sys.argv[1:]))
