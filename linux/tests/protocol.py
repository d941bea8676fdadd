"""Streams that break, programs and far ends that are killed, signals, and an ip that hangs, dies or says what can't be read. A stand-in
plays the program, in a network namespace of its own for each case.

usage: protocol.py"""
import os
import pathlib
import subprocess
import sys
import tempfile
import time

sys.dont_write_bytecode = True
sys.path.insert(0, str(pathlib.Path(__file__).resolve().parent.parent))

from tests import room                                          # noqa: E402
from tests.stand_in import CALLS                                # noqa: E402

HERE = pathlib.Path(__file__).resolve().parent
LAUNCHER, STAND_IN = HERE.parent / "nmstatectl-linux", HERE / "stand_in.py"
DONE, FAULT = "2b", "21"
KILLED, INTERRUPTED, TERMINATED = 137, 130, -15
IP_REFUSED = ("2d02",)


class Case:
    """What a case left: the far end's status, what was heard, and the namespace."""

    def __init__(self, name, folder, wait="30", fake=False):
        heard = f"{folder}/heard"
        env = dict(os.environ, FAKE_IP=f"{folder}/mode")
        pathlib.Path(env["FAKE_IP"]).write_text("\n", encoding="ascii")
        if fake:
            os.symlink(HERE / "fake_ip", f"{folder}/ip")
            env["PATH"] = f"{folder}:{env['PATH']}"
        process = subprocess.Popen([LAUNCHER, "--resolv", f"{folder}/resolv.conf", "--wait", wait, "--program", STAND_IN, name, heard],
                                   stderr=subprocess.PIPE, text=True, env=env, start_new_session=True)
        _, self.errors = process.communicate(timeout=120)
        self.status = process.returncode
        # What goes on after a far end that was killed ends soon.
        time.sleep(0.5 if self.status >= 0 else 1.5)
        self.heard = pathlib.Path(heard).read_text(encoding="ascii").split("\n")[:-1]
        self.left = left_behind()

    def made(self):
        """How many of the calls were made."""
        shown = room.sh("ip link show; ip address show", check=False)
        signs = ["br9:", "br9: <BROADCAST,MULTICAST,UP" if "br9: <BROADCAST,MULTICAST,UP" in shown else "br9: <NO-CARRIER,BROADCAST,MULTICAST,UP",
                 "mtu 1400", "master br9", "192.0.2.1/24", None]
        eth1 = shown[shown.find("eth1@"):].split("\n")[0]
        holds = [sign in shown for sign in signs[:-1]] + [",UP" in eth1]
        assert holds == sorted(holds, reverse=True), (holds, shown)
        return sum(holds)


def left_behind():
    """Processes of this namespace that are ip, or our own children that weren't waited for."""
    own = os.readlink("/proc/self/ns/net")
    found = []
    for it in filter(str.isdigit, os.listdir("/proc")):
        try:
            if os.readlink(f"/proc/{it}/ns/net") == own and int(it) != os.getpid():
                found.append(open(f"/proc/{it}/cmdline", encoding="utf-8").read().replace("\0", " "))
        except OSError:
            continue
    return [it for it in found if "ip " in it or "nmstatectl" in it or "stand_in" in it]


def check(case, **wanted):
    """The differences of a case from what it must be."""
    found = {"status": case.status, "heard": case.heard, "left": case.left}
    if "made" in wanted:
        found["made"] = case.made()
    return [f"{key}: {found[key]!r}, and not {value!r}" for key, value in {"status": 0, "left": [], **wanted}.items() if found[key] != value]


def killed_at(folder, at):
    return check(Case(f"killed_at:{at}", folder), status=KILLED, heard=[DONE] * at, made=at + 1)


def far_end_killed_after(folder, at):
    case = Case(f"far_end_killed_after:{at}", folder)
    return check(case, status=-9, heard=[DONE] * at + case.heard[at:], made=at) + ([] if case.heard[at:][:1] and case.heard[at].startswith("end") else ["no end was heard"])


def without_end(folder):
    return check(Case("without_end", folder), heard=[DONE], made=1)


def in_pieces(folder):
    return check(Case("in_pieces", folder), heard=[DONE, *IP_REFUSED], made=1)


def many_at_once(folder):
    return check(Case("many_at_once", folder), heard=[DONE] * 6, made=6)


def long_answer(folder):
    """498 pairs beside the 4 devices make 1,000 links, and each has 8 addresses."""
    room.ip([f"link add name n{at} type veth peer name m{at}" for at in range(498)])
    room.ip([f"address add 10.{at // 250}.{at % 250}.{host} dev {end}{at}" for at in range(498) for end in "nm" for host in range(1, 9)])
    case = Case("long_answer", folder)
    size = len(case.heard[0]) // 2 if case.heard else 0
    return check(case, heard=case.heard[:1]) + ([] if size > 65536 and case.heard[0].startswith("3d4e4d533203e8") else [f"{size} bytes"])


def nobody_hears(folder):
    case = Case("nobody_hears", folder)
    return check(case, heard=[DONE, "end: BrokenPipeError"], made=2)


def said(folder, data):
    return check(Case(f"said:{data.hex()}", folder), heard=[FAULT, DONE, *IP_REFUSED], made=1)


def long_line(folder):
    return check(Case("long_line", folder), heard=[FAULT, DONE, *IP_REFUSED], made=1)


def device_deleted(folder):
    """Of a container it is a veth, which Linux would delete."""
    return check(Case("device_deleted", folder), heard=[DONE, "2d03", DONE], made=2)


def hung_up(folder):
    case = Case("hung_up", folder)
    return check(case, heard=[DONE, DONE, *case.heard[2:]], made=2) + ([] if case.heard[2:][0].startswith("3d") else ["no dump"])


def interrupted(folder):
    return check(Case("interrupted", folder), status=INTERRUPTED, heard=[DONE], made=2)


def terminated(folder):
    case = Case("terminated", folder)
    return check(case, status=TERMINATED, heard=[DONE, *case.heard[1:]], made=1) + ([] if case.heard[1].startswith("end") else ["no end was heard"])


def late_call(folder):
    """A link that the batch can't say is there, and the ip for it hangs."""
    room.sh("ip link add 'a\"b' type bridge")
    return check(Case("late_call", folder, "1", True), heard=[DONE, FAULT, FAULT, FAULT, DONE], made=2)


def late_batch(folder):
    """What the late ip was told it does when it goes on: the call is there, and asking for it again is refused."""
    return check(Case("late_batch", folder, "1", True), heard=[FAULT, FAULT, *IP_REFUSED], made=1)


def bad_dump(folder, mode):
    return check(Case(f"bad_dump:{mode}", folder, "1", True), heard=[DONE, FAULT, DONE], made=2)


def dead_batch(folder):
    return check(Case("dead_batch", folder, "30", True), heard=[FAULT, DONE], made=1)


STRANGE = {"empty": b"", "bytes": bytes(range(1, 10)) + bytes(range(128, 256)), "NUL": b"\0" + CALLS[0].encode(), "half a call": b"link add name br9",
           "blank after": b"dump ", "CR after": b"dump\r", "blank before": b" " + CALLS[0].encode(), "two blanks": b"link set  dev eth1 up", "mtu no number": b"link set dev eth1 mtu x"}

CASES = [
    *((f"the program is killed at request {at + 1}", lambda folder, at=at: killed_at(folder, at)) for at in range(6)),
    *((f"the far end is killed after answer {at}", lambda folder, at=at: far_end_killed_after(folder, at)) for at in range(6)),
    ("a line without its end", without_end), ("a line byte by byte", in_pieces), ("six lines at once", many_at_once),
    ("an answer longer than a pipe holds", long_answer), ("nobody hears the answer", nobody_hears),
    ("no request: 2 MB", long_line),
    *((f"no request: {name}", lambda folder, data=data: said(folder, data)) for name, data in STRANGE.items()),
    ("a device that is to be deleted", device_deleted), ("SIGHUP to all", hung_up), ("SIGINT to all", interrupted), ("SIGTERM to the far end", terminated),
    ("an ip gives no answer", late_call), ("the ip that stays gives no answer", late_batch), ("the ip that stays dies", dead_batch),
    *((f"a dump: {name}", lambda folder, mode=mode: bad_dump(folder, mode)) for name, mode in (
        ("it hangs", "hang json"), ("it is no JSON", "garbage json"), ("it is cut off", "half json"), ("a part of it fails", "fail rule"))),
]


def one(name, case):
    with tempfile.TemporaryDirectory() as folder:
        bad = case(folder)
    print(f"{'FAILED' if bad else 'ok    '} {name}", *(f"       {it}" for it in bad), sep="\n", flush=True)
    return 1 if bad else 0


def main(words):
    cases = [it for it in CASES if not words or any(word in it[0] for word in words)]
    failed = sum(bool(room.apart(one, *it)) for it in cases)
    print(f"protocol: {len(cases) - failed} of {len(cases)}")
    return 1 if failed else 0


if __name__ == "__main__":
    sys.exit(main(sys.argv[1:]))
