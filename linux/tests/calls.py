"""Random calls, one after another, made by the far end and by the model: what is read of Linux must be what the model says, and so must
what the far end keeps in between. Some series begin among links that other hands made.

usage: calls.py SERIES CALLS [FIRST_SEED [FOLDER]]   FOLDER keeps what each series had
       calls.py simulated FOLDER PROGRAM             compares what is kept with what the shipped program's `simulate` says of the lines"""
import json
import pathlib
import random
import subprocess
import sys
import tempfile

sys.dont_write_bytecode = True
sys.path.insert(0, str(pathlib.Path(__file__).resolve().parent.parent))

from far_end import serving                                     # noqa: E402
from far_end.image import image_of                              # noqa: E402
from far_end.machine import Machine                             # noqa: E402
from tests import model, room                                   # noqa: E402
from tests.draw import NAMES, Draw                                  # noqa: E402
from tests.images import read_image, store                           # noqa: E402

# Links by other hands: their MAC addresses and MTUs follow those of ports and bases, and ports of a bond have its MAC address.
OTHERS = """
link add br0 type bridge
link set eth1 master br0
link add b0 type bond mode active-backup miimon 100
link set eth2 master b0
link set eth3 master b0
link set b0 up
link add v1 link b0 type vlan id 1
link set v1 up
link add v2 link eth1 type vlan id 2
link set v2 mtu 1400
link add r0 address 02:00:00:00:00:77 type vrf table 300
link set r0 up
link set eth4 master r0
link set eth4 up
address add 192.168.3.1/24 dev eth4
address add 2001:db8:3::1/64 dev eth4
route add 10.4.0.0/16 via 192.168.3.50 dev eth4 table 300 proto bird
"""


def described(image):
    network = read_image(image)
    parts = {f"link {name}": repr(link) for name, link in network.links.items()}
    parts |= {f"route {key} {device}": repr(hop.gateway) for device, those in network.routes.items() for key, hop in those.items()}
    parts |= {f"rule {it}": "" for those in network.rules.values() for it in those}
    return parts | {"dns": f"{network.servers} {network.search}"}


def difference(read, said):
    """What of two images isn't the same, as lines."""
    read, said = described(read), described(said)
    return [f"    {key}\n      linux {read.get(key)}\n      model {said.get(key)}" for key in sorted(set(read) | set(said)) if read.get(key) != said.get(key)]


class Series:
    """One series of calls: the far end, the model, and the lines so far."""

    def __init__(self, seed, folder):
        self.rng = random.Random(seed)
        self.machine = Machine(f"{folder}/resolv.conf", room.WAIT)
        self.first = self.machine.dump()
        self.network = read_image(self.first)
        self.kinds = [it for it in NAMES if room.has(it)]
        self.lines, self.refused = [], []

    def make(self):
        call = Draw(self.rng, self.network, self.kinds).call()
        line = model.spell(call)
        self.lines.append(line)
        answer = serving.answer(self.machine, line)
        if answer != b"+":
            self.refused.append((line, answer))
        return answer == b"+"

    def differs(self):
        """What Linux has, what is kept and what the model says, compared."""
        said = image_of(self.network)
        kept = image_of(self.machine.network) if self.machine.is_known else said
        found = difference(kept, said)
        read = self.machine.dump()
        return [*found, *difference(read, said)]


def series(seed, count, results):
    with tempfile.TemporaryDirectory() as folder:
        if seed % 2:
            room.ip_some(OTHERS.strip().splitlines())
        it = Series(seed, folder)
        while len(it.lines) < count:
            is_made = it.make()
            # Not after each call: what is kept is to carry some of them.
            found = it.differs() if not is_made or it.rng.random() < 0.25 or len(it.lines) == count else []
            if found or not is_made:
                print(f"seed {seed}, call {len(it.lines)}: {it.lines[-1]}", *(it.refused[-1:] if not is_made else ()), *found, sep="\n", flush=True)
                break
        results.write_text(json.dumps({"seed": seed, "calls": len(it.lines), "refused": len(it.refused), "differs": bool(found), "first": it.first.hex(),
                                       "last": it.machine.dump().hex(), "lines": it.lines}), encoding="utf-8")
        return 1 if found or it.refused else 0


def simulated(folder, program):
    """What Linux had before and after each series, beside the program's own step."""
    same, calls, paths = 0, 0, sorted(pathlib.Path(folder).glob("calls-*.json"))
    with tempfile.TemporaryDirectory() as state:
        for path in paths:
            told = json.loads(path.read_text(encoding="utf-8"))

            def ask(image, *words, given=""):
                store(state, bytes.fromhex(image))
                ran = subprocess.run([program, "--state", state, *words], input=given, capture_output=True, text=True, check=False)
                return ran.returncode, ran.stdout

            said = ask(told["first"], "simulate", given="".join(it + "\n" for it in told["lines"]))
            is_same = said == ask(told["last"], "show") and said[0] == 0
            same += is_same
            calls += len(told["lines"])
            if not is_same:
                print(f"{path.name}: simulate says another network, or refuses: status {said[0]}", flush=True)
    print(f"simulated: {same} of {len(paths)} series, {calls} calls")
    return 0 if same == len(paths) else 1


def main(words):
    if words[0] == "simulated":
        return simulated(*words[1:])
    count, calls, first = int(words[0]), int(words[1]), int(words[2]) if len(words) > 2 else 0
    out = pathlib.Path(words[3]) if len(words) > 3 else pathlib.Path(tempfile.mkdtemp())
    told = []
    for seed in range(first, first + count):
        path = out / f"calls-{seed}.json"
        room.apart(series, seed, calls, path)
        told.append(json.loads(path.read_text(encoding="utf-8")) if path.exists() else {"calls": 0, "refused": 0, "differs": True})
    bad = sum(it["differs"] or it["refused"] > 0 for it in told)
    print(f"calls: {count} series, {sum(it['calls'] for it in told)} calls, {sum(it['refused'] for it in told)} refused, "
          f"{sum(it['differs'] for it in told)} with a difference")
    return 1 if bad else 0


if __name__ == "__main__":
    sys.exit(main(sys.argv[1:]))
