"""Plans: calls that the shipped program plans between networks, made by the far end without a look in between, and compared after each
plan with what the model, and the program's `simulate`, say of the same lines.

usage: plans.py draw FOLDER PROGRAM SERIES PLANS [SEED]   plans between drawn networks, those of the tasks in examples/ one after another,
                                                          and those that are stopped after each call and led back, as files of
                                                          FOLDER; says of each whether simulate and the model agree
       plans.py recorded FOLDER                           the plans that the sessions in examples/ print, likewise
       plans.py others FOLDER                             keeps the network of links by other hands, for plans among them, and
                                                          which kinds of links this kernel has
       plans.py run FOLDER                                makes them here, in namespaces of their own, but for those with other kinds"""
import copy
import itertools
import json
import pathlib
import random
import re
import subprocess
import sys
import tempfile

sys.dont_write_bytecode = True
sys.path.insert(0, str(pathlib.Path(__file__).resolve().parent.parent))

from far_end import requests, serving                           # noqa: E402
from far_end.image import image_of                              # noqa: E402
from far_end.machine import Machine                             # noqa: E402
from far_end.profile import Link, Network, default_mac          # noqa: E402
from tests import model, room                                   # noqa: E402
from tests.calls import OTHERS, difference                      # noqa: E402
from tests.draw import NAMES, Draw                              # noqa: E402
from tests.images import read_image, store                      # noqa: E402

TASKS = pathlib.Path(__file__).resolve().parents[2] / "examples" / "tasks"
SESSIONS = TASKS.parent / "sessions"
PRINTED = {"add-link", "del-link", "up", "down", "set-mtu", "set-mac", "set-bond", "set-bridge", "attach", "detach", "set-port", "add-address",
           "del-address", "add-route", "del-route", "add-rule", "del-rule", "set-dns"}
CALLS_A_PLAN = 14


class Program:
    """The shipped program, on a state that is written for each question."""

    def __init__(self, path, folder):
        self.path, self.folder = path, folder

    def ask(self, network, words, given=""):
        state = store(f"{self.folder}/state", image_of(network))
        ran = subprocess.run([self.path, "--state", state, *words], input=given, capture_output=True, text=True, check=False)
        return ran.returncode, ran.stdout, ran.stderr


def bare():
    """The devices of a room."""
    network = Network()
    for at, name in enumerate(room.DEVICES, 1):
        network.put(Link(name, "ethernet", bytes((0x52, 0x54, 0, 0, 0, at)), permanent_mac=default_mac(name)))
    return network


def after(network, lines):
    """What the model says of lines."""
    network = copy.deepcopy(network)
    for line in lines:
        call, *arguments = requests.read_call(line)
        assert model.accepts(network, (getattr(model, call.__name__), *arguments)), line
    return network


def planned(program, network, document):
    """The lines of a plan and the network after them; none where the document can't be merged."""
    status, out, _ = program.ask(network, ["plan", "--batch"], document)
    if status:
        return None
    lines = out.splitlines()
    then = after(network, lines)
    status, simulated, errors = program.ask(network, ["simulate"], out)
    shown = program.ask(then, ["show"])[1]
    assert status == 0 and simulated == shown, f"simulate and the model differ: {errors}"
    return lines, then


def drawn_document(program, rng, network, kinds):
    """A network some calls away, as a document; what isn't there is absent."""
    target = copy.deepcopy(network)
    draw = Draw(rng, target, kinds)
    for _ in range(CALLS_A_PLAN):
        draw.call()
    document = json.loads(program.ask(target, ["show", "--json"])[1])
    document["interfaces"] += [{"name": it, "state": "absent"} for it in network.links if it not in target.links and network.links[it].kind != "ethernet"]
    return json.dumps(document)


def drawn_series(program, seed, count, start, kinds):
    rng, network, plans = random.Random(seed), copy.deepcopy(start), []
    while len(plans) < count:
        found = planned(program, network, drawn_document(program, rng, network, kinds))
        if found and found[0]:
            plans.append({"lines": found[0], "image": image_of(found[1]).hex()})
            network = found[1]
    return plans


def task_series(program, pair):
    network, plans = bare(), []
    for path in pair:
        found = planned(program, network, path.read_text(encoding="utf-8"))
        if found is None:
            return None
        plans.append({"lines": found[0], "image": image_of(found[1]).hex()})
        network = found[1]
    return plans


def back_series(program, network, path):
    """A plan that is stopped after each of its calls in turn, each time with the plan back to what was before; as pairs of plans."""
    found = planned(program, network, path.read_text(encoding="utf-8"))
    if found is None:
        return None
    first, plans = image_of(network).hex(), []
    before = json.loads(program.ask(network, ["show", "--json"])[1])
    for at in range(1, len(found[0]) + 1):
        then = after(network, found[0][:at])
        new = [{"name": it, "state": "absent"} for it in then.links if it not in network.links]
        way = planned(program, then, json.dumps({**before, "interfaces": before["interfaces"] + new}))
        if way is None or image_of(way[1]).hex() != first:
            return None
        plans += [{"lines": found[0][:at], "image": image_of(then).hex()}, {"lines": way[0], "image": first, "anew": True}]
    return plans


def batch_line(line):
    """The line of a printed call in the manner of ip(8)."""
    name, *words = line.split()
    kinds = {"bond": "type bond mode {}", "bridge": "type bridge", "vrf": "type vrf table {}", "dummy": "type dummy", "veth": "type veth peer name {}"}
    if name == "add-link" and words[1] == "vlan":
        return f"link add link {words[2]} name {words[0]} type vlan protocol {words[4].replace('q', 'Q')} id {words[3]}"
    if name == "add-link":
        return f"link add name {words[0]} " + kinds[words[1]].format(*words[2:])
    if name in ("add-route", "del-route"):
        via = f" via {words[6]}" if "via" in words else ""
        return f"route {name[:3]} {words[0]}{via} dev {words[-1]} table {words[2]} metric {words[4]}"
    forms = {"del-link": "link del dev {}", "up": "link set dev {} up", "down": "link set dev {} down", "set-mtu": "link set dev {} mtu {}",
             "set-mac": "link set dev {} address {}", "attach": "link set dev {} master {}", "detach": "link set dev {} nomaster",
             "add-address": "address add {1} dev {0}", "del-address": "address del {1} dev {0}"}
    return forms[name].format(*words) if name in forms else f"#! {line}"


def recorded(folder):
    """The plans that the sessions in examples/ print, which the gate compares with what the program prints."""
    folder = pathlib.Path(folder)
    folder.mkdir(exist_ok=True)
    drawn = 0
    for path in sorted(SESSIONS.glob("*.session")):
        network, plans, names = bare(), [], []
        for part in path.read_text(encoding="utf-8").split("$ ")[1:]:
            command, *printed = part.splitlines()
            calls = [it for it in printed if it.split(" ")[0] in PRINTED]
            if not command.startswith("nmstatectl plan ") or "--batch" in command or not calls:
                continue
            try:
                network = after(network, map(batch_line, calls))
            except AssertionError:              # it follows on what another command of the session made
                continue
            plans.append({"lines": list(map(batch_line, calls)), "image": image_of(network).hex()})
            names.append(command.split()[-1])
        drawn += len(plans)
        if plans:
            (folder / f"recorded-{path.stem}.json").write_text(json.dumps({"others": False, "names": names, "plans": plans}), encoding="utf-8")
    print(f"recorded: {drawn} plans")
    return 0


def draw(folder, path, count, plans, first=0):
    folder = pathlib.Path(folder)
    folder.mkdir(exist_ok=True)
    others = read_image(bytes.fromhex((folder / "others.hex").read_text())) if (folder / "others.hex").exists() else None
    kinds = kinds_of(folder)
    with tempfile.TemporaryDirectory() as room_folder:
        program = Program(path, room_folder)
        for seed in range(int(first), int(first) + int(count)):
            by_others = bool(seed % 2 and others)
            found = drawn_series(program, seed, int(plans), others if by_others else bare(), kinds)
            (folder / f"plans-{seed}.json").write_text(json.dumps({"others": by_others, "plans": found}), encoding="utf-8")
        tasks = sorted(it for it in TASKS.glob("*.yml") if it.name != "hardware.yml")
        drawn = 0
        for at, pair in enumerate(itertools.permutations(tasks, 2)):
            found = task_series(program, pair)
            if found:
                drawn += 1
                (folder / f"tasks-{at}.json").write_text(json.dumps({"others": False, "names": [it.stem for it in pair], "plans": found}), encoding="utf-8")
        for at, path in enumerate(tasks):
            for name, network in (("bare", bare()), ("others", others)):
                found = network and back_series(program, network, path)
                if found:
                    (folder / f"stopped-{at}-{name}.json").write_text(json.dumps({"others": name == "others", "names": [path.stem, name], "plans": found}), encoding="utf-8")
    print(f"drawn: {count} series, {drawn} pairs of tasks; simulate and the model agree on each plan")
    return 0


def one(path, results):
    series = json.loads(path.read_text(encoding="utf-8"))
    bad, calls, refused = [], 0, 0
    with tempfile.TemporaryDirectory() as folder:
        if series["others"]:
            room.ip_some(OTHERS.strip().splitlines())
        machine = Machine(f"{folder}/resolv.conf", room.WAIT)
        for at, plan in enumerate(series["plans"]):
            if plan.get("anew"):                # as a far end that starts after one that was killed
                machine = Machine(f"{folder}/resolv.conf", room.WAIT)
            for line in plan["lines"]:
                answer = serving.answer(machine, line)
                calls += 1
                if answer != b"+":
                    refused += 1
                    bad.append(f"    refused in plan {at}: {line} {answer!r}")
                    break
            kept = difference(image_of(machine.network), bytes.fromhex(plan["image"])) if machine.is_known else []
            found = [*kept, *difference(machine.dump(), bytes.fromhex(plan["image"]))]
            bad += [f"    after plan {at}", *found] if found else []
            if bad:
                break
    results.write_text(json.dumps([len(series["plans"]), calls, refused, bool(bad)]), encoding="utf-8")
    if bad:
        print(f"{path.stem} {series.get('names', '')}", *bad, sep="\n", flush=True)
    return 1 if bad else 0


def kinds_of(folder):
    """The kinds of links that the kernel has on which the plans are to be made."""
    path = pathlib.Path(folder) / "kinds"
    return path.read_text(encoding="ascii").split() if path.exists() else list(NAMES)


def needs(path):
    """The kinds of links that a series makes."""
    return set(re.findall(r"type ([a-z]+)", path.read_text(encoding="utf-8")))


def run(folder):
    told, kinds, skipped = {}, set(kinds_of(folder)), 0
    for path in sorted(pathlib.Path(folder).glob("*-*.json")):
        if not needs(path) <= kinds:
            skipped += 1
            continue
        results = path.with_suffix(".told")
        room.apart(one, path, results)
        told.setdefault(path.name.partition("-")[0], []).append(json.loads(results.read_text(encoding="utf-8")) if results.exists() else [0, 0, 0, True])
    for kind, rows in told.items():
        plans, calls, refused, bad = (sum(it) for it in zip(*rows))
        print(f"{kind}: {len(rows)} series, {plans} plans, {calls} calls, {refused} refused, {bad} series with a difference")
    if skipped:
        print(f"skipped: {skipped} series with kinds of links that this kernel lacks")
    return 1 if any(row[3] for rows in told.values() for row in rows) else 0


def others(folder):
    """Keeps the network of links by other hands, for plans among them, and the kinds of links of this kernel."""
    (pathlib.Path(folder) / "kinds").write_text(" ".join(it for it in NAMES if room.has(it)), encoding="ascii")
    room.ip_some(OTHERS.strip().splitlines())
    with tempfile.TemporaryDirectory() as it:
        (pathlib.Path(folder) / "others.hex").write_text(Machine(f"{it}/resolv.conf", room.WAIT).dump().hex(), encoding="ascii")
    return 0


if __name__ == "__main__":
    verb, *words = sys.argv[1:]
    sys.exit(room.apart(others, *words) if verb == "others" else {"draw": draw, "recorded": recorded, "run": run}[verb](*words))
