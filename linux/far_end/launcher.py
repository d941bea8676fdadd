"""The command: its options, and the proved program that it starts and serves."""
import fcntl
import os
import pathlib
import platform
import shutil
import signal
import subprocess
import sys
import threading
from dataclasses import dataclass

from .advice import Advice, folder_trouble
from .machine import Machine
from .serving import say, serve

HERE = pathlib.Path(__file__).resolve().parent.parent
PROGRAM = "nmstatectl_peer"
# The descriptors over which the program asks and hears.
REQUESTS, ANSWERS = 3, 4
# Statuses of our own: beside those of the program, which docs/COMMANDS.md lists.
USAGE, NOT_STARTED = 2, 70
HOST_FAULTS = (4, 5, 10)
# The longest --wait.
MOST_SECONDS = 86400
# Descriptors above those that the program takes.
HIGH = 10

HELP = """\
nmstatectl-linux [OPTIONS] COMMAND...      the network of this machine, by the proved program over its kernel

Options, before the command, `--state DIR` among them in any order:
  --netns NAME     the network namespace NAME in place of the machine's own
  --resolv FILE    the resolv.conf that is read and written (/etc/resolv.conf, or /etc/netns/NAME/resolv.conf)
  --wait SECONDS   how long an ip may take for its answer (30)
  --program FILE   the proved program
  --verbose        each ip command before it is run, on standard error
  --help, --version

Commands are those of nmstatectl (docs/COMMANDS.md); `--state DIR` is the folder of the checkpoint, else the current one:
  show [IFNAME] [--json]       nmstatectl-linux show eth0
  plan [FILE] [--batch]        nmstatectl-linux plan change.yml
  policy [FILE]                nmstatectl-linux policy policy.yml
  simulate [FILE]              nmstatectl-linux plan --batch change.yml | nmstatectl-linux simulate
  apply [FILE] [--no-commit] [--no-verify] [--timeout N]
                               nmstatectl-linux --state /var/lib/nmstatectl-linux apply --no-commit --timeout 120 change.yml
  commit                       nmstatectl-linux --state /var/lib/nmstatectl-linux commit
  rollback                     nmstatectl-linux --state /var/lib/nmstatectl-linux rollback
  recover                      nmstatectl-linux --state /var/lib/nmstatectl-linux recover
  check                        nmstatectl-linux --state /var/lib/nmstatectl-linux check
  script [FILE]                nmstatectl-linux script lines.txt
  service FOLDER               nmstatectl-linux --state /var/lib/nmstatectl-linux service /etc/nmstatectl.d
  generate N SEED              nmstatectl-linux generate 2 1        (in memory alone)
`init` makes nothing here, since a machine has its network, and `rollout` knows no nodes.
"""


@dataclass
class Options:
    netns: str | None = None
    resolv: str | None = None
    wait: float = 30
    program: str | None = None
    verbose: bool = False


class Usage(Exception):
    """Words that aren't ours."""


def read_options(words):
    """The options before the command, and the words of the program: its own option comes first there."""
    options, rest, state = Options(), list(words), []
    while rest and rest[0].startswith("--"):
        key = rest.pop(0)[2:]
        if key == "verbose":
            options.verbose = True
        elif key == "state" and rest:
            state = ["--state", rest.pop(0)]
        elif key in ("netns", "resolv", "program", "wait") and rest:
            setattr(options, key, rest.pop(0))
        else:
            raise Usage(f"--{key}")
    try:
        options.wait = float(options.wait)
    except ValueError:
        raise Usage("--wait") from None
    if not 0 < options.wait <= MOST_SECONDS:
        raise Usage("--wait")
    return options, [*state, *rest]


def version():
    files = [HERE / "VERSION", HERE.parent / "VERSION"]
    number = next((it.read_text(encoding="utf-8").strip() for it in files if it.exists()), "of no number")
    ip = subprocess.run(["ip", "-V"], capture_output=True, text=True, check=False).stdout.strip()
    return f"nmstatectl-linux {number}; {ip}; {platform.system()} {platform.release()}"


def find_program(named):
    """The program that is named, or one beside this folder, in the checkout, or on the path."""
    places = [named] if named else [HERE / PROGRAM, HERE.parent / "crates" / PROGRAM / "out" / PROGRAM, shutil.which(PROGRAM)]
    return next((str(it) for it in places if it and os.access(it, os.X_OK)), None)


def enter_namespace(options, words):
    """Begins anew in a namespace, by ip, which also gives it its own /sys."""
    resolv = options.resolv or f"/etc/netns/{options.netns}/resolv.conf"
    own = ["--resolv", resolv, "--wait", str(options.wait)] + (["--verbose"] if options.verbose else [])
    own += ["--program", options.program] if options.program else []
    os.execvp("ip", ["ip", "netns", "exec", options.netns, sys.executable, str(HERE / "nmstatectl-linux"), *own, *words])


def high(descriptor):
    moved = fcntl.fcntl(descriptor, fcntl.F_DUPFD_CLOEXEC, HIGH)
    os.close(descriptor)
    return moved


class Program:
    """The proved program, with two pipes at its descriptors 3 and 4."""

    def __init__(self, path, words, hears_errors):
        requests, theirs_requests = map(high, os.pipe())
        theirs_answers, answers = map(high, os.pipe())
        os.dup2(theirs_requests, REQUESTS)
        os.dup2(theirs_answers, ANSWERS)
        # A pipe that nobody reads from is told to it by its write, and not by a signal (restore_signals).
        self.process = subprocess.Popen([path, *words], pass_fds=(REQUESTS, ANSWERS), restore_signals=False,
                                        stderr=subprocess.PIPE if hears_errors else None)
        for it in (REQUESTS, ANSWERS, theirs_requests, theirs_answers):
            os.close(it)
        self.requests, self.answers = requests, answers

    def status(self):
        """As a shell tells it: 128 and the signal's number where one ended it. Nothing is heard or answered any more."""
        os.close(self.requests)
        os.close(self.answers)
        status = self.process.wait()
        return status if status >= 0 else 128 - status


def pass_on(stream, lines):
    for line in stream:
        sys.stderr.buffer.write(line)
        sys.stderr.buffer.flush()
        lines.append(line.decode("utf-8", "replace").rstrip("\n"))


def state_folder(words):
    return words[1] if words[:1] == ["--state"] and len(words) > 1 else "."


def run(options, path, words):
    on_terminal = sys.stderr.isatty()
    program = Program(path, words, on_terminal)
    errors = []
    reader = threading.Thread(target=pass_on, args=(program.process.stderr, errors), daemon=True)
    if on_terminal:
        reader.start()
    # The program ends by an interrupt, and this by its end: a call that was begun is made whole.
    signal.signal(signal.SIGINT, signal.SIG_IGN)
    serve(Machine(options.resolv or "/etc/resolv.conf", options.wait, options.verbose), program.requests, program.answers)
    status = program.status()
    if on_terminal:
        reader.join()
        Advice(HERE).say(errors)
    if status in HOST_FAULTS and (trouble := folder_trouble(state_folder(words))):
        say(trouble)
    return status


def main(words):
    if words[:1] == ["--help"] or not words:
        print(HELP, end="")
        return 0 if words else USAGE
    if words[:1] == ["--version"]:
        print(version())
        return 0
    try:
        options, rest = read_options(words)
    except Usage as e:
        say(f"nmstatectl-linux: {e} isn't an option of its form; --help prints them")
        return USAGE
    if options.netns:
        if not os.path.exists(f"/run/netns/{options.netns}"):
            say(f"nmstatectl-linux: there is no network namespace {options.netns}: ip netns list has those that have names")
            return NOT_STARTED
        enter_namespace(options, rest)
    path = find_program(options.program)
    if path is None:
        say(f"nmstatectl-linux: there is no {PROGRAM}: build it (rt ci {PROGRAM}), or name it with --program")
        return NOT_STARTED
    # A change from afar goes on when the line hangs up. The program and ip inherit that.
    signal.signal(signal.SIGHUP, signal.SIG_IGN)
    return run(options, path, rest)
