"""iproute2: lines through an `ip -batch` that stays, and what `ip -json` prints."""
import json
import os
import re
import select
import subprocess
import sys

from .errors import Fault

# Characters that a line of `ip -batch` doesn't carry: a comment, quotes, and an escape.
UNSAYABLE = set("#\"'\\")
# A line that ip doesn't know. What it says of it tells that all lines before are done.
END = ["end"]
# How many bytes of lines are written before what ip says is read, so that neither waits for the other.
PIECE = 4096


class Commands:
    """Runs `ip`. One that gives no answer isn't killed; until it has ended nothing else is asked, since it may still do what it
    was told."""

    def __init__(self, wait, verbose):
        self.wait, self.verbose = wait, verbose
        self.late = None
        self.batches = {False: Batch(self, []), True: Batch(self, ["-6"])}

    def say(self, words):
        if self.verbose:
            print("+", *words, file=sys.stderr, flush=True)

    def be_late(self, process):
        for stream in (process.stdin, process.stdout, process.stderr):
            if stream:
                stream.close()
        self.late = process
        raise Fault(f"ip gave no answer for {self.wait:g} seconds")

    def settle(self):
        """Waits for an `ip` that gave no answer."""
        if self.late:
            try:
                self.late.wait(self.wait)
            except subprocess.TimeoutExpired:
                raise Fault("an ip that gave no answer is still at work") from None
            self.late = None

    def finished(self, words):
        """Runs one `ip` to its end: its status, what it printed, and what it said on standard error."""
        self.say(words)
        # A name may be no UTF-8.
        process = subprocess.Popen(words, stdin=subprocess.DEVNULL, stdout=subprocess.PIPE, stderr=subprocess.PIPE, encoding="utf-8",
                                   errors="surrogateescape", start_new_session=True)
        try:
            out, err = process.communicate(timeout=self.wait)
        except subprocess.TimeoutExpired:
            self.be_late(process)
        return process.returncode, out, err.strip()

    def show(self, *words):
        """What `ip -json` prints, as a list."""
        status, out, err = self.finished(["ip", "-json", *words])
        if status:
            raise Fault(f"ip {' '.join(words)}: {err}")
        return [it for it in json.loads(out or "[]") if it]

    def run(self, lines, ipv6=False):
        """Runs lines, all of them, and gives those that failed with ip's words. A line that a batch doesn't carry is an `ip` of
        its own."""
        failed, batch = [], self.batches[ipv6]
        together = []
        for line in lines:
            if not UNSAYABLE & set(" ".join(line)):
                together.append(line)
                continue
            failed += batch.run(together)
            together = []
            status, _, err = self.finished([*batch.start, *line])
            failed += [(line, err)] if status else []
        return failed + batch.run(together)

    def forget(self):
        """A batch remembers links by name: where names may have gone to other links it begins anew."""
        for batch in self.batches.values():
            batch.close()


class Batch:
    """One `ip -force -batch -` that stays. It stands in a session of its own, so that an interrupt from the terminal doesn't end it
    in the middle of a call."""

    def __init__(self, commands, options):
        self.commands = commands
        self.start = ["ip", *options]
        self.process = None
        self.count = 0

    def close(self):
        """It ends by itself, with its input."""
        if self.process:
            self.process.stdin.close()
            self.process.stderr.close()
            self.process = None

    def open(self):
        if self.process is None or self.process.poll() is not None:
            self.close()
            self.process = subprocess.Popen([*self.start, "-force", "-batch", "-"], stdin=subprocess.PIPE, stdout=subprocess.DEVNULL,
                                            stderr=subprocess.PIPE, start_new_session=True, bufsize=0)
            self.count = 0

    def run(self, lines):
        if not lines:
            return []
        self.open()
        for line in lines:
            self.commands.say([*self.start, *line])
        first = self.count + 1
        self.count += len(lines) + 1
        said = self.exchange("".join(" ".join(line) + "\n" for line in [*lines, END]).encode())
        # The words of a failure stand before its number.
        parts = re.split(r"Command failed -:(\d+)\n", said)
        return [(lines[int(at) - first], words.strip()) for words, at in zip(parts[:-3:2], parts[1:-3:2])]

    def exchange(self, data):
        """Writes lines, and gives what ip said up to the failure of the last, which is END."""
        last = b"Command failed -:%d\n" % self.count
        lines_in, said_out = self.process.stdin.fileno(), self.process.stderr.fileno()
        said = b""
        while not said.endswith(last):
            readable, writable, _ = select.select([said_out], [lines_in] if data else [], [], self.commands.wait)
            if not readable and not writable:
                late, self.process = self.process, None
                self.commands.be_late(late)
            if writable:
                data = self.written(lines_in, data)
            if readable:
                said += self.heard(said_out, said)
        return said.decode("utf-8", "replace")

    def written(self, file, data):
        try:
            return data[os.write(file, data[:PIECE]):]
        except BrokenPipeError:                 # it has ended, and what it said tells why
            return b""

    def heard(self, file, before):
        new = os.read(file, 65536)
        if not new:
            self.close()
            raise Fault("ip ended: " + before.decode("utf-8", "replace").strip())
        return new
