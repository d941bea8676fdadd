#!/usr/bin/env python3
"""A stand-in for the proved program: plays one case of protocol.py at descriptors 3 and 4, and writes what it heard, as hex, a line an
answer. Usage: stand_in.py CASE FILE"""
import os
import pathlib
import signal
import struct
import sys
import time

sys.dont_write_bytecode = True
REQUESTS, ANSWERS = 3, 4
# Calls that any kernel takes, one after another.
CALLS = ["link add name br9 type bridge", "link set dev br9 up", "link set dev br9 mtu 1400", "link set dev eth1 master br9",
         "address add 192.0.2.1/24 dev br9", "link set dev eth1 up"]


class Talk:
    def __init__(self, heard):
        self.file = open(heard, "w", encoding="ascii")

    def note(self, text):
        print(text, file=self.file, flush=True)

    def say(self, data):
        while data:
            data = data[os.write(REQUESTS, data):]

    def take(self, count):
        data = b""
        while len(data) < count:
            piece = os.read(ANSWERS, count - len(data))
            if not piece:
                raise EOFError
            data += piece
        return data

    def hear(self):
        self.note(self.take(struct.unpack(">I", self.take(4))[0]).hex())

    def ask(self, line):
        self.say(line.encode("latin-1") + b"\n")
        self.hear()


def wait_for(path):
    while not pathlib.Path(path).exists():
        time.sleep(0.02)


def killed_at(talk, at):
    for line in CALLS[:at]:
        talk.ask(line)
    talk.say(CALLS[at].encode() + b"\n")
    os.kill(os.getpid(), signal.SIGKILL)


def far_end_killed_after(talk, at):
    for line in CALLS[:at]:
        talk.ask(line)
    os.kill(os.getppid(), signal.SIGKILL)
    time.sleep(0.2)
    try:
        talk.ask(CALLS[at])
    except (BrokenPipeError, EOFError) as e:
        talk.note(f"end: {type(e).__name__}")


def without_end(talk):
    talk.ask(CALLS[0])
    talk.say(CALLS[1].encode())


def in_pieces(talk):
    for byte in CALLS[0].encode() + b"\n":
        talk.say(bytes([byte]))
        time.sleep(0.005)
    talk.hear()
    talk.ask(CALLS[0])


def long_answer(talk):
    talk.say(b"dump\n")
    time.sleep(2)
    talk.hear()


def nobody_hears(talk):
    talk.ask(CALLS[0])
    talk.say(CALLS[1].encode() + b"\n")
    os.close(ANSWERS)
    try:
        for line in ("dump", CALLS[2], CALLS[3]):
            time.sleep(1)
            talk.say(line.encode() + b"\n")
    except BrokenPipeError:
        talk.note("end: BrokenPipeError")


def said(talk, data):
    talk.say(data + b"\n")
    talk.hear()
    talk.ask(CALLS[0])
    talk.ask(CALLS[0])


def long_line(talk):
    said(talk, b"link set dev eth1 up " * 100000)


def many_at_once(talk):
    talk.say("".join(it + "\n" for it in CALLS).encode())
    for _ in CALLS:
        talk.hear()


def device_deleted(talk):
    talk.ask(CALLS[0])
    talk.ask("link del dev eth1")
    talk.ask(CALLS[1])


def hung_up(talk):
    talk.ask(CALLS[0])
    os.killpg(os.getpgid(0), signal.SIGHUP)
    talk.ask(CALLS[1])
    talk.ask("dump")


def interrupted(talk):
    signal.signal(signal.SIGINT, signal.SIG_DFL)
    talk.ask(CALLS[0])
    talk.say(CALLS[1].encode() + b"\n")
    os.killpg(os.getpgid(0), signal.SIGINT)
    time.sleep(5)


def terminated(talk):
    talk.ask(CALLS[0])
    os.kill(os.getppid(), signal.SIGTERM)
    time.sleep(0.2)
    try:
        talk.ask(CALLS[1])
    except (BrokenPipeError, EOFError) as e:
        talk.note(f"end: {type(e).__name__}")


def put(mode):
    """What the ip on the path does from now on."""
    pathlib.Path(os.environ["FAKE_IP"]).write_text(mode, encoding="ascii")


def late_call(talk):
    talk.ask(CALLS[0])
    put("hang address")
    # A name with a quote is said by an ip of its own.
    talk.ask("address add 192.0.2.7/24 dev a\"b")
    talk.ask(CALLS[1])
    talk.ask("dump")
    put("")
    pathlib.Path(os.environ["FAKE_IP"] + ".go").touch()
    time.sleep(0.5)
    talk.ask(CALLS[1])


def late_batch(talk):
    put("hang batch")
    talk.ask(CALLS[0])
    talk.ask("dump")
    put("")
    pathlib.Path(os.environ["FAKE_IP"] + ".go").touch()
    time.sleep(0.5)
    talk.ask(CALLS[0])


def bad_dump(talk, mode):
    talk.ask(CALLS[0])
    put(mode)
    talk.ask("dump")
    put("")
    pathlib.Path(os.environ["FAKE_IP"] + ".go").touch()
    time.sleep(0.3)
    talk.ask(CALLS[1])


def dead_batch(talk):
    put("die batch")
    talk.ask(CALLS[0])
    put("")
    talk.ask(CALLS[0])


CASES = {"killed_at": killed_at, "far_end_killed_after": far_end_killed_after, "without_end": without_end, "in_pieces": in_pieces,
         "long_answer": long_answer, "nobody_hears": nobody_hears, "said": said, "long_line": long_line, "many_at_once": many_at_once, "device_deleted": device_deleted, "hung_up": hung_up,
         "interrupted": interrupted, "terminated": terminated, "late_call": late_call, "late_batch": late_batch, "bad_dump": bad_dump,
         "dead_batch": dead_batch}

if __name__ == "__main__":
    name, _, argument = sys.argv[1].partition(":")
    talk = Talk(sys.argv[2])
    if name == "said":
        CASES[name](talk, bytes.fromhex(argument))
    elif argument.isdigit():
        CASES[name](talk, int(argument))
    else:
        CASES[name](talk, *([argument] if argument else []))
