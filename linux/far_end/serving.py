"""Requests that come in, and the answers to them."""
import os
import struct
import sys

from .errors import Fault, Refused
from .requests import DONE, DUMP, FAULT, NETWORK, REFUSED, make_call

# The longest line of a call has some thousand bytes.
MOST_LINE_BYTES = 65536


def say(*words):
    print(*words, file=sys.stderr, flush=True)


def answer(machine, line):
    try:
        machine.ip.settle()
        if line == DUMP:
            return NETWORK + machine.dump()
        make_call(machine, line)
        return DONE
    except Refused as e:
        say("refused:", e)
        return REFUSED + bytes([e.number])
    except Exception as e:                      # what can't be read is a fault, and never a guess
        say("fault:", e if isinstance(e, Fault) else repr(e))
        machine.is_known = False
        return FAULT


def framed(data):
    """An answer after its length."""
    return struct.pack(">I", len(data)) + data


def lines_of(requests):
    """The whole lines of a stream; what isn't ended by a line's end isn't one. Of a line that is too long for a call only the
    beginning is kept, which is none."""
    rest = b""
    while piece := os.read(requests, MOST_LINE_BYTES):
        *lines, rest = (rest + piece).split(b"\n")
        rest = rest[:MOST_LINE_BYTES]
        for line in lines:
            yield line.decode("latin-1")


def serve(machine, requests, answers):
    """Answers requests until their stream ends, or nobody hears the answers."""
    for line in lines_of(requests):
        data = framed(answer(machine, line))
        try:
            while data:
                data = data[os.write(answers, data):]
        except BrokenPipeError:
            return
