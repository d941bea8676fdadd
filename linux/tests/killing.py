#!/usr/bin/env python3
"""Stands between the far end and the proved program. Once the program made its request number $KILL_AT (from 1) this kills it, and as the
program it then ends by that signal; with $KILL_BY=hang-up all get a SIGHUP and go on, and with $KILL_BY=cut the pipe of
requests is closed. Usage: killing.py WORDS.., with $PROGRAM"""
import os
import signal
import subprocess
import sys
import threading

REQUESTS, ANSWERS = 3, 4


def copy(source, target):
    while piece := os.read(source, 65536):
        os.write(target, piece)
    os.close(target)


def main(words):
    wanted = int(os.environ["KILL_AT"])
    asked, asking = os.pipe()
    hearing, heard = os.pipe()
    own_requests, own_answers = os.dup(REQUESTS), os.dup(ANSWERS)
    os.dup2(asking, REQUESTS)
    os.dup2(hearing, ANSWERS)
    program = subprocess.Popen([os.environ["PROGRAM"], *words], pass_fds=(REQUESTS, ANSWERS), restore_signals=False)
    for it in (asking, hearing, REQUESTS, ANSWERS):
        os.close(it)
    threading.Thread(target=copy, args=(own_answers, heard), daemon=True).start()
    count, by = 0, os.environ.get("KILL_BY")
    while piece := os.read(asked, 65536):
        os.write(own_requests, piece)
        is_before, count = count < wanted, count + piece.count(b"\n")
        if is_before and count >= wanted:
            if by == "hang-up":
                os.killpg(os.getpgid(0), signal.SIGHUP)
            elif by == "cut":
                break
            else:
                program.kill()
                program.wait()
                os.kill(os.getpid(), signal.SIGKILL)
    # The far end ends, and with it the answers.
    os.close(asked)
    os.close(own_requests)
    sys.exit(program.wait())


if __name__ == "__main__":
    main(sys.argv[1:])
