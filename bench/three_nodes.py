#!/usr/bin/env -S python3 -B
# Runs examples/three-nodes with the built program in a folder of its own: no measure, but a test of the whole, in which a leader is
# killed. Prints what was seen there, and how long it took. Fails where something wasn't as its page says, or where it takes more
# than LIMIT seconds; then the run is ended with all its nodes. With --all each command and what it tells is printed too.
import os
import signal
import subprocess
import sys
import tempfile
import time

import program

RUN = os.path.join(os.path.dirname(os.path.abspath(__file__)), "..", "examples", "three-nodes", "run.py")
LIMIT = 270


# What a run prints, and whether it ended well in its time.
def play(folder):
    command = [sys.executable, "-B", RUN, program.PROGRAM, folder]
    process = subprocess.Popen(command, stdout=subprocess.PIPE, stderr=subprocess.STDOUT, text=True, start_new_session=True)
    try:
        text, _ = process.communicate(timeout=LIMIT)
    except subprocess.TimeoutExpired:
        # The run and its nodes are the processes of this group.
        os.killpg(process.pid, signal.SIGKILL)
        text, _ = process.communicate()
        return text, False
    return text, process.returncode == 0


def main():
    if sys.argv[1:] not in ([], ["--all"]):
        sys.exit("three_nodes.py [--all]")
    program.build()
    with tempfile.TemporaryDirectory(dir=os.getcwd()) as folder:
        start = time.monotonic()
        text, well = play(folder)
        took = time.monotonic() - start
    whole = not well or sys.argv[1:] == ["--all"]
    print("\n".join(line for line in text.splitlines() if whole or line.startswith("# ")))
    print(f"{took:.0f} s, at most {LIMIT}" if well else "not as wanted")
    sys.exit(0 if well else 1)


main()
