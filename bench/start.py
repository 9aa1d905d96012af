#!/usr/bin/env -S python3 -B
# Measures how a node starts on a long ledger. A node takes 1,000,000 puts over 1,000 keys, over 32 connections and with its file in
# memory, and is stopped. The ledger is read off its file and audited; then the node starts again, from its file alone. Prints the
# processor time from its start until it serves, against that of the audit, and the most that it held meanwhile.
# Fails where it takes more than 1.3 times the audit, or where its peak passes what it holds once it serves by more than its file
# and 64 MiB: so a start holds its file once.
#
# With --quick 100,000 puts.
import os
import sys
import tempfile
from pathlib import Path

import program
from node import CONNECTIONS, KEYS, ROOM, Services, drive, frame_of_put, held, is_accepted, used
from export import entries_of
from service import limit_time, within

QUICK = sys.argv[1:] == ["--quick"]
PUTS = 100_000 if QUICK else 1_000_000
BOUND = 1.3


# A node's folder after so many puts, in which its ledger stands, and the node.
def filled(folder, services):
    node = services.begin(folder, 1)[0]
    done, took = drive(node.address, CONNECTIONS, frame_of_put, is_accepted, count=PUTS)
    node.stop()
    print(f"{done:,} puts over {KEYS:,} keys: {done / took:.0f} a second, in memory")
    Path(f"{folder}/ledger").write_bytes(b"".join(entries_of(Path(f"{folder}/node1.key").read_bytes())))
    return node


# The time of an audit of the ledger in a folder, by the key of its service: the least of three.
def audit_time(folder, node):
    identity = next(value for value, word in node.program.words.items() if word == "$SERVICE")
    command = [program.PROGRAM, "audit", "--identity", identity]
    return min(program.run(command, f"{folder}/ledger", f"{folder}/verdict")[0] for _ in range(3))


# The time of a start from the node's file, what the node holds then, and the most that it held: the shortest of three.
def start(node):
    starts = []
    for _ in range(3):
        node.begin([], 20, "opening.ledger")
        within(600, node.standing, f"{node.name} serves")
        starts.append((used(node), held(node, "VmRSS"), held(node, "VmHWM")))
        node.stop()
    return min(starts)


def starts_fast(folder, services):
    node = filled(folder, services)
    size = os.path.getsize(f"{folder}/node1.key")
    audit, (took, after, peak) = audit_time(folder, node), start(node)
    print(f"a start takes {took:.2f} s, {took / audit:.2f} times the audit, at most {BOUND}")
    print(f"it holds {after / 2**20:.1f} MiB then, at its peak {peak / 2**20:.1f}; "
          f"its file has {size / 2**20:.1f}, and so the bound is {(after + size + ROOM) / 2**20:.1f}")
    return took <= BOUND * audit and peak <= after + size + ROOM


def main():
    if sys.argv[1:] not in ([], ["--quick"]):
        sys.exit("start.py [--quick]")
    program.build()
    limit_time(3600)
    services = Services()
    memory = "/dev/shm" if os.path.isdir("/dev/shm") else os.getcwd()
    try:
        with tempfile.TemporaryDirectory(dir=memory) as work:
            sys.exit(0 if starts_fast(f"{work}/one", services) else 1)
    finally:
        services.end()


main()
