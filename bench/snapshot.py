#!/usr/bin/env -S python3 -B
# Measures snapshots, with the built program, in processor time.
#
# - Evidence over 95,000 keys (a schedule has 100,000 lines at most), made right after a signature, 20 times, in a replay. The time
#   of one is what the replay takes more than one with the same lines but without evidence, each the least of three. Fails where it
#   takes more than twice the hashing of the body once, by the blocks that its bytes have.
# - A new node that begins from a snapshot of 100,000 and of 1,000,000 puts over 1,000 keys: the time from its start until it serves,
#   the least of three, and what it holds then. Its key has 32 leaves, so that growing the key hides little. Fails where either is
#   more than 1.5 times as much for ten times the entries.
# - The same with a key of 1,024 leaves, beside the start of the node that gave the snapshot, which has such a key and all entries.
#   Fails where the time, or the snapshot's bytes, aren't less than those of the ledger.
# - A snapshot of some 70 MiB, part by part. Fails where a later part takes the node more than a tenth of the first one, for which the
#   bytes are made; where the node holds more afterwards than twice these bytes above what it held before; or where a node that began
#   from them holds more than four times their number.
#
# With --quick ledgers of 10,000 and 100,000 puts.
import os
import sys
import tempfile
from pathlib import Path

import program
from node import CONNECTIONS, KEYS, Services, drive, frame_of_put, held, is_accepted, used
from client import SUBMIT, Client, base_of, fetch, put, question, request
from export import entries_of
from service import limit_time, nodes_of, within

QUICK = sys.argv[1:] == ["--quick"]
PUTS = (10_000, 100_000) if QUICK else (100_000, 1_000_000)
GROWTH = 1.5
DUE = 1_000  # so many entries after the last evidence, or somewhat more, a leader makes the next

EVIDENCE_KEYS, EVIDENCES = 95_000, 20
# Of a row its map with a length, its key with one of two bytes, its value of two bytes with one of four.
ROW = 1 + len("public:t") + 2 + 4 + 4 + 2

LARGE_KEYS, LARGE = DUE + 100, 65_536
LATER_PART, KEPT, BEGUN = 0.1, 2, 4


# ---- Evidence


# A service that takes so many puts, each of a key of its own, and signs so many times; where asked, with evidence after each.
def schedule(is_evident):
    lines = [program.WORLD]
    lines += [f"submit 1 put public:t {n:08x} 0123" for n in range(EVIDENCE_KEYS)]
    for _ in range(EVIDENCES):
        lines += ["reserve 1", "sign 1", "advance 1"] + (["evidence 1"] if is_evident else [])
        lines.append("submit 1 put public:t 00000000 0123")
    return lines


# The least processor time of three replays, of which each signature, and each evidence, was made.
def replay(work, is_evident):
    time, _, _, answers = program.replay(work, schedule(is_evident), 3)
    assert not any("refused" in line for line in answers)
    assert sum("signed" in line for line in answers) >= EVIDENCES * (2 if is_evident else 1)
    return time


def evidence_is_fast(work):
    one = program.digest(work)
    evidence = (replay(work, True) - replay(work, False)) / EVIDENCES
    digest = program.blocks(EVIDENCE_KEYS * ROW) * one
    ratio = evidence / digest
    print(f"evidence over {EVIDENCE_KEYS:,} keys: {1000 * evidence:.1f} ms, hashing its body {1000 * digest:.1f} ms, ratio {ratio:.1f}, at most 2")
    return ratio <= 2


# ---- Snapshots and those who begin from them


# The snapshot that a node offers of so many entries at least, once its ticks have signed the evidence. `progress` is told before each
# try, and of each part.
def snapshot_of(node, least, progress=lambda got, total: None):
    client = Client(node.address, 60)

    def found():
        progress(0, 0)
        snapshot = fetch(client, progress)
        return isinstance(snapshot, bytearray) and base_of(snapshot) >= least and snapshot

    snapshot = within(60, found, f"a snapshot of {least:,} entries")
    client.close()
    return snapshot


# A new node, in the folder of another one, with such a key.
def newcomer(services, node, types):
    form = node.program.keygen(types, "node", types)
    [new] = nodes_of(node.program, [types], [form["node"]])
    services.nodes.append(new)
    return new


# The time from a node's start until it serves, and what it holds then: of three starts the shortest. Before each its file is put
# back as it was.
def start(node, given):
    file, starts = node.program.folder / f"{node.name}.key", []
    kept = file.read_bytes()
    for _ in range(3):
        file.write_bytes(kept)
        node.begin([], 20, given)
        within(600, node.standing, f"{node.name} serves")
        starts.append((used(node), held(node, "VmRSS")))
        node.stop()
    return min(starts)


# What a start costs from the snapshot of so many puts, and whether it costs less than one from their ledger.
def starts(folder, services, puts):
    node = services.begin(folder, 1)[0]
    done, took = drive(node.address, CONNECTIONS, frame_of_put, is_accepted, count=puts)
    snapshot = snapshot_of(node, puts - DUE)
    node.stop()
    Path(f"{folder}/snapshot").write_bytes(snapshot)
    ledger = sum(map(len, entries_of(Path(f"{folder}/node1.key").read_bytes())))
    small, same = (start(newcomer(services, node, types), "snapshot") for types in ("h5w4", "h10w4"))
    whole = start(node, "opening.ledger")
    print(f"{done:,} puts over {KEYS:,} keys, {done / took:.0f} a second in memory: the snapshot has {len(snapshot):,} bytes, the ledger {ledger:,}")
    print(f"  a start from the snapshot takes {same[0]:.3f} s and holds {same[1] / 2**20:.1f} MiB, from the ledger {whole[0]:.3f} s and {whole[1] / 2**20:.1f} MiB; "
          f"with a key of 32 leaves {small[0]:.3f} s and {small[1] / 2**20:.1f} MiB")
    return small, len(snapshot) < ledger and same[0] < whole[0]


def begins_fast(folder, services):
    (few, saves), (many, saves_more) = (starts(f"{folder}/{puts}", services, puts) for puts in PUTS)
    time, memory = (large / small for small, large in zip(few, many))
    print(f"from a snapshot of ten times the entries: {time:.2f} times the time and {memory:.2f} times the memory, at most {GROWTH}")
    return saves and saves_more and max(time, memory) <= GROWTH


# ---- Parts


# The frame of a put of a large value, at a key of its own.
def frame_of_large_put(n):
    return question(SUBMIT, n, request(put(b"public:t", b"%08d" % n, bytes(LARGE))))


# A node's snapshot, and of each of its parts the time that the node took for it. None was asked for before.
def fetched_part_by_part(node):
    readings = []

    def read(got, total):
        if got == 0:
            readings.clear()
        readings.append(used(node))

    snapshot = snapshot_of(node, DUE, read)
    return snapshot, [after - before for before, after in zip(readings, readings[1:])]


def parts_are_fast(folder, services):
    node = services.begin(folder, 1)[0]
    drive(node.address, 1, frame_of_large_put, is_accepted, count=LARGE_KEYS)
    before = held(node, "VmRSS")
    snapshot, (first, *others) = fetched_part_by_part(node)
    kept, size = held(node, "VmRSS") - before, len(snapshot)
    node.stop()
    later = sum(others) / len(others)
    Path(f"{folder}/snapshot").write_bytes(snapshot)
    begun = start(newcomer(services, node, "h5w4"), "snapshot")
    print(f"a snapshot of {size / 2**20:.1f} MiB: its first part takes {first * 1000:.1f} ms, each of {len(others)} others {later * 1000:.2f} ms, "
          f"{later / first:.3f} times, at most {LATER_PART}")
    print(f"  the node holds {kept / 2**20:.1f} MiB more then, {kept / size:.2f} times its bytes, at most {KEPT}; who begins from it takes {begun[0]:.3f} s "
          f"and holds {begun[1] / 2**20:.1f} MiB, {begun[1] / size:.2f} times, at most {BEGUN}")
    return later <= LATER_PART * first and kept <= KEPT * size and begun[1] <= BEGUN * size


def main():
    if sys.argv[1:] not in ([], ["--quick"]):
        sys.exit("snapshot.py [--quick]")
    program.build()
    limit_time(1800)
    services = Services()
    memory = "/dev/shm" if os.path.isdir("/dev/shm") else os.getcwd()
    try:
        with tempfile.TemporaryDirectory(dir=memory) as work:
            kept = [evidence_is_fast(work), begins_fast(work, services), parts_are_fast(f"{work}/large", services)]
    finally:
        services.end()
    sys.exit(0 if all(kept) else 1)


main()
