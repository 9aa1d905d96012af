#!/usr/bin/env -S python3 -B
# Makes and audits ledgers of 1,000, 10,000 and 100,000 requests by `load` of the built program. Prints the least processor time
# of three runs of each, and beside it that of the digests that it needs: those of the keys that it grows, of each entry twice,
# as it is made and as it is audited (its body, the two of its evidence, its leaf, the reply, and a node of the tree), and of
# the chains of each signature. Fails where 100,000 requests don't take below 12 times 10,000, where they take more than 1.5
# times their digests, or where their peak of memory isn't below three times the ledger's bytes and 64 MiB.
import os
import sys
import tempfile

import program

SEED = "00" * 32
SMALL, LARGE = 10_000, 100_000
# What stands in a frame before the body.
HEAD = 8
# A one-time key of LMOTS_SHA256_N32_W4 (RFC 8554, section 4): its chains, the steps of a chain, and the bytes of its public key
# with what is hashed before them.
CHAINS, STEPS, PUBLIC = 67, 15, 22 + 67 * 32
ONE_TIME = CHAINS + CHAINS * STEPS + program.blocks(PUBLIC)
# A leaf, and a node of the tree of a key.
LEAF, NODE = program.blocks(22 + 32), program.blocks(22 + 64)


# The digests of a key whose tree has this height.
def key(height):
    return 2**height * (ONE_TIME + LEAF) + (2**height - 1) * NODE


# The digests of a load, by the six lines that it told: the keys are those of the node, with 1,024 leaves, of the service, of its
# member, and of node 1 of a schedule with the same seed.
def digests(told):
    entries, signatures, size = told["entries"], told["signatures"], told["bytes"]
    signature = ONE_TIME + LEAF + 10 * NODE
    body = program.blocks((size - HEAD * entries) // entries)
    return key(10) + 3 * key(5) + signatures * signature + 2 * entries * (body + 2 + 2 + 2 + 1 + 2)


# The least processor time of three runs, the greatest peak, and what was reported.
def load(work, count):
    out = f"{work}/told"
    command = [program.PROGRAM, "load", "--count", str(count), "--seed", SEED]
    runs = [program.run(command, os.devnull, out) for _ in range(3)]
    with open(out) as file:
        lines = dict(line.split() for line in file)
    told = {name: int(lines[name]) for name in ("entries", "signatures", "bytes", "keys")}
    made = -(-count // 100)
    assert told["entries"] == 2 + count + made and told["signatures"] == 1 + made, lines
    assert lines["last"] == f"2.{told['entries']}", lines
    return min(time for time, _ in runs), max(peak for _, peak in runs), told


program.build()
with tempfile.TemporaryDirectory() as work:
    one, times = program.digest(work), {}
    for count in [1_000, SMALL, LARGE]:
        times[count], peak, told = load(work, count)
        needed = digests(told) * one
        ratio = times[count] / needed
        print(
            f"{count:,} requests: {times[count]:.3f} s, digests {needed:.3f} s, ratio {ratio:.2f}; "
            f"peak {peak / 2**20:.1f} MiB for {told['bytes'] / 2**20:.1f} MiB"
        )
growth = times[LARGE] / times[SMALL]
print(f"{LARGE:,} requests to {SMALL:,}: {growth:.1f}")
sys.exit(0 if growth < 12 and ratio <= 1.5 and peak < 3 * told["bytes"] + 64 * 2**20 else 1)
