#!/usr/bin/env -S python3 -B
# Audits ledgers of 1,000, 10,000 and 99,900 puts over 1,000 keys (a schedule has 100,000 lines at most), with the 31 signatures
# that a key of 32 leaves has left, evenly spread, which the built program made by a replay. Prints the least processor time of
# three audits of each; beside it the time of the digests that it needs (of each entry its body, the two of its evidence, its
# leaf, the reply, and a node of the tree), that of the audit less the signatures' verification, which a ledger of one put for
# each signature shows, and that of sha256sum over the file. Fails where 99,900 puts don't take below 12 times 10,000, where the audit
# without its signatures takes more than twice its digests, or where its peak of memory isn't below 64 MiB.
import os
import sys
import tempfile

import program

sys.path.insert(0, os.path.join(os.path.dirname(os.path.abspath(__file__)), "..", "examples", "audit"))
from make import SEED, ledger_in, service_key  # noqa: E402

SIGNATURES = 31
SMALL, LARGE = 10_000, 99_900
# What stands in a frame before the body.
HEAD = 8


# A service that takes so many puts, and signs as often as it can, each time after a put.
def schedule(puts):
    space = puts // SIGNATURES
    lines, signed = [program.WORLD], 0
    for n in range(puts):
        lines.append(f"submit 1 put public:t {n % 1000:08x} 0123")
        if n % space == 0 and signed < SIGNATURES:
            lines += ["reserve 1", "sign 1", "advance 1"]
            signed += 1
    return lines + ["ledger 1"]


# Makes the file of a ledger, and gives the lengths of its frames.
def make_ledger(work, path, puts):
    _, _, _, answers = program.replay(work, schedule(puts), 1)
    assert sum(" signed " in line for line in answers) == SIGNATURES
    assert not any(" refused " in line for line in answers)
    with open(path, "wb") as file:
        file.write(ledger_in("\n".join(answers)))
    return [len(line.split()[2]) // 2 for line in answers if line.startswith("entry ")]


# The least processor time of three audits in seconds, and the greatest peak of memory in bytes.
def audit(work, path):
    command = [program.PROGRAM, "audit", "--identity", service_key(SEED).hex()]
    runs = [program.run(command, path, f"{work}/told") for _ in range(3)]
    with open(f"{work}/told") as file:
        assert file.read().startswith("valid "), path
    return min(time for time, _ in runs), max(peak for _, peak in runs)


program.build()
with tempfile.TemporaryDirectory() as work:
    one, path = program.digest(work), f"{work}/ledger"
    make_ledger(work, path, SIGNATURES)
    signatures, _ = audit(work, path)
    times = {}
    for puts in [1_000, SMALL, LARGE]:
        frames = make_ledger(work, path, puts)
        times[puts], peak = audit(work, path)
        digests = sum(program.blocks(frame - HEAD) + 2 + 2 + 2 + 1 + 2 for frame in frames) * one
        plain = min(program.run(["sha256sum"], path, f"{work}/told")[0] for _ in range(3))
        rest = times[puts] - signatures
        print(
            f"{puts:,} puts: {times[puts]:.3f} s, without signatures {rest:.3f} s, digests {digests:.3f} s, "
            f"ratio {rest / digests:.1f}; sha256sum {plain:.3f} s; peak {peak / 2**20:.1f} MiB for {sum(frames) / 2**20:.1f} MiB"
        )
growth = times[LARGE] / times[SMALL]
print(f"{LARGE:,} puts to {SMALL:,}: {growth:.1f}")
sys.exit(0 if growth < 12 and rest <= 2 * digests and peak < 64 * 2**20 else 1)
