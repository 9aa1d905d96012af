#!/usr/bin/env -S python3 -B
# Measures what a replay costs against the SHA-256 digests that it needs: beginning a service of 64 members, whose 66 keys are
# made from their seeds, and 10,000 puts with the 31 signatures that a key of 32 leaves has left. All times are least processor
# times of whole runs of the built program, each divided by the time of as many digests of one block, of a program that does
# nothing else. Fails where one is above its limit.
import sys
import tempfile

import program

LIMITS = {"begin with 64 members": 1.25, "10,000 puts and 31 signatures": 1.7}
LEAVES, CHAINS, ROUNDS = 32, 67, 5

# Of a key: each chain's secret and its 15 steps, the key and the node of each leaf, and the nodes above.
KEY = LEAVES * (CHAINS * 16 + program.blocks(22 + 32 * CHAINS) + program.blocks(54)) + (LEAVES - 1) * program.blocks(86)

# A signature's chains, whose digits are 7 or 8 at the mean, the message's digest, and the randomizer.
SIGNATURE = CHAINS * 8 + program.blocks(54 + 52) + 1


# Of an entry whose body has so many bytes: the body's digest, that of the reply, the two of its commit evidence, its leaf, and
# one node of the tree.
def entry(body, reply):
    parts = [body, 72, 76, 96, 64] + ([reply] if reply else [])
    return sum(program.blocks(length) for length in parts)


def members():
    return ["world 1 0 64 open " + "07" * 32]


def puts():
    lines = [program.WORLD]
    for n in range(10_000):
        lines.append(f"submit 1 put public:t {n:08x} 0123")
        if n % 320 == 319:
            lines += ["reserve 1", "sign 1", "advance 1"]
    return lines


def main():
    program.build()
    ratios = {}
    with tempfile.TemporaryDirectory() as work:
        one = program.digest(work)
        time, _, _, lines = program.replay(work, members(), ROUNDS)
        assert lines == ["1 ok"], lines
        ratios["begin with 64 members"] = time / (66 * KEY * one)
        time, _, _, lines = program.replay(work, puts(), ROUNDS)
        assert sum(" signed " in line for line in lines) == 31 and not any(" refused " in line for line in lines)
        needed = 3 * KEY + 33 * SIGNATURE + 10_000 * entry(99, 3) + 32 * (entry(4_885, 0) + 14 * program.blocks(64))
        ratios["10,000 puts and 31 signatures"] = time / (needed * one)
        for name, ratio in ratios.items():
            print(f"{name}: {ratio:.2f} times its digests, at most {LIMITS[name]}")
    sys.exit(0 if all(ratios[name] <= LIMITS[name] for name in LIMITS) else 1)


main()
