#!/usr/bin/env -S python3 -B
# Replays governance with the built program: 64 members acknowledge, and then propose and vote in turn, each request sent once
# and four times more (a repeated request is refused, as its leaf was used, once its signature was verified). Each round takes
# the processor time of beginning the service, of 1,000 and of 10,000 such lines; of each the median of nine rounds counts, as
# beginning takes most of the shorter run and a machine's speed changes meanwhile. Prints the ratio of the two without that of
# beginning, and the time of the longer one without that of signing too, against that of the SHA-256 digests that its 10,000
# verified signatures need.
# Then a service that nine nodes joined takes 150 and 1,500 proposals of two actions, each of which is tried after the one before
# it; more than 1,500 the 64 keys of 32 leaves can't sign. Every 200th sets the constitution, so that it drops those that are open,
# of which there may be 256. Prints the ratio of these two as well, without that of beginning.
# Fails where the first or the last isn't below 12, or the second is above 1.5.
import json
import sys
import tempfile
from statistics import median

import program

MEMBERS, CHAINS, REPEATS, ROUNDS = 64, 67, 4, 9
WORLD = f"world 1 0 {MEMBERS} open " + "07" * 32
NAMES = ["set_member", "remove_member", "set_recovery_threshold", "transition_node_to_trusted", "remove_node",
         "transition_service_to_open", "set_constitution"]
ACTION = {"name": "set_constitution", "args": {"rules": {name: [1, 2] for name in NAMES}}}
PROPOSAL = json.dumps({"actions": [ACTION]}, separators=(",", ":"))

# Of a signature: the message's digest, each chain's steps at the mean, and where it is verified the key of its leaf, the leaf and
# the path above it; where it is made each chain's secret and the randomizer.
MESSAGE = program.blocks(54 + 200)
VERIFIED = MESSAGE + CHAINS * 8 + program.blocks(22 + 32 * CHAINS) + program.blocks(54) + 5 * program.blocks(86)
MADE = MESSAGE + CHAINS * 8 + CHAINS + 1


# What the members ask for, in turn: all acknowledge, and then each 34 requests are a proposal and the 33 ballots that accept it.
def requests(count):
    for n in range(count):
        member, turn = n % MEMBERS + 1, (n - MEMBERS) % 34
        if n < MEMBERS:
            yield f"ack 1 {member}"
        elif turn == 0:
            yield f"propose 1 {member} {PROPOSAL}"
        else:
            yield f"ballot 1 {member} {(n - MEMBERS) // 34 + 1} yes"


def schedule(count):
    lines = [WORLD]
    for request in requests(count // (REPEATS + 1)):
        lines.append(request)
        lines += [f"again 1 {len(lines)}"] * REPEATS
    return lines


def measure(work, count):
    time, _, _, lines = program.replay(work, schedule(count), 1)
    made = count // (REPEATS + 1)
    assert sum(" accepted " in line for line in lines) == made, lines[:200]
    assert sum(" refused 43 " in line for line in lines) == made * REPEATS
    assert sum(line.endswith(" Accepted") for line in lines) == (made - MEMBERS) // 34
    return time


# The second service: all nodes join and all members acknowledge, and 33 of them agree that from then on one who agrees is enough.
JOINERS, CLEARED = 9, 200
JOINED = f"world 1 {JOINERS} {MEMBERS} open " + "07" * 32
EASY = {"name": "set_constitution", "args": {"rules": {name: [0, 1] for name in NAMES}}}
TRUSTS = [{"name": "transition_node_to_trusted", "args": {"node": f"#{node}"}} for node in (2, 3)]
CLEARS, PAIR = (json.dumps({"actions": actions}, separators=(",", ":")) for actions in ([EASY, EASY], TRUSTS))


# The requests before the proposals of which the time is taken, and these: each is left open until one clears them.
def prepared():
    yield from (f"join 1 {node}" for node in range(2, 2 + JOINERS))
    yield from (f"ack 1 {member}" for member in range(1, MEMBERS + 1))
    yield f"propose 1 {MEMBERS} {CLEARS}"
    yield from (f"ballot 1 {member} 1 yes" for member in range(1, 34))


def pairs(count):
    for n in range(count):
        member = n % MEMBERS + 1
        if n % CLEARED < CLEARED - 1:
            yield f"propose 1 {member} {PAIR}"
        else:
            yield f"propose 1 {member} {CLEARS}"
            yield f"ballot 1 {member % MEMBERS + 1} {n + 2} yes"


def measure_pairs(work, count):
    asked = [*prepared(), *pairs(count)]
    time, _, _, lines = program.replay(work, [JOINED, *asked], 1)
    assert sum(" accepted " in line for line in lines) == len(asked), lines[:200]
    assert sum(line.endswith(" Accepted") for line in lines) == 1 + count // CLEARED
    return time


program.build()
times = []
paired = []
with tempfile.TemporaryDirectory() as work:
    one = program.digest(work)
    for _ in range(ROUNDS):
        begin = program.replay(work, [WORLD, *requests(MEMBERS)], 1)[0]
        times.append((begin, measure(work, 1_000), measure(work, 10_000)))
        paired.append(tuple(measure_pairs(work, count) for count in (0, 150, 1_500)))
begin, few, many = map(median, zip(*paired))
growth = (many - begin) / (few - begin)
begin, small, large = map(median, zip(*times))
ratio = (large - begin) / (small - begin)
without_signing = large - begin - (10_000 // (REPEATS + 1) - MEMBERS) * MADE * one
share = without_signing / ((10_000 - MEMBERS) * VERIFIED * one)
print(f"10,000 lines take {ratio:.1f} times 1,000, at most 12")
print(f"10,000 lines without signing take {share:.2f} times the digests of their signatures, at most 1.5")
print(f"1,500 proposals of two actions take {growth:.1f} times 150, at most 12")
sys.exit(0 if ratio < 12 and share <= 1.5 and growth < 12 else 1)
