#!/usr/bin/env -S python3 -B
# Replays schedules of several nodes with the built program, and prints the least processor time of three runs of each, less
# that of founding the service where it says so. Node 1 leads and takes puts; after each 50 of them they are sent to each other
# node, and its answer comes back. Nothing is signed after the opening. Fails where a put at three nodes costs more than 3.6
# times a put at one, or where 100,000 lines of three nodes don't take below 12 times 10,000. Prints beside it what an election
# among nine nodes takes, in which every node is asked and the fifth vote wins.
import sys
import tempfile

import program

PUTS, ELECTIONS = 30_000, 400


def world(nodes):
    return f"world {nodes} 0 1 open " + "00" * 32


# The lines of 50 puts, and of what follows them, where so many were taken and so many messages sent.
def turn(nodes, taken, sent):
    lines = [f"submit 1 put public:t {n:08x} 0123" for n in range(taken, taken + 50)]
    for other in range(2, nodes + 1):
        lines += [f"replicate 1 {other}", f"deliver {sent + 1}", f"deliver {sent + 2}"]
        sent += 2
    return lines, sent


# A service that takes so many puts, cut to so many lines where that is asked.
def puts(nodes, count, length=None):
    lines, sent = [world(nodes)], 0
    for taken in range(0, count, 50):
        more, sent = turn(nodes, taken, sent)
        lines += more
    return lines[:length]


# Nine nodes that elect a leader so many times. Each time all eight others are asked, and four of their votes come back.
def elections(count):
    lines = [world(9)]
    for n in range(count):
        sent = 16 * n
        lines.append(f"timeout {2 + n % 8}")
        lines += [f"deliver {sent + k}" for k in [1, 2, 3, 4, 5, 6, 7, 8, 9, 10, 11, 12]]
    return lines


def measure(work, lines):
    time, _, _, answers = program.replay(work, lines, 3)
    assert len(answers) == len(lines)
    assert not any(" refused " in line or line.endswith(" idle") for line in answers)
    return time, sum(line.endswith(" leader") for line in answers)


program.build()
with tempfile.TemporaryDirectory() as work:
    founding = {nodes: measure(work, [world(nodes)])[0] for nodes in [1, 3, 9]}
    one, three = (measure(work, puts(nodes, PUTS))[0] - founding[nodes] for nodes in [1, 3])
    small, large = (measure(work, puts(3, length, length))[0] for length in [10_000, 100_000])
    time, won = measure(work, elections(ELECTIONS))
    assert won == ELECTIONS
cost, growth = three / one, large / small
print(f"{PUTS:,} puts at one node {one:.3f} s, at three {three:.3f} s, ratio {cost:.1f}")
print(f"three nodes: 10,000 lines {small:.3f} s, 100,000 lines {large:.3f} s, ratio {growth:.1f}")
print(f"an election among nine nodes {(time - founding[9]) / ELECTIONS * 1000:.2f} ms; founding them {founding[9]:.3f} s")
sys.exit(0 if cost <= 3.6 and growth < 12 else 1)
