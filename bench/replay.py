#!/usr/bin/env -S python3 -B
# Replays schedules of 10,000 and of 100,000 lines with the built program: mostly submits, and the 31 signatures that a key
# of 32 leaves has left, evenly spread, each reserved before it and committed after it. Prints the least processor time of
# five runs of each, the ratio of both, and for the longer one the peak of memory against the size of its text. Fails where
# the ratio isn't below 12 or the peak isn't below 40 times the text.
import sys
import tempfile

import program


def schedule(count):
    space = count // 32
    lines = [program.WORLD]
    for n in range(count - 1):
        turn, place = divmod(n, space)
        event = ["reserve 1", "sign 1", "advance 1"][place - 1] if turn < 31 and 0 < place < 4 else None
        lines.append(event or f"submit 1 put public:t {n:08x} 0123")
    return lines


def measure(work, count):
    time, peak, size, lines = program.replay(work, schedule(count), 5)
    assert len(lines) == count and sum(" signed " in line for line in lines) == 31
    assert not any(" refused " in line for line in lines)
    return time, peak, size


program.build()
with tempfile.TemporaryDirectory() as work:
    small, _, _ = measure(work, 10_000)
    large, peak, size = measure(work, 100_000)
print(f"10,000 lines {small:.3f} s, 100,000 lines {large:.3f} s, ratio {large / small:.1f}")
print(f"peak {peak / 1e6:.1f} MB for a text of {size / 1e6:.1f} MB, ratio {peak / size:.1f}")
sys.exit(0 if large / small < 12 and peak / size < 40 else 1)
