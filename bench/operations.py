#!/usr/bin/env -S python3 -B
# Replays schedules of mixed operations over 1,000 keys with the built program: each of the eight kinds as often as the
# others. Prints the least processor time of three runs of 10,000, 40,000 and 100,000 lines, each against the first, the
# longest against as many plain puts over the same keys, and its peak of memory against the size of its text. Then prints a
# ledger of 8 MiB of frames by the line `ledger`, and the time of that against `od -An -tx1` over the same bytes.
# Fails where 100,000 lines take 12 times as long as 10,000 or more, or five times as long as plain puts or more, where the
# peak is 40 times the text or more, or where printing takes ten times as long as `od` or more.
import random
import sys
import tempfile

import program


def operation(draw):
    key = f"{draw.randrange(1000):04x}"
    return draw.choice([
        f"get public:t {key}",
        f"has public:t {key}",
        f"put public:t {key} {draw.randrange(256):016x}",
        f"remove public:t {key}",
        f"add public:n {key} 1",
        f"check public:t {key} -",
        f"follow public:t {key} public:u",
        "size public:t",
    ])


def mixed(count):
    draw = random.Random(1)
    return [program.WORLD] + [f"submit 1 {operation(draw)}" for _ in range(count - 1)]


def puts(count):
    draw = random.Random(1)
    return [program.WORLD] + [
        f"submit 1 put public:t {draw.randrange(1000):04x} {draw.randrange(256):016x}" for _ in range(count - 1)]


def measure(work, schedule):
    time, peak, size, lines = program.replay(work, schedule, 3)
    assert len(lines) == len(schedule)
    return time, peak / size


def has_straight_curve(work):
    times = {}
    for count in (10_000, 40_000, 100_000):
        times[count], peak = measure(work, mixed(count))
        print(f"{count:,} mixed lines {times[count]:.3f} s, ratio {times[count] / times[10_000]:.1f}")
    plain, _ = measure(work, puts(100_000))
    print(f"100,000 plain puts {plain:.3f} s, ratio {times[100_000] / plain:.2f}; peak {peak:.1f} times the text")
    return times[100_000] < 12 * times[10_000] and times[100_000] < 5 * plain and peak < 40


# The values are random, as od writes lines that repeat as one.
def prints_ledger(work):
    draw = random.Random(2)
    large = [program.WORLD] + [f"submit 1 put public:t {n:02x} {draw.randbytes(65536).hex()}" for n in range(64)]
    without, _, _, _ = program.replay(work, large, 3)
    with_ledger, _, _, lines = program.replay(work, large + ["ledger 1"], 3)
    frames = b"".join(bytes.fromhex(line.split(" ")[2]) for line in lines if line.startswith("entry "))
    with open(f"{work}/frames", "wb") as file:
        file.write(frames)
    printing = max(with_ledger - without, 0.001)
    dumping = min(program.run(["od", "-An", "-tx1"], f"{work}/frames", f"{work}/dump")[0] for _ in range(3))
    ratio = printing / dumping
    print(f"ledger of {len(frames) / 1e6:.1f} MB printed in {printing:.3f} s, od in {dumping:.3f} s, ratio {ratio:.2f}")
    return ratio < 10


program.build()
with tempfile.TemporaryDirectory() as work:
    straight = has_straight_curve(work)
    printed = prints_ledger(work)
sys.exit(0 if straight and printed else 1)
