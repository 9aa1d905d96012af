#!/usr/bin/env -S python3 -B
"""Makes requests of governance from the tables of their fields: with nothing but SHA-256.

    make.py

It prints the bytes of a request of each kind, as runs of one byte: (byte, count). Then come what a
member signs for the ballot, the actions without their count, a dealing, and two identifiers, a node's
and a proposal's. The tests of crates/t_nodes hold the same bytes.
"""

import hashlib
import struct


def u8(n):
    return struct.pack("<B", n)


def u16(n):
    return struct.pack("<H", n)


def sized(data):
    return struct.pack("<I", len(data)) + data


def counted(parts):
    return u8(len(parts)) + b"".join(parts)


def fill(byte, count):
    return bytes([byte]) * count


def node(key, endorsement):
    return fill(key, 56) + sized(endorsement)


def member(number, key):
    return u8(number) + fill(key, 60)


def dealing(threshold, secret, shares):
    return u8(threshold) + fill(secret, 32) + counted([u8(m) + fill(d, 32) for m, d in shares])


def rules(pairs):
    return b"".join(u16(num) + u16(den) for num, den in pairs)


SIGNATURE = fill(0xCC, 3)
IDENTITY = fill(9, 60)
NODES = counted([node(7, b"\xaa"), node(8, b"")])
MEMBERS = counted([member(4, 3), member(200, 32)])
DEALING = dealing(2, 5, [(4, 6), (200, 7)])
ACTIONS = [
    u8(1) + member(9, 1),
    u8(2) + u8(200),
    u8(3) + DEALING,
    u8(4) + fill(12, 32),
    u8(5) + fill(13, 32),
    u8(6),
    u8(7) + rules([(1, 2), (2, 3), (513, 1027), (0, 1), (65535, 65535), (1, 1), (3, 4)]),
]


def asked(tag, number, fields):
    """A member's request without its signature."""
    return u8(tag) + u8(number) + fields


ALL_ACTIONS = asked(6, 4, counted(ACTIONS))
BALLOT = asked(7, 200, fill(14, 32) + u8(1))

SPELLED = {
    "genesis": u8(1) + u8(2) + IDENTITY + NODES + MEMBERS + DEALING,
    "recovery": u8(2) + fill(10, 60) + NODES,
    "join": u8(3) + node(7, b"\xaa"),
    "mark": u8(4) + fill(11, 32),
    "ack": asked(5, 1, b"") + sized(SIGNATURE),
    "proposal": asked(6, 255, counted([u8(6)])) + sized(SIGNATURE),
    "all_actions": ALL_ACTIONS + sized(SIGNATURE),
    "ballot": BALLOT + sized(SIGNATURE),
    "withdrawal": asked(8, 4, fill(14, 32)) + sized(SIGNATURE),
    "share": asked(9, 4, fill(15, 32)) + sized(SIGNATURE),
    "signed_ballot": b"gl-gov1" + IDENTITY + BALLOT,
    "actions": b"".join(ACTIONS),
    "dealing": DEALING,
}


def runs(data):
    found = []
    for byte in data:
        if found and found[-1][0] == byte:
            found[-1][1] += 1
        else:
            found.append([byte, 1])
    return ", ".join(f"({byte}, {count})" for byte, count in found)


def main():
    for name, data in SPELLED.items():
        print(f"{name}: {len(data)} bytes: {runs(data)}")
    print("node:", hashlib.sha256(fill(7, 56)).hexdigest())
    print("all_actions:", hashlib.sha256(SPELLED["all_actions"]).hexdigest())


main()
