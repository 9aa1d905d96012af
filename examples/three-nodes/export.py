#!/usr/bin/env -S python3 -B
"""Reads a node's file and writes its ledger, as `ccfg audit` takes it: the frames of its entries, one
after the other, committed or not.

    export.py FILE [LAST] > LEDGER

With LAST only the entries up to this seqno are written. It knows docs/FORMATS.md alone, and of the
README of crates/gl_journal, to which that page sends its reader, the bytes of a file. The node may be
running: what it is just writing stands after a gate that isn't open, and is left out. FILE is secret,
as it has the seed of the node's key; LEDGER isn't. It tries no rule: audit the ledger.

On the standard error it tells how many entries the file keeps, and how many leaves of the node's key
are spent, of how many.
"""
import sys
from pathlib import Path

HEADER, OPEN = b"GLJOURN1", 1
KEY, VOTE, CUT, APPEND, SIGNER, INSTALL, START = range(1, 8)
LEAVES = {1: 32, 2: 32, 3: 1024, 4: 1024}  # h5w4, h5w8, h10w4, h10w8


def little(data):
    return int.from_bytes(data, "little")


def front(data, at, size):
    """So many bytes at a place."""
    if at + size > len(data):
        sys.exit(f"the file is cut within what begins at {at}")
    return data[at : at + size]


def payloads_of(data):
    """The payloads after open gates, up to the first gate that isn't open."""
    if not data.startswith(HEADER):
        sys.exit("the file is no journal")
    at = len(HEADER)
    while data[at : at + 1] == bytes([OPEN]):
        size = little(front(data, at + 1, 4))
        yield front(data, at + 5, size)
        at += 5 + size


def records_of(payload):
    """The records of a batch: a kind and a body."""
    at = 0
    while at < len(payload):
        kind, size = payload[at], little(front(payload, at + 1, 4))
        yield kind, front(payload, at + 5, size)
        at += 5 + size


def folded(data):
    r"""The frames of the entries that a node's file keeps, and how many leaves it says are spent.

    >>> batch = lambda payload: b"\1" + len(payload).to_bytes(4, "little") + payload
    >>> record = lambda kind, body: bytes([kind]) + len(body).to_bytes(4, "little") + body
    >>> kept = batch(record(KEY, b"\2\1..")) + batch(record(APPEND, b"a") + record(APPEND, b"b"))
    >>> kept += batch(record(CUT, (1).to_bytes(8, "little")) + record(APPEND, b"c"))
    >>> kept += batch(record(SIGNER, (3).to_bytes(4, "little")))
    >>> folded(HEADER + kept + b"\0" + batch(record(APPEND, b"d"))[1:])
    ([b'a', b'c'], 3)
    """
    entries, spent = [], 0
    for payload in payloads_of(data):
        for kind, body in records_of(payload):
            if kind == CUT:
                del entries[little(body) :]
            elif kind == APPEND:
                entries.append(body)
            elif kind == SIGNER:
                spent = little(body)
            elif kind == INSTALL:
                sys.exit("the file has a snapshot")
    return entries, spent


def entries_of(data):
    return folded(data)[0]


def leaves_of(data):
    """How many leaves the key has: the first record is the key, and names its types."""
    kind, body = next(records_of(next(payloads_of(data))))
    return LEAVES[body[1]] if kind == KEY else 0


def main():
    if len(sys.argv) not in (2, 3):
        sys.exit(__doc__)
    last = int(sys.argv[2]) if len(sys.argv) == 3 else None
    data = Path(sys.argv[1]).read_bytes()
    entries, spent = folded(data)
    print(f"{len(entries)} entries, {spent} of {leaves_of(data)} leaves spent", file=sys.stderr)
    sys.stdout.buffer.write(b"".join(entries[:last]))


if __name__ == "__main__":
    main()
