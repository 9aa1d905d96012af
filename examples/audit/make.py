#!/usr/bin/env -S python3 -B
"""Makes the ledgers of this folder and a receipt, with nothing but SHA-256 and the built program.

    make.py PROGRAM
    make.py < ANSWERS > LEDGER

PROGRAM is the path of the built `ccfg`. It replays the schedules of this folder, whose last line
asks for the ledger; the frames that it prints in hexadecimal, one after the other, are the bytes
of the ledger. Without a word those of the first ledger in the answers of any replay are written.
"""
import json
import subprocess
import sys
from pathlib import Path

from leaf import components_of, entries_of
from lms_key import Key
from verify_ledger import sha256

HERE = Path(__file__).resolve().parent
SEED, OTHER_SEED = "00" * 32, "11" * 32
# In the write set of 2.3 the value 01: its lowest bit is changed.
CHANGED_BYTE = 10666


def ledger_in(answers):
    """The bytes of the first ledger that a replay's answers tell."""
    frames = []
    for words in map(str.split, answers.splitlines()):
        if words[0] == "entry":
            frames.append(bytes.fromhex(words[2]))
        elif frames:
            break
    return b"".join(frames)


def ledger_of(program, schedule):
    made = subprocess.run([program, "replay"], input=schedule, capture_output=True, text=True)
    if made.returncode != 0:
        sys.exit(f"the replay ends with {made.returncode}: {made.stdout}")
    return ledger_in(made.stdout)


def service_key(seed):
    """The service's key, from the seed of its schedule (docs/SCHEDULE.md)."""
    return Key(sha256(b"svc", bytes.fromhex(seed))).hss(2)


def root_of(leaves):
    if len(leaves) == 1:
        return leaves[0]
    left = 2 ** ((len(leaves) - 1).bit_length() - 1)
    return sha256(root_of(leaves[:left]), root_of(leaves[left:]))


def path_of(index, leaves):
    """The steps from a leaf up to the root."""
    if len(leaves) == 1:
        return []
    left = 2 ** ((len(leaves) - 1).bit_length() - 1)
    if index < left:
        return path_of(index, leaves[:left]) + [{"right": root_of(leaves[left:]).hex()}]
    return path_of(index - left, leaves[left:]) + [{"left": root_of(leaves[:left]).hex()}]


def receipt_of(data, seqno, signed):
    """The receipt of an entry by the signature entry at a later seqno."""
    entries = list(entries_of(data))
    leaves = [entry.leaf(key) for entry, key in entries[: signed - 1]]
    by = entries[signed - 1][0]
    receipt = {
        "leaf_components": components_of(*entries[seqno - 1]),
        "proof": path_of(seqno - 1, leaves),
        "signature": by.signature.hex(),
        "signed": {"commit": by.commit, "seqno": by.seqno, "view": by.view},
    }
    return json.dumps(receipt, separators=(",", ":")).encode()


def main():
    if len(sys.argv) == 1:
        sys.stdout.buffer.write(ledger_in(sys.stdin.read()))
        return
    program = sys.argv[1]
    schedule, vote = [(HERE / f"{name}.schedule").read_text() for name in ("valid", "vote")]
    valid = ledger_of(program, schedule)
    changed = bytearray(valid)
    changed[CHANGED_BYTE] ^= 1
    made = {
        "valid.ledger": valid,
        "vote.ledger": ledger_of(program, vote),
        "changed_bit.ledger": bytes(changed),
        "other_service.ledger": ledger_of(program, schedule.replace(SEED, OTHER_SEED)),
        "identity": service_key(SEED).hex().encode() + b"\n",
        "receipt.json": receipt_of(valid, 5, 8),
    }
    for name, data in made.items():
        (HERE / name).write_bytes(data)
        print(f"{name}: {len(data)} bytes")


if __name__ == "__main__":
    main()
