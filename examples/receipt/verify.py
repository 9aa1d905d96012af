#!/usr/bin/env -S python3 -B
"""Verifies a receipt, with nothing but SHA-256.

    verify.py IDENTITY < RECEIPT

IDENTITY is the service's key, 60 bytes in hexadecimal. It prints `valid V.S`, where V.S is the
transaction, or the first thing that is wrong. It knows docs/FORMATS.md and RFC 8554 alone.
"""
import hashlib
import json
import re
import sys

TREES = {5: 5, 6: 10}  # LMS_SHA256_M32_H5 and H10: the height
CHAINS = {3: (4, 67, 4), 4: (8, 34, 0)}  # LMOTS_SHA256_N32_W4 and W8: w, p, ls


class Refused(Exception):
    pass


def sha256(*parts):
    return hashlib.sha256(b"".join(parts)).digest()


def u8(n):
    return n.to_bytes(1, "big")


def u16(n):
    return n.to_bytes(2, "big")


def u32(n):
    return n.to_bytes(4, "big")


def number(data, at):
    return int.from_bytes(data[at : at + 4], "big")


# ---- HSS (RFC 8554)


class Key:
    """An LMS public key (5.3)."""

    def __init__(self, data, at, want):
        self.at = at
        reaches(data, at + 4, want)
        lms = number(data, at)
        if lms not in TREES:
            raise Refused(f"Types {at}")
        reaches(data, at + 8, want)
        ots = number(data, at + 4)
        if ots not in CHAINS:
            raise Refused(f"Types {at + 4}")
        self.lms, self.ots = lms, ots
        self.height = TREES[lms]
        self.w, self.p, self.ls = CHAINS[ots]
        self.identifier = data[at + 8 : at + 24]
        self.root = data[at + 24 : at + 56]
        self.signature_len = 12 + 32 * (1 + self.p + self.height)


SHORTEST = 12 + 32 * (1 + 34 + 5)


def chain_count(key, digest):
    """The digits of the digest and its checksum (3.1.3 and 4.4)."""
    top = 2**key.w - 1

    def digits(data):
        per_byte = 8 // key.w
        return [(b >> (8 - key.w * (i + 1))) & top for b in data for i in range(per_byte)]

    checksum = sum(top - digit for digit in digits(digest)) << key.ls
    return digits(digest + u16(checksum))[: key.p]


def candidate(key, signature, message):
    """The root to which an LMS signature leads (4.6 and 5.4.2)."""
    leaf = number(signature, 0)
    prefix = key.identifier + u32(leaf)
    randomizer = signature[8:40]
    digest = sha256(prefix, b"\x81\x81", randomizer, message)
    ends = []
    for i, digit in enumerate(chain_count(key, digest)):
        value = signature[40 + 32 * i : 72 + 32 * i]
        for step in range(digit, 2**key.w - 1):
            value = sha256(prefix, u16(i), u8(step), value)
        ends.append(value)
    ots_key = sha256(prefix, b"\x80\x80", *ends)
    node = 2**key.height + leaf
    value = sha256(key.identifier, u32(node), b"\x82\x82", ots_key)
    path = 44 + 32 * key.p
    while node > 1:
        sibling = signature[path : path + 32]
        pair = (sibling, value) if node % 2 else (value, sibling)
        node //= 2
        value = sha256(key.identifier, u32(node), b"\x83\x83", *pair)
        path += 32
    return value


def check_root(key, signature, message):
    got = candidate(key, signature, message)
    if got != key.root:
        raise Refused(f"Root {key.root.hex()} {got.hex()}")


def reaches(signature, end, want):
    if len(signature) < end:
        raise Refused(f"Length {want} {len(signature)}")


def read_signature(key, signature, at, want):
    """The bytes of an LMS signature that begins here, if its fields are those of the key."""
    reaches(signature, at + 4, want)
    if number(signature, at) >= 2**key.height:
        raise Refused(f"Leaf {number(signature, at)}")
    reaches(signature, at + 8, want)
    if number(signature, at + 4) != key.ots:
        raise Refused(f"Types {at + 4}")
    lms = at + 40 + 32 * key.p
    reaches(signature, lms + 4, want)
    if number(signature, lms) != key.lms:
        raise Refused(f"Types {lms}")
    reaches(signature, at + key.signature_len, want)
    return signature[at : at + key.signature_len]


def verify_hss(identity, message, signature):
    levels = number(identity, 0)
    if levels not in (1, 2):
        raise Refused(f"Levels 2 {levels}")
    top = Key(identity, 4, 60)
    least = 4 + top.signature_len + (levels - 1) * (56 + SHORTEST)
    reaches(signature, 4, least)
    if number(signature, 0) != levels - 1:
        raise Refused(f"Levels {levels - 1} {number(signature, 0)}")
    signed, keys, at = [], [top], 4
    if levels == 2:
        signed.append(read_signature(top, signature, at, least))
        at += top.signature_len
        keys.append(Key(signature, at, least))
        least = at + 56 + keys[1].signature_len
        reaches(signature, at + 56, least)
        at += 56
    signed.append(read_signature(keys[-1], signature, at, least))
    if len(signature) != least:
        raise Refused(f"Length {least} {len(signature)}")
    messages = [signature[key.at : key.at + 56] for key in keys[1:]] + [message]
    for key, part, said in zip(keys, signed, messages):
        check_root(key, part, said)


# ---- Receipts


def members(path, value, names):
    if not isinstance(value, dict) or sorted(value) != sorted(names):
        raise Refused(f"Shape {path}")
    return [value[name] for name in names]


def text(path, value):
    if not isinstance(value, str):
        raise Refused(f"Shape {path}")
    return value


def data(path, value, size=None):
    if not re.fullmatch("([0-9a-f][0-9a-f])*", text(path, value)):
        raise Refused(f"Hex {path}")
    if size is not None and len(value) != 2 * size:
        raise Refused(f"Hex {path}")
    return bytes.fromhex(value)


def integer(path, value, bits):
    if type(value) is not int or not 0 <= value < 2**bits:
        raise Refused(f"Shape {path}")
    return value


def read_step(path, step):
    for side in ("left", "right"):
        if isinstance(step, dict) and list(step) == [side]:
            return side, data(f"{path}/{side}", step[side], 32)
    raise Refused(f"Shape {path}")


def read_receipt(value):
    parts, proof, signature, signed = members(
        "", value, ["leaf_components", "proof", "signature", "signed"]
    )
    at = "/leaf_components"
    claims, evidence, write_set = members(
        at, parts, ["claims_digest", "commit_evidence", "write_set_digest"]
    )
    claims = data(f"{at}/claims_digest", claims, 32)
    evidence = text(f"{at}/commit_evidence", evidence).encode()
    write_set = data(f"{at}/write_set_digest", write_set, 32)
    if not isinstance(proof, list):
        raise Refused("Shape /proof")
    steps = [read_step(f"/proof/{i}", step) for i, step in enumerate(proof)]
    signature = data("/signature", signature)
    commit, seqno, view = members("/signed", signed, ["commit", "seqno", "view"])
    commit = integer("/signed/commit", commit, 64)
    seqno = integer("/signed/seqno", seqno, 64)
    view = integer("/signed/view", view, 32)
    return (claims, evidence, write_set), steps, signature, (view, seqno, commit)


def transaction_of(identity, evidence):
    found = re.fullmatch(rb"ce:([1-9][0-9]*)\.([1-9][0-9]*):([0-9a-f]{64})", evidence)
    if not found:
        raise Refused("Evidence")
    view, seqno = int(found[1]), int(found[2])
    if view >= 2**32 or seqno >= 2**40:
        raise Refused("Evidence")
    tied = sha256(identity, view.to_bytes(4, "little"), seqno.to_bytes(8, "little"))
    if tied.hex().encode() != found[3]:
        raise Refused("Evidence")
    return f"{view}.{seqno}"


def verify(identity, value):
    (claims, evidence, write_set), steps, signature, (view, seqno, commit) = read_receipt(value)
    transaction = transaction_of(identity, evidence)
    node = sha256(write_set, sha256(evidence), claims)
    for side, sibling in steps:
        node = sha256(sibling, node) if side == "left" else sha256(node, sibling)
    message = (
        node
        + view.to_bytes(4, "little")
        + seqno.to_bytes(8, "little")
        + commit.to_bytes(8, "little")
    )
    verify_hss(identity, message, signature)
    return transaction


def main():
    identity = bytes.fromhex(sys.argv[1])
    if len(identity) != 60:
        sys.exit("the service's key has 60 bytes")
    try:
        value = json.loads(sys.stdin.buffer.read().decode())
    except ValueError:
        print("NotJson")
        return 1
    try:
        print("valid", verify(identity, value))
        return 0
    except Refused as fault:
        print(fault)
        return 1


if __name__ == "__main__":
    sys.exit(main())
