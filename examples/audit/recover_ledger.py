#!/usr/bin/env -S python3 -B
"""Recovers a service over its old ledger, with nothing but SHA-256: something for `ccfg audit`.

    recover_ledger.py SEED LEDGER RECOVERED

It cuts the file LEDGER after its last signature, puts a recovery after it, which names a new key
of the service and one new node, and then the signature by which that node opens the service. The
result is the file RECOVERED. It prints the new key, 60 bytes in hexadecimal: under that one the
result is valid, and under the old one it is another service's.

SEED is 32 bytes, as 64 digits of lower-case hexadecimal. The seed of the service's new key is the
SHA-256 digest of the words `recovered service` and these bytes, that of the node's key the digest
of `recovered node` and the same. Both keys are of LMS_SHA256_M32_H5 and LMOTS_SHA256_N32_W4. Leaf 0
of the service's key endorses the node's, and leaf 0 of the node's signs.

It shows that a recovery can be made by whoever knows docs/FORMATS.md, docs/GOVERNANCE.md,
docs/AUDIT.md and RFC 8554 alone. verify_ledger.py reads the old entries, tells what the recovery
writes, and tries the rules, of the new entries too: where one is broken, nothing is written.
"""
import re
import sys
from pathlib import Path

from lms_key import Key
from verify_ledger import GOVERNANCE, RECOVER, SIGNATURE, Broken, Entry, Fields, Governance, Service
from verify_ledger import behind_length, big, little, sha256, signed_message


def write_bytes(row, value):
    name, key = row
    last = b"\x00" if value is None else b"\x01" + behind_length(value)
    return little(len(name), 1) + name + little(len(key), 2) + key + last


def frame(view, seqno, kind, content, writes={}, claims=bytes(32)):
    """The frame of an entry, which by default claims nothing."""
    body = little(view, 4) + little(seqno, 8) + little(kind, 1) + behind_length(content)
    body += little(len(writes), 4)
    body += b"".join(write_bytes(*write) for write in sorted(writes.items())) + claims
    return b"\x01\x00" + little(len(body), 6) + body


def front_of(data):
    """A ledger up to its last signature."""
    ledger, end = Fields(data), 0
    while ledger.at < len(data):
        if Entry(ledger).kind == SIGNATURE:
            end = ledger.at
    return data[:end]


class Founder:
    """The service's new key, and the node that it endorses."""

    def __init__(self, seed):
        service = Key(sha256(b"recovered service", seed))
        self.node = Key(sha256(b"recovered node", seed))
        self.identity = service.hss(2)
        self.endorsement = service.sign(0, self.node.public())

    def recovery(self, service):
        """The frame of a recovery that is the next entry."""
        content = little(RECOVER, 1) + self.identity + little(1, 1)
        content += self.node.public() + behind_length(self.endorsement)
        writes = Governance(content).recovery_writes(service)
        return frame(service.last.view + 1, service.seqno + 1, GOVERNANCE, content, writes)

    def opening(self, service):
        """The frame of the signature after it: of its view, and the commit is its own seqno."""
        view, seqno, root = service.last.view, service.seqno + 1, service.tree.root()
        signed = self.node.sign(0, signed_message(root, view, seqno, seqno))
        signature = big(1, 4) + self.endorsement + self.node.public() + signed
        content = sha256(self.node.public()) + little(seqno, 8) + root + behind_length(signature)
        return frame(view, seqno, SIGNATURE, content)

    def found(self, front):
        """The ledger that goes on after a signature."""
        service, made = Service(), front
        service.follow_all(front)
        for make in (self.recovery, self.opening):
            entry = make(service)
            service.follow_all(entry)
            made += entry
        return made


def main():
    words = sys.argv[1:]
    if len(words) != 3 or not re.fullmatch("[0-9a-f]{64}", words[0]):
        sys.exit("recover_ledger.py SEED LEDGER RECOVERED")
    founder = Founder(bytes.fromhex(words[0]))
    try:
        front = front_of(Path(words[1]).read_bytes())
        if not front:
            sys.exit("the ledger has no signature")
        made = founder.found(front)
    except Broken as broken:
        sys.exit(f"rule {broken} is broken: audit the ledger, or take another seed")
    Path(words[2]).write_bytes(made)
    print(founder.identity.hex())


if __name__ == "__main__":
    main()
