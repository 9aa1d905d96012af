#!/usr/bin/env -S python3 -B
"""Prints what a receipt of an entry has to disclose, to be compared with one.

    leaf.py SEQNO LEDGER

It prints the `leaf_components` of the entry at SEQNO as a receipt has them (docs/FORMATS.md). It
tries no rule: first audit the ledger.
"""
import json
import sys
from pathlib import Path

import verify_ledger as reader


def entries_of(data):
    """The entries of a ledger, each with the service's key in force."""
    service, ledger = reader.Service(), reader.Fields(data)
    while ledger.at < len(data):
        entry = reader.Entry(ledger)
        service.take(entry)
        yield entry, service.identity


def components_of(entry, key):
    body, evidence, claims = entry.components(key)
    return {
        "claims_digest": claims.hex(),
        "commit_evidence": evidence,
        "write_set_digest": body.hex(),
    }


def main():
    if len(sys.argv) != 3:
        sys.exit("leaf.py SEQNO LEDGER")
    for entry, key in entries_of(Path(sys.argv[2]).read_bytes()):
        if str(entry.seqno) == sys.argv[1]:
            print(json.dumps(components_of(entry, key), separators=(",", ":")))
            return
    sys.exit("the ledger has no such entry")


if __name__ == "__main__":
    main()
