#!/usr/bin/env -S python3 -B
# Measures verifying a receipt against the SHA-256 digests that it needs. The digests are those that the Python verifier in
# examples/receipt makes of the same receipt, counted in blocks. The time is the processor time of the built program's `verify`
# less that of an empty `replay`, which starts and ends alike: the least of many single runs of each, as the time of the digests is
# the least of its rounds. Fails where it is above its limit.
import importlib.util
import json
import os
import sys
import tempfile

import program

EXAMPLE = os.path.join(os.path.dirname(os.path.abspath(__file__)), "..", "examples", "receipt")
LIMIT = 1.3
RUNS = 500


def read(name):
    with open(os.path.join(EXAMPLE, name)) as file:
        return file.read()


# The blocks of all digests that the Python verifier makes.
def blocks_needed(identity, receipt):
    spec = importlib.util.spec_from_file_location("verifier", os.path.join(EXAMPLE, "verify.py"))
    verifier = importlib.util.module_from_spec(spec)
    spec.loader.exec_module(verifier)
    plain, counted = verifier.sha256, []

    def sha256(*parts):
        counted.append(program.blocks(sum(len(part) for part in parts)))
        return plain(*parts)

    verifier.sha256 = sha256
    verifier.verify(bytes.fromhex(identity), json.loads(receipt))
    return sum(counted)


def main():
    program.build()
    identity, receipt = read("identity").strip(), read("receipt.json")
    needed = blocks_needed(identity, receipt)
    with tempfile.TemporaryDirectory() as work:
        one = program.digest(work)
        verify = [program.PROGRAM, "verify", "--identity", identity]
        idle = [program.PROGRAM, "replay"]
        source = os.path.join(EXAMPLE, "receipt.json")
        times = [program.run(verify, source, f"{work}/out")[0] for _ in range(RUNS)]
        idle_times = [program.run(idle, os.devnull, f"{work}/out")[0] for _ in range(RUNS)]
    ratio = (min(times) - min(idle_times)) / (needed * one)
    print(f"a receipt of {needed} digests of one block: {ratio:.2f} times these, at most {LIMIT}")
    sys.exit(0 if ratio <= LIMIT else 1)


main()
