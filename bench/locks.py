#!/usr/bin/env -S python3 -B
# Runs two processes of the built program over one key file: no measure, but a test that the file is locked.
#
# - A `sign` waits for its input; a second one over the file ends with 5. The first then signs, and its signature and that of a third
#   have different leaves.
# - A node serves; a second one over the file ends with 5.
# - A member's file in a folder that isn't there can't be opened, and an address that is taken can't be listened at: 5 and 6.
#
# Each refusal has its line on the standard error. Fails where something else comes.
import subprocess
import tempfile

import program
from node import Services
from service import free_addresses, limit_time, within

ACK = b'{"op":"ack"}'


# A process of the program in a folder, with pipes.
def begun(folder, words):
    pipes = {"stdin": subprocess.PIPE, "stdout": subprocess.PIPE, "stderr": subprocess.PIPE}
    return subprocess.Popen([program.PROGRAM, *words], cwd=folder, **pipes)


# What a run of the program over an input ends with: its status, output and last line on the standard error.
def ended(process, given=b""):
    out, told = process.communicate(given, timeout=60)
    return process.returncode, out, (told.decode().splitlines() or [""])[-1]


def expect(what, found, wanted):
    print(f"{what}: {found}")
    assert found == wanted, f"{what}: {found}, not {wanted}"


# Whether a process has the lock of the file, as the system lists it.
def has_lock(process):
    with open("/proc/locks") as locks:
        return any(f" {process.pid} " in line and "FLOCK" in line for line in locks)


def two_sign(folder, identity):
    words = ["@disk=member.key", "sign", "--identity", identity, "--member", "1"]
    first = begun(folder, words)
    within(30, lambda: has_lock(first), "the first process has the lock")
    status, out, told = ended(begun(folder, words), ACK)
    expect("a second sign", (status, out, told.split(": ")[:3]), (5, b"", ["disk", "member.key", "lock"]))
    requests = [ended(first, ACK), ended(begun(folder, words), ACK)]
    expect("the first sign, and a third", [request[0] for request in requests], [0, 0])
    assert requests[0][1] != requests[1][1], "the same leaf signed twice"


def two_nodes(folder, node):
    words = ["@disk=node1.key", f"@listen={free_addresses(1)[0]}", "node"]
    status, out, told = ended(begun(folder, words))
    expect("a second node", (status, out, told.split(": ")[:3]), (5, b"", ["disk", "node1.key", "lock"]))
    assert node.standing()[0] == "leader"


def other_failures(folder, node, identity):
    words = ["@disk=away/member.key", "sign", "--identity", identity, "--member", "1"]
    status, _, told = ended(begun(folder, words), ACK)
    expect("a file in no folder", (status, told.split(": ")[:3]), (5, ["disk", "away/member.key", "open"]))
    words = ["@disk=other.key", f"@listen={node.address}", "node"]
    subprocess.run([program.PROGRAM, "@disk=other.key", "keygen", "--kind", "node", "--types", "h5w4"],
                   input=bytes(32), stdout=subprocess.DEVNULL, cwd=folder, check=True)
    status, _, told = ended(begun(folder, words))
    expect("an address that is taken", (status, told.split(": ")[:3]), (6, ["link", node.address, "listen"]))


def main():
    program.build()
    limit_time(300)
    services = Services()
    try:
        with tempfile.TemporaryDirectory() as work:
            folder = f"{work}/one"
            node = services.begin(folder, 1)[0]
            identity = next(value for value, word in node.program.words.items() if word == "$SERVICE")
            two_sign(folder, identity)
            two_nodes(folder, node)
            other_failures(folder, node, identity)
            node.stop()
    finally:
        services.end()


main()
