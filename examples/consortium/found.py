#!/usr/bin/env -S python3 -B
"""Founds a service by hand: the keys of a service, of a node and of two members, the endorsement of the node, the settings, the
opening ledger, a member's signed acknowledgement, and an audit of the result. Prints each command and what it tells.

    found.py CCFG FOLDER

CCFG is the built program, FOLDER an empty folder for the files. The seeds are fixed, so that everybody sees the same; a real
consortium draws each from /dev/urandom.
"""
import hashlib
import json
import os
import subprocess
import sys

CCFG, FOLDER = os.path.abspath(sys.argv[1]), sys.argv[2]
os.chdir(FOLDER)


def ccfg(words, given, out):
    """Runs the program over a file, or over bytes, and keeps what it tells in a file."""
    source = given if isinstance(given, bytes) else open(given, "rb").read()
    print(f"$ ccfg {words} < {given if isinstance(given, str) else '..'} > {out}")
    done = subprocess.run([CCFG, *words.split()], input=source, stdout=subprocess.PIPE)
    with open(out, "wb") as file:
        file.write(done.stdout)
    told = done.stdout if done.stdout.isascii() else b"%d bytes, SHA-256 %s" % (
        len(done.stdout), hashlib.sha256(done.stdout).hexdigest().encode())
    line = told.decode().strip()
    print(line if len(line) < 200 else f"{line[:150]}..")
    if done.returncode != 0:
        sys.exit(f"status {done.returncode}")


def digest(data):
    return hashlib.sha256(data).hexdigest()


def seed(name):
    return hashlib.sha256(b"an example of " + name.encode()).digest()


# Each party begins its key file on its own machine, and hands out the public form.
for name, kind, types in [("service", "service", "h5w4"), ("node", "node", "h10w4"), ("alice", "member", "h5w4"), ("bob", "member", "h5w4")]:
    ccfg(f"@disk={name}.key keygen --kind {kind} --types {types}", seed(name), f"{name}.json")

# Who has the service's key endorses the node's, having compared its identifier by another way.
ccfg("@disk=service.key endorse", "node.json", "endorsed.json")

# The settings. With the threshold 1 each share is the secret itself.
public = {name: json.load(open(f"{name}.json")) for name in ("service", "alice", "bob")}
endorsed, secret = json.load(open("endorsed.json")), seed("secret")
settings = {
    "dealing": {"secret_digest": digest(secret), "shares": [{"digest": digest(secret), "member": n} for n in (1, 2)], "threshold": 1},
    "identity": public["service"]["key"],
    "members": [{"key": public[name]["key"], "number": n} for n, name in ((1, "alice"), (2, "bob"))],
    "nodes": [{"endorsement": endorsed["endorsement"], "key": endorsed["key"]}],
    "state": "opening",
}
with open("settings.json", "w") as file:
    json.dump(settings, file)

# The node founds the service, and a member acknowledges it.
ccfg("@disk=node.key genesis", "settings.json", "opening.ledger")
identity = public["service"]["key"]
ccfg(f"@disk=alice.key sign --identity {identity} --member 1", b'{"op":"ack"}', "ack.request")

# Anybody audits the opening ledger from its bytes and the service's key.
ccfg(f"audit --identity {identity}", "opening.ledger", "audit.txt")
