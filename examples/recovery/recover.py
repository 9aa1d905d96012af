#!/usr/bin/env -S python3 -B
"""A service of three members loses its nodes, and is recovered over its old ledger by
`ccfg recover`, and opened again by the shares of two members. Prints each command and what it tells.

    recover.py CCFG FOLDER

CCFG is the built program, FOLDER an empty folder for the files. The seeds are fixed, so that everybody
sees the same; a real consortium draws each from /dev/urandom. What the nodes record in between is
done by hand, by node_by_hand.py, and told in lines that begin with `#`.
"""
import hashlib
import json
import os
import subprocess
import sys
from pathlib import Path

HERE = Path(__file__).resolve().parent
sys.path.insert(0, str(HERE.parent / "audit"))
from make import receipt_of  # noqa: E402
from node_by_hand import Node  # noqa: E402

MEMBERS = {1: "alice", 2: "bob", 3: "carol"}
KEYS = {}  # a word for each key of the service, in the lines that show a command


def short(line):
    return line if len(line) < 170 else f"{line[:150]}.."


def shown(told):
    """What a command told, cut to a line; of bytes their number and digest."""
    if not told.isascii():
        return f"{len(told)} bytes, SHA-256 {hashlib.sha256(told).hexdigest()}"
    return "\n".join(map(short, told.decode().splitlines()))


def ccfg(words, given, out, status=0):
    """Runs the program over a file, or over bytes, and keeps what it tells in a file."""
    source = given if isinstance(given, bytes) else Path(given).read_bytes()
    line = f"$ ccfg {words} < {given if isinstance(given, str) else '..'} > {out}"
    for key, word in KEYS.items():
        line = line.replace(key, word)
    print(line)
    done = subprocess.run([CCFG, *words.split()], input=source, stdout=subprocess.PIPE)
    Path(out).write_bytes(done.stdout)
    print(shown(done.stdout.strip() if done.stdout.isascii() else done.stdout))
    if done.returncode != status:
        sys.exit(f"status {done.returncode}")
    return done.stdout


def seed(name):
    return hashlib.sha256(b"a recovery of " + name.encode()).digest()


def keygen(name, kind):
    return json.loads(ccfg(f"@disk={name}.key keygen --kind {kind} --types h5w4", seed(name), f"{name}.json"))


def endorse(service, node):
    form = json.loads(ccfg(f"@disk={service}.key endorse", f"{node}.json", f"{node}.endorsed"))
    return {"endorsement": form["endorsement"], "key": form["key"]}


def found():
    """The service is founded: three members, and two of their shares give the recovery secret."""
    identity, _ = keygen("service", "service")["key"], keygen("node", "node")
    KEYS[identity] = "$OLD"
    members = [{"key": keygen(name, "member")["key"], "number": n} for n, name in MEMBERS.items()]
    dealt = ccfg("deal --threshold 2 1 2 3", seed("secret") + seed("dealing"), "dealing").decode().splitlines()
    shares = dict(line.split() for line in dealt[1:])
    nodes = [endorse("service", "node")]
    dealing = json.loads(dealt[0])["args"]
    settings = {"dealing": dealing, "identity": identity, "members": members, "nodes": nodes, "state": "open"}
    Path("settings.json").write_text(json.dumps(settings))
    opening = ccfg("@disk=node.key genesis", "settings.json", "opening.ledger")
    return identity, shares, opening


def lose(opening):
    """It serves for a while, and its nodes are lost: only the ledger is left."""
    node = Node(seed("node"), opening)
    node.put(b"public:t", b"a", b"1")
    node.sign()
    node.put(b"public:t", b"a", b"2")
    print("# the node records a put as 2.3, signs it by 2.4, and records another, 2.5, that it signs no more")
    Path("old.ledger").write_bytes(node.ledger)


def found_anew():
    """A new key of the service, a new node, and the old ledger: the recovery."""
    identity, _ = keygen("new_service", "service")["key"], keygen("new_node", "node")
    KEYS[identity] = "$NEW"
    settings = {"identity": identity, "nodes": [endorse("new_service", "new_node")]}
    text = json.dumps(settings).encode()
    given = len(text).to_bytes(4, "little") + text + Path("old.ledger").read_bytes()
    Path("recovery").write_bytes(given)
    return identity, ccfg("@disk=new_node.key recover", "recovery", "recovered.ledger")


def reopen(identity, shares, recovered):
    """The members take the new key, open the service and give two shares."""
    node = Node(seed("new_node"), recovered)

    def sign(member, asked):
        words = f"@disk={MEMBERS[member]}.key sign --identity {identity} --member {member}"
        request = ccfg(words, json.dumps(asked).encode(), "request")
        node.govern(request)
        print(f"# the node records it as 3.{node.service.seqno}: {MEMBERS[member]}, {asked['op']}")
        return hashlib.sha256(request).hexdigest()

    for member in (1, 2):
        sign(member, {"op": "ack"})
    actions = [{"args": {}, "name": "transition_service_to_open"}]
    proposal = sign(1, {"actions": actions, "op": "propose"})
    for member in (1, 2):
        sign(member, {"op": "ballot", "proposal_id": proposal, "vote": True})
    for member in (1, 2):
        sign(member, {"op": "share", "share": shares[str(member)]})
    node.put(b"public:t", b"a", b"3")
    node.sign()
    last = node.service.seqno
    print(f"# the node records a put as 3.{last - 1}, and signs it by 3.{last}")
    Path("reopened.ledger").write_bytes(node.ledger)


def main():
    old_identity, shares, opening = found()
    lose(opening)
    ccfg(f"audit --identity {old_identity}", "old.ledger", "audit.txt")
    receipt = receipt_of(Path("old.ledger").read_bytes(), 3, 4)
    Path("receipt.json").write_bytes(receipt)
    identity, recovered = found_anew()
    ccfg(f"audit --identity {identity}", "recovered.ledger", "audit.txt")
    ccfg(f"audit --identity {old_identity}", "recovered.ledger", "audit.txt", 1)
    reopen(identity, shares, recovered)
    ccfg(f"audit --identity {identity}", "reopened.ledger", "audit.txt")
    ccfg(f"verify --identity {old_identity}", "receipt.json", "verify.txt")
    ccfg(f"verify --identity {identity}", "receipt.json", "verify.txt", 1)


if __name__ == "__main__":
    if len(sys.argv) != 3:
        sys.exit("recover.py CCFG FOLDER")
    CCFG = str(Path(sys.argv[1]).resolve())
    os.chdir(sys.argv[2])
    main()
