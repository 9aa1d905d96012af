#!/usr/bin/env -S python3 -B
"""Governance by tables that each request changes, with nothing but SHA-256.

    model.py

It plays one service's requests (SCRIPT) and prints for each what comes of it: `refused CODE VALUES`,
or `rows DIGEST`, the first eight bytes of the digest of all rows, each as a length of one byte and
the map, of two bytes and the key, of four and the value, ascending. It knows docs/GOVERNANCE.md,
docs/FORMATS.md and RFC 8554 alone; where the proved definitions count all ballots again from the list
of requests, it keeps members, nodes and proposals in tables.
"""
import sys
from pathlib import Path

sys.path.insert(0, str(Path(__file__).resolve().parent.parent / "audit"))
import lms_key  # noqa: E402
from verify_ledger import big, little, sha256  # noqa: E402

ACCEPTED, ACTIVE, REMOVED = 1, 2, 3
PENDING, TRUSTED, RETIRED, MARKED = 1, 2, 3, 4
OPENING, OPEN, WAITING = 1, 2, 3
STATES = {"open": 1, "accepted": 2, "rejected": 3, "withdrawn": 4, "failed": 5, "dropped": 6}


def behind_length(data, size=4):
    return little(len(data), size) + data


# ---- keys (RFC 8554)


class Key(lms_key.Key):
    """A key of LMOTS_SHA256_N32_W8, which counts the leaves that it used."""

    def __init__(self, seed):
        super().__init__(seed, ots=4)
        self.used = 0


def seed(word, number):
    return sha256(word, bytes([number]))


SERVICE = Key(seed(b"service", 1))
SECOND_SERVICE = Key(seed(b"service", 2))
MEMBERS = {m: Key(seed(b"member", m)) for m in range(1, 8)}
NODES = {n: Key(seed(b"node", n)) for n in range(1, 7)}
SECRET = sha256(b"secret")


def hss(key, levels):
    return key.hss(levels)


def node_id(n):
    return sha256(NODES[n].public())


# ---- shares over GF(2^8), by tables of logarithms

EXP, LOG = [0] * 512, [0] * 256
value = 1
for power in range(255):
    EXP[power] = EXP[power + 255] = value
    LOG[value] = power
    value ^= value << 1
    if value & 0x100:
        value ^= 0x11B


def times(a, b):
    return EXP[LOG[a] + LOG[b]] if a and b else 0


def line(member):
    """The share of a dealing with threshold 2 whose second coefficients are the bytes 1 to 32."""
    return bytes(SECRET[i] ^ times(i + 1, member) for i in range(32))


def join(shares):
    out = []
    for i in range(32):
        byte = 0
        for m, share in shares:
            weight = 1
            for other, _ in shares:
                if other != m:
                    weight = times(weight, EXP[(LOG[other] - LOG[other ^ m]) % 255])
            byte ^= times(share[i], weight)
        out.append(byte)
    return bytes(out)


def dealing(threshold, members, secret=SECRET, share=line):
    held = [(m, sha256(share(m))) for m in members]
    return (threshold, sha256(secret), held)


def dealing_bytes(dealt):
    threshold, secret, held = dealt
    return bytes([threshold]) + secret + bytes([len(held)]) + b"".join(bytes([m]) + d for m, d in held)


# ---- requests as bytes


def node_bytes(n, by=SERVICE, leaf=None):
    return NODES[n].public() + behind_length(by.sign(n if leaf is None else leaf, NODES[n].public()))


def genesis(state, nodes, members, dealt):
    return b"".join(
        [bytes([1, state]), hss(SERVICE, 2)]
        + [bytes([len(nodes)])]
        + [node_bytes(n) for n in nodes]
        + [bytes([len(members)])]
        + [bytes([m]) + hss(MEMBERS[m], 1) for m in members]
        + [dealing_bytes(dealt)]
    )


ACTIONS = {
    "set_member": lambda m, key=None: bytes([1, m]) + hss(MEMBERS[key or m], 1),
    "remove_member": lambda m: bytes([2, m]),
    "deal": lambda dealt: bytes([3]) + dealing_bytes(dealt),
    "trust": lambda n: bytes([4]) + node_id(n),
    "remove_node": lambda n: bytes([5]) + node_id(n),
    "open": lambda: bytes([6]),
    "rules": lambda rules: bytes([7]) + b"".join(little(a, 2) + little(b, 2) for a, b in rules),
}


def action_bytes(action):
    return ACTIONS[action[0]](*action[1:])


class Refused(Exception):
    pass


def demand(holds, *why):
    if not holds:
        raise Refused(" ".join(str(x) for x in why))


# ---- the tables


class Service:
    def __init__(self):
        self.state = self.identity = self.identity_key = None
        self.recovered = 0
        self.members = {}  # number: [status, key, next leaf]
        self.keys = set()
        self.nodes = {}  # id: [order, status, key, endorsement, removal]
        self.proposals = {}  # id: [state, proposer, actions, ballots]
        self.rules = [(1, 2)] * 7
        self.dealing = None
        self.shares = {}
        self.seqno = 0

    def copy(self):
        import copy

        return copy.deepcopy(self)

    def present(self, m):
        return m in self.members and self.members[m][0] != REMOVED

    def count(self, status):
        return sum(1 for row in self.nodes.values() if row[1] == status)

    # ---- actions

    def apply(self, action, seqno):
        """Applies an action, or raises its cause."""
        kind, args = action[0], action[1:]
        if kind == "set_member":
            key = hss(MEMBERS[args[1] if len(args) > 1 else args[0]], 1)
            demand(args[0] not in self.members, 1)
            demand(key not in self.keys, 2)
            demand(sum(self.present(m) for m in self.members) < 64, 11)
            self.members[args[0]] = [ACCEPTED, key, 0]
            self.keys.add(key)
        elif kind == "remove_member":
            demand(self.present(args[0]), 3)
            left = [m for m, _ in self.dealing[2] if self.present(m) and m != args[0]]
            demand(len(left) >= self.dealing[0], 4)
            self.members[args[0]][0] = REMOVED
        elif kind == "deal":
            threshold, _, held = args[0]
            holders = [m for m, _ in held]
            good = 1 <= threshold <= len(held) and holders == sorted(set(holders))
            demand(good and all(self.present(m) for m in holders), 10)
            self.dealing, self.shares = args[0], {}
        elif kind == "trust":
            row = self.nodes.get(node_id(args[0]))
            demand(row, 5)
            demand(row[1] == PENDING, 6)
            demand(self.count(TRUSTED) < 32, 11)
            row[1] = TRUSTED
        elif kind == "remove_node":
            row = self.nodes.get(node_id(args[0]))
            demand(row, 5)
            demand(row[1] in (PENDING, TRUSTED), 6)
            demand(row[1] != TRUSTED or self.count(TRUSTED) > 1, 7)
            row[1], row[4] = RETIRED, seqno
        elif kind == "open":
            demand(self.state == OPENING, 8)
            self.state = WAITING if self.recovered else OPEN
            self.shares = {}
        elif kind == "rules":
            demand(all(num < den <= 1000 for num, den in args[0]), 9)
            self.rules = list(args[0])
            self.drop()

    def drop(self):
        for row in self.proposals.values():
            if row[0] == "open":
                row[0] = "dropped"

    def apply_all(self, actions, seqno):
        trial = self.copy()
        for index, action in enumerate(actions, 1):
            try:
                trial.apply(action, seqno)
            except Refused as cause:
                raise Refused(f"48 {index} {cause}")
        return trial

    # ---- requests

    def take(self, request):
        """Plays a request; True where it is accepted."""
        kind, args = request[0], request[1:]
        seqno = 1 if self.seqno == 0 else max(self.seqno + 1, 3)
        trial = self.copy()
        getattr(trial, "on_" + kind)(seqno, *args)
        trial.seqno = seqno
        self.__dict__ = trial.__dict__

    def record_nodes(self, nodes, by, seqno, status):
        for n in nodes:
            endorsement = by.sign(n, NODES[n].public())
            self.nodes[node_id(n)] = [len(self.nodes) + 1, status, NODES[n].public(), endorsement, 0]

    def on_genesis(self, seqno, state, nodes, members, dealt):
        demand(len(set(members)) == len(members), "48 0 1")
        holders = [m for m, _ in dealt[2]]
        good = 1 <= dealt[0] <= len(holders) and holders == sorted(set(holders))
        demand(good and set(holders) <= set(members), "48 0 10")
        demand(len(set(nodes)) == len(nodes), "48 0 6")
        demand(nodes, "48 0 7")
        self.state, self.identity, self.identity_key = state, hss(SERVICE, 2), SERVICE
        for m in members:
            self.members[m] = [ACCEPTED, hss(MEMBERS[m], 1), 0]
            self.keys.add(hss(MEMBERS[m], 1))
        self.dealing = dealt
        self.record_nodes(nodes, SERVICE, seqno, TRUSTED)

    def on_recover(self, seqno, nodes):
        demand(len(set(nodes)) == len(nodes) and not any(node_id(n) in self.nodes for n in nodes), "48 0 6")
        demand(nodes, "48 0 7")
        for row in self.nodes.values():
            if row[1] in (PENDING, TRUSTED):
                row[1], row[4] = RETIRED, seqno
        self.identity, self.identity_key = hss(SECOND_SERVICE, 2), SECOND_SERVICE
        self.state, self.recovered = OPENING, 1
        self.drop()
        self.record_nodes(nodes, SECOND_SERVICE, seqno, TRUSTED)

    def on_join(self, seqno, n, by):
        demand(hss(by, 2) == self.identity, 42)
        row = self.nodes.get(node_id(n))
        demand(not row, 49, row and row[1])
        demand(self.count(PENDING) < 64, 50, 64)
        self.record_nodes([n], by, seqno, PENDING)

    def on_mark(self, seqno, n):
        row = self.nodes.get(node_id(n))
        demand(row and row[1] == RETIRED, 49, row[1] if row else 0)
        row[1] = MARKED

    def signed(self, m, is_ack, leaf, valid=True):
        demand(self.present(m), 40)
        demand(is_ack or self.members[m][0] == ACTIVE, 41)
        demand(valid, 42)
        demand(leaf >= self.members[m][2], 43, self.members[m][2] - 1, leaf)
        self.members[m][2] = leaf + 1

    def on_member(self, seqno, m, leaf, valid, act, bytes_):
        self.signed(m, act[0] == "ack", leaf, valid)
        getattr(self, "act_" + act[0])(seqno, m, bytes_, *act[1:])

    def act_ack(self, seqno, m, bytes_):
        self.members[m][0] = ACTIVE

    def act_propose(self, seqno, m, bytes_, actions):
        demand(sum(row[0] == "open" for row in self.proposals.values()) < 256, 50, 256)
        self.apply_all(actions, seqno)
        demand(sha256(bytes_) not in self.proposals, 52)
        self.proposals[sha256(bytes_)] = ["open", m, actions, {}]

    def open_proposal(self, pid):
        row = self.proposals.get(pid)
        demand(row, 44)
        demand(row[0] == "open", 45, STATES[row[0]])
        return row

    def act_ballot(self, seqno, m, bytes_, pid, agrees):
        row = self.open_proposal(pid)
        demand(m not in row[3], 46)
        row[3][m] = agrees
        active = [n for n, member in self.members.items() if member[0] == ACTIVE]
        votes = [row[3][n] for n in active if n in row[3]]
        a, y, n = len(active), sum(votes), len(votes) - sum(votes)
        rules = [self.rules[action_bytes(action)[0] - 1] for action in row[2]]
        if all(y * den > num * a for num, den in rules):
            try:
                row[0] = "accepted"
                self.__dict__ = self.apply_all(row[2], seqno).__dict__
            except Refused:
                row[0] = "failed"
        elif not all((a - n) * den > num * a for num, den in rules):
            row[0] = "rejected"

    def act_withdraw(self, seqno, m, bytes_, pid):
        row = self.open_proposal(pid)
        demand(row[1] == m, 47)
        row[0] = "withdrawn"

    def act_share(self, seqno, m, bytes_, share):
        demand(self.state == WAITING, 51, self.state)
        demand(m not in self.shares, 101, m)
        demand((m, sha256(share)) in self.dealing[2], 100)
        self.shares[m] = share
        if len(self.shares) >= self.dealing[0]:
            demand(sha256(join(list(self.shares.items()))) == self.dealing[1], 103)
            self.state = OPEN

    # ---- rows

    def rows(self):
        rows = {}

        def put(table, key, value):
            rows[(b"public:ccf.gov." + table, key)] = value

        put(b"service", b"s", bytes([self.state, self.recovered]) + self.identity)
        for m, (status, key, leaf) in self.members.items():
            put(b"members", bytes([m]), bytes([status]) + key + little(leaf, 4))
        for name, (order, status, key, endorsement, removal) in self.nodes.items():
            value = little(order, 2) + bytes([status]) + key
            put(b"nodes", name, value + behind_length(endorsement) + little(removal, 8))
        for pid, (state, proposer, actions, ballots) in self.proposals.items():
            value = bytes([STATES[state], proposer])
            value += behind_length(b"".join(map(action_bytes, actions)))
            value += bytes([len(ballots)]) + b"".join(bytes([m, ballots[m]]) for m in sorted(ballots))
            put(b"proposals", pid, value)
        for number, (num, den) in enumerate(self.rules, 1):
            put(b"constitution", bytes([number]), little(num, 2) + little(den, 2))
        put(b"dealing", b"d", dealing_bytes(self.dealing))
        for m, share in self.shares.items():
            put(b"shares", bytes([m]), share)
        return rows

    def digest(self):
        rows = sorted(self.rows().items())
        parts = [bytes([len(m)]) + m + behind_length(k, 2) + behind_length(v) for (m, k), v in rows]
        return sha256(*parts)[:8]


# ---- one service's requests

FIVE = (1, 2, 3, 4, 5)
HALF = [(1, 2)] * 7

# Each step: a word, and what it asks for. A member's request may name `P` or `Q`: the proposals made
# by the steps that are so marked. `again` plays the bytes of the step before once more, `forged`
# has another member's signature.
SCRIPT = [
    ("genesis", OPENING, (1, 2), (1, 2, 1), dealing(2, (1, 2))),
    ("genesis", OPENING, (1, 2), (1, 2), dealing(2, (1, 3))),
    ("genesis", OPENING, (1, 1), (1, 2), dealing(2, (1, 2))),
    ("genesis", OPENING, (), (1, 2), dealing(2, (1, 2))),
    ("genesis", OPENING, (1, 2), FIVE, dealing(2, (1, 2, 3))),
    ("member", 2, ("propose", [("open",)])),
    ("member", 1, ("ack",)),
    ("again",),
    ("forged", 2, 1, ("ack",)),
    ("member", 2, ("ack",)),
    ("member", 3, ("ack",)),
    ("member", 4, ("ack",)),
    ("member", 5, ("ack",)),
    ("member", 6, ("ack",)),
    ("member", 1, ("propose", [("remove_member", 6)])),
    ("member", 1, ("propose", [("open",), ("remove_member", 1), ("remove_member", 2)])),
    ("member", 1, ("propose", [("set_member", 1)])),
    ("member", 1, ("propose", [("set_member", 6, 2)])),
    ("member", 1, ("propose", [("deal", dealing(4, (1, 2, 3)))])),
    ("member", 1, ("propose", [("trust", 3)])),
    ("member", 1, ("propose", [("trust", 1)])),
    ("member", 1, ("propose", [("remove_node", 1), ("remove_node", 2)])),
    ("member", 1, ("propose", [("rules", [(1, 2)] * 6 + [(2, 2)])])),
    ("P", 1, ("propose", [("open",)])),
    ("member", 2, ("withdraw", "P")),
    ("member", 1, ("ballot", "P", 1)),
    ("member", 1, ("ballot", "P", 0)),
    ("member", 2, ("ballot", "P", 1)),
    ("member", 3, ("ballot", "P", 1)),
    ("member", 4, ("ballot", "P", 1)),
    ("member", 4, ("ballot", "none", 1)),
    ("member", 1, ("propose", [("open",)])),
    ("P", 5, ("propose", [("set_member", 6)])),
    ("member", 1, ("ballot", "P", 0)),
    ("member", 2, ("ballot", "P", 0)),
    ("member", 3, ("ballot", "P", 0)),
    ("P", 5, ("propose", [("set_member", 6)])),
    ("member", 5, ("withdraw", "P")),
    ("Q", 1, ("propose", [("set_member", 7), ("rules", [(0, 1)] * 7)])),
    ("member", 5, ("ballot", "Q", 1)),
    ("member", 1, ("ballot", "Q", 1)),
    ("P", 1, ("propose", [("remove_member", 5)])),
    ("member", 1, ("ballot", "P", 1)),
    ("member", 2, ("ballot", "P", 1)),
    ("member", 3, ("ballot", "P", 1)),
    ("member", 5, ("ack",)),
    ("join", 3, SERVICE),
    ("join", 3, SERVICE),
    ("join", 4, SECOND_SERVICE),
    ("mark", 5),
    ("mark", 3),
    ("P", 1, ("propose", [("trust", 3), ("remove_node", 1)])),
    ("member", 1, ("ballot", "P", 1)),
    ("member", 2, ("ballot", "P", 1)),
    ("member", 3, ("ballot", "P", 1)),
    ("mark", 1),
    ("member", 2, ("ballot", "Q", 1)),
    ("P", 2, ("propose", [("open",)])),
    ("P", 2, ("propose", [("set_member", 7)])),
    ("member", 3, ("ballot", "Q", 1)),
    ("member", 4, ("ballot", "P", 1)),
    ("P", 2, ("propose", [("remove_node", 3)])),
    ("Q", 3, ("propose", [("remove_node", 3)])),
    ("member", 2, ("ballot", "P", 1)),
    ("member", 3, ("ballot", "Q", 1)),
    ("member", 3, ("share", line(3))),
    ("P", 2, ("propose", [("set_member", 6)])),
    ("recover", (2,)),
    ("recover", (5, 6)),
    ("member", 1, ("ballot", "P", 1)),
    ("P", 1, ("propose", [("deal", dealing(2, (2, 3), b"another")), ("open",)])),
    ("member", 1, ("ballot", "P", 1)),
    ("member", 2, ("share", line(1))),
    ("member", 2, ("share", line(2))),
    ("member", 2, ("share", line(2))),
    ("member", 3, ("share", line(3))),
    ("P", 1, ("propose", [("deal", dealing(2, (2, 3)))])),
    ("member", 1, ("ballot", "P", 1)),
    ("member", 2, ("share", line(2))),
    ("member", 3, ("share", line(3))),
]


def act_bytes(act, named):
    if act[0] == "propose":
        return 6, bytes([len(act[1])]) + b"".join(map(action_bytes, act[1]))
    if act[0] == "ballot":
        return 7, named[act[1]] + bytes([act[2]])
    if act[0] == "withdraw":
        return 8, named[act[1]]
    if act[0] == "share":
        return 9, act[1]
    return 5, b""


def main():
    service, named, last = Service(), {"none": bytes(32)}, None
    for number, step in enumerate(SCRIPT, 1):
        word, args = step[0], step[1:]
        request = step
        if word == "again":
            request = last
        elif word in ("member", "P", "Q", "forged"):
            signer, m = (args[0], args[-2]) if word == "forged" else (args[0], args[0])
            act = args[-1]
            tag, fields = act_bytes(act, named)
            unsigned = bytes([tag, m]) + fields
            key = MEMBERS[signer]
            message = b"gl-gov1" + (service.identity or b"") + unsigned
            bytes_ = unsigned + behind_length(big(0, 4) + key.sign(key.used, message))
            if act[0] in ("ballot", "withdraw"):
                act = (act[0], named[act[1]], *act[2:])
            request = ("member", m, key.used, signer == m, act, bytes_)
            key.used += 1
            if word in ("P", "Q"):
                named[word] = sha256(bytes_)
        last = request
        try:
            service.take(request)
            told = "rows " + service.digest().hex()
        except Refused as why:
            told = f"refused {why}"
        print(f"{number:2} {told:24} {word} {args[:-1] if word != 'again' else ''}")


if __name__ == "__main__":
    main()
