#!/usr/bin/env -S python3 -B
"""Audits a ledger, with nothing but SHA-256: a second opinion beside `ccfg audit`.

    verify_ledger.py --identity HEX [FILE]

HEX is the service's key, 60 bytes as lower-case hexadecimal; the ledger is FILE, or the standard
input. It prints `valid LAST SIGNED` (status 0), `fault seqno N rule R` or `fault foreign HEX`
(status 1), as docs/AUDIT.md tells. It knows that page, docs/FORMATS.md, the bytes of a snapshot's
body (crates/gl_snapshot_body/README.md) and RFC 8554 alone.

Of requests of governance rules 7 and 8 are tried where they found the service, once or again. The
write set of any other is taken as it stands, and that is said on the standard error.
"""
import argparse
import hashlib
import re
import sys
from pathlib import Path

GOVERNANCE, APPLICATION, SIGNATURE, EVIDENCE = range(1, 5)  # kinds of entries
GET, HAS, PUT, REMOVE, ADD, CHECK, FOLLOW, SIZE = range(1, 9)  # operations
GENESIS, RECOVER, JOIN, MARK, ACK, PROPOSE, BALLOT, WITHDRAW, SHARE = range(1, 10)
BODY_LIMIT = 2**20
SNAPSHOT_LIMIT = 4_000_000_000
GOVERNED = b"public:ccf.gov."
DONE, NONE, NO, YES = b"\x00", b"\x01", b"\x03", b"\x04"  # answers without a field
PENDING, TRUSTED, RETIRED = b"\x01", b"\x02", b"\x03"  # statuses of nodes
OPEN_PROPOSAL, DROPPED = b"\x01", b"\x06"  # states of proposals


class Broken(Exception):
    """A rule is broken."""


def required(holds, rule):
    if not holds:
        raise Broken(rule)


def sha256(*parts):
    return hashlib.sha256(b"".join(parts)).digest()


def big(n, size):
    return n.to_bytes(size, "big")


def little(n, size):
    return n.to_bytes(size, "little")


def from_little(data):
    return int.from_bytes(data, "little")


def behind_length(data):
    return little(len(data), 4) + data


def behind_count(parts):
    return little(len(parts), 4) + b"".join(parts)


class Fields:
    """Bytes whose fields are cut off the start. Bytes that encode nothing break rule 1."""

    def __init__(self, data):
        self.data, self.at = data, 0

    def take(self, size):
        self.at += size
        required(self.at <= len(self.data), 1)
        return self.data[self.at - size : self.at]

    def number(self, size, least=0, most=2**64 - 1):
        n = from_little(self.take(size))
        required(least <= n <= most, 1)
        return n

    def field(self, width, least, most):
        return self.take(self.number(width, least, most))

    def map_name(self):
        name = self.field(1, 1, 128)
        required(all(0x21 <= byte <= 0x7E for byte in name), 1)
        return name

    def key(self):
        return self.field(2, 1, 1024)

    def value(self):
        return self.field(4, 0, 65536)

    def optional_value(self):
        return self.value() if self.number(1, 0, 1) else None

    def member(self):
        return self.number(1, 1, 255)

    def signature(self):
        return self.field(4, 0, BODY_LIMIT)

    def counted(self, read):
        return [read() for _ in range(self.number(1))]

    def end(self):
        required(self.at == len(self.data), 1)


# ---- Requests of applications


def read_operation(fields):
    tag, name = fields.number(1, GET, SIZE), fields.map_name()
    key = fields.key() if tag != SIZE else None
    last = {PUT: fields.value, CHECK: fields.optional_value, FOLLOW: fields.map_name}
    last[ADD] = lambda: fields.number(8)
    return tag, name, key, last[tag]() if tag in last else None


def value_answer(value):
    return NONE if value is None else b"\x02" + behind_length(value)


def number_answer(n):
    return b"\x05" + little(n, 8)


def is_allowed(name):
    reserved = GOVERNED, b"public:ccf.internal."
    return name.startswith(b"public:") and not name.startswith(reserved)


class Run:
    """A request's run on tables: its write set and its reply. What fails breaks rule 5."""

    def __init__(self, operations, tables):
        self.tables, self.writes = tables, {}
        answers = [self.perform(*operation) for operation in operations]
        self.reply = little(len(answers), 2) + b"".join(answers)

    def seen(self, name, key):
        stored = self.tables.get(name, {}).get(key)
        return self.writes.get((name, key), stored)

    def size(self, name):
        rows = self.tables.get(name, {})
        written = [(key, value) for (n, key), value in self.writes.items() if n == name]
        return len(rows) + sum((value is not None) - (key in rows) for key, value in written)

    def perform(self, tag, name, key, last):
        required(is_allowed(name) and (tag != FOLLOW or is_allowed(last)), 5)
        if tag == SIZE:
            return number_answer(self.size(name))
        value = self.seen(name, key)
        if tag == GET:
            return value_answer(value)
        if tag == ADD:
            required(value is None or len(value) == 8, 5)
            total = from_little(value or b"") + last
            required(total < 2**64, 5)
            self.writes[name, key] = little(total, 8)
            return number_answer(total)
        if tag == FOLLOW:
            required(value is None or 1 <= len(value) <= 1024, 5)
            return NONE if value is None else value_answer(self.seen(last, value))
        if tag == CHECK:
            required(value == last, 5)
        if tag in (PUT, REMOVE):
            self.writes[name, key] = last
        if tag in (HAS, REMOVE):
            return NO if value is None else YES
        return DONE


# ---- Requests of governance


class Governance:
    """A request of governance, of which all is read, and what is wanted here is kept."""

    def __init__(self, content):
        self.fields = fields = Fields(content)
        self.tag = fields.number(1, GENESIS, SHARE)
        if self.tag in (GENESIS, RECOVER):
            self.state = fields.number(1, 1, 2) if self.tag == GENESIS else None
            self.identity, self.nodes = fields.take(60), fields.counted(self.read_node)
        if self.tag == GENESIS:
            self.members = fields.counted(lambda: (fields.member(), fields.take(60)))
            start = fields.at
            self.threshold, self.holders = self.read_dealing()
            self.dealing = content[start : fields.at]
        elif self.tag == JOIN:
            self.read_node()
        elif self.tag == MARK:
            self.node = fields.take(32)
        elif self.tag >= ACK:
            self.read_signed()
        fields.end()

    def read_node(self):
        return self.fields.take(56), self.fields.signature()

    def read_dealing(self):
        threshold, _ = self.fields.number(1), self.fields.take(32)
        shares = self.fields.counted(lambda: (self.fields.member(), self.fields.take(32)))
        return threshold, [holder for holder, _ in shares]

    def read_action(self):
        number = self.fields.number(1, 1, 7)
        if number in (1, 2):
            self.fields.member()
        if number == 3:
            self.read_dealing()
        self.fields.take({1: 60, 4: 32, 5: 32, 7: 28}.get(number, 0))

    def read_signed(self):
        self.fields.member()
        if self.tag == PROPOSE:
            for _ in range(self.fields.number(1, 1, 16)):
                self.read_action()
        elif self.tag != ACK:
            self.fields.take(32)
        if self.tag == BALLOT:
            self.fields.number(1, 0, 1)
        self.fields.signature()

    def check_members(self):
        """The members and the dealing of a genesis are accepted."""
        numbers, keys = [m[0] for m in self.members], [m[1] for m in self.members]
        required(len(set(numbers)) == len(set(keys)) == len(self.members) <= 64, 7)
        required(1 <= self.threshold <= len(self.holders), 7)
        required(self.holders == sorted(set(self.holders) & set(numbers)), 7)

    def check_nodes(self, recorded):
        """The nodes of a genesis or a recovery are accepted after those that are recorded."""
        ids = [sha256(key) for key, _ in self.nodes]
        required(1 <= len(ids) == len(set(ids)) <= 32 and not recorded & set(ids), 7)
        required(len(recorded) + len(ids) < 2**16 and self.identity[:4] == big(2, 4), 7)
        for key, endorsement in self.nodes:
            required(is_signed(self.identity[4:], key, endorsement), 7)

    def node_rows(self, first):
        """The rows of the nodes of a genesis or a recovery, from this number on."""
        for order, (key, endorsement) in enumerate(self.nodes, first):
            row = little(order, 2) + b"\x02" + key + behind_length(endorsement) + bytes(8)
            yield (GOVERNED + b"nodes", sha256(key)), row

    def genesis_rows(self):
        rows = {(b"constitution", little(i, 1)): b"\x01\x00\x02\x00" for i in range(1, 8)}
        rows[b"dealing", b"d"] = self.dealing
        for number, key in self.members:
            rows[b"members", little(number, 1)] = b"\x01" + key + bytes(4)
        rows[b"service", b"s"] = little(self.state, 1) + b"\x00" + self.identity
        rows = {(GOVERNED + table, key): value for (table, key), value in rows.items()}
        return {**rows, **dict(self.node_rows(1))}

    def recovery_writes(self, service):
        """What a recovery writes that is the next entry: each row that changes, and it alone."""
        nodes, proposals = service.table(b"nodes"), service.table(b"proposals")
        rows = dict(self.node_rows(len(nodes) + 1))
        for node, row in nodes.items():
            if row[2:3] in (PENDING, TRUSTED):
                removal = little(service.seqno + 1, 8)
                rows[GOVERNED + b"nodes", node] = row[:2] + RETIRED + row[3:-8] + removal
        for proposal, row in proposals.items():
            if row[:1] == OPEN_PROPOSAL:
                rows[GOVERNED + b"proposals", proposal] = DROPPED + row[1:]
        rows[GOVERNED + b"service", b"s"] = b"\x01\x01" + self.identity
        return {row: value for row, value in rows.items() if service.stored(*row) != value}


# ---- Entries


class Entry:
    """The next entry of a ledger."""

    def __init__(self, ledger):
        required(ledger.take(2) == b"\x01\x00", 1)
        self.body = ledger.field(6, 0, BODY_LIMIT)
        fields = Fields(self.body)
        self.view, self.seqno = fields.number(4), fields.number(8)
        self.kind = fields.number(1, GOVERNANCE, EVIDENCE)
        self.read_content(fields.field(4, 0, BODY_LIMIT))
        count, self.writes, last = fields.number(4), {}, ()
        required(self.kind in (GOVERNANCE, APPLICATION) or count == 0, 1)
        for _ in range(count):
            row = fields.map_name(), fields.key()
            required(last < row, 1)
            self.writes[row], last = fields.optional_value(), row
        self.claims = fields.take(32)
        required(self.kind == APPLICATION or self.claims == bytes(32), 1)
        fields.end()

    def read_content(self, content):
        fields = Fields(content)
        if self.kind == GOVERNANCE:
            self.request = Governance(fields.take(len(content)))
        elif self.kind == APPLICATION:
            self.request = [read_operation(fields) for _ in range(fields.number(2, 1, 64))]
        elif self.kind == SIGNATURE:
            self.node, self.commit, self.root = fields.take(32), fields.number(8), fields.take(32)
            self.signature = fields.signature()
        else:
            self.digest = fields.take(32)
        fields.end()

    def asks(self, *tags):
        return self.kind == GOVERNANCE and self.request.tag in tags

    def components(self, identity):
        """The parts of its leaf: the body's digest, the commit evidence, the claims."""
        tied = sha256(identity, little(self.view, 4), little(self.seqno, 8)).hex()
        evidence = f"ce:{self.view}.{self.seqno}:{tied}"
        return sha256(self.body), evidence, self.claims

    def leaf(self, identity):
        body, evidence, claims = self.components(identity)
        return sha256(body, sha256(evidence.encode()), claims)


def signed_message(root, view, seqno, commit):
    """What the signature of a signature entry signs."""
    return root + little(view, 4) + little(seqno, 8) + little(commit, 8)


# ---- Signatures (RFC 8554)

HEIGHTS = {5: 5, 6: 10}  # LMS_SHA256_M32_H5 and H10
CHAINS = {3: (4, 67, 4), 4: (8, 34, 0)}  # LMOTS_SHA256_N32_W4 and W8: w, p, ls


def number_at(data, at):
    return int.from_bytes(data[at : at + 4], "big")


def signature_len(key):
    """The length of the LMS signatures by a key of 56 bytes; 0 where its types are not known."""
    lms, ots = number_at(key, 0), number_at(key, 4)
    known = len(key) == 56 and lms in HEIGHTS and ots in CHAINS
    return 12 + 32 * (1 + CHAINS[ots][1] + HEIGHTS[lms]) if known else 0


def digits_of(digest, w, p, ls):
    """The digits of a digest and of its checksum (3.1.3 and 4.4)."""
    shifts, top = range(8 - w, -1, -w), 2**w - 1
    checksum = sum(top - (byte >> shift & top) for byte in digest for shift in shifts) << ls
    return [byte >> shift & top for byte in digest + big(checksum, 2) for shift in shifts][:p]


def is_signed(key, message, signature):
    """The bytes are an LMS signature of the message by the key (4.6 and 5.4.2)."""
    if not 0 < signature_len(key) == len(signature):
        return False
    height, (w, p, ls) = HEIGHTS[number_at(key, 0)], CHAINS[number_at(key, 4)]
    leaf, path = number_at(signature, 0), 44 + 32 * p
    if signature[path - 4 : path] + signature[4:8] != key[:8] or leaf >= 2**height:
        return False
    identifier, prefix, ends = key[8:24], key[8:24] + signature[:4], []
    digest = sha256(prefix, b"\x81\x81", signature[8:40], message)
    for i, digit in enumerate(digits_of(digest, w, p, ls)):
        value = signature[40 + 32 * i : 72 + 32 * i]
        for step in range(digit, 2**w - 1):
            value = sha256(prefix, big(i, 2), big(step, 1), value)
        ends.append(value)
    node = 2**height + leaf
    value = sha256(identifier, big(node, 4), b"\x82\x82", sha256(prefix, b"\x80\x80", *ends))
    for at in range(path, path + 32 * height, 32):
        sibling = signature[at : at + 32]
        pair = (sibling, value) if node % 2 else (value, sibling)
        node //= 2
        value = sha256(identifier, big(node, 4), b"\x83\x83", *pair)
    return value == key[24:]


def is_signed_by(node, identity, message, signature):
    """The bytes are an HSS signature of two levels, the last by the node's key (6.3)."""
    at = 4 + signature_len(identity[4:])
    key = signature[at : at + 56]
    return (
        identity[:4] == big(2, 4)
        and signature[:4] == big(1, 4)
        and is_signed(identity[4:], key, signature[4:at])
        and is_signed(key, message, signature[at + 56 :])
        and sha256(key) == node
    )


# ---- The ledger


class Tree:
    """The roots of the complete trees that the leaves so far fill, the greatest first."""

    def __init__(self):
        self.roots = []

    def add(self, leaf):
        size = 1
        while self.roots and self.roots[-1][0] == size:
            leaf, size = sha256(self.roots.pop()[1], leaf), 2 * size
        self.roots.append((size, leaf))

    def root(self):
        root = self.roots[-1][1]
        for _, left in reversed(self.roots[:-1]):
            root = sha256(left, root)
        return root


class Service:
    """What the entries so far come to."""

    def __init__(self):
        self.last = None  # the last entry
        self.seqno = 0  # its place
        self.identity = None  # the key in force, which the last genesis or recovery names
        self.tables = {}
        self.tree = Tree()
        self.views = []  # each view, and its first place
        self.signed = {}  # the identifier of each signature, by its seqno
        self.commit = 0  # the one that the last signature records
        self.marked = []  # the nodes that were marked since
        self.untried = 0  # how many entries were not tried by rules 7 and 8

    def table(self, name):
        return self.tables.get(GOVERNED + name, {})

    def stored(self, name, key):
        return self.tables.get(name, {}).get(key)

    def is_open(self):
        return self.table(b"service").get(b"s", b"")[:1] == b"\x02"

    def is_unopened(self):
        """The last entry founds the service, once or again, so that a signature opens it."""
        return self.last is not None and self.last.asks(GENESIS, RECOVER)

    def follow_all(self, data):
        """Takes the entries whose frames these bytes are, one after the other."""
        ledger = Fields(data)
        while ledger.at < len(data):
            self.follow(Entry(ledger))

    def follow(self, entry):
        """Takes the next entry, or tells the first rule that it breaks."""
        required(entry.seqno == self.seqno + 1 < 2**40, 2)
        self.check_order(entry)
        checks = {
            APPLICATION: self.check_application,
            SIGNATURE: self.check_signature,
            EVIDENCE: self.check_evidence,
        }
        checks.get(entry.kind, self.check_governance)(entry)
        self.take(entry)

    def check_order(self, entry):
        if self.last is None:
            required(entry.asks(GENESIS) and entry.view == 2, 3)
        elif entry.asks(RECOVER):
            required(entry.view == self.last.view + 1, 3)
            required(self.last.kind == SIGNATURE, 4)
        else:
            required(entry.view >= self.last.view, 3)
            required(not entry.asks(GENESIS), 4)
        if self.is_unopened():
            required(entry.kind == SIGNATURE and entry.view == self.last.view, 4)

    def check_application(self, entry):
        required(self.is_open(), 5)
        run = Run(entry.request, self.tables)
        required(entry.writes == run.writes and entry.claims == sha256(run.reply), 6)

    def check_governance(self, entry):
        request = entry.request
        if entry.asks(GENESIS):
            request.check_members()
            request.check_nodes(set())
            required(entry.writes == request.genesis_rows(), 8)
        elif entry.asks(RECOVER):
            request.check_nodes(set(self.table(b"nodes")))
            required(entry.writes == request.recovery_writes(self), 8)
        else:
            self.untried += 1

    def check_signature(self, entry):
        rows = self.table(b"nodes")
        required(entry.node in rows and entry.root == self.tree.root(), 9)
        if self.is_unopened():
            required(entry.commit == entry.seqno, 10)
        else:
            removals = [from_little(rows.get(node, b"")[-8:]) for node in self.marked]
            required(entry.commit in self.signed, 10)
            required(entry.commit >= max([self.commit, *removals]), 10)
        message = signed_message(entry.root, entry.view, entry.seqno, entry.commit)
        required(is_signed_by(entry.node, self.identity, message, entry.signature), 11)

    def check_evidence(self, entry):
        required(self.last.kind == SIGNATURE, 12)
        body = self.snapshot_body()
        required(len(body) <= SNAPSHOT_LIMIT and entry.digest == sha256(body), 12)

    def snapshot_body(self):
        """The body of the snapshot of the entries so far."""
        head = little(self.seqno, 8) + little(self.last.view, 4) + little(self.commit, 8)
        views = [little(view, 4) + little(first, 8) for view, first in self.views]
        rows = [
            little(len(name), 1) + name + little(len(key), 2) + key + behind_length(value)
            for name, table in sorted(self.tables.items())
            for key, value in sorted(table.items())
        ]
        peaks = [root for _, root in self.tree.roots]
        return head + behind_count(views) + behind_count(peaks) + behind_count(rows)

    def take(self, entry):
        if self.last is None or self.last.view < entry.view:
            self.views.append((entry.view, entry.seqno))
        for (name, key), value in entry.writes.items():
            rows = self.tables.setdefault(name, {})
            rows[key] = value
            if value is None:
                del rows[key]
        if entry.asks(GENESIS, RECOVER):
            self.identity = entry.request.identity
        if entry.asks(MARK):
            self.marked.append(entry.request.node)
        if entry.kind == SIGNATURE:
            self.signed[entry.seqno] = f"{entry.view}.{entry.seqno}"
            self.commit, self.marked = entry.commit, []
        self.tree.add(entry.leaf(self.identity))
        self.last, self.seqno = entry, entry.seqno


def audit(identity, data):
    """The verdict on a ledger, and how many entries were not tried by rules 7 and 8."""
    service = Service()
    try:
        service.follow_all(data)
        required(service.last is not None, 3)
    except Broken as broken:
        return f"fault seqno {service.seqno + 1} rule {broken}", service.untried
    if service.identity != identity:
        return f"fault foreign {service.identity.hex()}", service.untried
    signed = list(service.signed.values())[-1:] or ["-"]
    return f"valid {service.last.view}.{service.seqno} {signed[0]}", service.untried


def main():
    parser = argparse.ArgumentParser(description="Audits a ledger.", allow_abbrev=False)
    parser.add_argument("--identity", required=True, metavar="HEX")
    parser.add_argument("file", nargs="?", default="/dev/stdin", metavar="FILE")
    words = parser.parse_args()
    if not re.fullmatch("[0-9a-f]{120}", words.identity):
        parser.error("the service's key is 120 digits of lower-case hexadecimal")
    try:
        data = Path(words.file).read_bytes()
    except OSError as error:
        print(error, file=sys.stderr)
        return 3
    verdict, untried = audit(bytes.fromhex(words.identity), data)
    if untried:
        print(f"not tried: rules 7 and 8 of {untried} entries", file=sys.stderr)
    print(verdict)
    return 0 if verdict.startswith("valid") else 1


if __name__ == "__main__":
    sys.exit(main())
