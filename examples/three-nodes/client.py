#!/usr/bin/env -S python3 -B
"""Asks a node of a service, over TCP, and prints what it answers. It knows docs/FORMATS.md alone, and
of the README of crates/gl_messages, to which that page sends its reader, the bytes of messages.

    client.py ADDR put MAP KEY VALUE
    client.py ADDR get MAP KEY
    client.py ADDR status V.S
    client.py ADDR receipt V.S
    client.py ADDR snapshot > FILE
    client.py ADDR govern < REQUEST
    client.py ADDR join < ENDORSED
    client.py ADDR mark NODE

ADDR is where the node listens, an address and a port. KEY and VALUE are in hexadecimal. REQUEST is
what `ccfg sign` told, ENDORSED what `ccfg endorse` told of the node that is to join, and NODE the
identifier of the node that may be switched off. An answer is printed as a schedule's is
(docs/SCHEDULE.md), but that of a proposal names it by its identifier; a receipt is its JSON. FILE gets
the snapshot that the node offers, which `ccfg node` takes as its input, and nothing where there is none
to be had: then the answer stands on the standard error.

It ends with 0, with 1 where the node refuses, and with 2 where it doesn't answer, or where it turned to
a newer snapshot again and again while one was fetched.
"""
import hashlib
import json
import socket
import sys
import time
from typing import NamedTuple

SUBMIT, GOVERN, STATUS_OF, RECEIPT_OF, SNAPSHOT_PART = 16, 17, 18, 19, 20  # what is asked
ACCEPTED, REFUSED, STATUS_IS, RECEIPT_IS, PART, MEMORY = 32, 33, 34, 35, 36, 37  # what is answered
GET, PUT = 1, 3  # operations
JOIN, MARK = 3, 4  # requests of governance that nobody signs
STATUSES = ["Unknown", "Pending", "Committed", "Invalid"]
PROPOSALS = ["", "Open", "Accepted", "Rejected", "Withdrawn", "Failed", "Dropped"]
NOT_LEADER = 110  # refused: the view, and the leader's identifier, empty where none is known
NUMBERS_FIRST = {52: 0, 100: 0, 103: 0, NOT_LEADER: 1, 117: 1}  # refusals with bytes after so many numbers
BAD_SIGNATURE, OTHER_ROOT = 118, 23  # refused: the seqno, the fault, and of another root both roots
DIGEST_AT = 25  # where the digest of a snapshot's body stands in the frame of its evidence
SPELLING = 120  # seconds in which a node is to have made the bytes of its snapshot
TRIES = 5  # so often a snapshot is fetched from its start on


def big(n, size):
    return n.to_bytes(size, "big")


def little(n, size):
    return n.to_bytes(size, "little")


def behind_length(data):
    return little(len(data), 4) + data


# ---- What is asked


def question(kind, number, fields):
    """The frame of what is asked under a number.

    >>> question(STATUS_OF, 7, transaction((2, 1))).hex(" ", -4)
    '00000015 12070000 00000000 00020000 00010000 00000000 00'
    """
    payload = little(kind, 1) + little(number, 8) + fields
    return big(len(payload), 4) + payload


def transaction(id):
    view, seqno = id
    return little(view, 4) + little(seqno, 8)


def row(name, key):
    return little(len(name), 1) + name + little(len(key), 2) + key


def get(name, key):
    return little(GET, 1) + row(name, key)


def put(name, key, value):
    return little(PUT, 1) + row(name, key) + behind_length(value)


def request(*operations):
    """The field with a request of an application.

    >>> request(put(b"public:t", b"a", b"\\1")).hex()
    '14000000010003087075626c69633a740100610100000001'
    """
    return behind_length(little(len(operations), 2) + b"".join(operations))


def join(form):
    """The field with the request by which a node joins, of its public form with its endorsement."""
    key, endorsement = (bytes.fromhex(form[name]) for name in ("key", "endorsement"))
    return behind_length(little(JOIN, 1) + key + behind_length(endorsement))


def mark(node):
    """The field with the request that marks a removed node."""
    return behind_length(little(MARK, 1) + bytes.fromhex(node))


# ---- What is answered


class Accepted(NamedTuple):
    id: tuple
    reply: bytes


class Refused(NamedTuple):
    code: int
    values: list


class StatusIs(NamedTuple):
    status: str


class ReceiptIs(NamedTuple):
    json: bytes


class Part(NamedTuple):
    """Some bytes of a snapshot, and how many it has."""

    total: int
    bytes: bytes


class Memory(NamedTuple):
    """The node has no memory for the answer."""


class Fields:
    """Bytes whose fields are cut off the start."""

    def __init__(self, data):
        self.data = data

    def take(self, size):
        if size > len(self.data):
            raise ValueError("an answer is too short")
        field, self.data = self.data[:size], self.data[size:]
        return field

    def number(self, size):
        return int.from_bytes(self.take(size), "little")

    def field(self):
        return self.take(self.number(4))

    def id(self):
        return self.number(4), self.number(8)


def values_of(code, fields):
    """The values of a refusal: numbers, and after them in some refusals digests, or the leader's identifier, which is
    empty where none is known.

    >>> root = little(2, 4) + b"ab"
    >>> values_of(BAD_SIGNATURE, Fields(little(7, 8) + little(OTHER_ROOT, 8) + root + root))
    [7, 23, '6162', '6162']
    """
    values = []
    while fields.data:
        first = 2 if code == BAD_SIGNATURE and OTHER_ROOT in values[1:2] else NUMBERS_FIRST.get(code)
        is_number = first is None or len(values) < first
        values.append(fields.number(8) if is_number else fields.field().hex())
    return values


def read_answer(payload):
    """The number under which something was asked, and the answer.

    >>> read_answer(bytes.fromhex("22070000000000000002"))
    (7, StatusIs(status='Committed'))
    >>> read_answer(bytes.fromhex("240700000000000000090000000000000003000000616263"))
    (7, Part(total=9, bytes=b'abc'))
    >>> read_answer(bytes.fromhex("2107000000000000006e000c000000020000000000000000000000"))
    (7, Refused(code=110, values=[2, '']))
    """
    fields = Fields(payload)
    kind, number = fields.number(1), fields.number(8)
    if kind == ACCEPTED:
        answer = Accepted(fields.id(), fields.field())
    elif kind == REFUSED:
        code = fields.number(2)
        answer = Refused(code, values_of(code, Fields(fields.field())))
    elif kind == STATUS_IS:
        answer = StatusIs(STATUSES[fields.number(1)])
    elif kind == RECEIPT_IS:
        answer = ReceiptIs(fields.field())
    elif kind == PART:
        answer = Part(fields.number(8), fields.field())
    elif kind == MEMORY:
        answer = Memory()
    else:
        raise ValueError(f"an answer of kind {kind}")
    if fields.data:
        raise ValueError("an answer is too long")
    return number, answer


def replies_of(reply):
    """The answers to a request of an application, as a schedule tells them."""
    fields, told = Fields(reply), []
    for _ in range(fields.number(2)):
        kind = fields.number(1)
        if kind == 2:
            told.append(f"value {fields.field().hex() or '.'}")
        elif kind == 5:
            told.append(f"number {fields.number(8)}")
        else:
            told.append({0: "done", 1: "none", 3: "no", 4: "yes"}[kind])
    return " ; ".join(told)


def proposal_of(reply):
    """What a request of governance came to: the proposal and its state, or nothing."""
    return f"proposal {reply[:32].hex()} {PROPOSALS[reply[32]]}" if reply else ""


def text_of(answer, of_reply=replies_of):
    """An answer as it is printed.

    >>> text_of(Accepted((2, 3), bytes.fromhex("010000")))
    'accepted 2.3 done'
    >>> text_of(Refused(110, [2, ""]))
    'refused 110 2 -'
    """
    if isinstance(answer, Accepted):
        return f"accepted {answer.id[0]}.{answer.id[1]} {of_reply(answer.reply)}".strip()
    if isinstance(answer, Refused):
        return " ".join(["refused", str(answer.code), *(str(value) or "-" for value in answer.values)])
    if isinstance(answer, StatusIs):
        return answer.status
    return answer.json.decode() if isinstance(answer, ReceiptIs) else "no memory"


# ---- Connections


class Client:
    """A connection to a node. One that breaks, or on which nothing comes for so many seconds, is an
    OSError: what was asked may be done, or not."""

    def __init__(self, address, patience=5):
        host, _, port = address.rpartition(":")
        self.socket = socket.create_connection((host, int(port)), patience)
        self.socket.setsockopt(socket.IPPROTO_TCP, socket.TCP_NODELAY, 1)
        self.number = 0

    def close(self):
        self.socket.close()

    def take(self, size):
        data = b""
        while len(data) < size:
            piece = self.socket.recv(size - len(data))
            if not piece:
                raise ConnectionError("the node sends no more")
            data += piece
        return data

    def ask(self, kind, fields):
        """Asks, and waits for the answer."""
        self.number += 1
        self.socket.sendall(question(kind, self.number, fields))
        while True:
            number, answer = read_answer(self.take(int.from_bytes(self.take(4), "big")))
            if number == self.number:
                return answer


class Service:
    """All nodes of a service, by their identifiers and addresses. It asks the one that it takes for the
    leader. Where that one is gone or doesn't lead, it turns to the one that is named, or to the next.
    What was asked of a node that is gone it asks again, so it may be done twice."""

    def __init__(self, nodes, patience=30):
        self.nodes, self.patience = nodes, patience
        self.at, self.client = next(iter(nodes)), None

    def turn_to(self, node):
        if self.client:
            self.client.close()
        self.at, self.client = node, None

    def turn_on(self):
        order = list(self.nodes)
        self.turn_to(order[(order.index(self.at) + 1) % len(order)])

    def ask_once(self, kind, fields):
        """The answer of the leader, if there was one."""
        try:
            self.client = self.client or Client(self.nodes[self.at], 2)
            answer = self.client.ask(kind, fields)
        except OSError:
            self.turn_on()
            return None
        if not isinstance(answer, Refused) or answer.code != NOT_LEADER:
            return answer
        leader = answer.values[1]
        if leader in self.nodes and leader != self.at:
            self.turn_to(leader)
        else:
            self.turn_on()
        return None

    def ask(self, kind, fields):
        end = time.monotonic() + self.patience
        while time.monotonic() < end:
            answer = self.ask_once(kind, fields)
            if answer is not None:
                return answer
            time.sleep(0.02)
        raise TimeoutError("no node leads")


# ---- Snapshots


def is_whole(data):
    r"""Whether bytes are those of one snapshot: its body, a receipt, and the frame of its evidence, in
    which the digest of the body stands. `ccfg node` verifies them.

    >>> frame = bytes(DIGEST_AT) + hashlib.sha256(b"body").digest() + bytes(36)
    >>> data = b"".join(map(behind_length, (b"body", b"{}", frame)))
    >>> is_whole(data), is_whole(data[:-1]), is_whole(data + b"\0")
    (True, False, False)
    >>> is_whole(data.replace(b"body", b"ydob"))
    False
    """
    fields = Fields(memoryview(data))
    try:
        body, _, frame = (fields.field() for _ in range(3))
    except ValueError:
        return False
    return not fields.data and frame[DIGEST_AT : DIGEST_AT + 32] == hashlib.sha256(body).digest()


def base_of(data):
    """Up to which place the entries go that a snapshot stands for: its body begins with that.

    >>> base_of(behind_length(little(1013, 8) + b".."))
    1013
    """
    return int.from_bytes(data[4:12], "little")


def fetch_once(client, progress):
    """The parts of a snapshot from its start on, one after the other, or the answer that there is none.
    They end early where one is of another snapshot than the first."""
    data, total = bytearray(), None
    while total is None or len(data) < total:
        part = client.ask(SNAPSHOT_PART, little(len(data), 8))
        if not isinstance(part, Part):
            return part
        if not part.bytes or total not in (None, part.total):
            break
        total = part.total
        data += part.bytes
        progress(len(data), total)
    return data


def fetch(client, progress=lambda got, total: None):
    """The bytes of the snapshot that a node offers, or the answer that there is none. Where the node turns
    to a newer one meanwhile, it begins again, and gives nothing after so many tries.

    >>> frame = bytes(DIGEST_AT) + hashlib.sha256(b"").digest()
    >>> data = b"".join(map(behind_length, (b"", b"{}", frame)))
    >>> whole = Part(len(data), data)
    >>> answers = [Part(9, b"older"), whole, whole, Refused(81, [2])]
    >>> class Node:
    ...     def ask(self, kind, fields):
    ...         return answers.pop(0)
    >>> fetch(Node()) == data, fetch(Node())
    (True, Refused(code=81, values=[2]))
    """
    for _ in range(TRIES):
        found = fetch_once(client, progress)
        if not isinstance(found, bytearray) or is_whole(found):
            return found
    return None


class Progress:
    """Tells at a terminal four times a second how much of a snapshot is there, in one line."""

    def __init__(self):
        self.told_at, self.up = time.monotonic(), ""

    def __call__(self, got, total):
        now = time.monotonic()
        if sys.stderr.isatty() and now >= self.told_at + 0.25:
            print(f"{self.up}{got / 1e6:10.0f} of {total / 1e6:.0f} MB", file=sys.stderr)
            self.told_at, self.up = now, "\x1b[A"


# ---- The command


def id_of(text):
    view, seqno = text.split(".")
    return int(view), int(seqno)


def asked(words):
    """What the words ask for: its kind, its fields, and how a reply is reported."""
    match words:
        case ["put", name, key, value]:
            fields = request(put(name.encode(), bytes.fromhex(key), bytes.fromhex(value)))
            return SUBMIT, fields, replies_of
        case ["get", name, key]:
            return SUBMIT, request(get(name.encode(), bytes.fromhex(key))), replies_of
        case ["status", id]:
            return STATUS_OF, transaction(id_of(id)), replies_of
        case ["receipt", id]:
            return RECEIPT_OF, transaction(id_of(id)), replies_of
        case ["govern"]:
            return GOVERN, behind_length(sys.stdin.buffer.read()), proposal_of
        case ["join"]:
            return GOVERN, join(json.load(sys.stdin)), proposal_of
        case ["mark", node]:
            return GOVERN, mark(node), proposal_of
    sys.exit(__doc__)


def heard(ask):
    """What is answered. Where no answer comes it ends."""
    try:
        return ask()
    except OSError as error:
        print(f"no answer: {error}", file=sys.stderr)
        sys.exit(2)


def print_answer(address, words):
    kind, fields, of_reply = asked(words)
    answer = heard(lambda: Client(address).ask(kind, fields))
    print(text_of(answer, of_reply))
    return 1 if isinstance(answer, (Refused, Memory)) else 0


def write_snapshot(address):
    found = heard(lambda: fetch(Client(address, SPELLING), Progress()))
    if isinstance(found, bytearray):
        sys.stdout.buffer.write(found)
        return 0
    told = f"{TRIES} times the node turned to a newer snapshot" if found is None else text_of(found)
    print(told, file=sys.stderr)
    return 2 if found is None else 1


def main():
    address, *words = sys.argv[1:] or [""]
    return write_snapshot(address) if words == ["snapshot"] else print_answer(address, words)


if __name__ == "__main__":
    sys.exit(main())
