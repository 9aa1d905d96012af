"""What a node does with what it is asked for, by hand, with nothing but SHA-256: it records requests
as entries of its ledger, and signs.

It knows docs/FORMATS.md, docs/GOVERNANCE.md and RFC 8554 alone, and as much of them as recover.py
needs: a client's put, and of members an acknowledgement, a proposal to open the service, a ballot
with yes and a share. It refuses nothing: whether what is recorded keeps the rules an audit tells.
"""
import sys
from pathlib import Path

sys.path.insert(0, str(Path(__file__).resolve().parent.parent / "audit"))
from lms_key import Key  # noqa: E402
from recover_ledger import frame  # noqa: E402
from verify_ledger import ACK, APPLICATION, BALLOT, GOVERNANCE, GOVERNED, PROPOSE, PUT, SHARE  # noqa: E402
from verify_ledger import SIGNATURE, Run, Service, behind_length, big, little, sha256  # noqa: E402
from verify_ledger import signature_len, signed_message  # noqa: E402

ACTIVE = 2  # a status of a member
ACCEPTED = 2  # a state of a proposal
OPEN, WAITING = 2, 3  # states of the service
TO_OPEN = b"\x06"  # the action that opens the service


class Request:
    """A member's signed request, cut into its parts."""

    def __init__(self, request, rows):
        self.tag, self.member = request[0], request[1:2]
        self.row = rows[self.member]
        size = 4 + signature_len(self.row[5:61])
        self.fields, signature = request[2 : -4 - size], request[-size:]
        self.leaf = int.from_bytes(signature[4:8], "big")
        self.digest = sha256(request)


class Node:
    """A ledger, and the key of the node that keeps it, whose leaf 0 signed its opening."""

    def __init__(self, seed, opening):
        self.key, self.leaf = Key(seed), 1
        self.id = sha256(self.key.public())
        self.service, self.ledger = Service(), b""
        self.take(opening)

    def take(self, frames):
        self.service.follow_all(frames)
        self.ledger += frames

    def append(self, kind, content, writes={}, claims=bytes(32)):
        view, seqno = self.service.last.view, self.service.seqno + 1
        self.take(frame(view, seqno, kind, content, writes, claims))

    def put(self, name, key, value):
        """Records a client's put."""
        operation = little(PUT, 1) + little(len(name), 1) + name
        operation += little(len(key), 2) + key + behind_length(value)
        run = Run([(PUT, name, key, value)], self.service.tables)
        self.append(APPLICATION, little(1, 2) + operation, run.writes, sha256(run.reply))

    def sign(self):
        """Signs all entries so far. The commit is the last signature before."""
        service = self.service
        view, seqno, root = service.last.view, service.seqno + 1, service.tree.root()
        commit, endorsement = max(service.signed), service.table(b"nodes")[self.id][63:-8]
        signed = self.key.sign(self.leaf, signed_message(root, view, seqno, commit))
        self.leaf += 1
        signature = big(1, 4) + endorsement + self.key.public() + signed
        content = self.id + little(commit, 8) + root + behind_length(signature)
        self.append(SIGNATURE, content)

    def govern(self, request):
        """Records a member's request, with the rows that it changes."""
        asked = Request(request, self.service.table(b"members"))
        status = little(ACTIVE, 1) if asked.tag == ACK else asked.row[:1]
        rows = {(b"members", asked.member): status + asked.row[1:61] + little(asked.leaf + 1, 4)}
        effects = {PROPOSE: self.propose, BALLOT: self.vote, SHARE: self.share}
        rows.update(effects.get(asked.tag, lambda asked: {})(asked))
        writes = {(GOVERNED + table, key): value for (table, key), value in rows.items()}
        changed = {row: value for row, value in writes.items() if self.service.stored(*row) != value}
        self.append(GOVERNANCE, request, changed)

    def state(self, state):
        """The service's row in another state."""
        row = self.service.table(b"service")[b"s"]
        return {(b"service", b"s"): little(state, 1) + row[1:]}

    def propose(self, asked):
        actions = asked.fields[1:]
        assert actions == TO_OPEN
        row = b"\x01" + asked.member + behind_length(actions) + b"\x00"
        return {(b"proposals", asked.digest): row}

    def vote(self, asked):
        """The proposal has one action, so its head has 7 bytes, and its count of ballots follows."""
        proposal, answer = asked.fields[:32], asked.fields[32:]
        assert answer == b"\x01"
        row = self.service.table(b"proposals")[proposal]
        head, ballots = row[:7], row[8:] + asked.member + answer
        ballots = b"".join(sorted(ballots[i : i + 2] for i in range(0, len(ballots), 2)))
        count, members = len(ballots) // 2, self.service.table(b"members").values()
        rows = {}
        if 2 * count > sum(member[0] == ACTIVE for member in members):
            head = little(ACCEPTED, 1) + head[1:]
            recovered = self.service.table(b"service")[b"s"][1]
            rows = self.state(WAITING if recovered else OPEN)
        return {**rows, (b"proposals", proposal): head + little(count, 1) + ballots}

    def share(self, asked):
        rows = {(b"shares", asked.member): asked.fields}
        given = len(self.service.table(b"shares")) + 1
        if given >= self.service.table(b"dealing")[b"d"][0]:
            rows.update(self.state(OPEN))
        return rows
