#!/usr/bin/env -S python3 -B
"""Ledgers that break the rules of the audit, as small edits of a few ledgers.

    rules.py                   prints the rows, for a test that has the ledgers
    rules.py --try             tries each row with verify_ledger.py, and cuts and changed bits
    rules.py --try PROGRAM     tries them with the command `audit` of the built program

An edit is (offset, how many bytes go, which bytes come), and all offsets of a row are those of the
ledger before its edits, ascending. A row ends with the seqno of the first entry that breaks a rule,
and the least rule that it breaks. Both come from docs/AUDIT.md, and from no program's output.
"""
import functools
import subprocess
import sys
from pathlib import Path

import verify_ledger as reader
from leaf import entries_of
from lms_key import Key
from make import SEED
from recover_ledger import Founder, frame, front_of
from verify_ledger import behind_length, big, little, sha256, signed_message

HERE = Path(__file__).resolve().parent
IDENTITY = bytes.fromhex((HERE / "identity").read_text())


def ends_of(data):
    """Where each frame of a ledger ends."""
    ends = [0]
    while ends[-1] < len(data):
        at = ends[-1]
        ends.append(at + 8 + int.from_bytes(data[at + 2 : at + 8], "little"))
    return ends


LONGER = (HERE / "valid.ledger").read_bytes()
BASE = LONGER[: ends_of(LONGER)[4]]
VOTE = (HERE / "vote.ledger").read_bytes()
OPENING = VOTE[: ends_of(VOTE)[2]]
FOUNDER = Founder(bytes([0x22] * 32))
RECOVERED = FOUNDER.found(front_of(LONGER))

# The entries of the base: 2.1 genesis, 2.2 signature, 2.3 application, 2.4 signature. A frame has
# its version at 0, flags at 1, the body's size at 2; its view at 8, seqno at 12, kind at 20, the
# content's length at 21 and the content from 25 on.
E1, E2, E3, E4, END = ends_of(BASE)
VERSION, FLAGS, SIZE, VIEW, SEQNO, KIND, CONTENT_LEN, CONTENT = 0, 1, 2, 8, 12, 20, 21, 25
# In a signature's content: the node at 0, the commit at 32, the root at 40, the signature's length
# at 72, and 4,756 bytes of it. No writes and the claims stand after it.
NODE, COMMIT, ROOT = CONTENT, CONTENT + 32, CONTENT + 40
SIGN_LEN, SIGN, SIGN_END = CONTENT + 72, CONTENT + 76, CONTENT + 76 + 4756
NODE_ID = BASE[E2 + NODE : E2 + NODE + 32]
# In the genesis's content: tag 0, state 1, identity 2, count of nodes 62, key 63, endorsement
# after its length 123, count of members 2471, member 2472, threshold 2533. Of its writes the first
# is the rule 1/2 of action 1, the last the service's row.
IDENTITY_AT, NODE_KEY, ENDORSEMENT = CONTENT + 2, CONTENT + 63, CONTENT + 123
MEMBER, THRESHOLD = CONTENT + 2472, CONTENT + 2533
FIRST_RULE, SERVICE_STATE = 2665, E2 - 32 - 62
# In 2.3: the map and the value of its request, from 45 on its write, and its claims.
MAP, VALUE, WRITES, WRITTEN, CLAIMS = CONTENT + 4, CONTENT + 19, 45, 66, 67
# In 2.5 of the longer ledger: the value that is put, in the request and in the write set.
PUT_VALUE, PUT_WRITTEN = END + 50, END + 85
# The vote: 2.3 acknowledges, 2.4 proposes, 2.5 is the ballot, and 2.6 an application. In their
# write sets: the member's status, the leaf that it used, and the proposal's state; in that of 2.5
# also its count, and the write of the service's row.
V3, V4, V5, V6 = ends_of(VOTE)[2:6]
ACTIVE, LEAF, PROPOSED, DECIDED = 2418, 2481, 2549, 2580
WRITE_COUNT, OPENED, OPENED_END = 2416, 2590, 2683
# The recovery: 3.9, and 3.10 opens the service. In the content of 3.9: identity 1, count of nodes
# 61, endorsement after its length 122. In its write set: the old node's status and the seqno of
# the entry that retired it, the new node's order and status, the service's state and whether it
# was recovered.
R9, R10, RECOVERED_END = ends_of(RECOVERED)[8:]
NEW_IDENTITY, NEW_COUNT, NEW_ENDORSEMENT = R9 + CONTENT + 1, R9 + CONTENT + 61, R9 + CONTENT + 122
OLD_ROW = RECOVERED.index(NODE_ID, R9) + 32 + 5
OLD_STATUS, OLD_REMOVAL = OLD_ROW + 2, OLD_ROW + 2 + 1 + 56 + 4 + 2348
NEW_ORDER = RECOVERED.index(sha256(FOUNDER.node.public()), R9) + 32 + 5
NEW_STATUS, NEW_STATE, WAS_RECOVERED = NEW_ORDER + 2, R10 - 32 - 62, R10 - 32 - 61


def root_of(data, identity=None):
    """The root over the leaves of all entries of a ledger, each under the key in force or this."""
    tree = reader.Tree()
    for entry, key in entries_of(data):
        tree.add(entry.leaf(identity or key))
    return tree.root()


def unsigned(data, seqno, commit, view=2):
    """A signature entry after a ledger, whose signature has no bytes."""
    content = NODE_ID + little(commit, 8) + root_of(data) + little(0, 4)
    return frame(view, seqno, 3, content)


def signed(data, seqno, commit, view):
    """A signature entry after a ledger, by the node of the genesis and under that key."""
    root, node = root_of(data), Key(sha256(b"node", little(1, 4), bytes.fromhex(SEED)))
    signature = node.sign(31, signed_message(root, view, seqno, commit))
    signature = big(1, 4) + BASE[ENDORSEMENT : ENDORSEMENT + 2348] + node.public() + signature
    content = NODE_ID + little(commit, 8) + root + behind_length(signature)
    return frame(view, seqno, 3, content)


def evidence(data, seqno):
    """The evidence of the snapshot of a ledger."""
    service = reader.Service()
    service.follow_all(data)
    return frame(2, seqno, 4, sha256(service.snapshot_body()))


def put(at, data):
    """As many other bytes."""
    return at, len(data), data


def flip(data, at):
    """The lowest bit of a byte changed."""
    return put(at, bytes([data[at] ^ 1]))


def cut(at, to):
    return at, to - at, b""


def behind(data):
    return END, 0, data


def recovered_by(data):
    return R9, RECOVERED_END - R9, data


def opened_by(data):
    return R10, RECOVERED_END - R10, data


def recovered_behind(data):
    return RECOVERED_END, 0, data


def edited(data, edits):
    for at, gone, come in reversed(edits):
        data = data[:at] + come + data[at + gone :]
    return data


# The base with another value in 2.3, in the request and in the write set.
FORGED = [flip(BASE, E3 + VALUE), flip(BASE, E3 + WRITTEN)]
FORGED_ROOT = root_of(edited(BASE, FORGED)[:E4])
OLD_KEY_ROOT = root_of(RECOVERED[:R10], IDENTITY)
FOUNDING = b"\x01\x02" + IDENTITY + bytes(2) + bytes(1 + 32 + 1)
RECOVERY = b"\x02" + IDENTITY + bytes(1)
OLD_AGAIN = b"\x02" + IDENTITY + b"\x01" + BASE[NODE_KEY : ENDORSEMENT + 2348]
NEW_AGAIN = RECOVERED[R9 + CONTENT : NEW_ENDORSEMENT + 2348]
MARK = b"\x04" + NODE_ID
ACK = b"\x05\x01" + bytes(4)
STRANGER = b"\x05\x07" + bytes(4)
JOIN = b"\x03" + BASE[NODE_KEY : NODE_KEY + 56] + bytes(4)
EVIDENCE = bytes(range(32))
SHOWN = evidence(BASE, 5)  # it breaks no rule
UNPUBLIC = b"\x01\x00\x01\x01t\x01\x00a"
RESERVED = b"\x01\x00\x01\x16public:ccf.gov.members\x01\x00\x01"
ROW_A, ROW_B = b"\x08public:t\x01\x00a", b"\x08public:t\x01\x00b"  # 01 stands in the first
NO_NUMBER = b"\x01\x00\x05" + ROW_A + little(1, 8)
OVERFLOW = b"\x02\x00\x05" + ROW_B + little(2**64 - 1, 8) + b"\x05" + ROW_B + little(1, 8)
NOT_THERE = b"\x02\x00\x08\x08public:t\x06" + ROW_B + b"\x01" + little(0, 4)
PUT = b"\x01\x00\x03" + ROW_B + little(0, 4)
NO_KEY = b"\x02\x00\x03" + ROW_B + little(0, 4) + b"\x07" + ROW_B + b"\x08public:t"

BASE_ROWS = [
    # Rule 1. The frame.
    ("a version of 2", [put(E3 + VERSION, b"\x02")], 3, 1),
    ("flags", [put(E4 + FLAGS, b"\x01")], 4, 1),
    ("a size above the limit", [put(E1 + SIZE, b"\x01\x00\x10\x00\x00\x00")], 1, 1),
    ("a size of one less: the claims are too short", [put(E3 + SIZE, b"\x5a")], 3, 1),
    ("a size of one more: the next byte trails", [put(E3 + SIZE, b"\x5c")], 3, 1),
    ("the last byte is missing", [cut(END - 1, END)], 4, 1),
    ("a byte behind the last frame", [behind(b"\x01")], 5, 1),
    # The body.
    ("no kind", [put(E3 + KIND, b"\x05")], 3, 1),
    ("a content that is longer than the body", [put(E3 + CONTENT_LEN, b"\xff")], 3, 1),
    ("a signature that is shorter than its length says", [put(E2 + SIGN_LEN, b"\x95")], 2, 1),
    ("a signature that is longer than its length says", [put(E2 + SIGN_LEN, b"\x93")], 2, 1),
    ("a signature that writes", [put(E4 + SIGN_END, b"\x01")], 4, 1),
    ("a signature that claims", [put(END - 1, b"\x01")], 4, 1),
    ("a genesis that claims", [put(E2 - 1, b"\x01")], 1, 1),
    ("a write to a map without a name", [put(E3 + WRITES + 4, b"\x00")], 3, 1),
    # The request.
    ("a request without operations", [put(E3 + CONTENT, b"\x00")], 3, 1),
    ("a request of two operations with one", [put(E3 + CONTENT, b"\x02")], 3, 1),
    ("an operation that there isn't", [put(E3 + CONTENT + 2, b"\x09")], 3, 1),
    ("a map's name with a space", [put(E3 + MAP, b" ")], 3, 1),
    ("a request of governance that there isn't", [put(E1 + CONTENT, b"\x0a")], 1, 1),
    ("a genesis that waits for shares", [put(E1 + CONTENT + 1, b"\x03")], 1, 1),
    ("member 0", [put(E1 + MEMBER, b"\x00")], 1, 1),
    # Rule 2.
    ("a seqno too high", [put(E3 + SEQNO, b"\x04")], 3, 2),
    ("a seqno too low", [put(E4 + SEQNO, b"\x03")], 4, 2),
    ("a seqno of 2^56 and 3", [put(E3 + SEQNO + 7, b"\x01")], 3, 2),
    ("an entry is left out", [cut(E3, E4)], 3, 2),
    ("the genesis is left out", [cut(E1, E2)], 1, 2),
    ("an entry stands twice", [(E4, 0, BASE[E3:E4])], 4, 2),
    # Rule 3.
    ("an empty ledger", [cut(E1, END)], 1, 3),
    ("the first view is 3", [put(E1 + VIEW, b"\x03")], 1, 3),
    ("an application stands first", [cut(E1, E3), put(E3 + SEQNO, b"\x01")], 1, 3),
    ("a signature stands first", [cut(E1, E2), put(E2 + SEQNO, b"\x01")], 1, 3),
    ("a recovery stands first", [(E1, END, frame(2, 1, 1, RECOVERY))], 1, 3),
    ("a recovery in the view of the last signature", [behind(frame(2, 5, 1, RECOVERY))], 5, 3),
    ("a recovery that leaves a view out", [behind(frame(4, 5, 1, RECOVERY))], 5, 3),
    ("the view of an application falls", [put(E3 + VIEW, b"\x01")], 3, 3),
    ("the view of a signature falls", [put(E4 + VIEW, b"\x00")], 4, 3),
    ("a view of one entry alone: the one behind it falls", [put(E3 + VIEW, b"\x03")], 4, 3),
    # Rule 4.
    ("the opening signature is of a later view", [put(E2 + VIEW, b"\x03")], 2, 4),
    ("no signature behind the genesis", [cut(E2, E3), put(E3 + SEQNO, b"\x02")], 2, 4),
    ("a second genesis", [behind(frame(2, 5, 1, FOUNDING))], 5, 4),
    ("a recovery right behind the genesis", [(E2, END - E2, frame(3, 2, 1, RECOVERY))], 2, 4),
    ("a recovery behind an application", [(E4, END - E4, frame(3, 4, 1, RECOVERY))], 4, 4),
    # Rule 5.
    ("a map that isn't public", [put(E3 + MAP, b"x")], 3, 5),
    ("the same, behind a signature", [behind(frame(2, 5, 2, UNPUBLIC))], 5, 5),
    ("a table of governance", [behind(frame(2, 5, 2, RESERVED))], 5, 5),
    ("a sum with a value of one byte", [behind(frame(2, 5, 2, NO_NUMBER))], 5, 5),
    ("a sum of 2^64 in the second operation", [behind(frame(2, 5, 2, OVERFLOW))], 5, 5),
    ("a check of a key that isn't there", [behind(frame(2, 5, 2, NOT_THERE))], 5, 5),
    ("a value without a byte is followed", [behind(frame(2, 5, 2, NO_KEY))], 5, 5),
    # Rule 6.
    ("another value is written", [flip(BASE, E3 + WRITTEN)], 3, 6),
    ("another value is put", [flip(BASE, E3 + VALUE)], 3, 6),
    ("another key is written", [put(E3 + WRITES + 15, b"b")], 3, 6),
    ("another digest of the reply", [flip(BASE, E3 + CLAIMS)], 3, 6),
    (
        "nothing is written",
        [put(E3 + SIZE, b"\x49"), (E3 + WRITES, 22, bytes(4))],
        3,
        6,
    ),
    # Rule 7.
    ("a dealing with the threshold 0", [put(E1 + THRESHOLD, b"\x00")], 1, 7),
    ("a dealing to a stranger", [put(E1 + MEMBER, b"\x02")], 1, 7),
    ("a changed endorsement", [flip(BASE, E1 + ENDORSEMENT + 2000)], 1, 7),
    ("a node's changed key", [flip(BASE, E1 + NODE_KEY + 50)], 1, 7),
    ("the service's key changed", [flip(BASE, E1 + IDENTITY_AT + 50)], 1, 7),
    ("a service's key of one level", [put(E1 + IDENTITY_AT + 3, b"\x01")], 1, 7),
    ("a mark of a trusted node", [behind(frame(2, 5, 1, MARK))], 5, 7),
    ("an acknowledgement that isn't signed", [behind(frame(2, 5, 1, ACK))], 5, 7),
    ("an acknowledgement of a stranger", [behind(frame(2, 5, 1, STRANGER))], 5, 7),
    ("a join without an endorsement", [behind(frame(2, 5, 1, JOIN))], 5, 7),
    # Rule 8.
    ("the service's row says opening", [put(E1 + SERVICE_STATE, b"\x01")], 1, 8),
    ("a row has another rule", [put(E1 + FIRST_RULE + 2, b"\x03")], 1, 8),
    ("the genesis says opening", [put(E1 + CONTENT + 1, b"\x01")], 1, 8),
    # Rule 9.
    ("another root", [flip(BASE, E4 + ROOT)], 4, 9),
    ("another root in the opening signature", [flip(BASE, E2 + ROOT + 31)], 2, 9),
    ("another value, put and written: the leaf is another", FORGED, 4, 9),
    ("a node that isn't recorded", [flip(BASE, E4 + NODE)], 4, 9),
    (
        "a whole genesis of an opening service: the leaf is another",
        [put(E1 + CONTENT + 1, b"\x01"), put(E1 + SERVICE_STATE, b"\x01")],
        2,
        9,
    ),
    # Rule 10.
    ("the commit is no signature", [put(E4 + COMMIT, b"\x03")], 4, 10),
    ("the commit is its own, and it opens nothing", [put(E4 + COMMIT, b"\x04")], 4, 10),
    ("the commit is the genesis", [put(E4 + COMMIT, b"\x01")], 4, 10),
    ("no commit", [put(E4 + COMMIT, b"\x00")], 4, 10),
    ("the commit is above the ledger", [put(E4 + COMMIT + 7, b"\x01")], 4, 10),
    ("the opening signature commits the genesis alone", [put(E2 + COMMIT, b"\x01")], 2, 10),
    # Rule 11.
    ("the signature's last byte", [flip(BASE, E4 + SIGN_END - 1)], 4, 11),
    ("the signature's first byte", [put(E4 + SIGN, b"\x01")], 4, 11),
    ("the opening signature's last byte", [flip(BASE, E2 + SIGN_END - 1)], 2, 11),
    ("the key inside the signature", [flip(BASE, E4 + SIGN + 4 + 2348 + 30)], 4, 11),
    ("the last entry is of a later view, which it signs", [put(E4 + VIEW, b"\x03")], 4, 11),
    ("another value and the root that fits", [*FORGED, put(E4 + ROOT, FORGED_ROOT)], 4, 11),
    ("a signature without a byte", [behind(unsigned(BASE, 5, 4))], 5, 11),
    # Rule 12.
    ("evidence with another digest", [behind(frame(2, 5, 4, EVIDENCE))], 5, 12),
    ("evidence behind an application", [(E4, END - E4, evidence(BASE[:E4], 4))], 4, 12),
    ("evidence behind evidence", [behind(SHOWN + evidence(BASE + SHOWN, 6))], 6, 12),
    # Several at once: the first entry is reported, and of it the least rule.
    (
        "1 before 2: flags, and a seqno",
        [put(E3 + FLAGS, b"\x01"), put(E3 + SEQNO, b"\x04")],
        3,
        1,
    ),
    (
        "2 before 3: a seqno and a view that fall",
        [put(E3 + VIEW, b"\x01"), put(E3 + SEQNO, b"\x02")],
        3,
        2,
    ),
    ("2 before 12: evidence at another seqno", [behind(frame(2, 6, 4, EVIDENCE))], 5, 2),
    ("3 before 12: evidence of an earlier view", [behind(frame(1, 5, 4, EVIDENCE))], 5, 3),
    ("3 before 4: a second genesis, whose view falls", [behind(frame(1, 5, 1, FOUNDING))], 5, 3),
    ("3 before 12: evidence stands first", [(E1, END, frame(2, 1, 4, EVIDENCE))], 1, 3),
    ("4 before 5: an abort behind the genesis", [(E2, END - E2, frame(2, 2, 2, UNPUBLIC))], 2, 4),
    ("4 before 12: evidence behind it", [(E2, END - E2, frame(2, 2, 4, EVIDENCE))], 2, 4),
    (
        "4 before 10: the opening signature's view and commit",
        [put(E2 + VIEW, b"\x03"), put(E2 + COMMIT, b"\x01")],
        2,
        4,
    ),
    (
        "5 before 6: a map that isn't public, and another digest",
        [put(E3 + MAP, b"x"), flip(BASE, E3 + CLAIMS)],
        3,
        5,
    ),
    (
        "7 before 8: the threshold 0, and a row with another rule",
        [put(E1 + THRESHOLD, b"\x00"), put(E1 + FIRST_RULE + 2, b"\x03")],
        1,
        7,
    ),
    (
        "9 before 10 and 11: a root, a commit and a signature",
        [put(E4 + COMMIT, b"\x03"), flip(BASE, E4 + ROOT), flip(BASE, E4 + SIGN_END - 1)],
        4,
        9,
    ),
    (
        "10 before 11: a commit and a signature",
        [put(E4 + COMMIT, b"\x03"), flip(BASE, E4 + SIGN_END - 1)],
        4,
        10,
    ),
    (
        "6 at 2.3 before 1 at 2.4",
        [flip(BASE, E3 + CLAIMS), put(E4 + VERSION, b"\x02")],
        3,
        6,
    ),
    (
        "9 at 2.2 before 2 at 2.3",
        [flip(BASE, E2 + ROOT), put(E3 + SEQNO, b"\x04")],
        2,
        9,
    ),
    (
        "9: the views of 2.3 and 2.4 rise together, so that the leaf of 2.3 is another",
        [put(E3 + VIEW, b"\x03"), put(E4 + VIEW, b"\x03")],
        4,
        9,
    ),
]

LONGER_ROWS = [
    (
        "10: the commit 2 is a signature, but below 4, which 2.8 records",
        [(len(LONGER), 0, unsigned(LONGER, 10, 2))],
        10,
        10,
    ),
    ("11: the commit 4 is not below it", [(len(LONGER), 0, unsigned(LONGER, 10, 4))], 10, 11),
    ("11: nor is the commit 8", [(len(LONGER), 0, unsigned(LONGER, 10, 8))], 10, 11),
    (
        "6 at 2.7: what 2.5 puts is another value, and 2.7 follows it",
        [flip(LONGER, PUT_VALUE), flip(LONGER, PUT_WRITTEN)],
        7,
        6,
    ),
]

VOTE_ROWS = [
    ("5: the ballot that opens is left out", [cut(V5, V6), put(V6 + SEQNO, b"\x05")], 5, 5),
    ("7: the signature of an acknowledgement", [flip(VOTE, V4 - 200)], 3, 7),
    ("7: a stranger proposes", [put(V4 + CONTENT + 1, b"\x02")], 4, 7),
    ("7: a no that was signed as a yes", [put(V5 + CONTENT + 34, b"\x00")], 5, 7),
    ("7: a member proposes that isn't active", [cut(V3, V4), put(V4 + SEQNO, b"\x03")], 3, 7),
    ("7: a ballot without its proposal", [cut(V4, V5), put(V5 + SEQNO, b"\x04")], 4, 7),
    ("8: the member stays Accepted", [put(V3 + ACTIVE, b"\x01")], 3, 8),
    ("8: another leaf is noted", [put(V4 + LEAF, b"\x03")], 4, 8),
    ("8: the proposal is accepted without a ballot", [put(V4 + PROPOSED, b"\x02")], 4, 8),
    ("8: the accepted proposal stays open", [put(V5 + DECIDED, b"\x01")], 5, 8),
    (
        "8: the service isn't opened",
        [
            put(V5 + SIZE, little(V6 - V5 - 8 - (OPENED_END - OPENED), 2)),
            put(V5 + WRITE_COUNT, b"\x02"),
            cut(V5 + OPENED, V5 + OPENED_END),
        ],
        5,
        8,
    ),
]

OPENING_ROWS = [
    ("5: the service isn't open", [(len(OPENING), 0, BASE[E3:E4])], 3, 5),
]

RECOVERED_ROWS = [
    # Rules 1 to 4.
    ("a recovery with one node says two", [put(NEW_COUNT, b"\x02")], 9, 1),
    ("the recovery is of the view before", [put(R9 + VIEW, b"\x02")], 9, 3),
    ("the recovery leaves a view out", [put(R9 + VIEW, b"\x04")], 9, 3),
    ("the view behind the recovery falls", [put(R10 + VIEW, b"\x02")], 10, 3),
    ("the opening signature is of a later view", [put(R10 + VIEW, b"\x04")], 10, 4),
    ("no signature behind the recovery", [opened_by(frame(3, 10, 2, NOT_THERE))], 10, 4),
    ("a recovery right behind the recovery", [opened_by(frame(4, 10, 1, RECOVERY))], 10, 4),
    ("a genesis behind the recovery", [recovered_behind(frame(3, 11, 1, FOUNDING))], 11, 4),
    # Rules 5 to 8.
    ("the recovered service isn't open", [recovered_behind(frame(3, 11, 2, PUT))], 11, 5),
    ("a recovery without a node", [recovered_by(frame(3, 9, 1, RECOVERY))], 9, 7),
    ("a recovery that names the old node", [recovered_by(frame(3, 9, 1, OLD_AGAIN))], 9, 7),
    ("a second one that names the same", [recovered_behind(frame(4, 11, 1, NEW_AGAIN))], 11, 7),
    ("the new node's endorsement is changed", [flip(RECOVERED, NEW_ENDORSEMENT + 2000)], 9, 7),
    ("the old key is named", [put(NEW_IDENTITY, IDENTITY)], 9, 7),
    ("the old node stays trusted", [put(OLD_STATUS, b"\x02")], 9, 8),
    ("the old node was retired earlier", [put(OLD_REMOVAL, b"\x08")], 9, 8),
    ("the new node is the first", [put(NEW_ORDER, b"\x01")], 9, 8),
    ("the new node is pending", [put(NEW_STATUS, b"\x01")], 9, 8),
    ("the service's row says open", [put(NEW_STATE, b"\x02")], 9, 8),
    ("the service's row says never recovered", [put(WAS_RECOVERED, b"\x00")], 9, 8),
    # Rules 9 to 11.
    ("another root in the opening signature", [flip(RECOVERED, R10 + ROOT)], 10, 9),
    ("the root with a leaf under the old key", [put(R10 + ROOT, OLD_KEY_ROOT)], 10, 9),
    ("the opening signature commits the one before", [put(R10 + COMMIT, b"\x08")], 10, 10),
    ("a commit before the recovery", [recovered_behind(unsigned(RECOVERED, 11, 8, 3))], 11, 10),
    ("11: the commit 10 is not", [recovered_behind(unsigned(RECOVERED, 11, 10, 3))], 11, 11),
    ("the opening signature's last byte", [flip(RECOVERED, R10 + SIGN_END - 1)], 10, 11),
    ("the old node opens the service", [opened_by(signed(RECOVERED[:R10], 10, 10, 3))], 10, 11),
    ("the old node signs behind it", [recovered_behind(signed(RECOVERED, 11, 10, 3))], 11, 11),
]

TABLES = [
    ("BASE", "the first four entries of valid.ledger", BASE, BASE_ROWS),
    ("LONGER", "valid.ledger", LONGER, LONGER_ROWS),
    ("VOTE", "vote.ledger", VOTE, VOTE_ROWS),
    ("OPENING", "the first two entries of vote.ledger", OPENING, OPENING_ROWS),
    ("RECOVERED", "valid.ledger, recovered from the seed 22..22", RECOVERED, RECOVERED_ROWS),
]
FRONTS = [(E2, "valid 2.1 -"), (E3, "valid 2.2 2.2"), (E4, "valid 2.3 2.2"), (END, "valid 2.4 2.4")]


# ---- Printing


def text_of(data, room):
    """A string of hexadecimal digits, broken into lines that fit."""
    digits = data.hex()
    if len(digits) <= room:
        return [f'"{digits}"']
    lines = ['"\\'] + ["    " + digits[i : i + 80] + "\\" for i in range(0, len(digits), 80)]
    return lines[:-1] + [lines[-1][:-1] + '"']


def row_lines(name, edits, seqno, rule):
    short = ", ".join(f'({at}, {gone}, "{come.hex()}")' for at, gone, come in edits)
    line = f'("{name}", &[{short}], {seqno}, {rule}),'
    if len(line) <= 92:
        return [line]
    lines = ["(", f'    "{name}",', "    &["]
    for at, gone, come in edits:
        first, *rest = text_of(come, 60)
        lines += [f"        ({at}, {gone}, {first}"] + ["        " + more for more in rest]
        lines[-1] += "),"
    return lines + ["    ],", f"    {seqno},", f"    {rule},", "),"]


def print_tables():
    print("// A row: name, edits (offset, how many bytes go, which come), seqno, rule.")
    for name, what, data, rows in TABLES:
        print(f"\n// Of {what}: {len(data)} bytes.")
        print(f"const {name}: [(&str, &[(usize, usize, &str)], u64, u8); {len(rows)}] = [")
        for row in rows:
            print("\n".join("    " + line for line in row_lines(*row)))
        print("];")
    print("\n// The fronts of the base that end where a frame ends.")
    print(f"const FRONTS: [(usize, &str); {len(FRONTS)}] = [")
    for at, verdict in FRONTS:
        print(f'    ({at}, "{verdict}"),')
    print("];")


# ---- Trying


def told_by_reader(data):
    return reader.audit(IDENTITY, data)[0]


def told_by(program):
    """What a program's command `audit` tells."""
    words = [program, "audit", "--identity", IDENTITY.hex()]

    def told(data):
        return subprocess.run(words, input=data, capture_output=True).stdout.decode().strip()

    return told


def differs(told, name, data, want):
    got = told(data)
    if got != want:
        print(f"{name}: {want} is wanted, {got} is told")
    return got != want


def front_verdict(size):
    """What is told of the base cut at a byte: of the end of a frame that it is valid."""
    if size == 0:
        return "fault seqno 1 rule 3"
    whole = sum(end <= size for end in (E2, E3, E4, END))
    return dict(FRONTS).get(size, f"fault seqno {whole + 1} rule 1")


def try_rows(told, tries):
    bad = 0
    for table, _, data, rows in TABLES:
        tried = [row for row in rows if tries(table, row)]
        for name, edits, seqno, rule in tried:
            bad += differs(told, name, edited(data, edits), f"fault seqno {seqno} rule {rule}")
        print(f"{table.lower()}: {len(tried)} of {len(rows)} rows tried")
    return bad


def try_fronts(told):
    print(f"cuts: {END + 1} to try")
    return sum(differs(told, f"cut at {n}", BASE[:n], front_verdict(n)) for n in range(END + 1))


def try_bits(told, bits):
    bad = 0
    places = [(at, bit) for at in range(0, END, 64) for bit in bits]
    for at, bit in places:
        changed = BASE[:at] + bytes([BASE[at] ^ 1 << bit]) + BASE[at + 1 :]
        if told(changed).startswith("valid"):
            print(f"bit {bit} of byte {at}: valid")
            bad += 1
    print(f"changed bits: {len(places)} tried")
    return bad


def try_all(words):
    """Tries the rows, each prefix and changed bits: with the reader, which knows rules 7 and 8 of
    foundings alone, or with a program."""
    if words:
        told = told_by(words[0])
        bad = try_rows(told, lambda table, row: True) + try_fronts(told) + try_bits(told, [0])
    else:
        reader.is_signed = functools.lru_cache(None)(reader.is_signed)
        known = lambda table, row: row[3] not in (7, 8) or row[2] == 1 or table == "RECOVERED"
        bad = try_rows(told_by_reader, known) + try_fronts(told_by_reader)
        bad += try_bits(told_by_reader, range(8))
    print("all as wanted" if bad == 0 else f"{bad} differ")
    return bad != 0


if __name__ == "__main__":
    sys.exit(try_all(sys.argv[2:]) if sys.argv[1:2] == ["--try"] else print_tables())
