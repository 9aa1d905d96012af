#!/usr/bin/env -S python3 -B
"""Prints a ledger with two snapshots and what is owed of them, for the tests in t_snapshots.

    snapshots.py > MODULE

The ledger is the base of rules.py, then the evidence of a snapshot at 2.4, a put and a signature in
the next view, the evidence of a snapshot at 3.7, and a removal. The key of the node of the genesis
signs. All comes from docs/FORMATS.md and docs/AUDIT.md by way of verify_ledger.py, and from no
program's output.
"""
import verify_ledger as reader
from make import receipt_of
from recover_ledger import frame
from rules import BASE, ENDORSEMENT, IDENTITY, ends_of, evidence, signed, unsigned
from verify_ledger import behind_length, little, sha256

VIEW = 3
ROW = b"\x08public:t\x01\x00"
# put public:t 62 02, and remove public:t 61.
PUT = b"\x01\x00\x03" + ROW + b"b" + behind_length(b"\x02")
REMOVE = b"\x01\x00\x04" + ROW + b"a"


def service_of(data):
    service = reader.Service()
    service.follow_all(data)
    return service


def application(data, content):
    """The entry of an application's request after a ledger, in the later view."""
    service, fields = service_of(data), reader.Fields(content)
    count = fields.number(2)
    run = reader.Run([reader.read_operation(fields) for _ in range(count)], service.tables)
    return frame(VIEW, service.seqno + 1, 2, content, run.writes, sha256(run.reply))


def later_evidence(data, seqno):
    """The evidence of the snapshot of a ledger, in the later view."""
    return frame(VIEW, seqno, 4, sha256(service_of(data).snapshot_body()))


def whole():
    data = BASE + evidence(BASE, 5)
    data += application(data, PUT)
    data += signed(data, 7, 4, VIEW)
    data += later_evidence(data, 8)
    return data + application(data, REMOVE)


LEDGER = whole()
ENDS = ends_of(LEDGER)
SIGNED = LEDGER[: ENDS[7]]
NODE_ENDORSEMENT = BASE[ENDORSEMENT : ENDORSEMENT + 2348]

# The parts of the snapshot at 2.4 as it is handed on, with the receipt of its evidence by the
# signature 3.7, and where each begins in the file, behind its length.
BODY = service_of(BASE).snapshot_body()
RECEIPT = receipt_of(SIGNED, 5, 7)
FRAME = LEDGER[ENDS[4] : ENDS[5]]
FILE = b"".join(behind_length(part) for part in (BODY, RECEIPT, FRAME))
BODY_AT, RECEIPT_AT, FRAME_AT = 4, 8 + len(BODY), 12 + len(BODY) + len(RECEIPT)

# What a reader says of the file with the lowest bit of a byte changed: 92 of what is no snapshot,
# 91 of a receipt that isn't accepted or is of another transaction, 90 of another digest. In the
# body: base at 0, view at 8, commit at 12, the start of the one view at 24, the one peak at 40, the
# count of the rows at 72, and the value of the last row, of public:t, at the end. In the frame:
# version at 0, view at 8, seqno at 12, kind at 20, digest at 25, claims at the end. The lowest bit
# of a digit in the receipt makes it another digit, but for `a` and `f`.
CHANGED = [
    (0, 92),
    (BODY_AT, 92),
    (BODY_AT + 8, 90),
    (BODY_AT + 12, 90),
    (BODY_AT + 24, 90),
    (BODY_AT + 28, 92),
    (BODY_AT + 40, 90),
    (BODY_AT + 72, 92),
    (BODY_AT + BODY.index(b"gov.service"), 92),
    (BODY_AT + len(BODY) - 1, 90),
    (RECEIPT_AT - 4, 92),
    (RECEIPT_AT, 92),
    (RECEIPT_AT + RECEIPT.index(b"proof"), 92),
    (RECEIPT_AT + RECEIPT.index(b'"claims_digest":"') + 17, 91),
    (RECEIPT_AT + RECEIPT.index(b"ce:2.5:") + 3, 91),
    (RECEIPT_AT + RECEIPT.index(b'"signature":"') + 13 + 7, 91),
    (RECEIPT_AT + RECEIPT.index(b'"commit":') + 9, 91),
    (FRAME_AT - 4, 92),
    (FRAME_AT, 92),
    (FRAME_AT + 8, 91),
    (FRAME_AT + 12, 92),
    (FRAME_AT + 20, 92),
    (FRAME_AT + 25, 90),
    (FRAME_AT + len(FRAME) - 1, 92),
]


def wrong_rows():
    """Entries after 3.7 of the ledger, each with the first rule that it breaks."""
    flipped = bytearray(sha256(service_of(SIGNED).snapshot_body()))
    flipped[0] ^= 1
    rows = [
        frame(VIEW, 9, 4, bytes(flipped)),
        frame(2, 8, 4, bytes(flipped)),
        frame(VIEW, 8, 4, bytes(flipped)),
        frame(VIEW, 8, 2, b"\x01\x00\x03\x01t\x01\x00b" + little(0, 4)),
        frame(VIEW, 8, 2, PUT),
        unsigned(SIGNED, 8, 2, VIEW),
        unsigned(SIGNED, 8, 4, VIEW),
        unsigned(SIGNED, 8, 7, VIEW),
    ]
    return [(entry, rule_of(SIGNED, entry)) for entry in rows]


def rule_of(data, entry):
    service = service_of(data)
    try:
        service.follow_all(entry)
    except reader.Broken as broken:
        return int(str(broken))
    raise AssertionError("the entry breaks no rule")


# ---- Printing


def text_of(data, indent):
    """A byte string of these visible bytes, broken into lines that fit."""
    text = data.decode().replace('"', '\\"')
    lines = [text[i : i + 88 - len(indent)] for i in range(0, len(text), 88 - len(indent))]
    if len(lines) < 2:
        return f'b"{text}"'
    return 'b"\\\n' + "\\\n".join(f"{indent}    {line}" for line in lines) + '"'


def print_bytes(what, name, data):
    print(f"\n/// {what}\npub const {name}: &[u8] = {text_of(data, '')};")


def print_list(what, name, kind, rows):
    print(f"\n/// {what}\npub const {name}: &[{kind}] = &[")
    for row in rows:
        print(f"    {row},")
    print("];")


def row_of(*members):
    return "(\n" + "".join(f"        {member},\n" for member in members) + "    )"


def body_rows():
    rows = []
    for seqno in (2, 4, 7):
        body = service_of(LEDGER[: ENDS[seqno]]).snapshot_body()
        digest = text_of(sha256(body).hex().encode(), "    ")
        rows.append(row_of(seqno, len(body), digest))
    return rows


def print_ledger():
    pieces = [piece.hex().encode() for piece in LEDGER.split(NODE_ENDORSEMENT)]
    what = "The frames of the ledger; between two pieces stands the node's endorsement."
    print_list(what, "PIECES", "&[u8]", [text_of(piece, "    ") for piece in pieces])
    print_bytes("The node's endorsement.", "ENDORSEMENT", NODE_ENDORSEMENT.hex().encode())
    print_bytes("The service's key.", "IDENTITY", IDENTITY.hex().encode())
    roots = b"".join(service_of(LEDGER[:end]).tree.root() for end in ENDS[1:])
    print_bytes("The root of the tree after each entry.", "ROOTS", roots.hex().encode())
    what = "The seqno of each signature, and the length and the digest of the body there."
    print_list(what, "BODIES", "(u64, usize, &[u8])", body_rows())


def print_file():
    signature = reader.Entry(reader.Fields(LEDGER[ENDS[6] :])).signature.hex().encode()
    front, back = RECEIPT.split(signature)
    print_bytes("The receipt of 2.5 up to the signature of 3.7.", "RECEIPT_FRONT", front)
    print_bytes("The receipt behind it.", "RECEIPT_BACK", back)
    print("\n/// How many bytes the file of the snapshot at 2.4 has.")
    print(f"pub const FILE_LEN: usize = {len(FILE)};")
    print_bytes("The digest of that file.", "FILE_DIGEST", sha256(FILE).hex().encode())
    what = "Bytes of the file, and what a reader says where the lowest bit of one is changed."
    print_list(what, "CHANGED", "(usize, u8)", CHANGED)


def main():
    print("//! A ledger, and what is owed of its snapshots,", end="")
    print(" as `examples/audit/snapshots.py` prints them,")
    print("//! in hexadecimal but for the text of the receipt.")
    print_ledger()
    print_file()
    rows = [row_of(text_of(entry.hex().encode(), "    "), rule) for entry, rule in wrong_rows()]
    what = "Frames of entries after 3.7, and the first rule that each breaks."
    print_list(what, "WRONG", "(&[u8], u8)", rows)


if __name__ == "__main__":
    main()
