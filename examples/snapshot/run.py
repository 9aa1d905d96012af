#!/usr/bin/env -S python3 -B
"""A node that joins a service on this machine, and begins from a snapshot that another one gives. Prints
each command and what it tells.

    run.py CCFG FOLDER

CCFG is the built program, FOLDER an empty folder for the files. What a line tells that begins with `#`
was seen, and is no command's. It ends with 0 only where all of it was seen, within four minutes, and
ends its nodes in any case.
"""
import sys
from pathlib import Path

sys.path.insert(0, str(Path(__file__).resolve().parent.parent / "three-nodes"))
from client import SNAPSHOT_PART, SUBMIT, Accepted, Client, Part, base_of, little, put, request  # noqa: E402
from export import entries_of  # noqa: E402
from service import Story, nodes_of, play, required, seen, within  # noqa: E402

SECONDS = 240
NAMES, MEMBERS, JOINER = ["node1", "node2", "node3"], ["alice", "bob"], "node4"
TICKS = [10, 15, 20, 25]  # so many ticks without a word of a leader, each node another number
PUTS, KEYS = 1_000, 10  # a leader makes evidence of a snapshot about every thousand entries
SNAPSHOT = f"{JOINER}.snapshot"


def load(story):
    """Puts over one connection, each once the one before is accepted, until all are committed. It gives the
    first one's transaction."""
    client, ids = Client(story.leading.address), []
    for n in range(PUTS):
        answer = client.ask(SUBMIT, request(put(b"public:t", b"%d" % (n % KEYS), b"%d" % n)))
        if not isinstance(answer, Accepted):
            sys.exit(f"not accepted: {answer}")
        ids.append(f"{answer.id[0]}.{answer.id[1]}")
    client.close()
    story.committed(ids[-1])
    seen(f"{PUTS:,} puts over {KEYS} keys are committed, from {ids[0]} to {ids[-1]}")
    return ids[0]


def has_snapshot(node):
    client = Client(node.address)
    answer = client.ask(SNAPSHOT_PART, little(0, 8))
    client.close()
    return isinstance(answer, Part)


def take_snapshot(story):
    """A node that follows has no snapshot at first, and gives one once the ledger is long enough."""
    giver = story.others()[0]
    story.client(giver, "snapshot", out=SNAPSHOT, wanted=1)
    first = load(story)
    within(20, lambda: has_snapshot(giver), f"{giver.name} has a snapshot")
    story.client(giver, "snapshot", out=SNAPSHOT)
    base = base_of((story.program.folder / SNAPSHOT).read_bytes())
    seen(f"it stands for the first {base:,} entries")
    return first, base


def record(story):
    """The new node's key, which the service's key endorses; a leader records it."""
    id = story.program.keygen(JOINER, "node", "h10w4")["node"]
    story.program.endorse(JOINER)
    [joiner] = nodes_of(story.program, [JOINER], [id], len(NAMES) + 1)
    story.accepted(story.leading, "join", f"{JOINER}.endorsed")
    return joiner


def introduce(story, joiner):
    """One after the other the nodes begin again, and know where the new one will be. The leader is the last."""
    old, leader, followers = list(story.nodes), story.leading, story.others()
    story.nodes.append(joiner)
    for node in followers:
        node.stop()
        story.begin(node, "/dev/null")
        story.has_all(node)
    leader.stop()
    story.begin(leader, "/dev/null")
    story.settle(old)


def with_change(data, at):
    """These bytes with the lowest bit of one changed."""
    return data[:at] + bytes([data[at] ^ 1]) + data[at + 1 :]


def refuse_others(story, joiner):
    """A snapshot that lacks its last byte, or has another one in its last row or in its receipt, is refused."""
    folder = story.program.folder
    data = (folder / SNAPSHOT).read_bytes()
    last_row = 3 + int.from_bytes(data[:4], "little")
    claims = data.index(b'"claims_digest":"') + 17
    others = {
        "cut": (data[:-1], b"fault Shape "),
        "row": (with_change(data, last_row), b"fault Digest "),
        "receipt": (with_change(data, claims), b"fault Receipt "),
    }
    words, told = " ".join(joiner.words([], TICKS[-1])), []
    for name, (other, fault) in others.items():
        (folder / f"{name}.snapshot").write_bytes(other)
        told.append(story.program.ccfg(words, f"{name}.snapshot", wanted=1).startswith(fault))
    required(all(told), f"{JOINER} refuses each of these, and keeps nothing of it")


def begin_joiner(story, joiner, base):
    """It begins behind the snapshot, and waits until the members trust it. Then it is sent what follows."""
    story.begin(joiner, SNAPSHOT)
    what = f"{JOINER} begins behind {base}"
    story.tell_standing(joiner, lambda of: of and of[2] == base, what)
    story.acknowledge()
    trusted = story.decide("transition_node_to_trusted", {"node": joiner.id})
    required(trusted, f"the proposal is accepted: {JOINER} is trusted")
    story.has_all(joiner)


def ask_joiner(story, joiner, first, base):
    """It knows what is committed on both sides of its base, and has receipts above it alone."""
    later = story.accepted(story.leading, "put public:t 61 31").split()[1]
    within(20, lambda: story.status_at(joiner, later) == "Committed", f"{JOINER} has {later}")
    for id in (first, later):
        required(story.client(joiner, f"status {id}") == "Committed", f"so says {JOINER}")
    answer = story.client(joiner, f"receipt {first}", wanted=1)
    required(answer == f"refused 85 {base}", f"{first} is below its base, {base}: it has no receipt of it")
    story.client(joiner, f"receipt {later}", out="receipt.json")
    told = story.program.ccfg(f"verify --identity {story.identity}", "receipt.json")
    required(told.decode().split() == ["valid", later], "it has one of what stands above")
    return later


def begin_again(story, joiner, later):
    """Its file has all that it needs: the input isn't read again."""
    joiner.stop()
    story.begin(joiner, "/dev/null")
    story.has_all(joiner)
    required(story.client(joiner, f"status {later}") == "Committed", f"{JOINER} has what it had")


def compare(story, joiner):
    """The ledger of a node that began with the service, beside the snapshot."""
    for node in story.nodes:
        node.stop()
    seen("the nodes are ended by SIGTERM")
    story.export(joiner, wanted=1)
    whole, folder = story.nodes[0].name, story.program.folder
    story.export(story.nodes[0])
    required(story.is_valid(f"{whole}.ledger"), "it is valid")
    size, ledger = ((folder / name).stat().st_size for name in (SNAPSHOT, f"{whole}.ledger"))
    count = len(entries_of((folder / f"{whole}.key").read_bytes()))
    required(size < ledger, f"the snapshot has {size:,} bytes, the ledger of {count:,} entries {ledger:,}")


def run(story):
    for node in story.nodes:
        story.begin(node, "opening.ledger")
    story.settle(story.nodes)
    first, base = take_snapshot(story)
    joiner = record(story)
    introduce(story, joiner)
    refuse_others(story, joiner)
    begin_joiner(story, joiner, base)
    later = ask_joiner(story, joiner, first, base)
    begin_again(story, joiner, later)
    compare(story, joiner)


if __name__ == "__main__":
    play(SECONDS, lambda program: Story(program, NAMES, MEMBERS, "open", TICKS), run, __doc__)
