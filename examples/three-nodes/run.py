#!/usr/bin/env -S python3 -B
"""A service of three nodes on this machine: founded with key files, opened by its members, asked by a
client, and not stopped by the loss of its leader. Prints each command and what it tells.

    run.py CCFG FOLDER

CCFG is the built program, FOLDER an empty folder for the files. What a line tells that begins with `#`
was seen, and is no command's. It ends with 0 only where all of it was seen, within four minutes, and
ends its nodes in any case.
"""
import signal
import sys
import threading
import time

from client import RECEIPT_OF, STATUS_OF, SUBMIT, Accepted, Client, Service
from client import put, request, text_of, transaction
from export import entries_of
from service import Story, play, required, seen, within

SECONDS = 240
NAMES, MEMBERS = ["node1", "node2", "node3"], ["alice", "bob"]
TICKS = [10, 15, 20]  # so many ticks without a word of a leader, each node another number
LOAD_BEFORE, LOAD_AFTER = 150, 100  # puts that are accepted before the leader is killed, and after it
PAUSE = 0.005  # seconds between two puts of the load


def open_service(story):
    """The members acknowledge the service and open it. A put before that is refused: 51, it is opening."""
    story.client(story.leading, "put public:t 61 31", wanted=1)
    story.acknowledge()
    accepted = story.decide("transition_service_to_open", {})
    required(accepted, "the proposal is accepted: the service is open")


def watch(story):
    """A put over one connection, and what becomes of it: Pending at first, and without a receipt, then
    Committed."""
    client = Client(story.leading.address)
    id = client.ask(SUBMIT, request(put(b"public:t", b"a", b"1"))).id
    put_at = time.monotonic()
    first = client.ask(STATUS_OF, transaction(id))
    receipt = client.ask(RECEIPT_OF, transaction(id))
    within(20, lambda: client.ask(STATUS_OF, transaction(id)).status == "Committed", "it is committed")
    took = time.monotonic() - put_at
    client.close()
    text = f"{id[0]}.{id[1]}"
    required(first.status == "Pending", f"a put is accepted as {text}; asked at once its status is Pending")
    required(text_of(receipt) == "refused 80 1", "its receipt is refused then: 80 1, it is Pending")
    seen(f"{took:.2f} seconds later it is Committed")
    return text


def ask(story):
    """A put, its status at two nodes, a read, a node that doesn't lead, and the put's receipt."""
    first, (second, _) = story.leading, story.others()
    id = watch(story)
    required(story.client(first, f"status {id}") == "Committed", "so says the leader")
    within(20, lambda: story.status_at(second, id) == "Committed", f"{second.name} knows it too")
    required(story.client(second, f"status {id}") == "Committed", "and so says another node")
    required(story.accepted(first, "get public:t 61").endswith(" value 31"), "the value is read")
    answer = story.client(second, "put public:t 61 32", wanted=1)
    wanted = f"refused 110 {first.standing()[1]} {first.id}"
    required(answer == wanted, "who doesn't lead names the view and the leader")
    story.client(second, f"receipt {id}", out="receipt.json")
    told = story.program.ccfg(f"verify --identity {story.identity}", "receipt.json")
    required(told.decode().split() == ["valid", id], "the receipt is valid under the service's key alone")


class Load(threading.Thread):
    """Puts, one after another, each once the one before is accepted. It turns to another node where its
    own is gone. A put that got no answer is asked again, and may then stand twice."""

    def __init__(self, nodes):
        super().__init__(daemon=True)
        self.service, self.ids, self.going = Service(nodes), [], True

    def run(self):
        while self.going:
            key = f"{len(self.ids):08d}".encode()
            answer = self.service.ask(SUBMIT, request(put(b"public:load", key, b"x")))
            if isinstance(answer, Accepted):
                self.ids.append(answer.id)
            time.sleep(PAUSE)

    def has(self, count):
        if not self.is_alive():
            sys.exit("the load ended")
        return len(self.ids) >= count


def statuses(story, ids):
    """How many of these transactions have each status, as the leader tells them."""
    counts = {}
    for id in ids:
        status = story.service.ask(STATUS_OF, transaction(id)).status
        counts.setdefault(status, []).append(id)
    return counts


def lose_leader(story):
    """The leader is killed while it has puts to do, and another node is elected. It gives the killed
    node, the new leader's view, the puts known to be committed before, and all that were accepted."""
    first, others = story.leading, story.others()
    view_before = first.standing()[1]
    load = Load({node.id: node.address for node in story.nodes})
    load.start()
    within(30, lambda: load.has(LOAD_BEFORE), "the load is under way")
    sure = statuses(story, list(load.ids)).get("Committed", [])
    first.process.send_signal(signal.SIGKILL)
    killed = time.monotonic()
    first.process.wait(10)
    before = len(load.ids)
    seen(f"in the midst of puts, {before} of them accepted, {len(sure)} known to be committed, {first.name} is killed")
    elected = within(30, lambda: leader(view_before + 1, others), "another node leads")
    story.leading, (_, view, _) = elected
    seen(f"{time.monotonic() - killed:.1f} seconds later {story.leading.name} tells: leader view {view}")
    within(60, lambda: load.has(before + LOAD_AFTER), "puts go on")
    load.going = False
    load.join(40)
    later = [id for id in load.ids if id[0] >= view]
    required(len(later) >= LOAD_AFTER // 2, f"the puts go on: {len(later)} more are accepted in view {view}")
    return first, view, sure, load.ids


def count_load(story, killed, view, sure, ids):
    """What became of the load: what was committed stays so, and nothing is lost that the new leader took."""
    last = f"{ids[-1][0]}.{ids[-1][1]}"
    story.committed(last)
    counts = statuses(story, ids)
    committed, lost = counts.pop("Committed"), counts.pop("Invalid", [])
    seen(f"of {len(ids)} puts {len(committed)} are Committed, and {len(lost)} are Invalid")
    required(not counts, "no put is left undecided")
    required(set(sure) <= set(committed), "each put that was committed before is so now")
    required(all(id[0] < view for id in lost), f"{killed.name} alone had accepted those that are Invalid")


def leader(view, nodes):
    """The node of these that leads, in this view or a later one, and where it stands."""
    stands = [(node, node.standing()) for node in nodes]
    leads = [(node, of) for node, of in stands if of and of[0] == "leader" and of[1] >= view]
    return leads[0] if leads else None


def take_back(story, killed):
    """The killed node goes on from its file, and takes what it missed."""
    story.begin(killed, "/dev/null")
    story.accepted(story.leading, "put public:t 62 33")
    story.has_all(killed)


def committed_ledger(story, node, standing):
    """The entries of a node's file up to the commit that it told last. All of them are valid."""
    story.export(node)
    valid, commit = story.is_valid(f"{node.name}.ledger"), standing[2]
    entries = entries_of((story.program.folder / f"{node.name}.key").read_bytes())
    holds = valid and commit <= len(entries)
    required(holds, f"it is valid, and {commit} of its {len(entries)} entries are committed")
    return entries[:commit]


def compare(story):
    """The nodes end. Their ledgers are valid, and of their committed ledgers one is a prefix of the other."""
    stands = [node.stop() for node in story.nodes]
    seen("the nodes are ended by SIGTERM")
    ledgers = [committed_ledger(story, *of) for of in zip(story.nodes, stands)]
    longest = max(ledgers, key=len)
    fronts = all(ledger == longest[: len(ledger)] for ledger in ledgers)
    required(fronts, "each committed ledger is a front of the longest one")


def run(story):
    for node in story.nodes:
        story.begin(node, "opening.ledger")
    story.settle(story.nodes)
    open_service(story)
    ask(story)
    killed, view, sure, ids = lose_leader(story)
    count_load(story, killed, view, sure, ids)
    take_back(story, killed)
    compare(story)


if __name__ == "__main__":
    play(SECONDS, lambda program: Story(program, NAMES, MEMBERS, "opening", TICKS), run, __doc__)
