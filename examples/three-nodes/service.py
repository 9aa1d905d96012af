"""A service on this machine: its keys and its opening ledger, which the built program makes, its nodes,
each a process of that program, and what a run of it tells. run.py, examples/snapshot/run.py and
bench/node.py have their nodes from here.
"""
import hashlib
import json
import random
import signal
import socket
import subprocess
import sys
import time
from pathlib import Path

from client import STATUS_OF, Client, Service, id_of, transaction

HERE = Path(__file__).resolve().parent


def digest(data):
    return hashlib.sha256(data).hexdigest()


def seed(name):
    """Fixed, so that everybody sees the same; a real consortium draws each from /dev/urandom."""
    return hashlib.sha256(b"three nodes: " + name.encode()).digest()


def free_addresses(count):
    """Addresses on loopback at which nobody listens. Their ports lie below those from which the system
    takes the ports of connections that are made: a peer that is away isn't met there by chance."""
    found = []
    while len(found) < count:
        address = f"127.0.0.1:{random.randrange(20_000, 32_000)}"
        with socket.socket() as tried:
            try:
                tried.bind(("127.0.0.1", int(address.split(":")[1])))
            except OSError:
                continue
        if address not in found:
            found.append(address)
    return found


def within(seconds, test, what):
    """Waits until the test gives something, and gives that."""
    end = time.monotonic() + seconds
    while time.monotonic() < end:
        found = test()
        if found:
            return found
        time.sleep(0.01)
    sys.exit(f"not within {seconds} seconds: {what}")


class Program:
    """The built program, in the folder of its files. `tell` prints a line; in what is printed some
    values have words."""

    def __init__(self, path, folder, tell=print):
        self.path, self.folder, self.tell = str(Path(path).resolve()), Path(folder), tell
        self.words = {}

    def shown(self, text):
        for value, word in self.words.items():
            text = text.replace(value, word)
        return text

    def told(self, data):
        """What a command told, each line cut; of bytes their number and digest."""
        if not data.isascii():
            return f"{len(data)} bytes, SHA-256 {digest(data)}"
        lines = self.shown(data.decode().strip()).splitlines()
        return "\n".join(line if len(line) < 170 else f"{line[:150]}.." for line in lines)

    def run(self, name, command, given, out, wanted=0):
        """Runs a command over a file, or over bytes, and keeps what it tells in a file, where one is
        named."""
        source = given if isinstance(given, bytes) else (self.folder / given).read_bytes()
        shown = "" if given == b"" else " < .." if isinstance(given, bytes) else f" < {given}"
        self.tell(self.shown(f"$ {name}{shown}{f' > {out}' if out else ''}"))
        done = subprocess.run(command, input=source, capture_output=True, cwd=self.folder, timeout=60)
        if out:
            (self.folder / out).write_bytes(done.stdout)
        for data in filter(None, (done.stdout, done.stderr)):
            self.tell(self.told(data))
        if done.returncode != wanted:
            sys.exit(f"status {done.returncode}, not {wanted}")
        return done.stdout

    def ccfg(self, words, given, out=None, wanted=0):
        return self.run(f"ccfg {words}", [self.path, *words.split()], given, out, wanted)

    def keygen(self, name, kind, types):
        words = f"@disk={name}.key keygen --kind {kind} --types {types}"
        return json.loads(self.ccfg(words, seed(name), f"{name}.json"))

    def endorse(self, name):
        """A node as the settings of a service name it."""
        form = json.loads(self.ccfg("@disk=service.key endorse", f"{name}.json", f"{name}.endorsed"))
        return {"endorsement": form["endorsement"], "key": form["key"]}

    def found(self, nodes, members, state, types="h10w4"):
        """Founds a service of nodes and members, by their names: it gives its key, and the nodes'
        identifiers. Each member's share is the recovery secret, as one is enough here."""
        identity = self.keygen("service", "service", "h5w4")["key"]
        self.words[identity] = "$SERVICE"
        ids = [self.keygen(name, "node", types)["node"] for name in nodes]
        keys = [self.keygen(name, "member", "h5w4")["key"] for name in members]
        numbers, secret = range(1, len(members) + 1), digest(seed("secret"))
        settings = {
            "dealing": {
                "secret_digest": secret,
                "shares": [{"digest": secret, "member": n} for n in numbers],
                "threshold": 1,
            },
            "identity": identity,
            "members": [{"key": key, "number": n} for key, n in zip(keys, numbers)],
            "nodes": [self.endorse(name) for name in nodes],
            "state": state,
        }
        (self.folder / "settings.json").write_text(json.dumps(settings))
        self.ccfg(f"@disk={nodes[0]}.key genesis", "settings.json", "opening.ledger")
        self.ccfg(f"audit --identity {identity}", "opening.ledger")
        return identity, ids


class Node:
    """A node as a process. What it tells on standard error is kept in a file."""

    def __init__(self, program, name, id, address):
        self.program, self.name, self.id, self.address = program, name, id, address
        self.process, self.told_before = None, 0
        self.log = program.folder / f"{name}.log"

    def words(self, peers, ticks):
        listens = [f"@disk={self.name}.key", f"@listen={self.address}"]
        names = [peer.id for peer in peers]
        return [*listens, *(f"@peer={peer.address}" for peer in peers), "node", "--ticks", str(ticks), *names]

    def begin(self, peers, ticks, given):
        """Begins the process, with a file as its standard input."""
        words = self.words(peers, ticks)
        self.program.tell(self.program.shown(f"$ ccfg {' '.join(words)} < {given} 2>> {self.log.name} &"))
        self.told_before = self.log.stat().st_size if self.log.exists() else 0
        folder = self.program.folder
        with open(folder / given, "rb") as source, open(self.log, "ab") as log:
            self.process = subprocess.Popen(
                [self.program.path, *words], stdin=source, stdout=subprocess.DEVNULL, stderr=log, cwd=folder
            )

    def lines(self):
        """The whole lines that it has told since it began."""
        with open(self.log) as log:
            log.seek(self.told_before)
            return log.read().split("\n")[:-1]

    def standing(self):
        """Its role, view and commit, as it told them last."""
        if self.process.poll() is not None:
            sys.exit(f"{self.name} ended with {self.process.returncode}")
        words = [line.split() for line in self.lines() if line.split()[1:2] == ["view"]]
        return (words[-1][0], int(words[-1][2]), int(words[-1][4])) if words else None

    def listens(self):
        return any(line.startswith("listens at ") for line in self.lines())

    def stop(self, by=signal.SIGTERM):
        """Ends the process by a signal, and gives what it told last."""
        last = self.standing()
        self.process.send_signal(by)
        self.process.wait(10)
        return last

    def kill(self):
        """Ends the process, if it still runs, whatever it does."""
        if self.process and self.process.poll() is None:
            self.process.kill()
            self.process.wait(10)


def nodes_of(program, names, ids, first=1):
    """Nodes of a service, each at a free address; the first one has this number."""
    addresses = free_addresses(len(names))
    nodes = [Node(program, *of) for of in zip(names, ids, addresses)]
    for number, node in enumerate(nodes, first):
        program.words.update({node.id: f"$ID{number}", node.address: f"$ADDR{number}"})
    return nodes


def peers_of(node, nodes):
    return [peer for peer in nodes if peer is not node]


# ---- What a run tells


def seen(text):
    print(f"# {text}")


def required(holds, text):
    """Tells what was seen, and ends where it wasn't."""
    if not holds:
        sys.exit(f"not so: {text}")
    seen(text)


class Story:
    """A service that is founded, and what the parts of a run do with its nodes and its members. Of each
    node it has after how many ticks without a word of a leader that stands for election."""

    def __init__(self, program, names, members, state, ticks):
        self.program, self.members, self.ticks = program, members, ticks
        self.identity, ids = program.found(names, members, state)
        self.nodes = nodes_of(program, names, ids)
        self.service = Service({node.id: node.address for node in self.nodes})
        self.leading = None  # the node that leads

    def others(self):
        return [node for node in self.nodes if node is not self.leading]

    # ---- Nodes

    def begin(self, node, given):
        ticks = self.ticks[self.nodes.index(node)]
        node.begin(peers_of(node, self.nodes), ticks, given)
        places = len(self.nodes)  # where it listens, and where each of the others does
        within(20, lambda: len(node.lines()) >= places and node.listens(), f"{node.name} listens")
        seen(self.program.shown(f"{node.name} tells: {', '.join(node.lines()[:places])}"))

    def tell_standing(self, node, test, what):
        """Waits until a node stands so, and prints the line by which it told that."""
        role, view, commit = within(20, lambda: test(node.standing()) and node.standing(), what)
        seen(f"{node.name} tells: {role} view {view} commit {commit}")
        return role, view, commit

    def settled(self, nodes):
        """The node that leads, once the others follow it in its view. It is node 1, which signed the
        opening, unless it began so late that the others elected one of themselves."""
        stands = [node.standing() for node in nodes]
        if None in stands or len({view for _, view, _ in stands}) > 1:
            return None
        if sorted(role for role, _, _ in stands) != [*["follower"] * (len(stands) - 1), "leader"]:
            return None
        return next(node for node, of in zip(nodes, stands) if of[0] == "leader")

    def settle(self, nodes):
        """Waits for a leader among nodes, whichever it is, and prints where each of them stands then."""
        self.leading = within(60, lambda: self.settled(nodes), "a node leads, and the others follow it")
        for node in nodes:
            role, view, commit = node.standing()
            seen(f"{node.name} tells: {role} view {view} commit {commit}")

    def has_all(self, node):
        """Waits until a node follows, and has what the leader knows to be committed now."""
        wanted = self.leading.standing()[2]

        def has_all(of):
            return of and of[0] == "follower" and of[2] >= wanted

        self.tell_standing(node, has_all, f"{node.name} knows all that {self.leading.name} had committed")

    # ---- A client, by client.py

    def client(self, node, words, given=b"", out=None, wanted=0):
        """What client.py tells, where no file takes it."""
        command = [sys.executable, "-B", str(HERE / "client.py"), node.address, *words.split()]
        name = f"./client.py {node.address} {words}"
        told = self.program.run(name, command, given, out, wanted)
        return None if out else told.decode().strip()

    def accepted(self, node, words, given=b""):
        """What a request that the leader accepts is answered, and waits until it is committed."""
        answer = self.client(node, words, given)
        self.committed(answer.split()[1])
        return answer

    def committed(self, id):
        """Waits until whoever leads says that it is committed."""
        asked = STATUS_OF, transaction(id_of(id))
        within(20, lambda: self.service.ask(*asked).status == "Committed", f"{id} is committed")

    def status_at(self, node, id):
        client = Client(node.address)
        answer = client.ask(STATUS_OF, transaction(id_of(id)))
        client.close()
        return answer.status

    # ---- Ledgers, by export.py

    def export(self, node, wanted=0):
        """Writes the ledger off a node's file."""
        command = [sys.executable, "-B", str(HERE / "export.py"), f"{node.name}.key"]
        self.program.run(f"./export.py {node.name}.key", command, b"", f"{node.name}.ledger", wanted)

    def is_valid(self, ledger):
        return self.program.ccfg(f"audit --identity {self.identity}", ledger).startswith(b"valid ")

    # ---- Members

    def signed(self, member, asked):
        """What the leader answers to a request that a member signs, and the digest of that."""
        words = f"@disk={self.members[member - 1]}.key sign --identity {self.identity} --member {member}"
        self.program.ccfg(words, json.dumps(asked).encode(), "request")
        answer = self.accepted(self.leading, "govern", "request")
        return answer, digest((self.program.folder / "request").read_bytes())

    def acknowledge(self):
        for member, _ in enumerate(self.members, 1):
            self.signed(member, {"op": "ack"})

    def decide(self, name, args):
        """The first member proposes an action, and all say yes: whether it is accepted."""
        actions = [{"args": args, "name": name}]
        _, proposal = self.signed(1, {"actions": actions, "op": "propose"})
        self.program.words[proposal] = "$PROPOSAL"
        for member, _ in enumerate(self.members, 1):
            answer, _ = self.signed(member, {"op": "ballot", "proposal_id": proposal, "vote": True})
        return answer.endswith(" Accepted")


def limit_time(seconds):
    """Ends this program by its own exit, so that it can end its nodes: past so many seconds, and where
    it is asked to end."""

    def past(number, _):
        sys.exit(f"ended by {signal.Signals(number).name}" if number != signal.SIGALRM else "past its time")

    for number in (signal.SIGALRM, signal.SIGTERM, signal.SIGHUP):
        signal.signal(number, past)
    signal.alarm(seconds)


def play(seconds, story_of, parts, usage):
    """Runs the parts of a story of the built program in a folder, which the words name, and ends its nodes
    in any case."""
    if len(sys.argv) != 3:
        sys.exit(usage)
    sys.stdout.reconfigure(line_buffering=True)
    limit_time(seconds)
    story = story_of(Program(sys.argv[1], Path(sys.argv[2]).resolve()))
    try:
        parts(story)
        seen("all as wanted")
    finally:
        for node in story.nodes:
            node.kill()
