#!/usr/bin/env -S python3 -B
# Measures nodes that serve, on loopback, by the clock: processes of the built program with their files in a folder of the
# directory in which this runs.
#
# - Puts a second at a service of one node, over 1 and over 32 connections, each of which waits for its Accepted before it asks
#   again; beside it how often that disk takes a byte and an fsync a second; and puts a second of etcd with its JSON gateway in
#   the same folder, where there is an etcd (Debian: etcd-server). A put is one batch of the node's file, so two syncs. What is
#   compared is of one round, and of three rounds the best counts, as a disk's speed changes meanwhile; on a machine whose
#   processors are all busy a put waits for these, and the bounds mean nothing. Fails where one connection has less than 0.8 of
#   half the fsyncs, or no more puts than etcd.
# - How long a put of a service of three nodes takes to be committed, at a tick of 100 ms. Fails where the median passes BOUND.
# - What the process holds after 100,000 puts over 1,000 keys, over 32 connections and with its file in memory. Fails where its
#   peak passes the bytes of its ledger and 64 MiB.
#
# With --quick one short round of each, and 10,000 puts.
import base64
import json
import os
import random
import selectors
import shutil
import socket
import subprocess
import sys
import tempfile
import time
import urllib.request
from pathlib import Path
from statistics import median

import program

sys.path.insert(0, os.path.join(os.path.dirname(os.path.abspath(__file__)), "..", "examples", "three-nodes"))
from client import ACCEPTED, STATUS_OF, SUBMIT, Client, put, question, request, transaction  # noqa: E402
from export import entries_of  # noqa: E402
from service import Program, free_addresses, limit_time, nodes_of, peers_of, within  # noqa: E402

QUICK = sys.argv[1:] == ["--quick"]
ROUNDS, SECONDS = (1, 1) if QUICK else (3, 4)
PUTS, KEYS = (10_000, 1_000) if QUICK else (100_000, 1_000)
CONNECTIONS = 32
COMMITS = 20 if QUICK else 60
TICK = 0.1
# A put waits for the tick that signs it, half a tick at the mean. A leader sends first in a tick and signs then, so the signature
# goes out at the next tick, and the one after that counts who holds it: two ticks.
BOUND = 3 * TICK
ROOM = 64 * 2**20


# Services of nodes, whose processes end with this one.
class Services:
    def __init__(self):
        self.nodes = []

    # A service that is open, and its nodes, of which the first leads.
    def begin(self, folder, count):
        os.mkdir(folder)
        made = Program(program.PROGRAM, folder, lambda line: None)
        names = [f"node{number}" for number in range(1, count + 1)]
        _, ids = made.found(names, ["member"], "open")
        nodes = nodes_of(made, names, ids)
        self.nodes += nodes
        for number, node in enumerate(nodes):
            node.begin(peers_of(node, nodes), 20 + 10 * number, "opening.ledger")
        for node in nodes:
            within(30, node.standing, f"{node.name} serves")
        leads = lambda: next((node for node in nodes if node.standing()[0] == "leader"), None)
        leader = within(30, leads, "a node leads")
        return [leader, *(node for node in nodes if node is not leader)]

    def end(self):
        for node in self.nodes:
            node.kill()


# ---- Puts a second


# How often a second the disk takes one more byte of a file, and an fsync.
def fsyncs(folder, seconds):
    path, count = f"{folder}/synced", 0
    file = os.open(path, os.O_WRONLY | os.O_CREAT | os.O_TRUNC, 0o600)
    start = time.monotonic()
    while time.monotonic() < start + seconds:
        os.write(file, b"\1")
        os.fsync(file)
        count += 1
    rate = count / (time.monotonic() - start)
    os.close(file)
    return rate


# The frame of a put of 8 bytes, as number n.
def frame_of_put(n):
    return question(SUBMIT, n, request(put(b"public:t", b"%08d" % (n % KEYS), b"%08d" % (n % 10**8))))


# What a node answered, where it is whole: that it accepts.
def is_accepted(data):
    size = int.from_bytes(data[:4], "big")
    if len(data) < 4 or len(data) < 4 + size:
        return False
    assert data[4] == ACCEPTED, data
    return True


# The request of a put of etcd's JSON gateway.
def http_of_put(n):
    pair = {"key": base64.b64encode(b"%08d" % (n % KEYS)).decode(), "value": base64.b64encode(b"%08d" % (n % 10**8)).decode()}
    body = json.dumps(pair).encode()
    head = f"POST /v3/kv/put HTTP/1.1\r\nHost: etcd\r\nContent-Type: application/json\r\nContent-Length: {len(body)}\r\n\r\n"
    return head.encode() + body


def is_http_done(data):
    head, mark, body = data.partition(b"\r\n\r\n")
    if not mark:
        return False
    assert head.startswith(b"HTTP/1.1 200"), data
    sizes = [line.split(b":")[1] for line in head.lower().split(b"\r\n") if line.startswith(b"content-length:")]
    return len(body) >= int(sizes[0])


# Asks over so many connections, each again once it has its answer, until so much time or so many questions are over. How many
# were answered, in which time.
def drive(address, connections, question_of, is_answered, seconds=None, count=None):
    host, port = address.split(":")
    ready, begun, done = selectors.DefaultSelector(), 0, 0
    open_ones = []
    for _ in range(connections):
        one = socket.create_connection((host, int(port)), 10)
        one.setsockopt(socket.IPPROTO_TCP, socket.TCP_NODELAY, 1)
        open_ones.append(one)
        ready.register(one, selectors.EVENT_READ, bytearray())
    start = time.monotonic()
    for one in open_ones:
        begun += 1
        one.sendall(question_of(begun))
    while done < begun:
        events = ready.select(10)
        assert events, "no answer within ten seconds"
        for key, _ in events:
            piece = key.fileobj.recv(65536)
            assert piece, "a connection ended"
            key.data.extend(piece)
            if not is_answered(key.data):
                continue
            key.data.clear()
            done += 1
            if begun < count if count else time.monotonic() < start + seconds:
                begun += 1
                key.fileobj.sendall(question_of(begun))
    took = time.monotonic() - start
    for one in open_ones:
        one.close()
    ready.close()
    return done, took


def rate_of(*words):
    done, took = drive(*words, seconds=SECONDS)
    return done / took


# An etcd in a folder, and its address; nothing where there is none.
def begin_etcd(folder):
    found = shutil.which("etcd")
    if not found:
        return None, None
    client, peer = free_addresses(2)
    words = [
        found, "--name", "one", "--data-dir", f"{folder}/etcd", "--log-level", "error",
        "--listen-client-urls", f"http://{client}", "--advertise-client-urls", f"http://{client}",
        "--listen-peer-urls", f"http://{peer}", "--initial-advertise-peer-urls", f"http://{peer}",
        "--initial-cluster", f"one=http://{peer}",
    ]
    process = subprocess.Popen(words, stdout=subprocess.DEVNULL, stderr=subprocess.DEVNULL)

    def is_healthy():
        try:
            return b"true" in urllib.request.urlopen(f"http://{client}/health", timeout=1).read()
        except OSError:
            return False

    within(30, is_healthy, "etcd serves")
    return process, client


# Rounds of fsyncs, of puts, and of puts at etcd: of each round what each came to a second.
def measure_puts(folder, services):
    node = services.begin(f"{folder}/one", 1)[0]
    process, etcd = begin_etcd(folder)
    ways = {"fsyncs": lambda: fsyncs(f"{folder}/one", SECONDS)}
    for connections in (1, CONNECTIONS):
        ways[connections] = lambda c=connections: rate_of(node.address, c, frame_of_put, is_accepted)
        if etcd:
            ways["etcd", connections] = lambda c=connections: rate_of(etcd, c, http_of_put, is_http_done)
    try:
        rounds = [{way: measured() for way, measured in ways.items()} for _ in range(ROUNDS)]
    finally:
        if process:
            process.kill()
            process.wait()
    node.stop()
    return rounds


# The best ratio of a round, and that round.
def best(rounds, ratio_of):
    return max(((ratio_of(one), one) for one in rounds), key=lambda found: found[0])


def puts_are_fast(folder, services):
    rounds = measure_puts(folder, services)
    share, one = best(rounds, lambda one: one[1] / (one["fsyncs"] / 2))
    print(f"{one['fsyncs']:.0f} fsyncs a second; one node: {one[1]:.0f} puts a second over 1 connection, {share:.2f} of half the fsyncs, at least 0.8")
    more, one = best(rounds, lambda one: one[CONNECTIONS] / one[1])
    print(f"{one[CONNECTIONS]:.0f} puts a second over {CONNECTIONS} connections, {more:.2f} times 1")
    if ("etcd", 1) not in one:
        print("no etcd here: not compared")
        return share >= 0.8
    ratio, one = best(rounds, lambda one: one[1] / one["etcd", 1])
    print(f"etcd: {one['etcd', 1]:.0f} puts a second over 1 connection, {one['etcd', CONNECTIONS]:.0f} over {CONNECTIONS}; "
          f"a node's {one[1]:.0f} over 1 to its: {ratio:.2f}, above 1")
    return share >= 0.8 and ratio > 1


# ---- Commits of three nodes


# How long a put takes from its Accepted until it is committed, at any moment of a tick.
def commit_time(client, n):
    time.sleep(random.random() * TICK)
    id = client.ask(SUBMIT, request(put(b"public:t", b"%08d" % n, b"1"))).id
    start = time.monotonic()
    while client.ask(STATUS_OF, transaction(id)).status != "Committed":
        assert time.monotonic() < start + 10, f"{id} isn't committed within ten seconds"
        time.sleep(0.001)
    return time.monotonic() - start


def commits_are_fast(folder, services):
    nodes = services.begin(f"{folder}/three", 3)
    client = Client(nodes[0].address)
    times = [commit_time(client, n) for n in range(COMMITS)]
    for node in nodes:
        node.stop()
    middle = median(times)
    print(f"three nodes commit a put in {middle * 1000:.0f} ms, the median of {COMMITS}, from {min(times) * 1000:.0f} to {max(times) * 1000:.0f}; at most {BOUND * 1000:.0f}")
    return middle <= BOUND


# ---- Memory


# What the system tells of a process in bytes: VmRSS, what it holds; VmHWM, the most that it held.
def held(node, field):
    lines = Path(f"/proc/{node.process.pid}/status").read_text().splitlines()
    return next(int(line.split()[1]) * 1024 for line in lines if line.startswith(f"{field}:"))


# The processor time that a process used so far, in seconds.
def used(node):
    tasks = Path(f"/proc/{node.process.pid}/task").iterdir()
    return sum(int((task / "schedstat").read_text().split()[0]) for task in tasks) / 1e9


def memory_is_bounded(folder, services):
    node = services.begin(f"{folder}/large", 1)[0]
    begun = held(node, "VmRSS")
    done, took = drive(node.address, CONNECTIONS, frame_of_put, is_accepted, count=PUTS)
    now, peak = held(node, "VmRSS"), held(node, "VmHWM")
    node.stop()
    ledger = sum(map(len, entries_of(Path(f"{folder}/large/node1.key").read_bytes())))
    print(f"after {done:,} puts over {KEYS:,} keys, {done / took:.0f} a second in memory, a node holds {now / 2**20:.1f} MiB ({begun / 2**20:.1f} before), "
          f"at its peak {peak / 2**20:.1f}; its ledger has {ledger / 2**20:.1f}, and so the bound is {(ledger + ROOM) / 2**20:.1f}")
    return peak <= ledger + ROOM


def main():
    if sys.argv[1:] not in ([], ["--quick"]):
        sys.exit("node.py [--quick]")
    program.build()
    limit_time(1800)
    services = Services()
    memory = "/dev/shm" if os.path.isdir("/dev/shm") else os.getcwd()
    try:
        with tempfile.TemporaryDirectory(dir=os.getcwd()) as folder, tempfile.TemporaryDirectory(dir=memory) as quick:
            kept = [puts_are_fast(folder, services), commits_are_fast(folder, services), memory_is_bounded(quick, services)]
    finally:
        services.end()
    sys.exit(0 if all(kept) else 1)


if __name__ == "__main__":
    main()
