#!/usr/bin/env -S python3 -B
"""Prints the JSON texts that the tests of `crates/t_forms` read: with Python's `json` alone.

    make.py

Each line is a name, a space and a text. Keys, digests and endorsements are bytes that count up from
a first one.
"""
import json

ACTIONS = (
    "set_member",
    "remove_member",
    "set_recovery_threshold",
    "transition_node_to_trusted",
    "remove_node",
    "transition_service_to_open",
    "set_constitution",
)


def some(first, size):
    return bytes((first + i) % 256 for i in range(size)).hex()


def member(number):
    return {"number": number, "key": some(number, 60)}


def node(first):
    return {"key": some(first, 56), "endorsement": some(first + 1, 6)}


def dealing(threshold, *members):
    shares = [{"member": m, "digest": some(m + 2, 32)} for m in members]
    return {"threshold": threshold, "secret_digest": some(9, 32), "shares": shares}


def action(name, **args):
    return {"name": name, "args": args}


def actions():
    return [
        action("set_member", **member(255)),
        action("remove_member", number=1),
        action("set_recovery_threshold", **dealing(2, 1, 3)),
        action("transition_node_to_trusted", node=some(16, 32)),
        action("remove_node", node=some(32, 32)),
        action("transition_service_to_open"),
        action("set_constitution", rules={n: [i, 65535 - i] for i, n in enumerate(ACTIONS)}),
    ]


TEXTS = {
    "proposal": {"actions": actions()},
    "ack": {"op": "ack"},
    "propose": {"op": "propose", "actions": [action("remove_member", number=7)]},
    "ballot": {"op": "ballot", "proposal_id": some(5, 32), "vote": True},
    "withdraw": {"op": "withdraw", "proposal_id": some(6, 32)},
    "share": {"op": "share", "share": some(7, 32)},
    "settings": {
        "state": "open",
        "identity": some(64, 60),
        "nodes": [node(1), node(101)],
        "members": [member(1), member(2)],
        "dealing": dealing(1, 2),
    },
    "recovery": {"identity": some(65, 60), "nodes": [node(200)]},
    "service_key": {"kind": "service", "key": some(3, 60)},
    "member_key": {"kind": "member", "key": some(4, 60)},
    "node_key": {"kind": "node", "key": some(5, 56), "node": some(6, 32)},
    "endorsed_key": {
        "kind": "node",
        "key": some(5, 56),
        "node": some(6, 32),
        "endorsement": some(250, 12),
    },
}

if __name__ == "__main__":
    for name, value in TEXTS.items():
        print(name, json.dumps(value, sort_keys=True, separators=(",", ":")))
