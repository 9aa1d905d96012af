#!/usr/bin/env python3
"""Prints roots of LMS keys that grow from seeds, by Python's hashlib alone: rows of the tests of keys in `t_base`.

    examples/lms/keys.py

It is written after RFC 8554 and its appendix A. First it makes the roots of keys of other implementations from their
identifiers and seeds, and ends with status 1 where one is another: the first eight are of Bouncy Castle 1.72, the last
two of appendix F, test case 2. Then it prints the roots of the first six seeds with the
identifier of this repository. It takes a minute or two.
"""
import hashlib
import struct
import sys

# Of each parameter set: the height of the tree, the bits of a digit, the number of chains.
SETS = {"H5W4": (5, 4, 67), "H5W8": (5, 8, 34), "H10W4": (10, 4, 67), "H10W8": (10, 8, 34)}

# The parameter set, I, SEED and T[1].
KEYS = [
    (
        "H5W4",
        "2a90954a1b452353686eaea33e699439",
        "aba88479a873e27153521c083435b99ff2d9d2ab2ee43ff9ab09be14479e14db",
        "3ac73df116c4715eb53dd63f963f8a903e8ef133d2b22a64867102cf50042856",
    ),
    (
        "H5W4",
        "0008cfc98653dd2093823289fe3d21a7",
        "21f7dba114ae61a051556a4ba915a61a3b257b682ac35658707b133f35153a8b",
        "a18e7191f79cb31c556ec779df5a9ee37bf8bf80acccd8e343b351bbf0b3f53d",
    ),
    (
        "H5W8",
        "022c0f5fcb044d343d174d7eb7ca61d5",
        "922da0f4c79b9e91bda080da1f19d1671517cd6419f54cb10bf14e5e8c5895fd",
        "f7d4a64fdfbeb201a647ace87f8ba0a39177d893f6edac02d91848fa02521704",
    ),
    (
        "H5W8",
        "10c80a5ab3676cf8ae3e329a986bcefe",
        "911e3113e2049e920f92f0b930b9853cf4ed43b65bfbe1c5ae1d9fca925a0b1b",
        "15618062ec0e666e5c7d6bc65994c8d51a4f8762b5806b86a6c0f3e3ae91a5d5",
    ),
    (
        "H10W4",
        "a591330707b1532d25317f75f9a7c856",
        "de28ee65d47492413d7c9b860641a25df7db9f429c5454099cf49d6a6ae2ce4b",
        "07e5047575bcebe3e890462a0ba09d6332c2dc31c3196f6504bd0a5064b6dbef",
    ),
    (
        "H10W4",
        "116c5de3c95f65d3a83ab1c77b50e276",
        "e9db672edd2504220309ae2261ac2336fc8c08f0782b649fdb7c8057fe3ae3ca",
        "308923b43f0e045252e922f08431cef61fdf3fa94dff4516b23b97e1aee2a165",
    ),
    (
        "H10W8",
        "8d2a3cc8ce5fe473b012336ef604d117",
        "928ddb9e110ec3c532669356965a1b675460f29a2c538fc0e4c003fed754d292",
        "a0ff8d1742d9296ca8cb512d74f96b4152a875f61f3ff0d9cf861c0983ebd0c8",
    ),
    (
        "H10W8",
        "d9af5ca56e1eef9988fe430a66314f88",
        "7de151d59847fc6f0a0f81b54225b2867fcd25001804887e85fad222467d1798",
        "2d52b08f3709f8bb011542e522a443efcacc964e68106586af5eceb96a712af6",
    ),
    (
        "H10W4",
        "d08fabd4a2091ff0a8cb4ed834e74534",
        "558b8966c48ae9cb898b423c83443aae014a72f1b1ab5cc85cf1d892903b5439",
        "32a58885cd9ba0431235466bff9651c6c92124404d45fa53cf161c28f1ad5a8e",
    ),
    (
        "H5W8",
        "215f83b7ccb9acbcd08db97b0d04dc2b",
        "a1c4696e2608035a886100d05cd99945eb3370731884a8235e2fb3d4d71f2547",
        "a1cd035833e0e90059603f26e07ad2aad152338e7a5e5984bcd5f7bb4eba40b7",
    ),
]


def sha256(*parts):
    return hashlib.sha256(b"".join(parts)).digest()


def one_time_key(width, chains, identifier, seed, leaf):
    ends = []
    for chain in range(chains):
        prefix = identifier + struct.pack(">IH", leaf, chain)
        value = sha256(prefix, b"\xff", seed)
        for step in range(2**width - 1):
            value = sha256(prefix, bytes([step]), value)
        ends.append(value)
    return sha256(identifier, struct.pack(">I", leaf), b"\x80\x80", *ends)


def root(name, identifier, seed):
    height, width, chains = SETS[name]
    nodes = {}
    for leaf in range(2**height):
        key = one_time_key(width, chains, identifier, seed, leaf)
        node = 2**height + leaf
        nodes[node] = sha256(identifier, struct.pack(">I", node), b"\x82\x82", key)
    for node in range(2**height - 1, 0, -1):
        number = struct.pack(">I", node)
        nodes[node] = sha256(identifier, number, b"\x83\x83", nodes[2 * node], nodes[2 * node + 1])
    return nodes[1]


for name, identifier, seed, want in KEYS:
    if root(name, bytes.fromhex(identifier), bytes.fromhex(seed)).hex() != want:
        sys.exit(f"another root of {identifier}")
for name, _, seed, _ in KEYS[:6]:
    seed = bytes.fromhex(seed)
    print(name, seed.hex(), root(name, sha256(b"gl-id", seed)[:16], seed).hex())
