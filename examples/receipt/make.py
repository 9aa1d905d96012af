#!/usr/bin/env -S python3 -B
"""Makes a service's key and a receipt under it, for tries: with nothing but SHA-256.

    make.py

It prints the key, 60 bytes in hexadecimal, and then the receipt, each on a line. The keys are those
of RFC 8554 (LMS_SHA256_M32_H5, LMOTS_SHA256_N32_W8), their secrets from fixed words. The entry is
the third of five before the signature, so its path has a sibling on each side.
"""
import hashlib
import json

HEIGHT, W, P = 5, 8, 34
LMS, OTS = 5, 4
VIEW, SEQNO, COMMIT = 2, 6, 2
TRANSACTION = (2, 3)


def sha256(*parts):
    return hashlib.sha256(b"".join(parts)).digest()


def big(n, size):
    return n.to_bytes(size, "big")


def little(n, size):
    return n.to_bytes(size, "little")


class Key:
    """An LMS private key (RFC 8554, 5.2), whose secrets are digests of a word and their place."""

    def __init__(self, word):
        self.identifier = sha256(b"identifier ", word)[:16]
        self.word = word
        first = 2**HEIGHT
        self.nodes = [b""] * first + [self.leaf(q) for q in range(first)]
        for r in range(first - 1, 0, -1):
            pair = self.nodes[2 * r] + self.nodes[2 * r + 1]
            self.nodes[r] = sha256(self.identifier, big(r, 4), b"\x83\x83", pair)

    def prefix(self, q):
        return self.identifier + big(q, 4)

    def secret(self, q, i):
        return sha256(b"secret ", self.word, big(q, 4), big(i, 2))

    def chain(self, q, i, value, first, last):
        for j in range(first, last):
            value = sha256(self.prefix(q), big(i, 2), big(j, 1), value)
        return value

    def leaf(self, q):
        top = 2**W - 1
        ends = [self.chain(q, i, self.secret(q, i), 0, top) for i in range(P)]
        ots_key = sha256(self.prefix(q), b"\x80\x80", *ends)
        return sha256(self.identifier, big(2**HEIGHT + q, 4), b"\x82\x82", ots_key)

    def public(self):
        """The 56 bytes of the public key (5.3)."""
        return big(LMS, 4) + big(OTS, 4) + self.identifier + self.nodes[1]

    def sign(self, q, message):
        """The LMS signature by a leaf (4.5 and 5.4.1)."""
        randomizer = sha256(b"randomizer ", self.word, big(q, 4))
        digest = sha256(self.prefix(q), b"\x81\x81", randomizer, message)
        digits = list(digest + big(sum(255 - digit for digit in digest), 2))
        ends = [self.chain(q, i, self.secret(q, i), 0, digits[i]) for i in range(P)]
        node, path = 2**HEIGHT + q, []
        while node > 1:
            path.append(self.nodes[node ^ 1])
            node //= 2
        return b"".join([big(q, 4), big(OTS, 4), randomizer, *ends, big(LMS, 4), *path])


def main():
    service, node = Key(b"service"), Key(b"node")
    identity = big(2, 4) + service.public()
    tied = sha256(identity, little(TRANSACTION[0], 4), little(TRANSACTION[1], 8))
    evidence = "ce:%d.%d:%s" % (*TRANSACTION, tied.hex())
    write_set, claims = sha256(b"the body"), sha256(b"the reply")
    leaves = [sha256(b"leaf ", big(i, 1)) for i in range(5)]
    leaves[2] = sha256(write_set, sha256(evidence.encode()), claims)
    left, right = sha256(leaves[0], leaves[1]), sha256(leaves[2], leaves[3])
    root = sha256(sha256(left, right), leaves[4])
    message = root + little(VIEW, 4) + little(SEQNO, 8) + little(COMMIT, 8)
    signature = b"".join(
        [big(1, 4), service.sign(3, node.public()), node.public(), node.sign(7, message)]
    )
    receipt = {
        "leaf_components": {
            "claims_digest": claims.hex(),
            "commit_evidence": evidence,
            "write_set_digest": write_set.hex(),
        },
        "proof": [
            {"right": leaves[3].hex()},
            {"left": left.hex()},
            {"right": leaves[4].hex()},
        ],
        "signature": signature.hex(),
        "signed": {"commit": COMMIT, "seqno": SEQNO, "view": VIEW},
    }
    print(identity.hex())
    print(json.dumps(receipt, separators=(",", ":")))


if __name__ == "__main__":
    main()
