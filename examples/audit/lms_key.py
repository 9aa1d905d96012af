"""LMS private keys whose secrets come from a seed, with nothing but SHA-256.

docs/FORMATS.md tells what RFC 8554 leaves open: the identifier, the secrets and the randomizer.
"""
from verify_ledger import CHAINS, HEIGHTS, big, digits_of, sha256


class Key:
    """A private key (RFC 8554, 5.2), of LMS_SHA256_M32_H5 and LMOTS_SHA256_N32_W4 by default."""

    def __init__(self, seed, lms=5, ots=3):
        self.seed, self.lms, self.ots = seed, lms, ots
        self.identifier = sha256(b"gl-id", seed)[:16]
        first = 2 ** HEIGHTS[lms]
        self.nodes = [b""] * first + [self.leaf(q) for q in range(first)]
        for r in range(first - 1, 0, -1):
            pair = self.nodes[2 * r], self.nodes[2 * r + 1]
            self.nodes[r] = sha256(self.identifier, big(r, 4), b"\x83\x83", *pair)

    def prefix(self, q):
        return self.identifier + big(q, 4)

    def secret(self, q, i):
        """The secret of a chain of a leaf (appendix A); at fffd the leaf's randomizer."""
        return sha256(self.prefix(q), big(i, 2), b"\xff", self.seed)

    def ends(self, q, digits):
        """The value of each chain of a leaf after so many steps (4.3 and 4.5)."""
        prefix, ends = self.prefix(q), []
        for i, digit in enumerate(digits):
            value = self.secret(q, i)
            for step in range(digit):
                value = sha256(prefix, big(i, 2), big(step, 1), value)
            ends.append(value)
        return ends

    def leaf(self, q):
        w, p, _ = CHAINS[self.ots]
        ots_key = sha256(self.prefix(q), b"\x80\x80", *self.ends(q, [2**w - 1] * p))
        number = big(2 ** HEIGHTS[self.lms] + q, 4)
        return sha256(self.identifier, number, b"\x82\x82", ots_key)

    def public(self):
        """The 56 bytes of the public key (5.3)."""
        return big(self.lms, 4) + big(self.ots, 4) + self.identifier + self.nodes[1]

    def hss(self, levels):
        """The 60 bytes of the HSS public key whose first level this is (6.1)."""
        return big(levels, 4) + self.public()

    def sign(self, q, message):
        """The LMS signature by a leaf (4.5 and 5.4.1)."""
        randomizer = self.secret(q, 0xFFFD)
        digest = sha256(self.prefix(q), b"\x81\x81", randomizer, message)
        ends = self.ends(q, digits_of(digest, *CHAINS[self.ots]))
        r, path = 2 ** HEIGHTS[self.lms] + q, []
        while r > 1:
            path.append(self.nodes[r ^ 1])
            r //= 2
        return b"".join([big(q, 4), big(self.ots, 4), randomizer, *ends, big(self.lms, 4), *path])
