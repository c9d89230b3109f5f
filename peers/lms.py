#!/usr/bin/env python3
"""LMS signatures with SHA-256 and 32 bytes, written from RFC 8554 alone, on Python's standard library.

    lms.py public IDENTIFIER SEED [TREE CHAINS]             prints the public key
    lms.py sign IDENTIFIER SEED INDEX TEXT [TREE CHAINS]    prints the signature of the text at this leaf
    lms.py verify PUBLIC_KEY TEXT SIGNATURE                 prints `verifies`, or `does not verify` with the status 1

Bytes stand in hexadecimal, and `-` stands for none. TREE and CHAINS are the type numbers of LMS and of LM-OTS, 5 and 3
where they are not given. It is slow, keeps no count of used leaves, and guards no secret: it is for comparing alone.
"""

import hashlib
import math
import sys

N = 32
D_PBLC, D_MESG, D_LEAF, D_INTR = 0x8080, 0x8181, 0x8282, 0x8383
WIDTHS = {1: 1, 2: 2, 3: 4, 4: 8}
HEIGHTS = {5: 5, 6: 10, 7: 15, 8: 20, 9: 25}


def u8(number):
    return number.to_bytes(1, "big")


def u16(number):
    return number.to_bytes(2, "big")


def u32(number):
    return number.to_bytes(4, "big")


def sha256(*parts):
    return hashlib.sha256(b"".join(parts)).digest()


# the numbers of the steps of a chain, as a step hashes them
STEPS = [u8(step) for step in range(256)]


class Chains:
    """The numbers of an LM-OTS type, by Appendix B: its width, its number of chains and the shift of its checksum."""

    def __init__(self, number):
        self.number = number
        self.width = WIDTHS[number]
        self.last = 2**self.width - 1
        digits = math.ceil(8 * N / self.width)
        longest = math.floor(math.log2(self.last * digits)) + 1
        checks = math.ceil(longest / self.width)
        self.digits = digits
        self.count = digits + checks
        self.shift = 16 - checks * self.width

    def coef(self, text, at):
        """Section 3.1.3."""
        width = self.width
        return self.last & (text[at * width // 8] >> (8 - (width * (at % (8 // width)) + width)))

    def checksum(self, text):
        """Section 4.4."""
        total = sum(self.last - self.coef(text, at) for at in range(self.digits))
        return (total << self.shift) & 0xFFFF

    def spread(self, hashed):
        """How far each chain is taken for a hashed text."""
        checked = hashed + u16(self.checksum(hashed))
        return [self.coef(checked, at) for at in range(self.count)]


def take(identifier, leaf, chain, value, first, end):
    """The steps `first` to `end - 1` of a chain (sections 4.3, 4.5 and 4.6)."""
    head, hashed = identifier + u32(leaf) + u16(chain), hashlib.sha256
    for step in STEPS[first:end]:
        value = hashed(head + step + value).digest()
    return value


def leaf_node(identifier, tree, leaf, ends):
    """The tree's node of a leaf, whose chains end so (sections 4.3 and 5.3)."""
    public = sha256(identifier, u32(leaf), u16(D_PBLC), *ends)
    return sha256(identifier, u32(2 ** HEIGHTS[tree] + leaf), u16(D_LEAF), public)


def inner_node(identifier, number, left, right):
    """Section 5.3."""
    return sha256(identifier, u32(number), u16(D_INTR), left, right)


class PrivateKey:
    """A key all of whose secrets are made of a seed, by Appendix A."""

    def __init__(self, identifier, seed, tree=5, chains=3):
        assert len(identifier) == 16 and len(seed) == N
        self.identifier, self.seed, self.tree, self.chains = identifier, seed, tree, Chains(chains)
        leaves = 2 ** HEIGHTS[tree]
        self.nodes = [None] * leaves + [self.leaf(leaf) for leaf in range(leaves)]
        for number in range(leaves - 1, 0, -1):
            self.nodes[number] = inner_node(identifier, number, *self.nodes[2 * number : 2 * number + 2])

    def secret(self, leaf, number):
        """Appendix A: a chain's beginning, and by the number 0xFFFD the randomizer of this project's signatures."""
        return sha256(self.identifier, u32(leaf), u16(number), u8(0xFF), self.seed)

    def leaf(self, leaf):
        ends = [
            take(self.identifier, leaf, chain, self.secret(leaf, chain), 0, self.chains.last)
            for chain in range(self.chains.count)
        ]
        return leaf_node(self.identifier, self.tree, leaf, ends)

    def public(self):
        """Section 5.3."""
        return u32(self.tree) + u32(self.chains.number) + self.identifier + self.nodes[1]

    def sign(self, leaf, text):
        """Sections 4.5 and 5.4.1."""
        randomizer = self.secret(leaf, 0xFFFD)
        hashed = sha256(self.identifier, u32(leaf), u16(D_MESG), randomizer, text)
        values = [
            take(self.identifier, leaf, chain, self.secret(leaf, chain), 0, steps)
            for chain, steps in enumerate(self.chains.spread(hashed))
        ]
        number = 2 ** HEIGHTS[self.tree] + leaf
        path = []
        while number > 1:
            path.append(self.nodes[number ^ 1])
            number //= 2
        once = u32(self.chains.number) + randomizer + b"".join(values)
        return u32(leaf) + once + u32(self.tree) + b"".join(path)


def verify(public, text, signature):
    """Algorithms 6 and 6a, and 4b for the one-time part."""
    tree, number = int.from_bytes(public[:4], "big"), int.from_bytes(public[4:8], "big")
    if len(public) != 24 + N or tree not in HEIGHTS or number not in WIDTHS:
        return False
    identifier, root = public[8:24], public[24:]
    chains, height = Chains(number), HEIGHTS[tree]
    values = 8 + N
    path = values + N * chains.count + 4
    if len(signature) != path + N * height:
        return False
    leaf = int.from_bytes(signature[:4], "big")
    if signature[4:8] != u32(number) or signature[path - 4 : path] != u32(tree) or leaf >= 2**height:
        return False
    hashed = sha256(identifier, u32(leaf), u16(D_MESG), signature[8:values], text)
    ends = []
    for chain, steps in enumerate(chains.spread(hashed)):
        value = signature[values + N * chain : values + N * (chain + 1)]
        ends.append(take(identifier, leaf, chain, value, steps, chains.last))
    node = leaf_node(identifier, tree, leaf, ends)
    number = 2**height + leaf
    for level in range(height):
        sibling = signature[path + N * level : path + N * (level + 1)]
        pair = (sibling, node) if number % 2 else (node, sibling)
        number //= 2
        node = inner_node(identifier, number, *pair)
    return node == root


def main(words):
    lengths = {"public": (3, 5), "sign": (5, 7), "verify": (4,)}
    if not words or len(words) not in lengths.get(words[0], ()):
        sys.exit(__doc__)
    command, *rest = words
    if command == "verify":
        right = verify(*(bytes.fromhex(word.replace("-", "")) for word in rest))
        print("verifies" if right else "does not verify")
        return 0 if right else 1
    identifier, seed = bytes.fromhex(rest[0]), bytes.fromhex(rest[1])
    more = rest[2:] if command == "public" else rest[4:]
    key = PrivateKey(identifier, seed, *map(int, more))
    if command == "public":
        print(key.public().hex())
    else:
        print(key.sign(int(rest[2]), bytes.fromhex(rest[3].replace("-", ""))).hex())
    return 0


if __name__ == "__main__":
    sys.exit(main(sys.argv[1:]))
