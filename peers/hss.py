#!/usr/bin/env python3
"""A maker's HSS key, written from RFC 8554, section 6, and docs/use/formats.md alone, over lms.py.

    hss.py maker NOISE LEVELS                 prints the maker's file, its public key and the public key's hash
    hss.py endorse NOISE LEVELS NUMBER ROOT   prints the endorsement of the root key by this number
    hss.py verify PUBLIC ROOT ENDORSEMENT     prints `endorsed`, or `refused 28` with the status 7

Bytes stand in hexadecimal, and `-` stands for none. It keeps no count of used numbers: it is for comparing alone.
"""

import sys

import keys
import lms

HEAD = b"\x05"


def u64(number):
    return number.to_bytes(8, "big")


def seed_of(noise):
    """The seed of the maker that is made of noise."""
    return lms.sha256(b"\x16", noise[:32])


class Maker:
    """A maker of HSS signatures, all of whose keys are made of one seed."""

    def __init__(self, seed, levels):
        assert 1 <= levels <= 8
        self.levels, self.seed = levels, seed

    def key(self, level, prefix):
        whose = self.seed + lms.u8(level) + u64(prefix)
        return keys.key_of(lms.sha256(b"\x15", whose)[:16], lms.sha256(b"\x14", whose))

    def file(self, number):
        return b"MBK2" + lms.u8(self.levels) + self.seed + u64(number)

    def public(self):
        return lms.u32(self.levels) + self.key(0, 0).public()

    def sign(self, number, text):
        """Section 6.2: each level signs the public key of the next, and the last one the text."""
        assert 0 <= number < 32**self.levels
        digits = [number // 32 ** (self.levels - level - 1) % 32 for level in range(self.levels)]
        keys = [self.key(level, number // 32 ** (self.levels - level)) for level in range(self.levels)]
        signature = lms.u32(self.levels - 1)
        for level in range(self.levels - 1):
            below = keys[level + 1].public()
            signature += keys[level].sign(digits[level], below) + below
        return signature + keys[-1].sign(digits[-1], text)

    def endorse(self, number, root):
        return self.sign(number, HEAD + root)


def signature_length(public):
    """The length of a signature under an LMS key, by the key's types; None if they are unknown."""
    tree, chains = int.from_bytes(public[:4], "big"), int.from_bytes(public[4:8], "big")
    if tree not in lms.HEIGHTS or chains not in lms.WIDTHS:
        return None
    return 12 + lms.N * (1 + lms.Chains(chains).count + lms.HEIGHTS[tree])


def verify(public, text, signature):
    """Section 6.3."""
    levels, key = int.from_bytes(public[:4], "big"), public[4:]
    if not 1 <= levels <= 8 or signature[:4] != lms.u32(levels - 1):
        return False
    rest = signature[4:]
    for _ in range(levels - 1):
        length = signature_length(key)
        if length is None:
            return False
        own, below, rest = rest[:length], rest[length : length + 56], rest[length + 56 :]
        if not lms.verify(key, below, own):
            return False
        key = below
    return lms.verify(key, text, rest)


def main(words):
    lengths = {"maker": 3, "endorse": 5, "verify": 4}
    if not words or len(words) != lengths.get(words[0]):
        sys.exit(__doc__)
    command, *rest = words
    if command == "verify":
        public, root, signature = (bytes.fromhex(word.replace("-", "")) for word in rest)
        right = verify(public, HEAD + root, signature)
        print("endorsed" if right else "refused 28")
        return 0 if right else 7
    maker = Maker(seed_of(bytes.fromhex(rest[0])), int(rest[1]))
    if command == "maker":
        print(maker.file(0).hex(), maker.public().hex(), lms.sha256(maker.public()).hex())
    else:
        print(maker.endorse(int(rest[2]), bytes.fromhex(rest[3])).hex())
    return 0


if __name__ == "__main__":
    sys.exit(main(sys.argv[1:]))
