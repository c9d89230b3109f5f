#!/usr/bin/env python3
"""A relying party's policy: read, and judged for what a chain says of a key. Written from
docs/use/formats.md and docs/use/commands.md alone, over the chains of chains.py.

    policies.py trust ROOT CHAIN KEYNUMBER POLICY    what `miniboot trust` says
"""

import collections
import re
import sys

import chains
from chains import Ended, Reader
from lms import sha256

MOST_LINES, MOST_HASHES, MOST_DEEP = 256, 64, 32
NAME = re.compile(rb"[\x21-\x7e]{1,32}")
KINDS = {b"epoch": 0, b"configuration": 1}
TRUSTS = {word.encode(): trust for trust, word in enumerate(chains.TRUSTS)}

# one configuration: the life of the key, its statement or none, and the configuration's index in the list, number and
# layers
Situation = collections.namedtuple("Situation", "life statement index number layers")


class Unsaid(Exception):
    """The line is not in the grammar."""


class Words:
    """The words of a line, one taken after another."""

    def __init__(self, line, sets):
        self.left, self.sets = line.split(b" "), sets

    def take(self):
        if not self.left:
            raise Unsaid
        return self.left.pop(0)

    def name(self, taken):
        word = self.take()
        if not NAME.fullmatch(word) or word in taken:
            raise Unsaid
        return word

    def number(self, least=0, most=2**32 - 1):
        word = self.take()
        if not re.fullmatch(rb"0|[1-9][0-9]{0,9}", word) or not least <= int(word) <= most:
            raise Unsaid
        return int(word)

    def one_of(self, table):
        word = self.take()
        if word not in table:
            raise Unsaid
        return table[word]

    def hashes(self):
        if not 1 <= len(self.left) <= MOST_HASHES or not all(re.fullmatch(rb"[0-9A-Fa-f]{64}", w) for w in self.left):
            raise Unsaid
        found, self.left = {bytes.fromhex(word.decode()) for word in self.left}, []
        return found

    def layer(self, asks):
        """A test of the layer with the number that stands next; one that is not listed makes it false."""
        m = self.number(1, 3)
        wanted = asks(self)
        return lambda s: m <= len(s.layers) and wanted(s.layers[m - 1])

    def test(self, depth=MOST_DEEP):
        if depth == 0:
            raise Unsaid
        word = self.take()
        if word in (b"and", b"or"):
            tests = self.test(depth - 1), self.test(depth - 1)
            every = all if word == b"and" else any
            return lambda s: every(test(s) for test in tests)
        if word == b"not":
            inner = self.test(depth - 1)
            return lambda s: not inner(s)
        if word not in TESTS:
            raise Unsaid
        return TESTS[word](self)


def owner_in(words):
    hashes = words.one_of(words.sets)
    return lambda layer: layer.owner is not None and sha256(layer.owner) in hashes


def code_in(words):
    hashes = words.one_of(words.sets)
    return lambda layer: layer.code in hashes


def version_between(words):
    least, most = words.number(), words.number()
    return lambda layer: layer.code is not None and least <= layer.version <= most


def trust_is(words):
    k, trust = words.number(1, 2), words.one_of(TRUSTS)
    return lambda layer: layer.trusts[k - 1] == trust


def number_between(words):
    least, most = words.number(), words.number()
    return lambda s: least <= s.number <= most


def input_in(words):
    hashes = words.one_of(words.sets)
    return lambda s: is_called(s) and s.statement.input in hashes


def answer_in(words):
    hashes = words.one_of(words.sets)
    return lambda s: is_called(s) and sha256(s.statement.said) in hashes


def is_called(situation):
    return situation.statement is not None and situation.statement.input is not None


def kind_is(words):
    kind = words.one_of(KINDS)
    return lambda s: s.life.kind == kind


TESTS = {
    b"owner": lambda words: words.layer(owner_in),
    b"code": lambda words: words.layer(code_in),
    b"version": lambda words: words.layer(version_between),
    b"trust": lambda words: words.layer(trust_is),
    b"reliable": lambda words: words.layer(lambda _: lambda layer: layer.reliable),
    b"number": number_between,
    b"first": lambda _: lambda s: s.index == 0,
    b"last": lambda _: lambda s: s.index == len(s.life.configurations) - 1,
    b"kind": kind_is,
    b"alive": lambda _: lambda s: s.life.alive,
    b"statement": lambda _: lambda s: s.statement is not None,
    b"called": lambda _: is_called,
    b"input": input_in,
    b"answer": answer_in,
}


def read_line(line, sets, rules):
    words = Words(line, sets)
    verb = words.one_of({b"set": None, b"allow": True, b"deny": False})
    name = words.name(sets if verb is None else {*rules, b"default"})
    if verb is None:
        sets[name] = words.hashes()
    else:
        rules[name] = verb, words.test()
    if words.left:
        raise Unsaid


def read_policy(text):
    """The rules of a policy by their names, each whether it allows, and its test."""
    sets, rules, lines = {}, {}, text.split(b"\n")
    if lines[-1] == b"":
        lines.pop()
    for number, line in enumerate(lines, 1):
        if line == b"" or line.startswith(b"#"):
            continue
        try:
            if len(sets) + len(rules) == MOST_LINES:
                raise Unsaid
            read_line(line, sets, rules)
        except Unsaid:
            raise Ended(3, f"input policy line {number}") from None
    return rules


def ruling(rules, situation):
    for name, (allows, test) in rules.items():
        if test(situation):
            return name.decode(), allows
    return "default", False


def trust(files, root, chain, key, policy):
    n = chains.number_in(key)
    maker = files.record("root", root, Reader.key)
    bytes_ = files.read("chain", chain)
    rules = read_policy(files.read("policy", policy))
    life, statement, _ = chains.judged(maker, bytes_, n)
    for index, (number, layers) in enumerate(life.configurations):
        name, allows = ruling(rules, Situation(life, statement, index, number, layers))
        if not allows:
            raise Ended(7, f"denied {number} {name}")
    return ["allowed"]


chains.COMMANDS["trust"] = (trust, 4)


if __name__ == "__main__":
    sys.exit(chains.main(sys.argv[1:]))
