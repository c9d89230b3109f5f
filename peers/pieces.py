"""Where the first bytes of an order fail whatever bytes follow, written from docs/use/formats.md alone.

A field fails as soon as none of its allowed values begins with its bytes that are there."""

import re

TREES, CHAINS = range(5, 10), range(1, 5)
ESTABLISH, SURRENDER, LOAD, EMERGENCY, NEW_KEY = range(1, 6)
ONE_TRUST = [ESTABLISH, SURRENDER, LOAD, EMERGENCY, NEW_KEY]
TWO_TRUSTS = [16 + kind for kind in (ESTABLISH, LOAD, EMERGENCY)]


class Fails(Exception):
    """The field at `at` fails whatever follows, which the bytes before `known` show."""


class Lacks(Exception):
    """The field at `at` lacks bytes, and some that follow complete it."""


class Fields:
    def __init__(self, text):
        self.text, self.at = text, 0

    def number(self, width, allowed):
        """A number of `width` bytes, which is one of the allowed."""
        for known in range(1, width + 1):
            if self.at + known > len(self.text):
                raise Lacks(self.at)
            begun = self.text[self.at : self.at + known]
            missing = 256 ** (width - known)
            least = int.from_bytes(begun, "big") * missing
            if not any(least <= number < least + missing for number in allowed):
                raise Fails(self.at, self.at + known)
        self.at += width
        return int.from_bytes(begun, "big")

    def raw(self, count):
        if self.at + count > len(self.text):
            raise Lacks(self.at)
        self.at += count

    def target(self):
        tag = self.number(1, range(1, 5))
        if tag in (1, 2):
            self.raw({1: 16, 2: 4}[tag])
        else:
            self.number(1, range(1, 4))
            self.raw(32)

    def trusts(self, two):
        one = self.number(1, range(3))
        if two:
            self.number(1, [trust for trust in range(3) if trust != one])

    def act(self, kind, two):
        if kind == ESTABLISH:
            self.number(4, TREES)
            self.number(4, CHAINS)
            self.raw(16)
            self.raw(32)
            self.trusts(two)
        elif kind in (LOAD, EMERGENCY):
            self.raw(4)
            self.trusts(two)
            self.raw(self.number(4, range(32_769)))
        elif kind == NEW_KEY:
            self.number(1, range(2))

    def signature(self):
        self.raw(self.number(2, range(9_325)))

    def order(self):
        form = self.number(1, ONE_TRUST + TWO_TRUSTS)
        kind, two = form % 16, form > 16
        layer = self.number(1, range(1 if kind == LOAD else 2, 4))
        for _ in range(self.number(1, range(9))):
            self.target()
        self.act(kind, two)
        self.signature()
        left = self.number(1, range((3 - layer if kind in (LOAD, EMERGENCY) else 0) + 1))
        while left:
            # each that is still to come needs a layer of its own, 3 at most
            layer = self.number(1, range(layer + 1, 4 - left + 1))
            self.signature()
            left -= 1
        if self.at < len(self.text):
            raise Fails(self.at, self.at + 1)


def answer(text):
    """What an order's bytes come to: the offset that fails and the number of bytes that show it; or the offset that
    lacks bytes; or nothing for an order."""
    try:
        Fields(text).order()
    except (Fails, Lacks) as end:
        return end.args
    return ()


def rows_of(source, name):
    """The rows of a table, as their bytes and the numbers after them."""
    ((table,),) = source.rows(rf"const {name}: [^=]*= &\[(.*?)\n\];")
    for pieces, numbers in re.findall(r"\(\s*&\[(.*?)\],\s*([\d_, \n]+?),?\s*\)", table, re.DOTALL):
        words = re.findall(r'\("([0-9a-f]*)",\s*([\d_]+)\)', pieces)
        source.seen.update(word for word, _ in words)
        text = b"".join(bytes.fromhex(word) * int(times) for word, times in words)
        yield text, tuple(int(number) for number in numbers.replace(",", " ").replace("_", "").split())


def orders_in_pieces(source):
    """Bytes that fail as an order, and those that begin one, with the offset and how many bytes show it."""
    for name in ("FAILING", "BEGINNINGS"):
        for text, wanted in rows_of(source, name):
            source.compare(f"{name}, {text[:16].hex()}", answer(text), wanted)
