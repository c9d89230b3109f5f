"""Files with outside values, and the comparison of what they have with what is computed here."""

import re

from lms import verify

HEX = r'"([0-9a-f]*)"'
TEXT = r'b?"([^"]*)"'
# the device of the plays, its officers and their orders
BIRTHS = "crates/mb_test_plays/src/births.rt"


class Source:
    """A file with values, and how many of them agree and differ."""

    def __init__(self, root, name):
        self.root, self.name = root, name
        self.text = re.sub(r"\\\n\s*", "", (root / name).read_text())
        self.agree, self.differ, self.seen = 0, 0, set()

    def compare(self, what, found, wanted):
        if found == wanted:
            self.agree += 1
        else:
            self.differ += 1
            print(f"{self.name}: {what}: {found} here, {wanted} there")

    def rows(self, pattern):
        """The groups of each match, whose hexadecimal words count as looked at."""
        found = [match.groups() for match in re.finditer(pattern, self.text, re.DOTALL)]
        for row in found:
            self.seen.update(row)
        return found

    def constant(self, name):
        """The word of a constant, which counts as looked at."""
        ((word,),) = self.rows(rf"const {name}: &\S+ =\s*{TEXT};")
        return word

    def argument(self, word):
        """A word that stands in quotes, or the constant of this name."""
        return word.strip('"') if '"' in word else self.owner(word).constant(word)

    def owner(self, name):
        """The file where the constant of this name stands: this one, one beside it from which it is imported, or the
        births of the plays."""
        if re.search(rf"const {name}:", self.text):
            return self
        found = re.search(rf"use super::(\w+)::{{[^}}]*\b{name}\b", self.text)
        return Source(self.root, f"{self.name.rsplit('/', 1)[0]}/{found[1]}.rt" if found else BIRTHS)

    def unseen(self):
        """Words of at least 32 bytes that no reader has looked at."""
        return sorted(set(re.findall(r'"((?:[0-9a-f]{2}){32,})"', self.text)) - self.seen)


def unhex(*words):
    return [bytes.fromhex(word) for word in words]


def turned(text):
    return text[:-1] + bytes([text[-1] ^ 1])


def verifies(source, what, key, text, signature):
    """The signature is one of the text, and not of another text, under another key, or with its last bit flipped."""
    others = [(key, text + b"\0", signature), (turned(key), text, signature), (key, text, turned(signature))]
    found = [verify(key, text, signature)] + [verify(*other) for other in others]
    source.compare(what, found, [True, False, False, False])


def line_of(word):
    """The text of a word in quotes, with its ends of lines."""
    return word.replace("\\n", "\n")
