"""What is computed anew of the tests of the commands."""

import functools
import re

from lms import PrivateKey, sha256, u32
from officer import Officer, body, countersigned_text, order, order_line, signed_text
from sources import line_of


def owner_line(officer):
    return f"owner {officer.owner().hex()}\n"


class Host:
    """The files of a play as its commands leave them, but for images."""

    def __init__(self, files):
        self.files, self.orders = dict(files), {}

    def does(self, command, *names):
        """What the command prints when it is done."""
        if command == "keygen":
            officer = Officer(self.files[names[0]])
            self.files[names[1]], self.files[names[2]] = officer.key_file(), officer.public()
            return owner_line(officer)
        if command == "factory":
            self.next_index(names[1])
            return None
        if command not in ("sign", "countersign"):
            return None
        key, used = self.files[names[0]], self.next_index(names[0])
        sign = functools.partial(private_key(key[4:20], key[20:52]).sign, used)
        if command == "sign":
            text = body(self.files[names[1]].decode())
            made = (text, sign(signed_text(text)), [])
        else:
            text, signature, beside = self.orders[names[2]]
            layer = int(names[1])
            made = (text, signature, [*beside, (layer, sign(countersigned_text(layer, text)))])
        self.orders[names[-1]], self.files[names[-1]] = made, order_line(order(*made)).encode()
        return f"index {used}\n"

    def next_index(self, name):
        """The next index of the key file of this name, which is then used."""
        key = self.files[name]
        used = int.from_bytes(key[52:], "big")
        self.files[name] = key[:52] + u32(used + 1)
        return used


@functools.lru_cache(None)
def private_key(identifier, seed):
    return PrivateKey(identifier, seed)


def given(source):
    """The files of the plays whose bytes are written out."""
    kinds = {"Hex": bytes.fromhex, "Text": lambda text: line_of(text).encode()}
    word = r'("[^"]*"|[A-Z_]+)'
    for name, kind, content in source.rows(rf'name: "(\w+)",\s*content: Content::(Hex|Text)\(\s*{word},?\s*\)'):
        content = source.argument(content)
        source.seen.add(content)
        yield name, kinds[kind](content)


def plays(source):
    """The plays are followed step by step, but for those in which a call of the host fails."""
    files = list(given(source))
    for failing, steps in source.rows(r"Play {\s*failing: &\[([\d, ]*)\],\s*steps: &\[(.*?)\],\s*}"):
        walk(source, Host(files), steps, bool(failing))


def walk(source, host, steps, failing):
    for kind, rest in re.findall(r'Step::(\w+)\(((?:[^()"]|"[^"]*")*)\)', steps):
        follow(source, host, kind, arguments(source, rest), failing)


def arguments(source, text):
    """The arguments of a step, constants by their values."""
    return [word if word.isdigit() else source.argument(word) for word in re.findall(r'"[^"]*"|\b[A-Z_]+\b|\b\d+\b', text)]


def follow(source, host, kind, words, failing):
    source.seen.update(words)
    if failing:
        return
    if kind == "Ends" and words[1] == "0":
        found = host.does(*words[0].split(" "))
        if found:
            source.compare(words[0], found, line_of(words[2]))
    elif kind == "Holds" and words[0] in host.files:
        source.compare(f"file {words[0]}", host.files[words[0]].hex(), words[1])
    elif kind == "IsOrder":
        source.compare(f"order {words[0]}", sha256(order(*host.orders[words[0]])).hex(), words[1])


def births(source):
    """The tables of steps are followed one after another, over the same files."""
    host = Host(given(source))
    for (steps,) in source.rows(r"const [A-Z_]+: &\[Step\] = &\[(.*?)\n\];"):
        walk(source, host, steps, False)


def signed_orders(source):
    """The key files of the tables, and their plays."""
    noise = bytes.fromhex(source.constant("NOISE"))
    first, other = Officer(noise), Officer(bytes(range(1, 33)))
    files = {"KEY": 0, "USED_KEY": 1, "SPENT_KEY": 32}
    for name, used in files.items():
        first.next = used
        source.compare(name, first.key_file().hex(), source.constant(name))
    first.next = 0
    source.compare("LONG_KEY", (first.key_file() + b"\0").hex(), source.constant("LONG_KEY"))
    source.compare("OTHER_WORD", (b"MBK2" + first.key_file()[4:]).hex(), source.constant("OTHER_WORD"))
    source.compare("COUNTERSIGNER", other.key_file().hex(), source.constant("COUNTERSIGNER"))
    plays(source)
