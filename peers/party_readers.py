"""What is computed anew of the tests of relying parties and of keepers of registers: what policies come to, by
`policies.py`, and what registers answer, by `fleet.py`."""

import dataclasses
import re
import types

import chains
import fleet
from chain_readers import unescaped, values
from chains import ALWAYS, CONFIGURATION, COUNTERSIGNED, EPOCH, Ended, Layer
from keys import signed
from lms import sha256, u8, u16
from policies import Situation, read_policy, ruling
from sources import HEX, TEXT, Source

VERSIONS = "crates/mb_test_rules/src/tests/versions.rt"
EXPECTED = r'(Allowed|Denied\(\d+, "\w+"\)|Line\(\d+\))'
# the first byte of a layer that has an owner and code, and is not reliable
UNRELIABLE = 3


# ---- policies


def reports_of(reports):
    """The keys of the reports, each with its chain's statement or none."""
    owners = [bytes.fromhex(word) for (word,) in reports.rows(r'"(0{7}5[0-9a-f]{104})"')]
    first_code, code = (bytes.fromhex(reports.constant(name)) for name in ("FIRST_CODE", "CODE"))
    first = Layer(owners[0], first_code, 1, True, (ALWAYS,) * 2)
    one, two, three = (Layer(owner, code, 1, True, (COUNTERSIGNED,) * 2) for owner in owners)
    unreliable = dataclasses.replace(two, reliable=False)
    bare = dataclasses.replace(unreliable, code=None, version=None)

    def life(kind, alive, *configurations):
        return types.SimpleNamespace(kind=kind, alive=alive, configurations=configurations)

    living = life(EPOCH, True, (4, (first, two, three)), (5, (one, two, three)), (6, (one, two, three)))
    ended = life(EPOCH, False, *((at, (one, m, three)) for at, m in zip((7, 8, 9), (unreliable, bare, Layer()))))
    configured = life(CONFIGURATION, True, (5, (one, two)))
    input_ = sha256(b"an input")
    said = {"Living": None, "Ended": None, "Configured": chains.Statement(5, b"today", b"")}
    said |= {"Called": chains.Statement(5, b"abc", b"", input_), "Hashed": chains.Statement(5, input_, b"")}
    lives = {"Living": living, "Ended": ended}
    return {name: (lives.get(name, configured), statement) for name, statement in said.items()}


def come_to(report, text):
    """What the policy of the text comes to, as the tests write it."""
    life, statement = report
    try:
        rules = read_policy(text.encode())
    except Ended as end:
        return f"Line({end.args[1].split()[-1]})"
    for index, (number, layers) in enumerate(life.configurations):
        name, allows = ruling(rules, Situation(life, statement, index, number, layers))
        if not allows:
            return f'Denied({number}, "{name}")'
    return "Allowed"


def compare_policy(source, report, text, expected):
    source.compare(f"policy {text}", come_to(report, unescaped(text)), expected)


def table_of(source, name):
    """The text of the rows of a table."""
    ((table,),) = source.rows(rf"const {name}: [^=]*= &\[\n(.*?)\n\];")
    return table


def judgements(source):
    """The policies of the tables, each after its first lines, and what it comes to for its report."""
    reports = reports_of(Source(source.root, source.name.replace("judgements", "reports")))
    row = r'\(\s*"[^"]*",\s*(\w+),\s*(\w+|"[^"]*"),\s*(\w+),?\s*\)'
    for whose, first, name in re.findall(row, table_of(source, "POLICIES")):
        lines_before = source.argument(first)
        for lines, expected in re.findall(rf"\(\s*{TEXT},\s*{EXPECTED},?\s*\)", table_of(source, name)):
            compare_policy(source, reports[whose], lines_before + lines, expected)


def large_policies(source):
    """The large policies, put together of their pieces, and what each comes to for the key that is alive."""
    report = reports_of(Source(source.root, source.name.replace("large", "reports")))["Living"]
    row = rf'"[^"]*",\s*&\[(.*?)\],\s*{EXPECTED}'
    for pieces, expected in re.findall(row, table_of(source, "LARGE"), re.DOTALL):
        text = "".join(
            source.argument(word) * int(times) for word, times in re.findall(r'\((\w+|"[^"]*"), (\d+)\)', pieces)
        )
        compare_policy(source, report, text, expected)


# ---- registers


def chain_of(count, entries):
    return b"MBC1" + u16(count) + b"".join(map(bytes.fromhex, entries)) + u8(0)


def item_of(kind, *words):
    """The bytes of an item of the tests."""
    if kind == "Show":
        return fleet.shows(chain_of(*words))
    if kind == "Cut":
        entry, length, end = words
        return fleet.shows(chain_of(1, [entry])[:length] + bytes.fromhex(end))
    layer, *hash_ = words
    return u8(fleet.FIND if kind == "Find" else fleet.CODES) + u8(layer) + b"".join(map(bytes.fromhex, hash_))


def register_answers(source):
    """The files of items: what is answered to each, and the register after."""
    for root, register, name, answers, after in source.rows(
        r'serves\(\s*rt\.alloc\(\),\s*(\w+),\s*(\w+),\s*(\w+),\s*(\w+|"[^"]*"),\s*(\w+),?\s*\)'
    ):
        ((table,),) = source.rows(rf"const {name}: &\[Ask\] = &\[(.*?)\];\n")
        table = re.sub(r"\b[A-Z][A-Z_0-9]+\b", lambda found: f'"{source.argument(found[0])}"', table)
        content = {word: bytes.fromhex(source.argument(word)) for word in (root, register, after)}
        items = b"".join(item_of(*item) for item in values(table))
        files = {"root": content[root], "register": content[register], "items": items}
        _, printed, written = chains.answer(["fleet", "root", "register", "items"], files.get, fleet.COMMANDS)
        wanted = unescaped(source.argument(answers)), content[after]
        source.compare(f"answers to {name}", (printed, written["register"]), wanted)


def unruled_birth(source):
    """The birth that breaks the rules: one of the chains of two versions, with another first byte of its layer 1."""
    versions = Source(source.root, VERSIONS)
    ((identifier, seed),) = versions.rows(rf"const MAKER: [^=]*= \(\s*{HEX},\s*{HEX},?\s*\);")
    (_, birth), *_ = versions.rows(rf"\[\s*{HEX},\s*{HEX},?\s*\]")
    # behind the first byte, the serial and the device's key
    at = 1 + 16 + 56
    text = bytes.fromhex(birth[: 2 * at]) + u8(UNRELIABLE) + bytes.fromhex(birth[2 * at + 2 :])
    signature = signed(bytes.fromhex(identifier), bytes.fromhex(seed), 0, u8(3) + text)
    source.compare("UNRULED_BIRTH", (text + signature).hex(), source.constant("UNRULED_BIRTH"))
