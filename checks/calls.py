"""Compares the names of public calls with those of the definitions that they compute, and with checks/calls.txt."""

import pathlib
import re
import sys

LIST = pathlib.Path("checks/calls.txt")
CALL = re.compile(
    r"^(?P<indent>\s*)pub (?:const )?fn (?P<name>\w+)(?P<rest>[^{;]*?)"
    r"(?P<clauses>(?:\n\s+(?:requires|ensures|decreases)[^\n]*)+)",
    re.M,
)
EXACT = re.compile(r"(?:IfOk result \(λ \w+\. \w+|result)(?:\.\w+)* ≡ (?:text_of \()?([a-z_]\w*)")


def definitions(text):
    """The names of definitions of this repository that a file of code cites."""
    found = set()
    for names in re.findall(r"ghost use Rattle\.mb_[\w.]+\.\{([^}]*)\};", text):
        found |= {name.strip() for name in names.split(",")}
    return found


def type_around(text, place):
    """The type whose methods stand at this place, with two colons after it; nothing outside of an `impl`."""
    for found in reversed(list(re.finditer(r"^(impl\b[^{]*|\})", text[:place], re.M))):
        if found[0] == "}":
            return ""
        head = re.sub(r"<[^<>]*>", "", re.sub(r"<[^<>]*(?:<[^<>]*>[^<>]*)*>", "", found[0]))
        return head.split(" for ")[-1].replace("impl", "").split()[0] + "::"
    return ""


def calls():
    """Crate, call and definition of each public call that computes a definition of another name."""
    for path in sorted(pathlib.Path("crates").glob("*/src/**/*.rt")):
        crate = path.parts[1]
        if crate.startswith("mb_test_"):
            continue
        text = path.read_text()
        ours = definitions(text)
        for call in CALL.finditer(text):
            for clause in re.findall(r"ensures (?:\w+ )?\{ (.*) \}", call["clauses"]):
                exact = EXACT.match(clause)
                if exact and exact[1] in ours and exact[1] != call["name"]:
                    owner = type_around(text, call.start()) if call["indent"].strip("\n") else ""
                    yield f"{crate} {owner}{call['name']} {exact[1]}"


listed = {line for line in LIST.read_text().split("\n") if line and not line.startswith("#")}
found = set(calls())
for line in sorted(found - listed):
    print(f"{line}: is not on {LIST}")
for line in sorted(listed - found):
    print(f"{line}: is on {LIST}, and no call is so")
sys.exit(1 if found != listed else 0)
