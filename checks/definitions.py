"""What a file of definitions defines. For names.sh and documents.sh."""

import re

TYPE = re.compile(r"(?:pub )?(record|data) ([^\s:({]+)")
FUNCTION = re.compile(r"(?:unfoldable |abbrev )?(?:pub )?([^\s:({]+) :(?!:)")
CONSTRUCTORS = re.compile(r"  ((?:[^\s:(){}-]\S*\s)+):")


def names_of(text):
    """Functions, records, data types and constructors; the fields of records do not count."""
    names = set()
    inside = None
    for line in text.splitlines():
        begins = TYPE.match(line)
        if begins:
            inside = begins[1]
            names.add(begins[2])
            continue
        if line and not line.startswith((" ", "--")):
            inside = None
            defines = FUNCTION.match(line)
            if defines:
                names.add(defines[1])
        elif inside == "data":
            makes = CONSTRUCTORS.match(line)
            if makes:
                names.update(makes[1].split())
    return names
