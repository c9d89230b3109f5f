#!/usr/bin/env python3
"""A register of what devices have shown, kept and queried by the formats, the rules of the log and RFC 8554 alone.

    fleet.py fleet ROOT REGISTER ITEMS    as `miniboot fleet` does, with the words and statuses of docs/use/commands.md
    fleet.py register OUT                 and so on for the other commands on registers

A register is a dictionary of rows by serials here, and each question looks through all of its rows.
"""

import dataclasses
import pathlib
import sys

import chains
from chains import Ended, Log, Reader, Refused, Unformed, read_chain
from lms import sha256, u8, u16, u32

DEVICES, LONGEST_TEXT = 512, 268_435_456
SHOW, FIND, CODES = 1, 2, 3


@dataclasses.dataclass(frozen=True)
class Row:
    """What a device has shown: its configuration number, the hash of each layer's code or none, and of each entry."""

    number: int
    codes: tuple
    hashes: tuple


# ---- bytes


def optional_hash(reader):
    return reader.take(32) if reader.number(1, 0, 1) else None


def row_at(reader, last):
    at = reader.at
    serial = reader.take(16)
    if last is not None and serial <= last:
        raise Unformed(at)
    number, codes = reader.number(4), tuple(optional_hash(reader) for _ in range(3))
    return serial, Row(number, codes, tuple(reader.take(32) for _ in range(reader.number(2, 1, 128))))


def register_at(reader):
    if reader.take(4) != b"MBF1":
        raise Unformed(reader.at - 4)
    rows, last = {}, None
    for _ in range(reader.number(2, 0, DEVICES)):
        last, row = row_at(reader, last)
        rows[last] = row
    return rows


def spelled(rows):
    """The bytes of a register."""
    text = b"MBF1" + u16(len(rows))
    for serial, row in sorted(rows.items()):
        text += serial + u32(row.number)
        text += b"".join(u8(0) if code is None else u8(1) + code for code in row.codes)
        text += u16(len(row.hashes)) + b"".join(row.hashes)
    return text


def item_at(reader):
    kind = reader.number(1, SHOW, CODES)
    if kind == SHOW:
        return kind, reader.take(reader.number(4))
    layer = reader.number(1, 1, 3)
    return (kind, layer, reader.take(32)) if kind == FIND else (kind, layer)


def items_at(reader):
    items = []
    while reader.at < len(reader.bytes):
        items.append(item_at(reader))
    return items


def shows(chain):
    """The item that shows a chain."""
    return u8(SHOW) + u32(len(chain)) + chain


# ---- answers


def row_of(maker, chain):
    """The serial and the row that a chain shows, if its entries are good."""
    try:
        entries, _ = read_chain(chain)
    except Unformed as unformed:
        raise Refused(20, unformed.at) from None
    log = Log(maker)
    for entry, signature in entries:
        log.judge(entry, signature)
    hashes = tuple(sha256(entry.text) for entry, _ in entries)
    return log.serial, Row(log.number, tuple(layer.code for layer in log.layers), hashes)


def compared(old, new):
    """What new entries have to do with the old ones of a device: a word, and a number."""
    same = next((at for at, (one, two) in enumerate(zip(old, new)) if one != two), min(len(old), len(new)))
    if same < min(len(old), len(new)):
        return "fork", same
    if len(old) == len(new):
        return "same", len(new)
    return ("extended", len(new)) if len(old) < len(new) else ("older", len(old))


def shown(rows, maker, chain):
    """The line for a chain; the rows change if it shows something new."""
    serial, row = row_of(maker, chain)
    if serial not in rows and len(rows) >= DEVICES:
        raise Refused(32, "full")
    word, number = compared(rows[serial].hashes, row.hashes) if serial in rows else ("added", len(row.hashes))
    if word in ("older", "fork"):
        raise Refused({"older": 31, "fork": 30}[word], word, serial.hex(), number)
    if word != "same":
        rows[serial] = row
    return f"{word} {serial.hex()} {number}"


def answers(rows, maker, item):
    """The lines for an item."""
    kind, *words = item
    if kind == SHOW:
        try:
            return [shown(rows, maker, *words)]
        except Refused as refused:
            return [refused.line]
    layer = words[0]
    codes = {serial: row.codes[layer - 1] for serial, row in sorted(rows.items())}
    if kind == FIND:
        found = [serial for serial, code in codes.items() if code == words[1]]
        return [f"found {len(found)}", *(f"serial {serial.hex()}" for serial in found)]
    counts = list(codes.values())
    each = sorted({code for code in counts if code is not None})
    return [f"codes {len(each)}", *(f"code {code.hex()} {counts.count(code)}" for code in each)]


# ---- the command


def fleet(files, root, register, items):
    maker = files.record("root", root, Reader.key)
    rows = files.record("register", register, register_at)
    lines = []
    for item in files.record("items", items, items_at):
        lines += answers(rows, maker, item)
    if sum(len(line) + 1 for line in lines) > LONGEST_TEXT:
        raise Ended(6, "no memory")
    files.write("register", register, spelled(rows))
    return lines


def register(files, out):
    files.write("out", out, spelled({}))
    return devices_of({})


def enrol(files, root, register, chain):
    maker = files.record("root", root, Reader.key)
    rows = files.record("register", register, register_at)
    before = spelled(rows)
    try:
        line = shown(rows, maker, files.read("chain", chain))
    except Refused as refused:
        raise Ended(7, refused.line) from None
    if spelled(rows) != before:
        files.write("register", register, spelled(rows))
    return [line]


def devices(files, register):
    return devices_of(files.record("register", register, register_at))


def devices_of(rows):
    """The lines for a register."""
    lines = [f"devices {len(rows)}"]
    for serial, row in sorted(rows.items()):
        codes = ("-" if code is None else code.hex() for code in row.codes)
        lines.append(" ".join(("device", serial.hex(), str(len(row.hashes)), str(row.number), *codes)))
    return lines


COMMANDS = {"fleet": (fleet, 3), "register": (register, 1), "enrol": (enrol, 3), "devices": (devices, 1)}


def main(words):
    status, printed, written = chains.answer(words, chains.content_of, COMMANDS)
    for name, bytes_ in written.items():
        pathlib.Path(name).write_bytes(bytes_)
    print(printed, end="")
    return status


if __name__ == "__main__":
    sys.exit(main(sys.argv[1:]))
