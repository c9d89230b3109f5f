#!/usr/bin/env python3
"""What images, scripts and chains say, by the formats, the rules of the log, machine.py and RFC 8554 alone.

    devices_shown.py showimage IMAGE                  as `miniboot` does, with the words and statuses of docs/use/commands.md
    devices_shown.py rehearse IMAGE SCRIPT NOISE      of what a power loss may do, the first that machine.py tells
    devices_shown.py history ROOT CHAIN
"""

import dataclasses
import sys

import chains
import images
import machine
import texts
from chains import BIRTH, CHANGE, NEW_KEY, SUCCESSION, Ended, Log, Reader, Refused, Unformed

ENTRIES, USES = 128, 32
KINDS = "epoch", "configuration"
CHANGES = {1: "establish", 2: "surrender", 3: "load", 4: "emergency"}


# ---- images


def image_lines(state, is_pending):
    """The lines that show a live device; `is_pending` says that its next boot has work to do."""
    log = state.judged
    yield f"serial {state.serial.hex()}"
    yield f"number {log.number}"
    yield f"length {log.length} {ENTRIES}"
    yield f"pending {int(is_pending)}"
    yield f"device {state.uses} {USES - state.uses}"
    for m, layer in enumerate(log.layers, 1):
        yield chains.layer_line(m, layer)
    for m in (2, 3):
        for name, value, _ in state.region(m).secrets:
            yield f"secret {m} {name.decode()} {len(value)}"
    for m in (2, 3):
        for key in state.region(m).keys:
            yield f"key {key.number} {KINDS[key.kind]} layer {m} {key.uses} {USES - key.uses}"


def image_of(files, image):
    """The bytes of an image, and the state that they mean, or None of a dead device."""
    bytes_ = files.read("image", image)
    try:
        return bytes_, images.meaning(bytes_)
    except images.Fault as fault:
        raise Ended(3, f"input image {fault.place}") from None


def showimage(files, image):
    bytes_, state = image_of(files, image)
    if state is None:
        raise Ended(7, "zeroised")
    return list(image_lines(state, images.stored(bytes_).pending is not None))


# ---- rehearsals


@dataclasses.dataclass
class Rehearsed:
    """A rehearsal of events, each with the number of its line. It writes nothing."""

    worlds: list
    events: list
    numbers: list


def rehearsed(files, image, script, noise):
    """The rehearsal of these files."""
    bytes_, state = image_of(files, image)
    try:
        numbered = texts.numbered_events(files.read("script", script))
    except texts.BadLine as bad:
        raise Ended(3, f"input script line {bad.line}") from None
    events, draws = [event for _, event in numbered], files.read("noise", noise)
    if len(draws) < machine.length_of_draws(events):
        raise Ended(3, "input noise length")
    world = machine.World(state, images.is_clean(bytes_))
    return Rehearsed([world], machine.with_draws(events, draws), [at for at, _ in numbered])


def veiled(reply):
    """A reply without the value of a secret, without a statement, and without what code answered."""
    words = reply.split(" ")
    return " ".join([*words[:-1], "-"]) if words[0] in ("value", "signed", "called") else reply


def is_unobeyed(reply):
    return reply in ("stopped", "no memory") or reply.startswith("refused ")


def first_unobeyed(numbers, replies):
    """The line of the first event that was not obeyed, if there is one."""
    return [f"first {number} {reply}" for number, reply in zip(numbers, replies) if is_unobeyed(reply)][:1]


def wrong_in_rehearsal(rehearsed, status, lines):
    """What is wrong with the status and the lines of a rehearsal, or None."""
    worlds, replies = rehearsed.worlds, lines[: len(rehearsed.events)]
    for at, (event, reply) in enumerate(zip(rehearsed.events, replies), 1):
        worlds, possible = machine.follow(worlds, event, reply, veiled)
        if not worlds:
            return f"reply {at}: {reply}, and not {' or '.join(map(veiled, possible))}"
    first = first_unobeyed(rehearsed.numbers, replies)
    if len(replies) != len(rehearsed.events) or lines[len(replies) :] != first:
        return f"{len(lines)} lines, and not {len(rehearsed.events)} replies and then {first}"
    if status != (7 if first else 0):
        return f"status {status}"
    return None


def rehearse(files, image, script, noise):
    asked, replies = rehearsed(files, image, script, noise), []
    (world,) = asked.worlds
    for event in asked.events:
        reply, world = next(machine.outcomes(world, event))
        replies.append(veiled(reply))
    first = first_unobeyed(asked.numbers, replies)
    if first:
        raise Ended(7, "\n".join(replies + first))
    return replies


# ---- chains


def numbers(some):
    return ",".join(map(str, sorted(some))) or "-"


def entry_lines(position, entry):
    """The lines of the entry at this position."""
    if entry.tag == BIRTH:
        yield f"entry {position} birth"
    elif entry.tag == CHANGE:
        told = f"{CHANGES[entry.kind]} {entry.layer} configuration {entry.number}"
        yield f"entry {position} {told} countersigned {numbers(entry.cosigned)} kept {numbers(entry.kept)}"
    elif entry.tag == NEW_KEY:
        yield f"entry {position} newkey {entry.key_number} {KINDS[entry.kind]} layer {entry.layer}"
    elif entry.tag == SUCCESSION:
        yield f"entry {position} succession"
    for m, layer in enumerate(entry.layers or (), 1):
        yield chains.layer_line(m, layer)


def signer_of(log, lives, statement):
    """The lowest number of a key that signed the statement, which it may still do, or Refused."""
    for n, life in sorted(lives.items()):
        if chains.verifies(life.key, chains.stated_text(log.serial, n, statement), statement.signature):
            if statement.number != log.number:
                raise Refused(26)
            if not life.alive:
                raise Refused(27)
            return n
    raise Refused(25)


def history_lines(maker, bytes_):
    """The lines of the history that a chain tells, or Refused."""
    try:
        signed, statement = chains.read_chain(bytes_)
    except Unformed as unformed:
        raise Refused(20, unformed.at) from None
    log, entries = Log(maker), [entry for entry, _ in signed]
    for entry, signature in signed:
        log.judge(entry, signature)
    made = [entry.key_number for entry in entries if entry.tag == NEW_KEY]
    lives = {n: chains.life_of(entries, n) for n in made}
    signer = signer_of(log, lives, statement) if statement else None
    yield f"serial {log.serial.hex()}"
    for position, entry in enumerate(entries):
        yield from entry_lines(position, entry)
    for n, life in sorted(lives.items()):
        yield f"key {n} {KINDS[life.kind]} layer {life.layer} {'alive' if life.alive else 'ended'}"
    if statement:
        yield " ".join(map(str, [statement.word, signer, statement.number, *statement.words()]))


def history(files, root, chain):
    maker = files.record("root", root, Reader.key)
    bytes_ = files.read("chain", chain)
    try:
        return list(history_lines(maker, bytes_))
    except Refused as refused:
        raise Ended(7, refused.line) from None


chains.COMMANDS |= {"showimage": (showimage, 1), "rehearse": (rehearse, 3), "history": (history, 2)}


if __name__ == "__main__":
    sys.exit(chains.main(sys.argv[1:]))
