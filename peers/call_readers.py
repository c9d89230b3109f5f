"""What is computed anew of the tests of code that is called, and of the statements of calls. Tables of steps are followed
over files that are made here, the devices by `machine.py` and all else by `commands.py`."""

import re

import chain_readers
import chains
import commands
import devices_shown
import images
import machine
from chain_readers import LAYERS_OWNED, fits, tables, unescaped
from chains import SIGNATURE, Reader, Unformed
from pieces import rows_of
from sources import HEX


class World(chain_readers.World):
    """The files, among them devices as their images. Of a run with a power loss what is expected says which world the
    device is in."""

    def __init__(self, other):
        super().__init__({name: other.content(name) for name in {*other.files, *other.devices}})
        self.orders, self.drafts = dict(other.orders), dict(other.drafts)
        self.wanted = ""

    def answer(self, words):
        answer = commands.answer(words, commands.Folder(dict(self.files)))
        self.files |= answer.written
        if isinstance(answer.served, commands.Served):
            return 0, self.served(answer.served)
        if isinstance(answer.served, devices_shown.Rehearsed):
            wrong = devices_shown.wrong_in_rehearsal(answer.served, 0, self.wanted.splitlines())
            return 0, self.wanted if wrong is None else wrong
        return answer.status, self.wanted if answer.prints(self.wanted) else answer.text

    def served(self, served):
        """The replies that are wanted where they may come, and the image after them."""
        worlds, replies, lines = served.worlds, [], self.wanted.splitlines()
        for at, event in enumerate(served.events):
            line = lines[at] if at < len(lines) and "*" not in lines[at] else None
            following = [each for world in worlds for each in machine.outcomes(world, event)]
            fitting = [(reply, world) for reply, world in following if reply == line] or following
            replies.append(fitting[0][0])
            worlds = [world for reply, world in fitting if reply == replies[-1]]
        self.keep_statement(replies)
        state = worlds[0].state
        if worlds[0].has_written:
            dead = images.BLANK + bytes(images.BBRAM)
            self.files[served.name] = dead if state is None else images.image_of(state)
        return "".join(reply + "\n" for reply in replies)

    def keep_statement(self, replies):
        signed = [reply.split(" ")[-1] for reply in replies if reply.startswith("signed ")]
        self.statement = signed[-1].encode() if signed else self.statement


def follow(source, world, step):
    kind, *words = step
    world.wanted = words[2] if kind in ("Step::Ends", "Step::Serves") else ""
    if kind == "Step::Matches":
        source.compare(f"{words[0]} as {words[1]}", world.content(words[0]) == world.content(words[1]), True)
    elif kind == "Step::IsCutTwice":
        compare_cut(source, world, *words[0][1:])
    elif kind == "Step::Gives" and words[0][2][0] == "Content::Repeats":
        ((_, name, (_, line, count)),) = words
        world.files[name] = line.encode() * count
    elif kind == "Step::Serves":
        script, noise, lines = words
        world.writes("script", script)
        chain_readers.compare_end(source, world, f"run image script {noise}", 0, lines)
    else:
        chain_readers.follow(source, world, step)


def compare_cut(source, world, image, noise, before, opened, event, asks, old, new):
    """An event that is cut leaves what answers a question in one way or in the other, and both may come."""
    world.writes("script", [("Part::Text", before), *event])
    events = commands.answer(["run", image, "script", noise], commands.Folder(world.files)).served.events
    state = images.meaning(world.files[image])
    start = machine.World(state)
    for each in events[:-1]:
        ((_, start),) = machine.outcomes(start, each)
    found = set()
    for each in ([], events[-1:]):
        here = start
        for done in each:
            ((_, here),) = machine.outcomes(here, done)
        ((reply, _),) = machine.outcomes(here, events[-1])
        found.add(reply + "\n")
    source.compare(f"cuts of {asks}", {line for line in (old, new) for reply in found if fits(reply, line)}, {old, new})


def calls(source):
    """The tables in the order of the tests, each test over a world of its own."""
    steps, start = tables(source, {}), chain_readers.born(source, LAYERS_OWNED)
    for test in source.text.split("#[test]")[1:]:
        world = World(start)
        world.files["nothing"] = b""
        for name in re.findall(r"[A-Z_]{3,}", test[: test.index("\n}")]):
            for step in steps.get(name, ()):
                follow(source, world, step)


# ---- statements


def statement_of(text):
    """The statement that is spelled before its signature."""
    return Reader(text + bytes(SIGNATURE)).whole(Reader.statement)


def statements_in_chains(source):
    """The text that key 1 signs of each statement, and how it is listed; and why a chain with it is refused, if another
    text was signed or it is of another configuration."""
    for spelled, text, line in source.rows(rf'\(\s*{HEX},\s*{HEX},\s*"([^"]*)",?\s*\)'):
        statement, text = statement_of(bytes.fromhex(spelled)), bytes.fromhex(text)
        source.compare(f"text of {spelled}", chains.stated_text(text[1:17], 1, statement).hex(), text.hex())
        source.compare(f"line of {spelled}", " ".join([statement.word, *statement.words()]) + "\n", unescaped(line))
    for spelled, text, why in source.rows(rf"\(\s*{HEX},\s*{HEX},\s*ChainRefusal::(\w+)[^)]*?,?\s*\)"):
        statement, text = statement_of(bytes.fromhex(spelled)), bytes.fromhex(text)
        signed = chains.stated_text(text[1:17], 1, statement) == text
        source.compare(f"refusal of {spelled}", "StatementNumber" if signed else "StatementSignature", why)


def wrong_statements(source):
    """Bytes that spell no statement, each with the offset that fails."""
    for name, word, times in source.rows(rf"const (\w+): \(&str, usize\) = \(\s*{HEX},\s*([\d_]+),?\s*\);"):
        source.text = re.sub(rf"\b{name}\b(?!:)", f'("{word}", {times})', source.text)
    for text, (wanted,) in rows_of(source, "WRONG"):
        try:
            found = Reader(text).whole(Reader.statement)
        except Unformed as unformed:
            found = unformed.at
        source.compare(f"bytes {text[:8].hex()}, {len(text)}", found, wanted)
