"""What each command does with its files: its status, its line, and the files that it writes, from the documents alone.

    answer(words, folder)    the answer of a command that is given these words, over a folder of files

Nothing here is taken from the program. What is printed at status 0 and the bytes that are written are predicted
exactly, but for three commands. The image of `run` is predicted by what it means, and its replies follow from those
before if a power loss is armed, as do those of `rehearse`, and with them its status. For `cutat` each line that may come
is given, since nothing here counts the writes of an event.
"""

import dataclasses
import pathlib
import re

import applications
import chains
import devices_shown
import fleet
import hss
import images
import machine
import policies
import shown
import texts
import workload
from chains import LONGEST_FILE, Ended, Reader, Unformed
from images import Fault
from keys import born, key_of, officers
from lms import sha256, u8, u32
from orders import can_take, countersigned, read_order
from texts import BadLine

SPENT = 32
MOST_ROUNDS = 24
LONGEST_CODE = 32_768
MOST_STEPS = 10_000_000
LAST_WRITE = 100_000


class Folder:
    """Files by their names. `folders` are names of folders, `is_full` says that nothing can be printed, and `limit` is
    the longest file that can be written, if there is one."""

    def __init__(self, files, folders=(), is_full=False, limit=None):
        self.files, self.folders, self.is_full, self.limit = files, set(folders), is_full, limit

    def content(self, name):
        return self.files.get(name)

    def takes(self, name, bytes_):
        """These bytes can be written into a file of this name."""
        if name in self.folders or name.endswith("/") or (self.limit is not None and len(bytes_) > self.limit):
            return False
        return str(pathlib.PurePosixPath(name).parent) in {".", *self.folders}


@dataclasses.dataclass
class Answer:
    """How a command ends. `text` is what it prints, or None if it serves events; then `served` says what is known of
    the replies, and of the image after `run`. `others` are texts that may come in place of `text`."""

    status: int
    text: str | None
    written: dict = dataclasses.field(default_factory=dict)
    served: object = None
    others: tuple = ()

    def prints(self, printed):
        return printed in (self.text, *self.others)


@dataclasses.dataclass
class Served:
    """A run that serves events from an image."""

    name: str
    before: bytes
    worlds: list
    events: list


class Call:
    """A command at work over a folder."""

    def __init__(self, folder, workloads):
        self.folder, self.workloads, self.written, self.names_read = folder, workloads, {}, set()

    def read(self, role, name):
        bytes_ = self.folder.content(name)
        if bytes_ is None:
            raise Ended(4, f"read failed {role}")
        self.names_read.add(name)
        if len(bytes_) > LONGEST_FILE:
            raise Ended(3, f"input {role} too long")
        return bytes_

    def record(self, role, name, read):
        bytes_ = self.read(role, name)
        try:
            return Reader(bytes_).whole(read)
        except Unformed as unformed:
            raise Ended(3, f"input {role} at {unformed.at}") from None

    def text(self, role, name, read):
        text = self.read(role, name)
        try:
            return read(text)
        except BadLine as bad:
            raise Ended(3, f"input {role} line {bad.line}") from None

    def image(self, name, meaning=images.meaning):
        """The state of an image, or None of a dead device, and its bytes."""
        bytes_ = self.read("image", name)
        try:
            return meaning(bytes_), bytes_
        except Fault as fault:
            raise Ended(3, f"input image {fault.place}") from None

    def code(self, name):
        bytes_ = self.read("code", name)
        if len(bytes_) > LONGEST_CODE:
            raise Ended(3, "input code length")
        return bytes_

    def noise(self, name, least):
        bytes_ = self.read("noise", name)
        if len(bytes_) < least:
            raise Ended(3, "input noise length")
        return bytes_

    def write(self, role, name, bytes_):
        """Writes an output; after a failed one its file may hold anything. A file that was read is replaced once."""
        if name in self.names_read and name in self.written:
            raise Ended(5, f"write failed {role}")
        if not self.folder.takes(name, bytes_):
            self.written[name] = None
            raise Ended(5, f"write failed {role}")
        self.written[name] = bytes_


def number(word, least, most):
    try:
        return texts.number(word.encode(), most, least)
    except texts.Wrong:
        raise Ended(2, "words") from None


# ---- officers


def read_key_file(reader):
    if reader.take(4) != b"MBK1":
        raise Unformed(0)
    return reader.take(16), reader.take(32), reader.number(4, 0, SPENT)


def key_file(identifier, seed, used):
    return b"MBK1" + identifier + seed + u32(used)


def keygen(call, noise, key, public):
    identifier, seed = officers(call.noise(noise, 32))
    spelled = key_of(identifier, seed).public()
    call.write("key", key, key_file(identifier, seed, 0))
    call.write("public", public, spelled)
    return [f"owner {sha256(spelled).hex()}"]


def take_index(call, name, file):
    """Raises the index of a key file before its signature is written."""
    identifier, seed, used = file
    if used == SPENT:
        raise Ended(7, "spent")
    call.write("key", name, key_file(identifier, seed, used + 1))
    return key_of(identifier, seed)


def order_line(order):
    return f"command {order.hex()}\n".encode()


def sign(call, key, draft, out):
    file = call.record("key", key, read_key_file)
    body = call.text("draft", draft, texts.read_draft)
    signature = take_index(call, key, file).sign(file[2], u8(1) + body)
    unsigned = read_order(body + bytes(3))
    call.write("out", out, order_line(dataclasses.replace(unsigned, signature=signature).spelled()))
    return [f"index {file[2]}"]


def countersign(call, key, layer, order, out):
    m = number(layer, 2, 3)
    file = call.record("key", key, read_key_file)
    given = call.text("order", order, texts.read_order_line)
    if not can_take(given, m):
        raise Ended(7, "not countersignable")
    return add_countersignature(call, key, file, given, m, out)


def add_countersignature(call, key, file, given, layer, out):
    signature = take_index(call, key, file).sign(file[2], u8(2) + u8(layer) + given.body)
    call.write("out", out, order_line(countersigned(given, layer, signature).spelled()))
    return [f"index {file[2]}"]


def cosign(call, key, layer, order, draft, out):
    m = number(layer, 2, 3)
    file = call.record("key", key, read_key_file)
    given = call.text("order", order, texts.read_order_line)
    drafted = call.text("draft", draft, texts.read_draft)
    if not can_take(given, m):
        raise Ended(7, "not countersignable")
    if drafted != given.body:
        raise Ended(7, "differs")
    return add_countersignature(call, key, file, given, m, out)


def showorder(call, order):
    return shown.lines_of(call.text("order", order, texts.read_order_line))


def ordered(call, public, order):
    key = call.record("public", public, Reader.key)
    names = shown.names_of(key, call.text("order", order, texts.read_order_line))
    if not names:
        raise Ended(7, "refused 29")
    return names


def showkey(call, key):
    identifier, seed, used = call.record("key", key, read_key_file)
    return [f"owner {sha256(key_of(identifier, seed).public()).hex()}", f"next {used}", f"left {SPENT - used}"]


def factory(call, noise, key, owner, code, image):
    bytes_ = call.noise(noise, 48)
    file = call.record("key", key, read_key_file)
    owner_key = call.record("owner", owner, Reader.key)
    loaded = call.code(code)
    maker = take_index(call, key, file)
    serial = bytes_[32:48]
    identifier, seed = born(bytes_[:32], serial, 0)
    layer = chains.Layer(owner_key, sha256(loaded), 1, True, (chains.ALWAYS, chains.ALWAYS))
    text = u8(16) + serial + key_of(identifier, seed).public()
    text += b"".join(map(machine.spelled_layer, (layer, chains.Layer(), chains.Layer())))
    birth = Reader(text).whole(Reader.entry), maker.sign(file[2], u8(3) + text)
    state = images.State(
        serial, (birth,), (loaded, None, None), identifier, seed, 0, images.Region(), images.Region()
    )
    call.write("image", image, images.image_of(state))
    return [f"serial {serial.hex()}"]


# ---- chains


def write_chain(call, out, entries, statement=None):
    call.write("out", out, chains.spelled(entries, statement))
    return [f"entries {len(entries)}"]


def chain(call, image, out):
    state, _ = call.image(image)
    if state is None:
        raise Ended(7, "zeroised")
    return write_chain(call, out, state.log)


def attach(call, chain, statement, out):
    entries, has_statement = call.record("chain", chain, Reader.chain)
    stated = call.text("statement", statement, texts.read_statement_line)
    if has_statement:
        raise Ended(7, "has statement")
    count = 1
    while count < len(entries) and not chains.is_change_above(stated.number, entries[count][0]):
        count += 1
    return write_chain(call, out, entries[:count], stated)


def verify(call, root, chain, key):
    n = number(key, 0, 2**32 - 1)
    maker = call.record("root", root, Reader.key)
    life, statement, _ = chains.judged(maker, call.read("chain", chain), n)
    return list(chains.listing(n, life, statement))


def audit(call, image, root, chain, key):
    n = number(key, 0, 2**32 - 1)
    state, _ = call.image(image)
    maker = call.record("root", root, Reader.key)
    bytes_ = call.read("chain", chain)
    if state is None:
        raise Ended(7, "zeroised")
    life, _, length = chains.judged(maker, bytes_, n)
    here = chains.life_of([entry for entry, _ in state.log[:length]], n)
    if here is None or here.configurations != life.configurations:
        raise Ended(7, "differs")
    return ["agrees"]


# ---- devices


def migrate(call, image, out):
    state, _ = call.image(image, images.migrated)
    bytes_ = images.BLANK + bytes(images.BBRAM) if state is None else images.image_of(state)
    call.write("out", out, bytes_)
    return [f"migrated {sha256(bytes_).hex()}"]


def drawn(call, noise, events):
    """The events, each order with its draw."""
    return machine.with_draws(events, call.noise(noise, machine.length_of_draws(events)))


def run(call, image, script, noise):
    state, before = call.image(image)
    events = drawn(call, noise, call.text("script", script, texts.read_script))
    world = machine.World(state, images.is_clean(before))
    return Served(image, before, [world], events)


@dataclasses.dataclass
class OneOf:
    """Lines; a command prints one of them."""

    lines: list


def cutat(call, image, script, noise, count, fill):
    write = number(count, 1, LAST_WRITE)
    if not re.fullmatch("([0-9A-Fa-f]{2}){1,16}", fill):
        raise Ended(2, "words")
    state, before = call.image(image)
    *first, last = drawn(call, noise, call.text("script", script, texts.read_uncut_script))
    world = machine.World(state, images.is_clean(before))
    for event in first:
        ((_, world),) = machine.outcomes(world, event)
    armed = dataclasses.replace(world, cut=machine.Cut(write))
    return OneOf(sorted({verdict(world, *outcome) for outcome in machine.outcomes(armed, last)}))


def verdict(before, reply, after):
    """What `cutat` prints for an event with this reply, by the worlds before it and after it."""
    if reply != "stopped":
        return "unstopped"
    return "old" if after.state == before.state else "new"


def generate(call, number_, rounds, image, script, noise):
    given = number(number_, 0, 2**32 - 1), number(rounds, 1, MOST_ROUNDS)
    if given not in call.workloads:
        call.workloads[given] = workload.generated(*given)
    files, lines = call.workloads[given]
    for (role, name), bytes_ in zip((("image", image), ("script", script), ("noise", noise)), files):
        call.write(role, name, bytes_)
    return lines


# ---- makers' keys


def read_maker(reader):
    if reader.take(4) != b"MBK2":
        raise Unformed(0)
    levels = reader.number(1, 1, 8)
    return hss.Maker(reader.take(32), levels), reader.number(8, 0, 32**levels)


def read_maker_public(reader):
    return u32(reader.number(4, 1, 8)) + reader.key()


def hsskeygen(call, noise, levels, key, public):
    n = number(levels, 1, 8)
    maker = hss.Maker(hss.seed_of(call.noise(noise, 32)), n)
    spelled = maker.public()
    call.write("key", key, maker.file(0))
    call.write("public", public, spelled)
    return [f"maker {sha256(spelled).hex()}"]


def showmaker(call, key):
    maker, used = call.record("key", key, read_maker)
    left = 32**maker.levels - used
    return [f"maker {sha256(maker.public()).hex()}", f"levels {maker.levels}", f"next {used}", f"left {left}"]


def endorse(call, key, root, out):
    maker, used = call.record("key", key, read_maker)
    spelled = call.record("root", root, Reader.key)
    if used == 32**maker.levels:
        raise Ended(7, "spent")
    call.write("key", key, maker.file(used + 1))
    call.write("out", out, maker.endorse(used, spelled))
    return [f"index {used}"]


def endorsed(call, public, root, endorsement):
    maker = call.record("public", public, read_maker_public)
    spelled = call.record("root", root, Reader.key)
    if not hss.verify(maker, hss.HEAD + spelled, call.read("endorsement", endorsement)):
        raise Ended(7, "refused 28")
    return ["endorsed"]


# ---- the code of applications


def app(call, image, layer, input_, steps):
    at, most = number(layer, 2, 3), number(steps, 1, MOST_STEPS)
    state, _ = call.image(image)
    given = call.read("input", input_)
    if state is None:
        raise Ended(7, "zeroised")
    if machine.standing(state.judged, at) != "runnable":
        raise Ended(7, "refused 4 layer")
    return told_end(state.codes[at - 1], given, machine.readable(state, at), most)


def appcode(call, code, input_, steps):
    most = number(steps, 1, MOST_STEPS)
    return told_end(call.code(code), call.read("input", input_), {3: {}}, most)


def callcode(call, code, secrets, input_, next_):
    """What a call of the code as that of layer 3 comes to, on secrets in a text."""
    loaded = call.code(code)
    kept = call.text("text", secrets, texts.read_secrets)
    given = call.read("input", input_)
    try:
        demands, answer = applications.called(loaded, given, {3: {name: value for name, value, _ in kept}})
        left = applications.after_demands(demands, kept, 0)
    except applications.NoAnswer as none:
        raise Ended(7, none.line) from None
    call.write("out", next_, b"".join(b"secret %b %b\n" % (name, value.hex().encode() or b"-") for name, value, _ in left))
    return [f"called {answer.hex() or '-'}"]


def told_end(code, given, secrets, most):
    """The line of a run, which is a refusal if the run does not halt."""
    line, is_halted = applications.run(code, given, secrets, most)
    if not is_halted:
        raise Ended(7, line)
    return [line]


def asm(call, text, out):
    code = call.text("text", text, applications.assemble)
    call.write("out", out, code)
    return [f"bytes {len(code)}"]


def listed(call, code, lines_of):
    """The lines of the instructions of a code."""
    bytes_ = call.code(code)
    try:
        return lines_of(bytes_)
    except applications.NoInstruction as none:
        raise Ended(3, f"input code at {none.at}") from None


def disasm(call, code, out):
    lines = listed(call, code, applications.disassemble)
    call.write("out", out, "".join(line + "\n" for line in lines).encode())
    return [f"lines {len(lines)}"]


def showcode(call, code):
    return listed(call, code, applications.labelled)


# ---- all commands


COMMANDS = {
    "run": (run, 3),
    "rehearse": (devices_shown.rehearsed, 3),
    "showimage": (devices_shown.showimage, 1),
    "history": (devices_shown.history, 2),
    "cutat": (cutat, 5),
    "verify": (verify, 3),
    "audit": (audit, 4),
    "chain": (chain, 2),
    "attach": (attach, 3),
    "factory": (factory, 5),
    "keygen": (keygen, 3),
    "sign": (sign, 3),
    "countersign": (countersign, 4),
    "cosign": (cosign, 5),
    "showorder": (showorder, 1),
    "ordered": (ordered, 2),
    "showkey": (showkey, 1),
    "migrate": (migrate, 2),
    "generate": (generate, 5),
    "hsskeygen": (hsskeygen, 4),
    "showmaker": (showmaker, 1),
    "endorse": (endorse, 3),
    "endorsed": (endorsed, 3),
    "trust": (policies.trust, 4),
    "fleet": (fleet.fleet, 3),
    "register": (fleet.register, 1),
    "enrol": (fleet.enrol, 3),
    "devices": (fleet.devices, 1),
    "app": (app, 4),
    "appcode": (appcode, 3),
    "callcode": (callcode, 4),
    "asm": (asm, 2),
    "disasm": (disasm, 2),
    "showcode": (showcode, 1),
}


def is_text(word):
    """A word is text, and not bytes that stand in it as lone surrogates."""
    return not re.search("[\ud800-\udfff]", word)


def answer(words, folder, workloads=None):
    """How the command of these words ends over a folder. `workloads` keeps those that were generated."""
    call = Call(folder, {} if workloads is None else workloads)
    command, count = COMMANDS.get(words[0], (None, 0)) if words else (None, 0)
    try:
        if command is None or len(words) != count + 1 or "" in words or not all(map(is_text, words)):
            raise Ended(2, "words")
        lines = command(call, *words[1:])
    except Ended as ended:
        return Answer(ended.status, ended.line + "\n", call.written)
    if isinstance(lines, Served | devices_shown.Rehearsed):
        return Answer(0, None, served=lines)
    if isinstance(lines, OneOf):
        text, *others = (line + "\n" for line in lines.lines)
        return Answer(5 if folder.is_full else 0, text, others=tuple(others))
    # printing does not fail if there is nothing to print
    return Answer(5 if folder.is_full and lines else 0, "".join(line + "\n" for line in lines), call.written)


# ---- what a run did


def wrong_in_run(served, replies, after):
    """What is wrong with the replies of a run, and with the image after it, or None."""
    worlds = served.worlds
    for at, (event, reply) in enumerate(zip(served.events, replies), 1):
        worlds, possible = machine.follow(worlds, event, reply)
        if not worlds:
            return f"reply {at}: {reply}, and not {' or '.join(map(str, possible))}"
    if len(replies) != len(served.events):
        return f"{len(replies)} replies, and not {len(served.events)}"
    if not any(is_left(world, served.before, after) for world in worlds):
        return "the image is not that of a device with these replies"
    return None


def is_left(world, before, after):
    """An image can be what is left in this world."""
    if not world.has_written:
        return after == (before[: images.FLASH] + bytes(images.BBRAM) if world.was_opened else before)
    if world.state is None:
        return len(after) == len(before) and not any(after[images.FLASH :])
    try:
        parts = images.stored(after)
        if parts is None or images.completed(parts) != world.state:
            return False
    except Fault:
        return False
    return not world.is_clean or images.is_clean(after)
