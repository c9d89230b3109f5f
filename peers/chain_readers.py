"""What is computed anew of chains: the tests of the commands on them.

The steps of the tests are followed over files that are all made here: keys and orders by `officer.py`, devices by
`life.py`, and what the commands on chains do by `chains.py` and `policies.py`.
"""

import copy
import functools
import re
import types

import applications
import chains
import devices_shown  # noqa: F401, among the commands of chains.py from here on
import fleet
import images
import policies  # noqa: F401, likewise
from life import Living
from lms import sha256, u8, u16, u32
from officer import body, order, order_line, unhex
from sources import BIRTHS, HEX, Source
from top_readers import Host, private_key

TOKEN = re.compile(r'"(?:[^"\\]|\\.)*"|[A-Za-z_][\w:]*|0x[0-9A-F]+|\d[\d_]*|[()\[\]{}]')
LIFE = "crates/mb_test_plays/src/lives.rt"
CHAINS = "crates/mb_test_lives/src/tests/chains.rt"
FAILURES = "crates/mb_test_commands/src/tests/failures.rt"
FLEET = "crates/mb_test_commands/src/tests/fleet.rt"
# the tables that lead to a new device with its first orders, and to one whose layers have code
A_NEW_DEVICE = "MADE", "FIRST_ORDERS"
LAYERS_OWNED = *A_NEW_DEVICE, "ORDERS_OF_A_LIFE", "LAYERS_ARE_GIVEN"
# how often a key signs
USES = 32
# what is answered by the formats alone
COMMANDS = chains.COMMANDS | fleet.COMMANDS
LENGTHS = {"FLASH_LENGTH": chains.FLASH, "IMAGE_LENGTH": chains.FLASH + chains.BBRAM}
DEAD = b"\xff" * chains.FLASH + bytes(chains.BBRAM)


# ---- tables of steps


def unescaped(word):
    known = {"n": "\n", "0": "\0", '"': '"', "\\": "\\"}
    return re.sub(r"\\(?:u\{(\w+)\}|(.))", lambda found: chr(int(found[1], 16)) if found[1] else known[found[2]], word)


def values(text):
    """The values of a table: texts, numbers, names with what follows in brackets, and lists; of a record its fields."""
    tokens = [token for token in TOKEN.findall(text) if not re.fullmatch(r"\w+:", token)]
    ends = {"(": ")", "[": "]", "{": "}"}

    def several(end):
        found = []
        while tokens and tokens[0] != end:
            found.append(one())
        if tokens:
            tokens.pop(0)
        return found

    def one():
        token = tokens.pop(0)
        if token in ends:
            return several(ends[token])
        if token[0] == '"':
            return unescaped(token[1:-1])
        if token[0].isdigit():
            return int(token.replace("_", ""), 0 if token.startswith("0x") else 10)
        if tokens and tokens[0] in ("(", "{"):
            return (token, *several(ends[tokens.pop(0)]))
        return (token,)

    return several(None)


def tables(source, constants):
    """The tables of steps of a source by their names, with the texts for the constants' names."""
    own = {name: source.constant(name) for name in re.findall(r'const ([A-Z_]+): &str =\s*"', source.text)}
    lists = dict(re.findall(r"const ([A-Z_]+): &\[usize\] = (&\[.*?\]);", source.text, re.DOTALL))
    found = {}
    for name, text in re.findall(r"const ([A-Z_]+): &\[(?:Step|ShortFile)\] = &\[(.*?)\];\n", source.text, re.DOTALL):
        source.seen.update(re.findall(HEX, text))
        for constant, value in (own | constants).items():
            text = re.sub(rf"\b{constant}\b", lambda _, value=value: f'"{value}"', text)
        for constant, value in lists.items():
            text = re.sub(rf"\boffsets: {constant}\b", lambda _, value=value: value, text)
        for constant, value in LENGTHS.items():
            more = rf"\b{constant}\b(?: ([+-]) (\d[\d_]*))?"
            text = re.sub(more, lambda found, value=value: str(value + int("".join(found.groups("")) or "0")), text)
        found[name] = values(text)
    return found


def fits(printed, wanted):
    """The lines are those that are wanted. A line that ends in `*` fits each line that begins so, and a line `**` fits
    all that follow."""
    found, lines = printed.splitlines(), wanted.splitlines()
    if lines[-1:] == ["**"]:
        found, lines = found[: len(lines) - 1], lines[:-1]
    ends = [line.removesuffix("*") for line in lines]
    return len(found) == len(lines) and all(
        here.startswith(end) if end != line else here == line for here, end, line in zip(found, ends, lines)
    )


# ---- a host, and the devices on it


class World(Host):
    """The files as commands leave them, with a device for each image that is not dead."""

    # how a device serves a script in which its power may be cut
    serving = None

    def __init__(self, files):
        super().__init__(files)
        self.devices, self.drafts, self.statement = {}, {}, None
        # devices made of the same noise with a birth of version 1, by the hashes of their images
        self.old = {}

    def content(self, name):
        """The bytes of a file, or None."""
        if name in self.devices:
            return self.devices[name].image()
        return self.files.get(name)

    def answer(self, words):
        """The status of a command, and what it prints."""
        command, *names = words
        if command in COMMANDS:
            status, printed, written = chains.answer(words, self.content, COMMANDS)
            self.files.update(written)
            return status, printed
        if command == "factory":
            return 0, self.factory(*names)
        if command == "migrate":
            return 0, self.migrate(*names)
        if command == "run":
            return 0, self.run(*names)
        printed = self.does(command, *names)
        if command == "sign":
            text, *_ = self.orders[names[-1]]
            self.drafts[text] = self.files[names[1]].decode()
        return 0, printed

    def factory(self, noise, key, owner, code, image):
        file, used = self.files[key], self.next_index(key)
        maker = types.SimpleNamespace(sign=functools.partial(private_key(file[4:20], file[20:52]).sign, used))
        new, old = (Living(self.files[noise], maker, self.files[owner], self.files[code], each) for each in (2, 1))
        self.devices[image], self.old[sha256(old.image())] = new, old
        return f"serial {self.devices[image].serial.hex()}\n"

    def migrate(self, image, out):
        """The hash of the current form of an image. That of an old device means that device."""
        bytes_ = images.image_of(images.migrated(self.content(image)))
        self.devices[out] = copy.deepcopy(self.old[sha256(bytes_)])
        return f"migrated {sha256(bytes_).hex()}\n"

    def run(self, image, script, noise):
        """What a device prints that serves the script, or None if its power is cut, after which it is dead."""
        lines, draws = self.files[script].decode().splitlines(), self.files[noise]
        if self.serving is None and any(line.startswith("cut ") for line in lines):
            del self.devices[image]
            self.files[image] = DEAD
            return None
        served = (self.serving or Served)(self, self.devices[image], draws)
        return "".join(reply + "\n" for reply in served.replies(self.files[script].decode()))

    def order_at(self, line):
        """The body, the signature and the countersignatures of an order's line."""
        for made in self.orders.values():
            if order_line(order(*made)) == line + "\n":
                return made
        raise ValueError("an order that nobody signed")

    def order_of(self, line):
        """The draft of an order's line, and the layers that countersigned it."""
        text, _, beside = self.order_at(line)
        return self.drafts[text], {layer for layer, _ in beside}

    def writes(self, name, parts):
        """Makes a file of its parts, or a copy of a device."""
        self.devices.pop(name, None)
        if len(parts) == 1 and parts[0][-1] in self.devices:
            self.devices[name] = copy.deepcopy(self.devices[parts[0][-1]])
        else:
            self.files[name] = b"".join(map(self.part, parts))

    def gives(self, name, content):
        """Makes a file of what is given."""
        self.devices.pop(name, None)
        self.files[name] = given_bytes(*content)

    def part(self, part):
        kind, what, *numbers = part
        if kind == "Part::Text":
            return what.encode()
        bytes_ = self.content(what)
        if kind == "Part::Slice":
            return bytes_[slice(*numbers)]
        return bytes_[: len(bytes_) - sum(numbers)]


def given_bytes(kind, what):
    """The bytes of a file that is given."""
    if kind == "Content::Hex":
        return bytes.fromhex(what)
    if kind == "Content::Text":
        return what.encode()
    if kind == "Content::Sevens":
        return b"\7" * what
    if kind != "Content::Laid":
        raise ValueError(kind)
    laid = b""
    for begins, end, byte in what:
        laid = (laid + bytes.fromhex(begins)).ljust(end, bytes([byte]))
    return laid


class Served:
    """A device that serves a script, in which it is given nothing that it refuses but for want of a key, or because of
    whether a layer's code takes calls."""

    def __init__(self, world, device, draws):
        self.world, self.device, self.draws, self.level = world, device, draws, 0

    def replies(self, script):
        return [self.reply(line) for line in script.splitlines()]

    def reply(self, line):
        word, *words = line.split(" ")
        return getattr(self, word)(line, *words)

    def boot(self, line):
        self.level = 1
        return "booted"

    def go(self, line):
        self.level += 1
        return f"at {self.level}"

    def off(self, line):
        return "off"

    def command(self, line, _):
        draw, self.draws = self.draws[:32], self.draws[32:]
        draft, cosigned = self.world.order_of(line)
        return self.device.obey(draft, draw, cosigned)

    def is_sealed(self, layer):
        return applications.takes_calls(self.device.codes[int(layer)])

    def put(self, line, layer, name, value):
        if self.is_sealed(layer):
            return "refused 8 code"
        self.device.put(int(layer), name.encode(), unhex(value))
        return "kept"

    def call(self, line, layer, number, given):
        if self.stand(int(layer)) != "runnable":
            return "refused 4 layer"
        if not self.is_sealed(layer):
            return "refused 8 code"
        key = None if number == "-" else self.device.key_of(int(layer), int(number))
        if number != "-" and (key is None or key.uses == USES):
            return "refused 6 key" if key is None else "refused 7 spent"
        try:
            answer, signed = self.device.call(int(layer), key and key.number, unhex(given))
        except applications.NoAnswer:
            return "refused 9 run"
        if signed is None:
            return f"called {answer.hex() or '-'}"
        return self.told_statement(number, signed)

    def get(self, line, layer, name):
        if self.stand(int(layer)) != "runnable":
            return "refused 4 layer"
        if self.is_sealed(layer):
            return "refused 8 code"
        secrets = {known: value for known, value, _ in self.device.regions[int(layer)]["secrets"]}
        return f"value {secrets[name.encode()].hex()}"

    def sign(self, line, layer, number, message):
        if self.is_sealed(layer):
            return "refused 8 code"
        signed = self.device.sign(int(layer), int(number), unhex(message))
        return "refused 6 key" if signed is None else self.told_statement(number, signed)

    def told_statement(self, number, signed):
        index, statement = signed
        self.world.statement = statement.hex().encode()
        return f"signed {number} {index} {statement.hex()}"

    def status(self, line):
        device = self.device
        stands = " ".join(map(self.stand, (1, 2, 3)))
        return f"status {device.serial.hex()} {device.number} {len(device.log)} {stands}"

    def stand(self, n):
        layers = self.device.layers
        if layers[n]["reliable"]:
            return "runnable" if all(layers[m]["reliable"] for m in range(1, n)) else "reliable"
        return "unreliable" if layers[n]["owner"] else "unowned"


# ---- the sources


def follow(source, world, step):
    kind, *words = step
    if kind == "Step::Writes":
        world.writes(*words)
    elif kind == "Step::Gives":
        ((_, name, content),) = words
        world.gives(name, content)
    elif kind == "Step::IsOrder":
        source.compare(f"order {words[0]}", sha256(order(*world.orders[words[0]])).hex(), words[1])
    elif kind == "Step::KeepsStatement":
        world.files[words[0]] = world.statement
    elif kind == "Step::HasHash":
        source.compare(f"hash of {words[0]}", sha256(world.content(words[0])).hex(), words[1])
    elif kind == "Step::Holds":
        source.compare(f"file {words[0]}", world.content(words[0]).hex(), words[1])
    elif kind == "Step::IsMissing":
        source.compare(f"file {words[0]}", world.content(words[0]), None)
    elif kind == "Step::Ends":
        compare_end(source, world, *words)
    elif kind == "Step::Serves":
        script, noise, lines = words
        world.writes("script", script)
        compare_end(source, world, f"run image script {noise}", 0, lines)


def compare_end(source, world, words, status, lines):
    found, printed = world.answer(words.split(" "))
    if printed is not None:
        right = (found, fits(printed, lines)) == (status, True)
        source.compare(words, (status, lines) if right else (found, printed), (status, lines))


def compare_short(source, world, words, name, status, told, offsets):
    """The file ends at each of the offsets, for the commands on chains and registers."""
    if words.split(" ")[0] not in COMMANDS or name not in world.files:
        return
    whole, (kind, line) = world.files[name], told
    for offset in offsets:
        world.files[name] = whole[:offset]
        compare_end(source, world, words, status, f"{line} {offset}\n" if kind == "Told::Offset" else line)
    world.files[name] = whole


def born(source, first=LAYERS_OWNED):
    """The world in which tests begin: keys, orders, and a device to which the first tables of births have led."""
    births = Source(source.root, BIRTHS)
    constants = {name: births.constant(name) for name in ("MAKER", "OWNER", "SERIAL", "IMAGE")}
    files = {"noise": b"\7" * 4_096}
    for name, kind, word in births.rows(r'name: "(\w+)",\s*content: Content::(Hex|Text)\(\s*"([^"]*)",?\s*\)'):
        files[name] = bytes.fromhex(word) if kind == "Hex" else unescaped(word).encode()
    world, steps = World(files), tables(births, constants)
    for name in first:
        for step in steps[name]:
            follow(births, world, step)
    return world


def compare_turned(source, world):
    """Each entry's bytes with a bit flipped, and what is refused then."""
    row = r"Turned {\s*entry: (\d+),\s*unsigned: &\[([\d_,\s]*)\],\s*formless: &\[([\d_,()\s]*)\],\s*}"
    for entry, unsigned, formless in source.rows(row):
        numbers = [int(word.replace("_", "")) for word in re.findall(r"[\d_]+", formless)]
        wanted = {at: f"refused 20 {told}\n" for at, told in zip(numbers[::2], numbers[1::2])}
        wanted |= {int(word.replace("_", "")): f"refused 21 {entry}\n" for word in re.findall(r"[\d_]+", unsigned)}
        for at, line in wanted.items():
            chain = world.files["chain"]
            world.files["turned"] = chain[:at] + bytes([chain[at] ^ 1]) + chain[at + 1 :]
            compare_end(source, world, "verify public0 turned 1", 7, line)


def fleet_tests(source):
    """The tables that lead devices before registers, and the plays in which no call of the host fails."""
    source.text, plays = source.text.split("/// A maker's key, a register of two devices")
    chains_tests(source, tests=plays)
    source.text = plays
    register_plays(source, registers_given(source), ("REGISTER", "ANSWERS"))


def registers_given(source):
    """The files of the plays on registers."""
    files = {"long": b"\7" * 4_194_305, "nothing": b""}
    for name, content in source.rows(r'name: "(\w+)",\s*content: Content::Hex\(\s*("[^"]*"|[A-Z_]+),?\s*\)'):
        word = source.argument(content)
        source.seen.add(word)
        files[name] = bytes.fromhex(word)
    return files


def register_plays(source, files, constants):
    """The play on inputs, and the registers and items that end early."""
    ((table,),) = source.rows(r"const INPUTS: .*?steps: &\[(.*?)\],\s*}\];")
    for name in constants:
        value = source.owner(name).constant(name).replace("\\n", "\n")
        table = re.sub(rf"\b{name}\b", lambda _, value=value: repr(value).replace("'", '"'), table)
    world = World(files)
    for step in values(table):
        follow(source, world, step)
    listed = r"const REGISTER_FIELDS: &\[usize\] = (&\[.*?\]);"
    fields = re.search(listed, source.owner("REGISTER_FIELDS").text, re.DOTALL)[1]
    source.text = source.text.replace("offsets: REGISTER_FIELDS", f"offsets: {fields}")
    for _, *short in tables(source, {})["SHORT"]:
        compare_short(source, world, *short)


def enrolments_tests(source):
    """The tables that lead devices before registers one by one, and the plays in which no call of the host fails."""
    steps, start = tables(Source(source.root, LIFE), {}) | tables(source, {}), born(source)
    rows = (u32(0) * 3 + u32(at) + bytes(8) + b"\1" + b"\7" * 32 for at in range(fleet.DEVICES))
    start.files["full"] = b"MBF1" + u16(fleet.DEVICES) + b"".join(rows)
    for names in ("A_NEW_DEVICE", "A_WHOLE_LIFE", "EXTENDED_AND_OLDER"), ("ANOTHER_DEVICE", "A_COPY_IS_CAUGHT"), ("NO_ROOM",):
        world = copy.deepcopy(start)
        for name in names:
            for step in steps[name]:
                follow(source, world, step)
    register_plays(source, registers_given(Source(source.root, FLEET)), ("REGISTER", "SHOWN"))


def shared_life(source):
    """The life that the plays share, its chain, and what that lists."""
    world = born(source)
    for steps in tables(source, {}).values():
        for step in steps:
            follow(source, world, step)


def chains_tests(source, tests=None):
    """The tables in the order of the tests, each test over a world of its own."""
    begins = A_NEW_DEVICE if "new_device_goes_through" in source.text else LAYERS_OWNED
    steps, start = tables(Source(source.root, LIFE), {}) | tables(source, {}), born(source, begins)
    lists = dict(re.findall(r"const (\w+): &\[&\[Step\]\] = &\[([\w\s,]*)\]", source.text))
    for test in (tests or source.text).split("#[test]")[1:]:
        world = copy.deepcopy(start)
        for word in re.findall(r"[A-Z_]{3,}|entries_are_turned", test[: test.index("\n}")]):
            if word == "entries_are_turned":
                compare_turned(source, world)
            for name in re.findall(r"\w+", lists.get(word, word)):
                for step in steps.get(name, ()):
                    follow(source, world, step)


def short_inputs(source):
    """Chains, the keys and the policies that they are judged by, which end where their fields and words begin."""
    world, steps = born(source), tables(source, {})
    life = tables(Source(source.root, LIFE), {}) | tables(Source(source.root, FAILURES), {})
    for name in ("A_NEW_DEVICE", "A_WHOLE_LIFE", "FILES_ARE_MADE", "TOOLS_ARE_MADE"):
        for step in life[name]:
            follow(source, world, step)
    for _, *short in [*steps["DEVICES_ARE_SHORT"], *steps["TOOLS_ARE_SHORT"]]:
        compare_short(source, world, *short)


def last_entries(source):
    """A log of the most entries, and what is wrong with the last."""
    world, steps = born(source, A_NEW_DEVICE), tables(source, {})
    for name in ("THE_LOG_IS_FULL", "ITS_END_IS_WRONG", "ITS_END_IS_FORGED"):
        for step in steps[name]:
            follow(source, world, step)
    for _, *short in steps["SHORT_ENDS"]:
        compare_short(source, world, *short)


def chain_versions(source):
    """The keys and the entries of a chain, each entry in both versions, and what chains of these are refused for."""
    world = born(source, A_NEW_DEVICE)
    (old,), new = world.old.values(), world.devices["fresh"]
    old.version = 1
    for draft in ("draft1", "draft2", "draft3"):
        for device in (old, new):
            device.obey(world.files[draft].decode(), bytes(32))
    maker = private_key(world.files["maker"][4:20], world.files["maker"][20:52])
    source.compare("ROOT", maker.public().hex(), source.constant("ROOT"))
    for name, key in ("MAKER", world.files["maker"][4:52]), ("DEVICE", new.key.spelled()):
        ((identifier, seed),) = source.rows(rf"const {name}: [^=]*= \(\s*{HEX},\s*{HEX},?\s*\);")
        source.compare(name, key.hex(), identifier + seed)
    entries = source.rows(rf"\[\s*{HEX},\s*{HEX},?\s*\]")
    source.compare("entries", [(one.hex(), two.hex()) for (one, _), (two, _) in zip(old.log, new.log)], entries)

    def signed(at, text):
        key = new.key.key if at else maker
        return text, key.sign(max(at, 1) - 1, u8(3) + text)

    reasons = {"KeyUnknown": "refused 24", "Rules": "refused 23 "}
    for *versions, why, entry in source.rows(
        r"\(\[(\d), (\d), (\d), (\d)\], ChainRefusal::(\w+)(?: { entry: (\d+) })?\)"
    ):
        log = [signed(at, (old, new)[int(version) - 1].log[at][0]) for at, version in enumerate(versions)]
        bytes_ = b"MBC1" + u16(len(log)) + b"".join(text + signature for text, signature in log) + u8(0)
        found = chains.answer(["verify", "root", "chain", "9"], {"root": maker.public(), "chain": bytes_}.get)
        source.compare(f"a chain of versions {versions}", found[1], f"{reasons[why]}{entry or ''}\n")


def policies_tests(source):
    """The policies that are judged for the key of the life that the plays share, and the other ends after them."""
    life = Source(source.root, LIFE)
    world, steps = born(source), tables(life, {})
    for name in ("A_NEW_DEVICE", "A_WHOLE_LIFE"):
        for step in steps[name]:
            follow(life, world, step)
    table = source.text[source.text.index("const JUDGED") : source.text.index("const OTHER_ENDS")]
    for policy, status, lines in re.findall(r'\(\s*"([^"]*)",\s*(\d),\s*"([^"]*)",?\s*\)', table):
        world.files["policy"] = unescaped(policy).encode()
        source.seen.add(policy)
        compare_end(source, world, "trust public0 chain 1 policy", int(status), unescaped(lines))
    for step in tables(source, {})["OTHER_ENDS"]:
        follow(source, world, step)


def sample_signatures(source):
    """The key, the text and the signature of each entry of the first chain of the tests, and of its statement."""
    world, steps = born(source), tables(Source(source.root, LIFE), {}) | tables(source, {})
    for name in ("A_NEW_DEVICE", "A_WHOLE_LIFE", "A_STATEMENT_IS_ATTACHED"):
        for step in steps[name]:
            follow(source, world, step)
    yield from chains.signatures(world.files["public0"], world.files["chain"])
    yield chains.statement_signature(world.files["attached"], 1)
