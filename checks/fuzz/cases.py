"""Cases: the words of a command, with the files that it is given."""

import dataclasses
import random

import applications
import chains
import commands
import images
import keys
import machine
import orders
import random_calls
import sketches
import spoil
import texts
from chains import LONGEST_FILE, NEW_KEY, Reader, Unformed
from lms import u8, u16, u32
from pool import DRAWS, NOISES
from tools import Tools, runs

KIND_WORDS = {1: "establish", 2: "surrender", 3: "load", 4: "emergency", 5: "newkey"}
MESSAGES = b"", b"a", b"hello", b"m" * 127, b"m" * 128
OUTPUTS = "out", "key", "public", "image", "script", "noise", "register"
NUMBERS = "01", "-1", "+1", "1 ", "4294967296", "4294967295", "0", "1", "4", "25", "x", "2.0"
# how often each command is tried
SHARES = {
    "run": 44,
    "rehearse": 12,
    "showimage": 6,
    "history": 12,
    "cutat": 12,
    "verify": 14,
    "audit": 8,
    "chain": 5,
    "attach": 7,
    "factory": 5,
    "keygen": 2,
    "sign": 7,
    "countersign": 7,
    "cosign": 7,
    "showorder": 5,
    "ordered": 7,
    "showkey": 2,
    "migrate": 7,
    "generate": 2,
    "hsskeygen": 2,
    "showmaker": 2,
    "endorse": 5,
    "endorsed": 8,
    "trust": 9,
    "fleet": 8,
    "register": 1,
    "enrol": 6,
    "devices": 3,
    "app": 10,
    "appcode": 5,
    "callcode": 6,
    "asm": 5,
    "disasm": 5,
    "showcode": 6,
}


@dataclasses.dataclass
class Case:
    """A command with its words, and the files and folders that are there. `limit` is the longest file that can be
    written, and `is_full` says that nothing can be printed."""

    words: list
    files: dict
    folders: set = dataclasses.field(default_factory=set)
    limit: int | None = None
    is_full: bool = False

    @property
    def command(self):
        return self.words[0] if self.words and self.words[0] in SHARES else "words"


def chance(rng, share):
    return rng.random() < share


def hexadecimal(bytes_):
    return bytes_.hex().encode() or b"-"


class Maker(Tools):
    """Makes the case of a number. The same seed and number make the same case."""

    def __init__(self, pool, seed):
        self.pool, self.seed, self.rng = pool, seed, None
        # the line of the last order in a script
        self.last = None

    def case(self, number):
        self.rng = rng = random.Random(f"{self.seed} {number}")
        command = rng.choices(list(SHARES), list(SHARES.values()))[0]
        words, files = getattr(self, command)()
        case = Case([command, *words], files)
        self.disturb(case)
        return case

    # ---- what may be wrong with any command

    def disturb(self, case):
        rng, how = self.rng, self.rng.random()
        if how < 0.02:
            self.spoil_words(case)
        elif how < 0.03:
            self.lack_input(case)
        elif how < 0.05:
            self.fail_output(case)
        elif how < 0.07:
            case.limit = rng.choice((0, 1, 55, 56, 100, 4_000, 1_000_000))
        elif how < 0.078:
            case.is_full = True
        elif how < 0.083:
            self.lengthen(case)
        elif how < 0.093:
            self.join_names(case)

    def spoil_words(self, case):
        rng, words = self.rng, case.words
        how, at = rng.randrange(8), rng.randrange(len(words))
        numbers = [at for at, word in enumerate(words) if at and word not in case.files and word.isdigit()]
        if how == 0:
            words.pop(at)
        elif how == 1:
            words.insert(at, words[at])
        elif how == 2:
            words[at] = ""
        elif how == 3:
            words[0] = rng.choice((words[0].upper(), words[0][:-1], words[0] + "s", "", "--help", "jump", "cut"))
        elif how == 4:
            # no text
            words[at] += "\udcff"
        elif how == 5 or not numbers:
            words[:] = rng.choice(([], words[:1], [*words, "more"], ["--help", "run"], ["--version", ""]))
        else:
            at = rng.choice(numbers)
            words[at] = rng.choice(NUMBERS)

    def lack_input(self, case):
        if case.files:
            name = self.rng.choice(sorted(case.files))
            case.files.pop(name)
            if chance(self.rng, 0.3):
                case.folders.add(name)

    def outputs(self, case):
        return [at for at, word in enumerate(case.words) if at and word in OUTPUTS]

    def fail_output(self, case):
        """An output that is not among the inputs cannot be written."""
        outputs = [at for at in self.outputs(case) if case.words[at] not in case.files]
        if outputs:
            at = self.rng.choice(outputs)
            if chance(self.rng, 0.5):
                case.words[at] = "missing/" + case.words[at]
            else:
                case.folders.add(case.words[at])

    def lengthen(self, case):
        """An input of the greatest length, or of one more."""
        if case.files:
            name = self.rng.choice(sorted(case.files))
            case.files[name] = case.files[name].ljust(LONGEST_FILE + self.rng.randrange(2), b"\n")

    def join_names(self, case):
        """One name is given for two files."""
        names = [at for at, word in enumerate(case.words) if at and not word.isdigit()]
        if len(names) > 1:
            one, other = self.rng.sample(names, 2)
            case.words[one] = case.words[other]

    # ---- devices

    def life(self, fits=None):
        """A life, which fits in most cases: at its end some layer 2 runs, or a key of a region was made."""
        lives = [life for life in self.pool.lives if fits(life)] if fits and chance(self.rng, 0.85) else self.pool.lives
        return self.pool.full if chance(self.rng, 0.006) else self.rng.choice(lives)

    def sketch(self, life=None, is_old=False):
        """The parts of an image of a life, and the life."""
        rng, life = self.rng, life or self.life()
        at = len(life.states) - 1 if chance(rng, 0.4) else rng.randrange(len(life.states))
        state = sketches.dressed(rng, life.states[at]) if chance(rng, 0.4) else life.states[at]
        if at > 0 and chance(rng, 0.25):
            before, (order, draw) = life.states[at - 1], life.steps[at - 1]
            before = sketches.dressed(rng, before) if chance(rng, 0.4) else before
            sketch = sketches.Sketch(rng, machine.Obeying(before, order, draw).done(), is_old)
            sketch.leave(before, order)
        else:
            sketch = sketches.Sketch(rng, state, is_old)
        if chance(rng, 0.3):
            sketch.litter()
        return sketch, life

    def image(self, spoils, life=None, is_old=False):
        """An image, which is spoilt in this share of cases; a dead one is rare."""
        sketch, life = self.sketch(life, is_old)
        if chance(self.rng, spoils):
            sketch.spoil()
        elif chance(self.rng, 0.03):
            sketch.patches.append((images.FLASH, bytes(images.BBRAM)))
        return sketch.image(), life

    # ---- run

    def run(self):
        rng = self.rng
        image, _ = self.image(0.2, self.life(runs_two), chance(rng, 0.01))
        try:
            world = machine.World(images.meaning(image), images.is_clean(image))
        except images.Fault:
            world = machine.World(None)
        script, noise = self.script(world)
        if chance(rng, 0.15):
            script = spoil.spoilt_text(rng, script)
        elif chance(rng, 0.05):
            script = b"# a remark\n\n" + script.rstrip(b"\n")
        if noise and chance(rng, 0.03):
            noise = noise[: rng.choice((-1, -32, 0))]
        elif chance(rng, 0.2):
            noise += rng.randbytes(rng.choice((1, 31, 32)))
        return ["image", "script", "noise"], {"image": image, "script": script, "noise": noise}

    def cutat(self):
        """In most cases the event that is cut writes, and it is stopped in one of its first writes."""
        rng = self.rng
        words, files = self.run()
        lines = files["script"].split(b"\n")
        if chance(rng, 0.9):
            lines = [line for line in lines if not line.startswith(b"cut ")]
        writes = b"command ", b"put ", b"drop ", b"sign ", b"call "
        writing = [at for at, line in enumerate(lines, 1) if line.startswith(writes)]
        if writing and chance(rng, 0.7):
            lines = lines[: rng.choice(writing)]
        files["script"] = b"\n".join(lines)
        count = rng.choice((*range(1, 25), 1, 2, 3, 65, 100_000))
        fill = rng.choice(("00", "ff", "7e", "01", "A5" * 16))
        if chance(rng, 0.06):
            count = rng.choice(("0", "100001", "01", "x"))
        elif chance(rng, 0.06):
            fill = rng.choice(("-", "0", "0g", "00" * 17, "+1", "0x", "\uff10\uff10"))
        return [*words, str(count), fill], files

    def script(self, world):
        """A script whose events mostly fit the device as it then is, and its noise."""
        rng, lines, noise, self.last = self.rng, [], b"", None
        first = [b"boot"] if chance(rng, 0.95) else []
        for _ in range(rng.choice((0, 1, 2, 3, 4, 5, 6, 8, 10, 12))):
            line = first.pop() if first else self.event(world)
            lines.append(line)
            try:
                event = texts.read_event(line)
            except texts.Wrong:
                continue
            if event.word == "command":
                draw = rng.choice(DRAWS)
                noise += draw
                event = dataclasses.replace(event, bytes=(event.bytes, draw))
            _, _, world = machine.answered(world, event)
            if world.state is None and chance(rng, 0.4):
                break
        if chance(rng, 0.01):
            # a key that signs until it is spent, or a region that is filled
            lines += [b"boot"] + [rng.choice((b"sign 3 1 -", b"sign 2 1 61", b"put 2 n%d -" % at)) for at in range(40)]
        return b"".join(line + b"\n" for line in lines), noise

    def event(self, world):
        rng, level = self.rng, world.level
        if world.phase != machine.ON and chance(rng, 0.75):
            return b"boot"
        kinds = ["command"] * (10 if level == 1 else 2) + ["put", "put", "get", "drop", "sign", "sign", "go", "go"]
        kinds += ["status", "cut", "cut", "off"]
        running = [m for m in (2, 3) if m >= level and world.state and runs(world.state, m)]
        kinds += ["call"] * (8 if any(takes_calls(world.state, m) for m in running) else chance(rng, 0.3))
        kinds += [kind for kind, share in (("boot", 0.3), ("tamper", 0.15)) if chance(rng, share)]
        kind = rng.choice(kinds)
        if kind == "command":
            return self.command_line(world)
        if kind == "cut":
            count = rng.choice((1, 1, 2, 3, *range(2, 22), 40, 100_000))
            keep = b" keep %d" % rng.choice((0, 1, 40, 4_096, 1_048_576)) if chance(rng, 0.3) else b""
            return b"cut %d%b fill %b" % (count, keep, rng.choice((b"00", b"ff", b"7e", b"01", b"A5" * 16)))
        if kind in ("put", "get", "drop", "sign", "call"):
            return self.region_line(world, kind)
        return kind.encode()

    def region_line(self, world, kind):
        rng, layer = self.rng, self.rng.choice((2, 3))
        if world.state and chance(rng, 0.8):
            running = [m for m in (2, 3) if m >= world.level and runs(world.state, m)]
            fitting = [m for m in running if takes_calls(world.state, m) == (kind == "call")]
            layer = rng.choice(fitting if fitting and chance(rng, 0.8) else running or [layer])
        region = world.state.region(layer) if world.state else images.Region()
        names = [name for name, _, _ in region.secrets] + [rng.choice(sketches.NAMES)]
        name = rng.choice(sketches.NAMES if kind == "put" and chance(rng, 0.7) else names)
        number = rng.choice([key.number for key in region.keys] * 4 + [0, 1, 2**32 - 1])
        if kind == "call":
            key = b"-" if chance(rng, 0.6) else b"%d" % number
            return b"call %d %b %b" % (layer, key, hexadecimal(random_calls.some_input(rng)))
        if kind == "sign":
            return b"sign %d %d %b" % (layer, number, hexadecimal(rng.choice(MESSAGES)))
        if kind == "put":
            value = rng.randbytes(rng.choice((0, 1, 4, 127, 128)))
            return b"put %d %b %b" % (layer, name, hexadecimal(value))
        return b"%b %d %b" % (kind.encode(), layer, name)

    def command_line(self, world):
        """An order that is right, or wrong in one way or two, or the last one again."""
        rng = self.rng
        if world.state is None:
            return b"command " + hexadecimal(rng.randbytes(rng.choice((0, 3, 40))))
        if self.last and chance(rng, 0.06):
            return self.last
        bytes_ = self.order_bytes(world.state)
        self.last = b"command " + hexadecimal(bytes_)
        return spoil.cased(rng, self.last).replace(b"COMMAND", b"command") if chance(rng, 0.02) else self.last

    def order_bytes(self, state):
        rng, how = self.rng, self.rng.random()
        if how < 0.5:
            return self.pool.order(rng, state, ()).spelled()
        if how < 0.75:
            twists = rng.sample((11, 12, 13, 14), rng.choice((1, 1, 1, 2)))
            return self.pool.order(rng, state, twists).spelled()
        order = self.pool.order(rng, state, rng.choice(((), (), (12,))))
        if how < 0.9:
            return self.signed_anew(state, order)
        return spoil.spoilt_record(rng, order.spelled(), read_whole_order)

    def signed_anew(self, state, order):
        """An order with a field of its body changed, and then signed again."""
        rng = self.rng
        body = spoil.spoilt_field(rng, order.body, spoil.fields_of(order.body, orders.read_body))
        try:
            turned = orders.read_order(body + bytes(3))
        except orders.NoOrder:
            return body + order.spelled()[len(order.body) :]
        return self.pool.signed(rng, state.judged, turned, ()).spelled()

    # ---- chains

    def chain_of(self, life):
        """The signed entries of a state of a life, with a statement or none, and the number of a key."""
        rng = self.rng
        state = life.states[-1] if chance(rng, 0.7) else rng.choice(life.states)
        entries = [(entry.text, signature) for entry, signature in state.log]
        numbers = [entry.key_number for entry, _ in state.log if entry.tag == NEW_KEY]
        number = rng.choice(numbers * 6 + [0, len(numbers), 2**32 - 1])
        statement = self.statement(life, state, number) if chance(rng, 0.6) else None
        return entries, statement, number

    def statement(self, life, state, number):
        """A statement of a key, in most cases by the key itself and of the last configuration."""
        rng = self.rng
        said, input_ = rng.choice(MESSAGES), rng.randbytes(32) if chance(rng, 0.4) else None
        held = [key for each in (*life.states, state) for key in (*each.two.keys, *each.three.keys)]
        seeds = [(key.identifier, key.seed) for key in held if key.number == number]
        by = seeds[-1] if seeds and chance(rng, 0.92) else (state.identifier, state.seed)
        stated = state.judged.number + (rng.choice((1, -1)) if chance(rng, 0.15) else 0)
        stated = max(stated, 0)
        named = number if chance(rng, 0.95) else number ^ 1
        serial = state.serial if chance(rng, 0.97) else bytes(16)
        signed = chains.Statement(stated, said, b"", input_)
        if chance(rng, 0.04):
            # of the other kind, with the bytes of this one
            signed = chains.Statement(stated, said if input_ is None else input_ + said, b"", bytes(32) if input_ is None else None)
        signature = keys.signed(*by, rng.randrange(32), chains.stated_text(serial, named, signed))
        return chains.Statement(stated, said, signature, input_)

    def forged(self, entries, maker):
        """Entries that are changed, exchanged, repeated or left out, each then signed where it stands."""
        rng, texts_ = self.rng, [text for text, _ in entries]
        how, at = rng.randrange(8), rng.randrange(len(texts_))
        at = rng.choice((at, len(texts_) - 1))
        if how < 5:
            texts_[at] = spoil.spoilt_field(rng, texts_[at], spoil.fields_of(texts_[at], Reader.entry))
        elif how == 5:
            other = rng.randrange(len(texts_))
            texts_[at], texts_[other] = texts_[other], texts_[at]
        elif how == 6:
            texts_.insert(at, texts_[rng.randrange(len(texts_))])
        elif len(texts_) > 1:
            texts_.pop(at)
        if chance(rng, 0.5):
            texts_ = [with_position(text, position) for position, text in enumerate(texts_)]
        return self.signed_in_turn(texts_, maker, at)

    def signed_in_turn(self, texts_, maker, at):
        """The entries, each signed by the key in charge then; now and then one has another index."""
        rng, in_charge, used, signed = self.rng, self.pool.by_public[maker].seed, 0, []
        other = at if chance(rng, 0.15) else None
        for position, text in enumerate(texts_):
            index = used % 32 if position != other else rng.randrange(32)
            signed.append((text, keys.signed(*in_charge, index, u8(3) + text)))
            used = used + 1 if position else 0
            try:
                entry = Reader(text).whole(Reader.entry)
            except Unformed:
                continue
            if entry.key is not None and entry.tag != NEW_KEY:
                in_charge, used = self.pool.seed_of(entry.key) or in_charge, 0
        return signed

    def chain_bytes(self, life, spoils=1):
        """A chain, of which two thirds are forged or spoilt in this share of cases, and its key number."""
        rng, how = self.rng, self.rng.random() if chance(self.rng, spoils) else 0
        entries, statement, number = self.chain_of(life)
        if 0.35 < how < 0.65:
            entries = self.forged(entries, life.maker)
        elif 0.65 < how < 0.73:
            at = rng.randrange(len(entries))
            text, signature = entries[at]
            entries[at] = text, spoil.turned(rng, signature)
        bytes_ = spelled_chain(entries, statement)
        if how > 0.8:
            bytes_ = self.spoilt_chain(bytes_)
        return bytes_, number

    def spoilt_chain(self, bytes_):
        rng = self.rng
        if chance(rng, 0.8):
            return spoil.spoilt_record(rng, bytes_, Reader.chain)
        return spoil.spoilt_bytes(rng, bytes_)

    def public(self, key):
        rng, how = self.rng, self.rng.random()
        if how < 0.93:
            return key
        if how < 0.95:
            return rng.choice(self.pool.officers).public()
        return spoil.spoilt_record(rng, key, Reader.key)

    def verify(self):
        life = self.life(has_keys)
        chain, number = self.chain_bytes(life)
        return ["root", "chain", str(number)], {"root": self.public(life.maker), "chain": chain}

    def audit(self):
        image, life = self.image(0.08, self.life(has_keys))
        if chance(self.rng, 0.3):
            others = [each for each in self.pool.lives if each.maker == life.maker and has_keys(each)]
            life = self.rng.choice(others or [life])
        chain, number = self.chain_bytes(life, 0.4)
        files = {"image": image, "root": self.public(life.maker), "chain": chain}
        return ["image", "root", "chain", str(number)], files

    def chain(self):
        image, _ = self.image(0.4, is_old=chance(self.rng, 0.03))
        return ["image", "out"], {"image": image}

    def attach(self):
        rng, life = self.rng, self.life(has_keys)
        entries, _, number = self.chain_of(life)
        state = rng.choice(life.states)
        stated = self.statement(life, state, number)
        has_statement = stated if chance(rng, 0.1) else None
        if chance(rng, 0.3):
            entries = self.forged(entries, life.maker)
        chain = spelled_chain(entries, has_statement)
        chain = self.spoilt_chain(chain) if chance(rng, 0.25) else chain
        line = stated.spelled()
        if chance(rng, 0.2):
            line = spoil.spoilt_record(rng, line, Reader.statement)
        line = hexadecimal(line) + rng.choice((b"\n", b"\n", b""))
        line = spoil.spoilt_text(rng, line) if chance(rng, 0.2) else line
        return ["chain", "statement", "out"], {"chain": chain, "statement": line}

    # ---- officers

    def key_file(self):
        rng = self.rng
        used = rng.choice((0, 1, 2, 15, 30, 31, 31, 32))
        file = commands.key_file(*keys.officers(rng.choice(NOISES)), used)
        return spoil.spoilt_record(rng, file, commands.read_key_file) if chance(rng, 0.08) else file

    def keygen(self):
        rng = self.rng
        noise = rng.choice(NOISES) + rng.randbytes(rng.choice((0, 0, 1, 16)))
        noise = noise[: rng.choice((0, 31, 31, 1))] if chance(rng, 0.2) else noise
        return ["noise", "key", "public"], {"noise": noise}

    def factory(self):
        rng = self.rng
        noise = rng.choice(DRAWS) + rng.choice(self.pool.lives).states[0].serial
        noise += rng.randbytes(rng.choice((0, 0, 9)))
        noise = noise[: rng.choice((0, 32, 47, 47))] if chance(rng, 0.08) else noise
        length = rng.choice((0, 1, 100, 4_096, 4_097, 32_767, 32_768, 32_769))
        files = {"noise": noise, "key": self.key_file(), "code": rng.randbytes(length)}
        owner = rng.choice(self.pool.officers).public()
        files["owner"] = spoil.spoilt_record(rng, owner, Reader.key) if chance(rng, 0.12) else owner
        return ["noise", "key", "owner", "code", "image"], files

    def draft_of(self, order):
        """The draft of an order."""
        rng, trust = self.rng, ("always", "never", "countersigned")
        lines = [f"order {KIND_WORDS[order.kind]} {order.layer}"]
        if order.kind == orders.NEW_KEY:
            lines[0] += (" epoch", " configuration")[order.key_kind]
        for tag, layer, value in order.targets:
            told = {1: "serial", 2: "length", 3: f"owner {layer}", 4: f"code {layer}"}[tag]
            lines.append(f"target {told} {value if tag == 2 else value.hex()}")
        if order.trusts:
            one, two = (trust[each] for each in order.trusts)
            trusts = f"trust {one}" if one == two and chance(rng, 0.8) else f"trust {one} {two}"
            if order.owner:
                lines += [f"owner {order.owner.hex()}", trusts]
            else:
                lines += [f"version {order.version}", trusts, f"code {order.code.hex() or '-'}"]
        return "".join(line + "\n" for line in lines).encode()

    def some_order(self, *twists):
        life = self.life()
        return self.pool.order(self.rng, self.rng.choice(life.states), twists)

    def sign(self):
        rng = self.rng
        draft = self.draft_of(self.some_order(*rng.choice(((), (11,), (12,)))))
        for _ in range(rng.choice((0, 0, 1, 1, 2))):
            draft = spoil.spoilt_text(rng, draft)
        return ["key", "draft", "out"], {"key": self.key_file(), "draft": draft}

    def some_load(self):
        """An order, mostly a load, and mostly without its countersignatures."""
        order = self.some_order()
        for _ in range(3):
            order = order if order.is_load else self.some_order()
        beside = () if chance(self.rng, 0.6) else order.countersignatures
        return dataclasses.replace(order, countersignatures=beside)

    def line_of(self, order):
        """The line of an order, now and then spoilt."""
        rng, bytes_ = self.rng, order.spelled()
        if chance(rng, 0.2):
            bytes_ = spoil.spoilt_record(rng, bytes_, read_whole_order)
        line = b"command " + hexadecimal(bytes_) + rng.choice((b"\n", b"\n", b""))
        return spoil.spoilt_text(rng, line) if chance(rng, 0.12) else line

    def cosigner(self):
        rng = self.rng
        return str(rng.choice((2, 3, 3, 3)) if chance(rng, 0.95) else rng.choice(("1", "4", "0", "02")))

    def countersign(self):
        files = {"key": self.key_file(), "order": self.line_of(self.some_load())}
        return ["key", self.cosigner(), "order", "out"], files

    def cosign(self):
        rng, order = self.rng, self.some_load()
        draft = self.draft_of(order if chance(rng, 0.8) else self.some_load())
        for _ in range(rng.choice((0, 0, 0, 1, 1, 2))):
            draft = spoil.spoilt_text(rng, draft)
        files = {"key": self.key_file(), "order": self.line_of(order), "draft": draft}
        return ["key", self.cosigner(), "order", "draft", "out"], files

    def showorder(self):
        return ["order"], {"order": self.line_of(self.some_order(*self.rng.choice(((), (11,), (12,), (13,), (14,)))))}

    def ordered(self):
        """An order for a device, and the key of one of its owners."""
        rng, life = self.rng, self.life()
        state = rng.choice(life.states)
        order = self.pool.order(rng, state, rng.choice(((), (), (12,), (13,), (14,))))
        owners = [layer.owner for layer in state.judged.layers if layer.owner]
        return ["public", "order"], {"public": self.public(rng.choice(owners)), "order": self.line_of(order)}

    def showkey(self):
        return ["key"], {"key": self.key_file()}

    # ---- the rest

    def migrate(self):
        image, _ = self.image(0.35, is_old=chance(self.rng, 0.5))
        return ["image", "out"], {"image": image}

    def generate(self):
        rng = self.rng
        words, outputs = [str(rng.choice((1, 2**32 - 1))), str(rng.choice((1, 1, 2)))], ["image", "script", "noise"]
        if chance(rng, 0.4):
            words[rng.randrange(2)] = rng.choice(("0", "25", "24x", "4294967296", "01", "-1", ""))
        if chance(rng, 0.3):
            at = rng.randrange(3)
            outputs[at] = "missing/" + outputs[at]
        return [*words, *outputs], {}


def runs_two(life):
    return runs(life.states[-1], 2)


def takes_calls(state, layer):
    return applications.takes_calls(state.codes[layer - 1])


def has_keys(life):
    return any(entry.tag == NEW_KEY for entry, _ in life.states[-1].log)


def read_whole_order(reader):
    """The fields of a whole order."""
    fields = orders.read_body(reader)
    reader.take(reader.number(2, 0, orders.SIGNATURE))
    orders.read_countersignatures(reader, fields["kind"], fields["layer"])


def with_position(text, position):
    """An entry with another position, if it has one."""
    return text[:1] + u32(position) + text[5:] if text[:1] in (b"\1", b"\2", b"\3", b"\x11") else text


def spelled_chain(entries, statement=None):
    end = u8(0) if statement is None else u8(1) + statement.spelled()
    return b"MBC1" + u16(len(entries)) + b"".join(text + signature for text, signature in entries) + end
