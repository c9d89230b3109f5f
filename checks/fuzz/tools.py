"""Cases of the commands on makers' keys, policies, the code of applications, and registers, and of those that show what
images and chains say."""

import applications
import chains
import commands
import fleet
import hss
import keys
import machine
import random_calls
import sketches
import spoil
from chains import EMERGENCY, LOAD, Reader
from lms import sha256, u8, u16, u32
from orders import read_order
from pool import DRAWS, NOISES, with_differing

# the makers' seeds, and numbers of endorsements that are tried
SEEDS = [hss.seed_of(noise) for noise in NOISES[:3]]
NUMBERS = 0, 1, 30, 31, 32, 33, 1_023, 1_024
POLICY_NAMES = b"a", b"known", b"rule", b"default", b"n" * 32, b"~", b"set", b"-"
LABELS = b"a", b"end", b"loop", b"halt", b"~", b"l" * 32
STEPS = 1, 2, 3, 7, 20, 100, 1_000, 1_000, 12_288, 20_000
# codes that go on until there are too many values, places or bytes, or until the steps are done
LOOPS = [bytes.fromhex(code) for code in ("0100000007200000", "220000", "010000004142200000", "200000")]
MOST_CODE = commands.LONGEST_CODE


def read_endorsement(reader):
    """The fields of an HSS signature, by the types that stand in it."""
    for level in range(reader.number(4), -1, -1):
        reader.take(4)
        at = reader.at
        kind = reader.number(4)
        reader.take(32)
        reader.take(32 * hss.lms.Chains(kind).count if kind in hss.lms.WIDTHS else 1)
        tree = reader.number(4)
        reader.take(32 * hss.lms.HEIGHTS.get(tree, 1))
        if level:
            reader.key()
        if reader.at == at:
            return


class Tools:
    """The part of the maker of cases that serves these commands."""

    # ---- makers' keys

    def makers_file(self):
        rng = self.rng
        levels = rng.choice((1, 1, 1, 2, 2, 2, 3, 8 if rng.random() < 0.1 else 2))
        most = 32**levels
        number = rng.choice([each for each in NUMBERS if each < most] + [most - 1, most, most])
        return hss.Maker(rng.choice(SEEDS), levels), number

    def root(self):
        rng = self.rng
        key = rng.choice((rng.choice(self.pool.makers), rng.choice(self.pool.officers))).public()
        return spoil.spoilt_record(rng, key, Reader.key) if rng.random() < 0.08 else key

    def hsskeygen(self):
        rng = self.rng
        noise = rng.choice(NOISES) + rng.randbytes(rng.choice((0, 0, 1, 16)))
        noise = noise[: rng.choice((0, 31, 31, 1))] if rng.random() < 0.2 else noise
        levels = rng.choice(("0", "9", "01", "-1", "x")) if rng.random() < 0.1 else str(rng.randrange(1, 9))
        return ["noise", levels, "key", "public"], {"noise": noise}

    def makers_bytes(self):
        maker, number = self.makers_file()
        file = maker.file(number)
        return spoil.spoilt_record(self.rng, file, commands.read_maker) if self.rng.random() < 0.15 else file

    def showmaker(self):
        return ["key"], {"key": self.makers_bytes()}

    def endorse(self):
        return ["key", "root", "out"], {"key": self.makers_bytes(), "root": self.root()}

    def endorsed(self):
        rng, root = self.rng, self.root()
        public, endorsement = self.endorsement(root)
        how = rng.random()
        if how < 0.3:
            endorsement = spoil.spoilt_record(rng, endorsement, read_endorsement)
        elif how < 0.4:
            public = spoil.spoilt_record(rng, public, commands.read_maker_public)
        elif how < 0.5:
            root = self.root()
        return ["public", "root", "endorsement"], {"public": public, "root": root, "endorsement": endorsement}

    def endorsement(self, root):
        """An HSS public key, and a signature of the root key under it: a maker's, or one of keys of any types."""
        rng, text = self.rng, hss.HEAD + root
        if rng.random() < 0.5:
            maker, number = self.makers_file()
            number = min(number, 32**maker.levels - 1)
            return maker.public(), maker.sign(number, text)
        levels = [rng.choice(self.pool.officers) for _ in range(rng.choice((1, 2, 2, 3, 8)))]
        signature = u32(len(levels) - 1)
        for own, below in zip(levels, levels[1:]):
            signature += own.sign(rng, below.public()) + below.public()
        return u32(len(levels)) + levels[0].public(), signature + levels[-1].sign(rng, text)

    # ---- policies

    def trust(self):
        life = self.life(lambda each: any(entry.tag == chains.NEW_KEY for entry, _ in each.states[-1].log))
        chain, number = self.chain_bytes(life, 0.3)
        files = {"root": self.public(life.maker), "chain": chain, "policy": self.policy(life)}
        return ["root", "chain", str(number), "policy"], files

    def policy(self, life):
        """A policy with most of its lines in the grammar, with hashes of the life and others."""
        rng, lines, sets, rules = self.rng, [], [], []
        names = list(dict.fromkeys(rng.choice(POLICY_NAMES) for _ in range(5)))
        for name in names[: rng.randrange(3)]:
            lines.append(b" ".join([b"set", name, *self.hashes(life)]))
            sets.append(name)
        for name in rng.sample(names, rng.randrange(len(names) + 1)):
            if name not in rules and (name != b"default" or rng.random() < 0.1):
                rules.append(name)
                verb = rng.choice((b"allow", b"allow", b"deny"))
                lines.append(b" ".join([verb, name, *self.test(sets, rng.choice((0, 1, 2, 4)))]))
        if rng.random() < 0.05:
            lines += [b"deny r%d not alive" % at for at in range(rng.choice((250, 256 - len(lines), 260)))]
        if rng.random() < 0.05:
            lines.append(b" ".join([b"allow deep", *[b"not"] * rng.choice((30, 31, 32, 33)), b"alive"]))
        if rng.random() < 0.15:
            lines.insert(rng.randrange(len(lines) + 1), rng.choice((b"", b"# a remark")))
        text = b"".join(line + b"\n" for line in lines)
        for _ in range(rng.choice((0, 0, 0, 1, 2))):
            text = spoil.spoilt_text(rng, text)
        return text

    def hashes(self, life):
        rng, layers = self.rng, some_layers(self.rng, life)
        known = [layer.code for layer in layers if layer.code] + [sha256(layer.owner) for layer in layers if layer.owner]
        found = [rng.choice(known) for _ in range(rng.choice((1, 1, 2, 3, 64 if rng.random() < 0.1 else 4)))]
        if rng.random() < 0.2:
            found.append(rng.randbytes(32))
        if rng.random() < 0.3:
            # of answers and inputs that are known
            found.append(sha256(rng.choice((b"", b"a", b"hello"))))
        return [each.hex().encode() for each in found]

    def test(self, sets, depth):
        """The words of a test, nested at most `depth` deep."""
        rng = self.rng
        if depth and rng.random() < 0.6:
            word = rng.choice((b"and", b"or", b"not"))
            inner = [self.test(sets, depth - 1) for _ in range(1 if word == b"not" else 2)]
            return [word, *(each for words in inner for each in words)]
        layer, small = b"%d" % rng.randrange(1, 4), lambda: b"%d" % rng.choice((0, 1, 2, 3, 5, 2**32 - 1))
        forms = [[b"version", layer, small(), small()], [b"reliable", layer], [b"number", small(), small()]]
        trust = rng.choice((b"always", b"never", b"countersigned"))
        forms += [[b"trust", layer, b"%d" % rng.randrange(1, 3), trust], [b"first"], [b"last"], [b"alive"]]
        forms += [[b"kind", rng.choice((b"epoch", b"configuration"))], [b"statement"], [b"called"]]
        if sets:
            forms += [[rng.choice((b"input", b"answer")), rng.choice(sets)]]
            forms += [[rng.choice((b"owner", b"code")), layer, rng.choice(sets)]] * 3
        return rng.choice(forms)

    # ---- the code of applications

    def app(self):
        rng = self.rng
        state = self.coded()
        if rng.random() < 0.6:
            state = sketches.dressed(rng, state)
        sketch = sketches.Sketch(rng, state)
        if rng.random() < 0.05:
            sketch.spoil()
        elif rng.random() < 0.04:
            sketch.patches.append((commands.images.FLASH, bytes(commands.images.BBRAM)))
        layer, steps = str(rng.choice((2, 2, 3))), str(rng.choice(STEPS))
        if rng.random() < 0.04:
            layer, steps = rng.choice(("1", "4", "02", layer)), rng.choice(("0", "10000001", "03", steps))
        files = {"image": sketch.image(), "input": rng.randbytes(rng.choice((0, 1, 2, 8, 300)))}
        return ["image", layer, "input", steps], files

    def appcode(self):
        rng, steps, code = self.rng, str(self.rng.choice(STEPS)), self.code()
        if rng.random() < 0.05:
            code = code.ljust(rng.choice((MOST_CODE - 1, MOST_CODE, MOST_CODE + 1)), b"\0")
        if rng.random() < 0.04:
            steps = rng.choice(("0", "10000001", "03"))
        return ["code", "input", steps], {"code": code, "input": rng.randbytes(rng.choice((0, 1, 2, 8, 300)))}

    def callcode(self):
        rng, code = self.rng, random_calls.some_code(self.rng, 3)
        if rng.random() < 0.3:
            code = rng.choice((self.code(), applications.CALL_WORD + self.code(), spoil.spoilt_bytes(rng, code)))
        secrets = random_calls.some_secrets(rng).encode()
        if rng.random() < 0.2:
            secrets = spoil.spoilt_text(rng, secrets)
        files = {"code": code, "secrets": secrets, "input": random_calls.some_input(rng)}
        return ["code", "secrets", "input", "next"], files

    def coded(self):
        """A state in which, in most cases, layer 2 or 3 runs code of the machine."""
        rng, states = self.rng, self.life(lambda each: runs(each.states[-1], 2)).states
        state = states[-1] if rng.random() < 0.7 else rng.choice(states)
        for layer in rng.choice(((2,), (3,), (2, 3), (3, 2))):
            log = state.judged
            fitting = [kind for kind in (LOAD, EMERGENCY) if log.is_allowed(kind, layer)]
            if not fitting:
                continue
            kind, code, trusts = rng.choice(fitting), self.code(), bytes((rng.choice((0, 1)), rng.choice((0, 1))))
            text = u8(kind) + u8(layer) + u8(0) + u32(1) + trusts + u32(len(code)) + code
            order = self.pool.signed(rng, log, read_order(with_differing(text, kind) + bytes(3)), ())
            try:
                state = machine.obey(state, order, rng.choice(DRAWS))
            except machine.Refused:
                continue
        return state

    def code(self):
        """A code that is mostly whole, which mostly keeps the stack in its bounds, and often reads a secret."""
        rng, height, pieces = self.rng, 0, []
        if rng.random() < 0.12:
            return rng.choice(LOOPS)
        for _ in range(rng.choice((0, 1, 3, 8, 20, 40))):
            name = rng.choice(list(applications.VALUES))
            takes, leaves = applications.VALUES[name]
            while height < takes and rng.random() < 0.95:
                pieces.append(b"\1" + u32(self.value()))
                height += 1
            if name == "get" and rng.random() < 0.8:
                pieces += [b"\1" + u32(rng.choice((0, 0, 900, 1_020))), b"\1" + u32(rng.choice((2, 3, 3, 1)))]
                height += 2
            height = max(height - takes, 0) + leaves
            pieces.append(self.instruction(name, pieces))
        code = b"".join(pieces) + rng.choice((b"\0", b"\0", b"\0", b""))
        return spoil.spoilt_bytes(rng, code) if rng.random() < 0.12 else code

    def value(self):
        rng = self.rng
        return rng.choice((0, 0, 1, 2, 3, 65, 255, 256, 1_023, 1_024, 2**31, 2**32 - 1, rng.randrange(2**32)))

    def instruction(self, name, before):
        """An instruction; a jump goes to an offset where one begins, or to any other."""
        rng = self.rng
        byte, size = applications.BY_NAME[name.encode()]
        if size is None:
            secret = rng.choice(sketches.NAMES)
            return bytes([byte, len(secret)]) + secret
        if name in applications.JUMPS:
            whole = sum(map(len, before[: rng.randrange(len(before) + 1)]))
            return bytes([byte]) + u16(rng.choice((whole, whole, sum(map(len, before)) + 3, rng.randrange(65_536))))
        return bytes([byte]) + (u32(self.value()) if size else b"")

    def asm(self):
        rng, lines = self.rng, []
        try:
            lines = [line.encode() for line in applications.disassemble(self.code())]
        except applications.NoInstruction:
            pass
        for _ in range(rng.choice((0, 1, 2, 3))):
            label = rng.choice(LABELS)
            lines.insert(rng.randrange(len(lines) + 1), b"label " + label)
            for _ in range(rng.randrange(3)):
                word = rng.choice(applications.JUMPS).encode()
                lines.insert(rng.randrange(len(lines) + 1), word + b" " + label)
        if rng.random() < 0.04:
            lines = [b"push 7"] * 6_553 + [b"halt"] * rng.choice((2, 3, 4)) + lines[:2]
        text = b"".join(line + b"\n" for line in lines)
        for _ in range(rng.choice((0, 0, 0, 1, 2))):
            text = spoil.spoilt_text(rng, text)
        return ["text", "out"], {"text": text}

    def disasm(self):
        rng, code = self.rng, self.code()
        if rng.random() < 0.3:
            code = spoil.spoilt_bytes(rng, code)
        if rng.random() < 0.05:
            code = code.ljust(rng.choice((MOST_CODE - 1, MOST_CODE, MOST_CODE + 1)), b"\0")
        return ["code", "out"], {"code": code}

    def showcode(self):
        return ["code"], self.disasm()[1]

    # ---- registers

    def fleet(self):
        rng, life = self.rng, self.life()
        near = self.near(life)
        shown = [rng.choice(near) for _ in range(rng.choice((0, 1, 1, 2, 3)))]
        register = self.register_near(near)
        items = b"".join(self.item(each) for each in shown) + b"".join(self.question(life) for _ in range(rng.randrange(3)))
        if rng.random() < 0.12:
            items = spoil.spoilt_record(rng, items, fleet.items_at)
        return ["root", "register", "items"], {"root": self.public(life.maker), "register": register, "items": items}

    def register(self):
        return ["out"], {}

    def enrol(self):
        rng, life = self.rng, self.life()
        near = self.near(life)
        files = {"root": self.public(life.maker), "register": self.register_near(near)}
        return ["root", "register", "chain"], files | {"chain": self.chain_bytes(rng.choice(near), 0.25)[0]}

    def devices(self):
        return ["register"], {"register": self.register_near(self.near(self.life()))}

    def near(self, life):
        """The lives under the maker of this one."""
        return [each for each in self.pool.lives if each.maker == life.maker]

    def register_near(self, lives):
        """The bytes of a register with devices of some of these lives, now and then spoilt."""
        rng = self.rng
        register = fleet.spelled(self.rows([rng.choice(lives) for _ in range(rng.randrange(4))]))
        return spoil.spoilt_record(rng, register, fleet.register_at) if rng.random() < 0.12 else register

    def rows(self, lives):
        """Rows of devices at some moments of these lives; now and then as many more as a register holds."""
        rng, rows = self.rng, {}
        for life in lives:
            state = rng.choice(life.states)
            codes = tuple(layer.code for layer in state.judged.layers)
            hashes = tuple(sha256(entry.text) for entry, _ in state.log)
            rows[state.serial] = fleet.Row(state.judged.number, codes, hashes)
        if rng.random() < 0.06:
            for at in range(fleet.DEVICES - len(rows) - rng.choice((0, 0, 1))):
                rows.setdefault(sha256(b"device", u32(at))[:16], fleet.Row(1, (bytes(32), None, None), (bytes(32),)))
        return rows

    def item(self, life):
        return fleet.shows(self.chain_bytes(life, 0.25)[0])

    def question(self, life):
        rng, layer = self.rng, self.rng.randrange(1, 4)
        if rng.random() < 0.5:
            return u8(fleet.CODES) + u8(layer)
        known = [each.code for each in some_layers(rng, life) if each.code]
        return u8(fleet.FIND) + u8(layer) + rng.choice([*known, rng.randbytes(32)])


    # ---- what images and chains say

    def rehearse(self):
        return self.run()

    def showimage(self):
        image, _ = self.image(0.3, is_old=self.rng.random() < 0.03)
        return ["image"], {"image": image}

    def history(self):
        life = self.life()
        chain, _ = self.chain_bytes(life)
        return ["root", "chain"], {"root": self.public(life.maker), "chain": chain}


def runs(state, layer):
    """The layer runs, and all beneath it."""
    return machine.standing(state.judged, layer) == "runnable"


def some_layers(rng, life):
    """The layers of a device at some moment of its life."""
    return rng.choice(life.states).judged.layers
