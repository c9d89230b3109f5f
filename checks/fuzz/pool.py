"""Keys, officers, devices and their lives, which are made once and kept for later runs."""

import dataclasses
import hashlib
import pathlib
import pickle
import random

import chains
import device
import images
import keys
import machine
import random_calls
import workload
from chains import EMERGENCY, ESTABLISH, LOAD, SURRENDER
from lms import Chains, HEIGHTS, inner_node, leaf_node, sha256, take, u8, u16, u32
from orders import NEW_KEY, Order, read_order

PEERS = pathlib.Path(images.__file__).resolve().parent
# what each event may draw: few, so that the same keys come again
DRAWS = [sha256(b"draw", u8(n)) for n in range(5)]
SERIALS = [sha256(b"serial", u8(n))[:16] for n in range(3)]
NOISES = [sha256(b"noise", u8(n)) for n in range(12)]
LIVES, STEPS = 26, 13
PAIRS = [(tree, number) for tree in range(5, 10) for number in range(1, 5)]


class Signer:
    """An officer of types 5 and 3."""

    def __init__(self, noise):
        self.seed = keys.officers(noise)

    def public(self):
        return keys.key_of(*self.seed).public()

    def sign(self, rng, text):
        return keys.signed(*self.seed, rng.randrange(32), text)


class OneLeaf:
    """An officer of arbitrary types, with one known leaf in the tree: the siblings on its path are arbitrary nodes."""

    def __init__(self, tree, number, rng):
        self.tree, self.chains = tree, Chains(number)
        self.identifier, self.seed = rng.randbytes(16), rng.randbytes(32)
        self.leaf = rng.choice((0, 2 ** HEIGHTS[tree] - 1, rng.randrange(2 ** HEIGHTS[tree])))
        self.path = [rng.randbytes(32) for _ in range(HEIGHTS[tree])]
        ends = [self.taken(chain, 0, self.chains.last) for chain in range(self.chains.count)]
        node, number = leaf_node(self.identifier, tree, self.leaf, ends), 2 ** HEIGHTS[tree] + self.leaf
        for sibling in self.path:
            pair = (sibling, node) if number % 2 else (node, sibling)
            number //= 2
            node = inner_node(self.identifier, number, *pair)
        self.root = node

    def taken(self, chain, first, end):
        return take(self.identifier, self.leaf, chain, sha256(self.seed, u16(chain)), first, end)

    def public(self):
        return u32(self.tree) + u32(self.chains.number) + self.identifier + self.root

    def sign(self, rng, text):
        randomizer = sha256(self.seed, text)
        hashed = sha256(self.identifier, u32(self.leaf), u16(0x8181), randomizer, text)
        values = [self.taken(chain, 0, steps) for chain, steps in enumerate(self.chains.spread(hashed))]
        once = u32(self.chains.number) + randomizer + b"".join(values)
        return u32(self.leaf) + once + u32(self.tree) + b"".join(self.path)


@dataclasses.dataclass
class Life:
    """A device's states, each after the one before by an order with its draw, and the public key of its maker."""

    maker: bytes
    states: list
    steps: list


class Pool:
    """What the cases are made of."""

    def __init__(self):
        rng = random.Random("pool")
        self.makers = [Signer(noise) for noise in NOISES[:3]]
        self.officers = [Signer(noise) for noise in NOISES[3:9]]
        self.officers += [OneLeaf(tree, number, rng) for tree, number in PAIRS]
        self.by_public = {each.public(): each for each in (*self.makers, *self.officers)}
        self.lives, self.known = [], {}
        # workloads by number and rounds: the three files and what is printed
        self.workloads = {}

    def make(self):
        rng = random.Random("lives")
        for number in range(LIVES):
            self.lives.append(self.grown(rng, self.birth(rng, number), rng.randrange(STEPS + 1)))
            if number % 3 == 0 and len(self.lives[-1].states) > 3:
                self.lives.append(self.fork(rng, self.lives[-1]))
        self.lives += [self.with_keys(rng), *map(self.of_peers, self.peers_devices())]
        self.full = self.of_peers(device.full(2)[0])
        for number in (1, 2**32 - 1):
            for rounds in (1, 2):
                self.workloads[number, rounds] = workload.generated(number, rounds)
        return self

    # ---- lives

    def birth(self, rng, number):
        """A new device, in the first version or the second."""
        serial, draw, maker = rng.choice(SERIALS), rng.choice(DRAWS), rng.choice(self.makers)
        seed, code = keys.born(draw, serial, 0), rng.randbytes(rng.choice((0, 3, 9)))
        owner = self.officers[number % len(self.officers)].public()
        layer = chains.Layer(owner, sha256(code), 1, True, (chains.ALWAYS, chains.ALWAYS))
        old = number % 4 == 3
        layers = b"".join(spelled_layer(each, 1 if old else 2) for each in (layer, chains.Layer(), chains.Layer()))
        text = u8(0 if old else 16) + serial + keys.key_of(*seed).public() + layers
        birth = chains.Reader(text).whole(chains.Reader.entry), maker.sign(rng, u8(3) + text)
        nothing = images.Region()
        state = images.State(serial, (birth,), (code, None, None), *seed, 0, nothing, nothing)
        return Life(maker.public(), [images.judged(state)], [])

    def grown(self, rng, life, steps):
        """Tries `steps` orders on the life, which goes on by those that are done."""
        for _ in range(steps):
            state, draw = life.states[-1], rng.choice(DRAWS)
            order = self.order(rng, state, ())
            try:
                life.states.append(machine.obey(state, order, draw))
            except machine.Refused:
                continue
            life.steps.append((order, draw))
        return life

    def fork(self, rng, life):
        """A life that begins as this one does, and then goes on by orders of its own."""
        count = rng.randrange(1, len(life.states))
        return self.grown(rng, Life(life.maker, life.states[:count], life.steps[: count - 1]), 5)

    def with_keys(self, rng):
        """A device that makes as many keys as a region holds."""
        life = self.birth(rng, 0)
        orders = [(ESTABLISH, 2), (EMERGENCY, 2)] + [(NEW_KEY, 2)] * 8
        for kind, layer in orders:
            order = self.order(rng, life.states[-1], (), kind, layer)
            life.states.append(machine.obey(life.states[-1], order, DRAWS[0]))
            life.steps.append((order, DRAWS[0]))
        return life

    def peers_devices(self):
        """Devices of peers/device.py, of either version, and some whose key is nearly used."""
        for version in (1, 2):
            yield device.Device(version=version)
            yield device.owned(version=version)
            for kind in ("entry", "last", "short", "add"):
                yield device.left_to_do(kind, version=version)[0]

    def of_peers(self, made):
        """The life of a device of peers/device.py, as it is now."""
        for officer in (made.maker, *made.owner.values()):
            self.by_public[officer.public()] = Signer.__new__(Signer)
            self.by_public[officer.public()].seed = officer.identifier, officer.seed
            keys.MADE[officer.identifier, officer.seed] = officer.key
        return Life(made.maker.public(), [images.meaning(made.image())], [])

    # ---- orders

    def order(self, rng, state, twists, kind=None, layer=None):
        """An order for a device, which it obeys if there are no twists; each twist is the number of a refusal."""
        log = state.judged
        if kind is None:
            kind, layer = self.kind_and_layer(rng, log, 12 in twists)
        text = u8(kind) + u8(layer) + self.targets(rng, state, 11 in twists) + self.fields(rng, kind, layer)
        if kind in (ESTABLISH, LOAD, EMERGENCY):
            text = with_differing(text, kind)
        order = read_order(text + bytes(3))
        return self.signed(rng, log, order, twists)

    def kind_and_layer(self, rng, log, any_):
        choices = [(kind, layer) for kind in (ESTABLISH, EMERGENCY) for layer in (2, 3)]
        choices += [(SURRENDER, 2), (SURRENDER, 3), (NEW_KEY, 2), (NEW_KEY, 3)]
        choices += [(LOAD, layer) for layer in (1, 2, 3)]
        fitting = [each for each in choices if machine.layers_fit(log, Order(b"", *each))]
        chosen = choices if any_ or not fitting else fitting
        # surrenders undo what others do, and are rarer
        return rng.choices(chosen, [1 if kind == SURRENDER else 3 for kind, _ in chosen])[0]

    def targets(self, rng, state, wrong):
        found = []
        for _ in range(rng.choice((0, 0, 1, 1, 2, 3, 8))):
            layer = rng.choice([n for n in (1, 2, 3) if state.judged.layer(n).owner])
            owned = state.judged.layer(layer)
            forms = [u8(1) + state.serial, u8(2) + u32(state.judged.length), u8(3) + u8(layer) + sha256(owned.owner)]
            forms += [u8(4) + u8(layer) + owned.code] if owned.code else []
            found.append(rng.choice(forms))
        if wrong:
            layer = rng.randrange(1, 4)
            wrongs = [u8(1) + rng.randbytes(16), u8(2) + u32(state.judged.length + rng.choice((1, -1)))]
            wrongs += [u8(tag) + u8(layer) + rng.choice((bytes(32), rng.randbytes(32))) for tag in (3, 4)]
            found[:] = [*found[:7], rng.choice(wrongs)]
            rng.shuffle(found)
        return u8(len(found)) + b"".join(found)

    def fields(self, rng, kind, layer):
        trusts = bytes((rng.choice((0, 0, 1, 2, 2)), rng.choice((0, 0, 1, 2, 2))))
        if kind == ESTABLISH:
            return rng.choice(self.officers).public() + trusts
        if kind in (LOAD, EMERGENCY):
            code = rng.randbytes(rng.choice((0, 1, 3, 20, 33, 4_096, 4_097) if rng.random() < 0.97 else (32_768,)))
            if rng.random() < 0.3:
                code = random_calls.some_code(rng, layer)
            return u32(rng.choice((0, 1, 2, 2**32 - 1))) + trusts + u32(len(code)) + code
        return u8(rng.randrange(2)) if kind == NEW_KEY else b""

    def signed(self, rng, log, order, twists):
        """The order with the signatures of those in charge, or with wrong ones."""
        in_charge = log.layer(chains.signing_layer(order.kind, order.layer)).owner
        signature = self.signature(rng, in_charge, u8(1) + order.body, 13 in twists)
        beside = []
        for m in range(order.layer + 1, 4) if order.is_load else ():
            owner = log.layer(m).owner
            if 14 in twists and (owner is None or rng.random() < 0.6):
                beside.append((m, self.signature(rng, owner, u8(2) + u8(m) + order.body, True)))
            elif owner is not None and rng.random() < 0.5:
                beside.append((m, self.signature(rng, owner, u8(2) + u8(m) + order.body, False)))
        return dataclasses.replace(order, signature=signature, countersignatures=tuple(beside))

    def signature(self, rng, owner, text, wrong):
        signer = self.by_public.get(owner)
        if signer is None:
            return rng.randbytes(rng.choice((0, 2_348)))
        if not wrong:
            return signer.sign(rng, text)
        how = rng.randrange(6)
        if how == 0:
            return rng.choice(self.officers).sign(rng, text)
        if how == 1:
            return signer.sign(rng, rng.choice((text[1:], text + b"\0", u8(text[0] + 1) + text[1:])))
        right = signer.sign(rng, text)
        if how == 2:
            return right[: rng.choice((-1, 0, 4, 8, 2_184))]
        if how == 3:
            return right + b"\0"
        if how == 4:
            at = rng.choice((3, 7, 8, 40, len(right) - 1, rng.randrange(len(right))))
            return right[:at] + bytes([right[at] ^ 1 << rng.randrange(8)]) + right[at + 1 :]
        # an index beyond the tree, which hashes to another leaf
        return u32(2 ** rng.choice((5, 10, 15, 20, 25, 31)) + int.from_bytes(right[:4], "big")) + right[4:]

    def seed_of(self, public):
        """The identifier and the seed of a key that was made here."""
        if public not in self.known:
            self.known = {key.public(): seed for seed, key in keys.MADE.items()}
        return self.known.get(public)


def spelled_layer(layer, version):
    text = machine.spelled_layer(layer)
    return text if version == 2 else text[:1] + text[2:]


def with_differing(text, kind):
    """A body that is given with two trusts: with the number of its kind for two if they differ, else with one trust."""
    reader = chains.Reader(text, 2)
    for _ in range(reader.number(1)):
        tag = reader.number(1)
        reader.take({1: 16, 2: 4, 3: 33, 4: 33}[tag])
    at = reader.at + (56 if kind == ESTABLISH else 4)
    if text[at] == text[at + 1]:
        return text[:at] + text[at + 1 :]
    return u8(kind + 16) + text[1:]


def sources():
    """A hash of all that decides what the pool is."""
    paths = sorted([*PEERS.glob("*.py"), pathlib.Path(__file__)])
    return hashlib.sha256(b"".join(path.read_bytes() for path in paths)).hexdigest()[:16]


def pool_in(folder):
    """The pool that a folder keeps, or a new one, which it then keeps."""
    folder.mkdir(parents=True, exist_ok=True)
    keys.load(folder / "keys")
    path = folder / f"pool-{sources()}"
    if path.exists():
        return pickle.loads(path.read_bytes())
    for old in folder.glob("pool-*"):
        old.unlink()
    pool = Pool().make()
    path.write_bytes(pickle.dumps(pool))
    keys.keep(folder / "keys")
    return pool
