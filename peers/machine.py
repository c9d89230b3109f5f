"""A device that serves events, from the formats and the rules of the commands alone.

Nothing here says in which write call of an event an armed power loss falls. An event therefore leads from a world to
several, each with a reply, and the replies that a device gave say which of them it can be in.
"""

import copy
import dataclasses

import applications
import chains
from chains import CHANGE, COUNTERSIGNED, EPOCH, ESTABLISH, LAST_INDEX, LOAD, SURRENDER, Layer
from images import KEYS, Key, Region, State
from keys import born, key_of, signed
from lms import sha256, u8, u32
from orders import NEW_KEY, NoOrder, read_order
from texts import MOST_SECRETS

LONGEST_LOG = 128
# the most write calls of an event
MOST_WRITES = 600
OFF, ON, DEAD = "off", "on", "dead"
NO, MAY, MUST = range(3)
REFUSALS = {
    1: "off",
    2: "phase",
    3: "zeroised",
    4: "layer",
    5: "full",
    6: "key",
    7: "spent",
    8: "code",
    9: "run",
    10: "text",
    11: "target",
    12: "state",
    13: "signature",
    14: "countersignature",
    15: "log full",
    16: "keys full",
}


class Refused(Exception):
    """An event that a device refuses."""

    def __init__(self, number):
        super().__init__(number)
        self.reply = f"refused {number} {REFUSALS[number]}"


# ---- orders


def holds(state, target):
    tag, layer, value = target
    log = state.judged
    if tag == 1:
        return value == state.serial
    if tag == 2:
        return value == log.length
    if tag == 3:
        owner = log.layer(layer).owner
        return owner is not None and value == sha256(owner)
    return value == log.layer(layer).code


def layers_fit(log, order):
    if order.kind == NEW_KEY:
        return all(layer.reliable for layer in log.layers[: order.layer])
    return log.is_allowed(order.kind, order.layer)


def entries_needed(log, order):
    return 2 if log.signed == LAST_INDEX and not (order.kind == LOAD and order.layer == 1) else 1


def judge(state, order):
    """Refuses an order for the first reason that applies."""
    log = state.judged
    if not all(holds(state, target) for target in order.targets):
        raise Refused(11)
    if not layers_fit(log, order):
        raise Refused(12)
    in_charge = log.layer(chains.signing_layer(order.kind, order.layer)).owner
    if not chains.verifies(in_charge, u8(1) + order.body, order.signature):
        raise Refused(13)
    for layer, signature in order.countersignatures:
        owner = log.layer(layer).owner
        if owner is None or not chains.verifies(owner, u8(2) + u8(layer) + order.body, signature):
            raise Refused(14)
    if log.length + entries_needed(log, order) > LONGEST_LOG:
        raise Refused(15)
    if order.kind == NEW_KEY and len(state.region(order.layer).keys) == KEYS:
        raise Refused(16)


def spelled_layer(layer):
    flags = (layer.owner is not None) + 2 * (layer.code is not None) + 4 * layer.reliable
    code = b"" if layer.code is None else layer.code + u32(layer.version)
    return u8(flags) + bytes(layer.trusts) + (layer.owner or b"") + code


def pair(some):
    return u8((2 in some) + 2 * (3 in some))


def placed(old, order):
    """What a change puts in the place of its layer."""
    if order.kind == ESTABLISH:
        return Layer(order.owner, trusts=order.trusts)
    if order.kind == SURRENDER:
        return Layer()
    return Layer(old.owner, sha256(order.code), order.version, True, order.trusts)


class Obeying:
    """A state that obeys an order, entry by entry."""

    def __init__(self, state, order, draw):
        self.state, self.order, self.draw = state, order, draw
        self.log, self.entries = copy.copy(state.judged), list(state.log)
        self.key, self.uses = (state.identifier, state.seed), state.uses

    def new_key(self, ahead=0):
        return born(self.draw, self.state.serial, self.log.made + ahead)

    def append(self, text, after=None):
        """Signs an entry, which may name the device key that signs those after it."""
        entry = chains.Reader(text).whole(chains.Reader.entry)
        self.entries.append((entry, signed(*self.key, self.uses, u8(3) + text)))
        self.uses += 1
        self.log.take(entry)
        if after:
            self.key, self.uses = after, 0

    def succeed(self):
        after = self.new_key()
        self.append(u8(3) + u32(self.log.length) + key_of(*after).public(), after)

    def done(self):
        order = self.order
        if entries_needed(self.log, order) == 2:
            self.succeed()
        regions = {2: self.state.two, 3: self.state.three}
        codes = list(self.state.codes)
        if order.kind == NEW_KEY:
            regions[order.layer] = self.add_key(regions[order.layer])
        else:
            self.change(regions)
        if order.is_load:
            codes[order.layer - 1] = order.code
        elif order.kind in (ESTABLISH, SURRENDER):
            codes[order.layer - 1] = None
        return State(
            self.state.serial, tuple(self.entries), tuple(codes), *self.key, self.uses, regions[2], regions[3], self.log
        )

    def add_key(self, region):
        number, layer, kind = self.log.made, self.order.layer, self.order.key_kind
        identifier, seed = self.new_key()
        text = u8(2) + u32(self.log.length) + u32(self.log.number) + u32(number) + u8(layer) + u8(kind)
        self.append(text + key_of(identifier, seed).public())
        return dataclasses.replace(region, keys=(*region.keys, Key(number, kind, identifier, seed, 0)))

    def admits(self, m):
        """Layer m, which is the order's or above it, goes along with the change."""
        order = self.order
        if m == order.layer:
            return order.kind == LOAD
        if not order.is_load:
            return False
        trust = self.log.layer(m).trusts[order.layer - 1]
        return trust == chains.ALWAYS or (trust == COUNTERSIGNED and m in dict(order.countersignatures))

    def change(self, regions):
        order = self.order
        admitting = {m for m in range(order.layer, 4) if self.admits(m)}
        layers = list(self.log.layers)
        layers[order.layer - 1] = placed(layers[order.layer - 1], order)
        for m in range(order.layer + 1, 4):
            layers[m - 1] = dataclasses.replace(layers[m - 1], reliable=layers[m - 1].reliable and m in admitting)
        for m in range(max(order.layer, 2), 4):
            keys = tuple(key for key in regions[m].keys if key.kind == EPOCH)
            regions[m] = Region(regions[m].secrets, keys) if m in admitting else Region()
        after = self.new_key() if order.kind == LOAD and order.layer == 1 else None
        text = u8(CHANGE + 16) + u32(self.log.length) + u32(self.log.number + 1) + u8(order.kind) + u8(order.layer)
        text += pair(dict(order.countersignatures)) + pair({m for m in (2, 3) if m < order.layer or m in admitting})
        text += b"".join(map(spelled_layer, layers))
        self.append(text + (u8(1) + key_of(*after).public() if after else u8(0)), after)


def obey(state, order, draw):
    """The state after an order, or Refused."""
    judge(state, order)
    return Obeying(state, order, draw).done()


# ---- worlds


@dataclasses.dataclass(frozen=True)
class Cut:
    """A power loss armed for write call `count`. From `least` to `most` calls were made since it was armed."""

    count: int
    least: int = 0
    most: int = 0


@dataclasses.dataclass(frozen=True)
class World:
    """A device and its power. `state` is None if the device is dead. `is_clean` says whether its memory is clean, or
    None if that is not known; `has_written` says whether it may have written."""

    state: State | None
    is_clean: bool | None = True
    phase: str = OFF
    level: int = 0
    cut: Cut | None = None
    has_written: bool = False
    # whether the case was opened
    was_opened: bool = False

    def with_state(self, state, **more):
        return dataclasses.replace(self, state=state, **more)


def standing(log, layer):
    if log.layer(layer).owner is None:
        return "unowned"
    if not log.layer(layer).reliable:
        return "unreliable"
    return "runnable" if all(each.reliable for each in log.layers[:layer]) else "reliable"


def word(bytes_):
    return bytes_.hex() or "-"


def boot(world, event):
    if world.phase == ON:
        raise Refused(2)
    writes = {True: NO, False: MUST, None: MAY}[world.is_clean]
    return "booted", writes, dataclasses.replace(world, phase=ON, level=1, is_clean=True)


def status(world, event):
    log = world.state.judged
    stands = " ".join(standing(log, layer) for layer in (1, 2, 3))
    return f"status {world.state.serial.hex()} {log.number} {log.length} {stands}", NO, world


def go(world, event):
    if world.level == 3:
        raise Refused(2)
    if standing(world.state.judged, world.level + 1) != "runnable":
        raise Refused(4)
    return f"at {world.level + 1}", NO, dataclasses.replace(world, level=world.level + 1)


def command(world, event):
    if world.level > 1:
        raise Refused(2)
    text, draw = event.bytes
    try:
        order = read_order(text)
    except NoOrder:
        raise Refused(10) from None
    state = obey(world.state, order, draw)
    return f"done {state.judged.number} {state.judged.length}", MUST, world.with_state(state)


def region_of(world, event):
    """The region of a layer that may run. Code that takes calls has its region for itself."""
    if world.level > event.layer or standing(world.state.judged, event.layer) != "runnable":
        raise Refused(4)
    if applications.takes_calls(world.state.codes[event.layer - 1]) != (event.word == "call"):
        raise Refused(8)
    return world.state.region(event.layer)


def with_region(world, event, region):
    return world.with_state(world.state.with_region(event.layer, region))


def put(world, event):
    region = region_of(world, event)
    names = [name for name, _, _ in region.secrets]
    if event.name not in names and len(names) == MOST_SECRETS:
        raise Refused(5)
    at = names.index(event.name) if event.name in names else len(names)
    secret = event.name, event.bytes, world.state.judged.number
    after = dataclasses.replace(region, secrets=(*region.secrets[:at], secret, *region.secrets[at + 1 :]))
    return "kept", MAY if after == region else MUST, with_region(world, event, after)


def get(world, event):
    values = {name: value for name, value, _ in region_of(world, event).secrets}
    return f"value {word(values[event.name])}" if event.name in values else "absent", NO, world


def drop(world, event):
    region = region_of(world, event)
    left = tuple(secret for secret in region.secrets if secret[0] != event.name)
    if left == region.secrets:
        return "absent", NO, world
    return "dropped", MUST, with_region(world, event, dataclasses.replace(region, secrets=left))


def key_at(region, number):
    """Where the key with this number stands in a region, which has an index left."""
    at = next((at for at, key in enumerate(region.keys) if key.number == number), None)
    if at is None:
        raise Refused(6)
    if region.keys[at].uses == LAST_INDEX + 1:
        raise Refused(7)
    return at


def signed_by(state, region, at, said, input_=None):
    """The reply with a statement of the key at this place of a region, and the region after it."""
    key = region.keys[at]
    statement = chains.Statement(state.judged.number, said, b"", input_)
    signature = signed(key.identifier, key.seed, key.uses, chains.stated_text(state.serial, key.number, statement))
    statement = dataclasses.replace(statement, signature=signature)
    used = dataclasses.replace(key, uses=key.uses + 1)
    after = dataclasses.replace(region, keys=(*region.keys[:at], used, *region.keys[at + 1 :]))
    return f"signed {key.number} {key.uses} {statement.spelled().hex()}", after


def sign(world, event):
    region = region_of(world, event)
    reply, after = signed_by(world.state, region, key_at(region, event.number), event.bytes)
    return reply, MUST, with_region(world, event, after)


def readable(state, layer):
    """The secrets that the code of a layer may read: its own, and those of each layer above that may run."""
    regions = [m for m in range(layer, 4) if standing(state.judged, m) == "runnable"]
    return {m: {name: value for name, value, _ in state.region(m).secrets} for m in regions}


def call(world, event):
    """A call that is answered writes in any case, so that its writes tell nothing of the run."""
    region, state = region_of(world, event), world.state
    at = None if event.number is None else key_at(region, event.number)
    code = state.codes[event.layer - 1]
    try:
        demands, answer = applications.called(code, event.bytes, readable(state, event.layer))
        secrets = applications.after_demands(demands, region.secrets, state.judged.number)
    except applications.NoAnswer:
        raise Refused(9) from None
    reply, after = f"called {word(answer)}", dataclasses.replace(region, secrets=secrets)
    if at is not None:
        reply, after = signed_by(state, after, at, answer, sha256(event.bytes))
    return reply, MUST, with_region(world, event, after)


ASKED = {"status": status, "go": go, "command": command, "put": put, "get": get, "drop": drop, "sign": sign, "call": call}


def answered(world, event):
    """The reply if power holds, whether the event writes, and the world after it."""
    if event.word == "off":
        return "off", NO, dataclasses.replace(world, phase=OFF, level=0)
    if event.word == "tamper":
        return "tampered", NO, World(None, True, cut=world.cut, has_written=world.has_written, was_opened=True)
    if event.word == "cut":
        return "armed", NO, dataclasses.replace(world, cut=Cut(event.number))
    try:
        if world.state is None and (event.word == "boot" or world.phase == DEAD):
            world = dataclasses.replace(world, phase=DEAD)
            raise Refused(3)
        if event.word == "boot":
            return boot(world, event)
        if world.phase == OFF:
            raise Refused(1)
        return ASKED[event.word](world, event)
    except Refused as refused:
        return refused.reply, NO, world


def outcomes(world, event):
    """Each reply that may come, with the world that it leaves."""
    reply, writes, after = answered(world, event)
    if writes == NO:
        yield reply, after
        return
    after = dataclasses.replace(after, has_written=True)
    cut = world.cut
    if cut is None:
        yield reply, after
        return
    made = Cut(cut.count, cut.least + (writes == MUST), cut.most + MOST_WRITES)
    if made.least < cut.count:
        yield reply, dataclasses.replace(after, cut=made)
    if made.most >= cut.count:
        stopped = dataclasses.replace(after, cut=None, phase=OFF, level=0, is_clean=None)
        yield "stopped", stopped.with_state(world.state)
        if after.state != world.state:
            yield "stopped", stopped


def follow(worlds, event, reply, shown=str):
    """The worlds in which a device can be that gave this reply, as it is shown, and the replies that could have
    come."""
    found, possible = [], []
    for world in worlds:
        for told, after in outcomes(world, event):
            possible.append(told)
            if shown(told) == reply and after not in found:
                found.append(after)
    return found, possible


def orders_at(events):
    return [at for at, event in enumerate(events) if event.word == "command"]


def length_of_draws(events):
    """How many bytes of noise the orders among the events draw."""
    return 32 * len(orders_at(events))


def with_draws(events, noise):
    """The events, each order with its draw."""
    drawn = list(events)
    for number, at in enumerate(orders_at(events)):
        drawn[at] = dataclasses.replace(drawn[at], bytes=(drawn[at].bytes, noise[32 * number : 32 * number + 32]))
    return drawn
