"""Chains that a device signs against the rules, and what each is refused for."""

import chains
from device import ALWAYS, BIRTH, CHANGE, CONFIGURATION, COUNTERSIGNED, EMERGENCY, EPOCH, ESTABLISH, LOAD, NEVER
from device import SURRENDER, UNOWNED, Device, optional, owned, pair
from lms import sha256, u8, u16, u32
from officer import Officer

LAST_INDEX = 31
# the most entries of a log
MOST = 128


def spelled(layers, version):
    return b"".join(Device.spelled_layer(layer, version) for layer in layers)


def change(position, number, kind, layer, cosigned, kept, layers, key, version=2):
    head = u8(CHANGE[version]) + u32(position) + u32(number) + u8(kind) + u8(layer)
    return head + u8(pair(cosigned)) + u8(pair(kept)) + spelled(layers, version) + optional(key)


def new_key(position, number, key_number, layer, kind, key):
    return u8(2) + u32(position) + u32(number) + u32(key_number) + u8(layer) + u8(kind) + key


def succession(position, key):
    return u8(3) + u32(position) + key


def birth(serial, key, layers, version=2):
    return u8(BIRTH[version]) + serial + key + spelled(layers, version)


def chain(log, statement=b""):
    """The bytes of a chain of entries with their signatures."""
    end = u8(1) + statement if statement else u8(0)
    return b"MBC1" + u16(len(log)) + b"".join(text + signature for text, signature in log) + end


class Forger:
    """A device whose three layers run, with one key of layer 3, which has the number 1, and whose device key signs one
    entry more. Its log has at least `length` entries, and its device key has at least `used` uses."""

    def __init__(self, used=0, version=2, length=0):
        self.device = owned(version=version)
        self.device.make_key(3)
        while self.device.key.uses < used or len(self.device.log) < length:
            self.device.load(3)
        self.other = Officer(sha256(b"another key"))

    def signed(self, text, index=None, key=None):
        """The chain with this entry, signed at the next index of the device key or at another."""
        key = key or self.device.key
        signature = key.key.sign(key.uses if index is None else index, u8(3) + text)
        return chain([*self.device.log, (text, signature)])

    def loaded(self, layer, **fields):
        """The layers after a load of one, with these fields of it."""
        layers = [self.device.layers[n] for n in (1, 2, 3)]
        layers[layer - 1] = dict(layers[layer - 1], code=sha256(b"code"), version=9) | fields
        return layers

    def load(self, index=None, **fields):
        """A load of layer 3 with these fields."""
        device, layer = self.device, fields.get("layer", 3)
        right = {"position": len(device.log), "number": device.number + 1, "kind": LOAD, "layer": layer, "cosigned": ()}
        right |= {"kept": (2, 3), "layers": self.loaded(layer), "key": None}
        return self.signed(change(**right | fields), index)

    def key(self, index=None, **fields):
        """A new key of layer 2 with these fields."""
        device = self.device
        right = {"position": len(device.log), "number": device.number, "key_number": device.made, "layer": 2}
        right |= {"kind": EPOCH, "key": self.other.public()}
        return self.signed(new_key(**right | fields), index)

    def succeeded(self, index=None, position=None):
        position = len(self.device.log) if position is None else position
        return self.signed(succession(position, self.other.public()), index)

    def without(self, layer):
        """The layers after one is given up."""
        layers = [self.device.layers[n] for n in (1, 2, 3)]
        layers[layer - 1] = UNOWNED
        return layers

    def again(self, index=None):
        """Another birth."""
        return self.signed(self.device.log[0][0], index)

    def stated(self, number=None, key_number=1, serial=None, key=None):
        """The chain with a statement of the key 1 that names these."""
        device = self.device
        number = device.number if number is None else number
        ((_, made),) = device.regions[3]["keys"][:1] or [(EPOCH, key)]
        text = u8(4) + (serial or device.serial) + u32(key_number) + u32(number) + b"hi"
        statement = u32(number) + u8(2) + b"hi" + (key or made).key.sign(3, text)
        return chain(device.log, statement)


def loads(f):
    """One load more: names, what is refused, and the chain."""
    n = len(f.device.log)
    two, three = f.device.layers[2], f.device.layers[3]
    yield "a load of layer 3", None, f.load()
    yield "the wrong position", f"refused 22 {n}", f.load(position=n + 1)
    yield "an index left out", f"refused 22 {n}", f.load(index=f.device.key.uses + 1)
    yield "an index used again", f"refused 22 {n}", f.load(index=f.device.key.uses - 1)
    yield "both of them", f"refused 22 {n}", f.load(index=0, position=0)
    yield "another key", f"refused 21 {n}", f.signed(f.device.log[-1][0], 0, f.other)
    wrong = {
        "the number too high": {"number": f.device.number + 2},
        "the number of before": {"number": f.device.number},
        "countersigned from beneath": {"cosigned": (2,)},
        "countersigned by itself": {"cosigned": (3,)},
        "its own region lost": {"kept": (2,)},
        "a region beneath lost": {"kept": (3,)},
        "another owner": {"layers": f.loaded(3, owner=f.other.public())},
        "code that is not to be relied on": {"layers": f.loaded(3, reliable=False)},
        "no code": {"layers": f.loaded(3, code=None, reliable=False)},
        "layer 2 changed too": {"layers": [f.device.layers[1], dict(two, version=9), f.loaded(3)[2]]},
        "a trust of layer 2 changed": {
            "layers": [f.device.layers[1], dict(two, trusts=(COUNTERSIGNED, ALWAYS)), f.loaded(3)[2]],
        },
        "version 1 after version 2": {"version": 1},
        "layer 1 changed too": {"layers": [dict(f.device.layers[1], version=9), two, f.loaded(3)[2]]},
        "a next device key": {"key": f.other.public()},
        "an emergency that keeps its region": {"kind": EMERGENCY},
        "an owner where one is": {"kind": ESTABLISH, "layers": f.loaded(3, code=None, reliable=False), "kept": (2,)},
        "a surrender that leaves the layer": {"kind": SURRENDER, "kept": (2,)},
        "a surrender that keeps the region": {"kind": SURRENDER, "layers": f.without(3)},
        "a surrender of layer 1": {"kind": SURRENDER, "layer": 1, "layers": f.without(1), "kept": ()},
        "a load of layer 1 without a next key": {"layer": 1},
        "an emergency of layer 1": {"kind": EMERGENCY, "layer": 1},
        "a load of layer 2 that is held against layer 3": {
            "layer": 2,
            "layers": [f.device.layers[1], f.loaded(2)[1], dict(three, reliable=False)],
        },
        "a load of layer 2 that empties region 3": {"layer": 2, "kept": (2,)},
    }
    for name, fields in wrong.items():
        yield name, f"refused 23 {n}", f.load(**fields)
    yield "a surrender of layer 3", None, f.load(kind=SURRENDER, layers=f.without(3), kept=(2,))
    yield "a load of layer 1", None, f.load(layer=1, key=f.other.public())
    yield "a load of layer 2 that layer 3 countersigns", None, f.load(layer=2, cosigned=(3,))


def keys(f):
    """One new key more, or the next device key too early."""
    n = len(f.device.log)
    yield "a new key", None, f.key()
    yield "a new key in the wrong position", f"refused 22 {n}", f.key(position=n - 1)
    yield "a new key at another index", f"refused 22 {n}", f.key(index=31)
    yield "a new key of another configuration", f"refused 23 {n}", f.key(number=f.device.number + 1)
    yield "a number of a key used again", f"refused 23 {n}", f.key(key_number=1)
    yield "a number of a key left out", f"refused 23 {n}", f.key(key_number=f.device.made + 1)
    yield "a succession too early", f"refused 23 {n}", f.succeeded()
    yield "a second birth", f"refused 23 {n}", f.again()
    yield "a second birth at another index", f"refused 22 {n}", f.again(index=29)


def last_indices(f):
    """One entry more by a device key with only its last index left."""
    n = len(f.device.log)
    yield "a succession by the last index", None, f.succeeded()
    yield "a succession in the wrong position", f"refused 22 {n}", f.succeeded(position=0)
    yield "a load of layer 3 by the last index", f"refused 23 {n}", f.load()
    yield "a new key by the last index", f"refused 23 {n}", f.key()
    yield "a load of layer 1 by the last index", None, f.load(layer=1, key=f.other.public())


def births():
    """Chains of one entry, and those that do not begin with a birth."""
    f = Forger()
    device, serial, key = f.device, f.device.serial, f.device.log[0][0][17:73]
    one = Device().layers[1]

    def alone(text, index=0):
        return chain([(text, device.maker.key.sign(index, u8(3) + text))])

    yield "a birth alone", "refused 24", alone(birth(serial, key, [one, UNOWNED, UNOWNED]))
    yield "a birth at another index", "refused 24", alone(birth(serial, key, [one, UNOWNED, UNOWNED]), 17)
    yield "a birth of version 1 alone", "refused 24", alone(birth(serial, key, [one, UNOWNED, UNOWNED], 1))
    trusting = dict(one, trusts=(ALWAYS, NEVER))
    yield "a birth with two trusts", "refused 24", alone(birth(serial, key, [trusting, UNOWNED, UNOWNED]))
    wrong = {
        "a birth with an owner of layer 2": [one, dict(UNOWNED, owner=f.other.public()), UNOWNED],
        "a birth with layer 3": [one, UNOWNED, one],
        "a birth without an owner": [UNOWNED, UNOWNED, UNOWNED],
        "a birth that is not to be relied on": [dict(one, reliable=False), UNOWNED, UNOWNED],
    }
    for name, layers in wrong.items():
        yield name, "refused 23 0", alone(birth(serial, key, layers))
        yield name + ", version 1", "refused 23 0", alone(birth(serial, key, layers, 1))
    for name, text in zip(("a change", "a new key"), (device.log[1][0], device.log[-1][0])):
        yield name + " at first", "refused 23 0", alone(text)
    yield "a succession at first", "refused 23 0", alone(succession(0, key))
    text = birth(serial, key, [one, UNOWNED, UNOWNED])
    yield "a birth of another maker", "refused 21 0", chain([(text, f.other.sign(u8(3) + text))])


def versions():
    """Births and changes of both versions: a log goes from 1 to 2 at any change, and never back."""
    f = Forger(version=1)
    yield "a log of version 1", None, chain(f.device.log)
    yield "a load of version 1 after version 1", None, f.load(version=1)
    yield "a load of version 2 after version 1", None, f.load(version=2)
    yield "a load of version 2 with two trusts", None, f.load(version=2, layers=f.loaded(3, trusts=(ALWAYS, NEVER)))
    # the same device goes on in version 2, with a key between two changes
    f.device.version = 2
    f.device.load(3)
    f.device.make_key(2)
    n = len(f.device.log)
    yield "a log that goes from version 1 to 2", None, chain(f.device.log)
    yield "a load of version 1 after both", f"refused 23 {n}", f.load(version=1)
    yield "a load of version 1 in the wrong position", f"refused 22 {n}", f.load(version=1, position=n + 1)
    yield "a load of version 2 after both", None, f.load()


def trusts():
    """Loads beneath layer 3, which trusts changes of layer 1 and of layer 2 differently."""
    for one, two in ((ALWAYS, NEVER), (NEVER, ALWAYS), (COUNTERSIGNED, NEVER), (ALWAYS, COUNTERSIGNED)):
        f = Forger()
        f.device.load(3, trusts=(one, two))
        for layer, trust in ((1, one), (2, two)):
            for cosigned in ((), (3,)):
                goes_along = trust == ALWAYS or (trust == COUNTERSIGNED and cosigned == (3,))
                for kept in (True, False):
                    yield loaded_beneath(f, layer, cosigned, kept, goes_along)


def loaded_beneath(f, layer, cosigned, kept, goes_along):
    """A load of layer 1 or 2 over which layer 3 keeps its region and stays reliable, or does not. Which is right
    depends on whether layer 3 goes along."""
    layers = f.loaded(layer)
    layers[2] = dict(layers[2], reliable=kept)
    key = f.other.public() if layer == 1 else None
    bytes_ = f.load(layer=layer, cosigned=cosigned, kept=(2, 3) if kept else (2,), layers=layers, key=key)
    one, two = f.device.layers[3]["trusts"]
    name = f"layer {layer} loaded beneath trusts {one} and {two}, countersigned by {list(cosigned)}"
    line = None if kept == goes_along else f"refused 23 {len(f.device.log)}"
    return f"{name}, region 3 {'kept' if kept else 'lost'}", line, bytes_


def statements(f):
    """Statements on a chain whose last configuration has another number, or that another key made."""
    yield "a statement", None, f.stated()
    yield "a statement of before", "refused 26", f.stated(number=f.device.number - 1)
    yield "a statement of later", "refused 26", f.stated(number=f.device.number + 1)
    yield "a statement of another number of a key", "refused 25", f.stated(key_number=2)
    yield "a statement of another device", "refused 25", f.stated(serial=bytes(16))
    yield "a statement by another key", "refused 25", f.stated(key=f.device.key)


def ended(f):
    """A statement of a key that ended with the last entry."""
    key = f.device.regions[3]["keys"][0][1]
    f.device.load(3, EMERGENCY)
    f.device.log[-1] = emergency(f)
    yield "an epoch key after an emergency of its layer", "refused 27", f.stated(key=key)


def living():
    """Statements of an epoch key after an emergency beneath, and of configuration keys."""
    f = Forger()
    f.device.load(2, EMERGENCY)
    yield "an epoch key after an emergency beneath", None, f.stated()
    f = Forger()
    f.device.regions[3]["keys"].clear()
    f.device.log.pop()
    f.device.key.uses, f.device.made = f.device.key.uses - 1, f.device.made - 1
    f.device.make_key(3, CONFIGURATION)
    key = f.device.regions[3]["keys"][0][1]
    yield "a key of this configuration", None, f.stated(key=key)
    f.device.load(2)
    yield "a key of a configuration that is over", "refused 27", f.stated(key=key)


def emergency(f):
    """The last entry as an emergency load of layer 3, which keeps region 2 alone."""
    device = f.device
    layers = [device.layers[n] for n in (1, 2, 3)]
    text = change(len(device.log) - 1, device.number, EMERGENCY, 3, (), (2,), layers, None)
    return text, device.key.key.sign(device.key.uses - 1, u8(3) + text)


def all_chains():
    yield from loads(Forger())
    yield from keys(Forger())
    yield from last_indices(Forger(LAST_INDEX))
    for some in (births, versions, trusts):
        yield from some()
    yield from statements(Forger())
    yield from ended(Forger())
    yield from living()


def last_chains():
    """Chains whose last entry has the last possible position."""
    yield from loads(Forger(length=MOST - 1))
    yield from keys(Forger(length=MOST - 1))
    yield from statements(Forger(length=MOST))
    yield from ended(Forger(length=MOST - 1))


def are_predicted(some, files):
    """Whether each of these chains is refused for what it breaks, by peers/chains.py."""
    right = True
    for name, line, bytes_ in some:
        status, printed, _ = chains.answer(["verify", "root", "bad", "1"], (files | {"bad": bytes_}).get)
        if (status, printed) != (7, f"{line}\n") if line else status != 0:
            print(f"{name}: {printed} by peers/chains.py, and not {line or 'accepted'}")
            right = False
    return right
