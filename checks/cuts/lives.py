"""Lives of devices: what each event is, the image before it, and how it is answered if power holds."""

import hashlib
import pathlib
import sys

from program import Officer, Script, Wrong


def noise_of(*words):
    return hashlib.sha256(" ".join(map(str, words)).encode()).digest()


class Event:
    """An event of a life, at the layer that runs then."""

    def __init__(self, name, line, level, noise=None):
        self.name, self.level, self.noise = name, level, noise
        self.line = line if noise is None else (line, noise)
        # the image before it, and the reply to it
        self.image = self.reply = None

    def is_order(self):
        return self.noise is not None


def opening(level):
    """The events that lead to a layer."""
    return ["boot"] + ["go"] * (level - 1)


class Life:
    """A device's life, from an image on. The officers sign its orders, each for the length that the log then has."""

    def __init__(self, program, image, officers, length, names):
        self.program, self.image, self.officers, self.length = program, image, officers, length
        self.events = []
        # the layers and names that are read
        self.names = names

    def order(self, first, rest="", by=1, cosigned=()):
        """An order with the first line of its draft and those after its target."""
        line = self.officers[by].sign(f"order {first}\ntarget length {self.length}\n{rest}")
        for layer in cosigned:
            line = self.officers[layer].countersign(layer, line)
        name = first + "".join(f" with {layer}" for layer in cosigned)
        reply = self.give(Event(name, line, 1, noise_of("draw", len(self.events))))
        if not reply.startswith("done "):
            raise Wrong(f"{first}: {reply}")
        self.length = int(reply.split(" ")[2])

    def load(self, first, version, by, trust="countersigned", cosigned=(), size=100):
        code = noise_of("code", first, version).hex() * (size // 32 + 1)
        self.order(first, f"version {version}\ntrust {trust}\ncode {code}\n", by, cosigned)

    def establish(self, layer, trust="countersigned"):
        owner = self.officers[layer].public.hex()
        self.order(f"establish {layer}", f"owner {owner}\ntrust {trust}\n", layer - 1)

    def say(self, line, level, wanted):
        """An event that is no order, at a layer, whose reply begins with these words."""
        reply = self.give(Event(line[:40], line, level))
        if not reply.startswith(wanted):
            raise Wrong(f"{line}: {reply}")

    def give(self, event):
        event.image = self.image
        script = Script().add(*opening(event.level), event.line, "off")
        replies, self.image = self.program.serve(event.image, script)
        event.reply = replies[event.level]
        self.events.append(event)
        return event.reply


def first_life(program):
    """A new device that gets layers, keys and secrets, is loaded, and loses them again."""
    maker, *owners = (Officer(program, f"officer{n}", noise_of("officer", n)) for n in range(4))
    for name, bytes_ in ("noise", noise_of("birth") + noise_of("serial")[:16]), ("code", b"layer one"):
        (program.folder / name).write_bytes(bytes_)
    program.run("factory", "noise", maker.key, "officer1.public", "code", "image")
    image = (program.folder / "image").read_bytes()
    names = [(2, "pin"), (2, "-"), (3, "token"), (3, "#empty"), (3, "late")]
    life = Life(program, image, dict(enumerate(owners, 1)), 1, names)
    life.establish(2)
    life.establish(3, "always")
    life.load("emergency 2", 1, by=1)
    life.load("emergency 3", 1, by=2)
    life.order("newkey 2 epoch", by=2)
    life.order("newkey 3 configuration", by=3)
    life.say("put 2 pin 31323334", 1, "kept")
    life.say("put 3 token 00ff", 3, "kept")
    life.say("put 2 - " + "ab" * 128, 2, "kept")
    life.say("put 2 pin 31323334", 2, "kept")
    life.say("put 2 pin 35363738", 1, "kept")
    life.say("put 3 #empty -", 2, "kept")
    life.say("sign 2 1 68656c6c6f", 2, "signed 1 0 ")
    life.say("sign 2 1 68656c6c6f", 1, "signed 1 1 ")
    life.say("sign 3 2 -", 3, "signed 2 0 ")
    life.say("drop 2 -", 2, "dropped")
    life.say("drop 2 -", 2, "absent")
    life.say("get 2 pin", 2, "value 35363738")
    life.say("status", 3, "status ")
    life.say("go", 1, "at 2")
    life.load("load 2", 2, by=2, cosigned=[3], size=9000)
    life.order("newkey 2 configuration", by=2)
    life.order("newkey 3 epoch", by=3)
    life.load("load 3", 2, by=3)
    life.load("load 1", 2, by=1, cosigned=[2, 3])
    life.say("sign 3 4 00", 1, "signed 4 0 ")
    life.load("load 1", 3, by=1, cosigned=[2])
    life.load("emergency 3", 3, by=2)
    life.say("put 3 late 6c617465", 3, "kept")
    life.order("surrender 3", by=3)
    life.establish(3)
    life.order("surrender 2", by=2)
    return life


def trusting_life(program, peers):
    """A device with a log of version 1, which `peers/device.py` makes, and whose next change is of version 2: layer 3
    then trusts changes of layer 1 and not those of layer 2."""
    sys.path.insert(0, peers)
    import device

    made = device.owned(version=1)
    made.put(3, b"token", b"\x00\xff")
    life = Life(program, made.image(), made_officers(program, "trusting"), len(made.log), [(3, "token")])
    life.load("load 3", 100, by=3, trust="always never")
    life.order("newkey 3 epoch", by=3)
    life.load("load 1", 101, by=1)
    life.say("get 3 token", 3, "value 00ff")
    life.load("load 2", 102, by=2)
    life.say("get 3 token", 1, "refused 4 ")
    return life


def calling_life(program, peers):
    """A device whose layer 3 has code that takes calls, which `peers/device.py` makes without it: the PIN check of
    examples/calls, and then the counter, whose answers a key signs. What the code keeps is seen in its answers alone."""
    sys.path.insert(0, peers)
    import device

    made = device.owned()
    life = Life(program, made.image(), made_officers(program, "calling"), len(made.log), [(2, "pin"), (3, "t")])
    examples = pathlib.Path(peers).parent / "examples" / "calls"
    codes = []
    for name in "pin.asm", "counter.asm":
        (program.folder / "text").write_bytes((examples / name).read_bytes())
        program.run("asm", "text", "out")
        codes.append((program.folder / "out").read_bytes().hex())
    life.order("emergency 3", f"version 2\ntrust countersigned\ncode {codes[0]}\n", by=2)
    wrong, right = "0131313131", "0134303731"
    life.say("call 3 - 00343037315345435245542121", 1, "called 01")
    life.say(f"call 3 - {wrong}", 2, "called 0202")
    life.say(f"call 3 - {right}", 3, "called 015345435245542121")
    life.say(f"call 3 - {right}", 1, "called 015345435245542121")
    life.say("call 3 - 00343037315345435245542121", 1, "called ff")
    life.say("get 3 t", 1, "refused 8 ")
    life.order("emergency 3", f"version 3\ntrust countersigned\ncode {codes[1]}\n", by=2)
    life.order("newkey 3 epoch", by=3)
    life.say("call 3 1 -", 1, "signed 1 0 ")
    life.say("call 3 - -", 3, "called 00000002")
    life.say("call 3 1 6e6f6e6365", 2, "signed 1 1 ")
    return life


def made_officers(program, name):
    """The owners of a device that `peers/device.py` makes."""
    noises = (hashlib.sha256(b"owner" + bytes([n])).digest() for n in (1, 2, 3))
    return {n: Officer(program, f"{name}{n}", noise) for n, noise in enumerate(noises, 1)}


def late_life(program, peers):
    """A device whose key is used but for two indices, which `peers/device.py` makes: the key gives way to the next."""
    sys.path.insert(0, peers)
    import device

    made = device.owned()
    made.make_key(3)
    made.put(2, b"pin", b"1234")
    while made.key.uses < 30:
        made.load(3)
    officers = made_officers(program, "late")
    life = Life(program, made.image(), officers, len(made.log), [(2, "pin"), (3, "token")])
    life.order("newkey 3 configuration", by=3)
    last = life.image, life.length
    life.load("load 3", 100, by=3)
    life.say("status", 1, "status ")
    # the same again with a load of layer 1, which makes the next key itself
    other = Life(program, last[0], officers, last[1], life.names)
    other.load("load 1", 100, by=1)
    other.say("status", 1, "status ")
    return life, other
