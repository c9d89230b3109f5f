"""A device of given noise that lives by its owners' drafts: its log, its chain and what its keys sign.

Nothing is verified here: it is for making the values that a device comes to, not for judging orders.
"""

from device import ALWAYS, COUNTERSIGNED, EMERGENCY, EPOCH, ESTABLISH, LOAD, UNOWNED, Device, equal
from lms import sha256
from officer import KEY_KINDS, trusts_in, unhex

LOADS = {"load": LOAD, "emergency": EMERGENCY}


class Living(Device):
    """A device of this noise, whose birth the maker signs, and whose layer 1 has this owner's public key and code. If
    its birth has version 1, its changes have version 2 all the same, as those of a device that is older than they
    are."""

    def __init__(self, noise, maker, owner, code, version=2):
        self.present, self.serial, self.maker, self.version = noise[:32], noise[32:48], maker, version
        self.layers = {1: self.loaded(owner, code, 1, equal(ALWAYS)), 2: dict(UNOWNED), 3: dict(UNOWNED)}
        self.codes = {1: code, 2: None, 3: None}
        self.be_born()
        self.version = 2

    def draw(self):
        """All keys of an event are made of its draw."""
        return self.present

    @staticmethod
    def loaded(owner, code, version, trusts):
        return {"owner": owner, "code": sha256(code), "version": version, "reliable": True, "trusts": trusts}

    def admits(self, k, cosigned, m):
        """Layer m goes along with a load of layer k, 1 or 2, which is beneath it."""
        trust = self.layers[m]["trusts"][k - 1]
        return trust == ALWAYS or (trust == COUNTERSIGNED and m in cosigned)

    def obey(self, draft, draw, cosigned=()):
        """Does what the draft of an order says, with this draw, and gives the reply."""
        self.present = draw
        lines = [line.split(" ") for line in draft.splitlines()]
        kind, layer = lines[0][1], int(lines[0][2])
        fields = {line[0]: line[1:] for line in lines[1:]}
        if kind == "newkey":
            self.make_key(layer, KEY_KINDS[lines[0][3]])
        elif kind == "establish":
            self.succeed()
            owner = unhex(*fields["owner"])
            self.layers[layer] = dict(UNOWNED, owner=owner, trusts=trusts_in(fields["trust"]))
            self.leave(layer, (), ESTABLISH)
        elif kind in LOADS:
            self.put_code(LOADS[kind], layer, fields, cosigned)
        else:
            raise ValueError(draft)
        return f"done {self.number} {len(self.log)}"

    def put_code(self, kind, layer, fields, cosigned):
        renews = (kind, layer) == (LOAD, 1)
        if not renews:
            self.succeed()
        code, version, trusts = unhex(*fields["code"]), int(*fields["version"]), trusts_in(fields["trust"])
        admitting = {m for m in (2, 3) if m > layer and self.admits(layer, cosigned, m)}
        self.layers[layer] = self.loaded(self.layers[layer]["owner"], code, version, trusts)
        self.codes[layer] = code
        if kind == LOAD:
            admitting.add(layer)
        self.leave(layer, admitting, kind, cosigned, renews)

    def leave(self, layer, admitting, kind, cosigned=(), renews=False):
        """What a change leaves of the layers above it and of the regions, and its entry."""
        for m in range(max(layer, 2), 4):
            region, layer_m = self.regions[m], self.layers[m]
            stays = m in admitting
            region["secrets"] = region["secrets"] if stays else []
            region["keys"] = [key for key in region["keys"] if stays and key[0] == EPOCH]
            if m > layer:
                self.layers[m] = dict(layer_m, reliable=layer_m["reliable"] and stays)
        self.change(kind, layer, cosigned, renews, [m for m in (2, 3) if m < layer or m in admitting])
