"""Orders as bytes, read from the formats alone."""

import dataclasses

import chains
from chains import ALWAYS, COUNTERSIGNED, EMERGENCY, ESTABLISH, LOAD, SURRENDER
from lms import u8, u16

NEW_KEY = 5
# An order whose two trusts differ has the number of its kind plus this.
DIFFER = 16
# the longest code, and the longest signature
CODE, SIGNATURE = 32_768, 9_324


class NoOrder(Exception):
    """Bytes that spell no order."""


@dataclasses.dataclass(frozen=True)
class Order:
    """An order. `body` is the part of it that is signed; each target is a tag, a layer and a value."""

    body: bytes
    kind: int
    layer: int
    targets: tuple = ()
    owner: bytes | None = None
    trusts: tuple | None = None
    version: int | None = None
    code: bytes | None = None
    key_kind: int | None = None
    signature: bytes = b""
    # a layer and a signature each
    countersignatures: tuple = ()

    @property
    def is_load(self):
        return self.kind in (LOAD, EMERGENCY)

    def spelled(self):
        end = b"".join(u8(layer) + u16(len(by)) + by for layer, by in self.countersignatures)
        return self.body + u16(len(self.signature)) + self.signature + u8(len(self.countersignatures)) + end


def read_target(reader):
    tag = reader.number(1, 1, 4)
    if tag == 1:
        return tag, 0, reader.take(16)
    if tag == 2:
        return tag, 0, reader.number(4)
    return tag, reader.number(1, 1, 3), reader.take(32)


def read_trusts(reader, differ):
    one = reader.number(1, ALWAYS, COUNTERSIGNED)
    two = reader.number(1, ALWAYS, COUNTERSIGNED) if differ else one
    if differ and one == two:
        raise chains.Unformed(reader.at - 1)
    return one, two


def read_body(reader):
    """The fields of an order's body."""
    kind = reader.number(1)
    differ = kind in (ESTABLISH + DIFFER, LOAD + DIFFER, EMERGENCY + DIFFER)
    kind -= DIFFER * differ
    if kind not in (ESTABLISH, SURRENDER, LOAD, EMERGENCY, NEW_KEY):
        raise chains.Unformed(0)
    fields = {"kind": kind, "layer": reader.number(1, 1 if kind == LOAD else 2, 3)}
    fields["targets"] = tuple(read_target(reader) for _ in range(reader.number(1, 0, 8)))
    if kind == ESTABLISH:
        fields |= {"owner": reader.key(), "trusts": read_trusts(reader, differ)}
    elif kind in (LOAD, EMERGENCY):
        fields |= {"version": reader.number(4), "trusts": read_trusts(reader, differ)}
        fields["code"] = reader.take(reader.number(4, 0, CODE))
    elif kind == NEW_KEY:
        fields["key_kind"] = reader.number(1, 0, 1)
    return fields


def read_countersignatures(reader, kind, layer):
    count = reader.number(1, 0, 3 - layer if kind in (LOAD, EMERGENCY) else 0)
    found, last = [], layer
    for left in range(count - 1, -1, -1):
        last = reader.number(1, last + 1, 3 - left)
        found.append((last, reader.take(reader.number(2, 0, SIGNATURE))))
    return tuple(found)


def read_order(bytes_):
    """The order that bytes spell, or NoOrder."""
    reader = chains.Reader(bytes_)
    try:
        fields = read_body(reader)
        body = bytes_[: reader.at]
        signature = reader.take(reader.number(2, 0, SIGNATURE))
        beside = read_countersignatures(reader, fields["kind"], fields["layer"])
        reader.end()
    except chains.Unformed:
        raise NoOrder from None
    return Order(body, signature=signature, countersignatures=beside, **fields)


def can_take(order, layer):
    """A countersignature of this layer can be added to the order."""
    return order.is_load and layer > order.layer and layer not in [known for known, _ in order.countersignatures]


def countersigned(order, layer, signature):
    """The order with one countersignature more."""
    beside = tuple(sorted((*order.countersignatures, (layer, signature))))
    return dataclasses.replace(order, countersignatures=beside)
