"""What an order says and who signed it, from docs/use/formats.md and RFC 8554 alone."""

import chains
from lms import sha256
from lms import verify as verifies
from orders import EMERGENCY, ESTABLISH, LOAD, NEW_KEY, SURRENDER

KIND_WORDS = {ESTABLISH: "establish", SURRENDER: "surrender", LOAD: "load", EMERGENCY: "emergency", NEW_KEY: "newkey"}
KEY_KIND_WORDS = "epoch", "configuration"


def target_line(tag, layer, value):
    if tag == 1:
        return f"target serial {value.hex()}"
    if tag == 2:
        return f"target length {value}"
    return f"target {'owner' if tag == 3 else 'code'} {layer} {value.hex()}"


def first_line(order):
    line = f"order {KIND_WORDS[order.kind]} {order.layer}"
    return f"{line} {KEY_KIND_WORDS[order.key_kind]}" if order.kind == NEW_KEY else line


def trusts_line(trusts):
    one, two = (chains.TRUSTS[each] for each in trusts)
    return f"trust {one}" if one == two else f"trust {one} {two}"


def lines_of(order):
    """The lines that show an order."""
    lines = [first_line(order), *(target_line(*each) for each in order.targets)]
    if order.kind == ESTABLISH:
        lines.append(f"owner {sha256(order.owner).hex()}")
    if order.is_load:
        lines.append(f"version {order.version}")
    if order.trusts:
        lines.append(trusts_line(order.trusts))
    if order.is_load:
        lines.append(f"code {sha256(order.code).hex()} {len(order.code)}")
    lines += [f"body {sha256(order.body).hex()}", f"signature {len(order.signature)}"]
    return lines + [f"countersignature {layer} {len(by)}" for layer, by in order.countersignatures]


def names_of(public, order):
    """The names of the signatures that verify under a key."""
    names = ["in charge"] if verifies(public, b"\1" + order.body, order.signature) else []
    for layer, by in order.countersignatures:
        if verifies(public, bytes([2, layer]) + order.body, by):
            names.append(f"layer {layer}")
    return names
