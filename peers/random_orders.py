#!/usr/bin/env python3
"""Random orders, by which a built program is compared with commands.py.

    random_orders.py PROGRAM [COUNT]      gives the program COUNT random orders, 1,000 if it is not said

The orders are of every kind, for every layer, with up to eight targets of every form, trusts that are equal and that
differ, code of no bytes up to the most, and signatures of no bytes up to the most, some of which verify. For each of
them what `showorder`, `ordered` and `cosign` print, their statuses, and the files that they leave have to be those that
commands.py predicts. One draft in two differs from its order in one place.
"""

import os
import pathlib
import random
import subprocess
import sys
import tempfile

import chains
import commands
import keys
import officer
import texts
from lms import HEIGHTS, WIDTHS, sha256, u32
from orders import CODE, EMERGENCY, ESTABLISH, LOAD, NEW_KEY, SIGNATURE, SURRENDER
from shown import KEY_KIND_WORDS, KIND_WORDS

ORDERS = 1_000
# loads come oftener, since they alone take countersignatures
KINDS = [ESTABLISH, SURRENDER, LOAD, LOAD, LOAD, LOAD, EMERGENCY, EMERGENCY, NEW_KEY]


def some_key(rng):
    return u32(rng.choice(list(HEIGHTS))) + u32(rng.choice(list(WIDTHS))) + rng.randbytes(48)


def some_number(rng):
    return rng.choice((0, 1, 9, 10, 255, 256, 2**31, 2**32 - 1, rng.randrange(2**32)))


def some_target(rng):
    layer = rng.randrange(1, 4)
    return rng.choice(
        (
            f"target serial {rng.randbytes(16).hex()}",
            f"target length {some_number(rng)}",
            f"target owner {layer} {rng.randbytes(32).hex()}",
            f"target code {layer} {rng.randbytes(32).hex()}",
        )
    )


def some_draft(rng):
    """The lines of a draft."""
    kind, layer = rng.choice(KINDS), rng.choice((2, 3))
    layer = rng.choice((1, 1, 2, 3)) if kind == LOAD else layer
    lines = [f"order {KIND_WORDS[kind]} {layer}"]
    if kind == NEW_KEY:
        lines[0] += f" {rng.choice(KEY_KIND_WORDS)}"
    lines += [some_target(rng) for _ in range(rng.choice((0, 0, 1, 2, 3, 8)))]
    one, two = (rng.choice(chains.TRUSTS) for _ in range(2))
    trusts = f"trust {one}" if rng.random() < 0.5 else f"trust {one} {two}"
    if kind == ESTABLISH:
        lines += [f"owner {some_key(rng).hex()}", trusts]
    if kind in (LOAD, EMERGENCY):
        code = rng.randbytes(rng.choice((0, 0, 1, 3, 255, 256, 4_096, CODE - 1, CODE)))
        lines += [f"version {some_number(rng)}", trusts, f"code {code.hex() or '-'}"]
    return lines


def turned(rng, lines):
    """The lines with one of them changed, so that they still are a draft; now and then it says the same."""
    lines, at = list(lines), rng.randrange(len(lines))
    words = lines[at].split(" ")
    if words[0] == "trust":
        words[rng.randrange(1, len(words))] = rng.choice(chains.TRUSTS)
    elif words[-1].isdigit() and words[0] != "order" and len(words[-1]) < 11:
        words[-1] = str(some_number(rng))
    elif words[0] in ("target", "code") and words[-1] != "-":
        bytes_ = bytearray.fromhex(words[-1])
        bytes_[rng.randrange(len(bytes_))] ^= 1 << rng.randrange(8)
        words[-1] = bytes_.hex()
    elif words[0] == "owner":
        words[-1] = words[-1][:16] + rng.randbytes(48).hex()
    elif words[-1] in KEY_KIND_WORDS:
        words[-1] = rng.choice(KEY_KIND_WORDS)
    lines[at] = " ".join(words)
    return lines


class Maker:
    """Makes random orders, with the files for the commands."""

    def __init__(self):
        self.signers = [keys.officers(sha256(b"officer", bytes([n]))) for n in range(3)]

    def signature(self, rng, text):
        """A signature of a text by one of the officers, or bytes that are none."""
        how = rng.random()
        if how < 0.55:
            return keys.signed(*rng.choice(self.signers), rng.randrange(32), text)
        if how < 0.65:
            return keys.signed(*rng.choice(self.signers), rng.randrange(32), text + b"\0")
        return rng.randbytes(rng.choice((0, 0, 1, 2_347, 2_348, 2_349, SIGNATURE)))

    def files(self, rng):
        """The files of an order, and the layer whose owner is to countersign it."""
        lines = some_draft(rng)
        draft = "".join(line + "\n" for line in lines)
        body = texts.read_draft(draft.encode())
        _, kind, at, *_ = lines[0].split(" ")
        above = [layer for layer in (2, 3) if layer > int(at)] if kind in ("load", "emergency") else []
        given = [layer for layer in above if rng.random() < 0.4]
        lacking = [layer for layer in above if layer not in given]
        beside = [(layer, self.signature(rng, bytes([2, layer]) + body)) for layer in given]
        order = officer.order(body, self.signature(rng, b"\1" + body), beside)
        own = turned(rng, lines) if rng.random() < 0.5 else lines
        identifier, seed = rng.choice(self.signers)
        files = {
            "order": b"command " + order.hex().encode() + b"\n",
            "draft": "".join(line + "\n" for line in own).encode(),
            "key": commands.key_file(identifier, seed, rng.choice((0, 1, 30, 31, 32))),
            "public": keys.key_of(*rng.choice(self.signers)).public(),
        }
        return files, rng.choice(lacking if lacking and rng.random() < 0.9 else (2, 3))


def compare(program, count):
    """Prints each call that ends otherwise than predicted, and how many there were."""
    rng, maker, wrong, calls = random.Random("orders"), Maker(), 0, 0
    with tempfile.TemporaryDirectory() as work:
        folder = pathlib.Path(work)
        for number in range(count):
            files, layer = maker.files(rng)
            for words in ("showorder order", "ordered public order", f"cosign key {layer} order draft out"):
                calls += 1
                found = called(program, folder, files, words.split(" "))
                answer = commands.answer(words.split(" "), commands.Folder(dict(files)))
                wanted = answer.status, answer.text, files | answer.written
                if found != wanted:
                    wrong += 1
                    print(f"order {number}: {words}: {found[:2]}, and not {wanted[:2]}")
    print(f"{calls} calls on {count} random orders: {wrong or 'none'} otherwise than predicted")
    return 1 if wrong else 0


def called(program, folder, files, words):
    """How the program ends with these words over these files: its status, what it prints, and the files after."""
    return called_and_told(program, folder, files, words)[:3]


def called_and_told(program, folder, files, words, **variables):
    """How the program ends with these words over these files, and these variables in its environment: its status, what
    it prints, the files after, and what it tells on standard error."""
    for path in folder.iterdir():
        path.unlink()
    for name, bytes_ in files.items():
        (folder / name).write_bytes(bytes_)
    environment = os.environ | variables
    ended = subprocess.run([program, *words], cwd=folder, capture_output=True, env=environment, check=False)
    after = {path.name: path.read_bytes() for path in folder.iterdir()}
    return ended.returncode, ended.stdout.decode(), after, ended.stderr.decode()


def main(words):
    if len(words) not in (1, 2):
        sys.exit(__doc__)
    return compare(str(pathlib.Path(words[0]).resolve()), int(words[1]) if words[1:] else ORDERS)


if __name__ == "__main__":
    sys.exit(main(sys.argv[1:]))
