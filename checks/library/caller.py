#!/usr/bin/env python3
"""Calls the library from Python on values of another program: caller.py LIBRARY FOLDER, a shared library made of the
archive, and the folder of vectors. Prints how many answers were as they should be, and each that was not; ends with
status 1 if there is one."""

import ctypes
import hashlib
import pathlib
import sys

Bytes, Length, Number = ctypes.c_char_p, ctypes.c_size_t, ctypes.c_uint32


class Details(ctypes.Structure):
    """What a call tells beside its code, as mb_library.h declares it."""

    _fields_ = [("listing", Length)] + [
        (name, Number) for name in ("offset", "entry", "named", "last", "line", "configuration")]


class Stated(ctypes.Structure):
    """What is told of a statement, as mb_library.h declares it."""

    _fields_ = [("kind", Number), ("length", Number), ("input", ctypes.c_uint8 * 32), ("bytes", ctypes.c_uint8 * 128)]


class Library:
    """The calls of the library over bytes."""

    def __init__(self, path):
        self.calls = ctypes.CDLL(path)
        self.calls.mb_lms_verify.restype = self.calls.mb_hss_verify.restype = ctypes.c_bool
        self.calls.mb_lms_verify.argtypes = self.calls.mb_hss_verify.argtypes = [Bytes, Bytes, Length, Bytes, Length]
        for call in (self.calls.mb_lms_verdict, self.calls.mb_chain_verify, self.calls.mb_chain_said, self.calls.mb_trust):
            call.restype = Number
        details = ctypes.POINTER(Details)
        self.calls.mb_lms_verdict.argtypes = [Bytes, Length, Bytes, Length, Bytes, Length]
        self.calls.mb_chain_verify.argtypes = [Bytes, Bytes, Length, Number, Bytes, Length, details]
        self.calls.mb_chain_said.argtypes = [Bytes, Bytes, Length, Number, ctypes.POINTER(Stated), details]
        self.calls.mb_trust.argtypes = [Bytes, Bytes, Length, Number, Bytes, Length, details]

    def lms_verify(self, key, text, signature):
        return len(key) == 56 and self.calls.mb_lms_verify(key, text, len(text), signature, len(signature))

    def lms_verdict(self, key, text, signature):
        return self.calls.mb_lms_verdict(key, len(key), text, len(text), signature, len(signature))

    def hss_verify(self, key, text, signature):
        return len(key) == 60 and self.calls.mb_hss_verify(key, text, len(text), signature, len(signature))

    def chain_verify(self, maker, chain, key, room):
        """The code, the listing, and the details."""
        listing, details = ctypes.create_string_buffer(max(room, 1)), Details()
        code = self.calls.mb_chain_verify(maker, chain, len(chain), key, listing, room, ctypes.byref(details))
        return code, listing.raw[: details.listing] if code == 0 else b"", details

    def chain_said(self, maker, chain, key):
        """The code, the kind of the statement, the hash of its input, and its bytes."""
        stated, details = Stated(), Details()
        code = self.calls.mb_chain_said(maker, chain, len(chain), key, ctypes.byref(stated), ctypes.byref(details))
        return code, stated.kind, bytes(stated.input), bytes(stated.bytes[: stated.length])

    def trust(self, maker, chain, key, policy):
        details = Details()
        code = self.calls.mb_trust(maker, chain, len(chain), key, policy, len(policy), ctypes.byref(details))
        return code, details


def rows(path):
    for number, line in enumerate(path.read_text().splitlines(), 1):
        if not line.startswith("#"):
            verdict, *words = line.split()
            yield number, verdict == "1", *(bytes.fromhex(word.replace("-", "")) for word in words)


def policies(path):
    """The blocks of a file of policies: the code, the place, and the text."""
    for block in path.read_text().partition("\n= ")[2].split("\n= "):
        head, _, text = block.partition("\n")
        code, place = map(int, head.split())
        yield code, place, (text if text.endswith("\n") or not text else text + "\n").encode()


def answers(library, folder):
    """What was asked, and whether it was answered as it should be."""
    for line, _, key, text, signature in rows(folder / "lms.txt"):
        yield f"lms.txt:{line}", library.lms_verify(key, text, signature)
        yield f"lms.txt:{line}: its verdict", library.lms_verdict(key, text, signature) == 0
        yield f"lms.txt:{line}: a longer text", library.lms_verdict(key, text + b"x", signature) == 2
        yield f"lms.txt:{line}: a shorter key", library.lms_verdict(key[:-1], text, signature) == 1
        yield f"lms.txt:{line}: no signature", not library.lms_verify(key, text, b"")
    for line, verifies, key, text, signature in rows(folder / "hss.txt"):
        yield f"hss.txt:{line}", library.hss_verify(key, text, signature) == verifies
    maker, chain, listing = ((folder / name).read_bytes() for name in ("maker", "chain", "listing"))
    code, listed, details = library.chain_verify(maker, chain, 1, 0)
    yield "a chain without room", code == 5
    yield "a chain", library.chain_verify(maker, chain, 1, details.listing)[:2] == (0, listing)
    code, _, details = library.chain_verify(maker, chain[:-1], 1, 4096)
    yield "a shorter chain", code == 20 and 0 < details.offset < len(chain)
    hashed, none = hashlib.sha256(b"an input").digest(), bytes(32)
    said, message, answer = ((folder / f"said_{name}").read_bytes() for name in ("maker", "message", "answer"))
    yield "no statement", library.chain_said(maker, chain, 1) == (0, 0, none, b"")
    yield "a message", library.chain_said(said, message, 1) == (0, 1, none, b"hello")
    yield "an answer", library.chain_said(said, answer, 1) == (0, 2, hashed, b"abc")
    yield "an answer of no key", library.chain_said(said, answer, 9) == (24, 0, none, b"")
    fresh = b"set now " + hashed.hex().encode() + b"\nallow fresh and called and last input now\n"
    yield "a fresh answer", library.trust(said, answer, 1, fresh)[0] == 0
    yield "no fresh answer", library.trust(said, message, 1, fresh)[0] == 7
    for number, (wanted, place, policy) in enumerate(policies(folder / "policies.txt")):
        code, details = library.trust(maker, chain, 1, policy)
        told = {6: details.line, 7: details.configuration}.get(code, 0)
        yield f"policy {number}: {code} {told} for {wanted} {place}", (code, told) == (wanted, place)


def main(library, folder):
    given = list(answers(Library(library), pathlib.Path(folder)))
    wrong = [what for what, holds in given if not holds]
    for what in wrong:
        print("wrong:", what)
    print(f"Python: {len(given) - len(wrong)} right, {len(wrong)} wrong")
    return 1 if wrong else 0


if __name__ == "__main__":
    sys.exit(main(*sys.argv[1:]))
