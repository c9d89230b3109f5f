#!/usr/bin/env python3
"""Measures `verify` of the built program. See bench/chains.sh, which runs it.

    measure.py PROGRAM FOLDER [NANOSECONDS]   of one hash by OpenSSL

It leaves the signatures of each chain in FOLDER, as lines KEY TEXT SIGNATURE.
"""

import pathlib
import resource
import subprocess
import sys

sys.path.insert(0, str(pathlib.Path(__file__).resolve().parents[2] / "peers"))

import chains  # noqa: E402
import device  # noqa: E402
from lms import D_MESG, Chains, sha256, u16  # noqa: E402

ROUNDS = 5
# the number of calls in a round, by the entries of the chain
CALLS = {8: 20, 128: 3}
W4 = Chains(3)


def spent():
    used = resource.getrusage(resource.RUSAGE_CHILDREN)
    return used.ru_utime + used.ru_stime


class Bench:
    """Times of calls, in seconds of the processor: the least of some rounds."""

    def __init__(self, program, folder):
        self.program, self.folder = program, folder

    def time(self, count, *words):
        """The time of a call, which is made `count` times in a round, and what it prints."""
        times = []
        for _ in range(ROUNDS):
            began = spent()
            for _ in range(count):
                done = subprocess.run([self.program, *words], cwd=self.folder, capture_output=True, text=True)
            times.append((spent() - began) / count)
        if done.returncode != 0:
            sys.exit(f"{' '.join(words)}: {done.stdout}{done.stderr}")
        return min(times), done.stdout


def hashes(key, text, signature):
    """The hashes of verifying a signature of types 5 and 3: of the text, the chains, their ends, the leaf and the
    path."""
    identifier, leaf = key[8:24], signature[:4]
    hashed = sha256(identifier, leaf, u16(D_MESG), signature[8:40], text)
    return 1 + sum(W4.last - steps for steps in W4.spread(hashed)) + 2 + 5


def short():
    """A device whose log has 8 entries."""
    made = device.owned()
    made.make_key(3)
    made.load(1)
    made.load(3)
    return made


def measure(bench, made, nanoseconds):
    """A chain by `verify`, beside its hashes."""
    maker, chain, count = made.maker.public(), made.chain(), len(made.log)
    rows = list(chains.signatures(maker, chain))
    names = f"root-{count}", f"chain-{count}"
    for name, bytes_ in zip(names, (maker, chain)):
        (bench.folder / name).write_bytes(bytes_)
    lines = "".join(" ".join(part.hex() for part in row) + "\n" for row in rows)
    (bench.folder / f"signatures-{count}").write_text(lines)
    alone, _ = bench.time(CALLS[count], "--version")
    whole, printed = bench.time(CALLS[count], "verify", *names, "1")
    if printed.splitlines() != list(chains.listing(1, *chains.accepted(maker, chain, 1)[:2])):
        sys.exit(f"the listing of {count} entries is not that of peers/chains.py")
    total = sum(hashes(*row) for row in rows)
    time = whole - alone
    print(f"verify, {count} entries: {whole * 1e3:.2f} ms, of which {alone * 1e3:.2f} ms for the start of the program")
    each = f"{time / total * 1e9:.0f} ns each"
    print(f"  each entry {time / count * 1e3:.3f} ms; {total:,} hashes, {total / count:.0f} a signature, {each}")
    if nanoseconds:
        time = total * nanoseconds / 1e6
        print(f"  OpenSSL, as many hashes: {time:.2f} ms, {time / count:.3f} ms a signature, {nanoseconds:.0f} ns each")


def main(words):
    program, folder = pathlib.Path(words[0]).resolve(), pathlib.Path(words[1])
    nanoseconds = float(words[2]) if words[2:] and words[2] else None
    bench = Bench(program, folder)
    for made in (short(), device.full()[0]):
        measure(bench, made, nanoseconds)


if __name__ == "__main__":
    main(sys.argv[1:])
