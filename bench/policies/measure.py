#!/usr/bin/env python3
"""Measures `trust` of the built program beside `verify`. See bench/policies.sh, which runs it.

    measure.py PROGRAM FOLDER
"""

import hashlib
import pathlib
import resource
import subprocess
import sys

sys.path.insert(0, str(pathlib.Path(__file__).resolve().parents[2] / "peers"))

import chains  # noqa: E402
import device  # noqa: E402

ROUNDS = 5
# lines of sets of 64 hashes among the 256 lines of a policy
SETS = 8
# the first key of layer 3, which lives on through each later load of the layer
KEY = "9"
FILE_LIMIT = 4_194_304


def spent():
    used = resource.getrusage(resource.RUSAGE_CHILDREN)
    return used.ru_utime + used.ru_stime


class Bench:
    """Times of calls, in seconds of the processor: the least of some rounds."""

    def __init__(self, program, folder):
        self.program, self.folder = program, folder

    def time(self, *words, printed=None):
        """The time of a call, which is done and prints this."""
        times = []
        for _ in range(ROUNDS):
            began = spent()
            done = subprocess.run([self.program, *words], cwd=self.folder, capture_output=True, text=True)
            times.append(spent() - began)
        if done.returncode != 0 or printed not in (None, done.stdout):
            sys.exit(f"{' '.join(words)}: {done.stdout}{done.stderr}")
        return min(times)

    def trust(self, policy):
        """The time of `trust` by this policy, which allows the key."""
        (self.folder / "policy").write_text(policy)
        return self.time("trust", "root", "chain", KEY, "policy", printed="allowed\n")


def hash_set(number):
    """A set of 64 hashes of nothing that a device has."""
    hashes = (hashlib.sha256(f"{number} {index}".encode()).hexdigest() for index in range(64))
    return f"set s{number} {' '.join(hashes)}\n"


def full_policy():
    """256 lines: sets, and rules that all ask whether code or an owner is in a set, which none is, up to the last."""
    rules = [
        f"deny r{number} {('code', 'owner')[number % 2]} {number % 3 + 1} s{number % SETS}\n"
        for number in range(256 - SETS - 1)
    ]
    return "".join(map(hash_set, range(SETS))) + "".join(rules) + "allow all alive\n"


def joined(word, leaf, count):
    """`count` tests, joined by a word in a tree as flat as can be."""
    if count == 1:
        return leaf
    return f"{word} {joined(word, leaf, count // 2)} {joined(word, leaf, count - count // 2)}"


def largest_policy(begins, word, leaf):
    """As many tests as a file holds, in rules that deny, each of which is tried to its end and does not hold; and how
    many these are."""
    first, last, rules = hash_set(0), "allow all alive\n", 254
    room = (FILE_LIMIT - len(first) - len(last)) // rules - len(f"deny r000 {begins}\n")
    count = (room + len(f"{word} ")) // len(f"{word} {leaf} ")
    lines = (f"deny r{number} {begins}{joined(word, leaf, count)}\n" for number in range(rules))
    text = first + "".join(lines) + last
    if not FILE_LIMIT - 16_384 < len(text) <= FILE_LIMIT:
        sys.exit(f"the policy has {len(text):,} bytes")
    return text, rules * count


def main(words):
    program, folder = pathlib.Path(words[0]).resolve(), pathlib.Path(words[1])
    bench = Bench(program, folder)
    made = device.full()[0]
    (folder / "root").write_bytes(made.maker.public())
    (folder / "chain").write_bytes(made.chain())
    life = chains.accepted(made.maker.public(), made.chain(), int(KEY))[0]
    verifying = bench.time("verify", "root", "chain", KEY)
    print(f"verify, {len(made.log)} entries, {len(life.configurations)} configurations: {verifying * 1e3:.1f} ms")
    trusting = bench.trust(full_policy())
    judging = trusting - verifying
    print(f"trust, 256 lines, {SETS} sets of 64 hashes: {trusting * 1e3:.1f} ms, {judging * 1e3:.1f} ms more than verify")
    for begins, word, leaf in (("", "or", "code 1 s0"), ("not ", "and", "alive")):
        policy, count = largest_policy(begins, word, leaf)
        print(f"trust, {count:,} tests `{leaf}` in {len(policy):,} bytes: {bench.trust(policy):.2f} s")
    if judging > verifying:
        sys.exit("the policy of 256 lines takes longer than verifying")


if __name__ == "__main__":
    main(sys.argv[1:])
