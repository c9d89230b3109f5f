#!/usr/bin/env python3
"""Measures a workload of the built program: measure.py PROGRAM ROUNDS. See bench/run.sh, which runs it in a folder of
its own.

The time of some events is that of a run with them less that of a run without them, so that reading and writing the
files is no part of it. The write calls are found by arming a power loss: the last that falls is in the last write.
"""

import hashlib
import pathlib
import resource
import subprocess
import sys

RUNS = 5
KEYS = 20
# how often each put is given, since one takes far less than what a run differs from the next
PUTS = 200
# a power loss is armed for at most this write call
MOST_WRITES = 100_000
# the hashes of a public key's tree, on average of a signature by a tree, and of verifying a signature
TREE, SIGNED, VERIFIED = 34_399, 568, 514


def spent():
    used = resource.getrusage(resource.RUSAGE_CHILDREN)
    return used.ru_utime + used.ru_stime


class Program:
    def __init__(self, path):
        self.path = path

    def run(self, *words):
        done = subprocess.run([self.path, *words], capture_output=True, text=True)
        if done.returncode != 0:
            sys.exit(f"miniboot {' '.join(words)} ended with status {done.returncode}: {done.stdout}{done.stderr}")
        return done.stdout.splitlines()

    def time(self, runs, *words):
        """The least time of `runs` calls, in seconds of the processor."""
        times = []
        for _ in range(runs):
            began = spent()
            self.run(*words)
            times.append(spent() - began)
        return min(times)


class Workload:
    """The files of a workload, and what the program said of it."""

    def __init__(self, program, rounds):
        self.program, self.words = program, ["generate", "1", rounds, "image", "script", "noise"]
        self.summary = dict(line.split(" ") for line in program.run(*self.words))
        self.image, self.noise = (pathlib.Path(name).read_bytes() for name in ("image", "noise"))
        self.lines = pathlib.Path("script").read_text().splitlines()

    def serve(self, lines):
        """The replies to some of the lines, which have all the orders or none, so that the noise stays theirs."""
        pathlib.Path("image").write_bytes(self.image)
        pathlib.Path("script").write_text("".join(line + "\n" for line in lines))
        return self.program.run("run", "image", "script", "noise")

    def time(self, lines):
        times = []
        for _ in range(RUNS):
            began = spent()
            self.serve(lines)
            times.append(spent() - began)
        return min(times)

    def without(self, *words):
        return [line for line in self.lines if line.split(" ")[0] not in words]

    def writes(self, lines):
        """The number of write calls while these lines are served."""
        low, high = 0, 1
        while high < MOST_WRITES and self.stops(high, lines):
            low, high = high, min(2 * high, MOST_WRITES)
        while high - low > 1:
            middle = (low + high) // 2
            low, high = (middle, high) if self.stops(middle, lines) else (low, middle)
        return low

    def stops(self, count, lines):
        return "stopped" in self.serve([f"cut {count} fill 00", *lines])

    def compare_summary(self):
        """The summary says what serving the files comes to."""
        replies = self.serve(self.lines)
        found = {"events": len(replies)}
        for word in ("done", "signed", "refused"):
            found[word] = sum(reply.split(" ")[0] == word for reply in replies)
        found["length"] = [reply.split(" ")[2] for reply in replies if reply.startswith("done ")][-1]
        found["image"] = hashlib.sha256(pathlib.Path("image").read_bytes()).hexdigest()
        found = {name: str(value) for name, value in found.items()}
        if found != self.summary:
            sys.exit(f"the summary is {self.summary}, and serving the files gives {found}")


def kind_of(order):
    """The kind and the layer of an order, and how many countersignatures it has."""
    kind, layer, at = order[0], order[1], 3
    for _ in range(order[2]):
        at += {1: 17, 2: 5, 3: 34, 4: 34}[order[at]]
    if kind in (3, 4):
        at += 9 + int.from_bytes(order[at + 5 : at + 9], "big")
    else:
        at += {1: 57, 2: 0, 5: 1}[kind]
    at += 2 + int.from_bytes(order[at : at + 2], "big")
    return kind, layer, order[at]


def hashes(lines):
    """The hashes of the trees and signatures: of the image's device key, of the orders, and of the signatures of
    layers.

    The tree of the device key is kept from the first order of a boot on, that of a region's key from a signature to the
    next order or signature of another key.
    """
    count, device, region = TREE, False, None
    for word, *words in (line.split(" ") for line in lines):
        if word == "command":
            kind, layer, beside = kind_of(bytes.fromhex(words[0]))
            makes_key = kind == 5 or (kind, layer) == (3, 1)
            count += VERIFIED * (1 + beside) + SIGNED + TREE * (makes_key + (not device))
            device, region = True, None
        elif word == "sign":
            count += SIGNED + TREE * (region != words[:2])
            region = words[:2]
        elif word in ("boot", "off", "tamper"):
            device, region = False, None
    return count


def row(what, text):
    print(f"  {what:23} {text}", flush=True)


def put_often(lines):
    """The lines with each put given often, whose value and that of the next put take turns."""
    puts = [line.split(" ") for line in lines if line.startswith("put ")]
    values = {line[2]: after[3] for line, after in zip(puts, puts[1:] + puts[:1])}
    for line in lines:
        words = line.split(" ")
        yield from [line, " ".join([*words[:3], values[words[2]]])] * (PUTS // 2) if words[0] == "put" else [line]


def rates(workload, loading):
    """How many orders, puts and signatures are served in a second, and their write calls; and all write calls."""
    orders, puts, signs = workload.without("put", "sign"), workload.without("sign"), workload.without("put")
    times = [workload.time(lines) for lines in (orders, list(put_often(puts)), signs)]
    writes = [workload.writes(lines) for lines in (orders, puts, workload.lines)]
    rows = [
        ("orders", "command", 1, times[0] - loading, writes[0]),
        ("puts", "put", PUTS, times[1] - times[0], writes[1] - writes[0]),
        ("signatures", "sign", 1, times[2] - times[0], writes[2] - writes[1]),
    ]
    for what, word, often, seconds, calls in rows:
        count = sum(line.startswith(word + " ") for line in workload.lines)
        row(what, f"{count * often / seconds:.0f} a second, {calls / count:.1f} write calls each")
    row("write calls in all", str(writes[2]))


def main(path, rounds):
    program = Program(path)
    pathlib.Path("key.noise").write_bytes(bytes(32))
    key_time = program.time(KEYS, "keygen", "key.noise", "key", "public") - program.time(KEYS, "--version")
    hash_time = key_time / TREE
    workload = Workload(program, rounds)
    workload.compare_summary()
    told = ", ".join(f"{number} {name}" for name, number in workload.summary.items() if name in ("events", "done", "signed"))
    print(f"{rounds} rounds: {told}, {workload.summary['refused']} refused, a log of {workload.summary['length']}")
    row("generating and serving", f"{program.time(RUNS, *workload.words):.3f} s")
    serving, loading = workload.time(workload.lines), workload.time(["off"])
    row("serving", f"{serving:.3f} s, {loading:.3f} s of it for loading the image and writing it")
    rates(workload, loading)
    count = hashes(workload.lines)
    share = f"{100 * count * hash_time / serving:.0f} % of serving"
    row("trees and signatures", f"{count} hashes, at {hash_time * 1e9:.0f} ns {share}")


if __name__ == "__main__":
    main(*sys.argv[1:])
