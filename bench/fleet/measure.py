#!/usr/bin/env python3
"""Measures `fleet` of the built program. See bench/fleet.sh, which runs it.

    measure.py PROGRAM FOLDER DEVICES ENTRIES

The devices share keys and all entries but their births, which name their serials, so that they are soon made. All times
are those of the processor.
"""

import pathlib
import resource
import subprocess
import sys

sys.path.insert(0, str(pathlib.Path(__file__).resolve().parents[2] / "peers"))

import chains  # noqa: E402
import device  # noqa: E402
import fleet  # noqa: E402
from lms import D_MESG, Chains, sha256, u8, u16, u32  # noqa: E402

RUNS, KEYS = 5, 20
# the most bytes of a file of items
LONGEST = chains.LONGEST_FILE
# the hashes of a public key; `keygen` shows the time of one
TREE = 34_399
# the number of devices in the small registers that are compared with full ones
FEW = 8
W4 = Chains(3)


def spent():
    used = resource.getrusage(resource.RUSAGE_CHILDREN)
    return used.ru_utime + used.ru_stime


def hashes(key, text, signature):
    """The hashes of verifying a signature of types 5 and 3: of the text, the chains, their ends, the leaf and the
    path."""
    identifier, leaf = key[8:24], signature[:4]
    hashed = sha256(identifier, leaf, u16(D_MESG), signature[8:40], text)
    return 1 + sum(W4.last - steps for steps in W4.spread(hashed)) + 2 + 5


class Devices:
    """Devices of one maker, as many as are asked for, whose logs differ in their births alone."""

    def __init__(self, count, entries):
        made, _ = device.full()
        self.maker, self.entries = made.maker, entries
        self.log = made.log[:entries]
        self.rest = [b"".join(part) for part in self.log[1:]]
        self.births = dict(sorted(self.birth(number) for number in range(count)))
        rows = chains.signatures(self.maker.public(), self.chain(next(iter(self.births)), entries))
        self.hashes = [hashes(*row) for row in rows]

    def birth(self, number):
        """A serial, and the signed birth of its device. The maker's indices are used again and again."""
        serial, text = sha256(b"fleet", u32(number))[:16], self.log[0][0]
        text = text[:1] + serial + text[17:]
        return serial, text + self.maker.key.sign(number % 32, u8(3) + text)

    def chain(self, serial, count):
        """The chain of the first entries of a device."""
        return b"MBC1" + u16(count) + self.births[serial] + b"".join(self.rest[: count - 1]) + u8(0)

    def files(self, count):
        """Files of items, each as long as a file may be, that show the first entries of each device: what the file is,
        and the serials in it."""
        items, serials = b"", []
        for serial in self.births:
            item = fleet.shows(self.chain(serial, count))
            if len(items) + len(item) > LONGEST:
                yield items, serials
                items, serials = b"", []
            items, serials = items + item, [*serials, serial]
        yield items, serials


class Program:
    """The program in a folder with a root and a register."""

    def __init__(self, path, folder):
        self.path, self.folder = path, folder

    def run(self, *words, status=0):
        """What a call prints, and its time."""
        began = spent()
        done = subprocess.run([self.path, *words], cwd=self.folder, capture_output=True, text=True)
        time = spent() - began
        if done.returncode != status:
            sys.exit(f"miniboot {' '.join(words)} ended with status {done.returncode}: {done.stdout}{done.stderr}")
        return done.stdout, time

    def least(self, runs, *words, status=0):
        return min(self.run(*words, status=status)[1] for _ in range(runs))

    def write(self, name, bytes_):
        (self.folder / name).write_bytes(bytes_)

    def read(self, name):
        return (self.folder / name).read_bytes()

    def serve(self, register, items, wanted):
        """The time of serving items, whose answers have to be these lines."""
        self.write("items", items)
        printed, time = self.run("fleet", "root", register, "items")
        if printed.splitlines() != wanted:
            sys.exit("the answers are not those that are wanted")
        return time

    def each(self, register, items, wanted, count):
        """The least time of one of `count` items, without that of a call with no items."""
        alone = min(self.serve(register, b"", []) for _ in range(RUNS))
        return (min(self.serve(register, items, wanted) for _ in range(RUNS)) - alone) / count


def verifying(program, chain, alone):
    """The time of verifying a chain for a key that it does not have: all its entries, and nothing of a key."""
    program.write("chain", chain)
    return program.least(KEYS, "verify", "root", "chain", str(0xFFFFFFFF), status=7) - alone


def show_all(program, devices, word, count, hash_time, alone):
    """Shows the first entries of each device, and prints the shares of verifying the chains and of the hashes in it."""
    time, calls = 0, 0
    for items, serials in devices.files(count):
        time += program.serve("register", items, [f"{word} {serial.hex()} {count}" for serial in serials])
        calls += 1
    shown = len(devices.births)
    signatures = shown * sum(devices.hashes[:count]) * hash_time
    print(f"{shown} devices {word} with {count} entries each: {time:.2f} s in {calls} calls, {time / shown * 1e3:.2f} ms each")
    verified = shown * verifying(program, devices.chain(next(iter(devices.births)), count), alone)
    print(f"  of which verifying the chains, as `verify` does, takes {verified:.2f} s, {verified / time:.1%}")
    print(f"  and the hashes of their {shown * count:,} signatures take {signatures:.2f} s, {signatures / time:.1%}")


def made_register(count):
    """A register of `count` devices of 128 entries, each of which has code of its own in layer 3."""
    rows = {}
    for number in range(count):
        code, hashed = sha256(b"code", u32(number)), tuple(sha256(u32(number), u8(entry)) for entry in range(128))
        rows[sha256(u32(number))[:16]] = fleet.Row(number, (sha256(b"one"), sha256(b"two"), code), hashed)
    return rows


def ask(program, few, many):
    """Questions for the device with a code, to registers of few and of many devices."""
    times = []
    for name, count in ("few", few), ("many", many):
        rows = made_register(count)
        serial, row = sorted(rows.items())[-1]
        program.write(name, fleet.spelled(rows))
        question, often = u8(fleet.FIND) + u8(3) + row.codes[2], LONGEST // 34
        wanted = ["found 1", f"serial {serial.hex()}"] * often
        times.append(program.each(name, question * often, wanted, often) * 1e6)
    print(f"a question for one device: {times[0]:.2f} us among {few}, {times[1]:.2f} us among {many}")


def show_again(program, devices, few):
    """Births of devices that have shown more, to registers of few and of all devices."""
    rows = chains.Reader(program.read("register")).whole(fleet.register_at)
    serials = sorted(rows)[-few:]
    births = [fleet.shows(devices.chain(serial, 1)) for serial in serials]
    often = LONGEST // sum(map(len, births))
    wanted = [f"refused 31 older {serial.hex()} {devices.entries}" for serial in serials] * often
    times = []
    for name, kept in ("few", {serial: rows[serial] for serial in serials}), ("many", rows):
        program.write(name, fleet.spelled(kept))
        times.append(program.each(name, b"".join(births) * often, wanted, often * few) * 1e6)
    print(f"a chain of one entry: {times[0]:.1f} us among {few} devices, {times[1]:.1f} us among {len(rows)}")


def main(path, folder, count, entries):
    program, count, entries = Program(pathlib.Path(path).resolve(), pathlib.Path(folder)), int(count), int(entries)
    devices, few = Devices(count, entries), min(FEW, count)
    program.write("root", devices.maker.public())
    program.write("register", fleet.spelled({}))
    program.write("noise", bytes(32))
    alone = program.least(KEYS, "--version")
    hash_time = (program.least(KEYS, "keygen", "noise", "key", "public") - alone) / TREE
    print(f"one hash, by keygen: {hash_time * 1e9:.0f} ns")
    show_all(program, devices, "added", entries - 1, hash_time, alone)
    show_all(program, devices, "extended", entries, hash_time, alone)
    bytes_ = len(program.read("register"))
    program.write("items", b"")
    once = program.least(RUNS, "fleet", "root", "register", "items")
    print(f"the register of {bytes_:,} bytes read and written: {once * 1e3:.1f} ms, {alone * 1e3:.1f} of them for the start")
    ask(program, few, count)
    show_again(program, devices, few)


if __name__ == "__main__":
    main(*sys.argv[1:])
