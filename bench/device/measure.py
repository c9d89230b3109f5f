#!/usr/bin/env python3
"""Measures the device of the built program. See bench/device.sh, which runs it."""

import itertools
import pathlib
import resource
import shutil
import sys
import tempfile

HERE = pathlib.Path(__file__).resolve().parents[2]
sys.path[:0] = [str(HERE / "checks" / "cuts"), str(HERE / "peers")]

import applications  # noqa: E402
import device  # noqa: E402
import random_calls  # noqa: E402
from lives import Event, first_life, late_life, opening  # noqa: E402
from program import Program, Script, Wrong  # noqa: E402

EVENTS = 65_536
ROUNDS = 5
# An event has at most 471 write calls.
MOST_WRITES = 471


def spent():
    used = resource.getrusage(resource.RUSAGE_CHILDREN)
    return used.ru_utime + used.ru_stime


class Bench:
    """Times of runs, in seconds of the processor: the least of some rounds."""

    def __init__(self, program):
        self.program = program

    def time(self, image, *events):
        """The time of a run, with its replies."""
        times = []
        for _ in range(ROUNDS):
            began = spent()
            replies, _ = self.program.serve(image, Script().add(*events))
            times.append(spent() - began)
        return min(times), replies

    def keygen(self):
        """The time of making a key, beside that of saying the version."""
        times = [[], []]
        (self.program.folder / "noise").write_bytes(bytes(32))
        for _ in range(ROUNDS):
            for number, words in enumerate((["--version"], ["keygen", "noise", "key", "public"])):
                began = spent()
                self.program.run(*words)
                times[number].append(spent() - began)
        return min(times[1]) - min(times[0])

    def factory(self):
        """The time of making a new device, beside that of saying the version."""
        folder = self.program.folder
        (folder / "noise").write_bytes(bytes(48))
        (folder / "code").write_bytes(b"code")
        self.program.run("keygen", "noise", "key", "public")
        key = (folder / "key").read_bytes()
        times = [[], []]
        for _ in range(ROUNDS):
            (folder / "key").write_bytes(key)
            words = ["factory", "noise", "key", "public", "code", "device"]
            for number, words in enumerate((["--version"], words)):
                began = spent()
                self.program.run(*words)
                times[number].append(spent() - began)
        return min(times[1]) - min(times[0])

    def more(self, image, before, events, wanted):
        """How much longer a run takes with some more events, whose replies all begin with `wanted`."""
        alone, _ = self.time(image, *before, "off")
        both, replies = self.time(image, *before, *events, "off")
        told = replies[len(before) : -1]
        if not all(reply.startswith(wanted) for reply in told):
            raise Wrong(f"{set(told)}, and not {wanted}")
        return both - alone

    def cut(self, event, count):
        """Whether power failed in this write of an event, and the image that is left."""
        script = Script().add(*opening(event.level), f"cut {count} fill 00", event.line)
        replies, image = self.program.serve(event.image, script)
        return replies[-1] == "stopped", image

    def counts(self, event, count):
        """Whether the event counts if power fails in this write: the log is longer then."""
        shown = self.program.serve(self.cut(event, count)[1], Script().add("boot", "status"))[0][-1]
        return shown.split(" ")[3] == event.reply.split(" ")[2]


def first_that(holds, low, high):
    """The first number from low to high for which this holds, if it holds for all from there on; high, if for none."""
    while low < high:
        middle = (low + high) // 2
        low, high = (low, middle) if holds(middle) else (middle + 1, high)
    return low


class Table:
    """Rows of what is measured, beside how many trees of a key take as long."""

    def __init__(self, bench):
        self.tree = bench.keygen()
        self.row("keygen: one tree of 34,399 hashes", self.tree)
        self.row("factory", bench.factory())

    def row(self, what, seconds, each=1, note=""):
        time = seconds / each
        print(f"{what:36} {time * 1e3:9.4f} ms {time / self.tree:8.4f} trees  {note}".rstrip(), flush=True)


def measure_loads(table, bench, life, full):
    """Loading images, with a script that says `off` alone."""
    for what, image in ("a new device", life.events[0].image), ("a log of 128, 16 keys", full):
        table.row("loading " + what, bench.time(image, "off")[0])


def measure_many(table, bench, image):
    """Many events of a kind that writes nothing, and of those that write a region."""
    last = "value 35363738"
    count = EVENTS - 2
    for what, line, wanted in ("status", "status", "status "), ("get", "get 2 pin", last):
        table.row(what, bench.more(image, ["boot"], [line] * count, wanted), count, f"of {count}")
    puts = ["put 2 pin 31323334", "put 2 pin 35363738"] * 1000
    table.row("put of a known name", bench.more(image, ["boot"], puts, "kept"), len(puts), "of 2000")
    # each value that is dropped is put first, which takes as long as the puts above
    drops = ["put 2 other 00", "drop 2 other"] * 1000
    table.row("put of a new name, and drop", bench.more(image, ["boot"], drops, ("kept", "dropped")), 1000, "of 1000")
    table.row("put of what stands there", bench.more(image, ["boot"], puts[1:2] * 2000, "kept"), 2000, "of 2000")
    boots = ["boot", "off"] * 2000
    table.row("boot of a clean memory, and off", bench.more(image, [], boots, ("booted", "off")), 2000, "of 2000")


def counting_down(count):
    """Code that takes calls: it counts down, five steps each time, and answers nothing."""
    code = f"push 1296193585\npop\npush {count}\nlabel a\npush 1\nsub\ndup\njumpzero b\njump a\nlabel b\n"
    return applications.assemble(f"{code}push 0\nemit\npush 0\nemit\nhalt\n".encode())


def measure_calls(table, bench):
    """Calls of few steps and of nearly 1,000,000, without a key and with one, beside the signature of a message."""
    for what, count, often in ("few steps", 1, 400), ("999,957 steps", 199_990, 40):
        made = random_calls.Made()
        for layer in (2, 3):
            made.establish(layer)
        for layer, code in (2, b"code"), (3, counting_down(count)):
            made.load_code(layer, device.EMERGENCY, code)
        for layer in (2, 3):
            made.make_key(layer)
        image = made.image()
        calls = ["call 3 - -"] * often
        table.row(f"call of {what}", bench.more(image, ["boot"], calls, "called -"), often, f"of {often}")
        calls = ["call 3 2 -"] * 29
        table.row("  signed", bench.more(image, ["boot", calls[0]], calls, "signed "), 29, "each later one, of 29")
    signs = ["sign 2 1 -"] * 29
    table.row("sign beside them", bench.more(image, ["boot", signs[0]], signs, "signed "), 29, "each later one, of 29")


def measure_one_boot(table, bench, life, image):
    """Statements and orders of one boot: the first, each later one, and statements by two keys in turn."""
    sign, other = "sign 3 2 68656c6c6f", "sign 2 1 68656c6c6f"
    table.row("sign, the first of a boot", bench.more(image, ["boot"], [sign], "signed "))
    later = [sign] * 29
    table.row("  each later one", bench.more(image, ["boot", sign], later, "signed "), len(later), "of 29")
    turns = [sign, other] * 15
    table.row("  by two keys in turn", bench.more(image, ["boot"], turns, "signed "), len(turns), "of 30")
    first, *rest = itertools.takewhile(Event.is_order, life.events)
    table.row("an order, the first of a boot", bench.more(first.image, ["boot"], [first.line], "done "))
    keyless = list(itertools.takewhile(lambda event: not event.name.startswith("newkey "), rest))
    before = ["boot", first.line]
    for what, events in ("makes no key", keyless), ("makes one", rest[len(keyless) :]):
        names = ", ".join(event.name for event in events)
        lines = [event.line for event in events]
        seconds = bench.more(first.image, before, lines, "done ")
        table.row(f"  each later one that {what}", seconds, len(lines), f"of {len(lines)}: {names}")
        before += lines
    one, two = (event for event in life.events if event.name in ("load 1 with 2 with 3", "load 1 with 2"))
    table.row("  a later load of layer 1", bench.more(one.image, ["boot", one.line], [two.line], "done "))


def turned(line):
    """An order whose signature has the lowest bit of the last node of its path flipped."""
    return f"{line[:-3]}{int(line[-3], 16) ^ 1:x}{line[-2:]}"


def measure_refused(table, bench, event):
    """An order that is refused for its signature, and bytes that are no order."""
    line, noise = event.line
    refused = [(turned(line), noise)] * 400
    seconds = bench.more(event.image, ["boot"], refused, "refused 13 ")
    table.row("an order refused for its signature", seconds, 400, "of 400")
    none = [("command 00", noise)] * 20000
    table.row("bytes that are no order", bench.more(event.image, ["boot"], none, "refused 10 "), 20000, "of 20000")


def measure_orders(table, bench, events):
    """Orders, each with the number of its write calls, and the boot after the first cut that leaves work pending."""
    for event in events:
        writes = first_that(lambda count: not bench.cut(event, count)[0], 1, MOST_WRITES + 1) - 1
        first = first_that(lambda count: bench.counts(event, count), 1, writes)
        seconds = bench.more(event.image, ["boot"], [event.line], "done ")
        table.row(event.name, seconds, 1, f"{writes} writes, log of {event.reply.split(' ')[2]} afterwards")
        left = bench.cut(event, first)[1]
        table.row("  the boot after a cut", bench.more(left, [], ["boot"], "booted"), 1, f"in write {first}")


def orders(life):
    """The first order of each name."""
    found = {}
    for event in life.events:
        if event.is_order():
            found.setdefault(event.name, event)
    return found.values()


def main():
    folder = tempfile.mkdtemp()
    try:
        program = Program(pathlib.Path(sys.argv[1]).resolve(), pathlib.Path(folder) / "lives")
        bench = Bench(program)
        life = first_life(program)
        late, other = late_life(program, str(HERE / "peers"))
        table = Table(bench)
        measure_loads(table, bench, life, device.full()[1])
        used = next(event for event in life.events if event.name == "status").image
        measure_many(table, bench, used)
        measure_one_boot(table, bench, life, used)
        measure_refused(table, bench, life.events[0])
        measure_orders(table, bench, [*orders(life), *orders(late), *orders(other)])
        measure_calls(table, bench)
    except Wrong as wrong:
        print(wrong)
        return 1
    finally:
        shutil.rmtree(folder)
    return 0


if __name__ == "__main__":
    sys.exit(main())
