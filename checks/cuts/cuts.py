#!/usr/bin/env python3
"""Cuts each event of a device's life at each of its writes. See checks/cuts.sh, which runs it."""

import argparse
import concurrent.futures
import itertools
import pathlib
import resource
import shutil
import sys
import tempfile
import threading
import time

from lives import calling_life, first_life, late_life, opening, trusting_life
from program import Program, Script, Wrong, is_dead, meaning

FILLS = "00", "ff", "7e", "01"
KEEPS = 3, 100, 2048, 4095
# how often at most an event is given again in one run
TIMES = 20
# an event with more writes than these has its boots cut after some of them alone
MANY = 26
# An event has at most 35 write calls.
MOST_WRITES = 35
# A power loss that is armed for more write calls than any event makes is as good as none.
DISARMED = "cut 100000 fill 00"


def cut(count, fill, keep=0):
    return f"cut {count} keep {keep} fill {fill}" if keep else f"cut {count} fill {fill}"


def boots(counts, fill):
    """Boots, each cut at one of these writes if it has as many."""
    return itertools.chain.from_iterable((cut(count, fill), "boot", "off") for count in counts)


class Answers:
    """The replies to a script, taken in turn."""

    def __init__(self, program, image, script):
        self.script, self.before = script, image
        self.replies, self.image = program.serve(image, script)
        self.at = 0

    def take(self, count=1):
        self.at += count
        return self.replies[self.at - count : self.at]

    def wrong(self, what):
        return Wrong(f"line {self.at}: {what}", self.before, self.script, self.replies)

    def expect(self, *wanted):
        """The next reply, which has to be one of these."""
        reply = self.take()[0]
        if reply not in wanted:
            raise self.wrong(f"{reply}, and not {' or '.join(wanted)}")
        return reply

    def opened(self, level):
        self.expect("booted")
        for layer in range(2, level + 1):
            self.expect(f"at {layer}")


class Cutter:
    """The trials of one event of a life."""

    def __init__(self, program, life, number, sparse):
        self.program, self.life, self.event = program, life, life.events[number]
        self.next = life.events[number + 1] if number + 1 < len(life.events) else None
        # If it is sparse, boots are cut after fewer of the first cuts.
        self.sparse = sparse
        # how many cuts were made, how often `cutat` was called, and whether the event counted after one of the cuts
        self.made, self.asked, self.counted = 0, 0, False
        after = self.next.image if self.next else life.image
        self.old, self.new = self.reference(self.event.image), self.reference(after)
        self.sees = self.old[0] != self.new[0]
        # whether the event leaves the state as it is
        self.stays = meaning(self.event.image) == meaning(after)
        self.check_references()

    # ---- what follows if power holds

    def view(self):
        return ["boot", "status", *(f"get {layer} {name}" for layer, name in self.life.names), "off"]

    def again(self):
        return [*opening(self.event.level), self.event.line]

    def ending(self):
        """The event is given again, and the next event of the life follows."""
        return [*self.again(), "off", *([*opening(self.next.level), self.next.line] if self.next else ["boot"])]

    def reference(self, image):
        """What a device with this image shows; how it answers the event alone, and what it is then; and the same for
        the event and the next one."""
        alone = Answers(self.program, image, Script().add(*self.view(), *self.again()))
        both = Answers(self.program, image, Script().add(*self.view(), *self.ending()))
        view = alone.take(len(self.view()))
        both.expect(*view[:1])
        both.take(len(view) - 1)
        return view, *((each.replies[len(view) :], meaning(each.image)) for each in (alone, both))

    def check_references(self):
        """The references are those of the life, and an order is not obeyed twice."""
        name, orders = self.event.name, self.event.is_order()
        (again, after), (both, end) = self.old[1:]
        if again[-1] != self.event.reply or (self.next and both[-1] != self.next.reply):
            raise Wrong(f"{name}: {again} and {both}, which is not the life")
        if None in (after, end, self.new[1][1], self.new[2][1]):
            raise Wrong(f"{name}: it does not leave a clean memory")
        if orders and not self.new[1][0][-1].startswith("refused 11 "):
            raise Wrong(f"{name}: {self.new[1][0][-1]} where it is given again")
        if orders and (after, end) != (self.new[1][1], self.new[2][1]):
            raise Wrong(f"{name}: given again it does not lead where it led")

    # ---- trials

    def cut_event(self, count, fill, keep=0):
        return [*opening(self.event.level), cut(count, fill, keep), self.event.line]

    def is_stopped(self, answers):
        """Whether the event was stopped; otherwise it was answered as in the life."""
        answers.opened(self.event.level)
        answers.expect("armed")
        stopped = answers.expect("stopped", self.event.reply) == "stopped"
        self.made += stopped
        return stopped

    def take_boots(self, answers, count):
        """Takes the replies of `count` boots that may have been cut. Whether the first was."""
        cuts = []
        for _ in range(count):
            answers.expect("armed")
            cuts.append(answers.expect("stopped", "booted") == "stopped")
            answers.expect("off")
        self.made += sum(cuts)
        return cuts[:1] == [True]

    def shows(self, answers):
        """The states that the device may be in, by what it shows."""
        answers.expect("armed")
        view = answers.take(len(self.view()))
        fitting = [state for state in (self.old, self.new) if state[0] == view]
        if not fitting:
            raise answers.wrong(f"the device shows neither the old nor the new state: {view}")
        return fitting

    def ends(self, answers, fitting, which):
        """The event, and the next one if `which` is 2, are answered as in one of these states, and lead to its end.
        Answers which of these states it may have been."""
        told, end = answers.replies[answers.at :], meaning(answers.image)
        left = [state for state in fitting if state[which] == (told, end)]
        if not left:
            states = {id(self.old): "old", id(self.new): "new"}
            wanted = " or ".join(f"{state[which][0]} of the {states[id(state)]} state" for state in fitting)
            image = "is another" if end else "is not clean"
            raise answers.wrong(f"{told}, and not {wanted}, or the image {image}")
        return left

    def ask(self, count, fill, left):
        """Has `cutat` say which state a cut leaves: one that it may have been, the old one if both are the same, or
        none if the event was not stopped."""
        wanted = {"old" if state is self.old or self.stays else "new" for state in left} or {"unstopped"}
        script = Script().add(*self.again())
        verdict = self.program.verdict(self.event.image, script, count, fill)
        self.asked += 1
        if verdict not in wanted:
            what = f"cutat {count} {fill}: {verdict}, and not {' or '.join(sorted(wanted))}"
            raise Wrong(what, self.event.image, script)

    def try_alone(self, count, fill, keep, which):
        """Cuts the event: the states that it may then be in, or none if it was not stopped."""
        rest = self.ending() if which == 2 else self.again()
        script = Script().add(*self.cut_event(count, fill, keep), DISARMED, *self.view(), *rest)
        answers = Answers(self.program, self.event.image, script)
        if not self.is_stopped(answers):
            self.ask(count, fill, [])
            return []
        fitting = self.shows(answers)
        left = self.ends(answers, fitting, which)
        if keep == 0:
            self.ask(count, fill, left)
        return fitting

    def writes(self, fill, which=1, keep_of=lambda count: 0):
        """Cuts the event at each of its writes: how many, and the first of them after which it may have counted, or the
        last. If `which` is 2, the next event of the life follows each time."""
        first = None
        for count in range(1, MOST_WRITES + 2):
            fitting = self.try_alone(count, fill, keep_of(count), which)
            if not fitting:
                return count - 1, first or count - 1
            if self.new in fitting:
                first, self.counted = first or count, True
        raise Wrong(f"{self.event.name}: it is stopped at write {count}")

    def try_again_and_again(self, fill):
        """Gives the event again after each cut, on what the cuts before have left, until it counts."""
        script = Script()
        for count in range(1, TIMES + 1):
            script.add(*self.cut_event(count, fill), *boots((1, 2), fill), DISARMED, *self.view())
        answers = Answers(self.program, self.event.image, script)
        for count in range(1, TIMES + 1):
            if not self.is_stopped(answers):
                return
            self.take_boots(answers, 2)
            if self.shows(answers) == [self.new]:
                return

    def try_boot(self, image, count, fill):
        """Cuts the boot of what a cut has left, and then the next one. Whether the first boot was stopped."""
        script = Script().add(*boots((count, 1 + count % 2), fill), DISARMED, *self.view(), *self.again())
        answers = Answers(self.program, image, script)
        stopped = self.take_boots(answers, 2)
        self.ends(answers, self.shows(answers), 1)
        return stopped

    def cut_boots(self, count, first_fill, fills_of):
        """Cuts the event once, and the boot that follows at each of its writes."""
        script = Script().add(*self.cut_event(count, first_fill))
        answers = Answers(self.program, self.event.image, script)
        self.is_stopped(answers)
        for each in range(1, MOST_WRITES + 2):
            if not any([self.try_boot(answers.image, each, fill) for fill in fills_of(each)]):
                return
        raise Wrong(f"{self.event.name}: a boot is stopped at write {each}")

    def tamper(self, count, fill):
        """The case is opened after a cut: no more is there than a dead device, also in a run of its own."""
        script = Script().add(*self.cut_event(count, fill), "tamper", "boot", "status", *self.life_asks())
        answers = Answers(self.program, self.event.image, script)
        self.is_stopped(answers)
        answers.expect("tampered")
        self.is_dead(answers, 2 + len(self.life_asks()))
        again = Answers(self.program, answers.image, Script().add("boot", self.event.line))
        self.is_dead(again, 2)

    def life_asks(self):
        return [f"get {layer} {name}" for layer, name in self.life.names]

    def is_dead(self, answers, count):
        for _ in range(count):
            if not answers.take()[0].startswith("refused 3 "):
                raise answers.wrong("the device is not dead")
        if not is_dead(answers.image):
            raise answers.wrong("something is left in a dead device")

    def all(self):
        """Every trial of the event: how many writes it has."""
        writes, first = self.writes(FILLS[0], 2)
        if writes == 0:
            return writes
        for fill in FILLS[1:]:
            self.writes(fill)
        self.writes(FILLS[writes % 4], 1, lambda count: KEEPS[count % 4] if first + 1 < count < writes - 6 else 1)
        if not self.counted:
            raise Wrong(f"{self.event.name}: it counts after none of its cuts")
        if self.sees:
            self.try_again_and_again(FILLS[first % 4])
        for count in self.with_boots(first, writes):
            every = FILLS if count == first else ()
            self.cut_boots(count, FILLS[count % 4], lambda each: every or (FILLS[(count + each) % 4],))
        for count in sorted({1, max(1, first - 1), first, writes}):
            self.tamper(count, FILLS[count % 4])
        return writes

    def with_boots(self, first, writes):
        """The writes after which boots are cut too: all of few, and of many the first, the last and some."""
        if writes <= MANY and not self.sparse:
            return range(1, writes + 1)
        ends = {first - 1, first, first + 1, *range(writes - 3, writes + 1)}
        return sorted(count for count in ends | set(range(first, writes, 12 if self.sparse else 6)) if count > 0)


class Works:
    """The trials of all events, by `processes` processes of the program at a time."""

    def __init__(self, path, folder, processes):
        self.path, self.folder, self.processes = path, folder, processes
        self.own = threading.local()
        self.numbers = itertools.count()

    def program(self):
        if not hasattr(self.own, "program"):
            self.own.program = Program(self.path, self.folder / f"worker{next(self.numbers)}")
        return self.own.program

    def cut(self, work):
        life, number, sparse = work
        began = time.monotonic()
        cutter = Cutter(self.program(), life, number, sparse)
        writes = cutter.all()
        return cutter.event.name, writes, (cutter.made, cutter.asked), time.monotonic() - began

    def all(self, works):
        """Prints a line for each event, and gives the numbers of cuts and of calls of `cutat`."""
        total = 0, 0
        with concurrent.futures.ThreadPoolExecutor(self.processes) as pool:
            try:
                for name, writes, made, seconds in pool.map(self.cut, works):
                    total = tuple(map(sum, zip(total, made)))
                    print(f"{name:32} {writes:3} writes {made[0]:6} cuts {seconds:6.1f} s", flush=True)
            except Wrong:
                pool.shutdown(cancel_futures=True)
                raise
        return total


def made_lives(program, peers):
    """The events that are cut, by life and number, and whether boots are cut after fewer of its cuts, since there was
    one like it."""
    life = first_life(program)
    kinds = [event.name.split(" ")[:2] for event in life.events]
    sparse = [event.is_order() and kinds[number] in kinds[:number] for number, event in enumerate(life.events)]
    works = [(life, number, sparse[number]) for number in range(len(life.events))]
    trusting = trusting_life(program, peers)
    works += [(trusting, number, event.is_order()) for number, event in enumerate(trusting.events)]
    calling = calling_life(program, peers)
    works += [(calling, number, event.is_order()) for number, event in enumerate(calling.events)]
    late, other = late_life(program, peers)
    return works + [(late, 0, True), (late, 1, True), (other, 0, True)]


def show(wrong):
    """Prints what was wrong, and keeps the files that show it."""
    print(wrong)
    if not wrong.script:
        return
    kept = pathlib.Path(tempfile.mkdtemp(prefix="cuts-"))
    wrong.script.write(kept, wrong.image)
    for line, reply in itertools.zip_longest(wrong.script.lines, wrong.replies, fillvalue=""):
        print(f"  {line}\n    {reply}")
    print(f"image, script and noise are kept in {kept}")


def processor_time():
    """The seconds that this program and the runs of the other took."""
    used = [resource.getrusage(who) for who in (resource.RUSAGE_SELF, resource.RUSAGE_CHILDREN)]
    return sum(each.ru_utime + each.ru_stime for each in used)


def main():
    reader = argparse.ArgumentParser()
    reader.add_argument("program", type=pathlib.Path)
    reader.add_argument("-j", type=int, default=1)
    words = reader.parse_args()
    peers = pathlib.Path(__file__).resolve().parents[2] / "peers"
    folder = pathlib.Path(tempfile.mkdtemp())
    path = words.program.resolve()
    began = time.monotonic()
    try:
        works = made_lives(Program(path, folder / "lives"), str(peers))
        print(f"{len(works)} events, answered in {time.monotonic() - began:.0f} s where power holds", flush=True)
        total, asked = Works(path, folder, words.j).all(works)
    except Wrong as wrong:
        show(wrong)
        return 1
    finally:
        shutil.rmtree(folder)
    seconds = f"{time.monotonic() - began:.0f} s, {processor_time():.0f} s of processor time"
    print(f"{total} cuts in {seconds}: each left the old or the new state, and the life went on")
    print(f"{asked} times cutat said of a cut what it left")
    return 0


if __name__ == "__main__":
    sys.exit(main())
