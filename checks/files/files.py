#!/usr/bin/env python3
"""Tries what the program does to the files of the system. See checks/files.sh, which runs it."""

import argparse
import concurrent.futures
import contextlib
import dataclasses
import os
import pathlib
import random
import subprocess
import sys
import tempfile
import time
import traceback

HERE = pathlib.Path(__file__).resolve().parent
sys.path.insert(0, str(HERE))

import at_once  # noqa: E402
import power  # noqa: E402
import standing  # noqa: E402
import stopped  # noqa: E402
from world import KINDS, Tally, World, Wrong  # noqa: E402

# how often each is tried, in full and with --short; power cuts are tried in full alone
PAIRS, CROWDS, KILLS, CUTS = (200, 6), (40, 1), (420, 6), 20
ROOM = 24 << 20


@dataclasses.dataclass(frozen=True)
class Task:
    """A part of what is tried, in a world of its own."""

    part: str
    what: tuple
    # whether the world stands on a small disk of its own
    is_on_small_disk: bool = False


def tasks_of(is_short, shares):
    """The tasks, and the parts that cannot be tried here with the reasons."""
    which = 1 if is_short else 0
    lacks, tasks = {}, []
    for first, second in at_once.PAIRS:
        part = f"{first.name} and {second.name} at once"
        tasks += [Task(part, ("pairs", first, second, share)) for share in shared(PAIRS[which], shares)]
    tasks += [Task("eight at once sign", ("crowds", share)) for share in shared(CROWDS[which], shares)]
    for kind in KINDS:
        part = f"{kind.name} killed at a random moment"
        tasks += [Task(part, ("kills", kind, share)) for share in shared(KILLS[which], shares)]
    tasks.append(Task("what stands in the way", ("cases",)))
    if is_short:
        return tasks, lacks
    tasks.append(Task("a limit on the length of files", ("limits",)))
    tasks += of_calls() if stopped.has_strace() else []
    tasks += of_disks() if power.can_mount() else []
    if not stopped.has_strace():
        lacks["at each call of the system"] = "strace is not there"
    if not power.can_mount():
        lacks["full disks and power cuts"] = "no disk can be mounted"
    return tasks, lacks


def shared(tries, shares):
    """The tries of each share."""
    return [tries // shares + (number < tries % shares) for number in range(min(shares, tries))]


def of_calls():
    for kind in KINDS:
        yield Task(f"{kind.name} killed at each call of the system", ("at_each_call", kind, "signal=KILL"))
        for error in "EIO", "ENOSPC":
            yield Task(f"{kind.name} with {error} at each call", ("at_each_call", kind, f"error={error}"))


def of_disks():
    for kind in KINDS:
        yield Task("a full disk", ("full_disks", kind), True)
    for kind in power.KINDS:
        yield Task(f"power lost after {kind.name}", ("cuts", kind, CUTS))


# ---- one task


def tried(sample, task, seed):
    """The tally of a task, in a world like this one."""
    random.seed(seed)
    with tempfile.TemporaryDirectory(prefix="miniboot-files-") as folder:
        folder = pathlib.Path(folder)
        folder.chmod(0o755)
        name, *words = task.what
        try:
            if name == "cuts":
                return power.cuts(sample, folder / "power", *words)
            with small_disk(folder / "disk") if task.is_on_small_disk else contextlib.nullcontext(folder) as place:
                return in_a_world(sample.copied(place / "world"), name, words)
        except (Wrong, subprocess.SubprocessError, OSError) as error:
            where = traceback.extract_tb(error.__traceback__)[-1]
            return Tally(tried=1, wrong=[f"{task.part}: {error} ({where.name})"])


def in_a_world(world, name, words):
    call = {
        "pairs": at_once.pairs,
        "crowds": at_once.crowds,
        "kills": stopped.kills,
        "limits": stopped.limits,
        "at_each_call": stopped.at_each_call,
        "full_disks": stopped.full_disks,
        "cases": standing.cases,
    }[name]
    try:
        call(world, *words)
    except Wrong as wrong:
        world.tally.wrong.append(str(wrong))
    return world.tally


@contextlib.contextmanager
def small_disk(at):
    at.mkdir()
    subprocess.run(["mount", "-t", "tmpfs", "-o", f"size={ROOM}", "tmpfs", at], check=True, capture_output=True)
    try:
        yield at
    finally:
        subprocess.run(["umount", at], check=True, capture_output=True)


# ---- all of them


def main():
    words = argparse.ArgumentParser(description=__doc__)
    words.add_argument("--short", action="store_true")
    words.add_argument("-j", type=int, default=1)
    words.add_argument("program")
    given = words.parse_args()
    begun, whole, parts = time.monotonic(), Tally(), {}
    tasks, lacks = tasks_of(given.short, given.j)
    with (
        tempfile.TemporaryDirectory(prefix="miniboot-files-") as folder,
        concurrent.futures.ProcessPoolExecutor(given.j) as pool,
    ):
        sample = World(given.program, pathlib.Path(folder) / "sample")
        running = {pool.submit(tried, sample, task, number): task for number, task in enumerate(tasks)}
        for done in concurrent.futures.as_completed(running):
            parts.setdefault(running[done].part, []).append(done.result())
            tell_whole_parts(parts, tasks, whole)
    for part, why in lacks.items():
        print(f"{part}: not tried, since {why}")
    for wrong in whole.wrong:
        print(f"wrong: {wrong}")
    print(
        f"{whole.tried} tried in {time.monotonic() - begun:.0f} s, "
        f"{whole.twice} indices used twice, {whole.lost} files lost, {len(whole.wrong)} otherwise wrong"
    )
    return 1 if whole.twice or whole.lost or whole.wrong else 0


def tell_whole_parts(parts, tasks, whole):
    """Prints a line for each part whose tasks have all ended, and adds them."""
    for part in list(parts):
        if len(parts[part]) == sum(task.part == part for task in tasks):
            tally = Tally()
            for one in parts.pop(part):
                tally.add(one)
            ends = ", ".join(f"{count} {end}" for end, count in sorted(tally.ends.items()))
            print(f"{part}: {tally.tried} tried" + (f" ({ends})" if ends else ""), flush=True)
            whole.add(tally)


if __name__ == "__main__":
    os.umask(0o022)
    sys.exit(main())
