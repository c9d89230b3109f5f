"""Commands that are killed, whose calls of the system fail, or that have no room."""

import os
import random
import re
import resource
import shutil
import signal
import subprocess
import time

from world import KINDS, NEW_FILE, Wrong

# the calls of the system that open, read, write, lock, sync, rename and close files; and those of memory among them
TRACED, OF_MEMORY = "%file,%desc", {"execve", "mmap"}
COUNTED = re.compile(r"^\d+\s+(\w+)\(")
LIMITS = 0, 10, 1_000, 4_096, 100_000, 1_000_000


def kills(world, kind, tries):
    """SIGKILL at a random moment of the time that a call takes."""
    usual = sorted(timed(world, kind) for _ in range(5))[2]
    for _ in range(tries):
        number = world.prepare(kind)
        process = world.start(kind.call(number))
        time.sleep(random.uniform(0, usual))
        process.kill()
        after(world, kind, number, world.end(process))


def timed(world, kind):
    """How long a call takes once it has begun."""
    number = world.prepare(kind)
    process = world.start(kind.call(number))
    begun = time.monotonic()
    world.take(kind, number, world.end(process))
    return time.monotonic() - begun


def after(world, kind, number, ended):
    """What a call that was stopped has left: the file whole, and the next call of the kind succeeds."""
    world.tally.tried += 1
    world.tally.end({0: "done", -signal.SIGKILL: "killed", -signal.SIGXFSZ: "stopped"}.get(ended.status, "failed"))
    world.take(kind, number, ended)
    world.call(kind)


def at_each_call(world, kind, how):
    """At each call of the system in turn a kill, or an error of it."""
    for name, count in sorted(calls_of(world, kind).items()):
        for when in range(1, count + 1):
            number = world.prepare(kind)
            ended = traced(world, kind, number, f"--inject={name}:{how}:when={when}")
            if name == "fsync" and how.startswith("error") and ended.status == 0:
                raise Wrong(f"{kind.name} is done though its {when}. fsync failed")
            after(world, kind, number, ended)


def calls_of(world, kind):
    """How often a call of the program makes each call of the system."""
    number = world.prepare(kind)
    world.take(kind, number, traced(world, kind, number))
    counts = {}
    for line in world.read("trace").decode(errors="replace").splitlines():
        made = COUNTED.match(line)
        if made and made[1] not in OF_MEMORY:
            counts[made[1]] = counts.get(made[1], 0) + 1
    return counts


def traced(world, kind, number, *how):
    words = ["strace", "-f", "-o", "trace", f"--trace={TRACED}", *how, world.program, *kind.call(number)]
    process = subprocess.Popen(words, cwd=world.folder, stdout=subprocess.PIPE, stderr=subprocess.PIPE)
    # (strace ends as the program that it traces)
    return world.end(process)


def limits(world):
    """The longest file is limited, and the signal that comes with that is ignored or not."""
    for kind in KINDS:
        for limit in LIMITS:
            for is_ignored in False, True:
                number = world.prepare(kind)
                ended = world.run(kind.call(number), preexec_fn=lambda: limit_to(limit, is_ignored))
                after(world, kind, number, ended)


def limit_to(length, is_ignored):
    resource.setrlimit(resource.RLIMIT_FSIZE, (length, length))
    signal.signal(signal.SIGXFSZ, signal.SIG_IGN if is_ignored else signal.SIG_DFL)


def full_disks(world, kind):
    """On a disk that is full but for a few blocks, a call fails and leaves the file as it was."""
    filler = world.path("filler")
    for blocks in range(6):
        number = world.prepare(kind)
        before = world.read(kind.state)
        fill(filler, blocks * 4_096)
        ended = world.run(kind.call(number))
        world.tally.end("done" if ended.status == 0 else "failed")
        filler.unlink()
        if ended.line == f"write failed {kind.role}\n" and world.read(kind.state) != before:
            world.lose(f"{kind.name} on a full disk: {kind.state} is not as it was")
        if world.path(kind.state + NEW_FILE).exists():
            raise Wrong(f"{kind.name} on a full disk has left {kind.state + NEW_FILE}")
        world.tally.tried += 1
        world.take(kind, number, ended)
        world.call(kind)


def fill(path, free):
    """Fills the disk of this path, but for about these bytes."""
    with open(path, "wb", buffering=0) as file:
        room = os.statvfs(path.parent)
        left = room.f_bavail * room.f_frsize - free
        try:
            while left > 0:
                left -= file.write(bytes(min(left, 1 << 20)))
        except OSError:
            pass


def has_strace():
    return shutil.which("strace") is not None
