"""A computer that loses power as soon as a command has ended: its disk is a file, whose bytes at that moment are what
is left of it."""

import contextlib
import os
import pathlib
import shutil
import subprocess

from world import FACTORY, FLEET, RUN, SIGN

KINDS = SIGN, FACTORY, RUN, FLEET
ROOM = 48 << 20


def can_mount():
    """Whether a loop device can be mounted here."""
    return os.geteuid() == 0 and all(map(shutil.which, ("mkfs.ext4", "mount", "umount", "losetup")))


@contextlib.contextmanager
def mounted(disk, at):
    at.mkdir(exist_ok=True)
    subprocess.run(["mount", "-o", "loop", disk, at], check=True, capture_output=True)
    try:
        yield at
    finally:
        subprocess.run(["umount", at], check=True, capture_output=True)


def cuts(sample, folder, kind, tries):
    """Power is lost right after each call. The file that it replaced has to be the new one then."""
    folder = pathlib.Path(folder)
    folder.mkdir()
    disk, copy = folder / "disk", folder / "copy"
    with open(disk, "wb") as file:
        file.truncate(ROOM)
    subprocess.run(["mkfs.ext4", "-q", disk], check=True, capture_output=True)
    with mounted(disk, folder / "before") as before:
        world = sample.copied(before / "world")
        for _ in range(tries):
            os.sync()
            number = world.prepare(kind)
            os.sync()
            ended = world.succeed(*kind.call(number))
            shutil.copyfile(disk, copy)
            world.tally.tried += 1
            world.take(kind, number, ended)
            now = world.read(kind.state)
            with mounted(copy, folder / "after") as after:
                if (after / "world" / kind.state).read_bytes() != now:
                    world.lose(f"{kind.name}: after a power loss {kind.state} is not the one that was written")
    return world.tally
