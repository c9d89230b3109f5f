"""Links, devices, pipes, modes, names, locks and new files that stand where a command reads or writes."""

import contextlib
import fcntl
import os
import stat
import subprocess
import threading
import time

from world import HSS_SIGNATURE, NEW_FILE, SIGN, Wrong

# for how long a lock is held that is shorter than a command tries
MOMENT = 0.1
NOBODY = 65_534
# the files that a case may make
MADE = "key kept other moved out made public piped target printed nowhere folder load".split()


def wanted(ended, status, line, told=None):
    """A call ended with this status and line. It told one line, which begins like this behind the program's name, or is
    this with its LF; and nothing if this is None."""
    lines = ended.told.splitlines()
    is_told = not lines if told is None else len(lines) == 1 and f"{lines[0]}\n".startswith(f"miniboot: {told}")
    if ended.status != status or (line is not None and ended.line != line) or not is_told:
        raise Wrong(f"wanted {status} {line!r} {told!r}, found {ended.status} {ended.line!r} {ended.told!r}")


def equal(what, found, want):
    if found != want:
        raise Wrong(f"{what}: found {found!r}, wanted {want!r}")


def mode_of(path):
    return stat.S_IMODE(os.lstat(path).st_mode)


def signs(world, key="key", out="out", **how):
    return world.run(["sign", key, "draft", out], **how)


def following(world, key="key"):
    """The next index of a key that is whole."""
    content = world.read(key)
    if content is None or len(content) != 56:
        raise Wrong(f"{key} is lost: {content and len(content)} bytes")
    return int.from_bytes(content[52:], "big")


# ---- modes and owners


def new_files_are_private(world):
    for mask in 0o022, 0:
        wanted(world.run(["keygen", "noise", "made", "public"], umask=mask), 0, None)
        equal("modes", (mode_of(world.path("made")), mode_of(world.path("public"))), (0o600, 0o600))
        world.path("made").unlink()
        world.path("public").unlink()


def modes_and_owners_stay(world):
    for mode in 0o640, 0o666:
        world.path("key").chmod(mode)
        if os.geteuid() == 0:
            os.chown(world.path("key"), 1_000, 1_001)
        before = os.stat(world.path("key"))
        wanted(signs(world), 0, "index 0\n" if mode == 0o640 else "index 1\n")
        after = os.stat(world.path("key"))
        for what in "st_mode", "st_uid", "st_gid":
            equal(what, getattr(after, what), getattr(before, what))
        equal("the file", after.st_ino == before.st_ino, False)


def read_only_files_are_refused(world):
    world.path("key").chmod(0o400)
    ended = as_nobody(world, ["sign", "key", "draft", "out"])
    wanted(ended, 5, "write failed key\n", "key: Permission denied")
    equal("the next index", following(world), 0)


def read_only_folders_are_refused(world):
    world.folder.chmod(0o555)
    try:
        wanted(as_nobody(world, ["sign", "key", "draft", "out"]), 5, "write failed key\n", "key: Permission denied")
    finally:
        world.folder.chmod(0o755)
    equal("the next index", following(world), 0)


def as_nobody(world, words):
    """A call by a user who may do no more than others."""
    if os.geteuid() != 0:
        return world.run(words)
    world.folder.chmod(mode_of(world.folder) | 0o055)
    for path in world.folder.iterdir():
        if path.is_file():
            os.chown(path, NOBODY, NOBODY)
    os.chown(world.folder, NOBODY, NOBODY)
    return world.run(words, user=NOBODY, group=NOBODY, extra_groups=[])


# ---- links


def links_lead_to_the_file(world):
    world.path("key").rename(world.path("kept"))
    world.path("key").symlink_to("kept")
    wanted(signs(world), 0, "index 0\n")
    equal("the link", os.readlink(world.path("key")), "kept")
    equal("the next index", following(world, "kept"), 1)


def links_that_lead_nowhere_are_refused(world):
    world.path("out").symlink_to("nowhere")
    wanted(signs(world), 5, "write failed out\n", "out: No such file or directory\n")
    equal("what it leads to", world.read("nowhere"), None)
    equal("the next index", following(world), 1)


def second_names_are_refused(world):
    os.link(world.path("key"), world.path("other"))
    wanted(signs(world), 5, "write failed key\n", "key: not replaced, since it has a second name (a hard link)\n")
    equal("the next indices", (following(world), following(world, "other")), (0, 0))


def one_name_for_key_and_output_is_refused(world):
    wanted(signs(world, out="key"), 5, "write failed out\n", "key: moved or replaced since it was read\n")
    equal("the next index", following(world), 1)


# ---- devices, pipes and folders


def devices_are_written_as_they_stand(world):
    wanted(signs(world, out="/dev/null"), 0, "index 0\n")
    wanted(signs(world, out="/dev/full"), 5, "write failed out\n", "/dev/full: No space left on device\n")
    equal("devices", [stat.S_ISCHR(os.stat(name).st_mode) for name in ("/dev/null", "/dev/full")], [True, True])


def folders_are_refused(world):
    world.path("folder").mkdir()
    wanted(signs(world, out="folder"), 5, "write failed out\n", "folder: Is a directory\n")
    wanted(signs(world, key="folder"), 4, "read failed key\n", "folder: Is a directory\n")
    wanted(signs(world, key="none"), 4, "read failed key\n", "none: No such file or directory\n")
    wanted(signs(world, out="none/out"), 5, "write failed out\n", "none/out: No such file or directory\n")


def pipes_take_the_output(world):
    os.mkfifo(world.path("out"))
    taken = []
    reader = threading.Thread(target=lambda: taken.append(world.read("out")))
    reader.start()
    wanted(signs(world), 0, "index 0\n")
    reader.join()
    equal("what was piped", taken[0].startswith(b"command "), True)


def standard_output_on_a_file_gets_the_whole_output(world):
    with open(world.path("printed"), "wb") as file:
        wanted(world.run(["endorse", "hss.key", "root", "/dev/stdout"], stdout=file), 0, "")
    equal("its length", len(world.read("printed")), HSS_SIGNATURE)


def closed_streams_harm_no_file(world):
    for number, streams in enumerate(([0], [1], [2], [0, 1], [1, 2], [0, 1, 2])):
        ended = world.run(["sign", "key", "draft", "out"], preexec_fn=lambda: close(streams))
        equal("the status", ended.status, 5 if 1 in streams else 0)
        equal("the next index", following(world), 2 * number + 1)
        ended = world.run(["sign", "key", "draft", "/dev/full"], preexec_fn=lambda: close(streams))
        equal("the status at a full device", ended.status, 5)
        equal("the next index", following(world), 2 * number + 2)


def close(streams):
    for number in streams:
        os.close(number)


# ---- locks, new files, and files that are moved meanwhile


@contextlib.contextmanager
def locked(world, name, how):
    with open(world.path(name), "rb") as file:
        fcntl.flock(file, how)
        yield


def locked_files_are_refused(world):
    with locked(world, "key", fcntl.LOCK_EX):
        wanted(signs(world), 4, "read failed key\n", "key: in use by another command\n")
    with locked(world, "key", fcntl.LOCK_SH):
        wanted(signs(world), 5, "write failed key\n", "key: in use by another command\n")
    equal("the next index", following(world), 0)
    wanted(signs(world), 0, "index 0\n")


def locks_are_tried_for_a_while(world):
    with locked(world, "key", fcntl.LOCK_SH):
        process = world.start(["sign", "key", "draft", "out"])
        time.sleep(MOMENT)
    wanted(world.end(process), 0, "index 0\n")


def left_new_files_are_removed(world):
    world.write("key" + NEW_FILE, "half a key")
    wanted(signs(world), 0, "index 0\n")
    equal("the new file", world.read("key" + NEW_FILE), None)


def taken_names_are_refused(world):
    taken, words = world.path("key" + NEW_FILE), "what stands at its name with .miniboot-new is no regular file\n"
    for make, remove in (
        (lambda: taken.symlink_to("target"), taken.unlink),
        (taken.mkdir, taken.rmdir),
        (lambda: os.mkfifo(taken), taken.unlink),
    ):
        world.write("target", "as it was")
        make()
        wanted(signs(world), 5, "write failed key\n", f"key: {words}")
        remove()
        equal("the next index and the target", (following(world), world.read("target")), (0, b"as it was"))
    world.write("key" + NEW_FILE, "")
    with locked(world, "key" + NEW_FILE, fcntl.LOCK_EX):
        wanted(signs(world), 5, "write failed key\n", "key: in use by another command\n")


@contextlib.contextmanager
def paused(world):
    """A command that has read its key and waits for its draft, a pipe. It goes on when the block ends."""
    os.mkfifo(world.path("piped"))
    process = world.start(["sign", "key", "piped", "out"])
    with open(writer_of(world.path("piped")), "wb") as pipe:
        yield process
        pipe.write(world.read("draft"))


def writer_of(pipe):
    """The end to which is written, once another process has opened the pipe to read."""
    for _ in range(6_000):
        with contextlib.suppress(OSError):
            return os.open(pipe, os.O_WRONLY | os.O_NONBLOCK)
        time.sleep(0.01)
    raise Wrong("no command reads the pipe")


def moved_keys_are_not_made_anew(world):
    with paused(world) as process:
        world.path("key").rename(world.path("moved"))
    wanted(world.end(process), 5, "write failed key\n", "key: moved or replaced since it was read\n")
    equal("the key", world.read("key"), None)
    wanted(signs(world, key="moved"), 0, "index 0\n")


def replaced_keys_are_not_replaced(world):
    other = world.read("one.key")
    with paused(world) as process:
        world.path("key").rename(world.path("moved"))
        world.write("key", other)
    wanted(world.end(process), 5, "write failed key\n", "key: moved or replaced since it was read\n")
    equal("the key", world.read("key"), other)


def kept_keys_are_refused_to_others(world):
    wanted(signs(world, key="two.key", out="load"), 0, None)
    with paused(world) as process:
        for words in ["sign", "key", "draft", "other"], ["countersign", "key", "3", "load", "other"]:
            wanted(world.run(words), 5, "write failed key\n", "key: in use by another command\n")
    wanted(world.end(process), 0, "index 0\n")
    equal("the next index", following(world), 1)


def names_are_told_on_one_line(world):
    wanted(signs(world, key="a\nkey\33[2J"), 4, "read failed key\n", "a?key?[2J: No such file or directory\n")


CASES = (
    new_files_are_private,
    modes_and_owners_stay,
    read_only_files_are_refused,
    read_only_folders_are_refused,
    links_lead_to_the_file,
    links_that_lead_nowhere_are_refused,
    second_names_are_refused,
    one_name_for_key_and_output_is_refused,
    devices_are_written_as_they_stand,
    folders_are_refused,
    pipes_take_the_output,
    standard_output_on_a_file_gets_the_whole_output,
    closed_streams_harm_no_file,
    locked_files_are_refused,
    locks_are_tried_for_a_while,
    left_new_files_are_removed,
    taken_names_are_refused,
    moved_keys_are_not_made_anew,
    replaced_keys_are_not_replaced,
    kept_keys_are_refused_to_others,
    names_are_told_on_one_line,
)


def cases(world):
    """Each case over a key that has signed nothing."""
    for case in CASES:
        clear(world)
        world.begin(SIGN)
        world.path("one.key").rename(world.path("key"))
        world.begin(SIGN)
        world.write("draft", "order load 2\nversion 1\ntrust always\ncode 00\n")
        world.tally.tried += 1
        try:
            case(world)
        except Wrong as wrong:
            world.tally.wrong.append(f"{case.__name__.replace('_', ' ')}: {wrong}")
        except subprocess.SubprocessError as error:
            world.tally.wrong.append(f"{case.__name__.replace('_', ' ')}: {error!r}")


def clear(world):
    """No file that a case makes is there."""
    for name in MADE:
        path = world.path(name)
        if path.is_dir() and not path.is_symlink():
            path.rmdir()
        else:
            path.unlink(missing_ok=True)
        world.path(name + NEW_FILE).unlink(missing_ok=True)
