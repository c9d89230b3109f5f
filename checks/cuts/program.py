"""The built program by its files, and what the image of a device holds, read from the formats alone."""

import pathlib
import subprocess

FLASH, AREA, SECTOR = 1_048_576, 4_096, 4_096
# the first sector of the log, and how long a signature is
LOG, SIGNATURE = 64, 2_348
LIFE = 0xA5


class Wrong(Exception):
    """What was found wrong, with the image and the script that show it."""

    def __init__(self, what, image=None, script=None, replies=()):
        super().__init__(what)
        self.image, self.script, self.replies = image, script, list(replies)


class Script:
    """Events in turn. Each order has its noise, so that the same order makes the same keys wherever it is given."""

    def __init__(self):
        self.lines, self.noise = [], b""

    def add(self, *events):
        """Each event is a line, or a line and the noise of its order."""
        for event in events:
            line, noise = event if isinstance(event, tuple) else (event, b"")
            self.lines.append(line)
            self.noise += noise
        return self

    def write(self, folder, image):
        """The files of a run."""
        (folder / "image").write_bytes(image)
        (folder / "script").write_text("\n".join(self.lines) + "\n")
        (folder / "noise").write_bytes(self.noise)


class Program:
    """The program in a folder, in which it reads and writes its files."""

    def __init__(self, path, folder):
        self.path, self.folder = path, pathlib.Path(folder)
        self.folder.mkdir(exist_ok=True)

    def run(self, *words):
        done = subprocess.run([self.path, *words], cwd=self.folder, capture_output=True, text=True)
        if done.returncode != 0:
            raise Wrong(f"miniboot {' '.join(words)} ended with status {done.returncode}: {done.stdout}{done.stderr}")
        return done.stdout.splitlines()

    def serve(self, image, script):
        """The replies to a script, and the image that is left."""
        script.write(self.folder, image)
        try:
            replies = self.run("run", "image", "script", "noise")
        except Wrong as wrong:
            wrong.image, wrong.script = image, script
            raise
        if len(replies) != len(script.lines):
            raise Wrong("the replies are not as many as the events", image, script, replies)
        return replies, (self.folder / "image").read_bytes()


    def verdict(self, image, script, count, fill):
        """What `cutat`, which writes no file, says of a power loss in the last event of a script."""
        script.write(self.folder, image)
        try:
            lines = self.run("cutat", "image", "script", "noise", str(count), fill)
        except Wrong as wrong:
            wrong.image, wrong.script = image, script
            raise
        if len(lines) != 1 or (self.folder / "image").read_bytes() != image:
            raise Wrong(f"cutat {count} {fill} prints {lines}, or writes its image", image, script)
        return lines[0]


class Officer:
    """An officer, whose key the program makes and signs with."""

    def __init__(self, program, name, noise):
        self.program, self.key = program, name + ".key"
        (program.folder / "noise").write_bytes(noise)
        program.run("keygen", "noise", self.key, name + ".public")
        self.public = (program.folder / (name + ".public")).read_bytes()

    def sign(self, draft):
        """The order of a draft, as a line of a script."""
        (self.program.folder / "draft").write_text(draft)
        self.program.run("sign", self.key, "draft", "order")
        return (self.program.folder / "order").read_text().rstrip("\n")

    def countersign(self, layer, order):
        (self.program.folder / "order").write_text(order + "\n")
        self.program.run("countersign", self.key, str(layer), "order", "out")
        return (self.program.folder / "out").read_text().rstrip("\n")


def record_in(area):
    """The record that an area holds after its length."""
    return area[2 : 2 + int.from_bytes(area[:2], "big")]


def areas(image, number):
    """The current area of the root, region 2 or region 3, and the inactive one."""
    bbram = image[FLASH:]
    first = AREA * (1 + 2 * number)
    both = [bbram[first : first + AREA], bbram[first + AREA : first + 2 * AREA]]
    half = bbram[1 + number] % 2
    return both[half], both[1 - half]


def code_at(image, layer, slot):
    """The code of a layer by its slot in the header, a byte and four of its length; None if no slot is named."""
    if slot[0] == 0:
        return None
    start = SECTOR * (2 + 16 * (layer - 1) + 8 * (slot[0] - 1))
    return image[start : start + int.from_bytes(slot[1:], "big")]


def public_in(image, area):
    """The codes, and what each sector of the log below the count begins with, by the header of an area."""
    header = image[SECTOR * area :][:SECTOR]
    codes = [code_at(image, layer, header[5 * layer - 1 :][:5]) for layer in (1, 2, 3)]
    log = []
    for position in range(int.from_bytes(header[19:21], "big")):
        sector = image[SECTOR * (LOG + position) :][:SECTOR]
        log.append(sector[: 2 + int.from_bytes(sector[:2], "big") + SIGNATURE])
    return codes, log


def meaning(image):
    """What a device's image means if its memory is clean: its records but for the header area, codes and log.

    None if the memory is not clean: work is pending, or something was left behind."""
    if image[FLASH] != LIFE or any(image[FLASH + 4 : FLASH + AREA]):
        return None
    records = []
    for number in range(3):
        force, other = areas(image, number)
        record = record_in(force)
        if any(other) or any(force[2 + len(record) :]):
            return None
        records.append(record)
    root = records[0]
    if root[-1] != 0:
        return None
    return root[:1] + root[2:], records[1], records[2], public_in(image, root[1])


def is_dead(image):
    return not any(image[FLASH:])
