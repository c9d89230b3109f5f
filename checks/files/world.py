"""The files on which commands are tried, and what is handed out of them: read from the formats alone."""

import copy
import dataclasses
import pathlib
import shutil
import subprocess
import sys

sys.path.insert(0, str(pathlib.Path(__file__).resolve().parents[2] / "peers"))

import chains  # noqa: E402
import fleet  # noqa: E402
from orders import NoOrder, read_order  # noqa: E402

IMAGE = chains.FLASH + chains.BBRAM
# the lengths of a signature, a public key and an HSS signature of two levels
SIGNATURE, PUBLIC = 2_348, 56
HSS_SIGNATURE = 4 + 2 * SIGNATURE + PUBLIC
# what stands behind the name of a file while a new one is written
NEW_FILE = ".miniboot-new"
# how often a file is used before it is made anew, how many calls there are at once, how many devices are shown to a
# register, and after how many seconds a call is given up
MOST_USES, CALLS, DEVICES, GIVEN_UP = 24, 16, 6, 60


def many_rows():
    """A register of many devices, so that writing it takes a while."""
    hashes = tuple(bytes([number]) * 32 for number in range(128))
    return {bytes([255, number]) + bytes(14): fleet.Row(1, (None, None, None), hashes) for number in range(250)}


ROWS = many_rows()


@dataclasses.dataclass(frozen=True)
class Kind:
    """A command that replaces a file: its words, in which N stands for the number of the call, the file that it reads
    and replaces, the role of this file in what is printed, and the output that it writes after it."""

    name: str
    words: str
    state: str
    role: str
    out: str = ""

    def call(self, number):
        return self.words.replace("N", str(number)).split()

    def output(self, number):
        return self.out.replace("N", str(number))


SIGN = Kind("sign", "sign one.key draftN outN", "one.key", "key", "outN")
BY_MAKER = Kind("sign", "sign maker.key draftN outN", "maker.key", "key", "outN")
ENDORSE = Kind("endorse", "endorse hss.key rootN outN", "hss.key", "key", "outN")
FACTORY = Kind("factory", "factory birthN maker.key one.public code imageN", "maker.key", "key", "imageN")
RUN = Kind("run", "run image scriptN noise", "image", "image")
FLEET = Kind("fleet", "fleet root register itemsN", "register", "register")
KINDS = SIGN, ENDORSE, FACTORY, RUN, FLEET


class Wrong(Exception):
    """What a command did that it should not do."""


@dataclasses.dataclass
class Ended:
    """How a call ended: its status, what it printed, and what it told on standard error."""

    status: int
    line: str
    told: str


@dataclasses.dataclass
class Tally:
    """How often something was tried, how many indices two signatures have, how many files were lost, what else was
    wrong, and how the calls ended."""

    tried: int = 0
    twice: int = 0
    lost: int = 0
    wrong: list = dataclasses.field(default_factory=list)
    ends: dict = dataclasses.field(default_factory=dict)

    def add(self, other):
        self.tried, self.twice, self.lost = (
            self.tried + other.tried,
            self.twice + other.twice,
            self.lost + other.lost,
        )
        self.wrong += other.wrong
        for end, count in other.ends.items():
            self.end(end, count)

    def end(self, how, count=1):
        self.ends[how] = self.ends.get(how, 0) + count


class World:
    """A folder with keys, a device and a register, and a tally of what became of them."""

    def __init__(self, program, folder):
        """Makes the sample in a new folder."""
        self.program, self.folder, self.tally, self.number = program, pathlib.Path(folder), Tally(), 0
        # what was signed, by the file of the key and the index; how often each file was used since it was made; the
        # device that each call shows to the register, and those that it has taken
        self.signed, self.uses, self.shown, self.added = {}, {}, {}, set()
        self.folder.mkdir()
        self.make()

    def copied(self, folder):
        """Another world like this one, in which nothing was tried yet."""
        other = copy.deepcopy(self)
        other.folder, other.tally = pathlib.Path(folder), Tally()
        shutil.copytree(self.folder, other.folder)
        return other

    # ---- files

    def path(self, name):
        return self.folder / name

    def read(self, name):
        """The bytes of a file, or None if it is not there."""
        try:
            return self.path(name).read_bytes()
        except FileNotFoundError:
            return None

    def write(self, name, content):
        self.path(name).write_bytes(content if isinstance(content, bytes) else content.encode())

    # ---- calls

    def start(self, words, **how):
        pipes = {"stdout": subprocess.PIPE, "stderr": subprocess.PIPE} | how
        return subprocess.Popen([self.program, *words], cwd=self.folder, **pipes)

    def end(self, process):
        try:
            line, told = process.communicate(timeout=GIVEN_UP)
        except subprocess.TimeoutExpired:
            process.kill()
            raise Wrong(f"{process.args[1:]} has not ended after {GIVEN_UP} seconds") from None
        return Ended(process.returncode, (line or b"").decode(), (told or b"").decode(errors="replace"))

    def run(self, words, **how):
        return self.end(self.start(words, **how))

    def succeed(self, *words):
        ended = self.run(words)
        if ended.status != 0:
            raise Wrong(f"{' '.join(words)} ended with {ended.status}: {ended.line}{ended.told}")
        return ended

    def call(self, kind):
        """Makes the next call of this kind, which has to succeed, and takes what it hands out."""
        number = self.prepare(kind)
        ended = self.succeed(*kind.call(number))
        self.take(kind, number, ended)
        if self.path(kind.state + NEW_FILE).exists():
            raise Wrong(f"{kind.name} has left {kind.state + NEW_FILE}")

    # ---- the sample

    def make(self):
        """Two officers, a maker, a device whose layer 2 has a key, chains of six devices, and a register of others."""
        for who in "one", "two", "maker":
            self.make_key(who)
        self.write("root", self.read("maker.public"))
        self.write("code", "layer one")
        self.write("noise", bytes(4_096))
        self.succeed("factory", self.birth(0), "maker.key", "one.public", "code", "image")
        owner = self.read("two.public").hex()
        self.order("one", f"order establish 2\nowner {owner}\ntrust always\n")
        self.order("one", "order emergency 2\nversion 1\ntrust always\ncode 00\n")
        self.order("two", "order newkey 2 epoch\n")
        self.write("script", f"boot\n{self.read('orders').decode()}off\n")
        self.succeed("run", "image", "script", "noise")
        shutil.copy(self.path("image"), self.path("first"))
        for device in range(DEVICES):
            self.succeed("factory", self.birth(device), "maker.key", "one.public", "code", "shown")
            self.succeed("chain", "shown", f"chain{device}")
        for kind in KINDS:
            self.begin(kind)

    def make_key(self, who):
        self.succeed("keygen", self.fresh_noise(), f"{who}.key", f"{who}.public")

    def fresh_noise(self):
        self.number += 1
        self.write("fresh", self.number.to_bytes(48, "big"))
        return "fresh"

    def birth(self, number):
        shutil.copy(self.path(self.fresh_noise()), self.path(f"birth{number}"))
        return f"birth{number}"

    def order(self, officer, draft):
        self.write("draft", draft)
        self.succeed("sign", f"{officer}.key", "draft", "order")
        self.write("orders", (self.read("orders") or b"") + self.read("order"))

    def begin(self, kind):
        """Makes the file of this kind anew, so that nothing was handed out of it."""
        self.path(kind.state).unlink(missing_ok=True)
        if kind.state == "hss.key":
            self.succeed("hsskeygen", self.fresh_noise(), "2", "hss.key", "hss.public")
        elif kind.state == "image":
            shutil.copy(self.path("first"), self.path("image"))
        elif kind.state == "register":
            self.write("register", fleet.spelled(ROWS))
        else:
            self.make_key(kind.state.removesuffix(".key"))
        self.signed = {key: text for key, text in self.signed.items() if key[0] != kind.state}
        self.uses[kind.state] = 0
        if kind == FLEET:
            self.added = set()

    def prepare(self, kind):
        """The inputs of the next call of this kind, whose number is returned, and no output yet."""
        if self.uses[kind.state] >= MOST_USES:
            self.begin(kind)
        self.uses[kind.state] += 1
        self.number += 1
        number = self.number % CALLS
        text = self.number.to_bytes(16, "big").hex()
        if kind in (SIGN, BY_MAKER):
            self.write(f"draft{number}", f"order surrender 2\ntarget serial {text}\n")
        elif kind == ENDORSE:
            self.write(f"root{number}", self.read("root")[:-16] + bytes.fromhex(text))
        elif kind == FACTORY:
            self.birth(number)
        elif kind == RUN:
            self.write(f"script{number}", f"boot\ngo\nsign 2 2 {text}\noff\n")
        elif kind == FLEET:
            self.shown[number] = self.uses[kind.state] % DEVICES
            self.write(f"items{number}", fleet.shows(self.read(f"chain{self.shown[number]}")))
        if kind.out:
            self.path(kind.output(number)).unlink(missing_ok=True)
        return number

    # ---- what was handed out, and what stands

    def take(self, kind, number, ended):
        """Takes what a call has handed out, whether or not it ended well, and looks at the file that it replaces."""
        try:
            for index, text in self.signatures(kind, number, ended):
                if self.signed.setdefault((kind.state, index), text) != text:
                    self.tally.twice += 1
        except (chains.Unformed, chains.Ended, NoOrder, ValueError, IndexError) as error:
            self.lose(f"{kind.name}: its output cannot be read: {error!r}")
        if kind == FLEET and ended.status == 0:
            self.added.add(self.shown[number])
        self.look(kind)

    def signatures(self, kind, number, ended):
        """The index and the text of each signature that a call has handed out."""
        if kind == RUN:
            signed = [line.split() for line in ended.line.splitlines() if line.startswith("signed ")]
            return [((words[1], int(words[2])), words[3]) for words in signed]
        content = self.read(kind.output(number)) if kind.out else None
        if content is None:
            if ended.status == 0 and kind.out:
                raise ValueError("it is not there")
            return []
        if kind == FACTORY:
            _, signature = chains.log_in(content)[0]
            return [(index_of(signature), content)]
        if kind == ENDORSE:
            if len(content) != HSS_SIGNATURE:
                raise ValueError(f"it has {len(content)} bytes")
            return [((index_of(content[4:]), index_of(content[4 + SIGNATURE + PUBLIC :])), content)]
        order = read_order(bytes.fromhex(content.decode().removeprefix("command ").strip()))
        if len(order.signature) != SIGNATURE:
            raise ValueError(f"its signature has {len(order.signature)} bytes")
        return [(index_of(order.signature), content)]

    def look(self, kind):
        """Whether the file that a call replaces can be read, and is not older than what was handed out of it."""
        content = self.read(kind.state)
        if content is None:
            return self.lose(f"{kind.name}: {kind.state} is gone")
        try:
            if kind == RUN:
                chains.log_in(content)
            elif kind == FLEET:
                rows = fleet.register_at(chains.Reader(content))
                missing = len(self.added) + len(ROWS) - len(rows)
                self.tally.lost += max(0, missing)
            else:
                self.look_at_key(kind, content)
        except (chains.Unformed, chains.Ended, ValueError, IndexError) as error:
            self.lose(f"{kind.name}: {kind.state} of {len(content)} bytes cannot be read: {error!r}")

    def look_at_key(self, kind, content):
        length, word = (45, b"MBK2") if kind == ENDORSE else (56, b"MBK1")
        if len(content) != length or content[:4] != word:
            raise ValueError("it is no key")
        following = int.from_bytes(content[-8 if kind == ENDORSE else -4 :], "big")
        used = [number_of(key[1]) for key in self.signed if key[0] == kind.state]
        if used and following <= max(used):
            self.lose(f"{kind.name}: {kind.state} is the one from before index {max(used)}")

    def lose(self, what):
        self.tally.lost += 1
        self.tally.wrong.append(what)


def index_of(signature):
    return int.from_bytes(signature[:4], "big")


def number_of(index):
    """The number of a signature: its index, or that of two levels."""
    return index if isinstance(index, int) else index[0] * 32 + index[1]
