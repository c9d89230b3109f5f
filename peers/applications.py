"""Application code: its instructions, how a code runs, what it asks for, and its text, written from docs/use/formats.md
alone, and the trace of a run, from docs/use/commands.md.

    run(code, input, secrets, steps)     how the code ends, in the words of `app`, and whether it halts
    traced(code, input, secrets, steps)  the lines that tell of its steps
    called(code, input, secrets)         the action that code which is called asks for, or NoAnswer
    assemble(text), disassemble(code)    what `asm` and `disasm` write
    labelled(code)                       what `showcode` prints
"""

import functools
import re

from chains import LONGEST_SAID, Reader, Unformed
from texts import BadLine, MOST_SECRETS

MOST_CODE, MOST_VALUES, MOST_PLACES, MEMORY, MOST_OUTPUT = 32_768, 256, 64, 1_024, 4_096
# how many steps a call may take
CALL_STEPS = 1_000_000
# the code that takes calls begins with `push 1296193585` and `pop`
CALL_WORD = b"\1MBX1\2"
WORD = 2**32
# byte, name, bytes of the operand, values taken, values left
TABLE = [
    (0x00, "halt", 0, 0, 0),
    (0x01, "push", 4, 0, 1),
    (0x02, "pop", 0, 1, 0),
    (0x03, "dup", 0, 1, 2),
    (0x04, "swap", 0, 2, 2),
    (0x05, "over", 0, 2, 3),
    *((0x10 + at, name, 0, 2, 1) for at, name in enumerate("add sub mul div rem and or xor equal less".split())),
    (0x20, "jump", 2, 0, 0),
    (0x21, "jumpzero", 2, 1, 0),
    (0x22, "call", 2, 0, 0),
    (0x23, "return", 0, 0, 0),
    (0x30, "load", 0, 1, 1),
    (0x31, "store", 0, 2, 0),
    (0x40, "input", 0, 1, 1),
    (0x41, "length", 0, 0, 1),
    (0x42, "emit", 0, 1, 0),
    (0x43, "get", None, 2, 1),
]
BY_BYTE = {byte: (name, size) for byte, name, size, _, _ in TABLE}
VALUES = {name: (takes, leaves) for _, name, _, takes, leaves in TABLE}
BY_NAME = {name.encode(): (byte, size) for byte, name, size, _, _ in TABLE}
JUMPS = "jump", "jumpzero", "call"
SUMS = {
    "add": lambda a, b: a + b,
    "sub": lambda a, b: a - b,
    "mul": lambda a, b: a * b,
    "div": lambda a, b: a // b,
    "rem": lambda a, b: a % b,
    "and": lambda a, b: a & b,
    "or": lambda a, b: a | b,
    "xor": lambda a, b: a ^ b,
    "equal": lambda a, b: int(a == b),
    "less": lambda a, b: int(a < b),
}


class Trap(Exception):
    """An instruction that cannot be executed."""

    def __init__(self, cause):
        super().__init__(cause)
        self.cause = cause


class Wrong(Exception):
    """A line or an instruction that is none."""


def instruction(code, place):
    """The name, the operand and the length of the instruction at an offset."""
    if place >= len(code) or code[place] not in BY_BYTE:
        raise Wrong
    (name, size), begins = BY_BYTE[code[place]], place + 1
    if size is None:
        size = code[begins] if begins < len(code) else 0
        begins += 1
        if not 1 <= size <= 32 or not re.fullmatch(rb"[\x21-\x7e]*", code[begins : begins + size]):
            raise Wrong
    operand = code[begins : begins + size]
    if len(operand) < size:
        raise Wrong
    return name, operand if name == "get" else int.from_bytes(operand, "big"), begins + size - place


# ---- a run


class Machine:
    """A code at work. `secrets` has a dictionary for each region that the code may read."""

    def __init__(self, code, input_, secrets):
        self.code, self.input, self.secrets = code, input_, secrets
        self.values, self.places, self.memory, self.output, self.at = [], [], bytearray(MEMORY), bytearray(), 0
        # what the last step has written to memory: from which address on, and which bytes
        self.written = None

    def state(self):
        """All that its next steps depend on, with how much it has emitted."""
        return self.at, self.values[:], self.places[:], bytes(self.memory), len(self.output)

    def step(self):
        """Executes an instruction; whether it is a `halt`."""
        self.written = None
        try:
            name, operand, length = instruction(self.code, self.at)
        except Wrong:
            raise Trap(1) from None
        takes, leaves = VALUES[name]
        if len(self.values) < takes:
            raise Trap(2)
        if len(self.values) - takes + leaves > MOST_VALUES:
            raise Trap(3)
        taken = self.values[len(self.values) - takes :]
        left, after = self.does(name, operand, taken, self.at + length)
        self.values[len(self.values) - takes :] = [value % WORD for value in left]
        self.at = after
        return name == "halt"

    def does(self, name, operand, taken, after):
        """The values that an instruction leaves, and the offset of the next one. Makes its other changes."""
        if name in SUMS:
            a, b = taken
            if name in ("div", "rem") and b == 0:
                raise Trap(5)
            return [SUMS[name](a, b)], after
        if name in ("halt", "push", "pop", "dup", "swap", "over", "length"):
            return {
                "halt": lambda: [],
                "push": lambda: [operand],
                "pop": lambda: [],
                "dup": lambda: taken * 2,
                "swap": lambda: taken[::-1],
                "over": lambda: [*taken, taken[0]],
                "length": lambda: [len(self.input)],
            }[name](), after
        return getattr(self, name + "_")(operand, taken, after)

    def jump_(self, place, taken, after):
        return [], place

    def jumpzero_(self, place, taken, after):
        return [], place if taken == [0] else after

    def call_(self, place, taken, after):
        if len(self.places) == MOST_PLACES:
            raise Trap(8)
        self.places.append(after)
        return [], place

    def return_(self, operand, taken, after):
        if not self.places:
            raise Trap(8)
        return [], self.places.pop()

    def load_(self, operand, taken, after):
        if taken[0] >= MEMORY:
            raise Trap(4)
        return [self.memory[taken[0]]], after

    def store_(self, operand, taken, after):
        value, address = taken
        if address >= MEMORY:
            raise Trap(4)
        self.write(address, bytes([value % 256]))
        return [], after

    def input_(self, operand, taken, after):
        return [self.input[taken[0]] if taken[0] < len(self.input) else 256], after

    def emit_(self, operand, taken, after):
        if len(self.output) == MOST_OUTPUT:
            raise Trap(7)
        self.output.append(taken[0] % 256)
        return [], after

    def get_(self, name, taken, after):
        address, region = taken
        if region not in self.secrets:
            raise Trap(6)
        secret = self.secrets[region].get(name)
        if secret is None:
            return [WORD - 1], after
        if address + len(secret) > MEMORY:
            raise Trap(4)
        self.write(address, secret)
        return [len(secret)], after

    def write(self, address, bytes_):
        self.memory[address : address + len(bytes_)] = bytes_
        self.written = address, bytes_


def ran(code, input_, secrets, steps):
    """How a code ends that runs for at most `steps` steps: the words that `app` says before the output; the output; and
    whether it halts."""
    machine, kept = Machine(code, input_, secrets), None
    for number in range(1, steps + 1):
        at = machine.at
        if number & (number - 1) == 0:
            kept = machine.state()
        elif at == kept[0] and machine.state() == kept:
            # it goes round for ever
            break
        try:
            if machine.step():
                return f"halted {number}", bytes(machine.output), True
        except Trap as trap:
            return f"trap {trap.cause} {at}", bytes(machine.output), False
    return "out of steps", bytes(machine.output), False


def run(code, input_, secrets, steps):
    """How a code ends that runs for at most `steps` steps, in the words of `app`, and whether it halts."""
    words, output, is_halted = ran(code, input_, secrets, steps)
    return f"{words} {output.hex() or '-'}", is_halted


def traced(code, input_, secrets, steps):
    """The lines of a trace: one for each step of a run of at most `steps` steps, but for a place without an
    instruction."""
    machine = Machine(code, input_, secrets)
    for number in range(1, steps + 1):
        try:
            told = said(*instruction(code, machine.at))
        except Wrong:
            return
        stack = " ".join(map(str, machine.values)) or "-"
        line = f"trace {number} at {machine.at}: {told}  stack {stack}"
        try:
            is_last = machine.step()
        except Trap:
            is_last = True
        if machine.written:
            address, bytes_ = machine.written
            line += f"  memory {address}={bytes_.hex() or '-'}"
        yield line
        if is_last:
            return


# ---- what is asked for


class NoAnswer(Exception):
    """A call that is not answered: why, in the words of `callcode`."""

    def __init__(self, line):
        super().__init__(line)
        self.line = line


def takes_calls(code):
    return code is not None and code.startswith(CALL_WORD)


def read_demand(reader):
    """A name, and the value that is to be kept under it, or None if the name is to be dropped."""
    is_kept, length = reader.number(1, 0, 1), reader.number(1, 1, 32)
    at, name = reader.at, reader.take(length)
    if not re.fullmatch(rb"[\x21-\x7e]+", name):
        raise Unformed(at)
    return name, reader.take(reader.number(1, 0, LONGEST_SAID)) if is_kept else None


def read_action(reader):
    """What an output asks for: its demands in their order, and the answer."""
    demands = [read_demand(reader) for _ in range(reader.number(1))]
    return tuple(demands), reader.take(reader.number(1, 0, LONGEST_SAID))


def called(code, input_, secrets):
    """The demands and the answer of a code that is called, or NoAnswer."""
    frozen = tuple((region, tuple(sorted(known.items()))) for region, known in secrets.items())
    words, output, is_halted = run_once(code, input_, frozen)
    if not is_halted:
        raise NoAnswer(f"{words} {output.hex() or '-'}")
    try:
        return Reader(output).whole(read_action)
    except Unformed as unformed:
        raise NoAnswer(f"no action at {unformed.at}") from None


@functools.lru_cache(4_096)
def run_once(code, input_, frozen):
    """A run for as many steps as a call may take. `frozen` has the secrets of each region as pairs."""
    return ran(code, input_, {region: dict(known) for region, known in frozen}, CALL_STEPS)


def after_demands(demands, secrets, number):
    """The secrets of a region after demands at this configuration number, or NoAnswer if one finds no room. A name that
    is known keeps its place."""
    left = list(secrets)
    for name, value in demands:
        at = next((at for at, secret in enumerate(left) if secret[0] == name), len(left))
        if value is not None and at == MOST_SECRETS:
            raise NoAnswer("full")
        left[at : at + 1] = [] if value is None else [(name, value, number)]
    return tuple(left)


# ---- texts


def number(word, size):
    """The bytes of a decimal number of this size."""
    if not re.fullmatch(rb"0|[1-9][0-9]*", word) or int(word) >= 256**size:
        raise Wrong
    return int(word).to_bytes(size, "big")


LABEL = re.compile(rb"^label ((?![0-9])[\x21-\x7e]{1,32})$", re.MULTILINE)


def label_in(line):
    """The label that a line gives, or None."""
    found = LABEL.fullmatch(line)
    return found and found[1]


def assembled(line, values):
    """The code of a line that gives no label. `values` has the offsets of the labels, or numbers in their place."""
    name, *operands = line.split(b" ")
    if name not in BY_NAME:
        raise Wrong
    byte, size = BY_NAME[name]
    if len(operands) != (size != 0):
        raise Wrong
    if size is None:
        if not re.fullmatch(rb"[\x21-\x7e]{1,32}", operands[0]):
            raise Wrong
        return bytes([byte, len(operands[0])]) + operands[0]
    if name.decode() in JUMPS and not re.match(rb"[0-9]", operands[0]):
        if operands[0] not in values:
            raise Wrong
        return bytes([byte]) + values[operands[0]].to_bytes(size, "big")
    return bytes([byte]) + (number(operands[0], size) if size else b"")


def assemble(text):
    """The code of a text."""
    lines = text.split(b"\n")
    if lines[-1] == b"":
        lines.pop()
    given = dict.fromkeys(LABEL.findall(text), 0)
    size, seen = 0, set()
    for at, line in enumerate(lines, 1):
        label = label_in(line)
        try:
            if label is None:
                size += len(assembled(line, given))
            elif label in seen:
                raise Wrong
            if size > MOST_CODE:
                raise Wrong
        except Wrong:
            raise BadLine(at) from None
        if label is not None:
            seen.add(label)
            given[label] = size
    return b"".join(assembled(line, given) for line in lines if label_in(line) is None)


class NoInstruction(Exception):
    """No whole instruction stands at this offset of a code."""

    def __init__(self, at):
        super().__init__(at)
        self.at = at


def said(name, operand, length):
    """The line of an instruction."""
    told = operand.decode() if name == "get" else str(operand)
    return f"{name} {told}" if length > 1 else name


def instructions(code):
    """The offset, the name and the operand of each instruction of a code. The operand is a list of a word, or of none."""
    found, at = [], 0
    while at < len(code):
        try:
            name, operand, length = instruction(code, at)
        except Wrong:
            raise NoInstruction(at) from None
        told = operand.decode() if name == "get" else str(operand)
        found.append((at, name, [told] if length > 1 else []))
        at += length
    return found


def disassemble(code):
    """The lines of a code."""
    return [" ".join([name, *told]) for _, name, told in instructions(code)]


def labelled(code):
    """The lines of a code with labels and places."""
    found, lines = instructions(code), []
    begins = {str(at) for at, _, _ in found}
    targets = {told[0] for _, name, told in found if name in JUMPS}
    for at, name, told in found:
        if str(at) in targets:
            lines.append(f"label at_{at}")
        if name in JUMPS and told[0] in begins:
            told = [f"at_{told[0]}"]
        lines.append(" ".join([name, *told, ";", str(at)]))
    return lines
