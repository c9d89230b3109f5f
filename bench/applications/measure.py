#!/usr/bin/env python3
"""Measures loops of application code. See bench/applications.sh, which runs it."""

import pathlib
import resource
import shutil
import subprocess
import sys
import tempfile

HERE = pathlib.Path(__file__).resolve().parents[2]
sys.path[:0] = [str(HERE / "checks" / "cuts")]

from program import Officer, Program, Script, Wrong  # noqa: E402

STEPS = 10_000_000
ROUNDS = 5

# Each loop has no end. The first has nothing but its jump, the others a kind of instruction each, and what that needs.
LOOPS = {
    "jump": "label again\njump again\n",
    "push and pop": "label again\npush 1\npop\njump again\n",
    "arithmetic": "push 1\nlabel again\npush 16777619\nmul\npush 7\nxor\ndup\nadd\njump again\n",
    "memory": "label again\npush 9\npush 40\nstore\npush 40\nload\npop\njump again\n",
    "input": "label again\npush 3\ninput\npop\nlength\npop\njump again\n",
    "calls": "label again\ncall on\njump again\nlabel on\nreturn\n",
    "a count down": "label again\npush 255\nlabel down\ndup\njumpzero end\npush 1\nsub\njump down\n"
    "label end\npop\njump again\n",
}


def spent():
    used = resource.getrusage(resource.RUSAGE_CHILDREN)
    return used.ru_utime + used.ru_stime


def time_of(words, folder):
    """The least time of the processor that a run takes, whose steps are used up."""
    times = []
    for _ in range(ROUNDS):
        began = spent()
        done = subprocess.run(words, cwd=folder, capture_output=True, text=True)
        times.append(spent() - began)
        if done.stdout != "out of steps -\n":
            raise Wrong(f"{' '.join(map(str, words))} printed {done.stdout}{done.stderr}")
    return min(times)


def time_of_step(words, folder):
    """How long a step takes, in nanoseconds: words(STEPS) are those of a run of that many."""
    return (time_of(words(STEPS), folder) - time_of(words(1), folder)) / (STEPS - 1) * 1e9


class Device:
    """A device whose layer 2 gets one code after another, by orders of the owner of layer 1."""

    def __init__(self, program):
        self.program = program
        self.owner = Officer(program, "owner", bytes(32))
        (program.folder / "noise").write_bytes(bytes(48))
        (program.folder / "first").write_bytes(b"layer one")
        program.run("factory", "noise", "owner.key", "owner.public", "first", "device")
        self.image = (program.folder / "device").read_bytes()
        self.obey(f"order establish 2\nowner {self.owner.public.hex()}\ntrust countersigned\n")

    def obey(self, draft):
        replies, self.image = self.program.serve(
            self.image, Script().add("boot", (self.owner.sign(draft), bytes(32)), "off")
        )
        if not replies[1].startswith("done "):
            raise Wrong(f"an order was answered {replies[1]}")

    def load(self, code):
        self.obey(f"order emergency 2\nversion 1\ntrust countersigned\ncode {code.hex()}\n")
        (self.program.folder / "image").write_bytes(self.image)


def main():
    path, interpreter = (pathlib.Path(word).resolve() for word in sys.argv[1:3])
    folder = tempfile.mkdtemp()
    try:
        program = Program(path, pathlib.Path(folder) / "device")
        device = Device(program)
        (program.folder / "input").write_bytes(b"an input")
        print(f"{'loop':16} {'app':>12} {'in C':>12} {'times':>6}")
        for name, text in LOOPS.items():
            (program.folder / "text").write_text(text)
            program.run("asm", "text", "code")
            device.load((program.folder / "code").read_bytes())
            ours = time_of_step(lambda steps: [path, "app", "image", "2", "input", str(steps)], program.folder)
            plain = time_of_step(lambda steps: [interpreter, "code", "input", str(steps)], program.folder)
            print(f"{name:16} {ours:9.1f} ns {plain:9.1f} ns {ours / plain:6.1f}", flush=True)
    except Wrong as wrong:
        print(wrong)
        return 1
    finally:
        shutil.rmtree(folder)
    return 0


if __name__ == "__main__":
    sys.exit(main())
