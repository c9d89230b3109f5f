"""What is computed anew of the tests of the commands that show orders and keys, by `commands.py`."""

import re

import commands
from lms import sha256
from sources import line_of
from top_readers import arguments, given


def answered(source):
    """Each call of the plays ends as `commands.py` says, and leaves these files."""
    files = dict(given(source))
    for (steps,) in source.rows(r"Play {\s*failing: &\[\],\s*steps: &\[(.*?)\],\s*}"):
        held = dict(files)
        for kind, rest in re.findall(r'Step::(\w+)\(((?:[^()"]|"[^"]*")*)\)', steps):
            words = arguments(source, rest)
            source.seen.update(words)
            if kind == "Ends":
                answer = commands.answer(words[0].split(" "), commands.Folder(held))
                source.compare(words[0], (answer.status, answer.text), (int(words[1]), line_of(words[2])))
                held |= answer.written
            elif kind == "IsOrder":
                bytes_ = bytes.fromhex(held[words[0]].decode().split(" ")[1])
                source.compare(f"order {words[0]}", sha256(bytes_).hex(), words[1])
            elif kind == "Matches":
                source.compare(f"{words[0]} and {words[1]}", held[words[0]], held[words[1]])
            elif kind == "IsMissing":
                source.compare(f"a file {words[0]}", words[0] in held, False)
