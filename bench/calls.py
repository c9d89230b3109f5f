"""How long a call of the built program takes, and how much memory. Read by scripts of this folder."""

import os
import resource
import subprocess
import sys

TIMER = "/usr/bin/time"


def spent():
    used = resource.getrusage(resource.RUSAGE_CHILDREN)
    return used.ru_utime + used.ru_stime


class Calls:
    """Calls of the program in a folder, in which it reads and writes its files."""

    def __init__(self, program, folder, rounds):
        self.program, self.folder, self.rounds = program, folder, rounds

    def measure(self, words, files, starts, status=0):
        """The least time of some calls, in seconds of the processor, and the most memory of one more, in megabytes.

        Each call begins with these files, and has to end with this status and print what starts so. The memory is None
        if GNU time is not there.
        """
        times = []
        for _ in range(self.rounds):
            began = spent()
            self.call([self.program, *words.split()], files, starts, status)
            times.append(spent() - began)
        if not os.access(TIMER, os.X_OK):
            return min(times), None
        timed = [TIMER, "-q", "-f", "%M", "-o", "memory", self.program, *words.split()]
        self.call(timed, files, starts, status)
        return min(times), int((self.folder / "memory").read_text()) / 1_024

    def call(self, words, files, starts, status):
        for name, bytes_ in files.items():
            (self.folder / name).write_bytes(bytes_)
        with subprocess.Popen(words, cwd=self.folder, stdout=subprocess.PIPE) as process:
            printed = process.stdout.read(1_000)
            while process.stdout.read(1_048_576):
                pass
        if process.returncode != status or not printed.startswith(starts.encode()):
            told = printed[:200].decode(errors="replace")
            sys.exit(f"{' '.join(map(str, words))} ended with status {process.returncode}: {told}, and not {starts}")
