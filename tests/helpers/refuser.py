"""Runs of a process to which a growth of memory, a read or a write is refused, or whose reads and writes are short."""

import errno
import os
import subprocess
from pathlib import Path

import runs

SOURCE = Path(__file__).with_name("refuse_call.c")

# The kinds of calls, by the variable that has the number of the one that is refused.
GROWTH, READ, WRITE = "REFUSED_GROWTH", "REFUSED_READ", "REFUSED_WRITE"

# Stands for the error number of a write that does not fail, and takes no byte.
TAKES_NOTHING = 0

# What the library that refuses a call writes to standard error.
REFUSED = b"refused\n"


class Refuser:
    """The library that refuses a call to the process that loads it."""

    def __init__(self, folder):
        self.folder = Path(folder)
        self.library = self.folder / "refuse_call.so"
        subprocess.run(["cc", "-O1", "-fPIC", "-shared", "-o", self.library, SOURCE], check=True)

    def run(self, program, words, kind, call, error=errno.EIO, for_good=False, **options):
        """How a program ends to which this call of its kind is refused, and whether it was. For good: so is each later write to
        the same file."""
        refusing = {kind: str(call), "REFUSED_AS": str(error), **({"REFUSED_FOR_GOOD": "1"} if for_good else {})}
        ended = self.start(program, words, refusing, **options)
        return ended._replace(error=ended.error.removeprefix(REFUSED)), ended.error.startswith(REFUSED)

    def start(self, program, words, variables=(), log=b"", most=None):
        """How a program ends that takes a log from standard input. No read or write takes more bytes than `most`, where that
        is given."""
        shortening = {} if most is None else {"MOST_BYTES": str(most)}
        environment = {**os.environ, "LD_PRELOAD": str(self.library), **dict(variables), **shortening}
        return runs.run(program, words, log, env=environment)
