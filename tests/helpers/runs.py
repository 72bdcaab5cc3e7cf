"""The one way in which the tests run the built program: over a log on standard input, with short or failing reads and writes, or
step by step."""

import os
import re
import shlex
import subprocess
import tempfile
import time
import tty
from collections import deque, namedtuple
from contextlib import contextmanager
from pathlib import Path


class Ended(namedtuple("Ended", "status output error")):
    """How a run ended. Beside that stands what was asked, so that a failure can say it."""

    asked = None

    def _replace(self, **parts):
        return self.of(self.asked, *super()._replace(**parts))

    @classmethod
    def of(cls, asked, *parts):
        ended = cls(*parts)
        ended.asked = asked
        return ended


# What a run took: its most kilobytes, or none, and its status.
Peak = namedtuple("Peak", "kilobytes status")

# Bytes that the program has without a log, at most: all of it, with what it takes of the C library. A system that has much of both
# in its cache maps more of them at once.
PROGRAM_BYTES = 2_600_000

PIPES = {"stdout": subprocess.PIPE, "stderr": subprocess.PIPE}

# What was asked of programs last, and of those that did otherwise than they should.
Asked = namedtuple("Asked", "words size begin environment")
asked, blamed = deque(maxlen=3), []


def ask(program, words, log=b"", env=None, **_):
    asked.append(Asked([program, *words], len(log), log[:300], env or {}))


def spelled(one):
    """What was asked once: the words as a shell reads them, and how the log begins."""
    variables = [f"{name}={value}" for name, value in one.environment.items() if os.environ.get(name) != value]
    words = shlex.join([*variables, *map(os.fsdecode, one.words)])
    return words + (f" < {one.size} bytes, {one.begin!r}{' ..' if one.size > len(one.begin) else ''}" if one.size else "")


def run(program, words=(), log=b"", **options):
    """How a program ends with these words over a log on standard input. Options are those of a process, as other ends of its
    pipes; what it writes to such an end is None."""
    given = {} if "stdin" in options else {"input": log}
    ask(program, words, log, **options)
    done = subprocess.run([program, *words], timeout=300, **(PIPES | given | options))
    return Ended.of(asked[-1], done.returncode, done.stdout, done.stderr)


def told_by(program, words, folder, log=b"", **options):
    """How a program ends in this folder, where its standard error is a terminal."""
    ours, theirs = os.openpty()
    tty.setraw(theirs)
    given = options if "stdin" in options else {"input": log, **options}
    ask(program, words, log, **options)
    done = subprocess.run([program, *words], stdout=subprocess.PIPE, stderr=theirs, cwd=folder, timeout=300, **given)
    os.close(theirs)
    told = b""
    while True:
        try:
            piece = os.read(ours, 4096)
        except OSError:
            # Nobody else has the terminal open.
            break
        if not piece:
            break
        told += piece
    os.close(ours)
    return Ended.of(asked[-1], done.returncode, done.stdout, told)


def start(program, words=(), **options):
    """A program that runs, with a pipe for each of its ends where nothing else is said."""
    ask(program, words, **options)
    return subprocess.Popen([program, *words], **({"stdin": subprocess.PIPE} | PIPES | options))


def give(running, log, times=1):
    """Writes a log this often to its standard input. Whether it reads until the end of that."""
    try:
        for _ in range(times):
            running.stdin.write(log)
        running.stdin.flush()
    except BrokenPipeError:
        return False
    return True


def end(running, rest=b""):
    """How it ends over the rest of its log."""
    output, error = running.communicate(rest, timeout=300)
    return Ended(running.returncode, output, error)


def peak_kilobytes(running):
    """The most memory that it had so far; None where it has ended."""
    told = re.search(r"^VmHWM:\s+(\d+) kB$", Path(f"/proc/{running.pid}/status").read_text(), re.M)
    return int(told[1]) if told else None


def peak(program, words, log):
    """The most kilobytes that a program has, until it has read a log through a pipe, and its status. One that ends before has
    none."""
    running = start(program, words, stdout=subprocess.DEVNULL, stderr=subprocess.DEVNULL)
    is_read = give(running, log)
    # A pipe holds 65,536 bytes, of which no word can tell whether they were read.
    time.sleep(0.1)
    kilobytes = peak_kilobytes(running) if is_read else None
    return Peak(kilobytes, end(running).status)


class Program:
    """The built program, and what refuses calls to it."""

    def __init__(self, path, refuser):
        self.path = path
        self.refuser = refuser

    def run(self, words, log=b"", **options):
        return run(self.path, words, log, **options)

    def run_short(self, words, log=b""):
        """The same where each read gives a byte, and each write takes one."""
        return self.refuser.start(self.path, words, log=log, most=1)

    def run_failing(self, words, kind, call, log=b"", **options):
        """The same where this read or write fails, and each write after it. The second answer is whether there is such a
        call."""
        return self.refuser.run(self.path, words, kind, call, log=log, for_good=True, **options)


def differences(what, came, want):
    if came == want:
        return []
    blame(came, want)
    return [f"{what}: {shown(came)}, not {shown(want)}"]


def blame(came, want):
    """Keeps what was asked of the runs that ended otherwise."""
    if isinstance(came, Ended):
        blamed.extend([came.asked] if came.asked and came.asked not in blamed else [])
    elif isinstance(came, (list, tuple)) and isinstance(want, (list, tuple)):
        for one, other in zip(came, want):
            if one != other:
                blame(one, other)


def asked_in_vain():
    """What a failure says that was asked: of the first runs that ended otherwise, where they are known, and else last."""
    return blamed[:3] or [*asked]


def forget():
    asked.clear()
    blamed.clear()


def shown(value):
    text = repr(value)
    return text if len(text) <= 300 else f"{text[:150]} .. {text[-150:]}"


def how(ended):
    return ended.status, ended.error


@contextmanager
def files(left, right):
    """The names of files with these logs."""
    with tempfile.TemporaryDirectory() as folder:
        names = [Path(folder, "left.log"), Path(folder, "right.log")]
        for name, log in zip(names, [left, right]):
            name.write_bytes(log)
        yield names


@contextmanager
def pipe(log):
    """The reading end of a pipe that holds this log."""
    reader, writer = os.pipe()
    with os.fdopen(reader, "rb", buffering=0) as reading:
        with os.fdopen(writer, "wb") as writing:
            writing.write(log)
        yield reading
