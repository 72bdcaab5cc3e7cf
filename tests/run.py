#!/usr/bin/env python3
"""Runs the tests of what is built, side by side where they can.

    tests/run.py PROGRAM LIBRARY [WORD..]

As many run at once as there are processors, the longest first; with words, only the files whose path has one of them. The others
go on where one fails, and a signal ends all that run, with what they started and left.

Prints a line for each file that ends: its path, its seconds, and its last line, `N passed, M failed`. What it printed is in
out/tests, and where it failed it is shown whole, with the command that runs this file alone. Ends with the sum of all; its status
is 1 where a file failed.
"""

import os
import re
import shlex
import signal
import subprocess
import sys
import tempfile
import time
from collections import namedtuple
from pathlib import Path

TESTS = Path(__file__).resolve().parent
TOP = TESTS.parent
OUTPUTS = TOP / "out" / "tests"
PROCESSORS = len(os.sched_getaffinity(0))

# What a test is given, by the names of the two words that come with each run.
NOTHING, OF_PROGRAM, OF_LIBRARY = "", "PROGRAM", "PROGRAM LIBRARY"

# How many processors a test takes that has to be alone.
ALL = 1 << 10

# A file of tests; what it is given; the seconds of a processor that it takes; and how many processors at once.
Test = namedtuple("Test", "file given seconds takes", defaults=[1])

# `sessions` has a process for each processor; `ample_memory` takes two gigabytes, and runs two programs at once. What measures
# memory measures that of one process, and no test fails by its time but where a minute or more goes by: they run beside others.
LIST = [
    Test("program/sessions.py", OF_PROGRAM, 36, takes=ALL),
    Test("memory/ample_memory.py", OF_LIBRARY, 67, takes=2),
    Test("library/formats.py", OF_LIBRARY, 91),
    Test("memory/refused_memory.py", OF_PROGRAM, 60),
    Test("pages/report_pairs.py", OF_PROGRAM, 50),
    Test("library/library.py", OF_LIBRARY, 50),
    Test("memory/hostile_input.py", OF_PROGRAM, 32),
    Test("documents/documents.py", NOTHING, 23),
    Test("program/differential.py", OF_PROGRAM, 22),
    Test("program/differences.py", OF_PROGRAM, 30),
    Test("library/python_package.py", OF_LIBRARY, 17),
    Test("pages/report.py", OF_PROGRAM, 25),
    Test("program/program.py", OF_PROGRAM, 7),
    Test("documents/release.py", OF_LIBRARY, 6),
    Test("scripts/make_check.py", NOTHING, 5),
    Test("library/many_sessions.py", OF_LIBRARY, 2),
    Test("documents/recipes.py", OF_LIBRARY, 2),
    Test("program/command_line.py", OF_PROGRAM, 1),
    Test("program/profiles.py", OF_PROGRAM, 6),
    Test("program/functional.py", OF_PROGRAM, 6),
    Test("program/benches.py", OF_PROGRAM, 1),
    Test("program/hints.py", OF_PROGRAM, 1),
    Test("documents/shipped.py", OF_PROGRAM, 1),
    Test("scripts/make_test.py", NOTHING, 1),
    Test("scripts/make_evidence.py", NOTHING, 6),
    Test("scripts/make_help.py", NOTHING, 1),
]

# One that runs: its process, where it prints, and when it began.
Running = namedtuple("Running", "test process output begun")

# How one ended: how many cases passed and failed, and the command that runs it alone.
Ended = namedtuple("Ended", "passed failed alone")

LAST_LINE = re.compile(r"(\d+) passed, (\d+) failed")

# The signals that end all, those that came, and how many seconds a test then has to end by itself.
SIGNALS = (signal.SIGINT, signal.SIGTERM, signal.SIGHUP)
came = []
PATIENCE = 5


def command(test, given):
    """The words that run a test alone, from the top of the repository."""
    path = os.path.relpath(TESTS / test.file, TOP)
    return ["python3", path, *(given.get(word, word) for word in test.given.split())]


def name_of(test):
    return " ".join([test.file, *(word for word in test.given.split() if not word.isupper())])


def takes(test):
    return min(test.takes, PROCESSORS)


def start(test, given, room):
    """Starts a test, with all that it starts as one group, and with a folder of its own for what it makes."""
    name = re.sub(r"\W+", "-", name_of(test))
    folder, output = room / name, OUTPUTS / f"{name}.txt"
    folder.mkdir()
    with output.open("w") as printed:
        process = subprocess.Popen(
            command(test, given), cwd=TOP, env={**os.environ, "TMPDIR": str(folder)}, stdin=subprocess.DEVNULL,
            stdout=printed, stderr=subprocess.STDOUT, start_new_session=True,
        )
    return Running(test, process, output, time.monotonic())


def tell(one, given):
    """Prints how a test ended, and where it failed what it printed. One that fails and counts no failed case counts for one."""
    seconds, text = time.monotonic() - one.begun, one.output.read_text(errors="replace").rstrip()
    counted = LAST_LINE.fullmatch(text.rpartition("\n")[2])
    passed, failed = map(int, counted.groups()) if counted else (0, 0)
    if one.process.returncode or not counted:
        failed = max(failed, 1)
    told = [counted[0] if counted else f"it counted nothing, and its status is {one.process.returncode}"]
    skipped = len(re.findall(r"^skipped ", text, re.M))
    told += [f"{skipped} skipped"] if skipped else []
    alone = shlex.join(command(one.test, given))
    print(f"{name_of(one.test):<40} {seconds:6.1f} s   {', '.join(told)}", flush=True)
    if failed:
        print(f"{text}\nThis file alone: {alone}", flush=True)
    return Ended(passed, failed, alone)


def run(tests, given, room):
    """Runs all, and says how each ended. Those that take most processors begin first: later they would wait for all others."""
    waiting = sorted(tests, key=lambda test: (-takes(test), -test.seconds))
    running, ended = [], []
    try:
        while (waiting or running) and not came:
            for test in [*waiting]:
                if sum(takes(one.test) for one in running) + takes(test) <= PROCESSORS:
                    waiting.remove(test)
                    running.append(start(test, given, room))
            for one in [one for one in running if one.process.poll() is not None]:
                running.remove(one)
                ended.append(tell(one, given))
            time.sleep(0.02)
    finally:
        end(running)
    return ended


def end(running):
    """Ends those that run, each with its group."""
    for one in running:
        if is_left(one):
            os.killpg(one.process.pid, signal.SIGTERM)
    until = time.monotonic() + PATIENCE
    while any(map(is_left, running)) and time.monotonic() < until:
        time.sleep(0.02)
    for one in running:
        if is_left(one):
            os.killpg(one.process.pid, signal.SIGKILL)
            one.process.wait()


def is_left(one):
    """Whether there is a process of its group."""
    one.process.poll()
    try:
        os.killpg(one.process.pid, 0)
    except ProcessLookupError:
        return False
    return True


def main(tests=LIST):
    if len(sys.argv) < 3:
        sys.exit(__doc__)
    given = {"PROGRAM": sys.argv[1], "LIBRARY": sys.argv[2]}
    tests = [test for test in tests if any(word in test.file for word in sys.argv[3:] or [""])]
    if not tests:
        sys.exit("no file of tests has such a path")
    # What a shell starts in the background ignores some of them.
    for kind in SIGNALS:
        if signal.getsignal(kind) != signal.SIG_IGN:
            signal.signal(kind, lambda number, _: came.append(number))
    OUTPUTS.mkdir(parents=True, exist_ok=True)
    with tempfile.TemporaryDirectory() as room:
        ended = run(tests, given, Path(room))
    if came:
        sys.exit(128 + came[0])
    for one in ended:
        if one.failed:
            print(f"FAILED {one.alone}")
    failed = sum(one.failed for one in ended)
    print(f"{sum(one.passed for one in ended)} passed, {failed} failed")
    sys.exit(1 if failed else 0)


if __name__ == "__main__":
    main()
