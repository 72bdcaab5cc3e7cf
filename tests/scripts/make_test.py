#!/usr/bin/env python3
"""Tests of run.py, by which `make test` runs the tests, with small ones in their place.

    tests/scripts/make_test.py

Prints a line for each case and ends with `N passed, M failed`; its status is 1 where a case failed.
"""

import re
import signal
import subprocess
import sys
import tempfile
import time
from pathlib import Path

sys.path.insert(0, str(Path(__file__).resolve().parents[1] / "helpers"))

from cases import Cases
from making import stays

# Runs these tests of a folder, two at once: each with what it is given, its seconds, and how many processors it takes.
RUN = """
import sys
sys.path.insert(0, {tests!r})
import run
from pathlib import Path
run.TESTS = run.TOP = Path({folder!r})
run.OUTPUTS = run.TOP / "printed"
run.PROCESSORS = 2
run.PATIENCE = 0.5
run.main([run.Test(*row) for row in {rows!r}])
"""

PASSES = "print('ok a'); print('2 passed, 0 failed')"
FAILS = "print('FAILED b'); print('1 passed, 1 failed'); raise SystemExit(1)"
DIES = "raise SystemExit('it died')"

# It says what it was given, and that it is there; then it waits for another one, and sees whether a third one is there.
MEETS = """
import sys, time
from pathlib import Path
here = Path(__file__).with_suffix(".there")
here.touch()
while not Path({other!r}).exists():
    time.sleep(0.01)
time.sleep(0.2)
print("is alone" if {third!r} and not Path({third!r}).exists() else "given", *sys.argv[1:])
print("1 passed, 0 failed")
"""

# It leaves a file, starts a process that ignores a friendly end, tells both numbers, and stays.
STAYS = """
import os, subprocess, tempfile, time
from pathlib import Path
tempfile.mkstemp()
other = subprocess.Popen(["sh", "-c", "trap '' TERM; while :; do sleep 0.1; done"])
Path(__file__).with_suffix(".made").write_text(f"{tempfile.gettempdir()} {os.getpid()} {other.pid}")
Path(__file__).with_suffix(".told").touch()
time.sleep(50)
"""


def start(folder, files, rows):
    """Runs tests with these texts in a folder, in a list with these rows."""
    for name, text in files.items():
        (folder / name).write_text(text)
    script = RUN.format(tests=str(Path(__file__).resolve().parents[1]), folder=str(folder), rows=rows)
    return subprocess.Popen([sys.executable, "-c", script, "the program", "a library"], stdout=subprocess.PIPE, stderr=subprocess.PIPE, text=True)


def ended(running):
    """Its status and its lines, without seconds."""
    output, error = running.communicate(timeout=60)
    return running.returncode, re.sub(r" +\d+\.\d s +", " ", output + error).splitlines()


def side_by_side(cases, folder):
    """The two that wait for each other run at once, and the third one, which is longest, when they are done; what is wide runs before."""
    there = {name: str(folder / f"{name}.there") for name in "abcd"}
    files = {
        "a.py": MEETS.format(other=there["b"], third=""),
        "b.py": MEETS.format(other=there["a"], third=there["c"]),
        "c.py": MEETS.format(other=there["b"], third=""),
        "d.py": MEETS.format(other=there["d"], third=there["a"]),
    }
    rows = [("c.py", "", 1), ("a.py", "", 3), ("b.py", "PROGRAM LIBRARY --part 1/2", 2), ("d.py", "PROGRAM", 1, 9)]
    status, lines = ended(start(folder, files, rows))
    printed = {name: (folder / "printed" / f"{name}.txt").read_text().splitlines()[0] for name in ["a-py", "b-py-part-1-2", "c-py", "d-py"]}
    wrong = [] if status == 0 and lines[-1] == "4 passed, 0 failed" else [f"status {status}, {lines}"]
    wrong += [] if lines[0] == "d.py 1 passed, 0 failed" and lines[3] == "c.py 1 passed, 0 failed" else [f"{lines}"]
    wrong += [] if "b.py --part 1/2 1 passed, 0 failed" in lines else [f"{lines}"]
    want = {"a-py": "given", "b-py-part-1-2": "is alone the program a library --part 1/2", "c-py": "given", "d-py": "is alone the program"}
    wrong += [] if printed == want else [f"{printed}"]
    cases.report("the longest first, two at once, and one alone", wrong)


def all_go_on(cases, folder):
    files = {"passes.py": PASSES, "fails.py": FAILS, "dies.py": DIES}
    status, lines = ended(start(folder, files, [("fails.py", "PROGRAM", 3), ("dies.py", "", 2), ("passes.py", "LIBRARY", 1)]))
    alone = ["python3 fails.py 'the program'", "python3 dies.py"]
    shown = [
        ["fails.py 1 passed, 1 failed", "FAILED b", "1 passed, 1 failed", f"This file alone: {alone[0]}"],
        ["dies.py it counted nothing, and its status is 1", "it died", f"This file alone: {alone[1]}"],
        ["passes.py 2 passed, 0 failed"],
    ]
    wrong = [] if status == 1 and lines[-1] == "3 passed, 2 failed" else [f"status {status}"]
    wrong += [f"no {part}" for part in shown if not any(lines[at : at + len(part)] == part for at in range(len(lines)))]
    wrong += [] if sorted(lines[-3:-1]) == sorted(f"FAILED {words}" for words in alone) else [f"{lines[-3:]}"]
    cases.report("where two fail", wrong)


def is_ended(cases, folder):
    """By a signal: with all that the tests started and left, and none begins after it."""
    for kind in (signal.SIGINT, signal.SIGTERM):
        running = start(folder, {"stays.py": STAYS, "again.py": STAYS, "passes.py": PASSES}, [("stays.py", "", 3), ("again.py", "", 2), ("passes.py", "", 1)])
        told = [folder / "stays.told", folder / "again.told"]
        while running.poll() is None and not all(path.exists() for path in told):
            time.sleep(0.02)
        running.send_signal(kind)
        status, lines = ended(running)
        wrong = [] if (status, lines) == (128 + kind, []) else [f"status {status}, {lines}"]
        for path in told:
            room, *processes = path.with_suffix(".made").read_text().split()
            path.unlink()
            wrong += [f"{process} runs" for process in processes if stays(process)] + ([f"{room} is there"] if Path(room).exists() else [])
        cases.report(f"ended by {kind.name}", wrong)


def main():
    if len(sys.argv) != 1:
        sys.exit(__doc__)
    # What a shell starts in the background ignores it, and so would what this starts.
    signal.signal(signal.SIGINT, signal.default_int_handler)
    cases = Cases(None)
    for test in [side_by_side, all_go_on, is_ended]:
        with tempfile.TemporaryDirectory() as folder:
            test(cases, Path(folder).resolve())
    cases.end()


main()
