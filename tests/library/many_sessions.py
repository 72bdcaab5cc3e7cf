#!/usr/bin/env python3
"""Tests of python/examples/sessions.py, which tells which of many recordings are equal: in one process, in several by
xargs, and by a Dask scheduler with three workers over loopback, of which one is ended in the middle.

    tests/library/many_sessions.py crates/udsnorm/out/udsnorm out/lib [--recordings NUMBER] [--seed NUMBER]

Where no Python has Dask (Debian: python3-distributed), that is named and left out. Prints a line for each case and ends
with `N passed, M failed`; its status is 1 where a case failed.
"""

import argparse
import hashlib
import os
import re
import shutil
import subprocess
import sys
import tempfile
import time
from contextlib import contextmanager
from pathlib import Path

sys.path.insert(0, str(Path(__file__).resolve().parents[1] / "helpers"))

from cases import DONE, Cases
from random_logs import random_logs
from runs import differences, run

TOP = Path(__file__).resolve().parents[2]
SCRIPT = TOP / "python" / "examples" / "sessions.py"
EXAMPLES = TOP / "examples"
WORKERS = 3
PATIENCE = 60


def surroundings(library):
    """What a Python sees that finds the package and its library."""
    return {**os.environ, "PYTHONPATH": str(TOP / "python"), "LD_LIBRARY_PATH": str(library)}


def with_dask():
    """A Python that has Dask, if there is one."""
    found = (shutil.which(name) for name in (sys.executable, "python3", "/usr/bin/python3"))
    has = (name for name in found if name and run(name, ["-c", "import distributed"]).status == 0)
    return next(has, None)


def recordings(folder, count, seed):
    """The paths of so many recordings: the sample logs, their canonical logs, and random ones."""
    logs = [path.read_bytes() for path in sorted([*EXAMPLES.glob("*.log"), *EXAMPLES.glob("*.canonical")])]
    logs += [log for log, _ in zip(random_logs(seed), range(count - len(logs)))]
    for number, log in enumerate(logs):
        path = folder / f"{number}.log"
        path.write_bytes(log)
        yield str(path)


def wanted(program, path):
    """The line of a recording, by the program."""
    canonical, explained = (run(program, [command, path]) for command in ("normalise", "explain"))
    if canonical.status != DONE:
        return f"refused {path}: {canonical.error.decode().rstrip()}"
    counts = re.search(r"messages (\d+) dropped (\d+) ", explained.output.decode().splitlines()[-1])
    return f"{hashlib.sha256(canonical.output).hexdigest()} messages {counts[1]} dropped {counts[2]} {path}"


def by_xargs(paths, environment):
    """The lines where several processes tell of some recordings each, into one file."""
    words = ["xargs", "-0", "-P", "3", "-n", "25", sys.executable, SCRIPT]
    with tempfile.TemporaryFile() as lines:
        given = "".join(f"{path}\0" for path in paths).encode()
        subprocess.run(words, input=given, stdout=lines, env=environment, check=True, timeout=PATIENCE)
        lines.seek(0)
        return b"".join(sorted(lines.readlines()))


def until(what, found):
    """What is found at last."""
    end = time.monotonic() + PATIENCE
    while time.monotonic() < end:
        if came := found():
            return came
        time.sleep(0.02)
    raise TimeoutError(what)


@contextmanager
def cluster(python, folder, environment, count=WORKERS):
    """The address of a scheduler over loopback, and its workers, each a process."""
    note = folder / "scheduler.json"
    common = ["--host", "127.0.0.1", "--no-dashboard", "--scheduler-file", str(note)]
    kinds = [["dask_scheduler", "--port", "0"], *[["dask_worker", "--no-nanny", "--nthreads", "1"]] * count]
    running = []
    try:
        with (folder / "cluster.txt").open("wb") as told:
            for kind, *options in kinds:
                words = [python, "-m", f"distributed.cli.{kind}", *options, *common]
                running.append(subprocess.Popen(words, env=environment, cwd=folder, stdout=told, stderr=told))
                until("the scheduler", note.exists)
        address = re.search(r"tcp://127\.0\.0\.1:\d+", until("its address", note.read_text))[0]
        yield address, running[1:]
    finally:
        for process in running:
            process.kill()
            process.wait()


def started(python, address, paths, environment):
    words = [python, SCRIPT, "--scheduler", address, *paths]
    return subprocess.Popen(words, env=environment, stdout=subprocess.PIPE, stderr=subprocess.PIPE)


def opened_by(handle):
    """The path that a handle of a process is of, or nothing where it was closed meanwhile."""
    try:
        return os.readlink(handle)
    except FileNotFoundError:
        return None


def reads(worker, pipe):
    """Whether a worker has a pipe open."""
    handles = Path(f"/proc/{worker.pid}/fd")
    return worker.poll() is None and any(opened_by(handle) == str(pipe) for handle in handles.iterdir())


def with_one_ended(script, workers, pipe, log):
    """What a script prints where one of the recordings is a pipe, and the first worker that reads it is ended by its process
    number. Another one then gets the log."""
    held = os.open(pipe, os.O_RDWR)
    first = until("a worker that reads", lambda: next((worker for worker in workers if reads(worker, pipe)), None))
    first.kill()
    first.wait()
    until("another one", lambda: any(reads(worker, pipe) for worker in workers if worker is not first))
    os.write(held, log)
    os.close(held)
    return script.communicate(timeout=PATIENCE)


def by_dask(cases, python, folder, paths, want, environment):
    pipe, log = folder / "pipe", (EXAMPLES / "vin.log").read_bytes()
    os.mkfifo(pipe)
    with cluster(python, folder, environment) as (address, workers):
        script = started(python, address, paths, environment)
        output, error = script.communicate(timeout=PATIENCE)
        cases.report("by three workers", differences("the lines", (script.returncode, output), (0, want)))
        script = started(python, address, [str(pipe), *paths], environment)
        output, error = with_one_ended(script, workers, pipe, log)
        own = [line for line in output.splitlines(keepends=True) if not line.endswith(b"/pipe\n")]
        wrong = differences("the lines", (script.returncode, b"".join(own)), (0, want))
        wrong += differences("lines more", len(output.splitlines()) - len(own), 1)
        cases.report("by three workers, of which one is ended in the middle", wrong)


def main():
    words = argparse.ArgumentParser(description=__doc__, formatter_class=argparse.RawDescriptionHelpFormatter)
    words.add_argument("program", type=os.path.abspath)
    words.add_argument("library", type=Path)
    words.add_argument("--recordings", type=int, default=200)
    words.add_argument("--seed", type=int, default=1)
    given = words.parse_args()
    cases = Cases(given.program)
    environment = surroundings(given.library.resolve())
    with tempfile.TemporaryDirectory() as directory:
        folder = Path(directory).resolve()
        paths = list(recordings(folder, given.recordings, given.seed))
        want = "".join(sorted(f"{wanted(given.program, path)}\n" for path in paths)).encode()
        found = run(sys.executable, [SCRIPT, *paths], env=environment)
        cases.case("in one process", found, DONE, want)
        cases.report("by xargs", differences("the lines", by_xargs(paths, environment), want))
        python = with_dask()
        if python:
            by_dask(cases, python, folder, paths, want, environment)
        else:
            print("skipped Dask: no Python has it (Debian: python3-distributed)", flush=True)
    cases.end()


if __name__ == "__main__":
    main()
