#!/usr/bin/env python3
"""Hostile and random logs through the built program, compared with the oracle: exit status, and what is written and told.

    tests/program/differential.py crates/udsnorm/out/udsnorm [--seconds NUMBER] [--seed NUMBER]

First examples/vin.log, 212 bytes, with each of its bytes replaced by each of seven bytes that a line may and may not have:
1,484 logs, each through each command over one log. Each is accepted, or refused at the place that the oracle finds by
trying what could follow. Then, until the seconds are over, random ones: half of them are sessions whose frames are lost,
repeated, exchanged and late; the others are made of a sample log or a session by changing bytes. Each of these goes through
one of the jobs, with `--strict` or without it, half of them under a limit about the length of the log. The same seed gives the same runs; it is 1
where none is given, and the seconds 12.
Prints the log of each difference, and ends with `N passed, M failed`; its status is 1 where there was a difference.
"""

import argparse
import itertools
import os
import random
import sys
import tempfile
import time
from functools import partial
from pathlib import Path

sys.path.insert(0, str(Path(__file__).resolve().parents[1] / "helpers"))

import commands
import oracle
from random_logs import limit_for, mutated, random_logs
from runs import run
from tables import EXAMPLES

REPLACEMENTS = b"\0\n\r (F\xff"

# What each command comes to, also over a log that has to be clean: `find` alone has no such option.
ORACLES = dict(commands.ORACLES)
ORACLES |= {f"{job} --strict": partial(oracle.strictly, came) for job, came in ORACLES.items() if job.split()[0] != "find"}

# The same over two logs.
COMPARISONS = {
    "compare": oracle.compared,
    "compare --show": partial(oracle.compared, write=partial(oracle.comparison_text, shows_items=True)),
    "compare --json": partial(oracle.compared, write=oracle.comparison_object),
    "compare --json --show": partial(oracle.compared, write=partial(oracle.comparison_object, shows_items=True)),
}
COMPARISONS |= {f"{job} --strict": partial(came, is_strict=True) for job, came in COMPARISONS.items()}


def replaced(log):
    """The log with each of its bytes replaced by each of these."""
    return [log[:at] + bytes([byte]) + log[at + 1 :] for at in range(len(log)) for byte in REPLACEMENTS]


def in_time(logs, seconds):
    """These logs, until the seconds are over: they begin with the first one."""
    end = time.monotonic() + seconds
    for log in logs:
        if time.monotonic() > end:
            return
        yield log


def words_of(job, limit):
    return job.split() if limit == oracle.GIBIBYTE else [*job.split(), "--limit", str(limit)]


def difference(program, job, log, limit=oracle.GIBIBYTE):
    """How the program's run of a job over this log differs from what the oracle says of it."""
    words = words_of(job, limit)
    return unlike(words, log, run(program, words, log), ORACLES[job](log, limit))


def difference_of_two(program, job, folder, pair, limit):
    """The same, for a comparison of these logs."""
    words, names = words_of(job, limit), [folder / "left.log", folder / "right.log"]
    for name, log in zip(names, pair):
        name.write_bytes(log)
    return unlike(words, pair, run(program, [*words, *names]), COMPARISONS[job](*pair, limit))


def unlike(words, log, found, came):
    """What is told where a run is not as it should be."""
    if found == (came.status, came.written, f"{came.fault}\n".encode() if came.fault else b""):
        return None
    return f"{words} {log!r}\n  {found}\n  {came}"


def differences(program, logs):
    """What is found of each of these logs by each command over one log."""
    jobs = commands.over_one_log(program)
    return (difference(program, job, log) for log in logs for job in jobs)


def list_difference(program, log):
    """How the list that the program writes of a log differs from what its messages tell."""
    _, listed, fault = run(program, ["list"], log)
    _, placed, _ = run(program, ["messages"], log)
    if fault or listed.decode() == oracle.listed_again(placed.decode()):
        return None
    return f"list and messages of {log!r}\n  {listed}\n  {placed}"


def random_difference(program, rng, folder, log):
    """What is found of a log by one of the jobs."""
    limit = limit_for(rng, log)
    job = rng.choice((*ORACLES, "normalise", "explain", "messages", "report", "find", *COMPARISONS))
    if job not in COMPARISONS:
        found = difference(program, job, log, limit)
        return found or (list_difference(program, log) if job == "messages" else None)
    other = rng.choice((oracle.outcome(log).written, mutated(rng, oracle.outcome(log).written), mutated(rng, log)))
    return difference_of_two(program, job, folder, rng.sample((log, other), 2), limit)


def main():
    words = argparse.ArgumentParser(description=__doc__, formatter_class=argparse.RawDescriptionHelpFormatter)
    words.add_argument("program", type=os.path.abspath)
    words.add_argument("--seconds", type=float, default=12)
    words.add_argument("--seed", type=int, default=1)
    given = words.parse_args()
    rng = random.Random(given.seed)
    logs = replaced((EXAMPLES / "vin.log").read_bytes())
    if len(logs) != 1_484:
        sys.exit("examples/vin.log has no longer 212 bytes")
    passed = failed = 0
    with tempfile.TemporaryDirectory() as folder:
        others = in_time(random_logs(given.seed), given.seconds)
        at_random = (random_difference(given.program, rng, Path(folder), log) for log in others)
        for found in itertools.chain(differences(given.program, logs), at_random):
            if found:
                failed += 1
                print(f"FAILED {found}", flush=True)
            else:
                passed += 1
    print(f"{passed} passed, {failed} failed")
    sys.exit(1 if failed else 0)


if __name__ == "__main__":
    main()
