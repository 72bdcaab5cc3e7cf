#!/usr/bin/env python3
"""The rival of bench/rival beside the built program: the same output, the same texts and the same exit statuses.

    tests/program/rival.py crates/udsnorm/out/udsnorm [--logs NUMBER] [--seed NUMBER]

Builds the rival where cargo is there, and is done where it is not. Both run `normalise` and `list` over the examples, over
hostile logs and over random ones, half of these under a limit about the length of the log.
Prints the log of each difference, and ends with `N passed, M failed`; its status is 1 where there was a difference.
"""

import argparse
import itertools
import os
import random
import shutil
import subprocess
import sys
from pathlib import Path

sys.path.insert(0, str(Path(__file__).resolve().parents[1] / "helpers"))

from differential import replaced, words_of
from random_logs import limit_for, random_logs
from runs import run
from tables import EXAMPLES

FOLDER = EXAMPLES.parent / "bench" / "rival"
RIVAL = FOLDER / "out" / "release" / "rival"
REQUEST = b"(0.000000) a 7E0#012C\n"
LINES = (
    b"(0.000000) a 7E8#0111\n",
    b"(0.000000) a 7E8##0000E" + b"11" * 14 + b"\n",
    b"(0.000000) a 7E8#10000000FFFF4142\n",
    b"(0.000000) a 7E8#1000FFFFFFFF4142\n",
    b"(0000000000.000000) a \0\0\0\00000000000000000\n",
    b"(1.0\n",
    b"\n",
    b"\r\r\n",
    b"\0" * 64 + b"\n",
    b"\xff" * 64 + b"\n",
)
HOSTILE = [b"x", b"(", b"(" + b"1" * 200_000, *(REQUEST + line * 5_000 for line in LINES)]


def build():
    words = ["cargo", "build", "--release", "--offline", "--quiet", "--target-dir", "out"]
    subprocess.run(words, cwd=FOLDER, check=True)


def cases(count, seed):
    """The words and the log of each run."""
    rng = random.Random(seed)
    known = [*(path.read_bytes() for path in sorted(EXAMPLES.glob("*.log"))), *HOSTILE]
    for log in [*known, *replaced((EXAMPLES / "vin.log").read_bytes())]:
        yield ["normalise"], log
        yield ["list"], log
    for log in itertools.islice(random_logs(seed), count):
        yield words_of(rng.choice(("normalise", "list")), limit_for(rng, log)), log


def main():
    words = argparse.ArgumentParser(description=__doc__, formatter_class=argparse.RawDescriptionHelpFormatter)
    words.add_argument("program", type=os.path.abspath)
    words.add_argument("--logs", type=int, default=3_000)
    words.add_argument("--seed", type=int, default=1)
    given = words.parse_args()
    if shutil.which("cargo") is None:
        sys.exit("cargo is not there: the rival is not built")
    build()
    passed = failed = 0
    for job, log in cases(given.logs, given.seed):
        ours, theirs = run(given.program, job, log), run(RIVAL, job, log)
        passed, failed = passed + (ours == theirs), failed + (ours != theirs)
        if ours != theirs:
            print(f"FAILED {job} {log[:2000]!r}\n  {ours}\n  {theirs}"[:4000], flush=True)
    print(f"{passed} passed, {failed} failed")
    sys.exit(1 if failed else 0)


if __name__ == "__main__":
    main()
