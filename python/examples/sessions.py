#!/usr/bin/env python3
"""Tell which recordings are the same session: a line for each, sorted, so that equal sessions stand together.

    sessions.py LOG...                        in this process
    sessions.py --scheduler ADDRESS LOG...    by the workers of a Dask cluster, which have the logs under the same paths

A line has the SHA-256 of the canonical log, the messages and the dropped frames, and the path; of a log that is refused
or can't be read, `refused`, the path and why.
"""

import argparse
import hashlib
import sys
from itertools import chain
from pathlib import Path

import udsnorm

# How many recordings a worker is given at once: handing one over costs more than a short recording.
SHARE = 50


def told(path):
    """The line of a recording."""
    try:
        log = Path(path).read_bytes()
        digest = hashlib.sha256(udsnorm.normalise(log)).hexdigest()
        counts = udsnorm.explain(log).counts
    except (udsnorm.Refused, OSError) as refused:
        return f"refused {path}: {refused}"
    return f"{digest} messages {counts.messages} dropped {counts.dropped} {path}"


def told_of_all(paths):
    return [told(path) for path in paths]


def told_by_workers(scheduler, paths):
    """The lines of recordings. The share that a worker takes with it when it ends is told by another one."""
    from dask.distributed import Client

    shares = [paths[at : at + SHARE] for at in range(0, len(paths), SHARE)]
    with Client(scheduler) as client:
        return chain.from_iterable(client.gather(client.map(told_of_all, shares)))


def main():
    words = argparse.ArgumentParser(description=__doc__, formatter_class=argparse.RawDescriptionHelpFormatter)
    words.add_argument("--scheduler", metavar="ADDRESS")
    words.add_argument("logs", nargs="*", metavar="LOG")
    given = words.parse_args()
    lines = told_by_workers(given.scheduler, given.logs) if given.scheduler else map(told, given.logs)
    # One write, so that the lines of several processes stay whole in one file.
    sys.stdout.write("".join(f"{line}\n" for line in sorted(lines)))


if __name__ == "__main__":
    main()
