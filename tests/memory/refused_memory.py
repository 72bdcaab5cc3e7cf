#!/usr/bin/env python3
"""Refuses each growth of memory in turn, and counts them.

    tests/memory/refused_memory.py crates/udsnorm/out/udsnorm [TEST..]

The built program, by each of its jobs over each log of examples/, two small sessions and a long log, and with words that
it only answers: whichever growth is refused, it ends with status 5 and has written a front of what it writes otherwise. Of
two logs it says which one it was reading.
Each call of the libraries that takes memory, over three sessions, by the tests of the crates `refused_memory` and
`refused_pages`: a call that is refused memory says so and has written a front of its text, and the same call made again gives
what it gives otherwise.
The calls that keep messages have one session more, of large messages.

Two tables have the number of growths of jobs and calls, so that one that slips in is seen: a count that is not the table's
fails. How many words have is up to the parser, and is counted where a file is missing, which is told before a job begins.
The tests of the crates are proved before they run, which takes a minute or two where they were not proved before.

Prints a line for each case and ends with `N passed, M failed`; its status is 1 where a case failed.
"""

import itertools
import os
import re
import subprocess
import sys
import tempfile
from collections import Counter
from itertools import groupby
from pathlib import Path

sys.path.insert(0, str(Path(__file__).resolve().parents[1] / "helpers"))

from cases import DONE, MEMORY, Cases
from commands import over_one_log
from refuser import GROWTH, Refuser
from runs import run
from tables import EXAMPLES
from told import OUT_OF_MEMORY

# The crates of the calls: those that make pages stand on more, and are proved later.
CALLS = [EXAMPLES.parent / "crates" / name for name in ["refused_memory", "refused_pages"]]

MOST_GROWTHS = 1000

# How many growths each call of the libraries has over each session of `tried_sessions`.
CALL_GROWTHS = """
               vin  stray  both  large
pair_accept      2      0     2      -
pairing_take     2      2     2      6
orderer_take     0      2     0      4
decider_take     1      3     1      6
normalise        2      2     2      -
meaning_of       4      2     4      -
list             4      2     4      -
explain          2      0     2      -
find             5      5     1      -
compare          8      4    11      -
pair_difference 17     13    20      -
report           2      0     2      -
two_are_aligned 18     14    21      -
"""

# How many growths each job has over each log, apart from those of its words: of a job over two logs those over the left one, and
# those over the right one, and for what stands beside what. `objects` is `messages --json`, which keeps the open request in place,
# and `pages` `report` of two logs. A log stands beside vin.log, and where identifiers stand beside it beside its canonical log.
JOB_GROWTHS = """
                                                       normalise  list  watch  explain  messages  objects  find  report  compare   pages
both-directions                                                3     5      5        3         3        3     5       3      5+4    6+32
candump-any                                                    0     2      2        0         0        0     6       0      2+4    3+30
candump-fd                                                     1     3      4        1         1        1     5       1      3+4    5+15
candump-marks                                                  2     4      4        2         2        2     5       2      4+4    5+14
extended-identifiers                                           0     2      1        0         0        0     6       0      2+4    3+27
extended-identifiers --tester 18DA10F1 --unit 18DAF110         2     4      4        2         2        2     -       2      4+4    5+13
first                                                          0     2      1        0         0        0     1       0      2+4    3+20
lost-frame                                                     2     4      4        2         2        2     5       2      4+4    6+14
pending                                                        4     4      6        2         2        2     5       2      4+4    6+15
refused                                                        0     2      1        0         0        0     1       0      2+0     3+0
single-frames                                                  0     2      2        0         0        0     5       0      2+4    4+35
vin-fd-crlf                                                    0     2      1        0         0        0     5       0      2+4    3+13
vin                                                            2     4      3        2         2        2     5       2      4+4    5+13
stray                                                          2     2      3        0         0        0     5       0      2+4    3+22
both                                                           2     4      3        2         2        2     1       2      4+4    5+32
long                                                           0     -      -        0         0        0     1       0        -       -
"""

# The columns of jobs over two logs, with their commands; and of a job with an option.
OVER_TWO = {"compare": "compare", "pages": "report"}
WITH_OPTIONS = {"objects": ["messages", "--json"]}

# Words that ask for no job, or for one that does not begin.
WORDS = ["--help", "list --help", "lis", "list --limi 1", "list --limit x", "compare a", "list --tester 7E", "list --tester 800"]

# How many growths the parser may swallow, whose answer is then the same: most where it looks for words to suggest.
MOST_SWALLOWED = 40


def table(text):
    """The rows of a table, each with its numbers by column; a sum has several. What comes before the numbers is the row's name."""
    columns, *rows = (line.split() for line in text.strip().splitlines())
    names = [" ".join(row[: -len(columns)]) for row in rows]
    numbers = [zip(columns, row[-len(columns) :]) for row in rows]
    return {name: {column: [*map(int, cell.split("+"))] for column, cell in cells if cell != "-"} for name, cells in zip(names, numbers)}


def log_of(*frames):
    """A log of these frames, a millisecond apart."""
    return "".join(f"({n // 1000:010}.{n % 1000:03}000) can0 {frame}\n" for n, frame in enumerate(frames)).encode()


# A keep-alive between a request and its response; messages of several frames of both sides at once; and many requests.
LOGS = {
    "stray": log_of("7E0#0322F190", "7E0#023E80", "7E8#0462F19041"),
    "both": log_of(
        "7E0#100A2EF190414243",
        "7E8##01064" + bytes(range(62)).hex(),
        "7E8#300000",
        "7E0#300000",
        "7E8##021" + bytes(range(62, 100)).hex() + "AA" * 9,
        "7E0#2144454647",
    ),
    "long": b"(1700000000.000000) can0 7E0#0322F190\n" * 30_000,
}


def told_of_each(program, refuser, words):
    """What the program says where each growth in turn is refused: that it was, after a front of what it writes with ample
    memory, or nothing (None) where its answer is that of ample memory. Any other answer stands there as it is."""
    ample = run(program, words)
    told = []
    for growth in range(1, MOST_GROWTHS):
        found, is_refused = refuser.run(program, words, GROWTH, growth)
        answer = found._replace(output=found.output[:100])
        if not is_refused:
            return told if found == ample else [*told, answer]
        is_front = found.status == MEMORY and ample.output.startswith(found.output)
        told.append(None if found == ample else found.error if is_front else answer)
    return told


def words_refused(cases, refuser, words):
    """How many growths words have, each of which is told where it is refused, or swallowed by the parser."""
    told = told_of_each(cases.program, refuser, words)
    holds = OUT_OF_MEMORY in told and are_of_words(told)
    cases.report(f"the words {' '.join(words)!r}, each of {len(told)} growths refused", [] if holds else in_short(told))
    return len(told)


def job_refused(cases, refuser, name, words, begun, later):
    """The growths of the words come first, so many as they have; then those of the job, with what is told of each."""
    told = told_of_each(cases.program, refuser, words)
    holds = are_of_words(told[:begun]) and told[begun:] == [*later]
    cases.report(f"{name}, each of {begun + len(later)} growths refused", [] if holds else in_short(told))


def are_of_words(told):
    return set(told) <= {OUT_OF_MEMORY, None} and told.count(None) <= MOST_SWALLOWED


def in_short(told):
    return [str([(what, len([*same])) for what, same in groupby(told)])]


def told_of_job(job, growths):
    """What is told of each growth of a job that has so many. Of two logs it is also told which one was read."""
    if job in OVER_TWO:
        left, right = growths
        return [b"left: " + OUT_OF_MEMORY] * left + [b"right: " + OUT_OF_MEMORY] * right
    return [OUT_OF_MEMORY] * sum(growths)


def the_program(cases, refuser):
    logs = {path.stem: path for path in sorted(EXAMPLES.glob("*.log"))}
    for name, log in LOGS.items():
        logs[name] = refuser.folder / f"{name}.log"
        logs[name].write_bytes(log)
    for words in WORDS:
        words_refused(cases, refuser, words.split())
    of_jobs = table(JOB_GROWTHS)
    named = {row.split()[0] for row in of_jobs}
    cases.report("the table has each log", sorted(named ^ set(logs)))
    begun = {}
    for row, growths in of_jobs.items():
        name, *options = row.split()
        left = logs[name]
        right = left.with_suffix(".canonical") if options else logs["vin"]
        for job, numbers in growths.items():
            files = [left, right] if job in OVER_TWO else [left]
            words = [*WITH_OPTIONS.get(job, [OVER_TWO.get(job, job)]), *options]
            missing = (*words, *["missing"] * len(files))
            begun[missing] = begun.get(missing) or words_refused(cases, refuser, missing)
            job_refused(cases, refuser, f"{job} of {row}", [*words, *map(str, files)], begun[missing], told_of_job(job, numbers))


def the_other_commands(cases, refuser):
    """Those without a column, as what writes a page: each growth is told, over one log."""
    columns = {job for growths in table(JOB_GROWTHS).values() for job in growths}
    log = EXAMPLES / "both-directions.log"
    for job in over_one_log(cases.program):
        if job not in columns:
            told = told_of_each(cases.program, refuser, [job, log])
            holds = OUT_OF_MEMORY in told and are_of_words(told)
            cases.report(f"{job} of {log.name}, each of {len(told)} growths refused", [] if holds else in_short(told))


def differences_refused(cases, refuser):
    """Each growth of `diff` is told, of the words, of the left log, or of the right one, for which it also sets both side by side.
    How many these are is up to the search."""
    left, right = b"left: " + OUT_OF_MEMORY, b"right: " + OUT_OF_MEMORY
    for words, name in itertools.product(([], ["--json"]), ("both-directions", "pending", "vin")):
        told = told_of_each(cases.program, refuser, ["diff", *words, EXAMPLES / f"{name}.log", EXAMPLES / "lost-frame.log"])
        kinds = [kind for kind, _ in groupby(told) if kind not in (None, OUT_OF_MEMORY)]
        cases.report(f"diff {words} of {name}, each of {len(told)} growths refused", [] if kinds == [left, right] else in_short(told))


def profiles_refused(cases, refuser):
    """Each growth of a profile, of its rules and of what these mask is told: of the words, or of the log that is read."""
    profile, log = ["--profile", EXAMPLES.parent / "share" / "profiles" / "bench.toml"], EXAMPLES / "both-directions.log"
    masked = refuser.folder / "masked.toml"
    masked.write_bytes(b'drop = ["3E"]\nmask = ["22*", "2E??..", "62....", "6E*", "00.."]\n')
    for words in [*([job, "--profile", masked, log] for job in ("normalise", "list", "watch", "messages", "report")), ["list", *profile, "--only", "engine", log]]:
        told = told_of_each(cases.program, refuser, words)
        holds = OUT_OF_MEMORY in told and are_of_words(told)
        cases.report(f"{words[0]} under rules, each of {len(told)} growths refused", [] if holds else in_short(told))
    for job in ("compare", "diff", "report"):
        told = told_of_each(cases.program, refuser, [job, "--profile", masked, log, EXAMPLES / "lost-frame.log"])
        kinds = [kind for kind, _ in groupby(told) if kind not in (None, OUT_OF_MEMORY)]
        holds = kinds == [b"left: " + OUT_OF_MEMORY, b"right: " + OUT_OF_MEMORY]
        cases.report(f"{job} of two under rules, each of {len(told)} growths refused", [] if holds else in_short(told))
    told = told_of_each(cases.program, refuser, ["list", *profile, log])
    cases.report(f"no unit is named, each of {len(told)} growths refused", [] if OUT_OF_MEMORY in told and are_of_words(told) else in_short(told))


def build_calls(cases, crate):
    """The tests of the calls of a crate, proved and built."""
    words = ["rt", "test"]
    done = subprocess.run(words, cwd=crate, stdin=subprocess.DEVNULL, capture_output=True, text=True, timeout=3600)
    wrong = [] if done.returncode == 0 else [done.stdout[-1000:]]
    cases.report(f"the tests of {crate.name} are proved, and pass with ample memory", wrong)
    return crate / "out" / f"{crate.name}_tests"


def call_growths(tests, refuser, test):
    """How many growths a test's call has over each session: whichever is refused, the test ends with the session's name.
    None where it ends in another way."""
    growths = Counter()
    for growth in range(1, MOST_GROWTHS):
        found, is_refused = refuser.run(tests, [test], GROWTH, growth)
        if not is_refused:
            return growths if found.status == DONE else None
        session = re.match(rb'error: "(\w+)"\n', found.error)
        if found.status == DONE or not session:
            return None
        growths[session[1].decode()] += 1
    return None


def the_libraries(cases, refuser):
    rows, tests = table(CALL_GROWTHS), {}
    for crate in CALLS:
        built = build_calls(cases, crate)
        found = run(built, ["--list"]).output.decode()
        tests |= {name: built for name in re.findall(r"^calls::(\w+): test$", found, re.M)}
    cases.report("the table has each call", sorted(set(rows) ^ set(tests)))
    for call, expected in rows.items():
        found = call_growths(tests[call], refuser, f"calls::{call}") if call in tests else None
        wanted = Counter({session: sum(numbers) for session, numbers in expected.items()})
        numbers = ", ".join(f"{number} over {session}" for session, number in wanted.items())
        cases.report(f"{call}, each growth refused: {numbers}", [] if found == wanted else [f"{found}"])


def main():
    if len(sys.argv) < 2:
        sys.exit(__doc__)
    cases = Cases(os.path.abspath(sys.argv[1]), sys.argv[2:])
    with tempfile.TemporaryDirectory() as folder:
        cases.each([the_program, the_other_commands, differences_refused, profiles_refused, the_libraries], Refuser(folder))
    cases.end()


if __name__ == "__main__":
    main()
