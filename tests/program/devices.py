"""Cases of tests/program/sessions.py: devices that are short, fail, fill up or never end."""

import errno
import itertools
from functools import partial

import pair_facts
import pair_faults
import report_facts
from cases import DEVICE, DIFFERENT, DONE, REFUSAL
from counts import counts_line
from refuser import READ, TAKES_NOTHING, WRITE
from runs import Ended, differences, files, how, pipe, start
from tables import CANONICAL_LINE, VIN, VIN_CANONICAL, VIN_PLACED
from told import LONG_LOG, READ_FAILED, WRITE_FAILED

# A session after two frames that mean nothing.
SESSION = b"""\
(1.000000) can0 7E8#40
(1.001000) can0 7E8#21
(1.002000) can0 7E0#0322F190
(1.003000) can0 7E0#023E80
(1.004000) can0 7E8#0462F19041
"""

LISTED = b"""\
1 exchange ReadDataByIdentifier 22F190 -> positive 62F19041
2 stray tester 3E80
"""

EXPLAINED = b"""\
line 1: unit frame dropped: unknown kind
line 2: unit frame dropped: consecutive frame unexpected
""" + counts_line(SESSION, messages=3, dropped=2)

PLACED = b"""\
1 request tester lines 3 to 3 at 1.002000 to 1.002000 22F190
2 stray tester lines 4 to 4 at 1.003000 to 1.003000 3E80
1 answer unit lines 5 to 5 at 1.004000 to 1.004000 62F19041
"""

# Two logs that are the same, two that differ, and two of which one is refused.
PAIRS = [(SESSION, SESSION), (SESSION, VIN), (VIN, SESSION + b"x\n")]

KEEP_ALIVE = b"(1.000000) can0 7E0#023E80\n"
KEEP_ALIVE_LISTED = b"1 stray tester 3E80\n"

# What is written of a keep-alive beside an empty log.
DIFFERENCES = {
    "compare --show": b"different at item 1\nleft: " + KEEP_ALIVE_LISTED + b"right: nothing\n",
    "diff": b"--- %s\n+++ %s\n@@ -1 +0,0 @@\n-stray tester 3E80\n",
    "diff --json": b"""\
{"place":1,"change":"removed","left_item":1,"right_item":0,"left":{"kind":"stray","direction":"tester","message":"3E80"},"right":null}
{"same":0,"removed":1,"added":0,"changed":0,"shortest":true}
""",
}

NO_FRAMES = 2 * b"(1.000000) can0 7E8#40\n"
NO_FRAMES_EXPLAINED = b"""\
line 1: unit frame dropped: unknown kind
line 2: unit frame dropped: unknown kind
""" + counts_line(NO_FRAMES, dropped=2)


def devices(program):
    yield "normalise, a read fails after each byte", partial(reads_fail, program)
    yield "list, a read fails after each byte", partial(listing_fails, program)
    for job, log, told in [
        ("explain", SESSION, [*EXPLAINED.splitlines(keepends=True)[:2], b"", b"", b""]),
        ("messages", SESSION, [b"", b"", *PLACED.splitlines(keepends=True)]),
        ("messages", VIN, [VIN_PLACED.splitlines(keepends=True)[0], b"", b"", b"", VIN_PLACED.splitlines(keepends=True)[1]]),
    ]:
        yield f"{job} of {len(log)} bytes, a read fails after each byte", partial(telling_fails, program, job, log, told)
    yield f"report of {len(SESSION)} bytes, a read fails after each byte", partial(page_fails, program)
    for job in ("compare", "diff", "report"):
        yield f"{job} of two logs, a read of either fails after each byte", partial(comparing_fails, program, job)
    yield "report of two logs, a byte a call", partial(page_byte_by_byte, program)
    yield "report of two logs, a write fails after some bytes", partial(page_writes_fail, program)
    for words, text in DIFFERENCES.items():
        yield f"{words}, a write fails after each byte", partial(differing_fails, program, words.split(), text)
    for job, log, text in [
        ("normalise", VIN, VIN_CANONICAL),
        ("list", SESSION, LISTED),
        ("list", KEEP_ALIVE, KEEP_ALIVE_LISTED),
        ("explain", SESSION, EXPLAINED),
        ("explain", NO_FRAMES, NO_FRAMES_EXPLAINED),
        ("messages", SESSION, PLACED),
        ("messages", NO_FRAMES, b""),
    ]:
        name = f"{job} of {len(log)} bytes"
        yield f"{name}, a write fails after each byte", partial(writes_fail, program, job, log, text, errno.EIO)
        yield f"{name}, the output is full after each byte", partial(writes_fail, program, job, log, text, TAKES_NOTHING)
    for job, text in [("normalise", VIN_CANONICAL), ("messages", VIN_PLACED)]:
        yield f"{job}, an output that takes a hundred bytes", partial(hundred_bytes, program, job, text)
        yield f"{job}, a log in the middle of which writing fails", partial(fails_in_the_middle, program, job)
        yield f"{job}, a log that never ends", partial(never_ends, program, job)
    yield "report, a log in the middle of which writing fails", partial(fails_in_the_middle, program, "report")


def reads_fail(program):
    """What is known from the bytes before is written. They come one a call, or else all in the first call."""
    wrong = []
    for given in range(len(VIN) + 1):
        written = 0 if given < 38 else CANONICAL_LINE if given < 212 else 230
        want = Ended(DEVICE, VIN_CANONICAL[:written], READ_FAILED), True
        wrong += differences(f"{given} bytes", program.run_failing(["normalise"], READ, given + 1, VIN, most=1), want)
        second = program.run_failing(["normalise"], READ, min(given, 1) + 1, VIN[:given], error=errno.EINTR)
        wrong += differences(f"interrupted after {given} bytes", second, want)
    return wrong


def listing_fails(program):
    """Nothing is listed."""
    wrong = []
    for given in range(len(SESSION) + 1):
        found = program.run_failing(["list"], READ, given + 1, SESSION, most=1)
        wrong += differences(f"{given} bytes", found, (Ended(DEVICE, b"", READ_FAILED), True))
    return wrong


def telling_fails(program, job, log, told):
    """What is told of each of the lines before is written."""
    wrong = []
    for given in range(len(log) + 1):
        found = program.run_failing([job], READ, given + 1, log, most=1)
        written = b"".join(told[: log[:given].count(b"\n")])
        wrong += differences(f"{given} bytes", found, (Ended(DEVICE, written, READ_FAILED), True))
    return wrong


def page_fails(program):
    """The front of a page is written with the first frame, and the rows of each of the lines before."""
    whole, lines = program.run(["report"], SESSION), SESSION.splitlines(keepends=True)
    pages = [report_facts.so_far(whole.output, b"".join(lines[:number])) for number in range(len(lines) + 1)]
    told = [page.removeprefix(before) for before, page in itertools.pairwise(pages)]
    return differences("the page", whole, Ended(DONE, report_facts.reported(SESSION).written, b"")) + telling_fails(program, "report", SESSION, told)


def comparing_fails(program, job):
    """The side whose read failed is told, and nothing is written. The right log is read after the last read of the left one, which gives nothing."""
    wrong, reads = [], len(SESSION) + 1
    with files(SESSION, SESSION) as names:
        for side, given in itertools.product(range(2), range(reads)):
            want = Ended(DEVICE, b"", [b"left: ", b"right: "][side] + READ_FAILED), True
            found = program.run_failing([job, *names], READ, side * reads + given + 1, most=1)
            wrong += differences(f"{['left', 'right'][side]}, {given} bytes", found, want)
    return wrong


def page_byte_by_byte(program):
    """The page of two logs, also of a refused one, tells what a second reading of both finds, where each read gives a byte, and each
    write takes one."""
    wrong = []
    for left, right in PAIRS:
        with files(left, right) as names:
            wrong += pair_told_otherwise("a byte a call", program.run_short(["report", *names]), left, right)
    return wrong


def pair_told_otherwise(what, found, left, right):
    """How the page of two logs ends otherwise, or tells something else, than a second reading of both finds."""
    came = pair_facts.came_of(left, right)
    fault = f"{came.fault}\n".encode() if came.fault else b""
    wrong = differences(what, how(found), (came.status, fault))
    wrong += [] if found.output.endswith(b"</body>\n</html>\n") else [f"{what}: the page has no end"]
    return wrong + [f"{what}: {fault}" for fault in pair_faults.told_otherwise(found.output.decode(), came)]


def page_writes_fail(program):
    """The page tells what a second reading of both logs finds, and so much of it is written as the output takes, a byte a call; of a
    refused log nothing else is told then."""
    wrong = []
    for left, right in PAIRS:
        with files(left, right) as names:
            whole = program.run(["report", *names])
            wrong += pair_told_otherwise("all bytes", whole, left, right)
            page = whole.output
            for room in (0, 1, 4095, 4096, 4097, len(page) // 2, len(page) - 1):
                found = program.run_failing(["report", *names], WRITE, room + 1, most=1)
                wrong += differences(f"{room} bytes", found, (Ended(DEVICE, page[:room], WRITE_FAILED), True))
    return wrong


def differing_fails(program, words, text):
    """So much of the text is written as the output takes, a byte a call; what it fails at is no log of the two."""
    wrong = []
    with files(KEEP_ALIVE, b"") as names:
        text = text % (*(str(name).encode() for name in names),) if b"%s" in text else text
        for room in range(len(text) + 1):
            found = program.run_failing([*words, *names], WRITE, room + 1, most=1)
            want = (Ended(DEVICE, text[:room], WRITE_FAILED), True) if room < len(text) else (Ended(DIFFERENT, text, b""), False)
            wrong += differences(f"{room} bytes", found, want)
    return wrong


def writes_fail(program, job, log, text, error):
    """To an output that takes a byte a call so much of the text is written as it takes, in as many calls as the text has
    bytes."""
    wrong = []
    for room in range(len(text)):
        found = program.run_failing([job], WRITE, room + 1, log, most=1, error=error)
        wrong += differences(f"{room} bytes", found, (Ended(DEVICE, text[:room], WRITE_FAILED), True))
    found = program.run_failing([job], WRITE, len(text) + 1, log, most=1)
    return wrong + differences("all bytes", found, (Ended(DONE, text, b""), False))


def hundred_bytes(program, job, text):
    """It takes what the first hundred bytes of the log decide, one line, and then fails."""
    found = program.run_failing([job], WRITE, 2, VIN, most=100)
    first = text.splitlines(keepends=True)[0]
    return differences(job, found, (Ended(DEVICE, first, WRITE_FAILED), True))


def fails_in_the_middle(program, job):
    """No more of the log is read than the piece of 4,096 bytes of which something can't be written."""
    log = 100 * VIN
    with pipe(log) as reader, open("/dev/full", "wb") as full:
        found = program.run([job], stdin=reader, stdout=full)
        read = len(log) - len(reader.read())
    wrong = differences(job, how(found), (DEVICE, WRITE_FAILED))
    return wrong + ([] if read <= 4096 else [f"{read} bytes were read"])


def never_ends(program, job):
    """Of line feeds without end one more is read than the limit, and byte by byte no further read is made."""
    words, log, want = [job, "--limit", "100"], 4096 * b"\n", Ended(REFUSAL, b"", LONG_LOG)
    endless = start("yes", [""], stdin=None, stderr=None)
    found = program.run(words, stdin=endless.stdout)
    endless.stdout.close()
    endless.wait(timeout=60)
    with pipe(log) as reader:
        again = program.run(words, stdin=reader)
        read = len(log) - len(reader.read())
    last = program.run_failing(words, READ, 101, log, most=1)
    further = program.run_failing(words, READ, 102, log, most=1)
    return [
        *differences(job, (found, again), (want, want)),
        *differences("bytes that are read", read, 101),
        *differences("read 101 fails", last, (Ended(DEVICE, b"", READ_FAILED), True)),
        *differences("read 102 fails", further, (want, False)),
    ]
