#!/usr/bin/env python3
"""Tests of the built program over logs and devices, what only a process can show.

    tests/program/program.py crates/udsnorm/out/udsnorm [TEST..]

Prints a line for each case and ends with `N passed, M failed`; its status is 1 where a case failed.
"""

import errno
import os
import re
import resource
import select
import shutil
import signal
import socket
import subprocess
import sys
import tempfile
import tty
from itertools import accumulate
from pathlib import Path

sys.path.insert(0, str(Path(__file__).resolve().parents[1] / "helpers"))

import commands
import oracle
from cases import DEVICE, DIFFERENT, DONE, REFUSAL, WORDS, Cases
from counts import counts_line
from recordings import CANONICAL, recorded
from refuser import READ, WRITE, Refuser
from runs import Ended, end, files, give, peak_kilobytes, run, start
from tables import EXAMPLES, stamped
from told import LONG_CANONICAL, LONG_LOG, READ_FAILED, WRITE_FAILED, oversize, place

FIRST_LOG = b"(1700000000.000000) can0 7E0#0322F190"
FIRST_CANONICAL = b"(0000000000.000000) can0 7E0#0322F190CCCCCCCC\n"
REFUSED = FIRST_LOG + b"\n(1700000000.100000) can0 7E8#0462F1\nx\n"
OVERSIZE = b"(1.000000) can0 7E8#1000001000004142\n"

# The identifiers of the examples that are not of 7E0 and 7E8.
SIDES = {"extended-identifiers.log": {oracle.TESTER: "18DA10F1", oracle.UNIT: "18DAF110"}}

# The sides of a log in which 7E8 asks and 7E0 answers.
EXCHANGED = ["--tester", "7E8", "--unit", "7E0"]

# A log with a message of each role, one of them in several frames between which another side's frame stands, and its messages.
ROLES = b"""\
(1.000000) can0 7E0#0322F190
(1.100000) can0 7E8#037F2278
(1.200000) can0 7E0#023E80
(1.300000) can0 7E8#100862F190414243
(1.350000) can0 7E0#300000
(1.400000) can0 7E8#214445
(0000000001.500000) can0 7E8#0150
"""
PLACES = b"""\
1 request tester lines 1 to 1 at 1.000000 to 1.000000 22F190
1 pending unit lines 2 to 2 at 1.100000 to 1.100000 7F2278
2 stray tester lines 3 to 3 at 1.200000 to 1.200000 3E80
1 answer unit lines 4 to 6 at 1.300000 to 1.400000 62F1904142434445
3 stray unit lines 7 to 7 at 1.500000 to 1.500000 50
"""

# Its items, and how many of its lines decide each.
WATCHED = [
    (6, b"1 exchange ReadDataByIdentifier 22F190 -> positive 62F1904142434445\n2 stray tester 3E80\n"),
    (7, b"3 stray unit 50\n"),
]

# So many bytes of text are gathered for a write at most. A number that is told, and a canonical line, stand whole in one: these
# are the longest.
PAGE = 64 * 51
LONGEST_NUMBER = 20
LONGEST_LINE = 51

# A decimal number of a text in which each byte that is spelled has a letter.
NUMBER = re.compile(rb"(?<![#0-9A-Z])[0-9]+(?![0-9A-Z])")

# What a job tells of the front of a log, while more of it may come.
PROMPT = [
    ("normalise", FIRST_LOG + b"\n(1700000000.100000) can0 7E8#0462F19041\n", FIRST_CANONICAL + b"(0000000000.001000) can0 7E8#0462F19041CCCCCC\n"),
    ("explain", b"(1.000000) can0 7E8#2141\n", b"line 1: unit frame dropped: consecutive frame unexpected\n"),
    ("messages", b"(1.000000) can0 7E0#023E80\n", b"1 stray tester lines 1 to 1 at 1.000000 to 1.000000 3E80\n"),
    ("messages", ROLES, PLACES),
    ("watch", b"(1.000000) can0 7E0#023E80\n", b"1 stray tester 3E80\n"),
    ("watch", ROLES, b"".join(text for _, text in WATCHED)),
    ("watch", FIRST_LOG + b"\n(1700000000.100000) can0 7E0#023E00\n", b"1 exchange ReadDataByIdentifier 22F190 -> unanswered\n"),
]

# Words with which the program tells something on standard error, and its exit status.
TOLD = [
    (["lis"], WORDS),
    (["list", "--limit", "0"], WORDS),
    (["list", "missing"], DEVICE),
    (["list", EXAMPLES], DEVICE),
    (["list", EXAMPLES / "refused.log"], REFUSAL),
    (["compare", "missing", "missing"], DEVICE),
    (["compare", EXAMPLES / "vin.log", "missing"], DEVICE),
    (["compare", EXAMPLES / "vin.log", EXAMPLES / "refused.log"], REFUSAL),
]


def logs(cases):
    cases.case("an empty log", cases.run(), DONE)
    cases.case("a log that ends in a line feed", cases.run(log=FIRST_LOG + b"\n"), DONE, FIRST_CANONICAL)
    cases.case(
        "lines that end in CR LF",
        cases.run(log=b"\r\n(1.000000) vcan1 7e0#0322f190aaaaaaaa\r\n(2.000000) a 7E8##3037F2231 T\r\n"),
        DONE,
        FIRST_CANONICAL + b"(0000000000.001000) can0 7E8#037F2231CCCCCCCC\n",
    )
    cases.case("a refused line after good ones", cases.run(log=REFUSED), REFUSAL, FIRST_CANONICAL, place(3, 1))
    cases.case("an unfinished last line", cases.run(log=FIRST_LOG + b"\n(1.0"), REFUSAL, FIRST_CANONICAL, place(2, 5))
    cases.case(
        "a message that is announced above the limit",
        cases.run(log=OVERSIZE),
        REFUSAL,
        error=oversize(1, 1_048_576),
    )
    cases.case(
        "the same, explained",
        cases.run(["explain"], OVERSIZE),
        DONE,
        b"line 1: unit frame dropped: 1048576 bytes announced\n" + counts_line(OVERSIZE, dropped=1),
    )
    log, canonical = long_log(10_000_000)
    cases.case("a log of 10 MB", cases.run(log=log), DONE, canonical)
    cases.case("its canonical log again", cases.run(log=canonical), DONE, canonical)
    lines = log.count(b"\n")
    cases.case("a log of 10 MB that is refused at its end", cases.run(log=log + b"("), REFUSAL, canonical, place(lines + 1, 2))


def default_limit(cases):
    """A log may have 2^30 bytes, and more for messages, where no words say otherwise."""
    line = b"(0000000001.000000) can0 123##0" + b"00" * 48 + b"\n"
    for name, words, last, status, error in [
        ("a log of 2^30 bytes", [], b"", DONE, b""),
        ("a log of one byte more", [], b"\n", REFUSAL, LONG_LOG),
        ("the messages of a log of one byte more", ["messages"], b"\n", DONE, b""),
    ]:
        program = start(cases.program, words)
        give(program, line * 2**13, 2**10)
        cases.case(name, end(program, last), status, error=error)


def the_longest_message(cases):
    """Its canonical log is its own, at a limit of its own length, and the message is told from its first line to its last."""
    message = bytes(k % 251 for k in range(1_048_575))
    canonical = canonical_of_unit(message)
    length = 6_890_754
    found = cases.run(["normalise", "--limit", str(length)], canonical)
    cases.case("the canonical log of the longest message", found, DONE, canonical)
    lines = found.output.count(b"\n")
    is_long = len(found.output) == length and lines == 149_799
    cases.report("the length of the longest message's canonical log", [] if is_long else [f"{len(found.output)} bytes, {lines} lines"])
    line = f"1 stray unit lines 1 to 149799 at 0.000000 to 149.798000 {message.hex().upper()}\n".encode()
    cases.case("the place of the longest message", cases.run(["messages"], canonical), DONE, line)
    front = canonical[: 46 * 149_798]
    told = b"end: unit reception from line 1 of 1048575 bytes unfinished\n"
    told += counts_line(front, unfinished=1)
    cases.case("the longest message without its last frame", cases.run(["explain"], front), DONE, told)
    cases.case("the same has no message", cases.run(["messages"], front), DONE)
    limit = ["normalise", "--limit", str(length - 1)]
    cases.case("the same below its length", cases.run(limit, canonical), REFUSAL, error=LONG_LOG)


def canonical_of_unit(message):
    """The canonical log of a message of the unit that has more than 4,095 bytes."""
    frames = [("7E8", b"\x10\x00" + len(message).to_bytes(4, "big") + message[:2]), ("7E0", b"\x30\x00\x00")]
    for number, begin in enumerate(range(2, len(message), 7), 1):
        frames.append(("7E8", bytes([0x20 | number % 16]) + message[begin : begin + 7]))
    lines = []
    for n, (identifier, data) in enumerate(frames):
        digits = data.ljust(8, b"\xcc").hex().upper()
        lines.append(f"({n // 1000:010d}.{n % 1000:03d}000) can0 {identifier}#{digits}\n")
    return "".join(lines).encode()


def kept_requests(cases):
    """Of an answer that is other than was asked `messages` tells this by what it keeps of the request: the first 4,095 bytes, and of
    more data identifiers than these have none. `list` keeps all."""
    for request, answer, is_told in [
        (b"\x22" + b"\xf1\x01" * 2047, "62F100", True),
        (b"\x22" + b"\xf1\x01" * 2048, "62F100", False),
        (b"\x2e" + b"\xf1\x01" * 2048, "6EF100", True),
    ]:
        log = recorded(CANONICAL, request)
        log += stamped(log.count(b"\n"), f"7E0#03{answer}")
        told = [cases.run([job, "--json", *EXCHANGED], log).output.count(b'"echo":false') for job in ("messages", "list")]
        name = f"an answer to another request of {len(request)} bytes, {request[:3].hex().upper()} and so on"
        cases.report(name, [] if told == [is_told, 1] else [f"told by messages and by list: {told}"])


def examples(cases):
    """Each log of examples/ has the canonical log beside it, and is refused where there is none: then what has its place
    before the refused line is written."""
    for log in sorted(EXAMPLES.glob("*.log")):
        sides = SIDES.get(log.name, oracle.SIDES)
        options = ["--tester", sides[oracle.TESTER], "--unit", sides[oracle.UNIT]] if log.name in SIDES else []
        found = cases.run(["normalise", *options, log])
        canonical = log.with_suffix(".canonical")
        came, placed = (job(log.read_bytes(), sides=sides) for job in (oracle.outcome, oracle.placed))
        error = f"{placed.fault}\n".encode() if placed.fault else b""
        came_of_find = oracle.found(log.read_bytes())
        found_of_find = cases.run(["find", log])
        cases.case(f"examples/{log.name}, its pairs", found_of_find, came_of_find.status, came_of_find.written, error)
        cases.case(f"examples/{log.name}, its messages", cases.run(["messages", *options, log]), placed.status, placed.written, error)
        if canonical.exists():
            cases.case(f"examples/{log.name}", found, DONE, canonical.read_bytes())
            cases.case(f"examples/{log.name} by the oracle", found, came.status, came.written)
            cases.case(f"examples/{log.name} compared with its canonical log", cases.run(["compare", *options, log, canonical]), DONE, b"same\n")
        else:
            cases.case(f"examples/{log.name}, refused", found, came.status, came.written, f"{came.fault}\n".encode())
    vin = EXAMPLES / "vin.log"
    cases.case("two recordings of a session", cases.run(["compare", vin, EXAMPLES / "vin-fd-crlf.log"]), DONE, b"same\n")
    stray = vin.read_bytes() + b"(1700000100.000000) can0 7E8#037F2278\n"
    cases.case("a pending reply after the answer", cases.run(["compare", vin, "/dev/stdin"], stray), DIFFERENT, b"different at item 2\n")
    cases.case("a session with a lost frame", cases.run(["compare", vin, EXAMPLES / "lost-frame.log"]), DIFFERENT, b"different at item 1\n")


def long_log(size):
    """A log of single frames of at least this many bytes, in which nothing is an answer, and its canonical log."""
    lines, canonical, length, number = [], [], 0, 0
    while length < size:
        n = len(lines)
        dir_id = ("7E8", "123", "7E8", "18DAF110")[n % 4]
        data = bytes((n * 7 + k * 31) % 256 for k in range(1 + n % 7))
        frame = bytes([len(data)]) + data + b"\xaa" * (n % (8 - len(data)))
        line = f"({n // 1000:010d}.{n % 1000:03d}000) can{n % 3} {dir_id}#{frame.hex()}\n"
        lines.append(line)
        length += len(line)
        if dir_id == "7E8":
            padded = (bytes([len(data)]) + data).ljust(8, b"\xcc").hex().upper()
            canonical.append(f"({number // 1000:010d}.{number % 1000:03d}000) can0 {dir_id}#{padded}\n")
            number += 1
    return "".join(lines).encode(), "".join(canonical).encode()


def devices(cases):
    with open("/dev/full", "wb") as full:
        cases.case("a full disk", cases.run(log=FIRST_LOG, stdout=full), DEVICE, None, WRITE_FAILED)
        cases.case("a full disk, and a log that is refused later", cases.run(log=REFUSED, stdout=full), DEVICE, None, WRITE_FAILED)
        cases.case("a full disk, and a log that is refused at once", cases.run(log=b"x", stdout=full), REFUSAL, None, place(1, 1))
        cases.case("a full disk, and nothing to write", cases.run(stdout=full), DONE, None)
        cases.case("a full disk for a comparison", cases.run(["compare", "/dev/null", "/dev/null"], stdout=full), DEVICE, None, WRITE_FAILED)
    cases.case("standard output closed", cases.run(log=FIRST_LOG, preexec_fn=lambda: os.close(1)), DEVICE, error=WRITE_FAILED)
    cases.case("standard input closed", cases.run(preexec_fn=lambda: os.close(0)), DEVICE, error=READ_FAILED)
    cases.case("standard error closed", cases.run(log=b"x", preexec_fn=lambda: os.close(2)), REFUSAL)
    with tempfile.TemporaryDirectory() as directory:
        folder = os.open(directory, os.O_RDONLY)
        cases.case("a directory for standard input", cases.run(stdin=folder), DEVICE, error=READ_FAILED)
        os.close(folder)
        read_only = os.path.join(directory, "read_only")
        with open(read_only, "wb"):
            pass
        with open(read_only, "rb") as output:
            cases.case("an output that takes no bytes", cases.run(log=FIRST_LOG, stdout=output), DEVICE, None, WRITE_FAILED)
    with tempfile.TemporaryFile() as file:
        cases.case("a file that may have 20 bytes", cases.run(log=FIRST_LOG, stdout=file, preexec_fn=take_20_bytes), DEVICE, None, WRITE_FAILED)
        file.seek(0)
        took = file.read()
        cases.report("what that file has", [] if took == FIRST_CANONICAL[:20] else [f"{took!r}"])
    reader, writer = os.pipe()
    os.close(reader)
    cases.case("a pipe that nobody reads", cases.run(log=FIRST_LOG, stdout=writer), DEVICE, None, WRITE_FAILED)
    os.close(writer)
    broken_pipe(cases)
    slow_pipe(cases)
    one_stream(cases)


def one_stream(cases):
    """One pipe or terminal for both logs of a comparison is told before a byte of it is read; a file is read twice."""
    words, told = ["compare", "/dev/stdin", "/dev/fd/0"], b"both logs are the same stream\n"
    for name, (ours, theirs) in [("pipe", os.pipe()[::-1]), ("terminal", os.openpty())]:
        os.write(ours, FIRST_LOG + b"\n")
        cases.case(f"one {name} for both logs", cases.run(words, stdin=theirs), WORDS, b"", told)
        left = os.read(theirs, len(FIRST_LOG))
        cases.report(f"what that {name} still has", [] if left.startswith(FIRST_LOG[:20]) else [f"{left!r}"])
        os.close(ours)
        os.close(theirs)
    with open("/dev/null", "rb") as nothing, open(EXAMPLES / "vin.log", "rb") as file:
        cases.case("/dev/null for both logs", cases.run(words, stdin=nothing), DONE, b"same\n")
        cases.case("one file for both logs", cases.run(words, stdin=file), DONE, b"same\n")
    reader, writer = os.pipe()
    os.close(writer)
    other = ["compare", "/dev/stdin", f"/dev/fd/{reader}"]
    cases.case("two pipes for the logs", cases.run(other, b"", pass_fds=[reader]), DONE, b"same\n")
    os.close(reader)
    pipes_of_one_number(cases)


def pipes_of_one_number(cases):
    """Two named pipes that have one number on two devices are two streams."""
    name = "two pipes of one number"
    mounted = "mkdir one other && mount -t tmpfs one one && mount -t tmpfs other other && mkfifo one/log other/log"
    numbers = 'test "$(stat -c %i one/log)" = "$(stat -c %i other/log)"'
    apart = ["-rm", "sh", "-c"]
    with tempfile.TemporaryDirectory() as folder:
        if not shutil.which("unshare") or run("unshare", [*apart, f"{mounted} && {numbers}"], cwd=folder).status != DONE:
            print(f"skipped {name}: no folder can be mounted here", flush=True)
            return
    with tempfile.TemporaryDirectory() as folder:
        both = f'{mounted}; : > one/log & : > other/log & exec "$0" compare one/log other/log'
        cases.case(name, run("unshare", [*apart, both, cases.program], cwd=folder), DONE, b"same\n")


def take_20_bytes():
    """Has a write beyond 20 bytes of a file fail."""
    signal.signal(signal.SIGXFSZ, signal.SIG_IGN)
    resource.setrlimit(resource.RLIMIT_FSIZE, (20, 20))


def places(cases):
    """Each message with its place, after a refused line and an announcement that is too long as well."""
    cases.case("a message of each role", cases.run(["messages"], ROLES), DONE, PLACES)
    cases.case("the same behind a long announcement", cases.run(["messages"], ROLES + OVERSIZE), DONE, PLACES)
    cases.case("the same before a refused line", cases.run(["messages"], ROLES + b"x\n"), REFUSAL, PLACES, place(8, 1))
    cases.case("the same where a frame began is longer than the limit", cases.run(["messages", "--limit", "40"], ROLES), REFUSAL, PLACES[:61], LONG_LOG)


def watched(cases):
    """What the lines before a fault decide is written, and no more: not the request that waits."""
    text, waits = b"".join(text for _, text in WATCHED), b"(2.000000) can0 7E0#023E00\n"
    rest = b"4 exchange TesterPresent 3E00 -> unanswered\n"
    cases.case("what is watched, and at the end what waits", cases.run(["watch"], ROLES + waits), DONE, text + rest)
    cases.case("the same behind a long announcement", cases.run(["watch"], ROLES + OVERSIZE + waits), DONE, text + rest)
    cases.case("the same before a refused line", cases.run(["watch"], ROLES + waits + b"x\n"), REFUSAL, text, place(9, 1))
    cases.case("the same where the limit is", cases.run(["watch", "--limit", str(len(ROLES + waits))], ROLES + waits + b"\n"), REFUSAL, text, LONG_LOG)
    log = b"".join(b"(%d.000000) can0 7E0#0322F190\n" % second for second in range(100))
    cases.case("a list whose canonical log is too long", cases.run(["list", "--limit", str(len(log))], log), REFUSAL, b"", LONG_CANONICAL)
    told = b"".join(b"exchange ReadDataByIdentifier 22F190 -> unanswered\n" for _ in range(100))
    cases.case("the same is watched", cases.run(["watch", "--no-numbers", "--limit", str(len(log))], log), DONE, told)


def watched_one_by_one(cases):
    """The lines of what a frame decides can be read before the frame behind it is given."""
    program, given, wrong = start(cases.program, ["watch"]), 0, []
    for last, text in WATCHED:
        give(program, b"".join(ROLES.splitlines(keepends=True)[given:last]))
        given = last
        came = os.read(program.stdout.fileno(), 4096) if select.select([program.stdout], [], [], 30)[0] else b""
        wrong += [] if came == text else [f"{came!r}, not {text!r}"]
    cases.report("a log that is watched line by line", wrong)
    cases.case("nothing more at its end", end(program), DONE)


def broken_pipe(cases):
    """The reader of the output goes away after the first bytes of many."""
    log, canonical = long_log(1_000_000)
    with tempfile.TemporaryFile() as file:
        file.write(log)
        file.seek(0)
        program = start(cases.program, stdin=file)
        front = program.stdout.read(1000)
        program.stdout.close()
        error = program.stderr.read()
        program.stderr.close()
        found = Ended(program.wait(timeout=60), front, error)
        cases.case("a pipe whose reader goes away", found, DEVICE, canonical[:1000], WRITE_FAILED)


def slow_pipe(cases):
    """The log comes through a pipe, a few bytes at a time."""
    log = FIRST_LOG + b"\n(1.000000) can0 7E8#0362F19041\n"
    program = start(cases.program)
    for at in range(0, len(log), 5):
        give(program, log[at : at + 5])
    want = FIRST_CANONICAL + b"(0000000000.001000) can0 7E8#0362F190CCCCCCCC\n"
    cases.case("a log in small pieces", end(program), DONE, want)


def prompt(cases):
    """What a frame decides can be read before the program waits for the next bytes, through pipes and on a terminal; and an
    interrupt then ends the program, with that text told."""
    for job, log, text in PROMPT:
        for name, (ours, theirs) in [("a pipe", os.pipe()), ("a terminal", os.openpty())]:
            if name == "a terminal":
                tty.setraw(theirs)
            program = subprocess.Popen([cases.program, job], stdin=subprocess.PIPE, stdout=theirs, stderr=subprocess.DEVNULL)
            os.close(theirs)
            program.stdin.write(log)
            program.stdin.flush()
            came = os.read(ours, 4096) if select.select([ours], [], [], 30)[0] else b""
            waits = program.poll() is None
            program.send_signal(signal.SIGINT)
            status = program.wait(timeout=60)
            program.stdin.close()
            os.close(ours)
            found = status, came, waits
            cases.report(f"{job} tells {len(text)} bytes at once, through {name}", [] if found == (-signal.SIGINT, text, True) else [f"{found}"])


def messages_one_by_one(cases):
    """The line of each message can be read before the frame behind it is given."""
    program, given, wrong = start(cases.program, ["messages"]), 0, []
    for line in PLACES.splitlines(keepends=True):
        last = int(line.split(b" ")[6])
        give(program, b"".join(ROLES.splitlines(keepends=True)[given:last]))
        given = last
        came = os.read(program.stdout.fileno(), 4096) if select.select([program.stdout], [], [], 30)[0] else b""
        wrong += [] if came == line else [f"{came!r}, not {line!r}"]
    cases.report("the messages of a log that comes line by line", wrong)
    cases.case("nothing more at its end", end(program), DONE)


def device_calls(cases):
    """Whichever read or write fails, the program says so, and has written a front of its text. A log is read in pieces of
    4,096 bytes, and once more at its end; what a piece decides is written at once, before the next is read."""
    log, _ = long_log(20_000)
    pieces = -(-len(log) // 4096)
    with tempfile.TemporaryDirectory() as folder:
        refuser = Refuser(folder)
        blank, long, vin = Path(folder, "blank.log"), Path(folder, "long.log"), EXAMPLES / "vin.log"
        blank.write_bytes(b"\n")
        long.write_bytes(log)
        for words, reads, writes in [
            (["normalise", blank], [2], 0),
            (["normalise", vin], [2], 1),
            (["normalise", long], [pieces + 1], pieces),
            (["list", vin], [2], 1),
            (["explain", vin], [2], 1),
            (["watch", blank], [2], 0),
            (["watch", vin], [2], 1),
            (["watch", long], [pieces + 1], pieces),
            (["messages", blank], [2], 0),
            (["messages", vin], [2], 1),
            (["messages", long], [pieces + 1], pieces),
            (["find", blank], [2], 0),
            (["find", vin], [2], 1),
            (["compare", vin, long], [2, pieces + 1], 1),
        ]:
            sides = [b"left: ", b"right: "] if words[0] == "compare" else [b""]
            told = [side + READ_FAILED for side, number in zip(sides, reads) for _ in range(number)]
            name = " ".join([words[0], *[log.name for log in words[1:]]])
            each_fails(cases, refuser, f"{name}, each read fails ({len(told)})", words, READ, told)
            each_fails(cases, refuser, f"{name}, each read is interrupted ({len(told)})", words, READ, told, errno.EINTR)
            each_fails(cases, refuser, f"{name}, each write fails ({writes})", words, WRITE, [WRITE_FAILED] * writes)
        for words, status in TOLD:
            name = " ".join(os.path.basename(word) for word in words)
            found = refuser.run(cases.program, words, WRITE, 1)
            cases.report(f"what can't be told: {name}", [] if found == (Ended(status, b"", b""), True) else [f"{found}"])


def each_fails(cases, refuser, name, words, kind, told, error=errno.EIO):
    """Each call of this kind fails in turn, and this is told of it. No further call is made."""
    ample = cases.run(words)
    wrong = []
    for call, fault in enumerate(told, 1):
        found, is_refused = refuser.run(cases.program, words, kind, call, error)
        if (found.status, found.error, is_refused) != (DEVICE, fault, True) or not ample.output.startswith(found.output):
            wrong.append(f"call {call}: status {found.status}, output {found.output[:100]!r}, error output {found.error!r}")
    if refuser.run(cases.program, words, kind, len(told) + 1, error) != (ample, False):
        wrong.append(f"there is a call {len(told) + 1}")
    cases.report(name, wrong)


def writes_of(cases, words, log=b""):
    """How the program ends over a log, and each of its writes: a socket of packets keeps them apart."""
    near, far = socket.socketpair(socket.AF_UNIX, socket.SOCK_SEQPACKET)
    with near, tempfile.TemporaryFile() as file:
        file.write(log)
        file.seek(0)
        with far:
            program = start(cases.program, words, stdin=file, stdout=far)
        written = list(iter(lambda: near.recv(1 << 20), b""))
        return end(program).status, written


def whole_lines(cases):
    """A page that is full is written in whole lines, as many as it has room for: so many bytes as 64 lines of the longest kind."""
    of_base = canonical_of_unit(bytes(range(256)) * 20)
    of_extended = of_base.replace(b" 7E0#", b" 18DA10F1#").replace(b" 7E8#", b" 18DAF110#")
    for words, log, length in [([], of_base, 46), (["--tester", "18DA10F1", "--unit", "18DAF110"], of_extended, 51)]:
        status, written = writes_of(cases, ["normalise", *words], log)
        most = PAGE // length * length
        rest = len(log) % most
        wanted = [most] * (len(log) // most) + ([rest] if rest else [])
        wrong = [] if status == DONE and b"".join(written) == log else [f"status {status}"]
        wrong += [] if [len(text) for text in written] == wanted else [f"writes of {[len(text) for text in written]} bytes, not of {wanted}"]
        cases.report(f"the writes of lines of {length} bytes", wrong)


def full_writes(cases):
    """A page that is full is written up to its last byte, or up to a number, of which no write has a part; so there are no more
    writes than the text needs. Less is written only of what is due: before more is read, and at the end. A text that no page has
    room for, as the style of a report, is written at once, behind what is due."""
    asked = b"".join(b"(1700000000.%06d) can0 7E0#042EF1A%XA%X\n" % (n, n // 16 % 16, n % 16) for n in range(500))
    dropped = b"".join(b"(1.%06d) can0 7E8#2A\n" % n for n in range(1_000))
    names = [b"%X%c%X" % (first, middle, last) for middle in b"ABCDEF" for first in range(8) for last in range(16)]
    paired = b"".join(b"(1.000000) can0 %s#042EF1ABAC\n(1.000000) can0 %s#036EF1AB\n" % pair for pair in zip(names[::2], names[1::2]))
    logs = {"explain": dropped, "find": paired}
    for option in [[], ["--json"]]:
        for job in commands.over_one_log(cases.program, *option):
            log = logs.get(job, asked)
            # All is said at the end, or what a piece of the log decides before the next one is read.
            due = 1 if commands.holds_meaning(job) or job == "find" else 1 + -(-len(log) // 4096)
            whole = LONGEST_LINE if job == "normalise" else LONGEST_NUMBER
            assert_full(cases, [job, *option], DONE, due, whole, log=log)
    answers = [canonical_of_unit(bytes([0xAA + n]) * 5_000) for n in range(2)]
    with files(*answers) as both:
        for words in [["compare", "--show"], ["compare", "--show", "--json"]]:
            assert_full(cases, words, DIFFERENT, 1, names=both)
    with files(asked, asked[asked.index(b"\n") + 1 :]) as both:
        assert_full(cases, ["report"], DIFFERENT, 1, names=both)


def assert_full(cases, words, status, due, whole=LONGEST_NUMBER, log=b"", names=()):
    """Over these logs no more writes than are due are shorter than a page, but for a whole text; and none ends within a number."""
    found, written = writes_of(cases, [*words, *names], log)
    text, lengths = b"".join(written), [len(text) for text in written]
    # Messages and identifiers of these logs are of bytes with a letter, and so no number stands beside one; nor has a page any
    # number of the log before its session.
    begin = max(text.find(b"<main"), 0)
    inside = {place for number in NUMBER.finditer(text, begin) for place in range(number.start() + 1, number.end())}
    at_once = [length for length in lengths if length > PAGE]
    short = [length for length in lengths if length <= PAGE - whole]
    cut = [text[place - 20 : place + 20] for place in accumulate(lengths) if place in inside]
    wrong = [] if found == status else [f"status {found}"]
    wrong += [] if max(lengths, default=0) >= PAGE - whole else ["no page is full"]
    wrong += [] if len(at_once) == (words == ["report"]) else [f"writes of {at_once} bytes"]
    wrong += [] if len(short) <= due + len(at_once) else [f"{len(short)} short writes of {len(lengths)}, {due} due: {short}"]
    wrong += [] if not cut else [f"a number is cut in {cut}"]
    cases.report(f"the writes of {' '.join(words)}, of {len(names) or 1} logs", wrong)


def memory(cases):
    """A log of 100 MB through a pipe takes no more memory than a short one."""
    log, _ = long_log(1_000_000)
    for job in commands.over_one_log(cases.program):
        # What a log means is held, and a page is many times as long.
        if commands.holds_meaning(job) or job == "report":
            continue
        program = start(cases.program, [job], stdout=subprocess.DEVNULL, stderr=None)
        give(program, log, 100)
        peak = peak_kilobytes(program)
        status = end(program).status
        flat = status == DONE and peak is not None and peak < 4_000
        cases.report(f"{job} of 100 MB through a pipe", [] if flat else [f"status {status}, {peak} kB"])


def main():
    if len(sys.argv) < 2:
        sys.exit(__doc__)
    cases = Cases(os.path.abspath(sys.argv[1]), sys.argv[2:])
    # What a shell starts in the background ignores interrupts, and so would each program that is started here.
    signal.signal(signal.SIGINT, signal.default_int_handler)
    cases.each([logs, default_limit, the_longest_message, kept_requests, examples, places, watched, devices, prompt, messages_one_by_one, watched_one_by_one, device_calls, whole_lines, full_writes, memory])
    cases.end()


main()
