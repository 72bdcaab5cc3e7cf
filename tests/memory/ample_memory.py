#!/usr/bin/env python3
"""With ample memory neither the built program nor the library says that memory was refused, whatever sizes a log has.

    tests/memory/ample_memory.py crates/udsnorm/out/udsnorm out/lib [TEST..]

Memory may be refused at any time that some is needed, so no clause can rule out a body that gives up from some size on.
Here each buffer gets to every size at which it may have to grow: one that grows as a log goes on, in one long log; one that
is made for a message, in messages of each such size. Large logs come in pieces through a pipe. Prints a line for each case
and ends with `N passed, M failed`; its status is 1 where a case failed.

What nothing else refuses, and where it fails here:

- a library that gives up on a text above 1 MiB: `messages of 1048576 bytes`;
- `watch` that gives up on a request of 100 kB, or on a stray: `messages of 131072 bytes`;
- a command that gives up with 2 MiB held, with 32 MiB, or on a canonical log of 500,000,000 bytes: the 73 longest strays;
- one that gives up after 4,194,304 items, rows or messages that are held: the 4,194,305 strays;
- `find` that gives up after 600,000 pairs: the 1,048,576 pairs;
- `diff` that gives up where 2,000 items differ, or 500,000: the 524,288 requests beside as many others;
- a program that gives up after 5,000 words: the 8,192 words.

tests/program/hints.py has names of every length in hints.
"""

import itertools
import os
import sys
import tempfile
import threading
from collections import namedtuple
from contextlib import ExitStack, contextmanager
from pathlib import Path

sys.path.insert(0, str(Path(__file__).resolve().parents[1] / "helpers"))

import oracle
from cases import DEVICE, DIFFERENT, DONE, WORDS, Cases
from counts import counts_line
from loaded import STATUSES, Loaded, Session
from runs import differences, start

TESTER, UNIT = "7E0", "7E8"
REQUEST, ANSWER, STRAY = 0x22, 0x62, 0x59

# A message of one byte in a line, and how many of them a log has: so many items, and so many messages that are held.
REQUEST_LINE = b"(0.000000) a 7E0#0122\n"
ANSWER_LINE = b"(0.000000) a 7E8#0162\n"
STRAY_LINE = b"(0.000000) a 7E8#0159\n"
MANY = 2**22 + 1

# As many of the longest messages have more than 2^26 bytes, and more than 500,000,000 in a canonical log.
LONGEST_STRAYS = 73

PAIRS = 2**20

# The bytes of a line of a canonical log, and those of a message that its first frame and each later one have there.
CANONICAL_LINE = 46
IN_SHORT_FIRST, IN_FIRST, IN_LATER = 6, 2, 7

# The most seconds that a run may take, and how much of a text is compared at once.
TIMEOUT = 100
PIECE = 2**20

# A log: its pieces; its lines; its messages; the bytes of its canonical log; the pieces of its list; and what `find` says.
# Pieces are what a call gives anew each time.
Log = namedtuple("Log", "name pieces lines messages canonical list found")


def message_sizes():
    """The powers of two, with one less and one more, up to the longest message."""
    beside = {2**k + more for k in range(21) for more in (-1, 0, 1)}
    return sorted(size for size in beside if 0 < size <= oracle.MESSAGE_LIMIT)


def recorded(identifier, message):
    """The lines of a message in frames of at most 64 bytes. The last one has zeros behind it where its length has to be larger."""
    if len(message) <= 7:
        return f"(0.000000) a {identifier}#{len(message):02X}{message.hex()}\n".encode()
    size = len(message)
    first = size.to_bytes(2, "big") if size <= 4095 else b"\x00\x00" + size.to_bytes(4, "big")
    length = 8 if size <= 62 else 64
    begun = length - len(first)
    frames = [bytes([0x10 | first[0]]) + first[1:] + message[:begun]]
    for number, begin in enumerate(range(begun, size, length - 1), 1):
        frames.append((bytes([0x20 | number % 16]) + message[begin : begin + length - 1]).ljust(length, b"\x00"))
    mark = "#" if length == 8 else "##0"
    return b"".join(f"(0.000000) a {identifier}{mark}{frame.hex()}\n".encode() for frame in frames)


def canonical_size(size):
    """The bytes of a canonical log that a message of this size has: a line, or its first frame, one that lets it go on, and
    the later ones."""
    if size <= 7:
        return CANONICAL_LINE
    begun = IN_SHORT_FIRST if size <= 4095 else IN_FIRST
    return (2 - (begun - size) // IN_LATER) * CANONICAL_LINE


def item_line(number, first, answer=None):
    """The line of a request with its answer, or of a stray of the unit."""
    text = first.hex().upper()
    told = f"exchange ReadDataByIdentifier {text} -> positive {answer.hex().upper()}" if answer else f"stray unit {text}"
    return f"{number} {told}\n".encode()


# --- Texts that come in pieces ---------------------------------------------------------------------------


def feed(opened, pieces):
    """Writes the pieces to what this opens, as far as they are read."""
    try:
        with opened() as end:
            for piece in pieces:
                end.write(piece)
    except BrokenPipeError:
        pass


@contextmanager
def feeding(opened, pieces):
    """The same beside what is done here."""
    writer = threading.Thread(target=feed, args=(opened, pieces), daemon=True)
    writer.start()
    yield
    writer.join(TIMEOUT)


@contextmanager
def named_pipe(name, pieces):
    """The name of a pipe that gives these."""
    os.mkfifo(name)
    with feeding(lambda: open(name, "wb"), pieces):
        yield name
    os.unlink(name)


def is_text(reading, pieces):
    """Whether these pieces, one after another, are all that comes."""
    return all(reading.read(len(piece)) == piece for piece in pieces) and not reading.read(1)


def length_of(reading):
    return sum(map(len, iter(lambda: reading.read(PIECE), b"")))


def lines_in(reading):
    return sum(piece.count(b"\n") for piece in iter(lambda: reading.read(PIECE), b""))


def seen_of(program, words, pieces, look):
    """How a program ends with these words over a log on standard input, and what is seen of its output."""
    with tempfile.TemporaryFile() as error:
        running = start(program, words, stderr=error)
        stop = threading.Timer(TIMEOUT, running.kill)
        stop.start()
        with feeding(lambda: running.stdin, pieces):
            seen = look(running.stdout)
            running.stdout.close()
        status = running.wait()
        stop.cancel()
        error.seek(0)
        return status, error.read(), seen


# --- What each job says of a log -------------------------------------------------------------------------


def report(cases, name, came, want):
    cases.report(name, differences("it ends", came, want))


def taken_by_each_job(cases, log):
    """Each command takes this log. Its canonical log has the same list."""

    def job(words, look, want):
        report(cases, f"{' '.join(words)}: {log.name}", seen_of(cases.program, words, log.pieces(), look), (DONE, b"", want))

    counts = counts_line(b"", lines=log.lines, frames=log.lines, messages=log.messages)
    job(["explain"], lambda output: output.read(), counts)
    job(["list"], lambda output: is_text(output, log.list()), True)
    job(["watch"], lambda output: is_text(output, log.list()), True)
    job(["messages"], lines_in, log.messages)
    job(["find"], lambda output: output.read(), log.found)
    job(["normalise"], length_of, log.canonical)
    job(["report"], lambda output: length_of(output) > 0, True)


# What is written of a log and its canonical log: that they are the same, no difference, a page.
OF_EQUALS = {"compare": b"same\n", "diff": b"", "report": True}


def taken_by_each_job_of_two(cases, log):
    """Each command over two logs takes it beside its canonical log, which comes from one that normalises it."""
    for job, want in OF_EQUALS.items():
        with ExitStack() as ends:
            ends.enter_context(named_pipe("left", canonical_pieces(cases.program, log)))
            ends.enter_context(named_pipe("right", log.pieces()))
            look = (lambda output: length_of(output) > 0) if want is True else lambda output: output.read()
            seen = seen_of(cases.program, [job, "left", "right"], (), look)
            report(cases, f"{job} with the canonical log: {log.name}", seen, (DONE, b"", want))


def canonical_pieces(program, log):
    """The pieces of its canonical log."""
    running = start(program, ["normalise"], stderr=None)
    with feeding(lambda: running.stdin, log.pieces()):
        yield from iter(lambda: running.stdout.read(PIECE), b"")
    running.wait()


def taken_by_each_call(cases, loaded, log):
    """Each call of the library takes it, and answers the same."""
    bytes_of = b"".join(log.pieces())
    text = b"".join(log.list())
    session = Session(log.name, bytes_of, 0x7E0, 0x7E8, 1 << 40)
    done, room = STATUSES["DONE"], STATUSES["ROOM"]

    def call(job, want, size=None, seen=lambda answer, text: (answer.status, text)):
        report(cases, f"udsnorm_{job}: {log.name}", seen(*loaded.text(job, session, size)), want)

    counts = counts_line(b"", lines=log.lines, frames=log.lines, messages=log.messages)
    call("list", (done, text), len(text))
    call("explain", (done, counts), len(counts))
    call("find", (done, log.found), len(log.found))
    call("messages", (room, log.messages), 0, lambda answer, text: (answer.status, answer.messages))
    call("normalise", (room, log.canonical), 0, lambda answer, text: (answer.status, answer.length))
    call("report", (room, True), 0, lambda answer, text: (answer.status, answer.length > 0))
    answer = loaded.compare(session, bytes_of)
    report(cases, f"udsnorm_compare: {log.name}", (answer.status, answer.item), (done, 0))
    answer, _ = loaded.diff(0, session, bytes_of, [b"left", b"right"], 0)
    report(cases, f"udsnorm_diff: {log.name}", (answer.status, answer.item, answer.length), (done, 0, 0))
    answer, _ = loaded.page(session, bytes_of, [b"left", b"right"], 0)
    report(cases, f"udsnorm_report_pair: {log.name}", (answer.status, answer.item), (room, 0))


# --- The logs --------------------------------------------------------------------------------------------


def of_one_size(size):
    """A request, a stray that is held for its answer, and the answer, all of one size."""
    request, answer, stray = (bytes([first]) * size for first in (REQUEST, ANSWER, STRAY))
    log = recorded(TESTER, request) + recorded(UNIT, stray) + recorded(UNIT, answer)
    text = item_line(1, request, answer) + item_line(2, stray)
    found = b"1 --tester 7E0 --unit 7E8\n"
    return Log(f"messages of {size} bytes", lambda: [log], log.count(b"\n"), 3, 3 * canonical_size(size), lambda: [text], found)


def held_strays(name, strays, count):
    """So many strays before an answer. The pieces of a log and of a list come from what gives the strays anew."""

    def pieces():
        yield REQUEST_LINE
        for stray, times in strays:
            yield from itertools.repeat(recorded(UNIT, stray), times)
        yield ANSWER_LINE

    def listed():
        yield item_line(1, bytes([REQUEST]), bytes([ANSWER]))
        numbers = itertools.count(2)
        for stray, times in strays:
            line = item_line(0, stray)[1:]
            for _ in range(times):
                yield b"%d" % next(numbers) + line

    lines = 2 + sum(recorded(UNIT, stray).count(b"\n") * times for stray, times in strays)
    size = 2 * CANONICAL_LINE + sum(canonical_size(len(stray)) * times for stray, times in strays)
    return Log(name, pieces, lines, count + 2, size, listed, b"1 --tester 7E0 --unit 7E8\n")


def strays_of_all_sizes():
    """They are held together, and each comes out as it went in."""
    sizes = message_sizes()
    return held_strays("strays of all sizes at once", [(bytes([STRAY]) * size, 1) for size in sizes], len(sizes))


def longest_strays():
    stray = bytes([STRAY]) * oracle.MESSAGE_LIMIT
    return held_strays(f"{LONGEST_STRAYS} of the longest strays before an answer", [(stray, LONGEST_STRAYS)], LONGEST_STRAYS)


def many_strays(is_held):
    """More messages than the longest one has bytes: each alone, or all held for one answer."""
    block = 2**14

    def pieces():
        yield REQUEST_LINE if is_held else b""
        yield from itertools.repeat(STRAY_LINE * block, MANY // block)
        yield STRAY_LINE * (MANY % block) + (ANSWER_LINE if is_held else b"")

    def listed():
        first = 2 if is_held else 1
        yield item_line(1, bytes([REQUEST]), bytes([ANSWER])) if is_held else b""
        for begin in range(first, first + MANY, block):
            yield b"".join(b"%d stray unit 59\n" % number for number in range(begin, min(begin + block, first + MANY)))

    messages = MANY + 2 * is_held
    name = f"{MANY} strays before an answer" if is_held else f"{MANY} strays"
    return Log(name, pieces, messages, messages, messages * CANONICAL_LINE, listed, b"1 --tester 7E0 --unit 7E8\n" if is_held else b"")


# --- The tests -------------------------------------------------------------------------------------------


def taken_by_all(cases, loaded, log):
    taken_by_each_job(cases, log)
    taken_by_each_job_of_two(cases, log)
    taken_by_each_call(cases, loaded, log)


def messages_of_each_size(cases, loaded):
    for size in message_sizes():
        taken_by_all(cases, loaded, of_one_size(size))
    taken_by_all(cases, loaded, strays_of_all_sizes())


def many_messages(cases, loaded):
    alone = many_strays(is_held=False)
    taken_by_each_job(cases, alone)
    taken_by_each_job_of_two(cases, alone)
    taken_by_all(cases, loaded, many_strays(is_held=True))


def much_held(cases, loaded):
    taken_by_all(cases, loaded, longest_strays())


def many_pairs(cases, loaded):
    """One tester, and a unit for each of its requests."""
    block = 2**12

    def of_units(line):
        for begin in range(1, PAIRS + 1, block):
            yield b"".join(line % unit for unit in range(begin, begin + block))

    def pieces():
        return of_units(b"(0.000000) a 00000000#0122\n(0.000000) a %08X#0162\n")

    def lines():
        return of_units(b"1 --tester 00000000 --unit %08X\n")

    name = f"{PAIRS} pairs"
    report(cases, f"find: {name}", seen_of(cases.program, ["find"], pieces(), lambda output: is_text(output, lines())), (DONE, b"", True))
    text = b"".join(lines())
    answer, came = loaded.text("find", Session(name, b"".join(pieces()), 0, 0, 1 << 40), len(text))
    report(cases, f"udsnorm_find: {name}", (answer.status, came == text), (STATUSES["DONE"], True))


def many_differences(cases, loaded):
    """So many requests, of which no two are equal, beside as many others: each is a change, below the note and three headers."""
    for power in range(0, 20):
        count = 2**power

        def requests(begin):
            for number in range(begin, begin + count, 2**12):
                numbers = range(number, min(number + 2**12, begin + count))
                yield b"".join(b"(0.000000) a 7E0#0522%08X\n" % number for number in numbers)

        with ExitStack() as ends:
            ends.enter_context(named_pipe("left", requests(0)))
            ends.enter_context(named_pipe("right", requests(count)))
            seen = seen_of(cases.program, ["diff", "left", "right"], (), lines_in)
            note = 2 * count > max(64, min(2000, 2**30 // (2 * count)))
            report(cases, f"diff of {count} requests and as many others", seen, (DIFFERENT, b"", 3 + note + 2 * count))


def many_words(cases, loaded):
    """However many words there are, they are read."""
    for power in range(14):
        words = ["list", *["n"] * 2**power]
        cases.case(f"{2**power} words after the command", cases.run(words), DEVICE if power == 0 else WORDS, error=None)


def main():
    if len(sys.argv) < 3:
        sys.exit(__doc__)
    cases = Cases(os.path.abspath(sys.argv[1]), sys.argv[3:])
    loaded = Loaded(Path(sys.argv[2]).resolve() / "libudsnorm.so")
    with tempfile.TemporaryDirectory() as folder:
        os.chdir(folder)
        cases.each([messages_of_each_size, many_messages, much_held, many_pairs, many_differences, many_words], loaded)
        os.chdir("/")
    cases.end()


if __name__ == "__main__":
    main()
