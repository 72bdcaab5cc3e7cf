#!/usr/bin/env python3
"""How much a log can make the built program write, keep and do: the numbers of docs/hostile-input.md.

    tests/memory/hostile_input.py crates/udsnorm/out/udsnorm [TEST..]

Prints a line for each case, with what was measured, and ends with `N passed, M failed`; its status is 1 where a case failed.
"""

import itertools
import math
import os
import re
import resource
import subprocess
import sys
import tempfile
import time
from fractions import Fraction
from pathlib import Path

sys.path.insert(0, str(Path(__file__).resolve().parents[1] / "helpers"))

import commands
import oracle
from cases import DIFFERENT, DONE, REFUSAL, Cases
from counts import counts_line
from runs import PROGRAM_BYTES, Ended, differences, end, give, peak, start
from told import place

# The lengths that a frame may have, and those that a first frame may have.
FRAME_LENGTHS = (*range(9), 12, 16, 20, 24, 32, 48, 64)
RX_DLS = (8, 12, 16, 20, 24, 32, 48, 64)

# The lengths of the messages whose canonical logs are compared with their recordings: all that two frames of 64 bytes take, to
# which a frame more adds less than three times its line; and those where a first frame spells the length in another way.
MESSAGE_LENGTHS = (*range(1, 127), 4095, 4096, 65_535, oracle.MESSAGE_LIMIT)

# The most bytes that are written for each byte of a log, by the identifiers of the unit, which sends, and of the tester.
MOST_CANONICAL = {
    ("7E8", "7E0"): Fraction(46, 13),
    ("7E8", "18DA10F1"): Fraction(189, 52),
    ("18DAF110", "7E0"): Fraction(199, 57),
    ("18DAF110", "18DA10F1"): Fraction(68, 19),
}
LONGEST_ITEM = "{} exchange DynamicallyDefineDataIdentifier 2C -> unanswered\n"
LONGEST_ITEM_OF_ONE_FRAME = "{} exchange DynamicallyDefineDataIdentifier 2C000000000000 -> unanswered\n"
LONGEST_DROP = "line {}: tester frame dropped: consecutive frame unexpected\n"
LONGEST_PLACE = "{0} request tester lines {0} to {0} at 0.000000 to 0.000000 2C\n"

# The same as objects.
LONGEST_ITEM_OBJECT = (
    '{{"item":{},"kind":"exchange","service":"DynamicallyDefineDataIdentifier","request":"2C","outcome":"unanswered"}}\n'
)
LONGEST_DROP_OBJECT = '{{"line":{},"event":"dropped","direction":"tester","reason":"consecutive frame unexpected"}}\n'
LONGEST_PLACE_OBJECT = (
    '{{"item":{0},"role":"request","direction":"tester","first_line":{0},"last_line":{0},'
    '"start":"0.000000","end":"0.000000","message":"2C"}}\n'
)

# Objects of a request and of its answer, which begins as many microseconds before it as lines of this length can tell.
LATER_REQUEST, ANSWERED = b"(9.999999) a 7E0#012C\n", b"(0.000000) a 7E8#016C\n"
LONGEST_ANSWERED_OBJECTS = (
    '{{"item":{0},"role":"request","direction":"tester","first_line":{1},"last_line":{1},'
    '"start":"9.999999","end":"9.999999","message":"2C"}}\n'
    '{{"item":{0},"role":"answer","direction":"unit","first_line":{2},"last_line":{2},'
    '"start":"0.000000","end":"0.000000","after_us":-9999999,"message":"6C"}}\n'
)

# What a page of two logs has at most for each byte of both, where numbers have four digits: the row of an item that one log has alone, with
# which a difference begins. It is a request of one byte, for the service of OBD with the longest title.
ROW_OF_ONE = Fraction(503 + 6 * 4, 22)

# What it has for two requests of which one asks for no answer, of the service with the most letters, and for such a request behind them that
# one log has alone. The numbers of these differences, of which each row has four, have three digits. After 200 rows a table ends, and another
# one begins.
SILENT_REQUEST, ALONE = b"(0.000000) a 7E0#022C80\n", b"(0.000000) a 7E0#012F\n"
BLOCK = len("""</table>
</details>
<details class="b" open>
<summary>From A&#160;1000, B&#160;1000</summary>
<table class="pair">
<thead><tr><th scope="col">A<th scope="col">B<th scope="col">Item</thead>
<tbody>
""")
CHANGED_AND_ALONE = Fraction(100 * ((829 + 8 * 4 - 4) + (419 + 6 * 4 - 4)) + BLOCK, 100 * (24 + 22 + 22))

# Who sends a message of each role.
ROLES = {"request tester", "stray tester", "answer unit", "pending unit", "stray unit"}

# Lines in which most stands for their length, in one way or another.
ONE_BYTE = b"(0.000000) a 7E8#0111\n"
LONG_NAME = b"(0.000000) a 7E8#0107\n"
TROUBLE_CODES = b"(0.000000) a 7E8##0003B590DFF" + b"303030FF" * 13 + b"30303077000000\n"
FOURTEEN_BYTES = b"(0.000000) a 7E8##0000E" + b"11" * 14 + b"\n"
REQUEST = b"(0.000000) a 7E0#012C\n"
ANSWER = b"(0.000000) a 7E8#016C\n"
LONG_REQUEST = b"(0.000000) a 7E0#072C000000000000\n"
CONSECUTIVE = b"(0.000000) a 7E0#21\n"
SHORT_FIRST = b"(0.000000) a 7E0#10\n"
FIRST = b"(0.000000) a 7E0#10000000FFFF4142\n"
FOREIGN = b"(0.000000) a 000#\n"
BLANK = b"\n"
LONGEST = b"(0000000000.000000)" + b" " * 16 + b"abcdefghijklmno" + b" " * 16 + b"18DAF110##0" + b"00" * 64 + b" " * 16 + b"T\n"

# How many bytes of the longest line stand before each place where one byte more makes it none, and that byte: in a gap, the
# name of the device, the next gap, the data, and at the end.
ONE_BYTE_MORE = [(35, b" "), (50, b"p"), (66, b" "), (206, b"0"), (222, b" ")]

# The length of the logs whose memory is measured. With a message for 22 bytes there are more than 2^20 of them.
MEASURED = 24_000_000

# Bytes of the two receptions, at most; those that the program has where it watches requests that are answered; and those that
# it holds for each byte of a log.
RECEPTION_BYTES = 2 * oracle.MESSAGE_LIMIT
WATCHED_BYTES = 9 * 2**18
HELD = Fraction(17, 22)
MEANT = Fraction(49, 22)

FOUND = Fraction(300, 44)
FOUND_UNITS = Fraction(440, 27)

# Those of the rows of a log, of which a page of two logs holds both; and beside both, while it looks for what stands beside what,
# those of each item, at most one for 22 bytes, and those of a script.
ROWS = Fraction(218, 22)
BESIDE = Fraction(150, 22)
SCRIPT_BYTES = 8_100_000

# Those of what a log means for each byte of its canonical log.
MEANT_CANONICAL = Fraction(49, 46)

# The most mebibytes of address space that a program needs whose log means so many requests of one length, in frames of one length,
# and one that compares such a log with itself, if they are told. That is what the requests have, in memory of their own, and a
# tenth. A buffer of them all that grew to twice its bytes would need twice as much.
ADDRESS_SPACES = [
    (33, oracle.MESSAGE_LIMIT, 64, 41, 77),
    (8300, 4095, 8, 40, None),
    (1_090_000, 7, 8, 110, None),
]

# What explain says of two of the longest messages that lack their last frames, before it counts.
UNFINISHED = b"""\
end: tester reception from line 1 of 1048575 bytes unfinished
end: unit reception from line 2 of 1048575 bytes unfinished
"""

# Logs of which normalise and list tell an error; of the last one the other commands tell none.
REFUSED_LOGS = [b"x", b"(", b"\n" * 1000 + b"\xff" * 1000, LONGEST + b"(1.0\n" * 1000, b"(0.000000) a 7E8#1000FFFFFFFF4142\n" * 1000]


def frame_line(identifier, data):
    """The shortest line with a frame that begins with these bytes, in the shortest frame that takes them."""
    size = next(length for length in FRAME_LENGTHS if length >= len(data))
    return f"(0.000000) a {identifier}{'#' if size <= 8 else '##0'}{data.ljust(size, bytes(1)).hex()}\n".encode()


def single_frame(identifier, message):
    """The log of a message in a single frame."""
    control = bytes([len(message)]) if len(message) <= 7 else bytes([0, len(message)])
    return frame_line(identifier, control + message)


def segmented(identifier, message, rx_dl):
    """The log of a message in frames of this length, of which the last is as short as it can be."""
    size = len(message).to_bytes(4, "big")
    control = bytes([0x10 | size[2], size[3]]) if len(message) <= 4095 else b"\x10\x00" + size
    begun = rx_dl - len(control)
    lines = [frame_line(identifier, control + message[:begun])]
    for number, begin in enumerate(range(begun, len(message), rx_dl - 1), 1):
        lines.append(frame_line(identifier, bytes([0x20 | number % 16]) + message[begin : begin + rx_dl - 1]))
    return b"".join(lines)


def shortest_recordings(identifier, message):
    """The shortest logs of a message: in a single frame, and in frames of each length."""
    size = len(message)
    if size <= 62:
        yield single_frame(identifier, message)
    for rx_dl in RX_DLS:
        if size >= (8 if rx_dl == 8 else rx_dl - 1):
            yield segmented(identifier, message, rx_dl)


def canonical_growth(cases):
    """No message has a canonical log of more bytes for each byte of its shortest recording, and one has as many."""
    for (unit, tester), expected in MOST_CANONICAL.items():
        most, longest, wrong = Fraction(0), None, []
        for size, log in ((size, log) for size in MESSAGE_LENGTHS for log in shortest_recordings(unit, bytes(size))):
            status, text, _ = cases.run(["normalise", "--unit", unit, "--tester", tester], log)
            wrong += [] if status == DONE and text else [f"status {status}, {len(text)} bytes of {size}"]
            most, longest = max((most, longest), (Fraction(len(text), len(log)), size), key=lambda found: found[0])
        wrong += [] if most == expected else [f"not {expected}"]
        cases.report(f"from {unit} to {tester} a message of {longest} bytes is written as {most} times its log", wrong)


def longest_texts(cases):
    """The logs of which most is written."""
    log = FOURTEEN_BYTES * 10_000
    status, text, _ = cases.run(["normalise"], log)
    wrong = [] if status == DONE and len(text) == MOST_CANONICAL["7E8", "7E0"] * len(log) else [f"status {status}, {len(text)} bytes"]
    cases.report(f"normalise writes {len(text)} bytes of {len(log)}", wrong)
    for job, line, longest in [
        ("list", REQUEST, LONGEST_ITEM),
        ("watch", REQUEST, LONGEST_ITEM),
        ("list", LONG_REQUEST, LONGEST_ITEM_OF_ONE_FRAME),
        ("explain", CONSECUTIVE, LONGEST_DROP),
        ("messages", REQUEST, LONGEST_PLACE),
        ("list --json", REQUEST, LONGEST_ITEM_OBJECT),
        ("watch --json", REQUEST, LONGEST_ITEM_OBJECT),
        ("explain --json", CONSECUTIVE, LONGEST_DROP_OBJECT),
        ("messages --json", REQUEST, LONGEST_PLACE_OBJECT),
    ]:
        log = line * 10_000
        status, text, _ = cases.run(job.split(), log)
        items = "".join(map(longest.format, range(1, 10_001))).encode()
        wrong = [] if status == DONE and text.startswith(items) else [f"status {status}, {text[:100]!r}"]
        cases.report(f"{job} writes {len(text)} bytes of {len(log)}", wrong)
    answered_texts(cases)
    functional_texts(cases)


def answered_texts(cases):
    """The same of requests that are answered: an object of an answer has a time more."""
    log = (LATER_REQUEST + ANSWERED) * 5_000
    status, text, _ = cases.run(["messages", "--json"], log)
    objects = "".join(LONGEST_ANSWERED_OBJECTS.format(item, 2 * item - 1, 2 * item) for item in range(1, 5_001)).encode()
    wrong = [] if status == DONE and text == objects else [f"status {status}, {text[:100]!r}"]
    cases.report(f"messages --json of requests with answers writes {len(text)} bytes of {len(log)}", wrong)


def functional_texts(cases):
    """The same of requests to all units: an object has a mark more, and canonical lines the identifier of the tester."""
    log = REQUEST.replace(b"7E0", b"7DF") * 10_000
    status, text, _ = cases.run(["messages", "--json", "--functional", "7DF"], log)
    marked = LONGEST_PLACE_OBJECT.replace('"message"', '"functional":true,"message"')
    wrong = [] if status == DONE and text == "".join(map(marked.format, range(1, 10_001))).encode() else [f"status {status}, {text[:100]!r}"]
    cases.report(f"messages --json --functional 7DF writes {len(text)} bytes of {len(log)}", wrong)
    log = FOURTEEN_BYTES.replace(b"7E8", b"7DF") * 10_000
    status, text, _ = cases.run(["normalise", "--tester", "18DA10F1", "--unit", "18DAF110", "--functional", "7DF"], log)
    wrong = [] if status == DONE and len(text) == Fraction(51, 13) * len(log) else [f"status {status}, {len(text)} bytes"]
    cases.report(f"normalise --functional 7DF writes {len(text)} bytes of {len(log)}", wrong)


def page_growth(cases):
    """No lines have more of a page, for each of their bytes, than strays with as many trouble codes as a frame holds, of which one has
    a status that is a letter, and each other one all bits: of frames of each kind alone, and of two frames of which one ends what the
    other begins, or answers it. Numbers of as many digits stand in all."""
    most, wrong = page_grown(cases, TROUBLE_CODES), []
    single = [b"", b"R", b"00", b"10", b"21", b"22", b"30", b"33", b"40", b"012C", b"016C", b"022C80", b"023E80", b"300000", b"330000"]
    single += [b"0107", b"022805", b"026805", b"0322F19A", b"0362F19A"]
    frames = [b"(0.000000) a %s#%s\n" % frame for frame in itertools.product((b"7E0", b"7E8"), single)]
    begun = [frame_line("7E0", FIRST_DATA), frame_line("7E8", FIRST_DATA), REQUEST]
    pairs = [first + second for first, second in itertools.product(begun, [*frames, b"(0.000000) a 7E8#037F2C26\n", FIRST])]
    for lines in (*frames, *pairs, LONG_NAME, FOURTEEN_BYTES, LONG_REQUEST, FIRST, FOREIGN, BLANK, LONGEST):
        grown = page_grown(cases, lines)
        wrong += [f"{lines!r}: {float(grown):.2f}"] if grown > most else []
    cases.report(f"report writes at most {float(most):.2f} bytes for each byte of {TROUBLE_CODES!r}", wrong)


def page_grown(cases, lines):
    """How many bytes more a page has for each byte of its log, where that goes on with these lines."""
    one, other = (cases.run(["report"], REQUEST * 1000 + lines * number) for number in (100, 200))
    return Fraction(len(other.output) - len(one.output), 100 * len(lines))


def pair_page_growth(cases):
    """No lines of a log have more of a page of two logs, for each byte of both, than a request that begins a difference. The other log goes
    on with nothing, or with other lines. Requests that changed, with one behind each that one log has alone, come close to that."""
    grown = pair_page_grown(cases, SILENT_REQUEST + ALONE, REQUEST)
    wrong = [] if grown == CHANGED_AND_ALONE else [f"{SILENT_REQUEST + ALONE!r} beside {REQUEST!r}: {grown}, not {CHANGED_AND_ALONE}"]
    single = [b"", b"00", b"10", b"21", b"30", b"40", b"012C", b"012F", b"016C", b"026C26", b"022C80", b"023E80", b"037F3178", b"300000"]
    single += [b"0107", b"022805", b"0322F19A"]
    frames = [b"(0.000000) a %s#%s\n" % frame for frame in itertools.product((b"7E0", b"7E8"), single)]
    more = [REQUEST + ANSWER, FIRST + REQUEST, TROUBLE_CODES, FOURTEEN_BYTES, FIRST, FOREIGN, LONGEST]
    for lines, other in itertools.product((*frames, *more), (b"", ONE_BYTE, SHORT_FIRST, REQUEST)):
        grown = pair_page_grown(cases, lines, other)
        wrong += [f"{lines!r} beside {other!r}: {float(grown):.2f}"] if grown > ROW_OF_ONE else []
    cases.report(f"report of two logs writes at most {float(ROW_OF_ONE):.2f} bytes for each byte of both", wrong)


def pair_page_grown(cases, lines, others):
    """How many bytes more a page of two logs has for each byte of both, where they go on with these lines; without end where there
    is no such page."""
    lengths = []
    with tempfile.NamedTemporaryFile() as left:
        for number in (100, 200):
            left.truncate(0)
            left.seek(0)
            left.write(REQUEST * 1000 + lines * number)
            left.flush()
            found = cases.run(["report", left.name, "/dev/stdin"], REQUEST * 1000 + others * number)
            lengths.append(len(found.output) if found.status in (DONE, DIFFERENT) else math.inf)
    return math.inf if math.inf in lengths else Fraction(lengths[1] - lengths[0], 100 * len(lines + others))


def drops(cases):
    drops_told(cases, ["explain"], LONGEST_DROP, r"^line .*\n", r"(line )\d+")
    drops_told(cases, ["explain", "--json"], LONGEST_DROP_OBJECT, r'^\{"line".*\n', r'(line":)\d+')


def drops_told(cases, words, longest, line, number):
    """What explain tells of a frame, for each byte of its line, is most for an unexpected consecutive frame: of all frames of
    up to two bytes with each beginning, alone and after a first frame, in lines whose numbers have eight digits."""
    most = Fraction(len(longest.format(10**7)), len(CONSECUTIVE))
    beginnings = (bytes(begun) for size in range(3) for begun in itertools.product((0x00, 0x10, 0x21, 0x22, 0x30, 0x32, 0x33, 0x40), repeat=size))
    frames = [*beginnings, b"\x30\x00\x00", b"\x32\x00\x00", b"\x33\x00\x00", FIRST_DATA, b"\x10\x00" + b"\xff" * 6]
    wrong, found = [], []
    for before, sender, data in itertools.product(((), (("7E0", FIRST_DATA),)), ("7E0", "7E8"), frames):
        log = b"".join(f"(0.000000) a {who}#{what.hex()}\n".encode() for who, what in (*before, (sender, data)))
        status, text, _ = cases.run(words, log)
        told = re.findall(line, text.decode(), re.M)
        found.append(Fraction(len(re.sub(number, r"\g<1>10000000", "".join(told))), len(log)))
        wrong += [repr(log)] if status != DONE or found[-1] > most else []
    wrong += [] if max(found) == most else [f"{max(found)} at most"]
    cases.report(f"{' '.join(words)}: no frame has more told of it than {most} for each byte", wrong)


FIRST_DATA = b"\x10\x00\x00\x00\xff\xff\x41\x42"


def places(cases):
    most = Fraction(len(LONGEST_PLACE.format(10**7)), len(REQUEST))
    places_told(cases, ["messages"], most, r"^\d+ (\w+ \w+)", with_long_numbers)
    most = Fraction(len(LONGEST_ANSWERED_OBJECTS.format(10**7, 10**7, 10**7)), len(LATER_REQUEST + ANSWERED))
    places_told(cases, ["messages", "--json"], most, r'"role":"(\w+)","direction":"(\w+)"', objects_with_long_numbers)


def places_told(cases, words, most, role, lengthened):
    """What messages tells of a message, for each byte of its lines, is most for a request of one byte, and as JSON for that and its
    answer: of messages of each role and of many lengths in their shortest recordings, alone and behind requests, with the shortest
    stamps and the longest, in lines whose numbers have eight digits."""
    wrong, found, roles = [], [], set()
    latest = LATER_REQUEST.replace(b"9.", b"9999999999.")
    for (sender, message), before, seconds in itertools.product(
        placed_messages(), (b"", REQUEST, LATER_REQUEST, latest), (b"(0.", b"(9999999999.")
    ):
        for recording in shortest_recordings(sender, message):
            log = (before + recording).replace(b"(0.", seconds)
            status, text, _ = cases.run(words, log)
            roles |= {" ".join(told.groups()) for told in re.finditer(role, text.decode(), re.M)}
            found.append(Fraction(len(lengthened(text.decode())), len(log)))
            wrong += [repr(log)] if status != DONE or found[-1] > most else []
    wrong += [] if max(found) == most else [f"{max(found)} at most"]
    wrong += [] if roles == ROLES else [f"{roles}"]
    cases.report(f"{' '.join(words)}: no message of {len(found)} recordings has more told of it than {most} for each byte", wrong)


def placed_messages():
    """Messages with their senders: requests and what is none, and of the unit answers, pending replies and what is neither."""
    for sender, begun in [("7E0", b"\x2C"), ("7E0", b"\x6C"), ("7E8", b"\x6C"), ("7E8", b"\x2C")]:
        for size in (*range(1, 17), 61, 62, 63, 126, 4095):
            yield sender, begun.ljust(size, bytes(1))
    yield from [("7E8", b"\x7F\x2C\x78"), ("7E8", b"\x7F\x2C\x11")]


def with_long_numbers(text):
    """Lines of messages whose three numbers have eight digits each."""
    return re.sub(r"^\d+ (\w+ \w+ lines) \d+ to \d+ ", r"10000000 \1 10000000 to 10000000 ", text, flags=re.M)


def objects_with_long_numbers(text):
    return re.sub(r'("item":|_line":)\d+', r"\g<1>10000000", text)


def longest_lines(cases):
    """The longest line that is read, and one byte more."""
    cases.case("the longest line, with a carriage return", cases.run(["explain"], LONGEST[:-1] + b"\r\n"), DONE, counts_line(LONGEST, frames=0))
    for before, more in ONE_BYTE_MORE:
        found = cases.run(["explain"], LONGEST[:before] + more + LONGEST[before:])
        name = f"the longest line with {more!r} more after {before} bytes"
        cases.case(name, found, REFUSAL, error=place(1, before + 1))


def one_line_of_error(cases):
    for job in commands.over_one_log(cases.program):
        for number, log in enumerate(REFUSED_LOGS):
            came = commands.ORACLES[job](log)
            told = f"{came.fault}\n".encode() if came.fault else b""
            wrong = [] if len(told) < 80 else [f"{len(told)} bytes"]
            wrong += differences("the run", cases.run([job], log), Ended(came.status, came.written, told))
            cases.report(f"{job} of refused log {number}: {told!r}", wrong)


def holds_at_most(cases, words, name, log, most, wanted):
    """Beyond what it has without a log, the job holds this many bytes at most, and ends with the wanted status."""
    found = peak(cases.program, words, log)
    allowed = int(PROGRAM_BYTES + most) // 1024
    wrong = [] if found.status == wanted else [f"status {found.status}, not {wanted}"]
    if found.kilobytes is None:
        wrong.append("it ended before its log")
    elif found.kilobytes > allowed:
        wrong.append(f"more than {allowed} kB")
    cases.report(f"{words[0]} of {len(log)} bytes, {name}: {found.kilobytes} kB", wrong)


def memory(cases):
    """Held strays take 17 bytes for 22 bytes of a log; what a log means takes 49; receptions take what they announce, once as
    much has come. Nothing else is held: no piece, unfinished line or text that is written takes memory as a log goes on."""
    meaning = [job for job in commands.over_one_log(cases.program) if commands.holds_meaning(job)]
    for job, begun, line, most in [
        ("normalise", REQUEST, ONE_BYTE, HELD),
        ("normalise", b"", REQUEST, 0),
        ("normalise", b"", ONE_BYTE, 0),
        ("normalise", b"", FIRST, 0),
        ("normalise", b"", FOURTEEN_BYTES, 0),
        ("explain", REQUEST, ONE_BYTE, 0),
        ("explain", b"", CONSECUTIVE, 0),
        ("explain --json", b"", CONSECUTIVE, 0),
        ("explain", b"", LONGEST, 0),
        ("watch", REQUEST, ONE_BYTE, HELD),
        ("watch", b"", REQUEST, 0),
        ("watch", b"", REQUEST + ANSWER, 0),
        ("watch", b"", ONE_BYTE, 0),
        ("watch", b"", FIRST, 0),
        ("watch", b"", LONGEST, 0),
        ("messages", REQUEST, ONE_BYTE, 0),
        ("messages", b"", REQUEST, 0),
        ("messages --json", b"", REQUEST, 0),
        ("messages", b"", FIRST, 0),
        ("messages", b"", FOURTEEN_BYTES, 0),
        ("messages", b"", LONGEST, 0),
        ("report", REQUEST, ONE_BYTE, 0),
        ("report", b"", REQUEST, 0),
        ("report", b"", CONSECUTIVE, 0),
        ("report", b"", FIRST, 0),
        ("report", b"", FOURTEEN_BYTES, 0),
        ("report", b"", LONGEST, 0),
        *((job, begun, line, MEANT) for job in meaning for begun, line in [(REQUEST, ONE_BYTE), (b"", REQUEST)]),
    ]:
        log = begun + line * (MEASURED // len(line))
        holds_at_most(cases, job.split(), f"{begun!r} and then {line[:40]!r}", log, most * len(log), DONE)


def memory_of_logs(cases):
    """The same of logs that are more than a line and its repetitions: long canonical logs, strays of two requests, open receptions,
    pairs of identifiers, and no log."""
    log = ONE_BYTE * (MEASURED // len(ONE_BYTE))
    for job in filter(commands.holds_meaning, commands.over_one_log(cases.program)):
        words = [job, "--limit", str(len(log))]
        holds_at_most(cases, words, "a canonical log above the limit", log, MEANT_CANONICAL * len(log), REFUSAL)
    log = REQUEST + ONE_BYTE * 500_000
    holds_at_most(cases, ["normalise"], "strays that are held, and as many after the next request", 2 * log, HELD * len(log), DONE)
    log = two_receptions()
    told = UNFINISHED + counts_line(log, unfinished=2)
    cases.case("two of the longest messages lack their last frames", cases.run(["explain"], log), DONE, told)
    watched_requests(cases)
    pairs = many_pairs(MEASURED)
    holds_at_most(cases, ["find"], "pairs of identifiers, each with one answer", pairs, FOUND * len(pairs), DONE)
    units = many_units(MEASURED)
    holds_at_most(cases, ["find"], "one functional request, answered by many units", units, FOUND_UNITS * len(units), DONE)
    answered = (REQUEST + ANSWER) * (MEASURED // len(REQUEST + ANSWER))
    holds_at_most(cases, ["find"], "one pair with many answers", answered, 0, DONE)
    for job in commands.over_one_log(cases.program):
        holds_at_most(cases, [job], "no log", b"", 0, DONE)
        holds_at_most(cases, [job], "two of the longest messages without their last frames", log, RECEPTION_BYTES, DONE)
    memory_of_two(cases)


# A profile, a message that it masks, and how many bytes a profile takes at most beside its log: the program's own, and 64 rules.
PROFILE, MASKED, PROFILE_BYTES = b'drop = ["3E"]\nmask = ["22*", "00.."]\n', b"(0.000000) a 7E0#0122\n", 300_000


def under_rules(cases):
    """A message that is masked is held once more, however many there are; of each `messages` tells one byte more, and no other text has
    more of any."""
    with tempfile.NamedTemporaryFile(suffix=".toml") as file:
        file.write(PROFILE)
        file.flush()
        profile = ["--profile", file.name]
        for words, more in [(["messages"], 1), (["messages", "--json"], 1), (["watch"], 1)]:
            plain, found = (cases.run([*words, *options], MASKED * 1000) for options in ([], profile))
            wrong = differences("bytes of each", len(found.output) - len(plain.output), 1000 * more)
            cases.report(f"{' '.join(words)} of masked messages", wrong + differences("status", found.status, DONE))
        longest = two_receptions() + b"".join(b"(0.000000) a %b##024%b\n" % (side, b"00" * 11) for side in (b"7E0", b"7E8"))
        cases.case("two of the longest messages", cases.run(["explain"], longest), DONE, counts_line(longest, messages=2))
        holds_at_most(cases, ["messages", "--json"], "two of the longest messages, of a request and its answer", longest, RECEPTION_BYTES, DONE)
        for job in ["messages", "report"]:
            name = "two of the longest messages, each masked"
            holds_at_most(cases, [job, *profile], name, longest, RECEPTION_BYTES + 2 * oracle.MESSAGE_LIMIT + PROFILE_BYTES, DONE)
            holds_at_most(cases, [job, *profile], "masked messages alone", MASKED * (MEASURED // len(MASKED)), PROFILE_BYTES, DONE)
        masked = REQUEST + ONE_BYTE * (MEASURED // len(ONE_BYTE))
        holds_at_most(cases, ["normalise", *profile], "strays that are held", masked, HELD * len(masked) + PROFILE_BYTES, DONE)


def address_space(cases):
    """What a log means needs little more address space than its messages have bytes, whether they are few and long or many and
    short."""
    for count, size, length, listed, compared in ADDRESS_SPACES:
        request = b"\x2C".ljust(size, bytes(1))
        log = single_frame("7E0", request) if size <= 7 else segmented("7E0", request, length)
        name = f"{count} requests of {size} bytes"
        running = start(cases.program, ["list"], stdout=subprocess.DEVNULL, preexec_fn=lambda: limit_address_space(listed))
        give(running, log, count)
        cases.case(f"list of {name} in {listed} MiB", end(running), DONE, output=None)
        if compared:
            with tempfile.NamedTemporaryFile() as file:
                file.writelines(itertools.repeat(log, count))
                file.flush()
                found = cases.run(["compare", file.name, file.name], preexec_fn=lambda: limit_address_space(compared))
                cases.case(f"compare of {name} in {compared} MiB", found, DONE, b"same\n")


def limit_address_space(mebibytes):
    resource.setrlimit(resource.RLIMIT_AS, (mebibytes * 2**20,) * 2)


def many_pairs(size):
    """The shortest log of so many bytes whose answers are each of another pair: 44 bytes for one."""
    sides = ((tester, unit) for tester in range(0x800) for unit in range(0x800) if tester != unit)
    pairs = (b"(0.000000) a %03X#0101\n(0.000000) a %03X#0141\n" % pair for pair in sides)
    return b"".join(itertools.islice(pairs, size // 44))


def many_units(size):
    """A functional request, and an answer by each of as many units as there is room for: 27 bytes for one."""
    answers = (b"(0.000000) a %08X#0141\n" % unit for unit in range(size // 27))
    return b"(0.000000) a 18DB33F1#0101\n" + b"".join(answers)


def watched_requests(cases):
    """Whoever watches requests that are answered holds no more than one of them, however long the log is."""
    request, answer = (segmented(side, begun.ljust(4095, bytes(1)), 64) for side, begun in [("7E0", b"\x2C"), ("7E8", b"\x6C")])
    log = (request + answer) * (MEASURED // len(request + answer))
    # How much of the program's own file is in memory differs from run to run by 300 kB: the least of three counts.
    found = min((peak(cases.program, ["watch"], log) for _ in range(3)), key=lambda run: run.kilobytes or WATCHED_BYTES)
    wrong = [] if found.status == DONE and found.kilobytes and found.kilobytes * 1024 <= WATCHED_BYTES else [f"{found}"]
    cases.report(f"watch of requests that are answered: {found.kilobytes} kB", wrong)


def memory_of_two(cases):
    """What both logs of a comparison mean is held, up to their last items, and of a page the rows of both, and what stands beside
    what. A line has most of them where it is a request that has no answer."""
    log = REQUEST * (MEASURED // len(REQUEST))
    with tempfile.NamedTemporaryFile() as left:
        left.write(log)
        left.flush()
        for name, right, status in [("as many", log, DONE), ("one more", log + REQUEST, DIFFERENT)]:
            words = ["compare", left.name, "/dev/stdin"]
            holds_at_most(cases, words, f"{REQUEST!r} alone, with {name} on the right", right, 2 * MEANT * len(right), status)
        for line in [REQUEST, ONE_BYTE, CONSECUTIVE, REQUEST + ANSWER, FIRST + REQUEST, FIRST]:
            right = line * (MEASURED // len(line))
            words, status = ["report", left.name, "/dev/stdin"], DONE if line == REQUEST else DIFFERENT
            most = (ROWS + BESIDE) * len(log + right) + SCRIPT_BYTES
            holds_at_most(cases, words, f"{REQUEST!r} alone, with {line!r} on the right", right, most, status)


def two_receptions():
    """Two of the longest messages, one of each side, in frames of 64 bytes that take turns. Both lack their last frame."""
    size = oracle.MESSAGE_LIMIT
    first = b"\x10\x00" + size.to_bytes(4, "big") + bytes(58)
    later = [bytes([0x20 | number % 16]) + bytes(63) for number in range(1, -(-(size - 58) // 63))]
    return b"".join(f"(0.000000) a {side}##0{data.hex()}\n".encode() for data in [first, *later] for side in ("7E0", "7E8"))


def work(cases):
    """The jobs reach the end of logs of one kind of line, and write a number of lines for each, and one for the request before
    them or for the counts. The time for each byte is printed, and nothing fails by it."""
    size = 4_000_000
    for line, *written in [
        (ONE_BYTE, 1, 1, 0, 1),
        (FOURTEEN_BYTES, 4, 1, 0, 1),
        (REQUEST, 1, 1, 0, 1),
        (CONSECUTIVE, 0, 0, 1, 0),
        (FIRST, 0, 0, 1, 0),
        (FOREIGN, 0, 0, 0, 0),
        (BLANK, 0, 0, 0, 0),
        (LONGEST, 0, 0, 0, 0),
    ]:
        lines = size // len(line)
        log = REQUEST + line * lines
        normalised, listed, explained, placed = written
        for job, number in [("normalise", normalised), ("list", listed), ("watch", listed), ("explain", explained), ("messages", placed)]:
            begun = time.monotonic()
            status, text, _ = cases.run([job], log)
            nanoseconds = (time.monotonic() - begun) * 1e9 / len(log)
            wrong = [] if status == DONE else [f"status {status}"]
            wrong += [] if text.count(BLANK) == number * lines + 1 else [f"{text.count(BLANK)} lines"]
            cases.report(f"{job} of {line[:40]!r}: {nanoseconds:.0f} ns for each byte", wrong)


def main():
    if len(sys.argv) < 2:
        sys.exit(__doc__)
    cases = Cases(os.path.abspath(sys.argv[1]), sys.argv[2:])
    cases.each([
        canonical_growth, longest_texts, page_growth, pair_page_growth, drops, places, longest_lines, one_line_of_error, memory, memory_of_logs, under_rules,
        address_space, work,
    ])
    cases.end()


main()
