#!/usr/bin/env python3
"""Whole logs through the built program: the tables of rows/, one message in many recordings, and devices that fail.

    tests/program/sessions.py crates/udsnorm/out/udsnorm [TEST..]

Prints a line for each case and ends with `N passed, M failed`; its status is 1 where a case failed.
"""

import itertools
import os
import re
import shutil
import subprocess
import sys
import tempfile
from collections import Counter, namedtuple
from concurrent.futures import ProcessPoolExecutor
from functools import partial
from pathlib import Path

sys.path.insert(0, str(Path(__file__).resolve().parents[1] / "helpers"))

import commands
import oracle
import report_facts
import tables
from cases import DIFFERENT, DONE, REFUSAL, UNCLEAN, WORDS, Cases
from counts import counts_in, counts_line
from devices import devices
from objects import in_objects
from recordings import CANONICAL, SIZES, Style, message_of, recorded
from refuser import Refuser
from runs import Ended, Program, asked, asked_in_vain, differences, files, forget, how, pipe
from tables import CANONICAL_LINE, VIN, VIN_PLACED, Row
from told import LONG_CANONICAL, LONG_LOG, OVERSIZE, place

JOBS = ["normalise", "list", "explain", "messages", "report"]

# The line of a page with the cause of a refusal.
CAUSE = re.compile(rb"^<p><b>Cause:</b> .*\n", re.M)

# Why a log is refused that can be explained all the same, and whose messages can be told.
ONLY_NORMALISED = (OVERSIZE, LONG_CANONICAL)

# How the jobs ended over one log, and what is wrong with that.
Taken = namedtuple("Taken", "normalised listed explained placed reported wrong")


# --- A log through the jobs -------------------------------------------------------------------------------------------------


def taken(program, log, options=()):
    """A log through each job, in one piece and byte by byte, which has to give the same. Listing ends as normalising does, and
    lists nothing where the log is refused. So does explaining, for which no message is too long and which has no canonical
    log. Telling the messages ends as explaining does, and so do writing a page and watching, which writes the list of a log that is
    listed."""
    ended, wrong = [], []
    for job in JOBS:
        ended.append(program.run([job, *options], log))
        wrong += byte_by_byte(job, program.run_short([job, *options], log), ended[-1])
    normalised, listed, explained, placed, reported = ended
    wrong += differences("how list ends", how(listed), how(normalised))
    wrong += differences("what is listed of a refused log", listed.output if listed.status else b"", b"")
    wrong += differences("list --no-numbers", program.run(["list", "--no-numbers", *options], log), without_numbers(listed))
    for job, found in [("list", listed), ("explain", explained), ("messages", placed)]:
        wrong += differences(f"{job} --json", program.run([job, "--json", *options], log), found._replace(output=in_objects(job, found.output)))
    if not normalised.error.endswith(ONLY_NORMALISED):
        wrong += differences("how explain ends", how(explained), how(normalised))
    wrong += differences("how messages ends", how(placed), how(explained))
    wrong += differences("how report ends", how(reported), how(explained))
    wrong += watched_otherwise(program, log, options, listed, explained)
    if explained.status == DONE:
        wrong += differences("how many messages", messages_in(placed), messages_counted(explained))
    if listed.status == DONE:
        wrong += differences("the list by the messages", oracle.listed_again(placed.output.decode()), listed.output.decode())
    return Taken(*ended, wrong)


def byte_by_byte(job, found, whole):
    """How a job ends otherwise where each read gives a byte. Then less is seen of a log that is refused, and its page may have no cause."""
    came, want = (ended._replace(output=CAUSE.sub(b"", ended.output)) for ended in (found, whole))
    wrong = differences(f"{job} byte by byte", came, want)
    seen, known = CAUSE.findall(found.output), CAUSE.findall(whole.output)
    return wrong + (differences(f"the cause of {job} byte by byte", seen, known) if seen else [])


def watched_otherwise(program, log, options, listed, explained):
    """What is wrong with a log that is watched, in one piece, byte by byte and without numbers."""
    watched = program.run(["watch", *options], log)
    wrong = differences("watch byte by byte", program.run_short(["watch", *options], log), watched)
    wrong += differences("how watch ends", how(watched), how(explained))
    if listed.status == DONE:
        wrong += differences("the list of a log that is watched", watched.output, listed.output)
    return wrong + differences("watch --no-numbers", program.run(["watch", "--no-numbers", *options], log), without_numbers(watched))


def messages_in(placed):
    """How many messages have a line, and how many of these are pending replies."""
    return len(re.findall(rb"\n", placed.output)), len(re.findall(rb"^\d+ pending ", placed.output, re.M))


def messages_counted(explained):
    """The same, as it is counted."""
    counts = counts_in(explained.output)
    return counts["messages"], counts["pending"]


def without_numbers(listed):
    """How a list ends whose lines have no numbers."""
    return listed._replace(output=re.sub(rb"^\d+ ", b"", listed.output, flags=re.M))


def again(program, row, found):
    """A canonical log is its own and lists the same. Each message is in it, one behind the other, and no frame is lost."""
    canonical = row.canonical()
    clean = counts_line(canonical, canonical, row.sides())
    places = placed_one_by_one(found.listed)
    page = report_facts.reported(canonical, sides=dict(zip((oracle.TESTER, oracle.UNIT), row.sides()))).written
    wants = [Ended(DONE, canonical, b""), found.listed, *(Ended(DONE, text, b"") for text in (clean, places, page))]
    ended = [program.run([job, *sides(row)], canonical) for job in JOBS]
    return differences("the canonical log again", ended, wants)


def placed_one_by_one(listed):
    """What is told of the messages of a canonical log, by its list."""
    text, last = b"", 0
    for number, role, side, digits in parts_of(listed):
        first, last = last + 1, last + len(canonical_frames(digits))
        text += placed_line(number, role, side, first, last, digits)
    return text


def parts_of(listed):
    """The messages of a list, each with the number of its item, its role and its side."""
    for line in listed.output.decode().splitlines():
        number, kind, name, digits, *answer = line.split(" ")
        if kind == "stray":
            yield number, "stray", name, digits
        else:
            yield number, "request", oracle.TESTER, digits
            if len(answer) > 2:
                yield number, "answer", oracle.UNIT, answer[-1]


def canonical_frames(digits):
    return oracle.canonical_frames(oracle.UNIT, bytes.fromhex(digits))


def placed_line(number, role, side, first, last, digits):
    """The line of a message in a log whose lines are a millisecond apart."""
    begun, ended = (f"{line // 1000}.{line % 1000:03}000" for line in (first - 1, last - 1))
    return f"{number} {role} {side} lines {first} to {last} at {begun} to {ended} {digits}\n".encode()


def sides(row):
    """The options for the tester and the unit of a row, where it says them."""
    return [word for side in zip(["--tester", "--unit"], row.sides()) for word in side] if row.has("between") else []


# --- Tables of logs ---------------------------------------------------------------------------------------------------------

SESSIONS = [
    "one_session", "sessions", "examples", "equal_numbers", "lost_frames", "late_frames", "long_announcements",
    "long_announcements_told", "written_before_a_refused_line",
]


def sessions(program):
    """A table in which a row has items has those of each log."""
    for name in SESSIONS:
        rows = tables.table(name)
        has_items = any(row.has("item") for row in rows)
        for row in rows:
            yield f"{name}: {row.name}", partial(session, program, row, has_items)


def session(program, row, has_items=False):
    """A log has the canonical log of its row, or is refused as that says and has so much written."""
    found = taken(program, row.log(), sides(row))
    refused, canonical = row.text("refused"), row.canonical()
    wrong = found.wrong + differences("normalise", found.normalised, Ended(REFUSAL if refused else DONE, canonical, refused))
    if row.has("counts"):
        wrong += differences("told", found.explained, Ended(DONE, row.text("told") + row.counts(), b""))
    if has_items:
        wrong += differences("item", found.listed, Ended(DONE, row.text("item"), b""))
    return wrong if refused else wrong + again(program, row, found)


def places(program):
    for row in tables.table("places"):
        yield f"places: {row.name}", partial(placed, program, row)


def placed(program, row):
    """A log has the messages of its row, or is refused as that says and has so many before."""
    found, refused = taken(program, row.log(), sides(row)), row.text("refused")
    want = Ended(REFUSAL if refused else DONE, row.text("placed"), refused)
    return found.wrong + differences("messages", found.placed, want)


def pages(program):
    for row in tables.table("reported"):
        yield f"reported: {row.name}", partial(reported, program, row)


def reported(program, row):
    """A page has the rows of its row and no others, and the other lines, each in their order."""
    found, refused = taken(program, row.log(), sides(row)), row.text("refused")
    lines = found.reported.output.decode().split("\n")
    return [
        *found.wrong,
        *differences("how report ends", how(found.reported), (REFUSAL if refused else DONE, refused)),
        *differences("rows", [line for line in lines if line.startswith("<tr ")], row.texts("row")),
        *differences("other lines", [line for line in lines if line in row.texts("page")], row.texts("page")),
    ]


# What reads lines of JSON and writes each again without spaces, where it is there.
READERS = [["python3", "-m", "json.tool", "--json-lines", "--compact"], ["jq", "-c", "."]]


def commands_of_rows(program):
    readers = [reader for reader in READERS if shutil.which(reader[0])]
    of_commands = {name: tables.table(name) for name in tables.of_commands()}
    for name, rows in [*of_commands.items(), *((name, tables.rows_in(text)) for name, text in commands.rows().items())]:
        for row in rows:
            yield f"{name}: {row.name}", partial(written, program, row, readers)


def written(program, row, readers):
    """The command of a row writes its lines, or its objects and its counts, also byte by byte; and each reader of JSON finds the
    objects there."""
    words = [*row.texts("with")[0].split(" "), *sides(row)]
    found, refused = program.run(words, row.log()), row.text("refused")
    counts = in_objects("explain", row.counts()) if row.has("counts") else b""
    wrong = differences("text", found, Ended(REFUSAL if refused else DONE, row.text("found") + row.text("object") + counts, refused))
    wrong += differences("byte by byte", program.run_short(words, row.log()), found)
    for reader in readers if row.has("object") else []:
        again = subprocess.run(reader, input=found.output, stdout=subprocess.PIPE, timeout=60)
        wrong += differences(f"read by {reader[0]}", again.stdout, found.output)
    return wrong


def decided_items(program):
    for row in tables.table("decided"):
        yield f"decided: {row.name}", partial(decided, program, row)


def decided(program, row):
    """Of a log that is refused in its last line the items of its row were written."""
    log = row.log()
    want = Ended(REFUSAL, row.text("item"), place(log.count(b"\n"), 1))
    return taken(program, log).wrong + differences("watch", program.run(["watch"], log), want)


def pairs_found(program):
    for row in tables.table("pairs_found"):
        yield f"pairs_found: {row.name}", partial(found_pairs, program, row)


def found_pairs(program, row):
    """The pairs of a log are those of its row, also byte by byte and as objects; and none is written where it is refused."""
    log, pairs = row.log(), Ended(DONE, row.text("found"), b"")
    wrong = differences("find", program.run(["find"], log), pairs)
    wrong += differences("find byte by byte", program.run_short(["find"], log), pairs)
    wrong += differences("find --json", program.run(["find", "--json"], log), pairs._replace(output=oracle.found(log, write=oracle.pairs_objects).written))
    refused = Ended(REFUSAL, b"", place(log.count(b"\n") + 1, 1))
    return wrong + differences("find of a refused log", program.run(["find"], log + b"x\n"), refused)


def logs_without_message(program):
    for row in tables.table("lines_without_message"):
        yield f"lines_without_message: {row.name}", partial(without_message, program, row)


def without_message(program, row):
    """All frames of a log are dropped; nothing else is counted, written or listed."""
    found = taken(program, row.log())
    nothing = Ended(DONE, b"", b"")
    return [
        *found.wrong,
        *differences("counts", found.explained.output.splitlines(keepends=True)[-1], row.counts()),
        *differences("normalise, list and messages", (found.normalised, found.listed, found.placed), (nothing, nothing, nothing)),
    ]


FRAME = b"(1.000000) can0 7E0#0111\n"
FRAME_CANONICAL = b"(0000000000.000000) can0 7E0#0111CCCCCCCCCCCC\n"
FRAME_PLACED = b"1 request tester lines 2 to 2 at 1.000000 to 1.000000 11\n"


def refused_lines(program):
    for name, check in [("refused_lines", refused_line), ("unfinished_lines", unfinished_line)]:
        for row in tables.lines(name):
            column, _, line = row.partition(" ")
            yield f"{name}: {row!r}", partial(check, program, column, line.encode())


def refused_line(program, column, line):
    """A line is refused at its column: as the first one, and as the third one, after and before a frame."""
    behind = b"\n" + FRAME + line + b"\n" + FRAME
    return refused(program, line + b"\n", 1, column) + refused(program, behind, 3, column, FRAME_CANONICAL, FRAME_PLACED)


def unfinished_line(program, column, line):
    return refused(program, line, 1, column)


def refused(program, log, line, column, canonical=b"", placed=b""):
    """A log is refused at this place, and this is written."""
    found, told = taken(program, log), place(line, column)
    return [
        *found.wrong,
        *differences("normalise", found.normalised, Ended(REFUSAL, canonical, told)),
        *differences("messages", found.placed, Ended(REFUSAL, placed, told)),
    ]


def recording_that_breaks_off(program):
    yield "a recording that breaks off after each of its bytes", partial(breaks_off, program)


def breaks_off(program):
    """Of all fronts of a recording 42 are accepted, and the others are refused at their ends. The request is told from the first
    whole line on, and the answer with the last one."""
    wrong, accepted = differences("bytes of the recording", len(VIN), 212), 0
    for length in range(len(VIN) + 1):
        front = VIN[:length]
        found = taken(program, front)
        whole = sum(line == of_vin for line, of_vin in zip(front.split(b"\n"), VIN.split(b"\n")[:5]))
        text = b"".join(VIN_PLACED.splitlines(keepends=True)[: (whole >= 1) + (whole == 5)])
        wrong += found.wrong + differences(f"messages of {length} bytes", found.placed.output, text)
        if found.normalised.status == DONE:
            accepted += 1
        else:
            end = place(front.count(b"\n") + 1, length - front.rfind(b"\n"))
            wrong += differences(f"{length} bytes", how(found.normalised), (REFUSAL, end))
    return wrong + differences("how many are accepted", accepted, 42)


FIRST = "line (0.000000) can0 7E8#101462F190574241"
NEXT = "line (1.00000{late}) can0 7E8#2133413543353045"
IS_OPEN = ["told end: unit reception from line 1 of 20 bytes unfinished"]
IS_LATE = [
    "told line 3: unit reception from line 1 of 20 bytes ended: late",
    "told line 3: unit frame dropped: consecutive frame late",
]


def frames_without_part(program):
    """After such a frame a reception goes on a second after its first frame, and is late a microsecond later. What is counted of a
    late frame, the table of them says."""
    of_late_frame = next(row.said() for row in tables.table("late_frames") if row.name == "late by one microsecond")
    for row in tables.table("frames_without_part"):
        for late, (end, said) in enumerate([(IS_OPEN, {"unfinished": 1}), (IS_LATE, of_late_frame)]):
            counts = Counter(said) + Counter(dropped=len(row.texts("told")))
            counted = "counts " + " ".join(f"{name}={number}" for name, number in counts.items())
            lines = [f"{mark} {text}" for mark, text in row.lines]
            whole = Row(row.name, [FIRST, *lines, NEXT.format(late=late), *end, counted])
            name = f"frames_without_part: {row.name}, {['on time', 'late'][late]}"
            yield name, partial(session, program, whole)


# --- Names ------------------------------------------------------------------------------------------------------------------


def names_listed(program):
    yield "each service is listed by its name", partial(services_named, program, names_in("services"))
    yield "each response code is listed by its name", partial(codes_named, program, names_in("response_codes"))


def names_in(table):
    """The names of a table, by their bytes."""
    return {int(byte, 16): name for byte, _, name in (row.partition(" ") for row in tables.lines(table))}


def services_named(program, services):
    """A request of each byte without bit 6, with bit 7 of its second byte and without it: with it a request for a service that
    has a sub-function asks for no answer."""
    wrong = []
    for second in [0x7F, 0x81]:
        frames, items = [], []
        for sid in (sid for sid in range(256) if not sid & 0x40):
            name, _, has_sub_function = services.get(sid, f"service_{sid:02X}").partition(", ")
            frames.append(f"7E0#02{sid:02X}{second:02X}")
            outcome = "silent" if second & 0x80 and has_sub_function else "unanswered"
            items.append(f"exchange {name} {sid:02X}{second:02X} -> {outcome}")
        wrong += listed(program, frames, items)
    return wrong


def codes_named(program, codes):
    """A negative response of each code but 78."""
    frames, items = [], []
    for code in (code for code in range(256) if code != 0x78):
        frames += ["7E0#0322F190", f"7E8#037F22{code:02X}"]
        items.append(f"exchange ReadDataByIdentifier 22F190 -> negative {codes.get(code, f'code_{code:02X}')} 7F22{code:02X}")
    return listed(program, frames, items)


def listed(program, frames, items):
    """A log of these frames has these items."""
    log = b"".join(tables.stamped(number, frame) for number, frame in enumerate(frames))
    text = "".join(f"{number} {item}\n" for number, item in enumerate(items, 1))
    found = taken(program, log)
    return found.wrong + differences("list", found.listed, Ended(DONE, text.encode(), b""))


# --- Limits and configurations ----------------------------------------------------------------------------------------------


def limits(program):
    for name in ["limits_nothing_written", "limits_written", "limits_of_extended_identifiers"]:
        for row in tables.table(name):
            yield f"{name}: {row.name}", partial(under_limits, program, row)
    for name, job, mark in [("explained_under_limits", "explain", "told"), ("placed_under_limits", "messages", "placed")]:
        for row in tables.table(name):
            yield f"{name}: {row.name}", partial(told_under_limits, program, job, mark, row)


def under_limits(program, row):
    """Under each limit of a row it is told as the row has it how a log ends, and how many bytes of its canonical log are
    written."""
    wrong = []
    for limit in limits_of(row):
        found = taken(program, row.log(), [*sides(row), "--limit", limit])
        wrong += found.wrong + limited(row, limit, found.normalised, row.canonical(), accepted(found))
    return wrong


def accepted(found):
    """What a row tells of an accepted log."""
    counts = counts_in(found.explained.output) if found.normalised.status == DONE else None
    return "accepted, {messages} messages, {dropped} dropped".format(**counts) if counts else ""


def told_under_limits(program, job, mark, row):
    """The same of the text that a job without a canonical log writes, which is in the row with this mark."""
    wrong = []
    for limit in limits_of(row):
        found = program.run([job, "--limit", limit], row.log())
        wrong += differences("byte by byte", program.run_short([job, "--limit", limit], row.log()), found)
        wrong += limited(row, limit, found, row.text(mark), "accepted" if found.status == DONE else "")
    return wrong


def limits_of(row):
    return [text.partition(",")[0] for text in row.texts("limit")]


def limited(row, limit, ended, text, accepted=""):
    """A job ended as a line of the row says, and wrote a front of this text. An accepted log has nothing on standard error."""
    told = f"{limit}, {len(ended.output)} bytes: {accepted}{ended.error.decode().removesuffix(chr(10))}"
    wrong = [] if told in row.texts("limit") else [f"told {told}"]
    wrong += differences("status", ended.status, DONE if accepted else REFUSAL)
    return wrong + differences(f"written under {limit}", ended.output, text[: len(ended.output)])


def strict_runs(program):
    for row in tables.table("unclean_logs"):
        yield f"unclean_logs: {row.name}", partial(strictly, program, row)


def strictly(program, row):
    """Each job writes of a log that has to be clean what it writes otherwise, and then tells what the row says."""
    log, wrong = row.log(), []
    told = b"".join(f"not clean: {text}\n".encode() for text in row.texts("lacks"))
    for job in [*commands.over_one_log(program.path, "--strict"), "list --json", "messages --json", "watch --no-numbers"]:
        words = job.split(" ")
        want = Ended(UNCLEAN if told else DONE, program.run(words, log).output, told)
        wrong += differences(job, program.run([*words, "--strict"], log), want)
        wrong += differences(f"{job} byte by byte", program.run_short([*words, "--strict"], log), want)
    return wrong


def configurations(program):
    for row in tables.lines("configurations"):
        yield f"configurations: {row}", partial(configured, program, *row.split(" ", 3))


def configured(program, tester, unit, limit, answer):
    """There is a configuration, with which an empty log is accepted, or this is told."""
    found = program.run(["list", "--tester", tester, "--unit", unit, "--limit", limit])
    is_accepted = answer == "accepted"
    return differences("list", found, Ended(DONE, b"", b"") if is_accepted else Ended(WORDS, b"", f"{answer}\n".encode()))


# --- Comparisons ------------------------------------------------------------------------------------------------------------


def comparisons(program):
    for name in ["comparisons", "refused_comparisons", "strict_comparisons", "shown_comparisons", "comparison_objects"]:
        for row in tables.table(name):
            yield f"{name}: {row.name}", partial(compared, program, row)
    yield "the right log is left alone where the left one is refused", partial(left_alone, program)
    for row in tables.table("differences"):
        yield f"differences: {row.name}", partial(differed, program, row)


def compared(program, row):
    """Two logs are compared as the row has it. Accepted ones also the other way round, and each with itself."""
    left, right, found = row.side("left"), row.side("right"), row.text("found")
    options = [word for limit in row.texts("limit") for word in ("--limit", limit)]
    options += [word for text in row.texts("with") for word in text.split(" ")]
    if row.has("status"):
        [status], output, error = row.texts("status"), row.text("found"), row.text("told")
        answers = [(left, right, Ended(int(status), output, error))]
    elif found == b"same\n" or found.startswith(b"different "):
        pairs = [(left, right, found), (right, left, found), (left, left, b"same\n"), (right, right, b"same\n")]
        answers = [(one, other, Ended(DONE if text == b"same\n" else DIFFERENT, text, b"")) for one, other, text in pairs]
    else:
        answers = [(left, right, Ended(REFUSAL, b"", found))]
    wrong = []
    for one, other, answer in answers:
        with files(one, other) as words:
            wrong += differences("compare", program.run(["compare", *options, *words]), answer)
            wrong += differences("byte by byte", program.run_short(["compare", *options, *words]), answer)
    return wrong


def differed(program, row):
    """What `diff` writes of two logs in files of the names that the row has, and what it tells."""
    words = sorted((word for text in row.texts("with") for word in text.split(" ")), key=lambda word: word != "diff")
    [status] = row.texts("status")
    with tempfile.TemporaryDirectory() as folder:
        for side in ("left", "right"):
            Path(folder, f"{side}.log").write_bytes(row.side(side))
        found = program.run(words, cwd=folder)
    return differences("diff", found, Ended(int(status), row.text("found"), row.text("told")))


def left_alone(program):
    line = b"(1.000000) can0 7E0#0\n"
    with files(line, b"") as (left, _), pipe(line) as right:
        found = program.run(["compare", left, "/dev/stdin"], stdin=right)
        rest = right.read()
    want = Ended(REFUSAL, b"", b"left: " + place(1, 22))
    return differences("compare", (found, rest), (want, line))


# --- One message in many recordings -----------------------------------------------------------------------------------------

# Lengths of messages, and how many lines their canonical logs have.
LENGTHS = {8: 3, 13: 3, 14: 4, 4095: 587, 4096: 587, 65535: 9364, 65536: 9364}

def recordings(program):
    for size, shortest in SIZES.items():
        for length in [shortest, 4094, 4095, 4096, 65_535]:
            yield f"a message of {length} bytes in frames of {size}", partial(sent_in_each_style, program, length, size)
    yield "the longest message in frames of 64", partial(sent_in_each_style, program, 1_048_575, 64)
    for length, lines in LENGTHS.items():
        yield f"the canonical log of a message of {length} bytes", partial(is_its_own, program, length, lines)


def sent_in_each_style(program, length, size):
    """However its frames are padded, a recording of a message has the message's canonical log, and the message stands in its
    first and its last line."""
    message, wrong = message_of(length), []
    canonical = recorded(CANONICAL, message)
    for style in itertools.starmap(partial(Style, size), itertools.product([b"\x00", b"\xff"], [False, True])):
        log = recorded(style, message)
        wrong += differences(f"{style}", program.run(["normalise"], log), Ended(DONE, canonical, b""))
        wrong += differences(f"explain {style}", program.run(["explain"], log), Ended(DONE, counts_line(log, canonical), b""))
        text = placed_line(1, "stray", oracle.UNIT, 1, log.count(b"\n"), message.hex().upper())
        wrong += differences(f"messages {style}", program.run(["messages"], log), Ended(DONE, text, b""))
    return wrong


def is_its_own(program, length, lines):
    """The canonical log of a message has this number of lines and is its own at a limit of its length, where the message is
    listed; with a byte less it is too long."""
    message = message_of(length)
    canonical = recorded(CANONICAL, message)
    at_limit = taken(program, canonical, ["--limit", str(len(canonical))])
    below = taken(program, canonical, ["--limit", str(len(canonical) - 1)])
    item = f"1 stray unit {message.hex().upper()}\n".encode()
    return [
        *differences("bytes", len(at_limit.normalised.output), lines * CANONICAL_LINE),
        *at_limit.wrong,
        *differences("normalise", at_limit.normalised, Ended(DONE, canonical, b"")),
        *differences("explain", at_limit.explained, Ended(DONE, counts_line(canonical, messages=1), b"")),
        *differences("list", at_limit.listed, Ended(DONE, item, b"")),
        *below.wrong,
        *differences("a byte below", how(below.normalised), (REFUSAL, LONG_LOG)),
    ]


# --- Logs of many lines -----------------------------------------------------------------------------------------------------


def long_logs(program):
    byte_rows = Row("frames of one byte are all dropped", frames_of_one_byte())
    start_rows = Row("each first frame ends the one before", first_frames())
    for row in [byte_rows, start_rows]:
        yield row.name, partial(session, program, row)
    yield "thousands of frames that wait for an answer", partial(thousands_of_strays, program)
    yield "thousands of frames of exchanges", partial(thousands_of_exchanges, program)


def frames_of_one_byte():
    kinds = ["single frame length", "first frame length", "consecutive frame unexpected", "flow control too short"]
    for byte in range(256):
        yield f"line (1.000000) can0 7E8#{byte:02X}"
        yield f"told line {byte + 1}: unit frame dropped: {kinds[byte // 16] if byte < 64 else 'unknown kind'}"
    yield "counts dropped=256"


def first_frames():
    for begun in range(1, 1001):
        yield "line (1.000000) can0 7E8#1FFF414243444546"
        reception = f"unit reception from line {begun} of 4095 bytes"
        yield f"told line {begun + 1}: {reception} ended: new start" if begun < 1000 else f"told end: {reception} unfinished"
    yield "counts ended=999 unfinished=1"


def thousands_of_strays(program):
    """A request, thousands of strays of the unit, and the answer, which is written before them. The canonical log means the
    same."""
    strays = 2000 * b"(1.000000) can0 7E8#0759595959595959\n"
    log = b"(1.000000) can0 7E0#0322F190\n" + strays + b"(1.000000) can0 7E8#0462F19041\n"
    found = taken(program, log)
    with files(log, found.normalised.output) as names:
        same = program.run(["compare", *names])
    return [
        *found.wrong,
        *differences("how normalise ends", how(found.normalised), (DONE, b"")),
        *differences("bytes", len(found.normalised.output), 92_092),
        *differences("the second line", found.normalised.output[46:92], b"(0000000000.001000) can0 7E8#0462F19041CCCCCC\n"),
        *differences("explain", found.explained, Ended(DONE, counts_line(log, messages=2002), b"")),
        *differences("items", found.listed.output.count(b"\n"), 2001),
        *differences("compare", same, Ended(DONE, b"same\n", b"")),
    ]


def thousands_of_exchanges(program):
    frames = ["7E0#0322F190", "7E8#100862F190414243", "7E0#300000", "7E8#214445"]
    log = b"".join(tables.stamped(number, frame) for number, frame in enumerate(500 * frames))
    return differences("explain", program.run(["explain"], log), Ended(DONE, counts_line(log, messages=1000), b""))


# ----------------------------------------------------------------------------------------------------------------------------


def answer_of(check):
    """What is wrong by a check, and what it asked. An answer that it can't read is wrong, too."""
    forget()
    try:
        wrong = check()
    except (LookupError, ValueError) as error:
        wrong = [f"an answer that can't be read: {error!r}"]
    return wrong, asked_in_vain() if wrong else []


def main():
    if len(sys.argv) < 2:
        sys.exit(__doc__)
    cases = Cases(os.path.abspath(sys.argv[1]), sys.argv[2:])
    with tempfile.TemporaryDirectory() as folder, ProcessPoolExecutor() as workers:
        program = Program(cases.program, Refuser(folder))
        tests = cases.chosen([
            sessions, places, pages, commands_of_rows, decided_items, pairs_found, logs_without_message, frames_without_part, refused_lines, recording_that_breaks_off, names_listed,
            limits, strict_runs, configurations, comparisons, recordings, long_logs, devices,
        ])
        of_tests, names, checks = zip(*((test.__name__, *case) for test in tests for case in test(program)))
        if not cases.named:
            cases.report("each table of rows/ is taken", [f"{name} is not" for name in tables.left()])
        failing = []
        for test, name, (wrong, last) in zip(of_tests, names, workers.map(answer_of, checks)):
            asked.extend(last)
            cases.report(name, wrong)
            failing += [test] if wrong and test not in failing else []
    for test in failing:
        cases.tell_alone(test)
    cases.end()


main()
