#!/usr/bin/env python3
"""`diff` of the built program over two logs: the second reading by a table of rows/, random sessions by that reading, under rules, too,
what GNU diff writes of the same places, and what patch makes of the text.

    tests/program/differences.py crates/udsnorm/out/udsnorm [TEST..]

Prints a line for each case and ends with `N passed, M failed`; its status is 1 where a case failed.
"""

import itertools
import json
import os
import random
import re
import subprocess
import sys
import tempfile
from functools import partial
from pathlib import Path

sys.path.insert(0, str(Path(__file__).resolve().parents[1] / "helpers"))

import difference_oracle
import oracle
import profiles
import tables
from cases import DEVICE, DIFFERENT, DONE, WORDS, Cases
from difference_oracle import ADDED, CHANGED, REMOVED, SAME
from random_logs import mutated
from runs import Ended, differences
from told import WRITE_FAILED

# The names of the files in the folder of a case.
LEFT, RIGHT = "left.log", "right.log"
NAMES = (LEFT.encode(), RIGHT.encode())


def written(folder, left, right, names=(LEFT, RIGHT)):
    """Two logs in files of these names."""
    for name, log in zip(names, (left, right)):
        (folder / name).write_bytes(log)


def log_of(items):
    """A log of these items, each message of up to seven bytes."""
    return log_of_messages(itertools.chain.from_iterable(messages_of(item) for item in items))


def log_of_messages(messages):
    frames = (f"{sender}#{len(message):02X}{message.hex().upper()}" for sender, message in messages)
    return b"".join(tables.stamped(number, frame) for number, frame in enumerate(frames))


def messages_of(item):
    if isinstance(item, oracle.Stray):
        return [("7E0" if item.direction == oracle.TESTER else "7E8", item.message)]
    answers = [] if item.answer is None else [("7E8", item.answer)]
    return [("7E0", item.request), *answers]


def reading(number, value=None):
    """An exchange that reads a value."""
    request = bytes([0x22]) + number.to_bytes(2, "big")
    return oracle.Exchange(request, None if value is None else b"\x62" + request[1:] + value.to_bytes(3, "big"))


def stray(number):
    return oracle.Stray(oracle.UNIT, bytes([number]))


# --- The table --------------------------------------------------------------------------------------------------------------


def rows(cases):
    """What the second reading has of each row, of which sessions.py tries the program."""
    for row in tables.table("differences"):
        words = [word for text in row.texts("with") for word in text.split(" ")]
        [status] = row.texts("status")
        want = Ended(int(status), row.text("found"), row.text("told"))
        cases.report(row.name, differences("by the second reading", second_reading(words, row.side("left"), row.side("right")), want))


def second_reading(words, left, right):
    write = difference_oracle.difference_objects if "--json" in words else difference_oracle.difference_text
    came = difference_oracle.differed(left, right, NAMES, is_strict="--strict" in words, write=write)
    return Ended(came.status, came.written, f"{came.fault}\n".encode() if came.fault else b"")


# --- Random sessions --------------------------------------------------------------------------------------------------------


def random_items(rng, pool, most):
    return [rng.choice(pool) for _ in range(rng.randrange(most + 1))]


def random_pair(rng):
    """Two lists of items, the second one mostly the first with some of them changed, left out, put in or moved."""
    pool = [reading(number, value) for number in range(rng.choice((1, 3, 40))) for value in (None, 1, 2)]
    pool += [stray(number) for number in range(1, rng.choice((1, 3)))] + [oracle.Stray(oracle.TESTER, b"\x3e\x80")]
    ours = random_items(rng, pool, rng.choice((0, 2, 9, 40)))
    if rng.random() < 0.3:
        return ours, random_items(rng, pool, 12)
    theirs = list(ours)
    for _ in range(rng.choice((0, 1, 1, 2, 5))):
        at = rng.randrange(len(theirs) + 1)
        change = rng.randrange(3)
        theirs[at : at + (change != 1)] = [] if change == 0 else [rng.choice(pool)]
    return ours, theirs


def random_sessions(cases, count=400):
    """Text and objects of random sessions by the second reading; what GNU diff writes of the same places; and patch."""
    rng = random.Random(1)
    with tempfile.TemporaryDirectory() as name:
        folder = Path(name)
        for number in range(count):
            logs = [log_of(items) for items in random_pair(rng)]
            if rng.random() < 0.1:
                logs[1] = mutated(rng, logs[1])
            wrong = session_wrong(cases, folder, *logs)
            if wrong or number % 50 == 49:
                cases.report(f"random sessions up to {number + 1}", wrong)


def session_wrong(cases, folder, left, right):
    written(folder, left, right)
    wrong = []
    for words in ([], ["--json"]):
        found = cases.run(["diff", *words, LEFT, RIGHT], cwd=folder)
        wrong += differences(f"diff {words}", found, second_reading(words, left, right))
    text = cases.run(["diff", LEFT, RIGHT], cwd=folder)
    if text.status in (DONE, DIFFERENT):
        wrong += by_gnu(folder, text.output.decode(), *map(lines, (left, right)))
    return wrong


def lines(log):
    return difference_oracle.lines_of(oracle.items_of(oracle.cut(log)))


def script_of(text, count):
    """The rows that a unified text tells of a list of so many lines: what its hunks say, and between them all is the same."""
    found, at = [], 0
    for line in text.splitlines():
        header = re.match(r"@@ -(\d+)(?:,(\d+))? ", line)
        if header:
            begin = int(header[1]) - (header[2] != "0")
            found += [SAME] * (begin - at)
            at = begin
        elif line[:3] not in ("---", "+++") and line[:1] != "#":
            found.append({" ": SAME, "-": REMOVED, "+": ADDED}[line[0]])
            at += line[0] != "+"
    return found + [SAME] * (count - at)


def by_gnu(folder, text, ours, theirs):
    """What is wrong with a text by GNU's tools."""
    lists = folder / "lists"
    lists.mkdir(exist_ok=True)
    written(lists, "".join(ours).encode(), "".join(theirs).encode())
    wrong = []
    # GNU's hunks of GNU's script are those of the second reading, and the program's hunks of the program's script are, too.
    labels = ["--label", LEFT, "--label", RIGHT]
    gnu = subprocess.run(["diff", "-d", "-U3", *labels, LEFT, RIGHT], cwd=lists, capture_output=True, text=True).stdout
    for name, found in (("GNU's text", gnu), ("the text", text)):
        want = difference_oracle.unified(ours, theirs, NAMES, script_of(found, len(ours)))
        wrong += differences(f"{name}, of its own script", found, want)
    changes = [sum(row != SAME for row in script_of(found, len(ours))) for found in (text, gnu)]
    if changes[0] > changes[1]:
        wrong.append(f"a script of {changes[0]} edits, and GNU's has {changes[1]}")
    if text:
        wrong += patched(lists, text, LEFT, theirs) + patched(lists, text, RIGHT, ours, "-R")
    return wrong


def patched(folder, text, name, want, *words):
    """What is wrong with what patch makes of a list, without fuzz and without an offset."""
    made = folder / "made"
    command = ["patch", *words, "--fuzz=0", "-o", made.name, name]
    found = subprocess.run(command, cwd=folder, input=text.encode(), capture_output=True)
    wrong = differences(f"patch {words}", (found.returncode, made.read_bytes()), (0, "".join(want).encode()))
    if b"offset" in found.stdout or b"fuzz" in found.stdout:
        wrong.append(f"patch {words}: {found.stdout!r}")
    return wrong


# --- Rules ------------------------------------------------------------------------------------------------------------------

PROFILE = "p.toml"


def notes(cases):
    """A note for each rule, in their order, before any other note, with its digits in upper case, and one message in the singular;
    and what was left out behind the counts. Where nothing differs there is no note."""
    alive, pending = ("7E0", b"\x3e\x80"), ("7E8", b"\x7f\x22\x78")
    ours = log_of_messages([alive, ("7E0", b"\x22\xf1\x90"), pending, ("7E8", b"\x62\xf1\x90\x01"), ("7E0", b"\x22\xf1\x91")])
    theirs = log_of_messages([("7E0", b"\x22\xf1\x90"), ("7E8", b"\x62\xf1\x90\x02"), alive, alive])
    rules = 'drop = ["3e"]\nmask = ["62F190..", "22f1b7..*"]\n'
    header = "--- left.log\n+++ right.log\n"
    for name, text, written_text, objects in [
        ("drops and masks", rules, "# drop 3E: 1 message of A, 2 of B\n# mask 62F190..: 1 message of A, 1 of B\n# mask 22F1B7..*: 0 messages of A, 0 of B\n"
            f"{header}@@ -1,2 +1 @@\n exchange ReadDataByIdentifier 22F190 -> positive 62F190..\n-exchange ReadDataByIdentifier 22F191 -> unanswered\n",
            '{"same":1,"removed":1,"added":0,"changed":0,"shortest":true,"left_out":[1,2]}\n'),
        ("a pending reply counts", 'drop = ["7F2278", "3E80"]', "# drop 7F2278: 1 message of A, 0 of B\n# drop 3E80: 1 message of A, 2 of B\n"
            f"{header}@@ -1,2 +1 @@\n-exchange ReadDataByIdentifier 22F190 -> positive 62F19001\n-exchange ReadDataByIdentifier 22F191 -> unanswered\n"
            "+exchange ReadDataByIdentifier 22F190 -> positive 62F19002\n",
            '{"same":0,"removed":1,"added":0,"changed":1,"shortest":true,"left_out":[2,2]}\n'),
        ("nothing differs", 'drop = ["3E", "7F2278", "62F190", "22F191"]', "", '{"same":1,"removed":0,"added":0,"changed":0,"shortest":true,"left_out":[4,3]}\n'),
        ("masks alone leave nothing out", 'mask = ["2E..", "62F190*"]', None, ',"left_out":[0,0]}\n'),
        ("no rules", "drop = []\n", None, ',"shortest":true}\n'),
    ]:
        with tempfile.TemporaryDirectory() as folder:
            written(Path(folder), ours, theirs)
            Path(folder, PROFILE).write_text(text)
            found, told = (cases.run(["diff", "--profile", PROFILE, *words, LEFT, RIGHT], cwd=folder) for words in ([], ["--json"]))
            wrong = [] if told.output.decode().endswith(objects) else [f"{told.output!r} does not end with {objects!r}"]
            if written_text is not None:
                wrong += differences("the text", found, Ended(DIFFERENT if written_text else DONE, written_text.encode(), b""))
            cases.report(f"notes: {name}", wrong)


def pended(rng, items):
    """A log of these items, where some answers are announced before."""
    messages = []
    for item in items:
        first, *rest = messages_of(item)
        announced = [("7E8", b"\x7f" + first[1][:1] + b"\x78")] * (rng.randrange(3) if rest else 0)
        messages += [first, *announced, *rest]
    return log_of_messages(messages)


def under_rules(cases, count=300):
    """Text and objects of random sessions under random rules by the second reading; patch passes the notes over."""
    rng = random.Random(2)
    with tempfile.TemporaryDirectory() as name:
        folder = Path(name)
        for number in range(count):
            pair = random_pair(rng)
            logs = [pended(rng, items) for items in pair]
            if rng.random() < 0.1:
                logs[1] = mutated(rng, logs[1])
            wrong = ruled_wrong(cases, folder, profiles.random_profile(rng, rng.choice(logs)), *logs)
            if wrong or number % 50 == 49:
                cases.report(f"random sessions under rules up to {number + 1}", wrong)


def ruled_wrong(cases, folder, text, left, right):
    written(folder, left, right)
    (folder / PROFILE).write_bytes(text)
    rules, wrong = profiles.read(text).rules, []
    for words, write in (([], difference_oracle.difference_text), (["--json"], difference_oracle.difference_objects)):
        found = cases.run(["diff", "--profile", PROFILE, *words, LEFT, RIGHT], cwd=folder)
        came = difference_oracle.differed_under(rules, left, right, NAMES, write)
        want = Ended(came.status, came.written, f"{came.fault}\n".encode() if came.fault else b"")
        wrong += differences(f"diff {words} under {text}", found, want)
    found = cases.run(["diff", "--profile", PROFILE, LEFT, RIGHT], cwd=folder)
    if found.status == DIFFERENT:
        ours, theirs = (difference_oracle.lines_of(profiles.items_under(rules, oracle.cut(log))) for log in (left, right))
        lists = folder / "lists"
        lists.mkdir(exist_ok=True)
        written(lists, "".join(ours).encode(), "".join(theirs).encode())
        wrong += patched(lists, found.output.decode(), LEFT, theirs) + patched(lists, found.output.decode(), RIGHT, ours, "-R")
    return wrong


# --- The bound --------------------------------------------------------------------------------------------------------------


def beyond_the_bound(cases):
    """Of sessions of which a shortest script would be longer than the bound the text says so, and leads to the right list all the
    same. Where the bound is just kept, it says nothing."""
    head = [reading(0x1000, 1)]
    for count, is_passed in ((1000, False), (1001, True)):
        ours = [*head, *(reading(number, 1) for number in range(count)), stray(1)]
        theirs = [*head, *(reading(number, 2) for number in range(count)), stray(1)]
        with tempfile.TemporaryDirectory() as name:
            folder = Path(name)
            logs = log_of(ours), log_of(theirs)
            written(folder, *logs)
            found = cases.run(["diff", LEFT, RIGHT], cwd=folder)
            note, text = divide(found.output.decode())
            said = "# perhaps not the shortest: more than 2000 items would be removed or added\n" if is_passed else ""
            wrong = differences("status and note", (found.status, note), (DIFFERENT, said))
            lists = folder / "lists"
            lists.mkdir()
            written(lists, *("".join(difference_oracle.lines_of(items)).encode() for items in (ours, theirs)))
            wrong += patched(lists, note + text, LEFT, difference_oracle.lines_of(theirs))
            (folder / PROFILE).write_text('drop = ["3E"]')
            ruled = cases.run(["diff", "--profile", PROFILE, LEFT, RIGHT], cwd=folder)
            wrong += differences("notes under rules", ruled.output.decode(), f"# drop 3E: 0 messages of A, 0 of B\n{note}{text}")
            objects = [json.loads(line) for line in cases.run(["diff", "--json", LEFT, RIGHT], cwd=folder).output.splitlines()]
            counts = {SAME: 2, REMOVED: 0, ADDED: 0, CHANGED: count, "shortest": not is_passed}
            wrong += differences("the counts", objects[-1], counts)
            wrong += differences("the objects", [found["change"] for found in objects[:-1]], [CHANGED] * count)
            cases.report(f"{count} answers that differ", wrong)


def divide(text):
    """The note of a text, if it has one, and the rest."""
    note = re.match(r"(#.*\n)?", text)[0]
    return note, text[len(note) :]


# --- Names ------------------------------------------------------------------------------------------------------------------

HOSTILE = [
    b"plain.log", b"with space.log", b"tab\there", b"new\nline", b'quo"te', b"back\\slash", b"it's", b"$(x)", b"<b>",
    b"--- a", b"@@ -1 +1 @@", b"red\x1b[31m", "\u00e4.log".encode(), "\u202egol.txt".encode(), b" before", b"behind ", b"\x7f",
]  # fmt: skip


def names(cases):
    """A name is as it is given where it is plain, and else quoted: patch reads it back, and no byte of it begins a line."""
    ours, theirs = [stray(1), stray(2)], [stray(1), stray(3)]
    for name in HOSTILE:
        with tempfile.TemporaryDirectory() as folder:
            top, lists = Path(folder, "logs"), Path(folder, "lists")
            top.mkdir()
            lists.mkdir()
            (top / os.fsdecode(name)).write_bytes(log_of(ours))
            (top / RIGHT).write_bytes(log_of(theirs))
            found = cases.run(["diff", "--", os.fsdecode(name), RIGHT], cwd=top)
            came = difference_oracle.differed(log_of(ours), log_of(theirs), (name, NAMES[1]))
            wrong = differences("diff", found, Ended(DIFFERENT, came.written, b""))
            (lists / os.fsdecode(name)).write_text("".join(difference_oracle.lines_of(ours)))
            # Both headers have the name, so that patch goes by it.
            text = found.output.replace(b"+++ " + NAMES[1], b"+++ " + difference_oracle.label(name).encode())
            patch = subprocess.run(["patch", "-p0", "--fuzz=0"], cwd=lists, input=text, capture_output=True)
            made = (lists / os.fsdecode(name)).read_text()
            wrong += differences("patch", (patch.returncode, made), (0, "".join(difference_oracle.lines_of(theirs))))
            cases.report(f"a log named {name!r}", wrong)


# --- As compare -------------------------------------------------------------------------------------------------------------


def as_compare(cases):
    """Statuses and faults are those of `compare`, in the same order; nothing is written of a refused log."""
    good, bad, oversize = log_of([stray(1)]), b"x\n", b"(1.000000) can0 7E0#10000010000041FF\n"
    pairs = itertools.product((good, bad, oversize, b""), repeat=2)
    for (left, right), words in itertools.product(pairs, ([], ["--strict"], ["--json"], ["--limit", "30"], ["--limit", "0"])):
        with tempfile.TemporaryDirectory() as folder:
            written(Path(folder), left, right)
            compared, found = (cases.run([job, *words, LEFT, RIGHT], cwd=folder) for job in ("compare", "diff"))
            wrong = differences("status and fault", (found.status, found.error), (compared.status, compared.error))
            if found.status not in (DONE, DIFFERENT):
                wrong += differences("what is written", found.output, b"")
            cases.report(f"{left!r} and {right!r} {words}", wrong)
    with tempfile.TemporaryDirectory() as folder:
        written(Path(folder), good, bad)
        for given in (["none", RIGHT], [LEFT, "none"], ["/dev/stdin", "/dev/stdin"], [LEFT], [LEFT, RIGHT, LEFT], ["--show", LEFT, LEFT]):
            compared, found = (cases.run([job, *given], cwd=folder) for job in ("compare", "diff"))
            if found.status == WORDS and "--show" in given:
                compared = compared._replace(status=WORDS, output=b"", error=found.error)
            want = compared.status, compared.output, compared.error.replace(b"compare", b"diff")
            cases.report(f"diff {given}", differences("diff", found, Ended(*want)))


def failing_output(cases):
    """A text that can't be written is a failed write."""
    with tempfile.TemporaryDirectory() as folder, open("/dev/full", "wb") as full:
        written(Path(folder), log_of([stray(1)]), log_of([stray(2)]))
        run = partial(cases.run, cwd=folder, stdout=full)
        cases.case("a full disk for a difference", run(["diff", LEFT, RIGHT]), DEVICE, None, WRITE_FAILED)
        cases.case("nothing to write on a full disk", run(["diff", LEFT, LEFT]), DONE, None, b"")


def main():
    program, *named = sys.argv[1:]
    cases = Cases(os.path.abspath(program), named)
    cases.each([rows, random_sessions, notes, under_rules, beyond_the_bound, names, as_compare, failing_output])
    cases.end()


if __name__ == "__main__":
    main()
