#!/usr/bin/env python3
"""Tests of the Python package udsnorm beside the program.

    tests/library/python_package.py crates/udsnorm/out/udsnorm out/lib [TEST..] [--logs NUMBER] [--seed NUMBER]

Where `python3 -m pip` is there, the wheel is installed into a fresh environment and used there; where mypy is, the
package and typed code that uses it are checked. What is missing is named. The status is 1 where a test failed.
"""

import argparse
import array
import ast
import copy
import ctypes
import importlib
import json
import os
import pickle
import random
import re
import shutil
import subprocess
import sys
import tempfile
import threading
import time
import unittest
import unittest.mock
from collections import Counter
from pathlib import Path

sys.path.insert(0, str(Path(__file__).resolve().parents[1] / "helpers"))

import header
import profiles
import tables
from cases import DIFFERENT, DONE, REFUSAL
from random_logs import limit_for, mutated, random_logs
from runs import files, run
from unit_tests import run_tests

TOP = Path(__file__).resolve().parents[2]
PACKAGE = TOP / "python"
EXAMPLES = TOP / "examples"
VIN = EXAMPLES / "vin.log"
CANONICAL = EXAMPLES / "vin.canonical"
EXTENDED = 1 << 31

sys.path.insert(0, str(PACKAGE))

# What the tests are given: the program, the folder of the library, how many random logs, and from where.
given = argparse.Namespace()


def imported(folder):
    """The package over the library of a folder: one that is loaded is found by its name."""
    ctypes.CDLL(str(folder / "libudsnorm.so"))
    return importlib.import_module("udsnorm")


def sides_of(session):
    """The settings of a row, for the package and for the program."""
    sides = dict(zip(("tester", "unit"), session.sides()))
    numbers = {name: int(digits, 16) | (EXTENDED if len(digits) == 8 else 0) for name, digits in sides.items()}
    return numbers, [word for name, digits in sides.items() for word in (f"--{name}", digits)]


def shown(item, part):
    """The bytes of a part of an item or a message, as its text has them."""
    return re.search(rf"\b{part}=([^,)]*)", str(item))[1]


def listed(item):
    """The line of `list --no-numbers` for an item."""
    if isinstance(item, udsnorm.Stray):
        return f"stray {item.direction} {shown(item, 'message')}"
    words = ["exchange", item.service, shown(item, "request"), "->", item.outcome]
    return " ".join([*words, *filter(None, [item.code]), *([shown(item, "answer")] if item.answer else [])])


def placed(message):
    """The line of `messages` for a message."""
    begin, end = (f"{time // 10**6}.{time % 10**6:06}" for time in (message.begin, message.end))
    lines = f"lines {message.first_line} to {message.last_line}"
    return f"{message.item} {message.role} {message.direction} {lines} at {begin} to {end} {shown(message, 'message')}"


def paired(pair):
    """The object of `find` for a pair."""
    sides = [side for side in (pair.tester, pair.unit, pair.functional) if side is not None]
    digits = [f"{side & ~EXTENDED:0{8 if side & EXTENDED else 3}X}" for side in sides]
    told = "".join(f',"{key}":"{text}"' for key, text in zip(("tester", "unit", "functional"), digits))
    return f'{{"credits":{pair.credits},"requests":{pair.requests}{told}}}'


def told_of(refused):
    """The line that the program tells of a log that is refused, which does not name its file."""
    return f"{refused}\n".replace(f"{refused.file}: ", "")


CALLS = {
    "normalise": (["normalise"], lambda log, **settings: udsnorm.normalise(log, **settings).decode()),
    "list": (["list", "--no-numbers"], lambda log, **settings: "".join(f"{listed(item)}\n" for item in udsnorm.items(log, **settings))),
    "messages": (["messages"], lambda log, **settings: "".join(f"{placed(one)}\n" for one in udsnorm.messages(log, **settings))),
    "explain": (["explain"], lambda log, **settings: udsnorm.explain(log, **settings).text),
    "report": (["report"], lambda log, **settings: udsnorm.report(log, name="standard input", **settings).decode()),
}


class BesideTheProgram(unittest.TestCase):
    """What the program writes and tells of a log, and what the package answers."""

    def same(self, log, settings, words):
        for name, (command, call) in CALLS.items():
            found = run(given.program, [*command, *words], log)
            with self.subTest(call=name, log=log[:200]):
                try:
                    text = call(log, **settings)
                except udsnorm.Refused as refused:
                    self.assertEqual((REFUSAL, f"{refused}\n"), (found.status, found.error.decode()))
                else:
                    self.assertEqual((DONE, text), (found.status, found.output.decode()))
                    if name == "explain":
                        status = run(given.program, [*command, "--strict", *words], log).status
                        counts = udsnorm.explain(log, **settings).counts
                        self.assertEqual(counts.clean, status == DONE)
                        hinted = run(given.program, [*command, "--hints", *words], log).error
                        self.assertEqual(counts.exchanged, b"look exchanged" in hinted)

    def same_difference(self, left, right, settings, words):
        with files(left, right) as names:
            found = run(given.program, ["compare", *words, *names])
            self.same_page(names, (left, right), settings, words)
            self.same_rows(names, (left, right), settings, words)
        try:
            difference = udsnorm.compare(left, right, **settings)
        except udsnorm.Refused as refused:
            self.assertEqual((REFUSAL, f"{refused}\n"), (found.status, found.error.decode()))
            return
        want = f"different at item {difference.item}\n" if difference else "same\n"
        self.assertEqual((DIFFERENT if difference else DONE, want), (found.status, found.output.decode()))
        if difference:
            self.assertNotEqual(difference.left, difference.right)

    def same_rows(self, names, logs, settings, words):
        """What stands beside what, as `diff` writes it, and the items of both logs in its rows."""
        found, objects = (run(given.program, ["diff", *words, *more, *names]) for more in ([], ["--json"]))
        try:
            told = udsnorm.diff(*logs, names=tuple(map(str, names)), **settings)
        except udsnorm.Refused as refused:
            self.assertEqual((REFUSAL, f"{refused}\n"), (found.status, found.error.decode()))
            return
        self.assertEqual((DIFFERENT if str(told) else DONE, str(told)), (found.status, found.output.decode()))
        *changes, counts = map(json.loads, objects.output.splitlines())
        left_out = {} if told.counts.left_out is None else {"left_out": [*told.counts.left_out]}
        self.assertEqual({**told.counts._asdict(), "shortest": told.shortest, **left_out}, counts)
        self.assertEqual(Counter(told.counts._asdict()), Counter(row.kind for row in told.rows))
        shown = [(row.kind, row.left_item, row.right_item) for row in told.rows if row.kind != "same"]
        self.assertEqual(shown, [(change["change"], change["left_item"], change["right_item"]) for change in changes])
        lists = [udsnorm.items(log, **settings) for log in logs]
        self.assertEqual([[item for item in side if item] for side in ([row.left for row in told.rows], [row.right for row in told.rows])], lists)
        one = other = 0
        for row in told.rows:
            one, other = one + bool(row.left), other + bool(row.right)
            self.assertEqual((row.left_item, row.right_item, row.kind == "same"), (one, other, row.left == row.right))
            self.assertEqual((row.left is None, row.right is None), (row.kind == "added", row.kind == "removed"))

    def same_page(self, names, logs, settings, words):
        """The page of both, of files and of bytes."""
        found = run(given.program, ["report", *words, *names])
        for given_logs, options in ((names, {}), (logs, {"names": ("left.log", "right.log")})):
            try:
                page = udsnorm.report_pair(*given_logs, **options, **settings)
            except udsnorm.Refused as refused:
                # What a form lacks that the package alone reads is told in words of its own, the left one's first.
                if refused.reason != "bad file":
                    self.assertEqual((REFUSAL, told_of(refused)), (found.status, found.error.decode()))
                elif refused.side == "right":
                    self.assertIn(b"</html>", udsnorm.report(names[0], **settings))
            else:
                self.assertEqual(page, found.output)

    def test_samples(self):
        for path in sorted(EXAMPLES.glob("*.log")):
            is_extended = "extended" in path.name
            settings = {"tester": EXTENDED | 0x18DA10F1, "unit": EXTENDED | 0x18DAF110} if is_extended else {}
            words = ["--tester", "18DA10F1", "--unit", "18DAF110"] if is_extended else []
            self.same(path.read_bytes(), settings, words)

    def test_rows(self):
        for name in ("one_session", "sessions", "equal_numbers", "lost_frames", "late_frames", "long_announcements", "places"):
            for row in tables.table(name):
                self.same(row.log(), *sides_of(row))

    def test_pairs(self):
        logs = [path.read_bytes() for path in sorted(EXAMPLES.glob("*.log"))]
        for log in [*logs, *(row.log() for row in tables.table("pairs_found"))]:
            found = run(given.program, ["find", "--json"], log)
            with self.subTest(log=log[:200]):
                try:
                    text = "".join(f"{paired(pair)}\n" for pair in udsnorm.find(log))
                except udsnorm.Refused as refused:
                    self.assertEqual((REFUSAL, f"{refused}\n"), (found.status, found.error.decode()))
                else:
                    self.assertEqual((DONE, text), (found.status, found.output.decode()))

    def test_comparisons(self):
        for row in tables.table("comparisons"):
            limit = (row.texts("limit") or [None])[0]
            settings, words = ({"limit": int(limit)}, ["--limit", limit]) if limit else ({}, [])
            self.same_difference(row.side("left"), row.side("right"), settings, words)

    def test_under_rules(self):
        """Random logs under random rules. Items have the bytes of the canonical log, and as texts what `list` has."""
        rng = random.Random(given.seed)
        with tempfile.TemporaryDirectory() as folder:
            path = Path(folder, "p.toml")
            for log, _ in zip(random_logs(given.seed), range(given.logs)):
                path.write_bytes(profiles.random_profile(rng, log))
                settings, words = {"profile": path}, ["--profile", path]
                self.same(log, settings, words)
                self.same_difference(log, mutated(rng, log), settings, words)
                try:
                    canonical = udsnorm.normalise(log, **settings)
                except udsnorm.Refused:
                    continue
                for again in (settings, {}):
                    self.assertEqual(udsnorm.items(canonical, **again), udsnorm.items(log, **settings))

    def test_random_logs(self):
        rng = random.Random(given.seed)
        for log, _ in zip(random_logs(given.seed), range(given.logs)):
            limit = limit_for(rng, log)
            self.same(log, {"limit": limit}, ["--limit", str(limit)])
            self.same_difference(log, mutated(rng, log), {"limit": limit}, ["--limit", str(limit)])


class Rows(unittest.TestCase):
    """`diff`, and what its text calls the logs."""

    def test_sample(self):
        lost = EXAMPLES / "lost-frame.log"
        told = udsnorm.diff(VIN, lost)
        self.assertEqual((told.counts, told.shortest), (udsnorm.RowCounts(same=1, removed=0, added=1, changed=0), True))
        added, same = told.rows
        self.assertEqual((added.kind, added.left_item, added.right_item, added.left), ("added", 0, 1, None))
        self.assertEqual((same.kind, same.left_item, same.right_item, same.left), ("same", 1, 2, same.right))
        self.assertEqual((same.left.first_line, same.right.first_line), tuple(udsnorm.items(log)[-1].first_line for log in (VIN, lost)))
        self.assertEqual(f"{told}", run(given.program, ["diff", VIN, lost]).output.decode())

    def test_equal_logs(self):
        told = udsnorm.diff(VIN, CANONICAL)
        self.assertEqual((str(told), told.counts, [row.kind for row in told.rows]), ("", (1, 0, 0, 0), ["same"]))
        self.assertEqual(udsnorm.diff(b"", b""), ([], (0, 0, 0, 0), True, ""))

    def test_names(self):
        """Those of the files, as the program shows them, or as they are told."""
        log = VIN.read_bytes()
        for logs, options, header in (
            ((log, b""), {}, "--- left\n+++ right\n"), ((VIN, b""), {}, f"--- {VIN}\n+++ right\n"),
            ((log, b""), {"names": ("a b", "\udce9")}, '--- "a b"\n+++ "\\351"\n'),
        ):
            self.assertTrue(str(udsnorm.diff(*logs, **options)).startswith(header))
        with tempfile.TemporaryDirectory() as folder:
            named = Path(folder, "b <é>.log")
            named.write_bytes(log)
            self.assertEqual(str(udsnorm.diff(named, b"")).splitlines()[0], run(given.program, ["diff", named, "/dev/null"]).output.decode().splitlines()[0])

    def test_a_script_that_is_perhaps_not_the_shortest(self):
        """Of sessions that differ in more than is looked for, rows have all items of both."""
        left, right = (b"".join(b"(%d.000000) a 7E0#0322%04X\n" % (at, number) for at, number in enumerate(numbers)) for numbers in (
            [at * 7 % 4001 for at in range(3000)], [at * 11 % 4001 for at in range(3000)],
        ))
        told = udsnorm.diff(left, right)
        self.assertFalse(told.shortest)
        self.assertTrue(str(told).startswith("# perhaps not the shortest: "))
        self.assertEqual([[row.left for row in told.rows if row.left], [row.right for row in told.rows if row.right]], [udsnorm.items(log) for log in (left, right)])

    def test_refused(self):
        for logs, side in (([b"x", b"y"], "left"), ([VIN, b"y"], "right")):
            with self.assertRaises(udsnorm.Refused) as caught:
                udsnorm.diff(*logs)
            self.assertEqual((caught.exception.reason, caught.exception.side), ("bad line", side))


class Profiles(unittest.TestCase):
    """What `profile` and `only` take, and what items are under rules."""

    RULES = {"drop": ["3E", "7E"], "mask": ["27??*", "67??*", "620105.."]}
    TOML = b'drop = ["3E", "7E"]\nmask = ["27??*", "67??*", "620105.."]\n'
    UNITS = b'[[unit]]\nname = "engine"\ntester = "7E1"\nunit = "7E9"\n[[unit]]\nname = "brake"\ntester = "7E0"\nunit = "7E8"\n'
    FRAMES = ("7E0#022701", "7E8#0467011A2B", "7E0#023E00", "7E8#027E00", "7E0#03220105", "7E8#0462010507")
    LOG = tables.log_of([("frame", frame) for frame in FRAMES])

    def test_forms(self):
        """A path, TOML and a `dict` are one profile, and what the program makes of it."""
        with tempfile.TemporaryDirectory() as folder:
            path = Path(folder, "bench.toml")
            path.write_bytes(self.TOML)
            want = run(given.program, ["normalise", "--profile", path], self.LOG).output
            for profile in (path, str(path), self.TOML, self.RULES):
                with self.subTest(profile=profile):
                    self.assertEqual(udsnorm.normalise(self.LOG, profile=profile), want)
                    self.assertIsNone(udsnorm.compare(self.LOG, want, profile=profile))
                    told = udsnorm.diff(self.LOG, want, profile=profile)
                    self.assertEqual((str(told), told.counts, told.counts.left_out), ("", (2, 0, 0, 0), (2, 0)))
                    udsnorm.testing.assert_same_session(self.LOG, self.LOG.replace(b"1A2B", b"3C4D"), profile=profile)

    def test_where_two_differ(self):
        """The text has a note for each rule, and the counts what is left out; without rules there is neither."""
        masked = udsnorm.diff(self.LOG, b"", profile={"drop": ["3e"], "mask": ["67??*"]})
        self.assertEqual(str(masked).splitlines()[:2], ["# drop 3E: 1 message of A, 0 of B", "# mask 67??*: 1 message of A, 0 of B"])
        self.assertEqual((masked.counts.left_out, pickle.loads(pickle.dumps(masked)).counts.left_out), ((1, 0), (1, 0)))
        for profile in (None, {}):
            plain = udsnorm.diff(self.LOG, b"", profile=profile)
            self.assertEqual((str(plain)[:4], plain.counts.left_out), ("--- ", None))

    def test_items(self):
        """They have the bytes of the canonical log, and as texts what `list` has."""
        key, counter = udsnorm.items(self.LOG, profile=self.RULES)
        self.assertEqual((key.request, key.answer, counter.answer), (b"\x27\x01", b"\x67\x01", b"\x62\x01\x05\x00"))
        self.assertIn("request=2701*, outcome='positive', code=None, answer=6701*", str(key))
        self.assertIn("answer=620105..", str(counter))
        self.assertEqual(pickle.loads(pickle.dumps(counter)), counter)
        self.assertEqual(str(pickle.loads(pickle.dumps(counter))), str(counter))
        self.assertIn("message=620105..", str(udsnorm.messages(self.LOG, profile=self.RULES)[-1]))

    def test_units(self):
        """One that is named, whatever the call's identifiers are."""
        told = udsnorm.items(self.LOG, profile=self.UNITS, only="brake", tester="123")
        self.assertEqual(told, udsnorm.items(self.LOG))
        self.assertEqual(udsnorm.items(self.LOG, profile=self.UNITS, only="engine"), [])

    def test_wrong(self):
        """What is wrong is told, behind the path of a file."""
        with tempfile.TemporaryDirectory() as folder:
            path = Path(folder, "bench.toml")
            path.write_bytes(b'mask = ["67"]')
            for profile, only, text in [
                (path, None, f'{path}: mask "67": nothing is masked'),
                (b"drop = [", None, "line 1 column 9: not TOML"),
                ({"drop": "3E"}, None, "drop: not an array of strings"),
                ({"x\x7f": 1}, None, "$'x\\x7F': unknown key"),
                (self.UNITS, None, "2 units: choose one: engine, brake"),
                (self.UNITS, "gearbox", "no unit gearbox"),
                (None, "engine", "no units"),
                (b"#" * 65537, None, "longer than 65536 bytes"),
            ]:
                for call in (udsnorm.normalise, udsnorm.items, udsnorm.report, lambda log, **more: udsnorm.compare(log, log, **more)):
                    with self.subTest(profile=profile, only=only), self.assertRaises(ValueError) as raised:
                        call(self.LOG, profile=profile, only=only)
                    self.assertEqual(str(raised.exception), text)
            with self.assertRaises(OSError):
                udsnorm.items(self.LOG, profile=Path(folder, "none.toml"))


class Places(unittest.TestCase):
    """Where items stand in their logs."""

    def test_places_of_messages(self):
        """Those of an item are those of its messages, from the first one to the last one."""
        logs = [(path.read_bytes(), {}) for path in sorted(EXAMPLES.glob("*.log"))]
        logs += [(row.log(), sides_of(row)[0]) for name in ("sessions", "lost_frames", "places") for row in tables.table(name)]
        for log, settings in logs:
            with self.subTest(log=log[:200]):
                try:
                    items = udsnorm.items(log, **settings)
                except udsnorm.Refused:
                    continue
                messages = udsnorm.messages(log, **settings)
                for number, item in enumerate(items, 1):
                    own = {one.role: one for one in messages if one.item == number and one.role != "pending"}
                    is_stray = isinstance(item, udsnorm.Stray)
                    first = own["stray" if is_stray else "request"]
                    last = own.get("answer", first)
                    self.assertEqual(spanned(item), (first.first_line, last.last_line, first.begin, last.end))
                    if not is_stray:
                        places = [udsnorm.Place(*spanned(one)) if one else None for one in (first, own.get("answer"))]
                        self.assertEqual([item.request_place, item.answer_place], places)

    def test_sample(self):
        exchange, stray, *_ = udsnorm.items(EXAMPLES / "pending.log")
        lines = (EXAMPLES / "pending.log").read_text().splitlines()
        stamps = [int(lines[at - 1][1:18].replace(".", "")) for at in (exchange.first_line, exchange.last_line, stray.first_line)]
        self.assertEqual(stamps, [exchange.begin, exchange.end, stray.begin])
        self.assertEqual((exchange.first_line, stray.first_line), (1, 3))
        self.assertEqual(exchange.answer_place.begin, exchange.end)
        self.assertEqual(udsnorm.compare(EXAMPLES / "pending.log", b"").left.end, exchange.end)

    def test_equal_wherever_they_stand(self):
        """Lines and times are no part of what is equal, has a hash, is shown or unpacked, and they are handed on."""
        log = (EXAMPLES / "pending.log").read_bytes()
        later = udsnorm.items(b"\n" + log.replace(b"(17", b"(18"))
        for one, other in zip(udsnorm.items(log), later):
            self.assertEqual((one, hash(one), repr(one), tuple(one)), (other, hash(other), repr(other), tuple(other)))
            self.assertEqual([other.first_line - one.first_line, other.begin - one.begin], [1, 10**14])
            for handed_on in (pickle.loads(pickle.dumps(one)), copy.copy(one), copy.deepcopy(one)):
                self.assertEqual((handed_on, spanned(handed_on)), (one, spanned(one)))
        made = udsnorm.Exchange("TesterPresent", b"\x3e\x00", "unanswered", None, None)
        self.assertEqual((spanned(made), made.request_place, made.answer_place), ((0, 0, 0, 0), (0, 0, 0, 0), None))
        self.assertEqual(spanned(udsnorm.Stray("unit", b"")), (0, 0, 0, 0))


def spanned(found):
    return found.first_line, found.last_line, found.begin, found.end


class Pages(unittest.TestCase):
    """`report`, `report_pair` and what they call the logs."""

    def test_names(self):
        """Those of the files, as the program shows them, or as they are told."""
        with tempfile.TemporaryDirectory() as folder:
            one, other, named = (Path(folder, name) for name in ("one/a.log", "other/a.log", "b <é>.log"))
            for path in (one, other, named):
                path.parent.mkdir(exist_ok=True)
                path.write_bytes(VIN.read_bytes())
            self.assertEqual(udsnorm.report(str(one)), run(given.program, ["report", one]).output)
            for pair in ((one, other), (one, named), (named, one)):
                self.assertEqual(udsnorm.report_pair(*pair), run(given.program, ["report", *pair]).output)
            self.assertIn(b"<title>b &lt;%C3%A9&gt;.log - ", udsnorm.report(named))
        log = VIN.read_bytes()
        for page, title in (
            (udsnorm.report(log), b"log"), (udsnorm.report(log, name="x&y"), b"x&amp;y"), (udsnorm.report(log, name=""), b""),
            (udsnorm.report_pair(log, log), b"left and right"), (udsnorm.report_pair(VIN, log, names=("a", "")), b"a and "),
        ):
            self.assertIn(b"<title>" + title + b" - udsnorm report</title>", page)

    def test_pages_longer_than_their_first_room(self):
        """What a page wants is answered, and then there is room for it; at first enough, also for the worst rows."""
        log = b"".join(b"(%d.000000) a 7E8#10\n" % at for at in range(20_000))
        pages = [udsnorm.report(log), udsnorm.report_pair(log, log)]
        with unittest.mock.patch.multiple(udsnorm._library, _OF_A_PAGE=1, _OF_ITS_LOGS=0):
            self.assertEqual([udsnorm.report(log), udsnorm.report_pair(log, log)], pages)
        self.assertEqual(udsnorm.report(log, name="standard input"), run(given.program, ["report"], log).output)

    def test_refused(self):
        """A log that has a page of the program alone, since it is refused; and one that no other call takes."""
        for call, logs in ((udsnorm.report, [b"x"]), (udsnorm.report_pair, [VIN, b"x"]), (udsnorm.report_pair, [b"x", b"y"])):
            with self.assertRaises(udsnorm.Refused) as caught:
                call(*logs)
            side = None if len(logs) == 1 else "left" if logs[0] == b"x" else "right"
            self.assertEqual((caught.exception.reason, caught.exception.side, caught.exception.line), ("bad line", side, 1))
        announced = b"(0.000000) a 7E0#1000FFFFFFFF0000\n"
        self.assertIn(b"</html>", udsnorm.report(announced))
        self.assertIn(b"</html>", udsnorm.report_pair(announced, announced))

    def test_words_of_statuses(self):
        """Each status of the header has words of its own."""
        numbers = [int(number) for number in re.findall(r"^    UDSNORM_\w+ = (\d+),? +/\*", (TOP / "library" / "udsnorm.h").read_text(), re.M)]
        statuses = range(max(numbers) + 1)
        words = [udsnorm._library.status_text(status) for status in statuses]
        self.assertEqual(len(set(words)), len(statuses))
        self.assertNotIn("no such status", words)
        self.assertEqual([udsnorm._library.status_text(number) for number in (len(words), (1 << 32) - 1)], ["no such status"] * 2)


class Assertions(unittest.TestCase):
    """`udsnorm.testing`, and its pages."""

    def told(self, *logs, **words):
        """The lines of the error."""
        with self.assertRaises(AssertionError) as caught:
            testing.assert_same_session(*logs, **words)
        self.assertIsNone(caught.exception.__cause__ or caught.exception.__context__)
        return str(caught.exception).splitlines()

    def test_page(self):
        """It is the program's, and there is none where the sessions are the same."""
        with tempfile.TemporaryDirectory() as folder:
            page, other = Path(folder, "page.html"), EXAMPLES / "lost-frame.log"
            testing.assert_same_session(VIN, VIN, page=page)
            self.assertFalse(page.exists())
            self.assertEqual(self.told(VIN, other, page=page)[-1], f"both logs on a page: {page}")
            self.assertEqual(page.read_bytes(), run(given.program, ["report", VIN, other]).output)

    def test_page_that_cannot_be_written(self):
        """The difference is told all the same, and why there is no page."""
        other = EXAMPLES / "lost-frame.log"
        with tempfile.TemporaryDirectory() as folder:
            for page in (folder, f"{folder}/none/page.html", f"{VIN}/page.html", f"{folder}/{'a' * 300}", "/dev/full"):
                try:
                    Path(page).write_bytes(b"x")
                except OSError as error:
                    why = error.strerror
                with self.subTest(page=page):
                    lines = self.told(VIN, other, page=page)
                    self.assertEqual((lines[0], lines[-1]), ("the sessions differ at item 1", f"no page: {page}: {why}"))
                    self.assertIn("+exchange ReadDataByIdentifier 22F190 -> unanswered", lines)

    def test_page_of_any_path(self):
        """One of bytes, and one that no file can have: the difference is told with each."""
        other = EXAMPLES / "lost-frame.log"
        with tempfile.TemporaryDirectory() as folder:
            for name in (b"page.html", b"\xe9.html"):
                page = os.path.join(os.fsencode(folder), name)
                shown = f"{folder}/{name.decode('ascii', 'backslashreplace')}"
                self.assertEqual(self.told(VIN, other, page=page)[-1], f"both logs on a page: {shown}")
                self.assertTrue(os.path.exists(page))
            self.assertEqual(self.told(VIN, other, page=os.fsencode(folder))[-1], f"no page: {folder}: Is a directory")
        for page, shown in (("\ud800", "\\xd800"), ("a\0b", "a\\x00b"), (b"a\0b", "a\\x00b")):
            lines = self.told(VIN, other, page=page)
            self.assertEqual(lines[0], "the sessions differ at item 1")
            self.assertTrue(lines[-1].startswith(f"no page: {shown}: "), lines[-1])

    def test_clean(self):
        """Both logs have to be clean where that is asked for, and the error says which is not, as the program does."""
        other, log = EXAMPLES / "lost-frame.log", VIN.read_bytes()
        testing.assert_same_session(VIN, log, clean=True)
        testing.assert_same_session(other, other)
        testing.assert_same_session(log, log[:-1])
        asked = log[:log.index(b"\n") + 1]
        for left, right in ((other, other), (VIN, log[:-1]), (log[:-1], VIN), (b"", b""), (b"\n", b""), (VIN, other), (VIN, asked)):
            with self.subTest(left=str(left)[:40], right=str(right)[:40]):
                lines = self.told(left, right, clean=True)
                is_same = udsnorm.compare(left, right) is None
                self.assertEqual(lines[0], "the sessions are the same, but not clean" if is_same else "the sessions differ at item 1")
                logs = [one if isinstance(one, bytes) else one.read_bytes() for one in (left, right)]
                with files(*logs) as names:
                    found = run(given.program, ["compare", "--strict", *names])
                shown = [line for line in lines if " not clean: " in line]
                want = re.sub("(unfinished 0), no frame of the unit$", r"\1, no frame of one side", found.error.decode(), flags=re.M)
                self.assertEqual("".join(f"{line}\n" for line in shown), want)


class ExchangedSides(unittest.TestCase):
    """A log of which tester and unit look exchanged says so beside its counts, and is clean all the same."""

    def test_exchanged(self):
        for settings, is_exchanged in (({}, False), ({"tester": "7E8", "unit": "7E0"}, True)):
            counts = udsnorm.explain(VIN, **settings).counts
            self.assertEqual((counts.exchanged, counts.clean), (is_exchanged, True))
        self.assertFalse(udsnorm.explain(b"").counts.exchanged)


class Arguments(unittest.TestCase):
    """Logs in every form, and settings that there are and are not."""

    def test_any_buffer_and_any_path(self):
        log = VIN.read_bytes()
        want = udsnorm.normalise(log)
        self.assertEqual(want, CANONICAL.read_bytes())
        spread = memoryview(bytes(byte for one in log for byte in (one, 0)))[::2]
        for form in (bytearray(log), memoryview(log), spread, array.array("B", log), str(VIN), VIN):
            self.assertEqual(udsnorm.normalise(form), want)

    def test_no_log_at_all(self):
        self.assertEqual((udsnorm.normalise(b""), udsnorm.items(b""), udsnorm.messages(b"")), (b"", [], []))
        self.assertIsNone(udsnorm.compare(b"", b""))
        self.assertEqual(udsnorm.explain(b"").counts, udsnorm.Counts(0, 0, 0, 0, 0, 0, 0))
        with self.assertRaises(TypeError):
            udsnorm.normalise(None)
        with self.assertRaises(FileNotFoundError):
            udsnorm.normalise(EXAMPLES / "none.log")

    def test_refused(self):
        with self.assertRaises(udsnorm.Refused) as caught:
            udsnorm.normalise(b"\nx")
        self.assertEqual((caught.exception.reason, caught.exception.line, caught.exception.column), ("bad line", 2, 1))
        with self.assertRaises(udsnorm.Refused) as caught:
            udsnorm.compare(b"", b"(0.000000) a 7E0#1000FFFFFFFF0000\n")
        found = caught.exception
        self.assertEqual((found.reason, found.line, found.column, found.side), ("oversize", 1, None, "right"))
        handed_on = pickle.loads(pickle.dumps(found))
        self.assertEqual((str(handed_on), vars(handed_on)), (str(found), vars(found)))

    def test_the_left_one_is_told_first(self):
        """Also where the right one is no candump log and can't be read to its end."""
        dated = b"(2023-11-14 22:13:20.000000) can0 7E0#013E\nwhat is this\n"
        long, announced = VIN.read_bytes() * 2, b"(0.000000) a 7E0#1000FFFFFFFF0000\n"
        calls = (udsnorm.compare, udsnorm.report_pair, udsnorm.diff, testing.assert_same_session)
        for left, settings, reasons in (
            (b"garbage\n", {}, ["bad line"] * 4), (dated, {}, ["bad file"] * 4), (long, {"limit": len(long) - 1}, ["log limit"] * 4),
            (announced, {}, ["oversize", None, "oversize", "oversize"]), (CANONICAL.read_bytes()[:50], {}, ["bad line"] * 4),
            (b"(0.000000) a 7E0#0110\n", {"limit": 45}, ["output limit", None, "output limit", "output limit"]), (b"", {}, [None] * 4),
        ):
            with files(left, dated) as names:
                for call, reason in zip(calls, reasons):
                    with self.subTest(left=left[:40], call=call.__name__), self.assertRaises(udsnorm.Refused) as caught:
                        call(*names, **settings)
                    found = caught.exception
                    want = (reason, "left", str(names[0])) if reason else ("bad file", "right", str(names[1]))
                    self.assertEqual((found.reason, found.side, found.file), want)
                    self.assertIsNone(found.__cause__)
                with self.assertRaisesRegex(ValueError, "^limit out of range$"):
                    udsnorm.compare(*names, limit=0)

    def test_limits(self):
        short = b"(0.000000) a 7E0#0110\n"
        for log, limit, reason in ((CANONICAL, 229, "log limit"), (short, 21, "log limit"), (short, 45, "output limit")):
            with self.subTest(limit=limit), self.assertRaises(udsnorm.Refused) as caught:
                udsnorm.normalise(log, limit=limit)
            self.assertEqual(caught.exception.reason, reason)
        self.assertEqual((len(udsnorm.normalise(CANONICAL, limit=230)), len(udsnorm.normalise(short, limit=46))), (230, 46))

    def test_settings(self):
        wrong = [
            ({"tester": 0x800}, "identifier out of range"), ({"unit": -1}, "identifier out of range"),
            ({"tester": 1 << 32}, "identifier out of range"), ({"unit": EXTENDED | 1 << 29}, "identifier out of range"),
            ({"tester": 0x7E8}, "tester and unit have the same identifier"),
            ({"limit": 0}, "limit out of range"), ({"limit": -1}, "limit out of range"), ({"limit": 1 << 64}, "limit out of range"),
        ]
        for settings, text in wrong:
            for call in (udsnorm.normalise, udsnorm.items, udsnorm.messages, udsnorm.explain):
                with self.subTest(settings=settings), self.assertRaisesRegex(ValueError, f"^{text}$"):
                    call(b"", **settings)
            with self.assertRaisesRegex(ValueError, f"^{text}$"):
                udsnorm.compare(b"", b"", **settings)
            with self.assertRaisesRegex(ValueError, f"^{text}$"):
                udsnorm.diff(b"", b"", **settings)

    def test_refused_memory(self):
        """Once by the library, and once where a process has no room for a text."""
        self.assertIsInstance(udsnorm._fault(udsnorm.Answer(status=udsnorm._library.MEMORY)), MemoryError)
        found = self.bounded("udsnorm.normalise(b'(0.000000) a 7E0#0110\\n' * 4000000)")
        self.assertEqual((found.status, found.error.splitlines()[-1]), (1, b"MemoryError"))

    def bounded(self, asked):
        """How Python ends that asks this of the package, in 256 MiB of addresses."""
        ask = f"import resource, udsnorm; resource.setrlimit(resource.RLIMIT_AS, ({1 << 28},) * 2); {asked}"
        environment = {**os.environ, "PYTHONPATH": str(PACKAGE), "LD_LIBRARY_PATH": str(given.library.resolve())}
        return run(sys.executable, ["-c", ask], env=environment)

    def test_memory_that_no_text_needs(self):
        """Where there is no room for the longest text that there may be, there is for the one that comes."""
        log = "b'(0.000000) a 123#0110\\n' * 1000000"
        for asked in (f"udsnorm.report({log})", f"udsnorm.report_pair({log}, b'')", f"udsnorm.explain({log} * 3)"):
            found = self.bounded(asked)
            self.assertEqual((found.status, found.error), (0, b""))


class Threads(unittest.TestCase):
    """Calls from threads side by side."""

    def test_the_lock_is_given_up(self):
        """With no switch of threads but where the lock is given up, another thread runs while a call does."""
        log = VIN.read_bytes() * 20_000
        inside, seen, interval = threading.Event(), [], sys.getswitchinterval()

        def call():
            inside.set()
            udsnorm.normalise(log)
            inside.clear()

        sys.setswitchinterval(1000)
        try:
            running = threading.Thread(target=call)
            running.start()
            while running.is_alive() and not seen:
                seen += [True] if inside.is_set() else []
                time.sleep(0.0001)
            running.join()
        finally:
            sys.setswitchinterval(interval)
        self.assertTrue(seen)

    def test_sixteen_threads(self):
        logs = [path.read_bytes() for path in sorted(EXAMPLES.glob("*.canonical"))]
        want = [udsnorm.items(log) for log in logs]
        found = []
        threads = [threading.Thread(target=lambda: found.append([[udsnorm.items(log) for log in logs] for _ in range(20)])) for _ in range(16)]
        for thread in threads:
            thread.start()
        for thread in threads:
            thread.join()
        self.assertEqual(found, [[want] * 20] * 16)


class Shipped(unittest.TestCase):
    """The package as it is installed, and its types."""

    def test_version_and_name_of_the_library(self):
        library = udsnorm._library
        self.assertEqual(udsnorm.__version__, (TOP / "VERSION").read_text().strip())
        self.assertEqual(library.SONAME, f"libudsnorm.so.{(TOP / 'library' / 'SONAME').read_text().strip()}")
        statuses = re.findall(r"^    UDSNORM_(\w+) = (\d+)", (TOP / "library" / "udsnorm.h").read_text(), re.M)
        known = {name: getattr(library, name) for name, _ in statuses if hasattr(library, name)}
        self.assertEqual(known, {name: int(number) for name, number in statuses if name in known})
        types = {"u16": ctypes.c_uint16, "u32": ctypes.c_uint32, "u64": ctypes.c_uint64}
        self.assertEqual(library.Answer._fields_, [(name, types[of]) for name, of in header.fields()])

    def test_the_oldest_python(self):
        """Its syntax everywhere, and a call where that Python is there."""
        for path in PACKAGE.rglob("*.py"):
            ast.parse(path.read_text(), str(path), feature_version=(3, 9))
        oldest = shutil.which("python3.9")
        if oldest is None or run(oldest, ["--version"]).status:
            self.skipTest("no python3.9 is installed")
        ask = f"import udsnorm, sys; sys.stdout.buffer.write(udsnorm.normalise({str(VIN)!r}))"
        environment = {**os.environ, "PYTHONPATH": str(PACKAGE), "LD_LIBRARY_PATH": str(given.library.resolve())}
        self.assertEqual(run(oldest, ["-B", "-c", ask], env=environment), (0, CANONICAL.read_bytes(), b""))

    def test_wheel_in_a_fresh_environment(self):
        if subprocess.run([sys.executable, "-m", "pip", "--version"], stdout=subprocess.DEVNULL, stderr=subprocess.DEVNULL).returncode:
            self.skipTest("no pip is installed")
        with tempfile.TemporaryDirectory() as folder:
            first, again = (built_wheel(Path(folder) / name) for name in ("first", "again"))
            self.assertEqual(first.read_bytes(), again.read_bytes())
            environment = Path(folder) / "environment"
            subprocess.run([sys.executable, "-m", "venv", environment], check=True)
            python = environment / "bin" / "python"
            subprocess.run([python, "-m", "pip", "install", "--quiet", "--no-index", "--disable-pip-version-check", first], check=True)
            program = f"import udsnorm, sys; sys.stdout.buffer.write(udsnorm.normalise({str(VIN)!r}))"
            for words in (["-I", "-c", program], ["-I", "-m", "udsnorm", "normalise", VIN]):
                found = run(python, words, cwd=folder, env={"PATH": ""})
                self.assertEqual((0, CANONICAL.read_bytes(), b""), tuple(found))
            shown = run(python, ["-m", "pip", "show", "--verbose", "udsnorm"]).output.decode()
            for line in ("Author: Yozhdyrga maintainers", "License: MIT", "  Topic :: Software Development :: Testing"):
                self.assertIn(line, shown.splitlines())
            self.pages_lie_where_they_are_shown(python, environment)

    def pages_lie_where_they_are_shown(self, python, environment):
        """`pip show --files` names the pages, which lie there as they are in docs/, and so does what describes the package.
        No link leads to a file that doesn't lie there, too."""
        files = run(python, ["-m", "pip", "show", "--files", "udsnorm"]).output.decode()
        location = Path(re.search(r"^Location: (.*)$", files, re.M)[1])
        ask = "import importlib.metadata as m; print(m.metadata('udsnorm').get_payload())"
        described = run(python, ["-I", "-c", ask]).output.decode()
        names = re.findall(r"^(docs/\w+\.md) ", described, re.M)
        self.assertIn("docs/python.md", names)
        samples = ["python/examples/sessions.py", *(f"examples/{path.name}" for path in (TOP / "examples").iterdir())]
        lying = [name for name in re.findall(r"^  \S*share/doc/udsnorm/(\S+)$", files, re.M) if "__pycache__" not in name]
        self.assertEqual(sorted(names + samples), sorted(lying))
        for name in names:
            shown = re.search(rf"^  (\S*/{name})$", files, re.M)[1]
            page = (location / shown).resolve()
            self.assertEqual(page, (environment / "share" / "doc" / "udsnorm" / name).resolve())
            pages = [path.read_text(encoding="utf-8") for path in (page, TOP / name)]
            self.assertEqual(*(LINK.sub(r"\1", page) for page in pages))
            kept = [link for link in LINK.findall(pages[1]) if (page.parent / link[1]).exists() or re.match("$|https?:", link[1])]
            self.assertEqual(LINK.findall(pages[0]), kept)
        for name in samples:
            self.assertEqual((environment / "share/doc/udsnorm" / name).read_bytes(), (TOP / name).read_bytes(), name)

    def test_types(self):
        if not shutil.which("mypy"):
            self.skipTest("no mypy is installed")
        with tempfile.TemporaryDirectory() as folder:
            typed = Path(folder) / "typed.py"
            typed.write_text(TYPED)
            words = ["--strict", "--cache-dir", folder, PACKAGE / "udsnorm", typed]
            found = run("mypy", words, env={**os.environ, "MYPYPATH": str(PACKAGE)})
            self.assertEqual(found.status, 0, found.output.decode())


# A link of a page: its words, and the file that it leads to.
LINK = re.compile(r"\[((?:[^][]|\[[^][]*\])+)\]\(([^)#\s]*)(?:#[^)\s]*)?\)")

# Code that a user may write, with its types.
TYPED = '''
from typing import Iterator, List, Optional, Tuple
import udsnorm
from udsnorm.testing import assert_same_session

text: bytes = udsnorm.normalise("a.log", tester=udsnorm.EXTENDED | 0x18DA10F1)
requests: List[bytes] = [item.request for item in udsnorm.items(b"") if isinstance(item, udsnorm.Exchange)]
first: Optional[udsnorm.Difference] = udsnorm.compare(bytearray(), memoryview(b""))
rows: List[udsnorm.Row] = udsnorm.diff("a.log", b"", tester="7E0", limit=1000).rows
kinds: List[udsnorm.Change] = [row.kind for row in rows]
changed: int = udsnorm.diff(b"", b"", names=("a", "b")).counts.changed
left_out: Optional[Tuple[int, int]] = udsnorm.diff(b"", b"", profile={"drop": ["3E"]}).counts.left_out
dropped: int = udsnorm.explain("a.log").counts.dropped
seconds: List[float] = [(message.end - message.begin) / 1e6 for message in udsnorm.messages("a.log")]
answering: List[int] = [pair.unit for pair in udsnorm.find(memoryview(b""))]
lasted: List[int] = [item.end - item.begin for item in udsnorm.items("a.log")]
places: List[Optional[udsnorm.Place]] = [item.answer_place for item in udsnorm.items(b"") if isinstance(item, udsnorm.Exchange)]
one_by_one: Iterator[udsnorm.Item] = udsnorm.iter_items("a.blf", tester="7E0", unit=0x7E8)
recorded: bytes = udsnorm.from_messages([])
assert_same_session("a.asc", b"", tester="18DA10F1", unit="18DAF110", page="page.html", clean=True)
is_clean: bool = udsnorm.explain("a.log").counts.clean
is_exchanged: bool = udsnorm.explain("a.log").counts.exchanged
page: bytes = udsnorm.report("a.log", name="a") + udsnorm.report_pair("a.log", b"", names=("a", "b"), unit="7E9")
udsnorm.normalise(1)  # type: ignore[arg-type]
udsnorm.normalise(b"", tester=None)  # type: ignore[arg-type]
udsnorm.items(["a.log"])  # type: ignore[arg-type]
'''


def built_wheel(folder):
    """The wheel, made in a folder."""
    words = [TOP / "packaging" / "wheel", given.program, given.library, folder]
    return Path(subprocess.run(words, check=True, stdout=subprocess.PIPE, text=True).stdout.strip())


def main():
    words = argparse.ArgumentParser(description=__doc__, formatter_class=argparse.RawDescriptionHelpFormatter)
    words.add_argument("program", type=os.path.abspath)
    words.add_argument("library", type=Path)
    words.add_argument("tests", nargs="*")
    words.add_argument("--logs", type=int, default=200)
    words.add_argument("--seed", type=int, default=1)
    words.parse_args(namespace=given)
    global udsnorm, testing
    udsnorm = imported(given.library.resolve())
    testing = importlib.import_module("udsnorm.testing")
    run_tests(given.tests)


main()
