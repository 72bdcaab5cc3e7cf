#!/usr/bin/env python3
"""Tests of the built program's words: commands, options and files, help, and what is told of words that don't fit.

    tests/program/command_line.py crates/udsnorm/out/udsnorm [TEST..]

Prints a line for each case and ends with `N passed, M failed`; its status is 1 where a case failed.
"""

import difflib
import os
import re
import sys
import tempfile
from pathlib import Path

sys.path.insert(0, str(Path(__file__).resolve().parents[1] / "helpers"))

import commands
import report_facts
from cases import DEVICE, DIFFERENT, DONE, REFUSAL, UNCLEAN, WORDS, Cases
from counts import counts_line
from objects import in_objects
from told import LONG_CANONICAL, LONG_LOG, READ_FAILED, WRITE_FAILED, oversize, place

VERSION = b"udsnorm " + Path(__file__).resolve().parents[2].joinpath("VERSION").read_bytes()
LOG = b"(1700000000.000000) can0 7E0#0322F190\n"
ANSWER = b"(1700000000.010000) can0 7E8#0462F19001\n"
CANONICAL = b"(0000000000.000000) can0 7E0#0322F190CCCCCCCC\n"
LIST = b"1 exchange ReadDataByIdentifier 22F190 -> unanswered\n"
LIST_JSON = b'{"item":1,"kind":"exchange","service":"ReadDataByIdentifier","request":"22F190","outcome":"unanswered"}\n'
EXPLANATION = counts_line(LOG, CANONICAL)
PLACES = b"1 request tester lines 1 to 1 at 1700000000.000000 to 1700000000.000000 22F190\n"
TEXTS = {"normalise": CANONICAL, "list": LIST, "watch": LIST, "explain": EXPLANATION, "messages": PLACES, "find": b""}

NO_LOG_LINE = b"(1.000000) can0 7E0#0\n"
OVERSIZE = b"(1.000000) can0 7E8#1000001000004142\n"
BAD_PLACE = place(1, 22)
NOT_DIGITS = b"identifier is not three or eight hexadecimal digits\n"
OUT_OF_RANGE = b"identifier out of range\n"
SAME_IDENTIFIER = b"tester and unit have the same identifier\n"
LIMIT_RANGE = b"limit out of range\n"

NO_TEXT = b"error: the command line is not UTF-8; a file with such a name is read as udsnorm list < FILE\n"

# Wrong words with other bytes than printable ASCII, and how the parser's text has them.
ESCAPED = [
    (["e\x1b[31m"], b"e\\x1B[31m"), (["two\nlines"], b"two\\x0Alines"), (["list", "--Pr\u00fcf"], b"--Pr\\xC3\\xBCf"),
    (["list", "a", "\x7f\x80"], b"\\x7F\\xC2\\x80"), (["list", "--limit", "1\t"], b"1\\x09"), (["b\\x1B ~!"], b"b\\x1B ~!"),
]

# The most bytes of a path, with the one that ends it.
PATH_MAX = 4096

# The help texts, whole: the program's by its name, and that of each command. They are read beside what they tell of.
HELPS = {path.stem: path.read_bytes() for path in Path(__file__).resolve().parents[1].joinpath("help").glob("*.txt")}
OF_PROGRAM = "udsnorm"


def text_of(job, file=None):
    """What a job writes of the log, which is in this file where one is given. A page has its name."""
    name = report_facts.STANDARD_INPUT if file is None else report_facts.last_part(file.encode())
    if job == "report":
        return report_facts.reported(LOG, name=name).written
    return TEXTS[job] if job in TEXTS else commands.ORACLES[job](LOG).written


def jobs(cases):
    """Each job, over standard input and over a file, whose name may look like an option."""
    cases.case("no words", cases.run([], LOG), DONE, CANONICAL)
    for job in commands.over_one_log(cases.program):
        cases.case(f"{job} of standard input", cases.run([job], LOG), DONE, text_of(job))
        cases.case(f"{job} of a file", cases.run([job, "a.log"]), DONE, text_of(job, "a.log"))
    cases.case("a file named -", cases.run(["list", "-"], b""), DONE, LIST)
    cases.case("a file named --limit", cases.run(["list", "--", "--limit"], b""), DONE, LIST)
    cases.case("a file whose name is no ASCII", cases.run(["list", "größe.log"], b""), DONE, LIST)


def options(cases):
    """Options come before or after the file, with a space or with `=`."""
    other = LOG.replace(b"7E0", b"7e2")
    for name, words in [
        ("before the file", ["list", "--tester", "7E2", "other.log"]),
        ("after the file", ["list", "other.log", "--tester", "7E2"]),
        ("in lower case", ["list", "--tester", "7e2", "other.log"]),
        ("with =", ["list", "--tester=7E2", "other.log"]),
    ]:
        cases.case(f"--tester {name}", cases.run(words), DONE, LIST)
    cases.case("--unit of the tester of the log", cases.run(["list", "--unit", "7E2"], other), DONE, b"1 stray unit 22F190\n")
    cases.case("--tester and --unit exchanged", cases.run(["list", "--tester=7E8", "--unit=7E0"], LOG), DONE, b"1 stray unit 22F190\n")
    cases.case("--limit of the canonical log", cases.run(["normalise", "--limit=46"], LOG), DONE, CANONICAL)
    cases.case("--limit below the canonical log", cases.run(["list", "--limit", "45"], LOG), REFUSAL, b"", LONG_CANONICAL)
    cases.case("--limit below the log", cases.run(["explain", "--limit=37"], LOG), REFUSAL, b"", LONG_LOG)
    cases.case("find", cases.run(["find", "clean.log"]), DONE, b"1 --tester 7E0 --unit 7E8\n")
    cases.case("find --json", cases.run(["find", "--json", "clean.log"]), DONE, b'{"credits":1,"requests":1,"tester":"7E0","unit":"7E8"}\n')
    profile = b'# 1 of 1 requests answered\n[[unit]]\nname = "7E0-7E8"\ntester = "7E0"\nunit = "7E8"\n'
    cases.case("find --toml", cases.run(["find", "--toml", "clean.log"]), DONE, profile)
    cases.case("find --toml of a log without answers", cases.run(["find", "--toml", "oversize.log"]), DONE, b"# nobody answered\n")
    cases.case("find behind a long announcement", cases.run(["find", "oversize.log"]), DONE, b"")
    cases.case("find --limit below the log", cases.run(["find", "--limit", "77", "clean.log"]), REFUSAL, b"", LONG_LOG)
    cases.case("the largest limit", cases.run(["list", "--limit=1099511627776"], LOG), DONE, LIST)


def strict_runs(cases):
    """A log has to be clean, which is told after its text; a refusal and a failed device come before that."""
    lacks_answer = b"not clean: frames 1 dropped 0 ended 0 unfinished 0, no frame of the unit\n"
    for job in commands.over_one_log(cases.program, "--strict"):
        cases.case(f"{job} --strict", cases.run([job, "--strict"], LOG), UNCLEAN, text_of(job), lacks_answer)
        cases.case(f"{job} of a file, --strict", cases.run([job, "clean.log", "--strict"]), DONE, None, b"")
    cases.case("--strict, a refused log", cases.run(["list", "--strict"], NO_LOG_LINE), REFUSAL, b"", BAD_PLACE)
    with open("/dev/full", "wb") as full:
        cases.case("--strict on a full disk", cases.run(["list", "--strict"], LOG, stdout=full), DEVICE, None, WRITE_FAILED)


def strict_comparisons(cases):
    """Both logs have to be clean: each that is not is told, and nothing is written. A refusal and a failed device come before that."""
    words = ["compare", "--strict"]
    lacks_answer = b"not clean: frames 1 dropped 0 ended 0 unfinished 0, no frame of the unit\n"
    both = b"left: " + lacks_answer + b"right: " + lacks_answer
    for left, right, status, output, error in [
        ("clean.log", "clean.log", DONE, b"same\n", b""),
        ("clean.log", "more.log", DIFFERENT, b"different at item 2\n", b""),
        ("a.log", "clean.log", UNCLEAN, b"", b"left: " + lacks_answer),
        ("clean.log", "a.log", UNCLEAN, b"", b"right: " + lacks_answer),
        ("a.log", "a.log", UNCLEAN, b"", both),
        ("a.log", "refused.log", REFUSAL, b"", b"right: " + BAD_PLACE),
        ("refused.log", "a.log", REFUSAL, b"", b"left: " + BAD_PLACE),
        ("a.log", "missing", DEVICE, b"", b"right: " + READ_FAILED),
        ("a.log", ".", DEVICE, b"", b"right: " + READ_FAILED),
    ]:
        cases.case(f"compare --strict {left} {right}", cases.run([*words, left, right]), status, output, error)
    cases.case("compare --strict behind the files", cases.run(["compare", "a.log", "a.log", "--strict"]), UNCLEAN, b"", both)
    with open("/dev/full", "wb") as full:
        cases.case("compare --strict of clean logs on a full disk", cases.run([*words, "clean.log", "clean.log"], stdout=full), DEVICE, None, WRITE_FAILED)
        cases.case("compare --strict of others, of which nothing is written", cases.run([*words, "a.log", "a.log"], stdout=full), UNCLEAN, None, both)
        cases.case("compare --strict, and what is told can't be written", cases.run([*words, "a.log", "a.log"], stderr=full), UNCLEAN, b"", None)


def shown_comparisons(cases):
    """The items at which the logs differ, in words and as JSON, beside other options."""
    shown = b"different at item 2\nleft: nothing\nright: 2 stray unit 62F19001\n"
    stray = b'{"item":2,"kind":"stray","direction":"unit","message":"62F19001"}'
    different = b'{"same":false,"item":2'
    for words, status, output in [
        (["--show", "clean.log", "more.log"], DIFFERENT, shown),
        (["clean.log", "--show", "more.log", "--strict"], DIFFERENT, shown),
        (["--show", "clean.log", "clean.log"], DONE, b"same\n"),
        (["--json", "clean.log", "clean.log"], DONE, b'{"same":true}\n'),
        (["--json", "--show", "clean.log", "clean.log"], DONE, b'{"same":true}\n'),
        (["--json", "clean.log", "more.log"], DIFFERENT, different + b"}\n"),
        (["--json", "--show", "clean.log", "more.log"], DIFFERENT, different + b',"left":null,"right":' + stray + b"}\n"),
        (["--json", "--show", "--strict", "more.log", "clean.log"], DIFFERENT, different + b',"left":' + stray + b',"right":null}\n'),
    ]:
        cases.case(f"compare {' '.join(words)}", cases.run(["compare", *words]), status, output)
    lacks = b"right: not clean: frames 1 dropped 0 ended 0 unfinished 0, no frame of the unit\n"
    cases.case("compare --json --show --strict", cases.run(["compare", "--json", "--show", "--strict", "clean.log", "a.log"]), UNCLEAN, b"", lacks)
    with open("/dev/full", "wb") as full:
        cases.case("compare --show on a full disk", cases.run(["compare", "--show", "clean.log", "more.log"], stdout=full), DEVICE, None, WRITE_FAILED)


def lists_without_numbers(cases):
    """An exchange more in the middle of 600 is a line more, and changes no other; with numbers it changes each behind it."""
    cases.case("--no-numbers", cases.run(["list", "--no-numbers"], LOG), DONE, LIST.removeprefix(b"1 "))
    cases.case("--no-numbers after the file", cases.run(["list", "a.log", "--no-numbers"]), DONE, LIST.removeprefix(b"1 "))
    cases.case("--json", cases.run(["list", "--json"], LOG), DONE, LIST_JSON)
    cases.case("--json and --no-numbers", cases.run(["list", "--json", "a.log", "--no-numbers"]), DONE, LIST_JSON.replace(b'"item":1,', b""))
    for job in ["explain", "messages"]:
        cases.case(f"{job} --json", cases.run([job, "--json"], LOG), DONE, in_objects(job, TEXTS[job]))
    requests = [f"(1700000000.{at:06}) can0 7E0#0322{at:04X}\n".encode() for at in range(601)]
    one, other = b"".join(requests[:300] + requests[301:]), b"".join(requests)
    for words, changed in [(["list", "--no-numbers"], ["+"]), (["list"], ["+"] * 301 + ["-"] * 300)]:
        texts = [cases.run(words, log).output.decode().splitlines() for log in (one, other)]
        marks = [line[0] for line in list(difflib.unified_diff(*texts, n=0, lineterm=""))[2:] if line[0] in "+-"]
        wrong = [] if [*map(len, texts)] == [600, 601] and sorted(marks) == changed else [f"{len(marks)} lines changed"]
        cases.report(f"an exchange more by {words}", wrong)


def extended_identifiers(cases):
    """Eight digits are an extended identifier, in either case; equal numbers of two formats are two identifiers."""
    extended = LOG.replace(b"7E0", b"18DA10F1")
    for tester in ["18DA10F1", "18da10f1"]:
        cases.case(f"--tester {tester}", cases.run(["list", "--tester", tester], extended), DONE, LIST)
    cases.case("the canonical log of an extended identifier", cases.run(["normalise", "--tester=18da10f1"], extended), DONE, CANONICAL.replace(b"7E0", b"18DA10F1"))
    cases.case("eight digits for a frame of three", cases.run(["list", "--tester", "000007E0"], LOG), DONE)
    cases.case("eight digits for a frame of eight", cases.run(["list", "--tester", "000007E0"], LOG.replace(b"7E0", b"000007E0")), DONE, LIST)
    cases.case("one number in two formats", cases.run(["list", "--tester", "7E0", "--unit", "000007E0"], LOG), DONE, LIST)


def comparisons(cases):
    cases.case("a log compared with itself", cases.run(["compare", "a.log", "a.log"]), DONE, b"same\n")
    cases.case("a log compared with none", cases.run(["compare", "a.log", "empty.log"]), DIFFERENT, b"different at item 1\n")
    cases.case("options of compare", cases.run(["compare", "--tester=7E2", "other.log", "--limit", "50", "other.log"]), DONE, b"same\n")
    for name, left, right, status, error in [
        ("a refused left log", "refused.log", "a.log", REFUSAL, b"left: " + BAD_PLACE),
        ("a refused right log", "a.log", "refused.log", REFUSAL, b"right: " + BAD_PLACE),
        ("two refused logs", "refused.log", "refused.log", REFUSAL, b"left: " + BAD_PLACE),
        ("a left log that is not there", "missing", "refused.log", DEVICE, b"left: " + READ_FAILED),
        ("a right log that is not there, after a refused one", "refused.log", "missing", DEVICE, b"right: " + READ_FAILED),
        ("no log of the two is there", "missing", "missing", DEVICE, b"left: " + READ_FAILED),
        ("a directory for the right log, after a refused one", "refused.log", ".", REFUSAL, b"left: " + BAD_PLACE),
        ("a directory for the right log", "a.log", ".", DEVICE, b"right: " + READ_FAILED),
        ("a directory for the left log", ".", "a.log", DEVICE, b"left: " + READ_FAILED),
        ("two empty names", "", "", DEVICE, b"left: " + READ_FAILED),
        ("a right log with a message above the limit", "a.log", "oversize.log", REFUSAL, b"right: " + oversize(1, 1_048_576)),
    ]:
        cases.case(name, cases.run(["compare", left, right]), status, b"", error)
    for limit, left, right, error in [
        ("37", "empty.log", "a.log", b"right: " + LONG_LOG),
        ("45", "a.log", "a.log", b"left: " + LONG_CANONICAL),
    ]:
        cases.case(f"compare --limit {limit}", cases.run(["compare", "--limit", limit, left, right]), REFUSAL, b"", error)
    for words, status, output, error in [
        (["compare", "--limit=92", "a.log", "--unit", "7e2", "--", "-b"], DIFFERENT, b"different at item 2\n", b""),
        (["compare", "--limit=91", "a.log", "--unit", "7e2", "--", "-b"], REFUSAL, b"", b"right: " + LONG_CANONICAL),
        (["compare", "--limit=91", "--unit", "7e2", "--", "-b", "a.log"], REFUSAL, b"", b"left: " + LONG_CANONICAL),
        (["compare", "a.log", "--", "-b"], DONE, b"same\n", b""),
    ]:
        cases.case(" ".join(words), cases.run(words), status, output, error)


def files_that_fail(cases):
    for job in commands.over_one_log(cases.program):
        cases.case(f"{job} of a file that is not there", cases.run([job, "missing"]), DEVICE, b"", READ_FAILED)
        cases.case(f"{job} of a directory", cases.run([job, "."]), DEVICE, b"", READ_FAILED)
        cases.case(f"{job} of an empty name", cases.run([job, ""]), DEVICE, b"", READ_FAILED)


def sizes():
    """0, 1, each power of two up to the longest path with one beside it, and more."""
    powers = [2**k for k in range(1, 13)]
    return sorted({0, 2 * PATH_MAX, *powers, *(power - 1 for power in powers), *(power + 1 for power in powers)})


def path_of(size):
    """A path of this many bytes: a name, or slashes before one."""
    return "n" * size if size < 7 else "." + "/" * (size - 6) + "a.log"


def paths_of_each_size(cases):
    """A path is opened up to the longest one, and memory suffices for those beyond it."""
    jobs = commands.over_one_log(cases.program)
    for size in sizes():
        path = path_of(size)
        if 0 < size < 7:
            Path(path).write_bytes(LOG)
        is_path = 0 < size < PATH_MAX
        for job in jobs:
            want = (DONE, text_of(job, path), b"") if is_path else (DEVICE, b"", READ_FAILED)
            cases.case(f"{job} of a path of {size} bytes", cases.run([job, path]), *want)
        for words, side in [([path, "a.log"], b"left: "), (["a.log", path], b"right: ")]:
            want = (DONE, b"same\n", b"") if is_path else (DEVICE, b"", side + READ_FAILED)
            cases.case(f"compare, {side.decode()}a path of {size} bytes", cases.run(["compare", *words]), *want)


def words_of_each_size(cases):
    """Words of any length are read, and told whole where they don't fit."""
    for size in [*sizes(), 65536]:
        status, output, error = cases.run(["n" * size])
        wrong = [] if (status, output) == (WORDS, b"") else [f"status {status}, output {output[:100]!r}"]
        wrong += [] if b"'" + b"n" * size + b"'" in error else [f"error output {error[:100]!r}"]
        cases.report(f"a command of {size} bytes", wrong)
        want = {3: (DONE, b"", b""), 8: (WORDS, b"", OUT_OF_RANGE)}.get(size, (WORDS, b"", NOT_DIGITS))
        cases.case(f"an identifier of {size} digits", cases.run(["list", "--tester", "7" * size, "a.log"]), *want)
        if size >= 2:
            cases.case(f"a limit of {size} digits", cases.run(["list", "--limit", "46".zfill(size), "a.log"]), DONE, LIST)


def helps(program):
    """Words that ask for help, and whose it is."""
    yield from [(["--help"], OF_PROGRAM), (["-h"], OF_PROGRAM), (["list", "--tester", "7E", "-h"], "list")]
    yield from [([command, option], command) for command in commands.all_commands(program) for option in ("--help", "-h")]


def help_texts(cases):
    """Each help is that of its file, and is told whatever the log is."""
    for words, name in helps(cases.program):
        found = cases.run(words, NO_LOG_LINE)
        cases.report(f"help by {words}", help_differs(found, HELPS.get(name, b"")))
    with open("/dev/full", "wb") as full:
        cases.case("help on a full disk", cases.run(["--help"], stdout=full), DEVICE, None, WRITE_FAILED)


def help_differs(found, want):
    """How a run that asks for help differs from its text, line by line."""
    wrong = [] if found.status == DONE and not found.error else [f"status {found.status}, error output {found.error!r}"]
    lines = difflib.ndiff(want.decode().splitlines(keepends=True), found.output.decode().splitlines(keepends=True))
    return wrong + [repr(line) for line in lines if line[0] in "+-"]


def files_of_helps(cases):
    """There is a file for the program and for each command. It begins with what the command does, as the program's has it, ends with an
    example, and fits on a screen, the list of the commands aside."""
    names = commands.all_commands(cases.program)
    cases.report("the files of help are those of the commands", [] if sorted(HELPS) == sorted([OF_PROGRAM, *names]) else [str(sorted(HELPS))])
    listed = re.search(r"^Commands:\n((?:  .*\n)+)", HELPS[OF_PROGRAM].decode(), re.M)[1]
    about = dict(re.findall(r"^  (\w+) +(.*)$", listed, re.M))
    for name, text in HELPS.items():
        lines = text.decode().splitlines()
        wrong = [] if name == OF_PROGRAM or lines[0] == about.get(name) else [f"it begins with {lines[0]!r}"]
        wrong += [] if re.match(rf"Example: .*udsnorm {'' if name == OF_PROGRAM else name}\b", lines[-1]) else [f"it ends with {lines[-1]!r}"]
        most = 22 + len(names) if name == OF_PROGRAM else 32
        wrong += [] if len(lines) <= most and max(map(len, lines)) <= 100 else ["more than a screen"]
        cases.report(f"the file of the help of {name}", wrong)


def version(cases):
    """The number of the version is that of the file, and no log is read for it."""
    for words in [["--version"], ["-V"]]:
        cases.case(f"the version by {words}", cases.run(words, LOG), DONE, VERSION)
    with open("/dev/full", "wb") as full:
        cases.case("the version on a full disk", cases.run(["--version"], stdout=full), DEVICE, None, WRITE_FAILED)


def wrong_words(cases):
    for words in [
        ["lis"], ["Normalise"], [""], ["help"], ["--version=1"], ["-v"], ["list", "--version"], ["list", "-V"],
        ["--tester", "7E0"], ["--limit", "5", "list"], ["a.log"], ["compare"], ["compare", "a"], ["compare", "--", "a"],
        ["compare", "--limit", "5", "a"], ["compare", "a", "b", "c"], ["list", "a", "b"], ["list", "--limit"],
        ["list", "--limit", "1", "--limit", "2"], ["list", "--tester=7E0", "--tester=7E0"], ["list", "--limi", "1"],
        ["list", "--limit=x"], ["list", "--json=1"], ["list", "--json", "--json"], ["explain", "--json=1"],
        ["messages", "--json", "--json"], ["normalise", "--json"], ["--json"], ["find", "--tester", "7E0"],
        ["find", "--unit=7E8"], ["find", "--strict"], ["find", "--no-numbers"], ["find", "--json=1"], ["find", "--toml=1"], ["find", "--toml", "--toml"],
        ["list", "--toml"], ["find", "a", "b"],
        ["list", "--no-numbers=1"], ["list", "--no-numbers", "--no-numbers"], ["watch", "--no-numbers=1"],
        ["watch", "--json=1"], ["normalise", "--no-numbers"], ["explain", "--no-numbers"], ["report", "--json"],
        ["report", "--no-numbers"], ["report", "--show"], ["report", "--strict=1"], ["report", "a", "b", "c"],
        ["compare", "--no-numbers", "a", "b"], ["compare", "--strict", "a"], ["compare", "--strict=1", "a", "b"],
        ["compare", "--show=1", "a", "b"], ["compare", "--show", "--show", "a", "b"], ["compare", "--json=1", "a", "b"],
        ["list", "--show"], ["--show"], ["--strict"], ["list", "--strict=1"], ["--no-numbers"], ["list", "--limit=-1"],
        ["list", "--limit=1.5"], ["list", "--limit="], ["list", "--limit=18446744073709551616"],
        ["list", "--tester", "7E", "--limit", "x"], ["list", "-x"],
    ]:
        status, output, error = cases.run(words, LOG)
        wrong = [] if status == WORDS and output == b"" else [f"status {status}, output {output!r}"]
        wrong += [] if error.startswith(b"error: ") and error.endswith(b"\n") else [f"error output {error!r}"]
        cases.report(f"wrong words {words}", wrong)
    for words in [["find", "--json", "--toml"], ["find", "--toml", "--json"]]:
        cases.case(f"wrong words {words}", cases.run(words, LOG), WORDS, b"", b"--json beside --toml\n")
    for words in [[b"\xff\xfe"], ["list", b"\xff"], ["list", b"--tester=\xff"]]:
        cases.case(f"words that are no UTF-8: {words}", cases.run(words, LOG), WORDS, b"", NO_TEXT)
    for words, shown in ESCAPED:
        status, output, error = cases.run(words, LOG)
        wrong = [] if (status, output) == (WORDS, b"") and shown in error else [f"status {status}, output {output!r}, error output {error!r}"]
        wrong += [f"{byte:02X} is told" for byte in sorted({*error} - {10, *range(32, 127)})]
        cases.report(f"what is told of the words {words}", wrong)


def wrong_values(cases):
    """Identifiers come before the configuration, and that in its order."""
    for words, error in [
        (["list", "--tester", "7E"], NOT_DIGITS),
        (["list", "--tester", "07E0"], NOT_DIGITS),
        (["list", "--tester", "+7E"], NOT_DIGITS),
        (["list", "--tester", "7G0"], NOT_DIGITS),
        (["list", "--tester", "18DA10F"], NOT_DIGITS),
        (["list", "--tester", "18DA10F10"], NOT_DIGITS),
        (["list", "--tester", "+8DA10F1"], NOT_DIGITS),
        (["list", "--tester="], NOT_DIGITS),
        (["explain", "--unit", "7e"], NOT_DIGITS),
        (["compare", "--unit", "7e", "missing", "missing"], NOT_DIGITS),
        (["list", "--tester", "7E", "--unit", "800", "--limit", "0"], NOT_DIGITS),
        (["list", "--tester", "800"], OUT_OF_RANGE),
        (["list", "--unit", "FFF"], OUT_OF_RANGE),
        (["list", "--tester", "20000000"], OUT_OF_RANGE),
        (["list", "--unit", "FFFFFFFF"], OUT_OF_RANGE),
        (["list", "--tester", "800", "--unit", "800", "--limit", "0"], OUT_OF_RANGE),
        (["explain", "--unit", "7E0"], SAME_IDENTIFIER),
        (["explain", "--unit", "7e0", "--limit", "0"], SAME_IDENTIFIER),
        (["list", "--tester", "18da10f1", "--unit", "18DA10F1"], SAME_IDENTIFIER),
        (["list", "--limit", "0"], LIMIT_RANGE),
        (["list", "--limit", "1099511627777"], LIMIT_RANGE),
        (["normalise", "--limit", "18446744073709551615"], LIMIT_RANGE),
    ]:
        cases.case(f"wrong values {words}", cases.run(words, LOG), WORDS, b"", error)
    with open("/dev/full", "wb") as full:
        cases.case("wrong values on a full disk", cases.run(["list", "--limit=0"], stdout=full), WORDS, None, LIMIT_RANGE)


def main():
    if len(sys.argv) < 2:
        sys.exit(__doc__)
    cases = Cases(os.path.abspath(sys.argv[1]), sys.argv[2:])
    files = {
        "a.log": LOG, "-": LOG, "--limit": LOG, "größe.log": LOG, "empty.log": b"",
        "other.log": LOG.replace(b"7E0", b"7e2"), "-b": LOG + LOG.replace(b"7E0", b"7e2"), "refused.log": NO_LOG_LINE,
        "oversize.log": OVERSIZE, "clean.log": LOG + ANSWER, "more.log": LOG + 2 * ANSWER,
    }
    with tempfile.TemporaryDirectory() as folder:
        for name, log in files.items():
            Path(folder, name).write_bytes(log)
        os.chdir(folder)
        cases.each([
            jobs, options, strict_runs, strict_comparisons, shown_comparisons, lists_without_numbers, extended_identifiers, comparisons,
            files_that_fail, paths_of_each_size, words_of_each_size, help_texts, files_of_helps, version, wrong_words, wrong_values,
        ])
        os.chdir("/")
    cases.end()


main()
