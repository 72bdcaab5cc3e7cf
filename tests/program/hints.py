#!/usr/bin/env python3
"""Tests of the hints of the built program: a terminal as standard error is told a line more, and nothing else is without
`--hints`.

    tests/program/hints.py crates/udsnorm/out/udsnorm [TEST..]

Prints a line for each case and ends with `N passed, M failed`; its status is 1 where a case failed.
"""

import bz2
import gzip
import lzma
import os
import select
import shlex
import subprocess
import sys
import tempfile
import termios
from pathlib import Path

sys.path.insert(0, str(Path(__file__).resolve().parents[1] / "helpers"))

from cases import DEVICE, REFUSAL, UNCLEAN, WORDS, Cases
from commands import over_one_log
from runs import told_by
from tables import EXAMPLES

VIN = EXAMPLES / "vin.log"
CRLF = EXAMPLES / "vin-fd-crlf.log"
FIRST = EXAMPLES / "first.log"
LOST = EXAMPLES / "lost-frame.log"

# Names of files, and how a hint has them: as they are, or so that a shell reads them back, without a control character.
NAMES = {
    "a.log": "a.log",
    "A-z_0.9+:@%,=": "A-z_0.9+:@%,=",
    "two words": "$'two words'",
    "it's": "$'it\\x27s'",
    "back\\slash": "$'back\\x5Cslash'",
    "\x1b[2J\n": "$'\\x1B[2J\\x0A'",
    "Prüf~": "$'Pr\\xC3\\xBCf~'",
    "$HOME": "$'$HOME'",
}

# What is told before a terminal is read.
AWAITED = b"hint: standard input is read; Ctrl-D ends it\n"

# What a log looks like that begins with the sign of zstd.
ZSTANDARD = "looks compressed with zstd; zstdcat unpacks it"

# The number of a user who owns nothing.
NOBODY = 65534


def hinted(cases, name, words, folder, status, hint, **options):
    """A hint comes behind what is told without a terminal, which stays as it is, and so do the status and the text."""
    plain = cases.run(words, cwd=folder, **options)
    found = told_by(cases.program, words, folder, **options)
    line = f"hint: {hint}\n".encode() if hint else b""
    cases.case(name, found, status, plain.output, plain.error + line)
    cases.report(f"{name}, without a terminal", ["it has a hint"] if plain.status != status or b"hint: " in plain.error else [])
    if words:
        asked = cases.run(with_hints(words), cwd=folder, **options)
        is_same = asked.status == status and asked.output == plain.output and asked.error.endswith(line)
        cases.report(f"{name}, with --hints", [] if is_same and asked.error.count(b"hint: ") == (1 if hint else 0) else [f"{asked}"])


def with_hints(words):
    """The words with `--hints` more, which stands before the `--` that ends options."""
    end = words.index("--") if "--" in words else len(words)
    return [*words[:end], "--hints", *words[end:]]


def files(cases, folder):
    """Which file can't be opened or read, and why."""
    Path(folder, "logs").mkdir()
    Path(folder, "mine.log").write_bytes(VIN.read_bytes())
    missing, is_a_folder = "there is no file none.log", "logs is a folder"
    for words, hint in [
        (["list", "none.log"], missing),
        (["list", "mine.log/none.log"], "there is no file mine.log/none.log"),
        (["list", "logs"], is_a_folder),
        (["compare", "none.log", "none"], missing),
        (["compare", "mine.log", "none.log"], missing),
        (["compare", "logs", "mine.log"], is_a_folder),
        (["compare", "mine.log", "logs"], is_a_folder),
        (["list", "l" * 300], f"{'l' * 300} can't be opened"),
        (["list", "/proc/self/mem"], "reading /proc/self/mem failed"),
    ]:
        hinted(cases, " ".join(words)[:60], words, folder, DEVICE, hint)
    descriptor = os.open(folder, os.O_RDONLY)
    hinted(cases, "a folder for standard input", ["list"], folder, DEVICE, "reading standard input failed", stdin=descriptor)
    os.close(descriptor)


def denied(cases, folder):
    """A file that can't be opened by whoever runs the program: nobody, where this user may read each file."""
    log = Path(folder, "denied.log")
    log.write_bytes(b"")
    log.chmod(0)
    Path(folder).chmod(0o755)
    options = {"user": NOBODY} if os.access(log, os.R_OK) else {}
    try:
        subprocess.run([cases.program, "--version"], stdout=subprocess.DEVNULL, timeout=60, **options)
    except (OSError, subprocess.SubprocessError) as why:
        print(f"skipped list denied.log: nobody else can run the program here ({why})", flush=True)
        return
    hinted(cases, "list denied.log", ["list", "denied.log"], folder, DEVICE, "no permission to read denied.log", **options)


def limits(cases, folder):
    """The limit that a log or its canonical log passes, which the words give or leave out, and the option that sets it."""
    Path(folder, "fd.log").write_bytes(CRLF.read_bytes())
    Path(folder, "request.log").write_bytes(FIRST.read_bytes())
    hint = "the limit is {} bytes; --limit sets it, up to 1099511627776"
    for words, limit in [
        (["list", "--limit", "211", "mine.log"], 211),
        (["messages", "--limit", "1", "mine.log"], 1),
        (["normalise", "--limit", "112", "fd.log"], 112),
        (["compare", "--limit", "112", "fd.log", "mine.log"], 112),
        (["compare", "--limit", "211", "mine.log", "fd.log"], 211),
        (["compare", "--limit", "112", "request.log", "fd.log"], 112),
        (["find", "--limit", "100", "mine.log"], 100),
    ]:
        hinted(cases, shlex.join(words), words, folder, REFUSAL, hint.format(limit))
    hinted(cases, "standard input past the limit", ["list", "--limit", "99"], folder, REFUSAL, hint.format(99), log=VIN.read_bytes())
    # No option raises the limit of a message.
    hinted(cases, "a message past the limit", ["list"], folder, REFUSAL, None, log=b"(1.000000) can0 7E8#1000001000004142\n")


def names(cases, folder):
    """A name stands as it is, or as a shell reads it back; so it is one word, and the file's."""
    for name, shown in NAMES.items():
        hinted(cases, f"no file {name!r}", ["list", name], folder, DEVICE, f"there is no file {shown}")
        read = subprocess.run(["bash", "-c", f"printf %s {shown}"], stdout=subprocess.PIPE, timeout=60).stdout
        cases.report(f"{shown} as a shell reads it", [] if read == name.encode() else [f"{read!r}"])
    # However long a name is, all of it is told.
    for power in range(8, 13):
        long = "l" * 2**power
        hinted(cases, f"a name of {len(long)} bytes", ["list", long], folder, DEVICE, f"{long} can't be opened")
    hinted(cases, "no file ''", ["list", ""], folder, DEVICE, "there is no file $''")
    for given in [["list", "-"], ["compare", "-", "mine.log"], ["compare", "mine.log", "-"]]:
        hint = "there is no file -; standard input is read where no file is named, or as /dev/stdin"
        hinted(cases, shlex.join(given), given, folder, DEVICE, hint)


def words(cases, folder):
    """What to write instead of words that don't fit: the name of a file where a command has its place, or of two, and words that
    other programs have there."""
    to_help = "udsnorm --help has the commands, udsnorm COMMAND --help the options of one"
    Path(folder, "two words.log").write_bytes(b"")
    Path(folder, "list").write_bytes(b"")
    Path(folder, "--limit").write_bytes(b"")
    for given, hint in [
        (["mine.log"], "mine.log is a file: udsnorm list mine.log"),
        (["./list"], "./list is a file: udsnorm list ./list"),
        (["two words.log", "--json"], "$'two words.log' is a file: udsnorm list $'two words.log'"),
        (["mine.log", "two words.log"], "mine.log and $'two words.log' are files: udsnorm compare mine.log $'two words.log'"),
        (["mine.log", "./list", "--show"], "mine.log and ./list are files: udsnorm compare mine.log ./list"),
        (["mine.log", "none.log"], "mine.log is a file: udsnorm list mine.log"),
        (["mine.log", "list"], "mine.log is a file: udsnorm list mine.log"),
        (["none.log", "mine.log"], None),
        (["help"], to_help),
        (["help", "list"], to_help),
        (["version"], "udsnorm --version tells the version"),
        (["-"], "standard input is read where no file is named: udsnorm list"),
        (["Help"], None),
        (["logs"], None),
        (["none.log"], None),
        (["list", "--lim", "1"], None),
        (["list", "--limit", "0"], "--limit takes 1 to 1099511627776 bytes"),
        (["--limit", "1"], None),
        (["list", "mine.log", "mine.log"], None),
        (["compare", "mine.log"], None),
    ]:
        hinted(cases, f"the words {shlex.join(given)}", given, folder, WORDS, hint)
    hinted(cases, "help is a name behind a command", ["list", "help"], folder, DEVICE, "there is no file help")


def values(cases, folder):
    """Which option has a value that is no identifier, and what to write; or both have the same one."""
    rule = "; an identifier has three hexadecimal digits, up to 7FF, or eight, up to 1FFFFFFF"
    for given, hint in [
        (["list", "--tester", "0x7E0"], "--tester is 0x7E0; write 7E0"),
        (["list", "--unit=0X18DAF110"], "--unit is 0X18DAF110; write 18DAF110"),
        (["compare", "--unit", "0x7e8", "none.log", "none.log"], "--unit is 0x7e8; write 7e8"),
        (["list", "--tester", "0x7E"], "--tester is 0x7E" + rule),
        (["list", "--tester", "7E0h"], "--tester is 7E0h" + rule),
        (["list", "--tester", "7G0", "--unit", "0x7E8"], "--tester is 7G0" + rule),
        (["list", "--tester", ""], "--tester is $''" + rule),
        (["list", "--tester", "\x1b[31m"], "--tester is $'\\x1B[31m'" + rule),
        (["list", "--tester", "800"], "--tester is 800" + rule),
        (["list", "--unit", "20000000", "--limit", "0"], "--unit is 20000000" + rule),
        (["list", "--tester", "7E8"], "--tester is 7E8, --unit 7E8"),
        (["watch", "--unit", "7e0"], "--tester is 7E0, --unit 7e0"),
    ]:
        hinted(cases, f"the values {shlex.join(given)}", given, folder, WORDS, hint)


def awaited(cases, folder):
    """Before a terminal is read as standard input, a terminal as standard error is told."""
    for given, is_awaited, is_empty in [
        ([], True, True), (["list"], True, True), (["find", "--json"], True, True), (["list", "mine.log"], False, False), (["--version"], False, False),
        (["compare", "mine.log", "mine.log"], False, False),
    ]:
        ours, theirs = os.openpty()
        attributes = termios.tcgetattr(theirs)
        attributes[1] &= ~termios.OPOST
        attributes[3] &= ~termios.ECHO
        termios.tcsetattr(theirs, termios.TCSANOW, attributes)
        process = subprocess.Popen([cases.program, *given], stdin=theirs, stdout=subprocess.DEVNULL, stderr=theirs, cwd=folder)
        told = os.read(ours, 4096) if is_awaited and select.select([ours], [], [], 60)[0] else b""
        os.write(ours, b"\x04")
        status = process.wait(timeout=60)
        rest = os.read(ours, 4096) if select.select([ours], [], [], 0)[0] else b""
        os.close(theirs)
        os.close(ours)
        want = (0, AWAITED if is_awaited else b"", b"hint: standard input is empty\n" if is_empty else b"")
        cases.report(f"a terminal for {shlex.join(given)}", [] if (status, told, rest) == want else [f"{(status, told, rest)}"])


def pairs(cases, folder):
    """A log in which `find` finds no pair."""
    Path(folder, "request.log").write_bytes(FIRST.read_bytes())
    hint = "nothing in {} answers another identifier; find needs the frames of both sides, and looks at each identifier up to 1FFFFFFF"
    for given in [["find", "request.log"], ["find", "--json", "request.log"]]:
        hinted(cases, f"no pair for {shlex.join(given)}", given, folder, 0, hint.format("request.log"))
    hinted(cases, "no pair in no log", ["find"], folder, 0, "standard input is empty")
    for given in [["find", "mine.log"], ["find", "--json", "mine.log"]]:
        hinted(cases, f"nothing of {shlex.join(given)}", given, folder, 0, None)


def foreign(cases, folder):
    """A log that has lines, and no frame of either identifier: each job but `find` is told so."""
    other = VIN.read_bytes().replace(b"7E0#", b"18DA10F1#").replace(b"7E8#", b"18DAF110#")
    no_frame = b"(1.000000) can0 20000080#0000000000000000\n"
    for name, log in [("other.log", other), ("an other.log", other), ("-other.log", other), ("error.log", no_frame), ("blank.log", b"\n"), ("empty.log", b"")]:
        Path(folder, name).write_bytes(log)
    hint = "{} has no frame of {}; udsnorm find{} names its identifiers"
    usual = hint.format("other.log", "7E0 or 7E8", " other.log")
    for job in over_one_log(cases.program):
        told = "nothing in {} answers another identifier; find needs the frames of both sides, and looks at each identifier up to 1FFFFFFF"
        found = job == "find"
        hinted(cases, f"{job} of other identifiers", [job, "other.log"], folder, 0, None if found else usual)
        hinted(cases, f"{job} of no frames", [job, "error.log"], folder, 0, told.format("error.log") if found else hint.format("error.log", "7E0 or 7E8", " error.log"))
        hinted(cases, f"{job} of a blank line", [job, "blank.log"], folder, 0, told.format("blank.log") if found else hint.format("blank.log", "7E0 or 7E8", " blank.log"))
        hinted(cases, f"{job} of an empty log", [job, "empty.log"], folder, 0, "empty.log is empty")
    for given, hint_of in [
        (["list", "an other.log"], ("$'an other.log'", "7E0 or 7E8", " $'an other.log'")),
        (["list", "--", "-other.log"], ("-other.log", "7E0 or 7E8", " -- -other.log")),
        (["list", "--tester", "7e1", "--unit", "00000709", "mine.log"], ("mine.log", "7E1 or 00000709", " mine.log")),
    ]:
        hinted(cases, f"no frame of {shlex.join(given)}", given, folder, 0, hint.format(*hint_of))
    hinted(cases, "no frame of standard input", ["list"], folder, 0, hint.format("standard input", "7E0 or 7E8", ""), log=other)
    hinted(cases, "no frame of a log that has to be clean", ["list", "--strict", "other.log"], folder, UNCLEAN, usual)
    hinted(cases, "one frame of a side", ["list", "--tester", "7E0", "--unit", "7FF", "mine.log"], folder, 0, "dropped frames in mine.log: 1; udsnorm explain shows where")
    for job in ["compare", "diff", "report"]:
        for left, right, status in [("other.log", "mine.log", 1), ("mine.log", "other.log", 1), ("other.log", "an other.log", 0)]:
            hinted(cases, f"{job} {left} {right}", [job, left, right], folder, status, usual)
        hinted(cases, f"{job} mine.log empty.log", [job, "mine.log", "empty.log"], folder, 1, "empty.log is empty")
        hinted(cases, f"{job} empty.log other.log", [job, "empty.log", "other.log"], folder, 0, "empty.log is empty")
    hinted(cases, "compare --strict", ["compare", "--strict", "mine.log", "other.log"], folder, UNCLEAN, usual)


def exchanged(cases, folder):
    """A log whose sides look exchanged: no request, a message of the tester with bit 6 of its first byte, one of the unit without."""
    request, answer = b"(1.000000) can0 7E0#0322F190\n", b"(1.010000) can0 7E8#0462F19041\n"
    alive, alive_of_unit, refusal = b"(1.020000) can0 7E0#023E80\n", b"(1.020000) can0 7E8#023E80\n", b"(1.010000) can0 7E8#037F2231\n"
    swapped = ["--tester", "7E8", "--unit", "7E0"]
    told = "tester and unit look exchanged in {}: udsnorm list --tester 7E0 --unit 7E8{}"
    for name, log, is_told in [
        ("whole.log", VIN.read_bytes(), True),
        ("short.log", request + answer, True),
        ("later.log", alive_of_unit + answer + request, True),
        ("negative.log", request + refusal, True),
        ("keep-alive.log", answer + alive, True),
        ("beside a keep-alive.log", request + answer + alive_of_unit, True),
        ("-dash.log", request + answer, True),
        ("requests.log", request, False),
        ("answers.log", answer, False),
        ("two keep-alives.log", request + alive_of_unit, False),
        ("one request.log", request + answer + b"(1.030000) can0 7E8#0322F190\n", False),
    ]:
        Path(folder, name).write_bytes(log)
        shown = f"$'{name}'" if " " in name else name
        behind = f" -- {name}" if name[0] == "-" else f" {shown}"
        hinted(cases, f"exchanged sides in {name}", ["list", *swapped, "--", name], folder, 0, told.format(shown, behind) if is_told else None)
        hinted(cases, f"the right sides in {name}", ["list", "--", name], folder, 0, None)
    for job in over_one_log(cases.program, "--tester"):
        hinted(cases, f"{job} with exchanged sides", [job, *swapped, "short.log"], folder, 0, told.format("short.log", " short.log"))
    hinted(cases, "exchanged sides in standard input", ["list", *swapped], folder, 0, told.format("standard input", ""), log=request + answer)
    hinted(cases, "exchanged sides, strictly", ["list", "--strict", *swapped, "short.log"], folder, 0, told.format("short.log", " short.log"))
    for job in ["compare", "diff", "report"]:
        hinted(cases, f"{job} with exchanged sides in both", [job, *swapped, "short.log", "whole.log"], folder, 1, told.format("short.log", " short.log"))
        hinted(cases, f"{job} with exchanged sides in one", [job, *swapped, "requests.log", "short.log"], folder, 1, told.format("short.log", " short.log"))


def exchanged_to_all(cases, folder):
    """What exchanges the sides of a run with an identifier of functional requests keeps that, beside a profile, too. Run as it stands, it
    has what the run without its faults has."""
    request, answer, to_all = b"(1.000000) can0 7E0#0322F190\n", b"(1.010000) can0 7E8#0462F19041\n", b"(1.020000) can0 7DF#023E80\n"
    other_way = {b"7E0": b"7E8", b"7E8": b"7E0"}
    turned = b"".join(line.replace(line[16:19], other_way[line[16:19]]) for line in (request, answer)) + to_all
    Path(folder, "rules.toml").write_text('drop = ["3E", "7E"]\n')
    Path(folder, "to all.toml").write_text('[[unit]]\nname = "engine"\ntester = "7E8"\nunit = "7E0"\nfunctional = "7DF"\n')
    all_units, swapped = ["--functional", "7DF"], ["--tester", "7E8", "--unit", "7E0"]
    told = "tester and unit look exchanged in to-all.log: "
    for name, log, given, options in [
        ("all", request + answer + to_all, [*swapped, *all_units], "--tester 7E0 --unit 7E8 --functional 7DF"),
        ("all, in lower case", request + answer + to_all, [*swapped, "--functional", "7df"], "--tester 7E0 --unit 7E8 --functional 7DF"),
        ("29 bits", request + answer, [*swapped, "--functional", "18db33f1"], "--tester 7E0 --unit 7E8 --functional 18DB33F1"),
        ("all, no side given", turned, all_units, "--tester 7E8 --unit 7E0 --functional 7DF"),
        ("all, one side given", turned, [*all_units, "--unit", "7E8"], "--tester 7E8 --unit 7E0 --functional 7DF"),
    ]:
        Path(folder, "to-all.log").write_bytes(log)
        for beside, profile in [("", ""), (", beside rules", " --profile=rules.toml")]:
            command = f"udsnorm list{profile} {options} to-all.log"
            hinted(cases, f"exchanged sides with {name}{beside}", ["list", *given, *profile.split(), "to-all.log"], folder, 0, told + command)
            done = subprocess.run(["bash", "-c", command.replace("udsnorm", str(cases.program), 1)], cwd=folder, stdout=subprocess.PIPE, timeout=60)
            pair = b"1 exchange ReadDataByIdentifier 22F190 -> positive 62F19041\n"
            want = pair + (b"2 stray tester 3E80\n" if to_all in log and not profile else b"")
            cases.report(f"what the hint says with {name}{beside}", [] if (done.returncode, done.stdout) == (0, want) else [f"{done}"])
    Path(folder, "to-all.log").write_bytes(request + answer + to_all)
    in_profile = told + "write tester = \"7E0\" and unit = \"7E8\" in a [[unit]] of $'to all.toml'"
    hinted(cases, "exchanged sides of a unit with functional requests", ["list", "--profile", "to all.toml", "to-all.log"], folder, 0, in_profile)


def profiles(cases, folder):
    """A hint under a profile: one that can't be read, sides that look exchanged, and one log or two of which the rules leave nothing."""
    for name, text in [
        ("rules.toml", 'drop = ["3E", "7E"]\n'),
        ("two words.toml", 'drop = ["3E", "7E"]\n'),
        ("swapped.toml", '[[unit]]\nname = "engine"\ntester = "7E8"\nunit = "7E0"\n'),
        ("all.toml", 'drop = ["22", "62"]\n'),
        ("requests.toml", 'drop = ["22"]\n'),
    ]:
        Path(folder, name).write_text(text)
    for given in [["list", "--profile", "none.toml", "mine.log"], ["compare", "--profile=none.toml", "mine.log", "none.log"]]:
        hinted(cases, shlex.join(given), given, folder, DEVICE, "there is no file none.toml")
    hinted(cases, "a profile that is a folder", ["list", "--profile", "logs", "mine.log"], folder, DEVICE, "logs is a folder")
    hinted(cases, "a profile that is a dash", ["list", "--profile=-", "mine.log"], folder, DEVICE, "there is no file -")
    swapped = ["--tester", "7E8", "--unit", "7E0"]
    told = "tester and unit look exchanged in short.log: "
    for name, shown in [("rules.toml", "rules.toml"), ("two words.toml", "$'two words.toml'")]:
        command = f"udsnorm list --profile={shown} --tester 7E0 --unit 7E8 short.log"
        hinted(cases, f"exchanged sides beside {name}", ["list", "--profile", name, *swapped, "short.log"], folder, 0, told + command)
        done = subprocess.run(["bash", "-c", command.replace("udsnorm", str(cases.program), 1)], cwd=folder, stdout=subprocess.PIPE, timeout=60)
        want = cases.run(["list", "short.log"], cwd=folder).output
        cases.report(f"what the hint says beside {name}", [] if (done.returncode, done.stdout) == (0, want) and want else [f"{done}"])
    in_profile = 'write tester = "7E0" and unit = "7E8" in a [[unit]] of swapped.toml'
    for given in [["list", "--profile", "swapped.toml", "short.log"], ["messages", "--only", "engine", "--profile=swapped.toml", "short.log"]]:
        hinted(cases, f"exchanged sides of {shlex.join(given)}", given, folder, 0, told + in_profile)
    Path(folder, "turned.log").write_bytes(b"(1.000000) can0 7E8#0322F190\n(1.010000) can0 7E0#0462F19041\n")
    in_profile = 'tester and unit look exchanged in turned.log: write tester = "7E8" and unit = "7E0" in a [[unit]] of rules.toml'
    hinted(cases, "exchanged sides under rules alone", ["list", "--profile", "rules.toml", "turned.log"], folder, 0, in_profile)
    for name, log in [("two words.log", VIN.read_bytes()), ("lost.log", LOST.read_bytes()), ("begun.log", b"(1.000000) can0 7E0#100A2EF190414243\n")]:
        Path(folder, name).write_bytes(log)
    for job in over_one_log(cases.program, "--profile"):
        for name, shown in [("mine.log", "mine.log"), ("two words.log", "$'two words.log'"), ("lost.log", "lost.log")]:
            told = None if job == "explain" else f"the rules leave nothing of {shown}"
            hinted(cases, f"{job} of {name} where rules leave nothing", [job, "--profile", "all.toml", name], folder, 0, told)
        hinted(cases, f"{job} of one log where rules leave something", [job, "--profile", "requests.toml", "mine.log"], folder, 0, None)
        hinted(cases, f"{job} of no messages under rules", [job, "--profile", "all.toml", "begun.log"], folder, 0, None)
    left_none = "the rules leave nothing of standard input"
    hinted(cases, "standard input where rules leave nothing", ["list", "--profile", "all.toml"], folder, 0, left_none, log=VIN.read_bytes())
    hinted(cases, "a clean log where rules leave nothing", ["list", "--strict", "--profile", "all.toml", "mine.log"], folder, 0, "the rules leave nothing of mine.log")
    for job in ["compare", "diff", "report"]:
        hinted(cases, f"{job} of what rules leave out", [job, "--profile", "all.toml", "mine.log", "whole.log"], folder, 0, "the rules leave nothing of either log")
        hinted(cases, f"{job} of what rules leave", [job, "--profile", "requests.toml", "mine.log", "whole.log"], folder, 0, None)
        hinted(cases, f"{job} without rules", [job, "mine.log", "whole.log"], folder, 0, None)


def looks(cases, folder):
    """What a log looks like that is refused in its first line."""
    lines = VIN.read_bytes()
    body = b" can0 7E0#0322F190\n"
    reads_it = "python3 -m udsnorm reads it"
    date = f"looks like a log whose stamps have a date; {reads_it}"
    decimals = "looks like a log whose stamps have more than six decimals; python3 -m udsnorm rounds them"
    screen = f"looks like candump's form for the screen; {reads_it}, and candump -l records a log"
    mark = "begins with a byte order mark, which an editor has put in front; save it without"
    letters = "looks like a text in UTF-16; iconv -f UTF-16 -t ASCII makes a log of one"
    asc = f"looks like a Vector ASC file; {reads_it}"
    profile = "looks like a profile; --profile takes it"
    csv = "looks like a CSV file; python3 -m udsnorm reads those of SavvyCAN and python-can"
    pcap, pcapng = (f"looks like a {form} capture; {reads_it}" for form in ["pcap", "pcapng"])
    measured, trace = f"looks like an MF4 file; {reads_it}", f"looks like a PCAN TRC file; {reads_it}"
    for name, log, hint in [
        ("a.gz", gzip.compress(lines), "looks compressed with gzip; zcat unpacks it"),
        ("a.xz", lzma.compress(lines), "looks compressed with xz; xzcat unpacks it"),
        ("a.zst", bytes.fromhex("28B52FFD0458C90100"), ZSTANDARD),
        ("short.zst", bytes.fromhex("28B52FFE0458C90100"), None),
        ("a.bz2", bz2.compress(lines), "looks compressed with bzip2; bzcat unpacks it"),
        ("a.zip", bytes.fromhex("504B0304140000000800"), "looks like a zip archive; unzip -p unpacks it"),
        ("session.blf", b"LOGG" + bytes.fromhex("90000000020F0100"), f"looks like a Vector BLF file; {reads_it}"),
        ("session.mf4", b"MDF     4.10    ", measured),
        ("broken.mf4", b"UnFinMF 4.10    ", measured),
        ("older.mdf", b"MDF     3.30    ", None),
        ("session.trc", b";$FILEVERSION=2.1\r\n", trace),
        ("first.trc", b";##########\n;   Start time: 14.11.2023\n", trace),
        ("micros.pcap", bytes.fromhex("D4C3B2A1020004000000000000000000"), pcap),
        ("big.pcap", bytes.fromhex("A1B2C3D4000200040000000000000000"), pcap),
        ("nanos.pcap", bytes.fromhex("4D3CB2A1020004000000000000000000"), pcap),
        ("bignanos.pcap", bytes.fromhex("A1B23C4D000200040000000000000000"), pcap),
        ("session.pcapng", bytes.fromhex("0A0D0D0A1C0000004D3C2B1A01000000"), pcapng),
        ("drops.toml", b'drop = ["3E", "7E"]\n', profile),
        ("masks.toml", b'mask = ["67??*"]\n', profile),
        ("units.toml", b'[[unit]]\nname = "engine"\n', profile),
        ("remark.toml", b"# What this bench leaves out.\n", profile),
        ("other.toml", b"#drop\n", None),
        ("mark.log", b"\xef\xbb\xbf" + lines, mark),
        ("little.log", b"\xff\xfe" + lines.decode().encode("utf-16-le"), letters),
        ("big.log", b"\xfe\xff" + lines.decode().encode("utf-16-be"), letters),
        ("screen.log", b"  can0  7E0   [4]  03 22 F1 90\n", screen),
        ("stamped.log", b" (1700000000.000000)  can0  7E0   [4]  03 22 F1 90\n", screen),
        ("indented.log", b" " + b"can0  7E0   [4]  03 22 F1 90\n", None),
        ("session.asc", b"date Tue Nov 14 22:13:20.000 2023\nbase hex  timestamps absolute\n", asc),
        ("base.asc", b"base hex  timestamps absolute\n", asc),
        ("data.txt", b"data\n", None),
        ("session.csv", b"timestamp,arbitration_id,extended,remote,error,dlc,data\n", csv),
        ("other.csv", b"Zeit;Kennung;Daten\n", csv),
        ("late.csv", b"0123456789ABCDEF,1\n", None),
        ("date.log", b"(2023-11-14 22:13:20.000000)" + body, date),
        ("bracket.log", b"(1700000000,000000)" + body, None),
        ("nine.log", b"(1700000000.000000000)" + body, decimals),
        ("seven.log", b"(1700000000.0000000)" + body, decimals),
        ("since.log", b"(0.000000000)" + body, decimals),
        ("five.log", b"(1700000000.00000)" + body, None),
        ("second.log", lines + b"(1700000001.000000000)" + body, None),
        ("text.log", b"no log\n", None),
    ]:
        Path(folder, name).write_bytes(log)
        hinted(cases, f"a log as {name}", ["list", name], folder, REFUSAL, hint and f"{name} {hint}")


def compressed(cases, folder):
    """A compressed log, of each command, and at each place."""
    for job in over_one_log(cases.program):
        hinted(cases, f"{job} of a compressed log", [job, "a.zst"], folder, REFUSAL, f"a.zst {ZSTANDARD}")
    hinted(cases, "a compressed standard input", ["list"], folder, REFUSAL, f"standard input {ZSTANDARD}", log=Path(folder, "a.zst").read_bytes())
    hinted(cases, "a compressed left log", ["compare", "a.zst", "mine.log"], folder, REFUSAL, f"a.zst {ZSTANDARD}")
    hinted(cases, "a compressed right log", ["compare", "mine.log", "a.zst"], folder, REFUSAL, f"a.zst {ZSTANDARD}")


def cut(cases, folder):
    """A last line that breaks off."""
    lines = VIN.read_bytes()
    hint = "the last line of {} looks cut; sed '$d' leaves it out, and a frame is missing"
    for length in [1, 12, 18, 200, 30]:
        Path(folder, "cut.log").write_bytes(lines[:length])
        hinted(cases, f"a log cut after {length} bytes", ["list", "cut.log"], folder, REFUSAL, hint.format("cut.log"))
    hinted(cases, "a cut standard input", ["list"], folder, REFUSAL, hint.format("standard input"), log=lines * 100 + lines[:200])
    hinted(cases, "a cut right log", ["compare", "mine.log", "cut.log"], folder, REFUSAL, hint.format("cut.log"))
    for name, log in [("refused.log", lines + b"(x"), ("ended.log", lines[:200] + b"\n")]:
        Path(folder, name).write_bytes(log)
        hinted(cases, f"no cut log {name}", ["list", name], folder, REFUSAL, None)


def drops(cases, folder):
    """Notices of dropped frames in a log, and frames that the engine drops."""
    lines = VIN.read_bytes()
    notice = b"DROPCOUNT: dropped 1 CAN frame on 'can0' socket (total drops 1)\n"
    hint = "line {} of notice.log begins with no stamp; if it is a notice of candump -d, grep -v ^DROPCOUNT leaves it out"
    for log, line in [(lines + notice, 6), (notice + lines, 1), (lines * 1000 + notice + lines, 5001), (lines + b"x", 6)]:
        Path(folder, "notice.log").write_bytes(log)
        for job in ["list", "find"]:
            hinted(cases, f"{job} of a notice in line {line}", [job, "notice.log"], folder, REFUSAL, hint.format(line))
    hinted(cases, "a notice in the right log", ["compare", "mine.log", "notice.log"], folder, REFUSAL, hint.format(6))
    Path(folder, "lost.log").write_bytes(LOST.read_bytes())
    hint = "dropped frames in lost.log: 1; udsnorm explain shows where"
    for job in sorted({*over_one_log(cases.program)} - {"explain", "find"}):
        hinted(cases, f"{job} of a log with a dropped frame", [job, "lost.log"], folder, 0, hint)
    hinted(cases, "a log with a dropped frame that has to be clean", ["list", "--strict", "lost.log"], folder, UNCLEAN, hint)
    for given, status in [(["explain", "lost.log"], 0), (["find", "lost.log"], 0), (["compare", "lost.log", "mine.log"], 1)]:
        hinted(cases, f"no drops told by {shlex.join(given)}", given, folder, status, None)


def silent(cases, folder):
    """Where there is nothing to say, nothing is said; and a hint that can't be told changes no status."""
    for given in [["list", "mine.log"], ["--help"], ["--version"], ["compare", "mine.log", "mine.log"]]:
        hinted(cases, f"nothing of {shlex.join(given)}", given, folder, 0, None)
    hinted(cases, "no words", [], folder, 0, None, log=VIN.read_bytes())
    ours, theirs = os.openpty()
    os.close(ours)
    done = subprocess.run([cases.program, "list", "none.log"], stderr=theirs, stdout=subprocess.PIPE, cwd=folder, timeout=60)
    os.close(theirs)
    cases.report("a terminal that has gone", [] if (done.returncode, done.stdout) == (DEVICE, b"") else [f"{done}"])


def main():
    if len(sys.argv) < 2:
        sys.exit(__doc__)
    cases = Cases(os.path.abspath(sys.argv[1]), sys.argv[2:])
    with tempfile.TemporaryDirectory() as folder:
        cases.each([files, denied, limits, names, words, values, awaited, pairs, foreign, exchanged, exchanged_to_all, profiles, looks, compressed, cut, drops, silent], folder)
    cases.end()


main()
