#!/usr/bin/env python3
"""Tests of the library for C: its header, its symbols, its calls from C and C++, and its answers beside the program.

    tests/library/library.py crates/udsnorm/out/udsnorm out/lib [--logs NUMBER] [--seed NUMBER]

- the header says of statuses, styles, answer, calls and version what the crate has, for each compiler (header.py);
- no symbol but its calls leaves the shared library, and it has its name; the static one shows no other either;
- the examples are compiled, and do what they say;
- over the sample logs and those of tests/rows, each call answers what the program writes and tells, whether a log is
  clean as the program does with --strict, and whether its sides look exchanged as oracle.py does;
- a page, and a text of where two logs differ, shows the names that it is given, and each status has a text;
- rooms of every size, logs and texts at the edges of pages, 16 threads, growths of memory refused in turn, the
  sanitizers: by library_calls.c, compiled by each of gcc, g++, clang and clang++ as strictly as they can;
- random logs, 2,000 where no number is given: each goes through one of the calls, and through the program.

A compiler or a tool that is not there is named, and what it would do is left out. Prints a line for each case and ends
with `N passed, M failed`; its status is 1 where a case failed.
"""

import argparse
import ctypes
import functools
import os
import random
import re
import shutil
import subprocess
import sys
import tempfile
from pathlib import Path

sys.path.insert(0, str(Path(__file__).resolve().parents[1] / "helpers"))

import header
import oracle
import tables
import told
from cases import DIFFERENT, DONE, REFUSAL, UNCLEAN, Cases
from counts import counts_in
from loaded import JOBS, STATUSES, STYLES, Answer, Loaded, Session, Words
from loaded import settings as settings_of
from random_logs import limit_for, mutated, random_logs
from runs import differences, files, run

TOP = Path(__file__).resolve().parents[2]
LIBRARY = TOP / "library"
CALLS = Path(__file__).with_name("library_calls.c")
EXAMPLES = TOP / "examples"

STRICT = ["-Wall", "-Wextra", "-Werror", "-pedantic", f"-I{LIBRARY}"]
COMPILERS = {
    "gcc": ["-std=c99"],
    "clang": ["-std=c99"],
    "g++": ["-std=c++11", "-x", "c++"],
    "clang++": ["-std=c++11", "-x", "c++"],
}
SANITIZED = ["-fsanitize=address,undefined", "-fno-sanitize-recover=all"]
# With as much stack for each thread as the header says is enough; sanitizers take more for themselves.
PLAIN = ["-DSTACK=262144"]
REFUSING = ["-DREFUSES", "-Wl,--wrap=malloc,--wrap=realloc,--wrap=free"]

TABLES = [
    "one_session", "sessions", "examples", "equal_numbers", "lost_frames", "late_frames", "long_announcements",
    "long_announcements_told", "written_before_a_refused_line", "places", "decided", "frames_without_part",
    "lines_without_message", "objects", "pairs_found", "unclean_logs",
]
# Tables whose rows have limits, each with what comes of it.
OF_LIMITS = [
    "limits_written", "limits_nothing_written", "limits_of_extended_identifiers", "explained_under_limits",
    "placed_under_limits",
]
NO_STATUSES = (max(STATUSES.values()) + 1, 255, 1 << 31, (1 << 32) - 1)
LIMIT = 1 << 30

# The counts that an answer has, which are its last fields.
FIELDS = [name for name, _ in header.fields()]
COUNTS = FIELDS[FIELDS.index("lines"):]


def identifier(digits):
    """The number of an identifier that has eight digits where it is an extended one."""
    return int(digits, 16) | (1 << 31 if len(digits) == 8 else 0)


def words_of(session, has_sides=True):
    """The options of the program for a session."""
    if not has_sides:
        return ["--limit", str(session.limit)]
    sides = [f"{side & 0x7FFFFFFF:0{8 if side >> 31 else 3}X}" for side in (session.tester, session.unit)]
    return ["--tester", sides[0], "--unit", sides[1], "--limit", str(session.limit)]


def reason(answer):
    """What the program tells of a log that is refused so."""
    if answer.status == STATUSES["BAD_LINE"]:
        return told.place(answer.line, answer.column)
    if answer.status == STATUSES["OVERSIZE"]:
        return told.oversize(answer.line, answer.announced)
    return {STATUSES["DONE"]: b"", STATUSES["LOG_LIMIT"]: told.LONG_LOG, STATUSES["OUTPUT_LIMIT"]: told.LONG_CANONICAL}[answer.status]


# --- What was built --------------------------------------------------------------------------------------


def output(*words):
    return subprocess.run(words, check=True, stdout=subprocess.PIPE, text=True, timeout=60).stdout


def compiled(folder, name, compiler, source, *options, standard=None):
    """The program that a compiler makes of a source, and what it says against it."""
    built = folder / f"{name}-{compiler}"
    words = [compiler, *(COMPILERS[compiler] if standard is None else standard), *STRICT, source, "-x", "none", *options, "-o", built]
    done = subprocess.run(words, stdout=subprocess.DEVNULL, stderr=subprocess.PIPE, text=True, timeout=120)
    return built, [] if done.returncode == 0 else [done.stderr[:600]]


def headers(cases, folder, compilers):
    cases.report("the header has the calls and the statuses of the crate", header.differences())
    source = folder / "beside.c"
    source.write_text(header.beside())
    for compiler in compilers:
        wrong = compiled(folder, "beside", compiler, source, "-c")[1]
        cases.report(f"the header beside the crate, by {compiler}", wrong)


def symbols(cases, library):
    names = sorted(name for name, *_ in header.calls())
    shared, static = library / "libudsnorm.so", library / "libudsnorm.a"
    missing = [tool for tool in ("nm", "readelf", "objcopy") if not shutil.which(tool)]
    if missing:
        print(f"skipped the symbols: no {', '.join(missing)}", flush=True)
        return
    for file, options in ((shared, ["-D", "--defined-only"]), (static, ["-g", "--defined-only"])):
        found = sorted(line.split()[2] for line in output("nm", *options, file).splitlines() if len(line.split()) == 3)
        cases.report(f"the symbols of {file.name}", differences("symbols", found, names))
    soname = re.search(r"SONAME.*\[(.*)\]", output("readelf", "-d", shared))[1]
    want = f"libudsnorm.so.{(LIBRARY / 'SONAME').read_text().strip()}"
    cases.report("the name of the shared library", differences("soname", soname, want))


def examples(cases, folder, library, compilers):
    vin, canonical, first = (EXAMPLES / name for name in ("vin.log", "vin.canonical", "first.log"))
    link = [library / "libudsnorm.a"]
    for compiler in (name for name in compilers if not name.endswith("++")):
        built, wrong = compiled(folder, "normalise", compiler, LIBRARY / "examples" / "normalise.c", *link)
        if not wrong:
            found = run(built, [vin])
            wrong += differences("a log", (found.status, found.output), (0, canonical.read_bytes()))
            with files(b"(1.000000) can0 7E0#0\n", b"") as (left, _):
                wrong += differences("no log", run(built, [left])[::2], (1, told.place(1, 22)))
        cases.report(f"the example in C, by {compiler}", wrong)
    for compiler in (name for name in compilers if name.endswith("++")):
        built, wrong = compiled(folder, "compare", compiler, LIBRARY / "examples" / "compare.cpp", *link, standard=["-std=c++11"])
        if not wrong:
            wrong += differences("equal logs", run(built, [vin, canonical])[:2], (0, b"same\n"))
            wrong += differences("different logs", run(built, [vin, first])[:2], (1, b"different at item 1\n"))
        cases.report(f"the example in C++, by {compiler}", wrong)
    lengths = [len(path.read_text().splitlines()) for path in (LIBRARY / "examples").iterdir()]
    cases.report("the examples have at most 60 lines", [] if max(lengths) <= 60 else [str(lengths)])


# --- Calls from C ----------------------------------------------------------------------------------------


def sessions():
    """The sample logs and those of the tables, with the sides that they say."""
    for path in sorted(EXAMPLES.glob("*.log")):
        sides = (0x98DA10F1, 0x98DAF110) if "extended" in path.name else (0x7E0, 0x7E8)
        yield Session(path.name, path.read_bytes(), *sides, LIMIT)
    for name in TABLES:
        for row in tables.table(name):
            yield Session(f"{name}: {row.name}", row.log(), *map(identifier, row.sides()), LIMIT)
    for row in (row for name in OF_LIMITS for row in tables.table(name)):
        for limit in sorted({int(text.split(",")[0]) for text in row.texts("limit")}):
            yield Session(f"{row.name}, with a limit of {limit}", row.log(), *map(identifier, row.sides()), limit)
    for line in tables.lines("refused_lines"):
        column, _, text = line.partition(" ")
        yield Session(f"refused_lines: {column} {text}", text.encode(), 0x7E0, 0x7E8, LIMIT)
    vin = (EXAMPLES / "vin.log").read_bytes()
    for name, log in exchanged_logs(vin):
        yield Session(f"exchanged sides: {name}", log, 0x7E8, 0x7E0, LIMIT)
    for limit in (1, len(vin) - 1, len(vin), 229, 230):
        yield Session(f"vin.log with a limit of {limit}", vin, 0x7E0, 0x7E8, limit)


def exchanged_logs(vin):
    """Logs whose sides look exchanged, and others that lack one thing of that, where 7E8 is the tester's."""
    request, answer = b"(1.000000) can0 7E0#0322F190\n", b"(1.010000) can0 7E8#0462F19041\n"
    yield "vin.log", vin
    yield "a request and its answer", request + answer
    yield "a request beside them", request + answer + request.replace(b"7E0", b"7E8")
    yield "a keep-alive beside them", request + answer + b"(1.020000) can0 7E8#023E80\n"
    yield "no answer", request
    yield "no request", answer


@functools.lru_cache(maxsize=None)
def looks_exchanged(log, *options):
    """Whether tester and unit look exchanged in a log that can be read, by these options."""
    sides = {oracle.TESTER: options[1], oracle.UNIT: options[3]}
    return oracle.look_exchanged(oracle.messages(oracle.trace(oracle.cut(log), sides)))


def lines_of(folder, chosen):
    """What library_calls reads, with the logs in files of their own."""
    text = ""
    for number, session in enumerate(chosen):
        path = folder / f"{number}.log"
        path.write_bytes(session.log)
        text += f"{session.tester:X} {session.unit:X} {session.limit} {path}\n"
    return text.encode()


def calls_from_c(cases, folder, library, compilers, chosen):
    everything = lines_of(folder, chosen)
    accepted = lines_of(folder, [session for session in chosen if session.name.endswith(".log")])
    link = [library / "libudsnorm.a", "-pthread"]
    texts = {}
    for compiler in compilers:
        for kind, options in (("", PLAIN), (" with sanitizers", SANITIZED)):
            built, wrong = compiled(folder, f"calls{kind[-10:].strip()}", compiler, CALLS, *options, *link)
            if wrong:
                cases.report(f"library_calls by {compiler}{kind}", wrong)
                continue
            texts[compiler + kind] = run(built, ["answers"], everything)
            for mode, given in (("rooms", everything), ("edges", everything), ("threads", accepted)):
                found = run(built, [mode], given)
                cases.report(f"{mode} by {compiler}{kind}", differences(mode, found, (0, b"", b"")))
        built, wrong = compiled(folder, "refusing", compiler, CALLS, *REFUSING, *link)
        cases.report(f"refused memory by {compiler}", wrong or differences("refused", run(built, ["refused"], accepted), (0, b"", b"")))
    wants = list(texts.values())
    cases.report("all compilers get the same answers", [name for name, text in texts.items() if text != wants[0] or text.status])


# --- Beside the program ----------------------------------------------------------------------------------


def beside_the_program(loaded, program, job, session):
    """What is wrong with the answer of a call beside what the program writes and tells of the same log."""
    found = run(program, [*JOBS[job], *words_of(session, JOBS[job][0] != "find")], session.log)
    answer, text = loaded.text(job, session)
    wrong = differences(f"what {job} is told", reason(answer), found.error)
    wrong += differences(f"the status of {job}", answer.status == STATUSES["DONE"], found.status == DONE)
    wrong += differences(f"the text of {job}", text, found.output if found.status == DONE else b"")
    if job == "explain" and found.status == DONE:
        # What explains a log leaves nothing out.
        counts = counts_in(found.output) | {"left_out": 0}
        wrong += differences("the counts", {name: getattr(answer, name) for name in COUNTS}, {name: counts[name] for name in COUNTS})
    has_sides = job not in ("find", "find objects")
    if found.status == DONE:
        status = run(program, [*JOBS[job], "--strict", *words_of(session)], session.log).status if has_sides else UNCLEAN
        wrong += differences(f"clean of {job}", answer.clean, 1 if status == DONE else 0)
        is_exchanged = has_sides and looks_exchanged(session.log, *words_of(session))
        wrong += differences(f"exchanged of {job}", answer.exchanged, 1 if is_exchanged else 0)
    else:
        wrong += differences(f"clean and exchanged of {job}", (answer.clean, answer.exchanged), (0, 0))
    return wrong


def compared(loaded, program, session, other):
    """The same of a comparison with another log."""
    with files(session.log, other) as names:
        found = run(program, ["compare", *words_of(session), *names])
        strict = run(program, ["compare", "--strict", *words_of(session), *names])
    answer = loaded.compare(session, other)
    line = f"different at item {answer.item}\n".encode() if answer.item else b"same\n"
    return beside(answer, found, strict, "compare", session, other) + differences("compare", b"" if answer.status else line, found.output)


def paged(loaded, program, session, other):
    """The same of the page of both."""
    with files(session.log, other) as names:
        found = run(program, ["report", *words_of(session), *names])
        strict = run(program, ["report", "--strict", *words_of(session), *names])
        answer, text = loaded.page(session, other, [name.name.encode() for name in names])
    return beside(answer, found, strict, "report of two", session, other) + differences("the page of two", text, b"" if answer.status else found.output)


def beside(answer, found, strict, job, session, other):
    """What is wrong with the answer about two logs beside how the program ends over them, and how with `--strict`."""
    if answer.status:
        side = {1: b"left: ", 2: b"right: "}[answer.side]
        wrong = differences(job, (REFUSAL, side + reason(answer)), (found.status, found.error))
        return wrong + differences(f"clean and exchanged of {job}", (answer.clean, answer.exchanged), (0, 0))
    is_exchanged = any(looks_exchanged(log, *words_of(session)) for log in (session.log, other))
    wrong = differences(f"exchanged of {job}", answer.exchanged, 1 if is_exchanged else 0)
    wrong += differences(job, (DIFFERENT if answer.item else DONE, 0), (found.status, answer.side))
    return wrong + differences(f"clean of {job}", answer.clean, 0 if strict.status == UNCLEAN else 1)


def differed(loaded, program, session, other, style=0):
    """The same of the text of where both differ."""
    words = ["diff", *(["--json"] if style else []), *words_of(session)]
    with files(session.log, other) as names:
        found = run(program, [*words, *names])
        strict = run(program, [*words, "--strict", *names])
        answer, text = loaded.diff(style, session, other, [str(name).encode() for name in names])
    wrong = beside(answer, found, strict, "diff", session, other)
    wrong += differences("the first item of diff", answer.item, loaded.compare(session, other).item)
    return wrong + differences("the text of diff", text, b"" if answer.status else found.output)


def differed_in_objects(loaded, program, session, other):
    """The same of its objects."""
    return differed(loaded, program, session, other, STYLES["diff objects"])


# What the library calls an answer about two logs.
OF_TWO = {"compare": compared, "diff": differed, "diff objects": differed_in_objects, "report of two": paged}


def rows(cases, loaded, program, chosen):
    for session in chosen:
        wrong = [text for job in JOBS for text in beside_the_program(loaded, program, job, session)]
        cases.report(session.name, wrong)
    for row in tables.table("comparisons"):
        session = Session(row.name, row.side("left"), 0x7E0, 0x7E8, int((row.texts("limit") or [LIMIT])[0]))
        for call in OF_TWO.values():
            cases.report(f"comparisons: {row.name}, {call.__name__}", call(loaded, program, session, row.side("right")))
    vin, lost = (Session(name, (EXAMPLES / name).read_bytes(), 0x7E0, 0x7E8, LIMIT) for name in ("vin.log", "lost-frame.log"))
    for session, other in ((vin._replace(tester=0x7E8, unit=0x7E0), log) for log in (vin.log, lost.log, b"")):
        for call in OF_TWO.values():
            cases.report(f"exchanged sides, beside {other[:20]!r}, {call.__name__}", call(loaded, program, session, other))
    for session, other in ((vin, vin.log), (vin, lost.log), (lost, vin.log), (lost, b""), (vin, b"x"), (lost._replace(log=b"x"), b"y")):
        for call in OF_TWO.values():
            cases.report(f"{session.name} beside {other[:20]!r}, {call.__name__}", call(loaded, program, session, other))


def names(cases, loaded):
    """A page shows the names that it is given, none too, and no byte of them that means something in HTML; and a text of where
    two logs differ no byte that means something to `patch`."""
    session = Session("", (EXAMPLES / "vin.log").read_bytes(), 0x7E0, 0x7E8, LIMIT)
    for name, shown in ((b"", b""), (b"a b.log", b"a b.log"), (b"<b>\xff\0", b"&lt;b&gt;%FF%00")):
        _, page = loaded.page(session, session.log, [name, b"other"])
        quoted = b'"%b"' % name.replace(b"\xff\0", b"\\377\\000")
        _, text = loaded.diff(0, session, b"", [name, b"other"])
        cases.report(f"the name {name!r} before a difference", differences("the header", text.split(b"\n@@")[0], b"--- %b\n+++ other" % quoted))
        cases.report(f"the name {name!r} on a page of two", [] if b"<title>" + shown + b" and other - " in page else [page[:600].decode()])


PROFILE = b'drop = ["22"]\n[[unit]]\nname = "engine"\ntester = "7E0"\nunit = "7E8"\n'
GEARBOX = PROFILE.replace(b'drop = ["22"]\n', b"").replace(b"engine", b"gearbox").replace(b"7E", b"7D")


def profiles(cases, loaded):
    """A profile says what is left out, and whose frames are meant; what is wrong in one is put where there is room."""
    log = (TOP / "examples" / "vin.log").read_bytes()
    plain = Session("", log, 0x7E0, 0x7E8, LIMIT)
    for name, session, text, left_out in [
        ("rules and a unit", plain._replace(tester=0x800, unit=0x800, profile=PROFILE), b"1 stray unit 62F1905742413341354335304546313233343536\n", 1),
        ("a unit that is named", plain._replace(profile=PROFILE + GEARBOX, only=b"gearbox"), b"", 0),
        ("a profile without units", plain._replace(profile=b"# none"), loaded.text("list", plain)[1], 0),
    ]:
        answer, found = loaded.text("list", session)
        wrong = differences("status", answer.status, STATUSES["DONE"]) + differences("text", found, text)
        cases.report(f"a profile: {name}", wrong + differences("left out", answer.left_out, left_out))
    for name, given, text, line in [
        ("no TOML", {"profile": b"\ndrop = ["}, b"line 2 column 9: not TOML", 2),
        ("nothing masked", {"profile": b'mask = ["67"]'}, b'mask "67": nothing is masked', 0),
        ("several units", {"profile": PROFILE + GEARBOX}, b"2 units: choose one: engine, gearbox", 0),
        ("no such unit", {"profile": PROFILE, "only": b"brake\n"}, b"no unit $'brake\\x0A'", 0),
        ("no units", {"only": b"engine"}, b"no units", 0),
    ]:
        session = plain._replace(**given)
        found = [loaded.text("list", session), loaded.text("messages", session), loaded.wrong(session)]
        wrong = [f"{answer.status} {told}" for answer, told in found if (answer.status, told, answer.line) != (STATUSES["PROFILE"], text, line)]
        small, _ = loaded.text("list", session, room=len(text) - 1)
        cases.report(f"a wrong profile: {name}", wrong + differences("length", (small.status, small.length), (STATUSES["PROFILE"], len(text))))


def texts_of_statuses(cases, loaded):
    """Each status has a text of its own, of printable ASCII, and one is for all numbers that are none."""
    call = loaded.library.udsnorm_status_text
    call.restype = Words
    texts = {number: call(ctypes.c_uint32(number)).text for number in (*STATUSES.values(), *NO_STATUSES)}
    wrong = [f"{text}" for text in texts.values() if not re.fullmatch(rb"[ -~]+", text)]
    wrong += differences("texts", len(set(texts.values())), len(STATUSES) + 1)
    wrong += differences("no status", {texts[number] for number in NO_STATUSES}, {b"no such status"})
    told_words = {"BAD_LINE": told.place(1, 1).split(b": ")[1], "LOG_LIMIT": told.LONG_LOG, "OUTPUT_LIMIT": told.LONG_CANONICAL, "MEMORY": told.OUT_OF_MEMORY}
    wrong += [text for name, words in told_words.items() for text in differences(name, texts[STATUSES[name]] + b"\n", words)]
    cases.report("the texts of statuses", wrong)


def settings(cases, loaded):
    """Numbers that are no settings, and styles that there are not."""
    cases_of = [
        ("ID_RANGE", Session("", b"", 0x800, 0x7E8, 1)), ("ID_RANGE", Session("", b"", 0x7E0, 0xA0000000, 1)),
        ("ID_RANGE", Session("", b"", 0x7FFFFFFF, 0x7E8, 1)), ("SAME_ID", Session("", b"", 0x7E0, 0x7E0, 0)),
        ("LIMIT_RANGE", Session("", b"", 0x7E0, 0x7E8, 0)), ("LIMIT_RANGE", Session("", b"", 0x7E0, 0x7E8, (1 << 40) + 1)),
        ("DONE", Session("", b"", 0x7E0, 0x800007E0, 1 << 40)),
    ]
    for name, session in cases_of:
        jobs = [job for job in JOBS if JOBS[job][0] != "find" or not name.endswith(("ID_RANGE", "SAME_ID"))]
        found = [loaded.text(job, session)[0].status for job in jobs]
        found += [loaded.compare(session, b"").status, loaded.page(session, b"", [b"", b""])[0].status]
        found += [loaded.diff(style, session, b"", [b"", b""])[0].status for style in (0, STYLES["diff objects"])]
        cases.report(f"{name} of {session[2:5]}", differences("statuses", found, [STATUSES[name]] * (len(jobs) + 4)))
    for call, styles in (("list", (4, 0x10, 0xFFFFFFFF)), ("messages", (1, 3, 0xFFFFFFFF)), ("explain", (1, 3, 0xFFFFFFFF)), ("find", (1, 3, 0xFFFFFFFF))):
        for style in styles:
            answer = Answer()
            usual = Session("", b"", 0x7E0, 0x7E8, LIMIT)
            given = (*(settings_of(usual) if call != "find" else [ctypes.c_uint64(LIMIT)]), ctypes.c_uint32(style))
            loaded.library[f"udsnorm_{call}"](*given, None, ctypes.c_size_t(0), None, ctypes.c_size_t(0), ctypes.byref(answer))
            cases.report(f"the style {style} of {call}", differences("status", answer.status, STATUSES["STYLE"]))
    for style in (1, 3, 0xFFFFFFFF):
        answer, _ = loaded.diff(style, Session("", b"", 0x7E0, 0x7E8, LIMIT), b"", [b"", b""], 0)
        cases.report(f"the style {style} of diff", differences("status", answer.status, STATUSES["STYLE"]))
    cases.report("the version", differences("version", loaded.library.udsnorm_version(), header.version()))


def at_random(cases, loaded, program, seed, count):
    """Random logs, half of them under a limit, each through one of the calls."""
    rng = random.Random(seed)
    for log, _ in zip(random_logs(seed), range(count)):
        session = Session("", log, 0x7E0, 0x7E8, limit_for(rng, log))
        job = rng.choice([*JOBS, *OF_TWO])
        other = mutated(rng, log) if job in OF_TWO else None
        wrong = OF_TWO[job](loaded, program, session, other) if job in OF_TWO else beside_the_program(loaded, program, job, session)
        if wrong:
            cases.report(f"{job} {session}", wrong)
        else:
            cases.passed += 1


def main():
    words = argparse.ArgumentParser(description=__doc__, formatter_class=argparse.RawDescriptionHelpFormatter)
    words.add_argument("program", type=os.path.abspath)
    words.add_argument("library", type=Path)
    words.add_argument("--logs", type=int, default=2000)
    words.add_argument("--seed", type=int, default=1)
    given = words.parse_args()
    cases = Cases(given.program)
    compilers = [name for name in COMPILERS if shutil.which(name)]
    for name in COMPILERS:
        if name not in compilers:
            print(f"skipped {name}: it is not there", flush=True)
    library = given.library.resolve()
    chosen = list(sessions())
    with tempfile.TemporaryDirectory() as folder:
        headers(cases, Path(folder), compilers)
        symbols(cases, library)
        examples(cases, Path(folder), library, compilers)
        calls_from_c(cases, Path(folder), library, compilers, chosen)
    loaded = Loaded(library / "libudsnorm.so")
    settings(cases, loaded)
    names(cases, loaded)
    texts_of_statuses(cases, loaded)
    profiles(cases, loaded)
    rows(cases, loaded, given.program, chosen)
    at_random(cases, loaded, given.program, given.seed, given.logs)
    cases.end()


if __name__ == "__main__":
    main()
