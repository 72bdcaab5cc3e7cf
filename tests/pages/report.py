#!/usr/bin/env python3
"""Tests of the page that the built program writes of a session: its text, and what its reader may rely on.

    tests/pages/report.py crates/udsnorm/out/udsnorm [TEST..]

Pages of each kind are those of golden/, byte for byte. Of the sample logs, the logs of rows/, logs made for one thing each and 300
random ones the page tells the facts of its log, by report_facts.py, and its rows alone tell what `list` and `explain` write. Then come
names of files, options, refused logs, devices, sizes and memory. Prints a line for each case and ends with `N passed, M failed`; its
status is 1 where a case failed.
"""

import gzip
import itertools
import os
import random
import re
import select
import sys
import tempfile
from collections import Counter
from pathlib import Path

sys.path.insert(0, str(Path(__file__).resolve().parents[1] / "helpers"))

import golden_pages
import oracle
import profiles
import report_facts
import tables
from cases import DEVICE, DONE, REFUSAL, UNCLEAN, Cases
from oracle import TESTER, UNIT
from random_logs import random_logs
from recordings import message_of
from report_facts import first_difference
from report_reader import read, rows_in
from retold import counts_in, counts_of_rows, counts_told, explanation_told, list_told, shortened
from runs import PROGRAM_BYTES, differences, end, give, peak, start
from tables import EXAMPLES, VIN
from told import LONG_LOG, READ_FAILED, WRITE_FAILED, place

EXTENDED = {TESTER: "18DA10F1", UNIT: "18DAF110"}

RANDOM_LOGS, SEED = 300, 1

# Frames of one item each, or of none.
REQUEST, ANSWER, REFUSED = "7E0#0322F190", "7E8#0462F19041", "7E8#037F2231"
STRAY, UNKNOWN = "7E8#0141", "7E8#40"
FIRST, OUT_OF_ORDER = "7E8#101462F190574241", "7E8#2333413543353045"

# The lengths of messages about those at which a page shows less of one.
LENGTHS = (1, 7, 8, 31, 32, 33, 63, 64, 65, 66, 96, 97, 511, 512, 513, 4095, 4096)

# What no page has, and what every page has.
FORBIDDEN = (b"<script", b"src=", b"url(", b"http:", b"https:")
POLICY = b"<meta http-equiv=\"Content-Security-Policy\" content=\"default-src 'none';"

# Names of files, and how a page calls them.
NAMES = {
    "a.log": "a.log",
    "<b>&\"'.log": "&lt;b&gt;&amp;&quot;&#39;.log",
    "<script src=http:x>": "&lt;script src=http:x&gt;",
    "&amp;": "&amp;amp;",
    "größe.log": "gr%C3%B6%C3%9Fe.log",
    "monday #1, \\ ~ %41?.log": "monday #1, \\ ~ %41?.log",
    "\x01\x1b[2J\t\r\n\x7f": "%01%1B[2J%09%0D%0A%7F",
    " ": " ",
    "-": "-",
    "--limit": "--limit",
    "folder/inner/a.log": "a.log",
    "./a.log": "a.log",
    "folder//inner/../a.log": "a.log",
    '"' * 255: "&quot;" * 255,
}

# Words of options, with the sides and the limit that they stand for.
OPTIONS = [
    (["--tester", "7E0", "--unit=7e8"], oracle.SIDES, oracle.GIBIBYTE),
    (["--tester", "7E8", "--unit", "7E0"], {TESTER: "7E8", UNIT: "7E0"}, oracle.GIBIBYTE),
    (["--tester", "18da10f1"], {TESTER: "18DA10F1", UNIT: "7E8"}, oracle.GIBIBYTE),
    (["--tester=000007E0", "--unit=000007E8"], {TESTER: "000007E0", UNIT: "000007E8"}, oracle.GIBIBYTE),
    (["--functional", "18db33f1"], {**oracle.SIDES, oracle.FUNCTIONAL: "18DB33F1"}, oracle.GIBIBYTE),
    ([f"--limit={len(VIN)}"], oracle.SIDES, len(VIN)),
    (["--limit", f"{len(VIN) - 1}"], oracle.SIDES, len(VIN) - 1),
    (["--limit", "1"], oracle.SIDES, 1),
]
WRONG_VALUES = [["--limit", "0"], ["--tester", "7E"], ["--tester", "800"], ["--unit=7E0"]]

# The most bytes that a page of 1,000 items has, and those of an item more, which are two rows.
THOUSAND_ITEMS = 600_000
ITEM_MORE = 550

# The number of items of the logs for which memory is measured.
MEASURED_ITEMS = 100_000


def log_of(*frames):
    """The log of these frames, a millisecond apart."""
    return b"".join(tables.stamped(number, frame) for number, frame in enumerate(frames))


# --- Pages of each kind ---------------------------------------------------------------------------------------------------


def golden(cases):
    """A page of each kind is the one that was read whole, but for the style, and that is the style of all pages."""
    for name, log in golden_pages.logs().items():
        found, path = cases.run(["report", *golden_pages.PAGES[name]], log), golden_pages.GOLDEN / f"{name}.html"
        wrong = first_difference("line", golden_pages.shortened(found.output.decode()).split("\n"), path.read_text().split("\n"))
        style = report_facts.style_under(name.startswith("ruled"))
        wrong += [] if f"<style>\n{style}</style>\n".encode() in found.output else ["the style is not that of report.css"]
        cases.report(f"golden/{path.name}", wrong + text_faults(found.output))
    names = {f"{name}.html" for name in golden_pages.PAGES}
    cases.report("golden/ has no other page", differences("its pages", {path.name for path in golden_pages.GOLDEN.glob("*.html")}, names))
    for log, lines in golden_pages.refused_logs():
        page = cases.run(["report"], log).output.decode()
        cases.report(f"golden/refused.txt: {log!r}", differences("why it is refused", golden_pages.reasons(page), lines))


# Faults of a page of golden/clean.log: what stands there, and what stands in its place.
FAULTS = [
    ("a byte of a message", "<code>50 03 00 32", "<code>50 03 00 33"),
    ("the name of another identifier", "<i>(VIN)</i>", "<i>(ECUSerialNumber)</i>"),
    ("a name less", " <i>(extendedDiagnosticSession)</i>", ""),
    ("a time", "<td>0.022345<td>", "<td>0.022346<td>"),
    ("a line", "<th scope=\"row\">4<td>5<td>", "<th scope=\"row\">4<td>6<td>"),
    ("the time that an answer took", "after 12.345&#160;ms", "after 12.354&#160;ms"),
    ("the target of a link", '<a href="#i1">item 1</a>', '<a href="#i2">item 1</a>'),
    ("a row less", re.compile(r'<tr class="ok">.*\n'), ""),
    ("two rows exchanged", re.compile(r"(<tr .*\n)(<tr .*\n)"), r"\2\1"),
    ("a sentence less", " Not every request has a positive answer.", ""),
    ("another word", "Not every request", "Not each request"),
    ("a count", "<dt>pending</dt><dd>2</dd>", "<dt>pending</dt><dd>3</dd>"),
    ("an identifier twice", 'id="i3"', 'id="i2"'),
    ("letters of other bytes", "<samp>b..WBA3A5C50EF123456</samp>", "<samp>b..WBA3A5C50EF123457</samp>"),
    ("a row in the body of another request", re.compile(r"<tbody>\n(?=.*22 F1 91)"), ""),
    ("a block that is folded", '<details class="b" open>', '<details class="b">'),
    ("the look of a row", '<tr class="ok">', '<tr class="n">'),
    ("an arrow the other way round", '<use href="#u"/>', '<use href="#t"/>'),
    ("how long a request waited", "<b>1520.000&#160;ms</b>, 2 pending", "<b>1520.001&#160;ms</b>, 2 pending"),
    ("how many replies said pending", ", 2 pending", ", 1 pending"),
    ("that replies said pending", ", 2 pending", ""),
    ("the service of a slow answer", "RoutineControl <b>", "TransferData <b>"),
    ("the item of a slow answer", '<li><a href="#i6">item 6</a> Rout', '<li><a href="#i2">item 2</a> Rout'),
    ("two slow answers exchanged", re.compile(r"(<li><a href=.#i4.*\n)(<li><a href=.#i5.*\n)"), r"\2\1"),
    ("no slow answers", re.compile(r"<p>Slowest(?:.*\n)*</ol>\n"), ""),
]


# Faults of a page of golden/ruled.log.
FAULTS_UNDER_RULES = [
    ("a masked byte that is told", "<code>62 01 05 .. ..", "<code>62 01 05 00 .."),
    ("a byte that is masked", "<code>62 01 05", "<code>62 01 .."),
    ("no star", "<code>67 01 *<", "<code>67 01<"),
    ("a star where nothing is cut off", "<code>62 01 05 .. ..", "<code>62 01 05 .. .. *"),
    ("the name of a masked message", "<code>67 01 *</code>", "<code>67 01 *</code> <i>(requestSeed 01)</i>"),
    ("the length of a message that is cut off", "<br><i>in 3 frames", "<br><i>20 bytes in 3 frames"),
    ("a rule that spoke of one message more", "<code>drop 7E</code>: 1 message\n", "<code>drop 7E</code>: 2 messages\n"),
    ("another rule", "<code>drop 7F3E</code>", "<code>drop 7F3F</code>"),
    ("a rule less", re.compile(r"<li><code>.*\n"), ""),
    ("a count of rules", re.compile(r"Under \d rules"), "Under 9 rules"),
    ("how many are left out", re.compile(r"<dt>left out</dt><dd>\d"), "<dt>left out</dt><dd>9"),
    ("of what a sentence is", " Of what the rules leave, no answer is negative", " No answer is negative"),
    ("that none is left out", re.compile(r"<div[^>]*><dt>left out</dt>.*\n"), ""),
]

# Faults of a page of golden/trouble_codes.log.
FAULTS_OF_CODES = [
    ("a code of another system", "P0123-45", "B0123-45"),
    ("another failure type", "U0100-87", "U0100-86"),
    ("a bit of a status less", "P0123-45 testFailed confirmedDTC", "P0123-45 testFailed"),
    ("a bit of a status more", "(read as SAE J2012: U0100-87)", "(read as SAE J2012: U0100-87 testFailed)"),
    ("a code less", ", U0100-87 confirmedDTC testFailedSinceLastClear", ""),
    ("how many codes are not shown", ", and 1 more)", ", and 2 more)"),
    ("codes that are not said to be read so", "(read as SAE J2012: P0123", "(P0123"),
    ("a code where the length fits none", "<i>(reportSupportedDTC)</i>", "<i>(reportSupportedDTC)</i> <i>(read as SAE J2012: P0123-45)</i>"),
]

# Faults of a page of golden/other_answers.log.
FAULTS_OF_ECHOES = [
    ("what is answered", "answers 62 F1 00, asked", "answers 62 F1 01, asked"),
    ("what was asked", "asked was 22 F1 01<", "asked was 22 F1 00<"),
    ("an identifier less that was asked", "asked was 22 F1 90 F1 8C<", "asked was 22 F1 90<"),
    ("how much more was asked", "00 0F 00 and 1 byte more", "00 0F 00 and 2 bytes more"),
    ("an answer that is not said to be other", re.compile(r" <em>answers [^<]*</em>"), ""),
    ("one that looks as if it were none", '<tr class="s"><td>1<', '<tr class="ok"><td>1<'),
    ("another number of them", re.compile(r"other than asked <b>\d+</b>"), "other than asked <b>9</b>"),
    ("a link to another one", '<a href="#i2">item 2</a>, ', '<a href="#i7">item 7</a>, '),
    ("their count", re.compile(r"<dt>other than asked</dt><dd>\d+"), "<dt>other than asked</dt><dd>9"),
    ("no sentence", " Not every answer is to what was asked.", ""),
]


def faults(cases):
    """The reader finds each fault of a page without rules, of one under rules, of one with trouble codes, and of one with answers to
    something else."""
    planted(cases, "clean", FAULTS)
    planted(cases, "other_answers", FAULTS_OF_ECHOES)
    planted(cases, "trouble_codes", FAULTS_OF_CODES)
    planted(cases, "ruled", FAULTS_UNDER_RULES)


def planted(cases, golden_name, named_faults):
    """The reader finds each fault of a page: these, each line that is left out or stands twice, and each eleventh
    byte that is another one."""
    log, options = golden_pages.logs()[golden_name], golden_pages.PAGES[golden_name]
    page, want = cases.run(["report", *options], log).output.decode(), report_facts.reported(log, rules=rules_in(options)).written
    cases.report(f"a page without a fault, {golden_name}", want.differences(page.encode()))
    for name, old, new in named_faults:
        other = re.sub(old if isinstance(old, re.Pattern) else re.escape(old), new, page, count=1)
        wrong = ["the page is the same"] if other == page else [] if want.differences(other.encode()) else ["it is not found"]
        cases.report(f"a fault: {name}", wrong)
    lines = page.splitlines(keepends=True)
    others = {f"line {at + 1} left out": lines[:at] + lines[at + 1 :] for at in range(len(lines))}
    others |= {f"line {at + 1} twice": lines[: at + 1] + lines[at:] for at in range(len(lines))}
    others |= {f"byte {at + 1} is another one": [page[:at], "~", page[at + 1 :]] for at in places_of_bytes(page)}
    unseen = [name for name, other in others.items() if not want.differences("".join(other).encode())]
    cases.report(f"{len(others)} faults of lines and bytes, {golden_name}", [f"not found: {name}" for name in unseen[:3]])


def rules_in(options):
    """The rules of the profile that options name."""
    return profiles.read(Path(options[1]).read_bytes()).rules if options[:1] == ["--profile"] else []


def places_of_bytes(page):
    """Every eleventh byte of a page, without its style, which is a text by itself."""
    begin, end = page.index("<style>"), page.index("</style>")
    return [*range(begin), *range(end, len(page))][::11]


# --- Pages beside the facts of their logs ---------------------------------------------------------------------------------


def pages(cases):
    """Each log has its page, of which the rows alone tell the texts of the other jobs."""
    logs = itertools.chain(sample_logs(), table_logs(), exchanged_logs(), made_logs(), some_random_logs(), functional_logs())
    for name, log, sides in logs:
        wrong = page_faults(cases, log, sides)
        cases.report(name, wrong + ([f"the log {log!r}"] if wrong and len(log) < 2000 else []))


def pages_under_rules(cases):
    """The same of logs under rules."""
    with tempfile.TemporaryDirectory() as folder:
        profile = Path(folder, "p.toml")
        for name, log, toml in itertools.chain(ruled_logs(), random_ruled_logs()):
            profile.write_bytes(toml)
            wrong = page_faults(cases, log, oracle.SIDES, ["--profile", str(profile)])
            cases.report(f"under rules: {name}", wrong + ([f"the log {log!r} and the profile {toml!r}"] if wrong and len(log) < 2000 else []))


def page_faults(cases, log, sides, profile=()):
    options = [*(word for side, identifier in sides.items() for word in (f"--{side}", identifier)), *profile]
    found = cases.run(["report", *options], log)
    wrong = page_differences(found, report_facts.reported(log, sides=sides, rules=rules_in(profile))) + text_faults(found.output)
    try:
        return wrong + retold_otherwise(cases, read(found.output.decode()).facts, log, options)
    except (LookupError, ValueError) as error:
        return [*wrong, f"a page that can't be read: {error!r}"]


def page_differences(found, came, status=None, told=None):
    """How a run of the program differs from what the log says. Another status and what is told then can be said."""
    fault = f"{came.fault}\n".encode() if came.fault else b""
    return [
        *differences("status", found.status, came.status if status is None else status),
        *differences("error output", found.error, fault if told is None else told),
        *came.written.differences(found.output),
    ]


def text_faults(page):
    """What is wrong with the text of any page: it is ASCII, nothing is fetched or run by it, each identifier stands once, and each
    link leads to one."""
    identifiers = Counter(re.findall(rb' id="([^"]*)"', page))
    links = re.findall(rb' (?:href="#|for=")([^"]*)"', page)
    addresses = re.findall(rb' href="([^#][^"]*)"', page)
    return [
        *([] if page.isascii() else ["it is not ASCII"]),
        *([] if POLICY in page else ["it may fetch something"]),
        *(f"it has {text.decode()}" for text in FORBIDDEN if text in page),
        *(f"the identifier {name.decode()} stands {number} times" for name, number in identifiers.items() if number > 1),
        *(f"nothing is called {name.decode()}" for name in links if name not in identifiers),
        *(f"a link leads to {address!r}" for address in addresses),
    ]


def retold_otherwise(cases, page, log, options):
    """How what the rows alone tell differs from what `list` writes, or `watch` where that is refused, and `explain`; and what the
    page counts from how many rows there are."""
    rows, counts = rows_in(page), page.verdict.counts
    is_brief = any(row.is_brief for row in rows)
    listed = cases.run(["list", *options], log)
    if listed.status != DONE:
        listed = cases.run(["watch", *options], log)
    explained = cases.run(["explain", *options], log)
    counted, told = counts_told(counts, rows) if explained.status == DONE else "", explained.output.decode()
    if page.rules and counted:
        # What explains a log knows no rules.
        counted, told = "", told[: told.rindex("lines ")]
    return [
        *differences("the list by the rows", shortened(list_told(rows), is_brief), shortened(listed.output.decode(), is_brief)),
        *differences("the explanation by the rows", explanation_told(rows) + counted, told),
        *differences("the counts", counts_in(counts), counts_of_rows(rows)),
    ]


def ruled_logs():
    """Logs with a profile that are made for one thing each."""
    alive, read = ["7E0#023E00", "7E8#027E00"], ["7E0#03220105", "7E8#0562010500AA"]
    for name, frames, toml in [
        ("rules that speak of nothing", [REQUEST, ANSWER], b'drop = ["3E"]\nmask = ["27??*"]'),
        ("one rule", [*alive, REQUEST, ANSWER], b'drop = ["3E"]'),
        ("all is left out", alive, b'drop = ["3E", "7E"]'),
        ("a message between a request and its answer", [REQUEST, *alive, ANSWER], b'drop = ["3E", "7E"]'),
        ("a request whose answer stays", [REQUEST, ANSWER, *read], b'drop = ["22F190"]'),
        ("pending replies are counted, too", [REQUEST, "7E8#037F2278", "7E8#037F2278", ANSWER], b'drop = ["7F2278"]'),
        ("pending replies of a request that is left out", [REQUEST, "7E8#037F2278", ANSWER], b'drop = ["22"]'),
        ("a masked byte, and one that was 00", [*read, "7E0#03220105", "7E8#056201050000"], b'mask = ["620105.."]'),
        ("a message that ends before the places do", ["7E0#0127", "7E8#0167"], b'mask = ["27??*", "67...."]'),
        ("nothing is cut off", ["7E0#022701", "7E8#026701"], b'mask = ["67??*"]'),
        ("a request that is cut off, and asks for no answer", ["7E0#03108301", "7E0#023E80"], b'mask = ["10??*"]'),
        ("a long answer that is cut off", VIN, b'mask = ["62F190......*"]'),
        ("letters of a long answer that is cut off", VIN, b'mask = ["62F190..????????????*"]'),
        ("letters behind masked bytes", VIN, b'mask = ["62F190......"]'),
        ("a frame of what is left out is lost", ["7E0#1014360141424344", "7E0#2245464748"], b'drop = ["36"]'),
        ("a refused log", [*alive, REQUEST, "x"], b'drop = ["3E", "7E"]'),
        ("sides that look exchanged", ["7E8#0322F190", "7E0#0462F19041", "7E0#027E00"], b'drop = ["7E"]'),
        ("sides that look exchanged as the log is, and not as the rules leave it", ["7E8#0322F190", "7E0#0462F19041"], b'drop = ["22", "62"]'),
        ("64 rules", [REQUEST, ANSWER], profiles.toml_of({"drop": [f"{number:04X}" for number in range(0x2200, 0x2240)]})),
        ("the longest rule", [REQUEST], profiles.toml_of({"mask": [f"{'62' * 16}{'..??' * 32}*"]})),
        *((f"a message of {length} bytes, masked", log_of_messages(message_of(length)), profiles.toml_of({"mask": ["0001" + "..??" * 32]})) for length in LENGTHS),
        *((f"one of {length} bytes, cut off", log_of_messages(message_of(length)), profiles.toml_of({"mask": ["0001" + "??.." * 32 + "*"]})) for length in LENGTHS),
        ("brief rows", [*1001 * [REQUEST], *brief_frames()], b'drop = ["3E"]\nmask = ["2EF1????..", "6EF1*", "620105..", "2701*"]'),
        ("brief rows of long messages that are cut off", [*1001 * [REQUEST], *brief_frames()], profiles.toml_of({"mask": ["2EF1" + 33 * "??" + "*"]})),
    ]:
        yield name, frames if isinstance(frames, bytes) else log_of(*frames), toml


def brief_frames():
    """Messages of which masks speak in rows that are brief: short ones and long ones, and one that is left out."""
    return [f"7E0##0003E2EF15A{59 * '5A'}", "7E8#046EF15A01", "7E0#03220105", "7E8#0562010500AA", "7E0#022701", "7E0#042701AABB", "7E0#023E80", REQUEST]


def random_ruled_logs():
    """Random logs under random rules."""
    rng = random.Random(SEED)
    for number, log in enumerate(itertools.islice(random_logs(SEED + 2), RANDOM_LOGS), 1):
        yield f"random log {number}", log, profiles.random_profile(rng, log)


def sample_logs():
    for path in sorted(EXAMPLES.glob("*.log")):
        yield f"examples/{path.name}", path.read_bytes(), oracle.SIDES
    path = EXAMPLES / "extended-identifiers.log"
    yield f"examples/{path.name} by its identifiers", path.read_bytes(), EXTENDED


def table_logs():
    """The logs of all tables, those of comparisons, too."""
    for table in sorted(path.stem for path in tables.ROWS.iterdir()):
        for row in tables.table(table):
            sides = dict(zip((TESTER, UNIT), row.sides()))
            for log in filter(None, [row.log(), row.side("left"), row.side("right")]):
                yield f"{table}: {row.name}", log, sides
    for table in ("refused_lines", "unfinished_lines"):
        for row in tables.lines(table):
            line = row.partition(" ")[2].encode()
            yield f"{table}: {row!r}", log_of(REQUEST, FIRST) + line + (b"\n" if table == "refused_lines" else b""), oracle.SIDES


def exchanged_logs():
    """Logs whose sides look exchanged, and some that lack one thing of that, where 7E8 is the tester's."""
    sides = {TESTER: "7E8", UNIT: "7E0"}
    for name, log in [
        ("vin.log", VIN),
        ("a request and its answer", log_of(REQUEST, ANSWER)),
        ("a negative answer", log_of(REQUEST, REFUSED)),
        ("keep-alives", log_of(ANSWER, "7E0#023E80", "7E8#023E80")),
        ("a log that is not clean", log_of(REQUEST, ANSWER, FIRST)),
        ("a log that is cut", log_of(REQUEST, ANSWER).removesuffix(b"\n")),
        ("a request beside them", log_of(REQUEST, ANSWER, "7E8#0322F190")),
        ("no answer", log_of(REQUEST)),
        ("no request", log_of(ANSWER)),
    ]:
        yield f"exchanged sides: {name}", log, sides


def made_logs():
    """Logs that are made for one thing each."""
    for name, log in [
        ("nothing", b""),
        ("blank lines", b"\n\r\n"),
        ("foreign frames alone", log_of("123#00", "000007E0#0322F190")),
        ("frames of the tester alone", log_of(REQUEST)),
        ("frames of the unit alone, some of them dropped", log_of(STRAY, UNKNOWN)),
        ("a last line without a line feed", VIN.removesuffix(b"\n")),
        ("lines that end in a carriage return", VIN.replace(b"\n", b"\r\n")),
        ("a clock that goes back", b"".join(reversed(log_of(REQUEST, *[ANSWER] * 3).splitlines(keepends=True)))),
        ("no room, behind the first frame and behind another", log_of(FIRST, "7E0#320000", FIRST, "7E8#2133413543353045", "7E0#320000")),
        ("a request whose answer may be left out, and none", log_of("7E0#023E81", "7E0#021083", "7E0#023E80", "7E0#023E00")),
        *((f"a message of {length} bytes", log_of_messages(message_of(length))) for length in LENGTHS),
        *((f"{length} bytes of text", log_of_messages(text_of(length))) for length in LENGTHS if length < 4095),
        *((f"text from byte {at} on", log_of_messages(bytes(at) + b"a-Z9" + bytes(60))) for at in (0, 28, 29, 31, 32)),
        ("a text that ends in each byte", log_of_messages(*(b"WBA" + bytes([byte]) for byte in range(256)))),
        ("each byte behind a text", log_of_messages(*(b"WBA3" + bytes([byte]) for byte in range(256)))),
        *((f"{number} of each thing that needs a look", log_of(*number * needing_a_look())) for number in (1, 10, 11, 12)),
        *slow_logs(),
        *echo_logs(),
        *block_logs(),
    ]:
        yield name, log, oracle.SIDES


def echo_logs():
    """Logs of answers that are to what was asked, or to something else: for each service, and at each place."""
    for name, request, answer in [
        ("a data identifier", "22F190", "62F19041"), ("another data identifier", "22F101", "62F10041"), ("another one, in its first byte", "22F101", "62F20141"),
        ("one of three", "22F190F18C0105", "62F18C41"), ("none of three", "22F190F18C0105", "62F18D41"), ("parts of two", "22F190018C", "62F18C41"),
        ("half an identifier", "22F190F1", "62F191"), ("no identifier", "22", "62F190"), ("a short answer", "22F190", "62F1"),
        ("a session", "1003", "5003003201F4"), ("another session", "1003", "5001003201F4"), ("a session that asks for no answer", "1083", "5003003201F4"),
        ("a session that is answered with bit 7", "1003", "5083003201F4"), ("another reset", "1101", "5102"), ("another report", "1902FF", "5901FF010000"),
        ("another seed", "2701", "6703AABBCCDD"), ("another control", "280301", "6800"), ("another task", "2908", "6900"),
        ("a defined identifier", "2C01F30001", "6C01F300"), ("another defined identifier", "2C01F30001", "6C01F301"), ("a defined identifier, not repeated", "2C01F30001", "6C01"),
        ("another definition", "2C01F30001", "6C02F300"), ("all of them cleared", "2C03", "6C03"), ("another written identifier", "2EF19041", "6EF191"),
        ("another scaling", "24F190", "64F19141"), ("another control of an input", "2FF19003", "6FF19103"), ("a routine", "3101FF00", "7101FF00"),
        ("another routine", "3101FF00", "7101FF01"), ("another act of a routine", "3101FF00", "7103FF00"), ("a routine, not repeated", "3101FF00", "7101"),
        ("a sub-function of routines that is none", "3105FF00", "7105FF01"), ("another such", "3105FF00", "7106FF00"), ("a block", "36010203", "7601"),
        ("another block", "36010203", "7602"), ("another mode of a file", "3801000141", "7802"), ("a tester that is present", "3E00", "7E00"),
        ("another presence", "3E00", "7E01"), ("a download", "340044000100000100", "74200FFF"), ("an upload's end", "37", "77"), ("another timing", "8301", "C302"),
        ("another setting", "8502", "C501"), ("another event", "8603", "C605"), ("another link control", "8701", "C702"), ("another authentication", "2901", "6902"),
        ("an unknown service", "BA01", "FA02"), ("a negative one", "22F190", "7F2231"),
    ]:
        yield f"an answer to {name}", log_of_both(request, answer)
    many = "22" + "".join(f"{number:04X}" for number in range(1, 2048))
    yield "an answer to the last of 2,047 identifiers", log_of_both(many, "6207FF41")
    yield "an answer to none of 2,047 identifiers", log_of_both(many, "62080041")
    yield "an answer to none of 16 identifiers", log_of_both(many[:66], "62080041")
    yield "an answer to none of 15 identifiers", log_of_both(many[:62], "62080041")
    yield "an answer to the last of 2,048 identifiers", log_of_both(many + "0800", "62080041")
    yield "an answer to none of 2,048 identifiers", log_of_both(many + "0800", "62080141")
    other = [log_of_both("22F101", "62F10041")]
    yield "twelve answers to something else", b"".join(12 * other)
    yield "answers to something else in folded blocks", b"".join([*(1100 * [log_of_both("22F190", "62F19041")]), *other])
    yield "an answer to something else, a keep-alive and a stray between", log_of("7E0#0322F101", "7E0#023E80", "7E8#0141", "7E8#037F2278", "7E8#0462F10041")
    yield "an answer to the request before", log_of("7E0#0322F101", "7E0#0322F102", "7E8#0462F10141", "7E8#0462F10241")


def log_of_both(request, answer):
    """The log of a request and its answer."""
    return "".join(oracle.canonical_lines([(TESTER, bytes.fromhex(request)), (UNIT, bytes.fromhex(answer))])).encode()


def slow_logs():
    """Logs of which answers are slow: as many as are told, fewer and more, of equal times, in frames of several, before their request ended,
    and behind pending replies."""
    waits = [3, 1, 4, 1, 5, 9, 2, 6, 5, 3, 5, 8, 9, 7, 9, 3, 2, 3, 8, 4]
    for number in (9, 10, 11, len(waits)):
        yield f"{number} answers, of other times", slow_log([([REQUEST], wait, [ANSWER]) for wait in waits[:number]])
    yield "twelve answers, each slower", slow_log([([REQUEST], wait, [ANSWER]) for wait in range(12)])
    yield "twelve answers of one time", slow_log(12 * [([REQUEST], 5, [ANSWER])])
    yield "negative and pending ones", slow_log([([REQUEST], 5, [REFUSED]), ([REQUEST], 5, ["7E8#037F2278", "7E8#037F2278", ANSWER]), ([REQUEST], 6, ["7E8#037F2278"])])
    yield "a request and an answer of several frames", slow_log([(["7E0#100A2EF190414243", "7E0#2144454647"], 7, ["7E8#100A6EF190414243", "7E8#2144454647"])])
    yield "an answer before the request ended", log_of("7E0#100A2EF190414243", "7E8#100A6EF190414243", "7E0#2144454647", "7E8#2144454647")
    yield "an answer that begins with the end of its request", slow_log([([REQUEST], 0, [ANSWER])])


def slow_log(exchanges):
    """The log of these exchanges: the frames of a request, how many milliseconds behind its last one the answer begins, and the frames of
    this. All other frames are a millisecond apart."""
    lines, now = [], 0
    for asking, wait, answering in exchanges:
        for frame in asking:
            lines.append(tables.stamped(now, frame))
            now += 1
        now += wait - 1
        for frame in answering:
            lines.append(tables.stamped(now, frame))
            now += 1
    return b"".join(lines)


def functional_logs():
    """Logs with requests to all units: answered or not, beside a missing answer, and in blocks that are folded at first."""
    sides = {**oracle.SIDES, oracle.FUNCTIONAL: "7DF"}
    for name, frames in [
        ("answered", ["7DF#023E00", "7E8#027E00"]),
        ("refused", ["7DF#0210FF", "7E8#037F1012"]),
        ("without an answer", ["7DF#023E00"]),
        ("pending, and without an answer", ["7DF#023E00", "7E8#037F3E78"]),
        ("pending, and then answered", ["7DF#023E00", "7E8#037F3E78", "7E8#027E00"]),
        ("pending, and then the next one, of which nothing is said", ["7DF#023E00", "7E8#037F3E78", "7DF#023E00"]),
        ("pending of another service, which is a stray", ["7DF#023E00", "7E8#037F2278"]),
        ("pending, and a keep-alive behind", ["7DF#0322F190", "7E8#037F2278", "7DF#023E80"]),
        ("silent, as it asks, and pending", ["7DF#021083", "7E8#037F1078"]),
        ("silent, as it asks", ["7DF#021083"]),
        ("a keep-alive of no exchange", ["7DF#023E80"]),
        ("a stray", ["7DF#0162"]),
        ("without an answer, and then one to the unit alone", ["7DF#023E00", REQUEST]),
        ("one to the unit alone without an answer, and then one to all", [REQUEST, "7DF#023E00", REQUEST, ANSWER]),
        ("inside a reception", [FIRST, "7DF#023E00", OUT_OF_ORDER]),
        ("frames of several, dropped", ["7DF#300000", "7DF#100A22F190414243", "7DF#2144454647", UNKNOWN.replace("7E8", "7DF")]),
        ("one of CAN FD", ["7DF##000093E8011223344556677"]),
        ("in folded blocks", 1200 * ["7DF#023E00", "7E8#027E00"] + 30 * ["7DF#023E80", "7DF#021003", "7DF#021083", "7DF#0322F190", "7E8#037F2278"]),
    ]:
        yield f"to all units: {name}", log_of(*frames), sides


def log_of_messages(*messages):
    """The log of these messages of the unit."""
    return "".join(oracle.canonical_lines([(UNIT, message) for message in messages])).encode()


def text_of(length):
    return (b"WBA3A5C50 EF/123456:7.8-9_z<&>" * (1 + length // 30))[:length]


def needing_a_look():
    """A stray, a frame that is dropped, a message that ends early, and requests without a positive answer; the last message is
    unfinished in the end."""
    return [STRAY, UNKNOWN, REQUEST, REFUSED, REQUEST, FIRST, OUT_OF_ORDER, FIRST]


def block_logs():
    """Sessions of several blocks. A full one has 200 rows, and the largest 1,000."""
    for number in (99, 100, 101, 1000, 1001):
        yield f"{number} exchanges", log_of(*number * [REQUEST, ANSWER])
    for name, frames in [
        ("a message", [STRAY]),
        ("a request", [REQUEST, ANSWER]),
        ("an answer", [REQUEST, STRAY, ANSWER]),
        ("a missing answer", [REQUEST]),
        ("a frame that ends a message", [FIRST, OUT_OF_ORDER]),
        ("a frame that is dropped", [UNKNOWN]),
        ("the end of the log", [FIRST]),
    ]:
        for before in (998, 999, 1000):
            yield f"{before} strays before {name}", log_of(*before * [STRAY], *frames)
    for behind in (998, 999, 1000):
        yield f"a request, {behind} strays, and a request", log_of(REQUEST, *behind * [STRAY], REQUEST)


def some_random_logs():
    for number, log in enumerate(itertools.islice(random_logs(SEED), RANDOM_LOGS), 1):
        yield f"random log {number}", log, oracle.SIDES


# --- Names and options --------------------------------------------------------------------------------------------------


def names(cases):
    """Whatever a file is called, its name stands on the page as a text."""
    with tempfile.TemporaryDirectory() as folder:
        for path, shown in NAMES.items():
            file = Path(folder, path)
            file.parent.joinpath("inner").mkdir(parents=True, exist_ok=True)
            file.write_bytes(VIN)
            cases.report(f"a log in the file {path[:40]!r}", name_faults(cases, ["--", path], shown, cwd=folder))
            cases.report("the same by its whole path", name_faults(cases, [file], shown))
    cases.report("standard input", name_faults(cases, [], "standard input"))


def name_faults(cases, words, shown, **options):
    found = cases.run(["report", *words], VIN, **options)
    name = report_facts.last_part(os.fsencode(words[-1])) if words else report_facts.STANDARD_INPUT
    wrong = page_differences(found, report_facts.reported(VIN, name=name))
    for text in (f"<title>{shown} - udsnorm report</title>\n", f"<h1>{shown}</h1>\n"):
        wrong += [] if text.encode() in found.output else [f"{text!r} is not there"]
    return wrong + ([] if b"<script" not in found.output else ["it has a script"])


def options(cases):
    """Options are those of `messages`, which ends in the same way; and the page is for them."""
    for words, sides, limit in OPTIONS:
        found = cases.run(["report", *words], VIN)
        wrong = page_differences(found, report_facts.reported(VIN, limit, sides))
        cases.report(f"report {' '.join(words)}", wrong + ends_otherwise(cases, words, VIN, found))
    for words in WRONG_VALUES:
        found = cases.run(["report", *words], VIN)
        wrong = ends_otherwise(cases, words, VIN, found) + differences("output", found.output, b"")
        cases.report(f"report {' '.join(words)}", wrong)


def ends_otherwise(cases, words, log, found):
    placed = cases.run(["messages", *words], log)
    return differences("how it ends", (found.status, found.error), (placed.status, placed.error))


def strict_runs(cases):
    """A log that has to be clean has the same page, and then it is told what it lacks."""
    for name, log in [
        ("a clean log", VIN),
        ("a log without its last line feed", VIN.removesuffix(b"\n")),
        ("a log with dropped frames", log_of(*needing_a_look())),
        ("a log without a line", b""),
        ("a log of a blank line", b"\n"),
        ("a log that lacks a side, a frame and its last line feed", log_of(UNKNOWN).removesuffix(b"\n")),
        ("a refused log", VIN + b"x\n"),
    ]:
        found = cases.run(["report", "--strict"], log)
        came = report_facts.reported(log)
        told = oracle.unclean(log) if came.status == DONE else None
        wrong = page_differences(found, came, *([UNCLEAN, f"{told}\n".encode()] if told else []))
        shown = f"<p><em>{told.removeprefix('not clean: ')}.</em>" if told else ""
        wrong += [] if shown.encode() in found.output else [f"its page does not say {shown}"]
        cases.report(f"report --strict of {name}", wrong + ends_otherwise(cases, ["--strict"], log, found))


# --- Refused logs and devices -------------------------------------------------------------------------------------------


def refused_logs(cases):
    """A refused log has a page that says where and why, and calls nothing that is open unanswered or unfinished."""
    for name, log, limit, told, rows in [
        ("in its first line", b"x\n" + VIN, None, place(1, 1), []),
        ("behind a foreign frame", log_of("123#00") + b"x\n", None, place(2, 1), []),
        ("behind a whole session", VIN + b"(x\n", None, place(6, 2), ["request", "positive"]),
        ("behind a request", log_of(REQUEST) + b"x\n", None, place(2, 1), ["request"]),
        ("behind another request", log_of(REQUEST, REQUEST) + b"x\n", None, place(3, 1), ["request", "no answer", "request"]),
        ("inside an answer", log_of(REQUEST, FIRST) + b"x\n", None, place(3, 1), ["request"]),
        ("behind what ends a message", log_of(FIRST, OUT_OF_ORDER) + b"x\n", None, place(3, 1), ["ended", "dropped"]),
        ("inside its last line", log_of(REQUEST) + b"(1.000000) can0 7E0#0", None, place(2, 22), ["request"]),
        ("by its limit", VIN, 40, LONG_LOG, ["request"]),
        ("by a limit of a byte", VIN, 1, LONG_LOG, []),
    ]:
        found = cases.run(["report", *(["--limit", str(limit)] if limit else [])], log)
        wrong = page_differences(found, report_facts.reported(log, limit or oracle.GIBIBYTE), REFUSAL, told)
        cases.report(f"a log that is refused {name}", wrong + refusal_faults(found, told, rows))


def causes_of_refusals(cases):
    """The page of a refused log has the cause in the words of the hint, and none where there is no hint."""
    lines = VIN.splitlines(keepends=True)
    for name, log, limit, is_known in [
        ("compressed", gzip.compress(VIN), None, True),
        ("a table", b"timestamp,id,data\n", None, True),
        ("with nine decimals", b"(1700000000.000000000) can0 7E0#00\n", None, True),
        ("cut", VIN[:-2], None, True),
        ("with a notice", VIN + b"DROPCOUNT: dropped 1 CAN frame\n", None, True),
        ("that begins with a notice", b"DROPCOUNT: dropped 1 CAN frame\n" + VIN, None, True),
        ("longer than its limit", VIN, 40, True),
        ("of no known kind", b"no log\n", None, False),
        ("with a line that breaks off", lines[0][:-2] + b"\n" + VIN, None, False),
    ]:
        words = ["report", "--hints", *(["--limit", str(limit)] if limit else [])]
        found = cases.run(words, log)
        wrong = page_differences(found, report_facts.reported(log, limit or oracle.GIBIBYTE), REFUSAL, found.error)
        hints = [line for line in found.error.decode().splitlines() if line.startswith("hint: ")]
        shown = re.findall(r"^<p><b>Cause:</b> (.*)\.</p>$", found.output.decode(), re.M)
        wrong += differences("the cause", shown, [hint.removeprefix("hint: ").replace("standard input", "this log") for hint in hints])
        cases.report(f"the cause of a log {name}", wrong + differences("causes", len(shown), 1 if is_known else 0))


def refusal_faults(found, told, rows):
    """What is wrong with the page of a refused log with these kinds of rows."""
    page, reason = found.output.decode(), told.decode().removesuffix("\n")
    stop = f'<p class="stop"><b>Refused here:</b> {reason}.</p>\n</main>\n<section id="verdict" class="bad">\n'
    heading = "The log is refused</h2>\n<p><em>" + reason + ".</em> Below is what the lines before that say;"
    return [
        *(f"{text!r} is not there" for text in (stop, heading, '<p id="end">') if text not in page),
        *differences("the kinds of its rows", [row.kind for row in rows_in(read(page).facts)], rows),
        *text_faults(found.output),
    ]


def growing_page(cases):
    """Each row can be read before the frame behind it is given: a page is written while the session is recorded."""
    log = log_of("123#00", *needing_a_look(), ANSWER)
    whole, running, came = cases.run(["report"], log), start(cases.program, ["report"]), b""
    lines, wrong = log.splitlines(keepends=True), page_differences(whole, report_facts.reported(log))
    for number, line in enumerate(lines, 1):
        give(running, line)
        want = report_facts.so_far(whole.output, b"".join(lines[:number]))
        while len(came) < len(want) and select.select([running.stdout], [], [], 30)[0]:
            came += os.read(running.stdout.fileno(), 65_536)
        wrong += differences(f"behind line {number}", came, want)
    rest = end(running)
    wrong += differences("the whole page", rest._replace(output=came + rest.output), whole)
    cases.report("a page of a log that comes line by line", wrong)


def devices(cases):
    """An output that takes nothing, and a log that can't be read."""
    with open("/dev/full", "wb") as full:
        for name, log in [("a session", VIN), ("no log", b""), ("a refused log", b"x\n"), ("a long log", log_of(*1000 * [REQUEST]))]:
            cases.case(f"a page of {name} that nothing takes", cases.run(["report"], log, stdout=full), DEVICE, None, WRITE_FAILED)
    for name, path in [("that is not there", "missing"), ("that is a folder", EXAMPLES), ("without a name", "")]:
        cases.case(f"a file {name}", cases.run(["report", path]), DEVICE, b"", READ_FAILED)


# --- Sizes and memory ---------------------------------------------------------------------------------------------------


def sizes(cases):
    """A page grows with its items alone, and by the same for each."""
    lengths = {}
    for number in (0, 1000, MEASURED_ITEMS):
        found = cases.run(["report"], number * log_of(REQUEST, ANSWER))
        lengths[number] = len(found.output)
        wrong = differences("status", found.status, DONE)
        most = lengths[0] + ITEM_MORE * number
        wrong += [] if len(found.output) <= most else [f"more than {most}"]
        cases.report(f"a page of {number} items has {len(found.output)} bytes", wrong)
    wrong = [] if lengths[1000] < THOUSAND_ITEMS else [f"{lengths[1000]} bytes"]
    cases.report(f"a page of 1000 items is below {THOUSAND_ITEMS} bytes", wrong)


def memory(cases):
    """No page is held, nor any of its rows or items: whatever the log, the program has no more than without one."""
    for name, frames in [("exchanges", [REQUEST, ANSWER]), ("requests", [REQUEST]), ("strays", [STRAY]), ("dropped frames", [UNKNOWN])]:
        found = peak(cases.program, ["report"], MEASURED_ITEMS * log_of(*frames))
        wrong = differences("status", found.status, DONE)
        if found.kilobytes is None:
            wrong.append("it ended before its log")
        elif found.kilobytes > PROGRAM_BYTES // 1024:
            wrong.append(f"more than {PROGRAM_BYTES // 1024} kB")
        cases.report(f"a page of {MEASURED_ITEMS} {name}: {found.kilobytes} kB", wrong)


def main():
    if len(sys.argv) < 2:
        sys.exit(__doc__)
    cases = Cases(os.path.abspath(sys.argv[1]), sys.argv[2:])
    cases.each([golden, faults, pages, pages_under_rules, names, options, strict_runs, refused_logs, causes_of_refusals, growing_page, devices, sizes, memory])
    cases.end()


if __name__ == "__main__":
    main()
