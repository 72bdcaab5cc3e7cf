"""The pages that browsers are shown: `udsnorm report` writes them of sample logs and of those that report_logs.py makes."""

import os
import re
from collections import namedtuple
from pathlib import Path

import report_logs
from cases import DIFFERENT, DONE, REFUSAL

EXAMPLES = Path(__file__).resolve().parents[2] / "examples"

# The sample logs whose sides are not those of the program.
SIDES = {"extended-identifiers": ["--tester", "18DA10F1", "--unit", "18DAF110"]}

# Names of pages that some checks are for.
EVERY_KIND, REFUSED, FOLDED, NOTHING = "every kind of row", "refused late", "folded blocks", "nothing"

# And those of pages of two logs.
LOST, PAIR, SAME, REFUSED_PAIR, FOLDED_PAIR, NO_ITEMS = "a lost frame", "every kind of row, twice", "the same", "one refused", "folded tables", "no items"

Page = namedtuple("Page", "name file")


class Writer:
    """Has the program write pages into a folder. Whether it did so is a case."""

    def __init__(self, cases, folder):
        self.cases = cases
        self.folder = folder
        self.number = 0

    def page(self, name, *files, options=(), status=DONE):
        found = self.cases.run(["report", *options, *files])
        self.cases.case(f"a page is written of {name}", found, status, None, None if status == REFUSAL else b"")
        return self.kept(name, found.output)

    def page_of(self, name, *logs, status=DONE):
        return self.page(name, *(self.log(f"{name}{number or ''}.log".encode(), log) for number, log in enumerate(logs)), status=status)

    def log(self, name, log):
        """A file with this log, whatever bytes its name has."""
        file = Path(os.fsdecode(os.fsencode(self.folder) + b"/" + name))
        file.write_bytes(log)
        return file

    def kept(self, name, text):
        self.number += 1
        file = self.folder / f"{self.number}.html"
        file.write_bytes(text)
        return Page(name, file)


def pages_of_sessions(writer):
    """Those of the sample logs, and of logs that show more."""
    pages = []
    for log in sorted(EXAMPLES.glob("*.log")):
        status = DONE if log.with_suffix(".canonical").exists() else REFUSAL
        pages.append(writer.page(log.stem, log, options=SIDES.get(log.stem, []), status=status))
    pages.append(writer.page_of(EVERY_KIND, report_logs.every_kind()))
    pages.append(writer.page_of(REFUSED, report_logs.refused_late(), status=REFUSAL))
    pages.append(writer.page_of(FOLDED, report_logs.folded()))
    pages.append(writer.page_of(NOTHING, b""))
    return pages


def pages_of_names(writer):
    """The same session under names that mean something elsewhere, each with the name that its page has to show."""
    pages = []
    for name in report_logs.HOSTILE_NAMES:
        file = writer.log(name, (EXAMPLES / "lost-frame.log").read_bytes())
        pages.append((said(name), writer.page(f"a file called {said(name)[:40]}", file)))
    return pages


def said(name):
    """A name as a page says it."""
    return "".join(chr(byte) if 0x20 <= byte < 0x7F else f"%{byte:02X}" for byte in name)


def pages_of_pairs(writer):
    """Those of two logs."""
    vin, lost = EXAMPLES / "vin.log", EXAMPLES / "lost-frame.log"
    return [
        writer.page(LOST, vin, lost, status=DIFFERENT),
        writer.page("29 bits", *2 * [EXAMPLES / "extended-identifiers.log"], options=SIDES["extended-identifiers"]),
        writer.page_of(PAIR, *report_logs.pair_of_kinds(), status=DIFFERENT),
        writer.page_of(SAME, *2 * [report_logs.every_kind()]),
        writer.page_of(REFUSED_PAIR, report_logs.every_kind(), report_logs.refused_late(), status=REFUSAL),
        writer.page_of(FOLDED_PAIR, *report_logs.folded_pair(), status=DIFFERENT),
        writer.page_of(NO_ITEMS, b"", b""),
    ]


def pages_of_pairs_of_names(writer):
    """Two sessions that differ under names that mean something elsewhere, each pair with the names that its page has to show."""
    pages = []
    for left, right in zip(report_logs.HOSTILE_NAMES, [*report_logs.HOSTILE_NAMES[1:], report_logs.HOSTILE_NAMES[0]]):
        logs = [writer.log(name, (EXAMPLES / log).read_bytes()) for name, log in [(left, "vin.log"), (right, "lost-frame.log")]]
        shown = (said(left), said(right))
        pages.append((shown, writer.page(f"files called {shown[0][:40]} and {shown[1][:40]}", *logs, status=DIFFERENT)))
    return pages


def flawed(text, flaw):
    """What a page forbids is never asked for, so here it forbids nothing."""
    text = re.sub("<meta http-equiv=[^>]*>", "", text, 1)
    return text.replace("</style>", f"</style>{flaw}" if flaw.startswith("<") else f"{flaw}</style>", 1)
