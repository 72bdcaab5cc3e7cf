#!/usr/bin/env python3
"""The pages of golden/: a page of each kind that `udsnorm report` writes of a log, of a small log beside it.

    tests/pages/golden_pages.py crates/udsnorm/out/udsnorm

writes them anew, and then each that is new has to be read whole, by a person, beside docs/formats.md: that its words are true of its
log, and say what is promised there. Every other page is compared with these by its words, and with its log by its facts.
In the place of the style, which report.css has, they have a line, and so has the page of a long session in the place of its open
blocks. `refused.txt` has logs that are refused, and why, as their pages say it.
"""

import os
import re
import sys
from pathlib import Path

sys.path.insert(0, str(Path(__file__).resolve().parents[1] / "helpers"))

from report_reader import BLOCKS_MARK, GOLDEN, STYLE_MARK
from runs import run
from tables import stamped

# The names of the pages, with options.
PAGES = {
    "clean": [],
    "answered": [],
    "not_clean": [],
    "unfinished": [],
    "cut": [],
    "no_unit": [],
    "no_tester": [],
    "empty": [],
    "no_frame": [],
    "exchanged": ["--tester", "7E8", "--unit", "7E0"],
    "exchanged_not_clean": ["--tester", "7E8", "--unit", "7E0"],
    "refused": [],
    "refused_at_once": [],
    "refused_by_limit": ["--limit", "76"],
    "trouble_codes": [],
    "functional": ["--functional", "7DF"],
    "other_answers": [],
    "ruled": ["--profile", str(GOLDEN / "ruled.toml")],
    "ruled_unanswered": ["--profile", str(GOLDEN / "ruled.toml")],
    "ruled_exchanged": ["--tester", "7E8", "--unit", "7E0", "--profile", str(GOLDEN / "ruled.toml")],
    "ruled_refused": ["--profile", str(GOLDEN / "ruled.toml")],
    "ruled_other": ["--profile", str(GOLDEN / "ruled_other.toml")],
    "long": [],
}

# What stands in the folded block of the long session: each kind of brief row, and rows that need a look.
FOLDED = [
    "7E0#0322F190", "7E8#037F2278", "7E8#0462F19041", "7E0#023E80",
    "7E0##00024" + "2E" + 35 * "5A" + 10 * "CC", "7E8##00021" + "6E" + 32 * "5A" + 13 * "CC",
    "7E0#021083", "7E0#0322F191", "7E8#037F2231", "7E8#40", "7E0#0322F192",
]


def logs():
    """The log of each page by its name."""
    return {**{name: GOLDEN.joinpath(f"{name}.log").read_bytes() for name in PAGES if name != "long"}, "long": long_log()}


def long_log():
    """A session whose first ten blocks are full, and an eleventh."""
    frames = [frame for number in range(1000) for frame in (f"7E0#0322{number:04X}", f"7E8#0362{number:04X}")]
    return b"".join(stamped(number, frame) for number, frame in enumerate([*frames, *FOLDED]))


def shortened(page):
    """A page as it stands in golden/."""
    page = re.sub(r"(?<=<style>\n).*?(?=</style>)", lambda _: STYLE_MARK, page, count=1, flags=re.DOTALL)
    return re.sub(r'<details class="b" open>.*(?=<details class="b">)', lambda _: BLOCKS_MARK, page, flags=re.DOTALL)


def refused_logs():
    """The logs of `refused.txt`, each with the lines below it."""
    for paragraph in GOLDEN.joinpath("refused.txt").read_text().strip("\n").split("\n\n")[1:]:
        log, *lines = paragraph.split("\n")
        yield log.encode().decode("unicode_escape").encode("latin-1"), lines


def reasons(page):
    """Why a log is refused, as its page says it: where, and the cause, if it has one."""
    return re.findall(r"^<p>(?:<em>|<b>Cause:</b> )(.*?\.)(?=</)", page, re.M)


def main():
    if len(sys.argv) < 2:
        sys.exit(__doc__)
    program = os.path.abspath(sys.argv[1])
    for name, log in logs().items():
        page = run(program, ["report", *PAGES[name]], log).output.decode()
        GOLDEN.joinpath(f"{name}.html").write_text(shortened(page))


if __name__ == "__main__":
    main()
