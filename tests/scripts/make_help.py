#!/usr/bin/env python3
"""Tests of `make help`: each goal of the Makefile has one line, with words of the Makefile's own.

    tests/scripts/make_help.py

Prints a line for each case and ends with `N passed, M failed`; its status is 1 where a case failed.
"""

import re
import sys
from pathlib import Path

sys.path.insert(0, str(Path(__file__).resolve().parents[1] / "helpers"))

from cases import Cases
from making import TOP, make

MAKEFILE = (TOP / "Makefile").read_text()


def main():
    if len(sys.argv) != 1:
        sys.exit(__doc__)
    cases = Cases(None)
    status, told, error = make("help")
    lines = dict(line.split(maxsplit=1) for line in told.splitlines() if len(line.split()) > 1)
    goals = re.findall(r"^([a-z-]+):", MAKEFILE, re.M)
    cases.report("make help ends well", [] if (status, error) == (0, "") else [f"status {status}", error])
    cases.report("it has a line for each goal", sorted({*goals} ^ {*lines}) + [goal for goal in goals if told.count(f"{goal} ") == 0])
    cases.report("each goal is no file", sorted({*goals} ^ {*" ".join(re.findall(r"^\.PHONY: (.*)$", MAKEFILE, re.M)).split()}))
    comments = " ".join(" ".join(re.findall(r"^#(.*)$", MAKEFILE, re.M)).split())
    cases.report("its words are those of the Makefile", [text for text in lines.values() if not re.search(rf"(?:^|[.] ){re.escape(text)}[.:]", comments)])
    cases.report("no line is too long", [line for line in told.splitlines() if len(line) > 110])
    cases.end()


main()
