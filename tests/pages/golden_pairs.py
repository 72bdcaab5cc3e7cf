#!/usr/bin/env python3
"""The pages of golden/pairs/: pages that `udsnorm report` writes of two logs, of which each is in a file beside its page, as is the profile
of some.

    tests/pages/golden_pairs.py crates/udsnorm/out/udsnorm

writes them anew, and then each that is new has to be read whole, by a person, beside docs/formats.md: that its words are true of its
logs, and say what is promised there. In the place of the style they have a line.
"""

import os
import re
import sys
import tempfile
from pathlib import Path

sys.path.insert(0, str(Path(__file__).resolve().parents[1] / "helpers"))

import profiles
from report_reader import GOLDEN, STYLE_MARK
from runs import run

PAIRS = GOLDEN / "pairs"

# What the two logs of each page are.
NAMES = {
    "item_put_in": "an exchange that the left session lacks",
    "bytes_put_in": "a long answer into which three bytes are put",
    "request_changed": "a request of another identifier",
    "two_answers_changed": "a seed and a key of another value",
    "no_request": "keep-alives alone",
    "none_in_a": "a left log without a frame",
    "nothing": "two logs without a frame",
    "not_clean": "a line that is not in the right log, of two that are cut",
    "longer_answers": "two answers that took much longer in the right session, and one in the left one",
    "ruled_same": "seeds, keys and a timer that a profile leaves out",
    "ruled_changed": "a counter, an identification and a request of which a profile masks a part",
}


def logs(name):
    """The logs of a page."""
    return [PAIRS.joinpath(f"{name}.{side}.log").read_bytes() for side in ("left", "right")]


def profile_of(name):
    """The profile of a page, if it has one."""
    path = PAIRS / f"{name}.toml"
    return path if path.exists() else None


def rules_of(name):
    """The rules of that."""
    path = profile_of(name)
    return profiles.read(path.read_bytes()).rules if path else []


def page_of(program, name):
    """The page of two logs, as it stands in golden/pairs."""
    with tempfile.TemporaryDirectory() as folder:
        paths = [Path(folder, f"{side}.log") for side in ("left", "right")]
        for path, log in zip(paths, logs(name)):
            path.write_bytes(log)
        options = ["--profile", str(profile_of(name))] if profile_of(name) else []
        return shortened(run(program, ["report", *options, *map(str, paths)]).output.decode())


def shortened(page):
    return re.sub(r"(?<=<style>\n).*?(?=</style>)", lambda _: STYLE_MARK, page, count=1, flags=re.DOTALL)


def main():
    if len(sys.argv) < 2:
        sys.exit(__doc__)
    for name in NAMES:
        PAIRS.joinpath(f"{name}.html").write_text(page_of(os.path.abspath(sys.argv[1]), name))


if __name__ == "__main__":
    main()
