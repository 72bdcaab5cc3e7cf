"""The last line of what `explain` writes: how many there are of each thing. The names are those of docs/formats.md. No test has
them all, but for the oracle, which shares nothing.

A test says the counts that it is about. Of the others the lines and the frames are counted in the log, and the messages in its
canonical log, to which the pending replies come that are left out there. All others are zero.
"""

import re
from pathlib import Path

FORMATS = Path(__file__).resolve().parents[2] / "docs" / "formats.md"
NAMES = re.findall(r"(\w+) [A-Z]\b", re.search(r"^- `(lines A( \w+ [A-Z])+)`", FORMATS.read_text(), re.M)[1])

# The identifiers of the tester and the unit where nothing else is said.
SIDES = ("7E0", "7E8")


def counts_line(log, canonical=b"", sides=SIDES, **said):
    """The line for a log between these two. A name that no count has would stand behind the others, where no program has it."""
    counts = dict.fromkeys(NAMES, 0) | {
        "lines": lines_in(log),
        "frames": frames_in(log, sides),
        "messages": messages_in(canonical) + said.get("pending", 0),
    }
    return " ".join(f"{name} {count}" for name, count in (counts | said).items()).encode() + b"\n"


def counts_in(explained):
    """The last line of an explanation, as numbers by their names."""
    words = explained.decode().splitlines()[-1].split(" ")
    return {name: int(number) for name, number in zip(words[::2], words[1::2])}


def lines_in(log):
    """Behind its last line feed a log has one line more, where something stands there."""
    return log.count(b"\n") + (log != b"" and not log.endswith(b"\n"))


def frames_in(log, sides):
    """The lines with one of these identifiers."""
    identifiers = "|".join(sides).encode()
    return len(re.findall(rb"^\([0-9.]+\) +\S+ +(?:%s)#" % identifiers, log, re.M | re.I))


def messages_in(canonical):
    """The frames that begin a message: single frames and first frames."""
    return len(re.findall(rb"#[01]", canonical))
