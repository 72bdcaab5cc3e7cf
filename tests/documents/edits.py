"""The wrong bodies as files: those of a crate's must-fail/, which the gate tries, and those of attacks/, which `make attack` does; and
attacks/laws.txt, which says of each law what wrong bodies make its statement false."""

import re
from pathlib import Path

TOP = Path(__file__).resolve().parents[2]
LAWS = TOP / "attacks/laws.txt"


def of_the_gate(crate):
    return sorted((TOP / "crates" / crate / "must-fail").glob("*.edit"))


def beyond_it(crate):
    return sorted((TOP / "attacks" / crate).glob("*.edit"))


def changes(edit):
    """What a wrong body changes, in its order: a file of its crate, what it takes away there, and what it puts in its place."""
    file, old = None, None
    for kind, rest in re.findall(r"^(file|old|new): ?(.*)$", edit.read_text(), re.M):
        if kind == "new":
            yield file, old, rest
        elif kind == "file":
            file = rest
        else:
            old = rest


def laws(text=None):
    """The laws that wrong bodies make false, by the lines of attacks/laws.txt, or of this text: crate, law and wrong body of each."""
    return [tuple(line.split()) for line in (LAWS.read_text() if text is None else text).splitlines()]
