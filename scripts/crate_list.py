"""The crates of crates.txt, and what stands on what."""

from pathlib import Path

TOP = Path(__file__).resolve().parent.parent

# What is shipped: the program, and the library for C.
PROGRAM = "udsnorm"
LIBRARY = "udsnorm_c"


def crates_in(text):
    """What each crate stands on, in the order of the file."""
    lines = (line.split("#")[0].strip() for line in text.splitlines())
    rows = (line.split(":") for line in lines if line)
    return {name.split()[0]: below.split() for name, below in rows}


def all_crates():
    return crates_in((TOP / "crates.txt").read_text())


def own(crates, name):
    """The crates of this repository that a crate stands on."""
    return [below for below in crates[name] if below in crates]


def foundations(crates, name):
    """All crates that a crate stands on, over any number of others."""
    found = set(own(crates, name))
    return found.union(*(foundations(crates, below) for below in found))


def users(crates, name):
    """All crates that stand on a crate, the lowest first."""
    return [user for user in crates if name in foundations(crates, user)]
