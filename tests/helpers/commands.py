"""The commands of the built program, as its help names them, and what each comes to by the oracles. A test of what every command
does asks here, so that none is left out. A command over one log has a file of tests/outputs/:

    OUTCOMES         what it comes to with these words, by the oracles: a function of a log and of the limit
    HOLDS_MEANING    whether it holds what a log means, up to its end; without it, that it does not
    ROWS             logs and what is written of each, as in a table of rows/; none without it
"""

import importlib
import re
import sys
from pathlib import Path

from cases import DONE
from runs import run

TESTS = Path(__file__).resolve().parents[1]
sys.path.append(str(TESTS))
OUTPUTS = {path.stem: importlib.import_module(f"outputs.{path.stem}") for path in sorted((TESTS / "outputs").glob("*.py"))}

# What a command with these words comes to, over one log.
ORACLES = {words: outcome for output in OUTPUTS.values() for words, outcome in output.OUTCOMES.items()}


def rows():
    """The text of the rows of each command that has some."""
    return {name: output.ROWS for name, output in OUTPUTS.items() if hasattr(output, "ROWS")}


def holds_meaning(job):
    return getattr(OUTPUTS[job], "HOLDS_MEANING", False)


def help_of(program, *words):
    """A help text; nothing where the program doesn't end well."""
    found = run(program, [*words, "--help"])
    return found.output.decode() if (found.status, found.error) == (DONE, b"") else ""


def named_in(text, heading):
    """The first words of the lines below a heading of a help text."""
    below = re.search(rf"^{heading}:\n((?: .*\n)+)", text, re.M)
    return re.findall(r"^ +(?:-\w, +)?([\w-]+)", below.group(1), re.M) if below else []


def all_commands(program):
    """In the order of the help."""
    return named_in(help_of(program), "Commands")


def options_of(program, command):
    return named_in(help_of(program, command), "Options")


def over_one_log(program, option=None):
    """Those that read one log, from a file or else from standard input; where an option is given, those of them that have it."""
    found = [command for command in all_commands(program) if re.search(r"^Usage: .* \[LOG\]", help_of(program, command), re.M)]
    if not found:
        raise ValueError("the help names no command")
    return [command for command in found if option is None or option in options_of(program, command)]
