#!/usr/bin/env python3
"""Tests of what is shipped beside the program: its manual page has below each heading every command and option that its help
names, and its completions offer them, `make install` and `make uninstall` know the same files, a release has program and
library, and `make run` and `make build` tell what they do.

    tests/documents/shipped.py crates/udsnorm/out/udsnorm [TEST..]

Prints a line for each case and ends with `N passed, M failed`; its status is 1 where a case failed.
"""

import os
import re
import shutil
import subprocess
import sys
import tempfile
from pathlib import Path

sys.path.insert(0, str(Path(__file__).resolve().parents[1] / "helpers"))

from cases import Cases
from making import make
from commands import all_commands, help_of, named_in, options_of
from runs import differences
from tables import EXAMPLES

TOP = Path(__file__).resolve().parents[2]
MANUAL = TOP / "packaging" / "manual"
TABLE = TOP / "crates" / "command_line" / "src" / "commands.rt"
COMPLETIONS = TOP / "share" / "completions"

# How each shell is asked what it offers for words, of which the last is not complete. The completion of zsh describes it to
# functions of zsh, which here print it.
SHELLS = {
    "bash": 'source "$0/udsnorm.bash"; COMP_WORDS=("$@"); COMP_CWORD=$(($# - 1)); _udsnorm 2> /dev/null; printf "%s\\n" "${COMPREPLY[@]}"',
    "zsh": """_describe() { print -rl -- ${(P)2%%:*} }
        _arguments() { print -rl -- ${${@%%\\[*}%%=}; }
        words=("$@"); CURRENT=$#; source "$0/_udsnorm" """,
    "fish": 'source "$argv[1]/udsnorm.fish"; complete -C "$argv[2..-1]" | string replace -r "\\t.*" ""',
}


def defaults_in(text):
    return re.findall(r"\[default: (\w+)\]", text)


def missing_in(text, words):
    """The words that a text lacks, each as a whole word."""
    return [word for word in words if not re.search(rf"(?<![\w-]){re.escape(word)}(?![\w-])", text)]


def commands_of_the_table():
    """The names of the commands, as the program's source has them."""
    return re.findall(r'^ {8}name: "([\w-]+)",$', TABLE.read_text(), re.M)


def names_are_complete(cases):
    """What the manual page has below each of its headings, beside what the help tells."""
    commands, page = all_commands(cases.program), sections(manual_of(cases))
    cases.report("the help names the commands of the table", [] if commands == commands_of_the_table() else [str(commands)])
    helps = {command: help_of(cases.program, command) for command in commands}
    cases.report("the synopsis has each command", synopsis_lacks(page.get("SYNOPSIS", ""), helps))
    cases.report("the manual page tells what each command does", commands_lack(page.get("COMMANDS", ""), helps))
    options = {option for text in [help_of(cases.program), *helps.values()] for option in named_in(text, "Options")}
    wrong = [f"no {option}" for option in missing_in(page.get("OPTIONS", ""), sorted(options))]
    cases.report("the manual page tells what each option does", wrong if len(options) >= 8 else [f"{options} in the help"])
    defaults = defaults_in(helps["list"])
    wrong = missing_in(page.get("OPTIONS", ""), defaults) if len(defaults) == 4 else [f"{len(defaults)} defaults in the help"]
    cases.report("the manual page has the defaults of the help", wrong)


def manual_of(cases):
    return subprocess.run([MANUAL, cases.program], stdout=subprocess.PIPE, text=True, check=True, timeout=60).stdout


def sections(page):
    """The text below each heading of a manual page."""
    found = re.split(r"^\.SH (.*)\n", page.replace("\\-", "-"), flags=re.M)
    return dict(zip(found[1::2], found[2::2]))


def shown(text):
    """What the lines of a manual page show, in one line: the words of `.RB [ --limit` have no space between."""
    lines = [re.sub(r"^\.(R[BI]|[BI]R) (.*)$", lambda line: line[2].replace(" ", ""), line) for line in text.splitlines()]
    return " ".join(re.sub(r"^\.[BI] ", "", line) for line in lines)


def synopsis_lacks(text, helps):
    """Of each command its options, each in brackets, and the files as its help has them."""
    rows = {row.split()[1]: row for row in map(shown, text.split(".br\n")) if len(row.split()) > 1}
    wrong = [] if helps else ["no command in the help"]
    for command, told in helps.items():
        row = rows.get(command, "")
        options = [option for option in named_in(told, "Options") if option not in ("--help", "-h")]
        files = re.search(r"^Usage: .*\[OPTIONS\] (.*)$", told, re.M)[1].replace("<", "").replace(">", "")
        wrong += [f"no [{option} of {command}" for option in options if f"[{option}" not in row]
        wrong += [] if row.endswith(f" {files}") else [f"{command} has no {files}: {row}"]
    return wrong


def commands_lack(text, helps):
    """Of each command the first line of its help."""
    told = dict(re.findall(r"^\.TP\n\.B ([\w-]+)\n(.*)\.$", re.sub(r"\\f[BP]", "`", text), re.M))
    return [f"no line of {command}" for command, text in helps.items() if told.get(command) != text.splitlines()[0]]


def manual_is_well_formed(cases):
    done = subprocess.run(["groff", "-man", "-Tutf8", "-ww"], input=manual_of(cases), capture_output=True, text=True, timeout=60)
    cases.report("the manual page as groff sees it", [done.stderr] if done.stderr or done.returncode else [])


def offered(shell, program, words, folder=None):
    """What a shell offers for these words behind the program's name, of that what begins with the last one, sorted."""
    name = program.name if shell == "fish" else program
    asked = [shell, *(["--no-config"] if shell == "fish" else []), "-c", SHELLS[shell], COMPLETIONS, name, *words]
    path = {"PATH": f"{program.parent}:{os.environ['PATH']}"}
    done = subprocess.run(asked, capture_output=True, text=True, timeout=60, env=os.environ | path, cwd=folder)
    return sorted(word for word in done.stdout.split() if word.startswith(words[-1])) + done.stderr.splitlines()


def shells_complete(cases):
    """What each shell offers: the commands and the options that the help has at that place."""
    program = Path(cases.program).resolve()
    for shell in SHELLS:
        if shutil.which(shell) is None:
            print(f"skipped {shell}: it is not there", flush=True)
            continue
        begin = sorted(command for command in commands_of_the_table() if command.startswith("co"))
        wrong = differences("commands that begin with co", offered(shell, program, ["co"]), begin)
        for command in commands_of_the_table():
            options = [option for option in options_of(cases.program, command) if option.startswith("--")]
            wrong += differences(f"options of {command}", offered(shell, program, [command, "--"]), sorted(options))
        cases.report(f"{shell} completes commands and options", wrong)
        if shell != "zsh":
            found = [offered(shell, program, ["list", option, "be"], TOP / "share" / "profiles") for option in ("--profile", "--only", "--limit")]
            cases.report(f"{shell} completes the file of a profile", differences("what is offered", found, [["bench.toml"], [], []]))


def install_is_undone(cases):
    """Each file that `make install` puts somewhere is one that `make uninstall` removes."""
    plan, wrong = {}, []
    for goal in ["install", "uninstall"]:
        status, told, _ = make("-n", goal, "DESTDIR=/stage", "PREFIX=/usr")
        wrong += [] if status == 0 else [f"{goal} ends with {status}"]
        plan[goal] = set(re.findall(r"/stage/\S+", told))
    wrong += [] if len(plan["install"]) == 13 else [f"{len(plan['install'])} files"]
    wrong += sorted(plan["install"] ^ plan["uninstall"])
    cases.report("uninstall removes what install puts somewhere", wrong)


def releases_have_program_and_library(cases):
    """A tarball and packages are made once the program and the library are built."""
    for goal, makers in [("dist", ["dist"]), ("deb", ["deb", "deb-library"])]:
        _, told, _ = make("-n", goal)
        steps = re.findall(r"rt (run|lib) |^packaging/(\S+)", told, re.M)
        found = [step or maker for step, maker in steps]
        cases.report(f"make {goal} builds program and library first", [] if found == ["run", "lib", *makers] else [str(found)])


def make_run_tells_what_the_program_says(cases):
    """`make run` without its build: the canonical log and nothing else, and where it ends early the program's own words and status,
    with the status that make has for each failure."""
    canonical = (EXAMPLES / "first.canonical").read_text()
    for log, status, text, told in [
        ("examples/first.log", 0, canonical, ""),
        ("examples/refused.log", 2, canonical, r"line 2 column 37: not a log line\nudsnorm: exit status 3\nmake: .* Error 3\n"),
        ("examples/none.log", 2, "", r"read failed\nudsnorm: exit status 4\nmake: .* Error 4\n"),
    ]:
        found = make("-o", "build", "run", f"PROGRAM={cases.program}", f"LOG={log}")
        is_told = found[:2] == (status, text) and re.fullmatch(told, found[2])
        cases.report(f"make run of {log}", [] if is_told else [str(found)])


def make_build_tells_its_begin_and_end(cases):
    """`make build` in a folder of its own, with another `rt`: its own lines, and what `rt` said where that failed."""
    begin = r"udsnorm: proving and building, .* goes to \S+/out/build.txt\n"
    for name, status, end in [
        ("that succeeds", 0, r"udsnorm: built in \d+ s: \S+/out/udsnorm\n"),
        ("that fails", 1, r"no proof\nudsnorm: not built, after \d+ s\nmake: .*\n"),
    ]:
        with tempfile.TemporaryDirectory() as folder:
            stub = Path(folder, "rt")
            stub.write_text(f"#!/bin/sh\necho proved\necho no proof >&2\nexit {status}\n")
            stub.chmod(0o755)
            path = f"{folder}:{os.environ['PATH']}"
            found = make("build", f"PROGRAM_CRATE={folder}", PATH=path)
        is_told = re.fullmatch(begin + end, found[2])
        cases.report(f"make build {name}", [] if (found[0] == 0) == (status == 0) and found[1] == "" and is_told else [str(found)])


def main():
    if len(sys.argv) < 2:
        sys.exit(__doc__)
    cases = Cases(os.path.abspath(sys.argv[1]), sys.argv[2:])
    cases.each([
        names_are_complete, manual_is_well_formed, shells_complete, install_is_undone, releases_have_program_and_library,
        make_run_tells_what_the_program_says, make_build_tells_its_begin_and_end,
    ])
    cases.end()


main()
