#!/usr/bin/env python3
"""Tests of `make evidence`, with another `rt` and another `git`: the file has what was released, what the gate said, and what is counted
here once more.

    tests/scripts/make_evidence.py

Prints a line for each case and ends with `N passed, M failed`; its status is 1 where a case failed.
"""

import os
import re
import sys
import tempfile
from pathlib import Path

sys.path.insert(0, str(Path(__file__).resolve().parents[1] / "helpers"))

from cases import Cases
from making import TOP, make

COMMIT = "0123456789abcdef0123456789abcdef01234567"
OTHERS = {
    "rt": "[ \"$*\" = version ] && echo 'a kit logic 0123'",
    "git": f"case $1 in status) echo \"$CHANGED\";; rev-parse) echo {COMMIT};; *) exit 1;; esac",
}
SAID = [f"rt: {name} proved" for name in "abcdefghijkl"]


def made(folder, *words, changed=""):
    """The status of `make evidence` with these words, the file where there is one, and what was told."""
    file = folder / "new" / "evidence.md"
    file.unlink(missing_ok=True)
    path = f"{folder}:{os.environ['PATH']}"
    status, _, error = make("evidence", f"EVIDENCE={file}", *words, PATH=path, CHANGED=changed)
    return status, file.read_text() if file.exists() else None, error


def lacking(text, parts):
    return [f"no {part}" for part in parts if part not in (text or "")]


def files(pattern):
    return sorted(TOP.glob(pattern))


def found_in(pattern, paths):
    return sum(len(re.findall(pattern, path.read_text(), re.M)) for path in paths)


def tells_what_was_released(cases, folder):
    version = (TOP / "VERSION").read_text().strip()
    status, text, error = made(folder)
    wanted = [f"# Evidence of udsnorm {version}\n", f"| Version | {version} |", f"| Commit | {COMMIT} |\n", "| Kit | a kit logic 0123 |"]
    cases.report("version, commit and kit", [] if status == 0 and not lacking(text, wanted) else [error, *lacking(text, wanted)])
    wrong = [] if all(re.search(rf"^\\| {name} \\| .*\\w.* \\|$", text, re.M) for name in ("Made", "System", "Processor", "Memory")) else [text]
    cases.report("when and where it was made", wrong)
    _, text, _ = made(folder, changed=" M VERSION")
    cases.report("a tree that is not the commit's", lacking(text, [f"| Commit | {COMMIT}, with changes that it lacks |"]))


def tells_the_end_of_the_gate(cases, folder):
    gate = folder / "gate.txt"
    gate.write_text("\n".join([*SAID, "", "all is well", ""]))
    status, text, _ = made(folder, f"GATE={gate}")
    shown = "\n".join(["```", *SAID[-9:], "all is well", "```"])
    cases.report("the last ten lines of the gate", [f"status {status}"] * (status != 0) + lacking(text, [shown]) + [name for name in SAID[:-9] if name in text])
    status, text, _ = made(folder)
    wrong = lacking(text, ["The gate's lines were not given: "]) + ([] if status == 0 and "```" not in text else [f"status {status}"])
    cases.report("without the lines of a gate", wrong)
    status, text, error = made(folder, f"GATE={folder / 'none.txt'}")
    cases.report("a gate that is not there", [] if status and text is None and "No such file" in error and "Traceback" not in error else [error])


def counts_what_there_is(cases, folder):
    _, text, _ = made(folder)
    told = {name: int(number) for name, number in re.findall(r"^\| (.*?) \| (\d+) \|$", text, re.M)}
    wanted = {
        "Laws, each proved": found_in(r"^pub fn ", files("crates/*/src/laws.rt")),
        "Clauses and definitions in `tests/documents/clauses.txt`": found_in(r"^.+$", [TOP / "tests/documents/clauses.txt"]),
        "Tests of crates, which the gate runs": found_in(r"#\[test\]", files("crates/*/src/**/*.rt")),
        "Files of tests, which `make test` runs": found_in(r"^    Test\(", [TOP / "tests/run.py"]),
        "Wrong bodies in `must-fail`, which the gate tries": len(files("crates/*/must-fail/*.edit")),
        "Wrong bodies in `attacks`, which `make attack` tries": len(files("attacks/*/*.edit")),
    }
    for name, count in wanted.items():
        cases.report(name, [] if told.get(name) == count > 0 else [f"{told.get(name)}, not {count}"])


def has_the_table_of_times(cases, folder):
    _, text, _ = made(folder)
    page = (TOP / "docs" / "PERF.md").read_text()
    rows = re.findall(r"^\|.*$", page[: page.index("\n\n", page.index("\n|"))], re.M)
    cases.report("the table of docs/PERF.md", lacking(text, rows) if len(rows) > 3 else [f"{len(rows)} rows"])


def fails_with_the_kit(cases, folder):
    (folder / "rt").write_text("#!/bin/sh\nexit 1\n")
    status, text, _ = made(folder)
    cases.report("a kit that says nothing", [] if status and text is None else [f"status {status}"])


def main():
    if len(sys.argv) != 1:
        sys.exit(__doc__)
    cases = Cases(None)
    for test in [tells_what_was_released, tells_the_end_of_the_gate, counts_what_there_is, has_the_table_of_times, fails_with_the_kit]:
        with tempfile.TemporaryDirectory() as room:
            for name, text in OTHERS.items():
                stub = Path(room, name)
                stub.write_text(f"#!/bin/sh\n{text}\n")
                stub.chmod(0o755)
            test(cases, Path(room))
    cases.end()


main()
