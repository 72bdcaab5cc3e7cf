#!/usr/bin/env python3
"""Tests of `make check`, with another `rt`, in a copy of the repository: it does each step after those that it waits for, and leaves
none out; proofs run at once in several trees; and where one fails, or a signal ends it, all ends.

    tests/scripts/make_check.py

Prints a line for each case and ends with `N passed, M failed`; its status is 1 where a case failed.
"""

import os
import re
import shutil
import subprocess
import sys
import tempfile
import time
from contextlib import contextmanager
from pathlib import Path

sys.path.insert(0, str(Path(__file__).resolve().parents[1] / "helpers"))

from cases import Cases
from making import OUTERMOST, TOP, make, stays

# What is built, and what no step here reads.
NOT_COPIED = [".git", "out", "__pycache__", "proofs", "must-fail", "attacks", "docs"]

# Stands for `rt` where `make check` is tried: some words in some crates make it do something first. Then it leaves in the
# crate's `out` which run this is, where it was, and of which crates that tree has what this run proved. Beside another one in
# the tree it fails.
OTHER_RT = """#!/bin/sh
crate=${PWD##*/}
case "$crate $*" in
%s
*' fmt') exit;;
esac
mkdir -p out/rlib ../../out
exec 9> ../../out/proof
flock -n 9 || { echo 'error: two proofs at once in a tree'; exit 1; }
{ echo %s; pwd; grep -lsx %s ../*/out/rlib/proved; } > out/proved
mv out/proved out/rlib/proved
"""
FAIL = """echo 'a goal is not proved that the answer depends on' >&2
echo "error: no proof of $PWD/src/lib.rt" >&2
exit 1"""

# It tells that it came so far; the same, and it stays; it waits until another one told that.
TELL = "echo $$ > {told}.$crate; mv {told}.$crate {told}/$crate"
STAY = f"{TELL}; exec sleep 50"
AWAIT = "for n in $(seq 200); do [ -e {told}/%s ] && break; sleep 0.05; done; [ -e {told}/%s ] || exit 1"

# It fails where what was kept of its own crate is gone, or what was built of one below that is not checked.
OWN, BELOW = "json_reading/out/kept", "can_log/out/rlib/built"
HAS_KEPT = f"[ -e ../{OWN} ] && [ -e ../{BELOW} ] || exit 1"

# Stands for `python3`: of the tests none is run.
IDLE_PYTHON = f"""#!/bin/sh
case "$1" in tests/*) exit;; esac
exec '{sys.executable}' "$@"
"""

# What `make check` does of a change of uds_message, each step with those of the steps that it comes after.
OF_LIBRARIES = {
    "uds_message: rt fmt": [],
    "uds_message: proofs": ["uds_message: rt fmt"],
    "uds_rules: proofs": ["uds_message: proofs"],
    "profile: proofs": ["uds_rules: proofs"],
    "uds_exchange: proofs": ["uds_message: proofs"],
    "uds_difference: proofs": ["uds_exchange: proofs"],
    "shown_rows: proofs": ["uds_difference: proofs"],
    "uds_find: proofs": ["uds_message: proofs"],
    "uds_names: proofs": ["uds_message: proofs"],
    "uds_echo: proofs": ["uds_message: proofs", "uds_rules: proofs"],
    "asked_request: proofs": ["uds_echo: proofs"],
    "trace_log: proofs": ["uds_exchange: proofs", "uds_rules: proofs"],
    "trace_run: proofs": ["trace_log: proofs"],
    "trace_text: proofs": ["trace_log: proofs", "uds_echo: proofs"],
    "asked_profile: proofs": ["profile: proofs", "trace_text: proofs"],
    "command_line: proofs": ["asked_profile: proofs"],
    "trace_canon: proofs": ["trace_run: proofs", "trace_text: proofs", "uds_find: proofs", "asked_request: proofs"],
    "shown_bytes: proofs": ["trace_text: proofs", "uds_names: proofs"],
    "pair_words: proofs": ["shown_rows: proofs", "shown_bytes: proofs"],
    "trace_report: proofs": ["trace_canon: proofs", "shown_bytes: proofs"],
    "trace_difference: proofs": ["shown_rows: proofs", "trace_canon: proofs"],
    "trace_pair: proofs": ["pair_words: proofs", "trace_report: proofs"],
}
QUICK_TESTS = [*(f"program/{name}" for name in ["command_line", "program", "sessions"]), *(f"documents/{name}" for name in ["shipped", "recipes", "release"])]
OTHER_TESTS = ["documents/documents", *(f"scripts/{name}" for name in ["make_check", "make_test", "make_evidence", "make_help"])]
OF_PROGRAM = {"udsnorm: make build": ["command_line: proofs", "trace_pair: proofs", "trace_difference: proofs"], **{f"tests/{test}.py": [] for test in OTHER_TESTS}}
OF_PROGRAM |= {f"tests/{test}.py": ["udsnorm: make build"] for test in QUICK_TESTS}

# The crates beside the program, each with those below it that are checked.
UP_TO_LOG = ["uds_message", "uds_rules", "uds_exchange", "trace_log"]
UP_TO_CANON = [*UP_TO_LOG, "uds_find", "uds_echo", "asked_request", "trace_run", "trace_text", "trace_canon"]
PAGES = [*UP_TO_CANON, "uds_names", "uds_difference", "shown_rows", "shown_bytes", "pair_words", "trace_report", "trace_pair"]
LIBRARIES = [*PAGES, "trace_difference", "profile", "asked_profile"]
TEXTS = [*UP_TO_CANON, "uds_difference", "shown_rows", "trace_difference", "tried_sessions"]
APART = {
    "json_reading": UP_TO_CANON,
    "profile_reading": UP_TO_CANON,
    "udsnorm_c": LIBRARIES,
    "layer_bench": ["uds_message", "uds_exchange"],
    "session_bench": PAGES,
    "tried_sessions": UP_TO_LOG,
    "acceptance": ["uds_message", "uds_names", "uds_rules", "uds_echo", "asked_request", "profile", "uds_exchange", "uds_difference", "uds_find"],
    "call_acceptance": [*TEXTS, "profile", "asked_profile"],
    "page_acceptance": [*PAGES, "tried_sessions"],
    "refused_memory": TEXTS,
    "refused_pages": [*PAGES, "tried_sessions"],
}
OF_APART = {f"{crate}: proofs": [f"{name}: proofs" for name in below] for crate, below in APART.items()}
ALL_STEPS = OF_LIBRARIES | OF_PROGRAM | OF_APART


def waiting_for(failing):
    """The steps that don't begin where this one fails."""
    direct = {step for step, before in ALL_STEPS.items() if failing in before}
    return direct.union(*(waiting_for(step) for step in direct))


@contextmanager
def tree_to_check():
    """A copy of the repository, as a folder in one of its own."""
    with tempfile.TemporaryDirectory() as room:
        tree = Path(room).resolve() / "tree"
        shutil.copytree(TOP, tree, ignore=shutil.ignore_patterns(*NOT_COPIED))
        yield tree


def told_in(tree):
    """The folder where another `rt` tells in which crates it came so far, each time the number of its process."""
    return tree.parent / "told"


def stand_ins(tree, actions, run):
    """Puts beside a tree another `rt`, which does these actions, and another `python3`. The path that has them."""
    shutil.rmtree(told_in(tree), ignore_errors=True)
    told_in(tree).mkdir()
    branches = "\n".join(f"'{words}') {action.replace('{told}', str(told_in(tree)))};;" for words, action in actions.items())
    for name, text in [("rt", OTHER_RT % (branches, run, run)), ("python3", IDLE_PYTHON)]:
        stub = tree.parent / name
        stub.write_text(text)
        stub.chmod(0o755)
    return f"{tree.parent}:{os.environ['PATH']}"


def check_told(tree, crate, actions, run="any"):
    """The status of `make check` of a crate, the steps that it told, and its lines about one that failed."""
    status, output, _ = make("check", f"CRATE={crate}", tree=tree, PATH=stand_ins(tree, actions, run))
    lines = [re.sub(r" +(failed after )?\d+\.\d s$", r" \1", line) for line in output.splitlines()]
    failed = next((n for n, line in enumerate(lines) if line.endswith(" failed after ")), len(lines))
    return status, [line.rstrip() for line in lines[:failed]], lines[failed:]


def goes_upwards(cases, tree):
    """Each step comes after those that it waits for, and none is left out; where one fails, what waits for it does not begin,
    and the check ends."""
    status, told, _ = check_told(tree, "uds_message", {})
    end, *steps = reversed(told)
    wrong = [] if status == 0 and end.startswith("uds_message is checked") else [f"status {status}, {end}"]
    wrong += sorted({*steps} ^ {*ALL_STEPS}) if len(steps) == len(ALL_STEPS) else [f"{len(steps)} steps"]
    wrong += [f"{step} before {first}" for n, step in enumerate(steps) for first in ALL_STEPS.get(step, []) if first not in steps[n:]]
    cases.report("make check of uds_message", wrong)
    for failing, step in [("uds_exchange lib", "uds_exchange: proofs"), ("udsnorm run", "udsnorm: make build")]:
        status, told, failed = check_told(tree, "uds_message", {failing: FAIL})
        file = step.replace(": ", "-").replace(" ", "-")
        proof = f"  error: no proof of {tree}/crates/{failing.split()[0]}/src/lib.rt"
        want = [f"{step} failed after ", proof, f"The whole output is in out/check/{file}.txt"]
        wrong = [] if status and failed[:3] == want else [f"status {status}, {failed}"]
        wrong += sorted({*told} & waiting_for(step)) + [f"no {before}" for before in ALL_STEPS[step] if before not in told]
        cases.report(f"make check of uds_message where {step} fails", wrong)


def beside(tree):
    return [tree / "out" / "check" / name for name in ["first", "second"]]


def proved(tree, crate, run):
    """The trees in which that is proved of a crate by this run, each with the crates below that had been proved by it there."""
    found = []
    for each in [tree, *beside(tree)]:
        path = each / "crates" / crate / "out" / "rlib" / "proved"
        by, folder, *paths = path.read_text().split() if path.exists() else ["no run", "no folder"]
        if by == run and folder == f"{each}/crates/{crate}":
            found.append((each, {name.split("/")[1] for name in paths}))
    return found


def not_proved(tree, run):
    """What is wrong with where each crate is proved. What is apart leaves this tree to the program."""
    wrong = []
    for crate, below in (APART | {"udsnorm": [*LIBRARIES, "command_line"], "trace_canon": UP_TO_CANON[:-1]}).items():
        found = proved(tree, crate, run)
        there = [each for each, had in found if had >= {*below} and each in {"udsnorm": [tree]}.get(crate, [tree, *beside(tree)])]
        wrong += [] if len(found) == len(there) == 1 and not (crate in APART and there == [tree]) else [f"{crate}: {found}"]
    return wrong


def files_of(tree):
    """What the files of the crates have, but for what is built, and what `rt` reads beside them."""
    paths = [path.relative_to(tree) for path in [*(tree / "crates").rglob("*"), tree / "crates.txt", tree / "HANDLES"] if path.is_file()]
    return {str(path): (tree / path).read_bytes() for path in paths if "out" not in path.parts}


def differing(one, other):
    """The files that differ between two trees."""
    files, others = files_of(one), files_of(other)
    return sorted(name for name in {*files, *others} if files.get(name) != others.get(name))


def has_several_trees(cases, tree):
    """Proofs run at once, each in a tree with these files, and with what is built last of the crates below. What `rt` keeps there
    stays."""
    at_once = {"layer_bench check": TELL, "uds_find lib": AWAIT % ("layer_bench", "layer_bench")}
    status, _, failed = check_told(tree, "uds_message", at_once, "first")
    wrong = not_proved(tree, "first") + [name for each in beside(tree) for name in differing(tree, each)]
    cases.report("make check in several trees at once", failed if status else wrong)
    for path in [tree / "crates" / BELOW, *(each / "crates" / OWN for each in beside(tree))]:
        path.parent.mkdir(parents=True, exist_ok=True)
        path.write_text("")
    (tree / "crates" / "json_reading" / "CALLING.md").unlink()
    (tree / "crates" / "uds_find" / "src" / "new.rt").write_text("")
    (tree / "crates.txt").open("a").write("# The end.\n")
    status, _, failed = check_told(tree, "uds_message", {"json_reading check": HAS_KEPT}, "second")
    wrong = not_proved(tree, "second") + [name for each in beside(tree) for name in differing(tree, each)]
    cases.report("make check after other changes", failed if status else wrong)


def rt_stays(tree, crate):
    """Whether the `rt` that stayed in a crate still does."""
    told = told_in(tree) / crate
    return stays(told.read_text().strip() if told.exists() else "none")


def ends_the_other_proof(cases, tree):
    """Where a proof fails in one tree, that in another one ends."""
    actions = {"layer_bench check": STAY, "uds_find lib": f"{AWAIT % ('layer_bench', 'layer_bench')}\n{FAIL}"}
    status, told, failed = check_told(tree, "uds_message", actions)
    wrong = [] if status and failed[:1] == ["uds_find: proofs failed after "] else [f"status {status}, {told}, {failed}"]
    wrong += ["layer_bench stays"] if rt_stays(tree, "layer_bench") else []
    cases.report("make check where uds_find fails beside layer_bench", wrong)


def is_ended(cases, tree):
    """By a signal: with all that it started. Beside it no other one begins."""
    last = ["udsnorm", "page_acceptance"]
    path = stand_ins(tree, {"udsnorm run": STAY, "page_acceptance test": STAY}, "ended")
    check = {"args": [tree / "scripts" / "check", "uds_message"], "env": OUTERMOST | {"PATH": path}}
    running = subprocess.Popen(**check, stdout=subprocess.PIPE, stderr=subprocess.PIPE)
    for _ in range(1200):
        if running.poll() is not None or all((told_in(tree) / crate).exists() for crate in last):
            break
        time.sleep(0.05)
    other = subprocess.run(**check, capture_output=True, text=True, timeout=60)
    running.terminate()
    _, error = running.communicate(timeout=60)
    wrong = [] if running.returncode == 1 and error == b"" else [f"status {running.returncode}, {error}"]
    wrong += [f"{crate} stays" for crate in last if rt_stays(tree, crate)]
    cases.report("make check that is ended", wrong)
    refused = (other.returncode, other.stdout, other.stderr) == (1, "", "Another check runs in this tree\n")
    cases.report("make check beside another one", [] if refused else [str(other)])


def main():
    cases = Cases(None)
    with tree_to_check() as tree:
        for test in [goes_upwards, has_several_trees, ends_the_other_proof, is_ended]:
            test(cases, tree)
    cases.end()


main()
