#!/usr/bin/env python3
"""Tests of README.md, docs/tutorial.md, docs/questions.md, docs/recipes.md and docs/formats.md, and where the folder of the library is given, of
docs/python.md and of what the Python package does: their commands, taken out of the page itself, print what it shows.

    tests/documents/recipes.py crates/udsnorm/out/udsnorm [out/lib]

Each page is one session of bash, from its first block to its last one, which begins with the top of the repository and has to
end where its set-up does. Its blocks are:

- `sh` without a name: the set-up, the commands that make /tmp/try, copy sample logs to it and go there; here a folder of the
  page's own stands in its place. A page without one has a folder in which `examples` is there;
- `console TOOL...`: commands, each after `$`, and what they print. Where a tool is missing the block is skipped, by the tool's
  name. One of `candump` needs a bus and is always skipped; `package` is the Python package with its library, and `pandas`,
  `pytest` and `python-can` are modules of Python;
- `python NAME`: a script, saved as NAME at its place; the prose above says "Save as `NAME`";
- `yaml`: a job of CI, which installs the Debian package first, and whose commands then stand in blocks of its section, too; one
  has `--strict`, and the files that it keeps are there at the end.

Prints a line for each case and ends with `N passed, M failed`; its status is 1 where a case failed.
"""

import os
import re
import shutil
import subprocess
import sys
import tempfile
from pathlib import Path

sys.path.insert(0, str(Path(__file__).resolve().parents[1] / "helpers"))

from cases import Cases

TOP = Path(__file__).resolve().parents[2]
PAGES = [TOP / "README.md", *(TOP / "docs" / f"{name}.md" for name in ("tutorial", "questions", "recipes", "formats"))]
OF_PYTHON = TOP / "docs" / "python.md"

# Modules of Python that blocks ask for, by the names of the tools.
MODULES = {"pandas": "pandas", "pytest": "pytest", "python-can": "can"}

# How a job of CI installs the program.
INSTALLS = re.compile(r"(?:sudo )?dpkg -i tools/udsnorm_\*\.deb")

# Follows what each command prints. The next command still finds the status in $?.
MARK = "\x01"
BEHIND = "\n__status=$?; printf '\\001'; (exit $__status)\n"


def sections(page):
    """The title and the blocks of each section: what follows the fence, the line, and the text."""
    title, found, fence = "", [], None
    for number, line in enumerate(page.split("\n"), 1):
        if fence is not None and line == "```":
            found[-1][1].append((fence, opened, text))
            fence = None
        elif fence is not None:
            text.append(line)
        elif line.startswith("```"):
            fence, opened, text = line[3:].split(), number, []
        elif line.startswith("#"):
            title = line.lstrip("# ")
            found.append((title, []))
    return found


def commands(text):
    """The commands of a block, each with what it prints."""
    pairs = []
    for line in text:
        if line.startswith("$ "):
            pairs.append((line[2:], []))
        else:
            pairs[-1][1].append(line)
    return pairs


def job_commands(text):
    """The commands of a job of CI, each an item of a list in YAML."""
    items = [line.strip().removeprefix("- ") for line in text if line.strip().startswith("- ")]
    return [item.removeprefix("run: ") for item in items if not item.startswith("uses: ")]


def kept_files(text):
    """The files that a job of CI keeps, each on a line `path:`, or all in the list of a line `paths:`."""
    lists = re.findall(r"^ *paths?: \[?([^]]*)\]?$", "\n".join(text), re.M)
    return [name.strip() for names in lists for name in names.split(",")]


def missing_tool(tools, environment):
    for tool in tools:
        if tool == "candump":
            return "a bus"
        if tool == "package":
            lacks = None if "LD_LIBRARY_PATH" in environment else "the folder of the library"
        elif tool in MODULES:
            lacks = None if has_module(shutil.which("python3", path=environment["PATH"]), tool) else f"a Python that has {tool}"
        else:
            lacks = None if shutil.which(tool) else tool
        if lacks:
            return lacks
    return None


def has_module(python, tool):
    return subprocess.run([python, "-c", f"import {MODULES[tool]}"], capture_output=True).returncode == 0


def python_with_most():
    """The Python that has most of the modules: Debian's, where another one comes first."""
    found = filter(None, map(shutil.which, ("python3", "/usr/bin/python3")))
    return max(found, key=lambda python: sum(has_module(python, tool) for tool in MODULES))


def surroundings(home, program, library):
    """What the commands see: the program by its name, the Python package where its library is given, and a git that knows who
    commits and no configuration of the machine."""
    tools = home / "tools"
    tools.mkdir()
    (tools / "udsnorm").symlink_to(program)
    (tools / "python3").symlink_to(python_with_most())
    package = {"PYTHONPATH": str(TOP / "python"), "PYTHONDONTWRITEBYTECODE": "1", "LD_LIBRARY_PATH": os.path.abspath(library)} if library else {}
    who = {f"GIT_{role}_{part}": "test@example.com" for role in ("AUTHOR", "COMMITTER") for part in ("NAME", "EMAIL")}
    return {"PATH": f"{tools}:{os.environ['PATH']}", "HOME": str(home), "LC_ALL": "C", "GIT_CONFIG_NOSYSTEM": "1", **package, **who}


def answers(lines, environment):
    """What each command line of one session prints, on standard output and standard error together."""
    script = "exec 2>&1\n" + "".join(line + BEHIND for line in lines)
    done = subprocess.run(["bash", "-c", script], cwd=TOP, env=environment, stdin=subprocess.DEVNULL, capture_output=True, text=True, timeout=300)
    return done.stdout.split(MARK)[:-1]


def saving(name, text):
    """The command that saves a script."""
    return "\n".join([f"cat > {name} <<'END_OF_SCRIPT'", *text, "END_OF_SCRIPT"])


def set_up(blocks, folder):
    """The commands of a page's set-up, in this folder."""
    lines = [line.replace("/tmp/try", str(folder)) for words, _, text in blocks if words == ["sh"] for line in text]
    return lines or [f"mkdir {folder} && ln -s {TOP}/examples {folder} && cd {folder}"]


def steps_of(page, blocks, environment):
    """What a section has to run, each with what it has to print: a script to save, or a command."""
    for words, line, text in blocks:
        kind, names = (words + [""])[0], words[1:]
        if kind == "python" and names:
            yield saving(names[0], text), []
        elif kind == "console":
            lack = missing_tool(names, environment)
            if lack:
                print(f"skipped line {line} of {page.name}: it needs {lack}", flush=True)
            else:
                yield from commands(text)


def run_page(cases, page, home, environment):
    """Each command of a page that is run is a case."""
    scripts_are_named(cases, page)
    found = sections(page.read_text())
    folder = home / page.stem
    wanted = [("set-up", command, []) for command in set_up(found[0][1], folder)]
    wanted += [(title, command, lines) for title, blocks in found for command, lines in steps_of(page, blocks, environment)]
    wanted.append(("end", "pwd", [str(folder)]))
    came = answers([command for _, command, _ in wanted], environment)
    for at, (title, command, lines) in enumerate(wanted):
        want = "".join(line + "\n" for line in lines)
        found_there = came[at] if at < len(came) else "nothing, since the session ended before"
        shown = command.split("\n")[0]
        cases.report(f"{page.name}: {title} $ {shown}", [] if found_there == want else [f"printed {found_there!r}, not {want!r}"])
    for title, blocks in found:
        ran = [command.split(";")[0] for place, command, _ in wanted if place == title]
        for job in [text for words, _, text in blocks if words == ["yaml"]]:
            run_job(cases, title, job, ran, folder)


def run_job(cases, title, job, commands_run, folder):
    """A job of CI: its commands were run, but for the installation, and made the files that it keeps."""
    first, *others = job_commands(job)
    cases.report(f"{title}: a job installs the program first", [] if INSTALLS.fullmatch(first) else [first])
    for command in others:
        cases.report(f"{title}: a job runs {command}", [] if command in commands_run else ["no block has it"])
    cases.report(f"{title}: a job is strict", [] if any(" --strict " in command for command in others) else [str(others)])
    for name in kept_files(job):
        made = (folder / name).exists() and (folder / name).stat().st_size > 0
        cases.report(f"{title}: a job keeps {name}", [] if made else ["it is not there, or empty"])


def scripts_are_named(cases, page):
    """A rendered page shows no name behind a fence: the prose right above each script says it."""
    for above, name in re.findall(r"^(.*)\n+```python (\S+)$", page.read_text(), re.M):
        cases.report(f"{page.name} says to save {name}", [] if f"ave as `{name}`" in above else [f"above it stands {above!r}"])


def main():
    if len(sys.argv) not in (2, 3):
        sys.exit(__doc__)
    cases = Cases(os.path.abspath(sys.argv[1]))
    library = sys.argv[2] if len(sys.argv) == 3 else None
    with tempfile.TemporaryDirectory() as directory:
        home = Path(directory)
        environment = surroundings(home, cases.program, library)
        for page in [*PAGES, *([OF_PYTHON] if library else [])]:
            run_page(cases, page, home, environment)
    cases.report("the pages have commands", [] if cases.passed + cases.failed >= 36 else ["fewer than 36 commands were found"])
    cases.end()


main()
