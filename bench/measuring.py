"""What the scripts of this folder share: the programs, the logs, how a run is measured, and tables in markdown."""

import pathlib
import re
import resource
import shutil
import subprocess
import sys
import tempfile
import time

TOP = pathlib.Path(__file__).resolve().parent.parent
MAKE_LOG = TOP / "bench" / "make-log"
LAYER_BENCH = TOP / "crates" / "layer_bench" / "out" / "layer_bench"
UDSNORM = TOP / "crates" / "udsnorm" / "out" / "udsnorm"
RIVAL_FOLDER = TOP / "bench" / "rival"
RIVAL = RIVAL_FOLDER / "out" / "release" / "rival"

# The logs: the mix of their frames, and how many percent are of other identifiers.
LOGS = (("classic", 0), ("classic", 50), ("classic", 90), ("fd", 0))


def build(program):
    """Prove and build the crate of a program; what `rt` says is shown where that fails."""
    crate = program.parent.parent
    print(f"building {crate.name}", file=sys.stderr)
    built = subprocess.run(["rt", "run"], cwd=crate, stdin=subprocess.DEVNULL, capture_output=True, text=True)
    if built.returncode != 0:
        sys.exit(built.stdout + built.stderr)


def build_rival():
    """Build the rival; False where there is no cargo."""
    if shutil.which("cargo") is None:
        return False
    words = ["cargo", "build", "--release", "--offline", "--quiet", "--target-dir", "out"]
    subprocess.run(words, cwd=RIVAL_FOLDER, check=True)
    return True


def commands():
    """Those of the program over one log, as its help names them, and two as JSON."""
    names = re.findall(r"^  ([a-z]+)  ", told_by("--help"), re.M)
    return [*(name for name in names if " [LOG]" in told_by(name, "--help")), "list --json", "messages --json"]


def told_by(*words):
    return subprocess.run([UDSNORM, *words], capture_output=True, text=True, check=True).stdout


def make_log(folder, megabytes, mix, foreign):
    """The path of a log of this size. One of more than 100 MB is that of 100 MB again and again."""
    path = pathlib.Path(folder) / f"{mix}-{foreign}-{megabytes}.log"
    if not path.exists():
        with open(path, "wb") as log:
            if megabytes <= 100:
                words = [str(MAKE_LOG), str(megabytes), "--mix", mix, "--foreign", str(foreign)]
                subprocess.run(words, stdout=log, check=True)
            else:
                part = pathlib.Path(make_log(folder, 100, mix, foreign)).read_bytes()
                log.writelines([part] * (megabytes // 100))
    return str(path)


def name_of(log):
    mix, foreign = log
    return f"{mix}, {foreign} % foreign"


def run(words, log=None, kept="/dev/null", status=0):
    """Run to the end, the log as standard input; what is written to standard output is thrown away, or kept in a file."""
    with open(log or "/dev/null", "rb") as given, open(kept, "wb") as written:
        done = subprocess.run(words, stdin=given, stdout=written, stderr=subprocess.DEVNULL)
    if done.returncode != status:
        raise subprocess.CalledProcessError(done.returncode, words)


def seconds(words, log=None, kept="/dev/null", status=0):
    """The processor time of one run, user and system."""
    begun = resource.getrusage(resource.RUSAGE_CHILDREN)
    run(words, log, kept, status)
    ended = resource.getrusage(resource.RUSAGE_CHILDREN)
    return ended.ru_utime - begun.ru_utime + ended.ru_stime - begun.ru_stime


def peak_megabytes(words, log=None):
    """The most memory that a run had, by GNU time; None where that is not installed."""
    if shutil.which("time") is None:
        return None
    with tempfile.NamedTemporaryFile("r") as note:
        run([shutil.which("time"), "-f", "%M", "-o", note.name, *words], log)
        return int(note.read().split()[-1]) / 1000


def table(head, rows):
    print("| " + " | ".join(head) + " |")
    print("|" + "|".join(["---"] + ["---:"] * (len(head) - 1)) + "|")
    for row in rows:
        print("| " + " | ".join(row) + " |")
    print()


def machine():
    """The day, and the processor."""
    try:
        with open("/proc/cpuinfo") as lines:
            name = next(line.split(":")[1].strip() for line in lines if line.startswith("model name"))
    except (OSError, StopIteration):
        name = "processor unknown"
    return f"{time.strftime('%Y-%m-%d')}, {name}"
