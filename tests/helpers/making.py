"""How `make` is run, and what is seen of the processes that it started."""

import os
import subprocess
import time
from pathlib import Path

TOP = Path(__file__).resolve().parents[2]

# Also where `make test` runs a test, the `make` below is the first one: it takes no words of the other, and its messages have no
# level. They are in English.
OUTERMOST = {name: value for name, value in os.environ.items() if name not in ("MAKEFLAGS", "MAKELEVEL", "MFLAGS")} | {"LC_ALL": "C"}


def make(*words, tree=TOP, **environment):
    """Status, output and error output of `make` with these words in a tree, and with these values in its environment."""
    done = subprocess.run(["make", "-s", "-C", tree, *words], capture_output=True, text=True, timeout=60, env=OUTERMOST | environment)
    return done.returncode, done.stdout, done.stderr


def is_there(process):
    """Whether a process runs. One that has ended, and that nobody asked for that, has no words."""
    try:
        return Path(f"/proc/{process}/cmdline").read_bytes() != b""
    except OSError:
        return False


def stays(process):
    """Whether a process still runs a second later: its end may take a moment."""
    for _ in range(20):
        if not is_there(process):
            return False
        time.sleep(0.05)
    return True
