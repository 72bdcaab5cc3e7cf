"""The program udsnorm over logs of any form:

    python3 -m udsnorm COMMAND ...           a command of the program; python3 -m udsnorm --help tells them
    python3 -m udsnorm convert FILE [LOG]    the candump log of a file, on standard output where no LOG is named;
                                             - is standard input, or output

A file may be a candump log, also packed (.gz, .xz, .bz2) or with days or nanoseconds, what candump writes for the
screen, ASC, BLF, TRC, CSV of SavvyCAN or of python-can, pcap or pcapng; with python-can, MF4 or a database of its own.
So may standard input. Frames that are left out are counted on standard error. The status is that of the program: 3 also
where a file ends in the middle or can't be explained, 4 where there is no room for what is converted, 2 also where a
library is missing.
"""

from __future__ import annotations

import os
import signal
import subprocess
import sys
import tempfile
from types import FrameType
from typing import BinaryIO, List, Optional, Union

from . import _program
from ._formats import Fault, Log, Missing

_DONE, _WRONG_WORDS, _REFUSED, _NO_MEMORY, _INTERRUPTED = 0, 2, 3, 5, 130

# By these a process is told to end. What ignores one of them, as below nohup, goes on to.
_ENDING = (signal.SIGTERM, signal.SIGHUP)


def main(words: List[str]) -> int:
    """The status of a run with these words."""
    try:
        return _convert(words[1:]) if words[:1] == ["convert"] else _run(words)
    except Missing as missing:
        _program.tell("udsnorm", str(missing))
        return _WRONG_WORDS
    except OSError as error:
        _program.tell(error.filename if isinstance(error.filename, str) else "udsnorm", error.strerror or str(error))
        return _program.FAILED_DEVICE
    except MemoryError:
        _program.tell_line("out of memory")
        return _NO_MEMORY
    except KeyboardInterrupt:
        return _INTERRUPTED


def _run(words: List[str]) -> int:
    """Runs the program: in the place of this process, where nothing is to be converted."""
    program = _program.found()
    if program is None:
        _program.tell("udsnorm", "the program udsnorm is neither beside the package, as in the wheel, nor on the PATH")
        return _WRONG_WORDS
    if words in (["-h"], ["--help"]):
        status = subprocess.run([program, *words], check=False).returncode
        return status or _say(f"\n{__doc__}")
    logs = {at: _program.source_of(words[at]) for at in _program.logs_in(words)}
    others = {at for at, source in logs.items() if source is not None and _program.is_other(source)}
    unnamed = {at for at, source in logs.items() if source is not None and not _program.is_text(words[at])}
    pipes = {at for at, source in logs.items() if _program.is_named_pipe(words[at], source)}
    is_given = _program.reads_standard_input(words) and _program.is_other(_program.STANDARD_INPUT)
    is_read_here = bool(others or unnamed or pipes or is_given) and not _program.are_one_pipe(logs.values())
    if not is_read_here or (logs and not _program.is_command(program, words[0])):
        # Python ignores this signal, and the program would, too.
        signal.signal(signal.SIGPIPE, signal.SIG_DFL)
        os.execv(program, ["udsnorm", *words])
    for number in _ENDING:
        if signal.getsignal(number) == signal.SIG_DFL:
            signal.signal(number, _end)
    with tempfile.TemporaryDirectory(prefix="udsnorm-") as root:
        try:
            folder = _program.Folder(root, _program.limit_of(program, words))
            given = [folder.word_for(word, logs[at], at in others) if at in logs else word for at, word in enumerate(words)]
            for at, front in _program.profiles_in(words):
                given[at] = front + folder.word_for(words[at][len(front) :], None, False)
            return folder.run(program, given, is_given=is_given)
        finally:
            # The folder goes whatever comes.
            _ignore(*_ENDING, signal.SIGINT)


def _end(number: int, _: Optional[FrameType]) -> None:
    """Ends the process so that the folder goes."""
    _ignore(*_ENDING)
    sys.exit(128 + number)


def _ignore(*numbers: signal.Signals) -> None:
    for number in numbers:
        signal.signal(number, signal.SIG_IGN)


def _convert(words: List[str]) -> int:
    """Writes the candump log of a file."""
    if words in (["-h"], ["--help"]):
        return _say(f"{__doc__}")
    if len(words) not in (1, 2) or any(word.startswith("-") and word != "-" for word in words):
        _program.tell("usage", "python3 -m udsnorm convert FILE [LOG]")
        return _WRONG_WORDS
    source: Union[str, int] = _program.STANDARD_INPUT if words[0] == "-" else words[0]
    target: Union[str, int] = _program.STANDARD_OUTPUT if words[1:] in ([], ["-"]) else words[1]
    try:
        with Log(source) as log:
            if log.is_read_from(target):
                _program.tell(words[-1], "this is the file that is read")
                return _WRONG_WORDS
            with open(target, "wb", closefd=isinstance(target, str)) as out:
                return _write(log, out)
    except BrokenPipeError:
        return _program.FAILED_DEVICE


def _write(log: Log, out: BinaryIO) -> int:
    status = _DONE
    try:
        for block in log.blocks(reads=True):
            out.write(block)
    except Fault as fault:
        _program.tell(log.path, str(fault))
        status = _REFUSED
    out.flush()
    if str(log.tally):
        _program.tell(log.path, str(log.tally))
    return status


def _say(text: str) -> int:
    """Writes a text on standard output."""
    with open(_program.STANDARD_OUTPUT, "wb", closefd=False) as out:
        out.write(text.encode("ascii"))
    return _DONE


if __name__ == "__main__":
    sys.exit(main(sys.argv[1:]))
