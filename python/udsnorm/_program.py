"""The program udsnorm over logs of any form: where it is, and what it is given in place of a log that is no candump log."""

from __future__ import annotations

import contextlib
import ctypes
import os
import re
import select
import shutil
import socket
import stat
import subprocess
import sys
import threading
from pathlib import Path
from typing import IO, Dict, Iterable, List, Optional, Sequence, Tuple, Union

from ._formats import HEAD, Fault, Log, decides, is_for_the_program, shown

#: The options of the program that take a value.
VALUED = ("--tester", "--unit", "--functional", "--profile", "--only", "--limit")
# The commands over two logs alone, which never read standard input, and those whose text shows the names of logs.
_OF_TWO, _SHOWING = ("compare", "diff"), ("diff", "report")
# The options that make it tell of itself, and read nothing.
_TOLD = ("-h", "--help", "-V", "--version")

STANDARD_INPUT, STANDARD_OUTPUT, STANDARD_ERROR = 0, 1, 2
#: The status of a run whose log can't be read, or whose text can't be written.
FAILED_DEVICE = 4
_LARGEST_LIMIT = 1 << 40
# So many milliseconds pass until it is looked whether more of a stream has come.
_PAUSE = 20
# No name of a file has more bytes.
_LONGEST_NAME = 255
# Behind the mark of a folder, as in `MARK_/run.blf`: a log lies aside of another one of that path.
_ASIDE = "_/"
# What Python has in a word for a byte that is no sign of UTF-8.
_SURROGATE = re.compile("[\udc80-\udcff]")

#: What a log is read from: the path of a file, or the number of a stream.
Source = Union[int, str]


def found() -> Optional[str]:
    """The program that lies beside this file, as in the wheel, else the one of the system."""
    beside = Path(__file__).with_name("udsnorm")
    if beside.is_file() and os.access(beside, os.X_OK):
        return str(beside)
    of_system = shutil.which("udsnorm")
    return of_system and os.path.join(os.getcwd(), of_system)


def tell(name: str, text: str) -> None:
    """A line on standard error of a file or another thing of this name."""
    tell_line(f"{shown(name)}: {text}")


def tell_line(line: str) -> None:
    """A line on standard error, if there is one that takes it."""
    if sys.stderr:
        with contextlib.suppress(OSError):
            print(line, file=sys.stderr, flush=True)


def logs_in(words: Sequence[str]) -> List[int]:
    """The places of the words that name logs: those behind the command that are no option, and no value of one."""
    places: List[int] = []
    is_value = is_behind = False
    for at, word in enumerate(words[1:], 1):
        if is_behind or not (is_value or (word.startswith("-") and word != "-")):
            places.append(at)
        is_behind = is_behind or (word == "--" and not is_value)
        is_value = word in VALUED and not (is_value or is_behind)
    return places if words and not words[0].startswith("-") else []


def profiles_in(words: Sequence[str]) -> List[Tuple[int, str]]:
    """The places of the words that name profiles, each with what stands in front of the name there: a word behind the option,
    which is no value of another one, or the option with its value."""
    places: List[Tuple[int, str]] = []
    is_value = False
    for at, word in enumerate(words[1:], 1):
        if word == "--" and not is_value:
            break
        if is_value and words[at - 1] == "--profile":
            places.append((at, ""))
        elif not is_value and word.startswith("--profile="):
            places.append((at, "--profile="))
        is_value = word in VALUED and not is_value
    return places


def reads_standard_input(words: Sequence[str]) -> bool:
    """The program reads it with these words, if they are right."""
    return not (logs_in(words) or set(words) & set(_TOLD) or set(words[:1]) & set(_OF_TWO))


def source_of(word: str) -> Optional[Source]:
    """What the log of this name is read from, if it may have to be converted. A pipe stays open, so that it goes on where the
    program opens it, too."""
    try:
        mode = os.stat(word).st_mode
        if stat.S_ISFIFO(mode):
            number = os.open(word, os.O_RDONLY)
            os.set_inheritable(number, True)
            return number
    except OSError:
        # The program tells why it can't be read.
        return None
    return word if stat.S_ISREG(mode) else None


def is_named_pipe(word: str, source: Optional[Source]) -> bool:
    """A log comes from a pipe that lies in a folder. Whoever opens it once more waits for another writer."""
    return isinstance(source, int) and os.path.exists(os.path.realpath(word))


def are_one_pipe(sources: Iterable[Optional[Source]]) -> bool:
    """Two logs come from one pipe, which the program refuses."""
    pipes = [os.fstat(source) for source in sources if isinstance(source, int)]
    return len({(pipe.st_dev, pipe.st_ino) for pipe in pipes}) < len(pipes)


def _handed_on(number: int) -> str:
    """The path of a pipe that gives what this one does, as it comes. It can be opened when the writer has ended."""
    end, begin = os.pipe()
    os.set_inheritable(end, True)
    threading.Thread(target=_hand_on, args=(number, begin), daemon=True).start()
    return f"/dev/fd/{end}"


def _hand_on(number: int, begin: int) -> None:
    with contextlib.suppress(OSError), open(begin, "wb") as out:
        while True:
            piece = os.read(number, HEAD)
            if not piece:
                break
            out.write(piece)
            out.flush()


def is_other(source: Source) -> bool:
    """A log has to be converted."""
    try:
        if isinstance(source, int):
            return not is_for_the_program(_first_bytes(source))
        with Log(source) as log:
            return not log.is_as_it_stands
    except OSError:
        return False


def _first_bytes(number: int) -> bytes:
    """The first bytes of a stream, which stay there: as many as decide what it is. None of what can't be looked at so."""
    mode = os.fstat(number).st_mode
    if stat.S_ISREG(mode):
        return os.pread(number, HEAD, os.lseek(number, 0, os.SEEK_CUR))
    if not (stat.S_ISSOCK(mode) or stat.S_ISFIFO(mode)):
        return b""
    end = select.poll()
    end.register(number, select.POLLRDHUP)
    while True:
        is_ended = bool(end.poll(0))
        head = _in_socket(number) if stat.S_ISSOCK(mode) else _in_pipe(number)
        if is_ended or not head or decides(head):
            return head
        end.poll(_PAUSE)


def _in_socket(number: int) -> bytes:
    """What is there to be read, once something is."""
    with socket.socket(fileno=os.dup(number)) as peer:
        return peer.recv(HEAD, socket.MSG_PEEK)


def _in_pipe(number: int) -> bytes:
    """The same. Linux copies what is in a pipe to another one."""
    end, begin = os.pipe()
    try:
        size = ctypes.CDLL(None).tee(number, begin, HEAD, 0)
        return os.read(end, size) if size > 0 else b""
    finally:
        os.close(end)
        os.close(begin)


def is_command(program: str, word: str) -> bool:
    """The program has this command."""
    helped = subprocess.run([program, word, "--help"], stdout=subprocess.DEVNULL, stderr=subprocess.DEVNULL, check=False)
    return helped.returncode == 0


def limit_of(program: str, words: Sequence[str]) -> int:
    """The most bytes of a log in a run with these words: those that they say, else those that the command's help does."""
    options = words[: words.index("--")] if "--" in words else words
    given = re.findall(r"(?:^|\0)--limit[=\0]\+?0*([0-9]{1,13})(?=\0|$)", "\0".join(options))
    told = subprocess.run([program, *words[:1], "--help"], stdout=subprocess.PIPE, stderr=subprocess.DEVNULL, check=False).stdout
    usual = re.search(rb"--limit <BYTES>[^\[]*\[default: (\d+)\]", told)
    return int(given[-1]) if given else int(usual[1]) if usual else _LARGEST_LIMIT


class Folder:
    """A folder of logs for one run of the program. Each lies there under the path that it was named by, so that pages and
    hints show that, and ends just behind the limit, so that the program refuses it there."""

    def __init__(self, root: str, limit: int = _LARGEST_LIMIT) -> None:
        self._root, self._limit = Path(os.path.abspath(root)), limit
        self._sources: Dict[Path, str] = {}
        # Stands in a path where that would lead out of the folder, or to another log, and is taken from what the program
        # tells. No log has it in its name.
        self._mark = self._root.name
        self._is_lost = False

    def _path_of(self, name: str, source: str) -> str:
        """The path here of the log of this name. Logs of two sources have two."""
        parts = map(_spelled, name.split("/"))
        path = "/".join(self._mark + part if part == ".." or not (at or part) else part for at, part in enumerate(parts))
        while self._is_taken(Path(path), source):
            path = f"{self._mark}{_ASIDE}{path}"
        self._sources[Path(path)] = source
        return path

    def _is_taken(self, path: Path, source: str) -> bool:
        """Another log lies there, or above or below."""
        others = (other for other in self._sources if other in path.parents or path in other.parents)
        return self._sources.get(path, source) != source or any(others)

    def word_for(self, word: str, source: Optional[Source], is_other: bool) -> str:
        """The word that means here what this one means where the run was asked for."""
        is_pipe = is_named_pipe(word, source)
        if not (is_other or is_pipe) and os.path.isabs(word) and is_text(word):
            return word
        real = os.path.realpath(word)
        earlier = next((path for path, other in self._sources.items() if other == real), None)
        path = self._path_of(word, real)
        if not os.path.exists(word):
            # Nothing lies there, either.
            return path
        place = self._root / path
        place.parent.mkdir(parents=True, exist_ok=True)
        if not os.path.lexists(place):
            if earlier:
                # One log by another name.
                place.symlink_to(self._root / earlier)
            elif is_other and source is not None:
                with Log(source) as log, open(place, "wb") as out:
                    _convert(log, out, self._limit)
            else:
                # The name as it is: behind a link to a folder, `..` is not what its letters say.
                whole = os.path.join(os.getcwd(), word)
                place.symlink_to(_handed_on(source) if is_pipe and isinstance(source, int) else whole)
        return path

    def run(self, program: str, words: Sequence[str], is_given: bool = False) -> int:
        """The status of the program over logs that lie here, or over standard input, which is converted meanwhile. A stream
        that a word names stays open."""
        is_marked = any(self._mark in word for word in words)
        given = subprocess.PIPE if is_given else None
        out = subprocess.PIPE if is_marked and words[0] in _SHOWING and sys.stdout else None
        error = subprocess.PIPE if is_marked and sys.stderr else None
        words = _with_hints(words) if error else words
        with subprocess.Popen(
            [program, *words], cwd=self._root, stdin=given, stdout=out, stderr=error, close_fds=False
        ) as running:
            try:
                texts = {STANDARD_OUTPUT: running.stdout, STANDARD_ERROR: running.stderr}
                telling = [threading.Thread(target=self._tell, args=(texts[at], at), daemon=True) for at in texts if texts[at]]
                for thread in telling:
                    thread.start()
                if running.stdin:
                    with Log(STANDARD_INPUT) as log, contextlib.suppress(BrokenPipeError), running.stdin:
                        _convert(log, running.stdin, self._limit)
                status = running.wait()
                for thread in telling:
                    thread.join()
            except BaseException:
                running.kill()
                raise
        if self._is_lost and status != FAILED_DEVICE:
            tell_line("write failed")
            return FAILED_DEVICE
        return 128 - status if status < 0 else status

    def _tell(self, text: IO[bytes], number: int) -> None:
        """Hands on what the program writes to the stream of this number, with the names that were given."""
        mark = re.compile(b"%b(?:%b)?" % (re.escape(os.fsencode(self._mark)), _ASIDE.encode()))
        try:
            with text, open(number, "wb", closefd=False) as told:
                for line in text:
                    told.write(mark.sub(b"", line))
        except OSError:
            # What can't be told on standard error is told nowhere.
            self._is_lost = self._is_lost or number == STANDARD_OUTPUT


def _with_hints(words: Sequence[str]) -> List[str]:
    """The words that make the program give hints where standard error is a terminal, which the program doesn't see."""
    end = words.index("--") if "--" in words else len(words)
    is_wanted = os.isatty(STANDARD_ERROR) and "--hints" not in words[:end]
    return [*words[:end], *(["--hints"] if is_wanted else []), *words[end:]]


def is_text(word: str) -> bool:
    """The word is UTF-8, as the program asks for."""
    return not _SURROGATE.search(word)


def _spelled(name: str) -> str:
    """The name of a file or folder as UTF-8. Bytes that are none stand by their numbers, if it is not too long so."""
    told = _SURROGATE.sub(lambda found: f"%{ord(found[0]) - 0xDC00:02X}", name)
    return told if len(os.fsencode(told)) <= _LONGEST_NAME else _SURROGATE.sub("%", name)


def _convert(log: Log, out: IO[bytes], limit: int) -> None:
    """Writes the candump log, until it is longer than the limit. Where that is, or where it can't be read on, a line that is
    no log line makes the program refuse it."""
    size = 0
    try:
        for block in log.blocks():
            out.write(block)
            size += len(block)
            if size > limit:
                out.write(b"longer than the limit\n")
                break
    except Fault as fault:
        # Behind this sign no hint takes it for a line of candump's.
        out.write(f"({fault}\n".encode("ascii", "replace"))
        tell(log.path, str(fault))
    if str(log.tally):
        tell(log.path, str(log.tally))
