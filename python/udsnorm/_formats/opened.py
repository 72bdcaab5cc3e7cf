"""Any log, by what its first bytes are, else by the suffix of its name: the lines that candump would have written."""

from __future__ import annotations

import io
import os
import stat
from typing import Any, Callable, Dict, Iterator, List, Optional, Tuple, Union

from . import asc, blf, candump, captures, csv, messages, packed, screen, trc
from .frames import Fault, Frame, Tally, lines_of

#: How many first bytes of a file decide.
HEAD = 1 << 16
# So many without a line feed are no text that is known.
_ENOUGH = 1 << 11
_LINES = 2000

_Frames = Callable[[io.BufferedReader, Tally], Iterator[Frame]]
_BY_SUFFIX: Dict[str, _Frames] = {
    ".asc": asc.frames, ".blf": blf.frames, ".trc": trc.frames, ".csv": csv.frames,
    ".pcap": captures.frames, ".pcapng": captures.frames,
}
_TEXTS: List[Tuple[Callable[[str], bool], _Frames]] = [
    (trc.looks_so, trc.frames), (csv.looks_so, csv.frames), (asc.looks_so, asc.frames), (screen.looks_so, screen.frames)
]


def is_for_the_program(head: bytes) -> bool:
    """A stream that begins so is read by the program: it is a candump log, or nothing that is known, and not packed."""
    is_known = packed.unpacker_of(head, "") or messages.reader_of(head, "") or _reader_of(head, "")
    return not is_known and (candump.is_plain(head) or not candump.looks_so(head))


def decides(head: bytes) -> bool:
    """What begins so stays what it is, whatever follows: it is known, or it has a first line, behind comments and notices."""
    if packed.unpacker_of(head, "") or messages.reader_of(head, "") or _reader_of(head, "") or candump.looks_so(head):
        return True
    whole = head.split(b"\n")[:-1]
    return len(head) >= _ENOUGH or any(line.strip() and not line.startswith((b";", b"DROPCOUNT")) for line in whole)


def _reader_of(head: bytes, suffix: str) -> Optional[_Frames]:
    """What reads a file of another format than those of candump's logs and of python-can alone."""
    if head.startswith(blf.MAGIC):
        return blf.frames
    if captures.looks_so(head):
        return captures.frames
    if candump.looks_so(head):
        return None
    text = head.decode("ascii", "replace").lstrip("\ufffd")
    return next((frames for looks_so, frames in _TEXTS if looks_so(text)), _BY_SUFFIX.get(suffix))


class _Joined(io.RawIOBase):
    """The head of a file that was read, and the rest behind it."""

    def __init__(self, head: bytes, rest: "io.RawIOBase | io.BufferedReader") -> None:
        self._head, self._rest = head, rest

    def readable(self) -> bool:
        return True

    def readinto(self, room: Any) -> Optional[int]:
        if not self._head:
            return self._rest.readinto(room)
        size = min(len(room), len(self._head))
        room[:size], self._head = self._head[:size], self._head[size:]
        return size


class Log:
    """A log that is opened, by its path, or as a stream by its number: its lines, and a tally of what they leave out."""

    def __init__(self, opened: "Union[int, str, os.PathLike[str]]") -> None:
        self.path, self.tally = "-" if isinstance(opened, int) else os.fspath(opened), Tally()
        self._raw = io.BufferedReader(io.FileIO(opened, "rb", closefd=not isinstance(opened, int)), HEAD)
        # What can't be opened once more.
        self._is_stream = isinstance(opened, int) or not self._raw.seekable()
        try:
            self._look()
        except BaseException:
            self._raw.close()
            raise

    def __enter__(self) -> "Log":
        return self

    def __exit__(self, *_: object) -> None:
        self._raw.close()

    @property
    def is_as_it_stands(self) -> bool:
        """It is a candump log that the program reads, or nothing that is known, and not packed."""
        return self._is_plain and not self._is_packed

    def _look(self) -> None:
        """Finds out what the file is."""
        stem, suffix = os.path.splitext(self.path.lower())
        head, rest = _head_of(self._raw), self._raw
        unpacker = packed.unpacker_of(head, suffix)
        self._is_packed = unpacker is not None
        joined = _Joined(head, rest)
        if unpacker:
            unpacking = packed.Unpacking(io.BufferedReader(joined, HEAD), unpacker)
            suffix, head = os.path.splitext(stem)[1], _head_of(unpacking)
            joined = _Joined(head, unpacking)
        self._file = io.BufferedReader(joined, HEAD)
        self._frames, is_log = _reader_of(head, suffix), candump.looks_so(head)
        by_can = messages.reader_of(head, "" if self._frames or is_log else suffix)
        if by_can:
            path, reader = None if self._is_packed or self._is_stream else self.path, by_can
            self._frames = lambda _, tally: messages.frames_of_file(path, reader, tally)
        self._is_known = is_log or not head.strip()
        self._is_plain = self._frames is None and (candump.is_plain(head) or not is_log)

    def is_read_from(self, other: "Union[int, str]") -> bool:
        """This is the file of that path, or number, so what is written there is lost or read."""
        try:
            status = os.stat(other)
        except FileNotFoundError:
            return False
        return stat.S_ISREG(status.st_mode) and os.path.samestat(status, os.fstat(self._raw.fileno()))

    def read(self, limit: int) -> bytes:
        """The bytes as they stand: of a longer file no more than show that it is longer than the limit."""
        if self._raw.seekable():
            self._raw.seek(0)
            is_longer = os.fstat(self._raw.fileno()).st_size > limit
            return self._raw.read(limit + 1) if is_longer else self._raw.read()
        held = bytearray()
        while len(held) <= limit:
            piece = self._file.read(HEAD)
            if not piece:
                break
            held += piece
        return bytes(held)

    def blocks(self, reads: bool = False) -> Iterator[bytes]:
        """The text of the candump log, in blocks of whole lines. Behind what could be read a `Fault` may be raised.

        A log that the program reads, packed or not, is read here only where it is asked for."""
        if self._frames is None:
            if not self._is_known:
                raise Fault("line 1", "no log of a form that this reads")
            yield from candump.read(self._file, self.tally) if reads or not self._is_plain else candump.copied(self._file)
            return
        fault: Optional[Fault] = None
        held: List[str] = []
        try:
            for line in lines_of(self._frames(self._file, self.tally), self.tally, self._all_interfaces):
                held.append(line)
                if len(held) == _LINES:
                    yield "".join(held).encode("ascii")
                    held = []
        except Fault as found:
            fault = found
        yield "".join(held).encode("ascii")
        if fault:
            raise fault

    def _all_interfaces(self) -> Iterator[str]:
        """The interfaces of all frames, by another look at the file. A stream has no second one."""
        if self._is_stream:
            return
        with Log(self.path) as again:
            try:
                if again._frames:
                    yield from (frame.interface for frame in again._frames(again._file, again.tally))
            except Fault:
                pass


def _head_of(file: "io.BufferedReader | io.RawIOBase") -> bytes:
    """The first bytes of a file, or those before a fault, which then comes again."""
    held = b""
    try:
        while len(held) < HEAD:
            piece = file.read(HEAD - len(held))
            if not piece:
                break
            held += piece
    except Fault:
        pass
    return held
