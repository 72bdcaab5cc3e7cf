"""Files that are packed by gzip, bzip2 or xz, unpacked piece by piece."""

from __future__ import annotations

import bz2
import io
import lzma
import zlib
from typing import Any, Callable, Dict, Optional

from .frames import Fault

_PIECE = 1 << 16
#: The most memory that unpacking a file of xz may take: twice what `xz -9` needs.
_XZ_MEMORY = 1 << 27


class _Gzip:
    """What unpacks gzip, in the manner of what unpacks bzip2 and xz."""

    def __init__(self) -> None:
        self._from, self._held = zlib.decompressobj(31), b""
        self.eof, self.needs_input, self.unused_data = False, True, b""

    def decompress(self, data: bytes, size: int) -> bytes:
        out = self._from.decompress(self._held + data, size)
        self._held = self._from.unconsumed_tail
        self.needs_input = not self._held and len(out) < size
        self.eof, self.unused_data = self._from.eof, self._from.unused_data
        return out


#: By the first bytes of a file, and by its suffix.
_UNPACKERS: Dict[bytes, Callable[[], Any]] = {
    b"\x1f\x8b": _Gzip,
    b"BZh": bz2.BZ2Decompressor,
    b"\xfd7zXZ\x00": lambda: lzma.LZMADecompressor(memlimit=_XZ_MEMORY),
}
SUFFIXES = {".gz": b"\x1f\x8b", ".bz2": b"BZh", ".xz": b"\xfd7zXZ\x00"}


def unpacker_of(head: bytes, suffix: str) -> Optional[Callable[[], Any]]:
    """What unpacks a file, if it is packed. A file of such a suffix that begins as none has to be cut."""
    for magic, unpacker in _UNPACKERS.items():
        if head.startswith(magic):
            return unpacker
    return _UNPACKERS[SUFFIXES[suffix]] if suffix in SUFFIXES else None


class Unpacking(io.RawIOBase):
    """The bytes of a packed file. Where it ends early or is damaged, each further call says so."""

    def __init__(self, file: io.BufferedReader, unpacker: Callable[[], Any]) -> None:
        self._file, self._unpacker, self._from, self._at = file, unpacker, unpacker(), 0
        self._fault: Optional[Fault] = None

    def readable(self) -> bool:
        return True

    def readinto(self, room: Any) -> int:
        if self._fault is None:
            try:
                out = self._next(len(room))
                room[: len(out)] = out
                return len(out)
            except (zlib.error, lzma.LZMAError, OSError, EOFError) as error:
                if getattr(error, "errno", None) is not None:
                    raise
                why = "the packed file ends early" if isinstance(error, EOFError) else "the packed file is damaged"
                self._fault = Fault(f"byte {self._at}", why)
        raise self._fault

    def _next(self, size: int) -> bytes:
        """The next bytes, at most so many; none at the end. Files may be packed one behind another."""
        while True:
            piece = b""
            if self._from.eof:
                piece = (self._from.unused_data or self._read()).lstrip(b"\0")
                if not piece:
                    return b""
                self._from = self._unpacker()
            elif self._from.needs_input:
                piece = self._read()
                if not piece:
                    raise EOFError
            out: bytes = self._from.decompress(piece, size)
            if out:
                return out

    def _read(self) -> bytes:
        piece = self._file.read(_PIECE)
        self._at += len(piece)
        return piece
