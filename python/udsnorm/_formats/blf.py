"""Vector's BLF: objects, most of them packed in containers, of which an object may cross the border.

The file is read in pieces, and what a container holds is unpacked in pieces, so that no size in it decides how much
memory is taken.
"""

from __future__ import annotations

import calendar
import struct
import zlib
from typing import BinaryIO, Iterator, Optional

from .frames import BIT_RATE_SWITCH, ERROR_STATE, LENGTHS, Fault, Frame, Tally, interface_of

#: What the first bytes of a file are.
MAGIC = b"LOGG"
_PIECE = 1 << 17

# The head of the file: its own size; how long the file is; when the measurement began, as Windows spells it.
_HEAD, _HEAD_SIZE, _FILE_SIZE, _START = 144, struct.Struct("<4xI"), struct.Struct("<16xQ"), struct.Struct("<40x8H")

# The head of an object: its mark, the size of its head, the version of that, its own size, and its type.
_OBJECT = struct.Struct("<4sHHII")
# What follows in the head of an object with a time: the unit, and the time since the start.
_TIME = struct.Struct("<16xI4xQ")
_TEN_MICROS = 1
# What follows in a container: how it is packed, and how many bytes it unpacks to.
_CONTAINER = struct.Struct("<HxxxxxxIxxxx")
_PLAIN, _ZLIB = 0, 2

# Channel, flags, length code, identifier; of CAN FD also flags and the number of bytes.
_CLASSIC = struct.Struct("<HBBI")
_FD = struct.Struct("<HBBI4xxBB5x")
# Channel, length code, number of bytes, identifier, flags, direction, where more begins in the object.
_FD_64 = struct.Struct("<BBBxI4xI18xBB4x")

# The types of objects: those of frames with what stands before the data.
_LOG_CONTAINER, _FD_MESSAGE, _FD_MESSAGE_64 = 10, 100, 101
_FRAMES = {1: _CLASSIC, 86: _CLASSIC, _FD_MESSAGE: _FD, _FD_MESSAGE_64: _FD_64}
_ERRORS = (2, 73, 104)
#: No object of a frame is longer.
_LONGEST_FRAME = 1 << 12

# The flags of an object: its direction, of which 2 is a request to transmit; a remote frame; of CAN FD, and of its flags.
_DIRECTION, _REQUEST, _REMOTE = 0x0F, 2, 0x80
_IS_FD, _SWITCH, _STATE = 0x1, 0x2, 0x4
_REMOTE_64, _IS_FD_64, _SWITCH_64, _STATE_64 = 0x10, 0x1000, 0x2000, 0x4000
_EXTENDED = 1 << 31


def frames(file: BinaryIO, tally: Tally) -> Iterator[Frame]:
    """The frames of a file, at the time of day of the measurement."""
    head = file.read(_HEAD)
    if len(head) < _HEAD or not head.startswith(MAGIC):
        raise Fault(f"byte {len(head)}", "the file ends in its head")
    size = _HEAD_SIZE.unpack_from(head)[0]
    if size < _HEAD:
        raise Fault("byte 4", "a head of a size that there is not")
    packed = _Packed(file, size, _FILE_SIZE.unpack_from(head)[0])
    yield from _Objects(_start_of(head), tally).frames(packed)
    if packed.told and packed.at > packed.told:
        tally.noted["bytes behind the size that the head says"] = packed.at - packed.told


def _start_of(head: bytes) -> int:
    """When the measurement began, in nanoseconds: year, month, day of the week, day, hour, minute, second, millisecond."""
    year, month, _, day, hour, minute, second, millis = _START.unpack_from(head)
    if not (1970 <= year < 10000 and 1 <= month <= 12):
        return 0
    nanos: int = calendar.timegm((year, month, day, hour, minute, second)) * 10**9 + millis * 10**6
    return nanos


class _Packed:
    """The bytes of the objects of a file: those in its containers, and those beside them."""

    def __init__(self, file: BinaryIO, skipped: int, told: int) -> None:
        self._file, self.at, self.told = file, _HEAD, told
        for _ in self._pieces(skipped - _HEAD):
            pass

    def _pieces(self, size: int) -> Iterator[bytes]:
        """The next bytes of the file, so many."""
        while size:
            piece = self._file.read(min(size, _PIECE))
            if not piece:
                raise Fault(f"byte {self.at}", "the file ends in the middle of an object")
            self.at += len(piece)
            size -= len(piece)
            yield piece

    def __iter__(self) -> Iterator[bytes]:
        while True:
            begun, head = self.at, self._file.read(_OBJECT.size)
            self.at += len(head)
            if not head:
                break
            if len(head) < _OBJECT.size:
                raise Fault(f"byte {self.at}", "the file ends in the middle of an object")
            mark, _, _, size, kind = _OBJECT.unpack(head)
            if mark != b"LOBJ" or size < _OBJECT.size + (_CONTAINER.size if kind == _LOG_CONTAINER else 0):
                raise Fault(f"byte {begun}", "no object begins where one has to")
            if kind == _LOG_CONTAINER:
                yield from self._unpacked(begun, size - _OBJECT.size - _CONTAINER.size)
            else:
                yield head
                yield from self._pieces(size - _OBJECT.size)
            # What fills up an object has as many bytes as its size has above a multiple of four. The last one may lack it.
            self.at += len(self._file.read(size % 4))
        if self.at < self.told:
            raise Fault(f"byte {self.at}", f"the file ends before the {self.told} bytes that its head says")

    def _unpacked(self, begun: int, size: int) -> Iterator[bytes]:
        """What a container holds, in pieces."""
        packing, unpacked = _CONTAINER.unpack(b"".join(self._pieces(_CONTAINER.size)))
        if packing == _PLAIN:
            yield from self._pieces(size)
            return
        if packing != _ZLIB:
            raise Fault(f"byte {begun}", f"a container that is packed in a way that this does not read: {packing}")
        unpacking = zlib.decompressobj()
        try:
            for piece in self._pieces(size):
                out = None
                while out is None or piece or len(out) == _PIECE:
                    out = unpacking.decompress(piece, _PIECE)
                    piece = unpacking.unconsumed_tail
                    unpacked -= len(out)
                    if unpacked < 0:
                        raise Fault(f"byte {begun}", "a container that unpacks to more bytes than it says")
                    yield out
        except zlib.error:
            raise Fault(f"byte {begun}", "a container that can't be unpacked") from None
        if not unpacking.eof:
            raise Fault(f"byte {begun}", "a container whose packed bytes end early")


class _Objects:
    """What the objects of a file mean."""

    def __init__(self, start: int, tally: Tally) -> None:
        self._start, self._tally = start, tally

    def frames(self, pieces: _Packed) -> Iterator[Frame]:
        """The frames, from the bytes of all objects in a row."""
        # What is at hand, and where in it the next object begins: behind its end where an object is passed over.
        held, at = b"", 0
        for piece in pieces:
            held, at = (held[at:] + piece, 0) if at < len(held) else (piece, at - len(held))
            while at + _OBJECT.size <= len(held):
                mark, head_size, _, size, kind = _OBJECT.unpack_from(held, at)
                if mark != b"LOBJ":
                    at = self._behind_filling(held, at, pieces.at)
                    continue
                form = _FRAMES.get(kind)
                if form is None:
                    if size < _OBJECT.size:
                        raise Fault(f"byte {pieces.at}", "before it an object has a size that there is not")
                    if kind in _ERRORS:
                        self._tally.left_out["error frames"] += 1
                    else:
                        self._tally.leave_out_of_many(f"objects of type {kind}", "objects of other types")
                elif not (_TIME.size <= head_size and head_size + form.size <= size <= _LONGEST_FRAME):
                    raise Fault(f"byte {pieces.at}", "before it an object has a size that there is not")
                elif at + size > len(held):
                    break
                else:
                    frame = self._frame(held, at, at + head_size, at + size, kind)
                    if frame:
                        yield frame
                at += size
        if at > len(held) or held[at:].strip(b"\0"):
            raise Fault(f"byte {pieces.at}", "the file ends in the middle of an object")

    @staticmethod
    def _behind_filling(held: bytes, at: int, place: int) -> int:
        """Where an object begins behind the bytes that fill up the one before it."""
        found = held.find(b"LOBJ", at, at + 12)
        if found < 0:
            raise Fault(f"byte {place}", "before it no object begins where one has to")
        return found

    def _frame(self, held: bytes, at: int, head: int, end: int, kind: int) -> Optional[Frame]:
        """The frame of an object, whose head and which itself end there, if it is one of a bus."""
        unit, time = _TIME.unpack_from(held, at)
        micros = (self._start + (time * 10000 if unit == _TEN_MICROS else time) + 500) // 1000
        flags: Optional[int] = None
        if kind == _FD_MESSAGE_64:
            channel, code, stored, identifier, of_frame, direction, behind = _FD_64.unpack_from(held, head)
            is_remote, begin = of_frame & _REMOTE_64, head + _FD_64.size
            end = min(end, begin + stored, at + behind if at + behind >= begin else end)
            if of_frame & _IS_FD_64:
                flags = (BIT_RATE_SWITCH if of_frame & _SWITCH_64 else 0) | (ERROR_STATE if of_frame & _STATE_64 else 0)
        elif kind == _FD_MESSAGE:
            channel, direction, code, identifier, of_frame, stored = _FD.unpack_from(held, head)
            is_remote, begin = direction & _REMOTE, head + _FD.size
            end = min(end, begin + stored)
            if of_frame & _IS_FD:
                flags = (BIT_RATE_SWITCH if of_frame & _SWITCH else 0) | (ERROR_STATE if of_frame & _STATE else 0)
        else:
            channel, direction, code, identifier = _CLASSIC.unpack_from(held, head)
            is_remote, begin = direction & _REMOTE, head + _CLASSIC.size
            # It has room for eight bytes, however many are meant.
            end = min(end, begin + min(code, 8))
        if direction & _DIRECTION == _REQUEST:
            self._tally.left_out["transmit requests"] += 1
            return None
        interface, number, is_extended = interface_of(channel), identifier & ~_EXTENDED, identifier >= _EXTENDED
        if is_remote:
            return Frame(micros, interface, number, is_extended, b"", None, code)
        length = LENGTHS[code & 15] if flags is not None else min(code, 8)
        data = self._tally.fitting(held[begin:end], length)
        return None if data is None else Frame(micros, interface, number, is_extended, data, flags)
