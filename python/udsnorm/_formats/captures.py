"""Captures, pcap and pcapng: frames as SocketCAN hands them out, and as Wireshark exports those of other files."""

from __future__ import annotations

import struct
from array import array
from typing import BinaryIO, Dict, Iterator, NamedTuple, Optional

from .frames import BIT_RATE_SWITCH, ERROR_STATE, Fault, Frame, Tally, interface_of, nearest

# The first bytes of a pcap file, with the order of its numbers and how many of its units a second has.
_PCAP = {
    b"\xd4\xc3\xb2\xa1": ("<", 10**6),
    b"\xa1\xb2\xc3\xd4": (">", 10**6),
    b"\x4d\x3c\xb2\xa1": ("<", 10**9),
    b"\xa1\xb2\x3c\x4d": (">", 10**9),
}
_SECTION = b"\x0a\x0d\x0d\x0a"
_ORDERS = {b"\x4d\x3c\x2b\x1a": "<", b"\x1a\x2b\x3c\x4d": ">"}

_SOCKETCAN, _EXPORTED = 227, 252
_LINKS = {1: "Ethernet, as of DoIP", 113: "Linux cooked, of `any`", 276: "Linux cooked, of `any`"}

# The blocks of a pcapng file.
_INTERFACE, _OLD_PACKET, _SIMPLE_PACKET, _PACKET = 1, 2, 3, 6
_NAME, _RESOLUTION, _OFFSET = 2, 9, 14

#: No packet of a frame is longer; libpcap has the same bound.
_LONGEST = 1 << 18
_PIECE = 1 << 16

# An interface as it is held: link type, resolution, the offset of its times; behind these its name. How many bytes those of
# a section take at most, and how many of them are at hand.
_HELD = struct.Struct("=HBq")
_MOST_HELD, _AT_HAND = 1 << 26, 1 << 10
# The resolution that an interface has which says none: microseconds. One with the flag counts powers of two.
_MICROSECONDS, _OF_TWO = 6, 0x80

# An identifier with its flags, and the flags of CAN FD; a frame of CAN XL has a flag where others have a length.
_EXTENDED, _REMOTE, _ERROR = 1 << 31, 1 << 30, 1 << 29
_FD, _XL = 4, 0x80
_DATA = 8
_LONGEST_FD = _DATA + 64

# What Wireshark names the frames that it exports: with the order of the identifier, none for that of the file.
_KINDS = {b"can-hostendian": None, b"canfd": None, b"can-bigendian": ">"}
_END, _DISSECTOR = 0, 12


class _Interface(NamedTuple):
    """Its link type, its name in a line, how many units a second has, and the time from which they count, in seconds."""

    link: int
    name: str
    units: int
    begin: int


class _Interfaces:
    """The interfaces of a section, of which a file may make up any number: few bytes are held of each."""

    def __init__(self) -> None:
        # Where each ends.
        self._held, self._ends = bytearray(), array("I")
        self._at_hand: Dict[int, _Interface] = {}

    def add(self, link: int, resolution: int, begin: int, name: bytes) -> None:
        """The next one, in the terms of its block; of too many a ValueError."""
        self._held += _HELD.pack(link, resolution, begin) + name
        self._ends.append(len(self._held))
        if len(self._held) > _MOST_HELD:
            raise ValueError

    def of(self, number: int) -> Optional[_Interface]:
        """The one of this number, if there are so many."""
        face = self._at_hand.get(number)
        if face is None and number < len(self._ends):
            if len(self._at_hand) == _AT_HAND:
                self._at_hand.clear()
            face = self._at_hand[number] = self._read(number)
        return face

    def _read(self, number: int) -> _Interface:
        end, at = self._ends[number], self._ends[number - 1] if number else 0
        link, resolution, begin = _HELD.unpack_from(self._held, at)
        name = self._held[at + _HELD.size : end].decode("latin-1")
        units = 2 ** (resolution - _OF_TWO) if resolution & _OF_TWO else 10**resolution
        return _Interface(link, interface_of(name or number), units, begin)


def looks_so(head: bytes) -> bool:
    """The first bytes are those of a capture."""
    return head[:4] in _PCAP or head[:4] == _SECTION


def frames(file: BinaryIO, tally: Tally) -> Iterator[Frame]:
    """The frames of a file, in the order of its packets."""
    reader, magic = _Reader(file, tally), file.read(4)
    if magic == _SECTION:
        yield from reader.pcapng()
    elif magic in _PCAP:
        reader.order, units = _PCAP[magic]
        yield from reader.pcap(units)
    else:
        raise Fault("byte 0", "no capture begins so")


class _Reader:
    """A file, how far it is read, and the order of its numbers."""

    def __init__(self, file: BinaryIO, tally: Tally) -> None:
        self._file, self._tally, self._at, self.order = file, tally, 4, "<"

    def _read(self, size: int) -> bytes:
        found = self._file.read(size)
        self._at += len(found)
        if len(found) < size:
            raise Fault(f"byte {self._at}", "the file ends in the middle")
        return found

    def _skip(self, size: int) -> None:
        while size:
            size -= len(self._read(min(size, _PIECE)))

    def _numbers(self, form: str, held: bytes) -> "tuple[int, ...]":
        return struct.unpack_from(self.order + form, held)

    def pcap(self, units: int) -> Iterator[Frame]:
        """Behind a head that names the link type, packets with their time and size."""
        link = self._numbers("16xI", self._read(20))[0] & 0xFFFF
        face = _Interface(link, "can0", units, 0)
        while True:
            head = self._file.read(16)
            self._at += len(head)
            if not head:
                return
            if len(head) < 16:
                raise Fault(f"byte {self._at}", "the file ends in the middle")
            seconds, part, size, _ = self._numbers("4I", head)
            if not self._reads(face):
                self._skip(size)
            elif size > _LONGEST:
                raise Fault(f"byte {self._at}", f"a packet of {size} bytes")
            else:
                yield from self._frames(face, seconds * units + part, self._read(size))

    def _reads(self, face: _Interface) -> bool:
        """Whether packets of this link type are read. One that is not is counted."""
        if face.link in (_SOCKETCAN, _EXPORTED):
            return True
        named = f" ({_LINKS[face.link]})" if face.link in _LINKS else ""
        self._tally.leave_out_of_many(f"packets of link type {face.link}{named}", "packets of other link types")
        return False

    def pcapng(self) -> Iterator[Frame]:
        """Blocks: a section's head, interfaces, packets, and others that say nothing of frames."""
        faces = _Interfaces()
        self._section()
        while True:
            begun, head = self._at, self._file.read(8)
            self._at += len(head)
            if not head:
                return
            if len(head) < 8:
                raise Fault(f"byte {self._at}", "the file ends in the middle")
            if head[:4] == _SECTION:
                self._section(head[4:])
                faces = _Interfaces()
                continue
            kind, size = self._numbers("II", head)
            if size < 12 or size % 4:
                raise Fault(f"byte {begun}", "a block of a size that there is not")
            if kind not in (_INTERFACE, _PACKET, _OLD_PACKET, _SIMPLE_PACKET):
                self._skip(size - 12)
            elif size > _LONGEST:
                raise Fault(f"byte {begun}", f"a block of {size} bytes")
            else:
                try:
                    yield from self._block(kind, self._read(size - 12), faces)
                except (struct.error, IndexError):
                    raise Fault(f"byte {begun}", "a block that lacks what it has to have") from None
            if self._numbers("I", self._read(4))[0] != size:
                raise Fault(f"byte {begun}", "a block whose two sizes differ")

    def _section(self, size: bytes = b"") -> None:
        """The head of a section, which says the order of its numbers, behind its type and maybe its size."""
        begun = self._at
        size = size or self._read(4)
        order = _ORDERS.get(self._read(4))
        if order is None:
            raise Fault(f"byte {begun}", "a section that says no order of its bytes")
        self.order = order
        length = self._numbers("I", size)[0]
        if length < 28 or length % 4:
            raise Fault(f"byte {begun}", "a block of a size that there is not")
        self._skip(length - 12)

    def _block(self, kind: int, held: bytes, faces: _Interfaces) -> Iterator[Frame]:
        if kind == _INTERFACE:
            self._add_interface(held, faces)
            return
        if kind == _SIMPLE_PACKET:
            size, number, time, begin = self._numbers("I", held)[0], 0, 0, 4
            size = min(size, len(held) - begin)
        elif kind == _PACKET:
            number, high, low, size = self._numbers("4I", held)
            time, begin = high << 32 | low, 20
        else:
            number, high, low, size = self._numbers("HxxIII", held)
            time, begin = high << 32 | low, 20
        face = faces.of(number)
        if face is None:
            raise Fault(f"byte {self._at}", "a packet of an interface that there is not")
        if begin + size > len(held):
            raise Fault(f"byte {self._at}", "a packet that is longer than its block")
        if not self._reads(face):
            return
        if kind == _SIMPLE_PACKET:
            self._tally.noted["frames without a stamp, at 0.000000"] += 1
        yield from self._frames(face, time, held[begin : begin + size], kind != _SIMPLE_PACKET)

    def _add_interface(self, held: bytes, faces: _Interfaces) -> None:
        """An interface: its link type, and among its options its name, its resolution and the offset of its times."""
        link, at = self._numbers("H", held)[0], 8
        name, resolution, begin = b"", _MICROSECONDS, 0
        while at + 4 <= len(held):
            code, size = self._numbers("HH", held[at : at + 4])
            value = held[at + 4 : at + 4 + size]
            at += 4 + size + -size % 4
            if code == _NAME:
                name = value.rstrip(b"\0")
            elif code == _RESOLUTION:
                resolution = value[0]
            elif code == _OFFSET:
                begin = self._numbers("q", value)[0]
            elif code == _END:
                break
        try:
            faces.add(link, resolution, begin, name)
        except ValueError:
            raise Fault(f"byte {self._at}", f"interfaces of more than {_MOST_HELD} bytes") from None

    def _frames(self, face: _Interface, time: int, packet: bytes, has_time: bool = True) -> Iterator[Frame]:
        """The frame of a packet, if it has one; else it is counted."""
        micros = nearest(time * 10**6, face.units) + face.begin * 10**6 if has_time else 0
        if face.link == _SOCKETCAN:
            frame = self._frame(micros, face.name, packet, ">", False)
        else:
            frame = self._exported(micros, face.name, packet)
        if frame:
            yield frame

    def _exported(self, micros: int, name: str, packet: bytes) -> Optional[Frame]:
        """Tags with their sizes, of which one names the frame's kind; behind them the frame."""
        at, kind = 0, b""
        while at + 4 <= len(packet):
            tag, size = struct.unpack_from(">HH", packet, at)
            if tag == _DISSECTOR:
                kind = packet[at + 4 : at + 4 + size].rstrip(b"\0")
            at += 4 + size
            if tag == _END:
                break
        if kind not in _KINDS:
            self._tally.left_out["packets of no frame"] += 1
            return None
        return self._frame(micros, name, packet[at:], _KINDS[kind] or self.order, kind == b"canfd")

    def _frame(self, micros: int, name: str, held: bytes, order: str, is_fd: bool) -> Optional[Frame]:
        """A frame as SocketCAN has it: identifier and flags, length, flags of CAN FD, two bytes, the data."""
        if len(held) < _DATA:
            self._tally.left_out["packets of no whole frame"] += 1
            return None
        word, length, flags = struct.unpack_from(order + "IBB", held)
        if word & _ERROR or length & _XL:
            self._tally.left_out["error frames" if word & _ERROR else "CAN XL frames"] += 1
            return None
        is_extended = bool(word & _EXTENDED)
        identifier = word & (0x1FFFFFFF if is_extended else 0x7FF)
        if word & _REMOTE:
            return Frame(micros, name, identifier, is_extended, b"", None, length)
        # Older kernels say by the room for its data alone that a frame is one of CAN FD, and some tools don't say it.
        is_fd = is_fd or bool(flags & _FD) or len(held) == _LONGEST_FD
        is_fd = is_fd or self._tally.flags_by_length(length) is not None
        data = held[_DATA : _DATA + length]
        self._tally.fitting(data, length)
        return Frame(micros, name, identifier, is_extended, data, flags & (BIT_RATE_SWITCH | ERROR_STATE) if is_fd else None)
