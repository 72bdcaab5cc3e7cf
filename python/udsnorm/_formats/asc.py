"""Vector's ASC: a line for each event of a measurement. Of CAN FD these are lines `CANFD`, also of classic frames there."""

from __future__ import annotations

import re
from typing import BinaryIO, Iterator, List, Optional

from .frames import BIT_RATE_SWITCH, ERROR_STATE, Fault, Frame, Tally, interface_of
from .texts import Line, data_of, fraction, hexadecimal, length_of, lines

_BASE = re.compile(r"\s*base\s+(hex|dec)(?:\s+timestamps\s+(absolute|relative))?", re.A | re.I)
_EVENT = re.compile(r"\s*(\d{1,12})\.(\d{1,9})\s+(\S.*)", re.A)
# What else a line may begin with: heads, comments, the marks of a block.
_HEADS = ("date ", "internal events", "no internal events", "//", "begin triggerblock", "end triggerblock", "previous log file")
_IDENTIFIER = re.compile(r"([0-9A-Fa-f]{1,10})(x?)")
_FLAGS = re.compile(r"[0-9A-Fa-f]{1,8}")
_NUMBER = re.compile(r"\d{1,12}", re.A)
_DIRECTIONS = ("Rx", "Tx", "TxRq")
# What stands for the identifier in other events of a channel, as of J1939: its messages of many frames, its groups.
_OTHERS = re.compile(r"ErrorFrame|OverloadFrame|Statistic:|J1939\w*|[0-9A-Fa-f]{1,6}p", re.A)
# What may stand behind the data of a classic frame.
_BEHIND = ("Length", "BitCount", "ID", "TE", "WU", "XX", "NERR")

# The flags of a line CANFD: a remote frame, a frame of CAN FD.
_REMOTE, _FD = 0x10, 0x1000
# How many words stand behind the data of such a line at most: duration, length, flags, checksum, four timings.
_MOST_BEHIND = 8
# A byte in two hexadecimal digits that is no number as a duration is spelled.
_NO_DURATION = re.compile(r"(?!\d\d$)[0-9A-Fa-f]{2}|0\d", re.A)
# No frame has more bits, or takes so few nanoseconds.
_MOST_BITS = 1 << 12


def looks_so(head: str) -> bool:
    """The first line is one of a head of this format."""
    first = head.lstrip().split("\n", 1)[0].lower()
    return first.startswith(("date ", "// version")) or bool(_BASE.match(first))


def frames(file: BinaryIO, tally: Tally) -> Iterator[Frame]:
    """The frames of a file. Relative stamps are from event to event, and are summed before they are rounded."""
    reader = _Reader(tally)
    is_empty, is_open = True, False
    for line in lines(file, tally):
        is_empty = False
        event = _EVENT.match(line.text)
        if event:
            frame = reader.frame_of(line, reader.nanos_of(event[1], event[2]), event[3].split())
            if frame:
                yield frame
            continue
        base, text = _BASE.match(line.text), line.text.lstrip().lower()
        if base:
            reader.base = 10 if base[1].lower() == "dec" else 16
            reader.is_relative = (base[2] or "").lower() == "relative"
        elif not text.startswith(_HEADS) or not (line.is_whole or text == "end triggerblock"):
            raise line.unexplained("no line of an ASC file")
        if text.startswith(("begin triggerblock", "end triggerblock")):
            is_open = text.startswith("begin")
    if is_empty:
        raise Fault("line 1", "the file is empty")
    if is_open:
        tally.noted["blocks without their end"] += 1


class _Reader:
    """What the lines before say of how to read an event."""

    def __init__(self, tally: Tally) -> None:
        self.base, self.is_relative, self._tally, self._nanos = 16, False, tally, 0

    def nanos_of(self, seconds: str, digits: str) -> int:
        nanos = int(seconds) * 10**9 + fraction(digits, 9)
        self._nanos = self._nanos + nanos if self.is_relative else nanos
        return self._nanos

    def frame_of(self, line: Line, nanos: int, words: List[str]) -> Optional[Frame]:
        """The frame of an event, if it is one; else it is counted."""
        micros = (nanos + 500) // 1000
        try:
            if words[0] == "CANFD":
                return self._fd_frame(line, micros, words)
            if words[0].isdigit():
                return self._classic_frame(line, micros, words)
        except (ValueError, IndexError):
            raise line.unexplained("no event of an ASC file") from None
        if not line.is_whole:
            raise line.unexplained("")
        if words[:3] != ["Start", "of", "measurement"]:
            self._leave_out("CAN XL frames" if words[0] == "CANXL" else "other events")
        return None

    def _leave_out(self, kind: str) -> None:
        self._tally.left_out[kind] += 1

    def _classic_frame(self, line: Line, micros: int, words: List[str]) -> Optional[Frame]:
        """`1 7E0 Rx d 8 02 10 03`, `1 18DA10F1x Tx r 8`, or another event of the channel."""
        channel, what = words[0], words[1]
        if _OTHERS.fullmatch(what):
            if not line.is_whole:
                raise ValueError
            self._leave_out("error frames" if what == "ErrorFrame" else "other events")
            return None
        identifier, is_extended = self._identifier(what)
        direction, kind = words[2], words[3]
        if direction not in _DIRECTIONS or kind not in ("d", "r"):
            raise ValueError
        if direction == "TxRq":
            self._leave_out("transmit requests")
            return None
        interface = interface_of(channel)
        if kind == "r":
            has_length = len(words) > 4 and len(words[4]) == 1
            if not (has_length or line.is_whole):
                raise ValueError
            return Frame(micros, interface, identifier, is_extended, b"", None, hexadecimal(words[4]) if has_length else 0)
        length = self._number(words[4])
        data = self._data(words[5 : 5 + length])
        if len(data) == length and self._data(words[5 + length : 6 + length]):
            data = self._data(words[5:])
        # A length code of more than eight means eight bytes, if there are no more.
        length = min(length, 8) if len(data) <= 8 else length
        behind = words[5 + len(data) :]
        if len(data) < length and not (line.is_whole and (not behind or behind[0] in _BEHIND)):
            raise ValueError
        # The last number of a decimal line may be cut, too.
        if self.base == 10 and not (behind or line.is_whole):
            raise ValueError
        fitting = self._tally.fitting(data, length)
        return None if fitting is None else Frame(micros, interface, identifier, is_extended, fitting)

    def _fd_frame(self, line: Line, micros: int, words: List[str]) -> Optional[Frame]:
        """`CANFD 1 Rx 7E0 Name 1 0 c 24 ..`, behind the data duration, length and flags. The name may be missing."""
        channel, direction, what = words[1:4]
        if direction not in _DIRECTIONS:
            raise ValueError
        if what.lower() == "errorframe" or direction == "TxRq":
            self._leave_out("transmit requests" if direction == "TxRq" else "error frames")
            return None
        identifier, is_extended = self._identifier(what)
        at = 4 if words[4] in ("0", "1") and words[5] in ("0", "1") else 5
        switch, state, code, length = words[at], words[at + 1], hexadecimal(words[at + 2]), length_of(words[at + 3])
        if switch not in ("0", "1") or state not in ("0", "1"):
            raise ValueError
        data = self._data(words[at + 4 : at + 4 + length])
        behind = words[at + 4 + len(data) :]
        # How long the frame took, in two units, stands behind the data: else what is missing is garbage.
        if len(data) < length and not all(map(_NUMBER.fullmatch, behind[:2])):
            raise ValueError
        if len(behind) < 4 and not line.is_whole:
            raise ValueError
        flags = int(behind[2], 16) if len(behind) > 2 and _FLAGS.fullmatch(behind[2]) else _FD
        if _is_shifted(behind) or (flags & _REMOTE and data):
            self._tally.leave_out_longer()
            return None
        if flags & _REMOTE or (code and not length):
            return Frame(micros, interface_of(channel), identifier, is_extended, b"", None, code)
        of_fd = (BIT_RATE_SWITCH if switch == "1" else 0) | (ERROR_STATE if state == "1" else 0)
        # Some tools write no flags, but what a classic frame has not.
        is_fd = flags & _FD or of_fd or length > 8
        self._tally.fitting(data, length)
        return Frame(micros, interface_of(channel), identifier, is_extended, data, of_fd if is_fd else None)

    def _identifier(self, word: str) -> "tuple[int, bool]":
        found = _IDENTIFIER.fullmatch(word)
        if not found:
            raise ValueError
        return int(found[1], self.base), bool(found[2])

    def _number(self, word: str) -> int:
        return hexadecimal(word) if self.base == 16 else length_of(word)

    def _data(self, words: List[str]) -> bytes:
        """The bytes that the words begin with."""
        if self.base == 16:
            return data_of(words)
        found = bytearray()
        for word in words:
            if not _NUMBER.fullmatch(word) or int(word) > 255:
                break
            found.append(int(word))
        return bytes(found)


def _is_shifted(behind: List[str]) -> bool:
    """More bytes than the length says are there. They shift what stands behind the data: one is taken for the duration, and
    that, or a second one, for the number of bits."""
    if len(behind) > _MOST_BEHIND or (behind and _NO_DURATION.fullmatch(behind[0])):
        return True
    duration, bits, third, fourth = (int(word) if _NUMBER.fullmatch(word) else 0 for word in [*behind, "", "", "", ""][:4])
    # A tool that doesn't know one of the two writes 0 there.
    if bits > _MOST_BITS or (0 < duration < 256 and behind[1:2] == ["0"]):
        return True
    return 0 < max(duration, bits) < 256 and third > _MOST_BITS >= fourth > 0
