"""What candump writes for the screen: of each frame its interface, identifier, length and data, with a stamp or without.

Stamps of few digits are the time since the first frame (`-t z`) or since the frame before (`-t d`), and no line says
which. The first lines decide.
"""

from __future__ import annotations

import calendar
import datetime
import io
import re
from typing import Iterator, Optional

from .frames import BIT_RATE_SWITCH, ERROR_STATE, Frame, Tally, interface_of, nearest
from .texts import Line, fraction, lines

_COLOURS = re.compile(r"\x1b\[[0-9;]*m")
_LINE = re.compile(
    r"\s*(?:\((?P<stamp>[^)]+)\)\s+)?(?P<interface>[^\s(]\S*)\s+(?:(?:RX|TX) (?P<switch>[-B]) (?P<state>[-E])\s+)?"
    r"(?P<identifier>[0-9A-F]{8}|[0-9A-F]{3})\s+(?:\[(?P<length>\d\d?)\]|\{(?P<code>[0-9A-F])\})(?P<rest>.*)",
    re.A,
)
_SECONDS = re.compile(r"(\d{1,12})\.(\d{6,12})", re.A)
_DAY = re.compile(r"(\d{4}-\d\d-\d\d \d\d:\d\d:\d\d)\.(\d{6,12})", re.A)
# The data by hexadecimal digits, or by binary ones of `-i`; with `-S` from the last byte on, by grave accents. Behind
# them may stand what they are in ASCII.
_BYTES = re.compile(r"\s+(?P<data>[0-9A-F]{2}(?:[ `][0-9A-F]{2})*)(?![^\s])")
_BITS = re.compile(r"\s+(?P<data>[01]{8}(?:[ `][01]{8})*)(?![^\s])")
_BEHIND = re.compile(r"\s*|\s+['`].*['`]|\s+ERRORFRAME.*")
#: A notice of `-d`.
LOST = re.compile(r"DROPCOUNT: dropped (\d{1,9}) CAN frame")

_ERROR = 1 << 29
# Stamps of less are no time of day.
_TIME_OF_DAY = 10**9 * 10**6
_MILLISECOND = 1000


def looks_so(head: str) -> bool:
    """The first line that is not empty, and no notice of lost frames, is a frame."""
    first = next((line for line in _COLOURS.sub("", head).split("\n") if line.strip() and not LOST.match(line)), "")
    return bool(_LINE.match(first))


def frames(file: io.BufferedReader, tally: Tally) -> Iterator[Frame]:
    """The frames of a file. Stamps since the frame before are summed."""
    has_differences, sum_of_all = _has_differences(file.peek().decode("ascii", "replace")), 0
    behind_error = False
    for line in lines(file, tally):
        text = _COLOURS.sub("", line.text).rstrip()
        lost, found = LOST.match(text), _LINE.fullmatch(text)
        if behind_error and text.startswith("\t"):
            # The words of an error frame.
            continue
        if lost and line.is_whole:
            tally.left_out["frames that candump lost"] += int(lost[1])
            continue
        stamp = micros_of(found["stamp"]) if found else None
        if not found or (found["stamp"] and stamp is None):
            raise line.unexplained("no line that candump writes for the screen")
        frame = _frame(line, found, stamp or 0, tally)
        behind_error = frame is None
        if stamp is None:
            tally.noted["frames without a stamp, at 0.000000"] += 1
        elif stamp < _TIME_OF_DAY:
            tally.noted[f"stamps since the {'frame before' if has_differences else 'first frame'}"] += 1
        if has_differences:
            sum_of_all += stamp or 0
            frame = frame and frame._replace(micros=sum_of_all)
        if frame:
            yield frame


def _frame(line: Line, found: "re.Match[str]", micros: int, tally: Tally) -> Optional[Frame]:
    """The frame of a line; an error frame is counted."""
    identifier, is_extended = int(found["identifier"], 16), len(found["identifier"]) == 8
    if is_extended and identifier & _ERROR:
        if not line.is_whole:
            raise line.unexplained("")
        tally.left_out["error frames"] += 1
        return None
    interface = interface_of(found["interface"])
    # A raw length code of a classic frame stands in braces; the length of a frame of CAN FD has two digits.
    length = int(found["length"]) if found["length"] else int(found["code"], 16)
    is_fd = len(found["length"] or "") == 2
    if found["rest"].strip() == "remote request":
        return Frame(micros, interface, identifier, is_extended, b"", None, length)
    length = length if is_fd else min(length, 8)
    shown = _BYTES.match(found["rest"]) or _BITS.match(found["rest"])
    words = re.split("[ `]", shown["data"]) if shown else []
    data = bytes(int(word, 16 if len(word) == 2 else 2) for word in words)
    is_read = _BEHIND.fullmatch(found["rest"], shown.end() if shown else 0) and len(data) <= length
    # Behind a length of 0 a remote frame would say so.
    if not is_read or ((not data or len(data) < length) and not line.is_whole):
        raise line.unexplained("no line that candump writes for the screen")
    data = data[::-1] if shown and "`" in shown["data"] else data
    flags = (BIT_RATE_SWITCH if found["switch"] == "B" else 0) | (ERROR_STATE if found["state"] == "E" else 0)
    tally.fitting(data, length)
    return Frame(micros, interface, identifier, is_extended, data, flags if is_fd else None)


def micros_of(stamp: Optional[str]) -> Optional[int]:
    """The microseconds of a stamp, the nearest ones: seconds, or a day and a time, which is taken as UTC."""
    seconds, day = _SECONDS.fullmatch(stamp or ""), _DAY.fullmatch(stamp or "")
    if seconds:
        return _micros(int(seconds[1]), seconds[2])
    if day:
        try:
            whole = calendar.timegm(datetime.datetime.fromisoformat(day[1]).timetuple())
        except ValueError:
            return None
        return _micros(whole, day[2])
    return None


def _micros(seconds: int, digits: str) -> int:
    """The nearest microseconds of seconds with up to twelve digits behind the dot."""
    return nearest(seconds * 10**12 + fraction(digits, 12), 10**6)


def _has_differences(head: str) -> bool:
    """The stamps of the first lines are since the frame before: they fall at least to the half here and there, or every
    fourth one that is another falls, which no time that goes on does. Equal ones say nothing: many frames may have come
    in the time that a stamp counts."""
    found = [micros_of(line["stamp"]) for line in map(_LINE.match, _COLOURS.sub("", head).split("\n")) if line]
    stamps = [stamp for stamp in found if stamp is not None]
    pairs = [(earlier, later) for earlier, later in zip(stamps, stamps[1:]) if later != earlier]
    if not pairs or stamps[0] >= _TIME_OF_DAY:
        return False
    halved = sum(2 * later < earlier for earlier, later in pairs if earlier >= _MILLISECOND)
    return 50 * halved > len(pairs) or 4 * sum(later < earlier for earlier, later in pairs) > len(pairs)
