"""PEAK's TRC, versions 1.0 to 2.1: a line for each frame, in columns that the version says, or the head itself."""

from __future__ import annotations

import re
from typing import BinaryIO, Dict, Iterator, List, Optional

from .frames import BIT_RATE_SWITCH, ERROR_STATE, LENGTHS, Fault, Frame, Tally, interface_of, shown
from .texts import Line, data_of, fraction, length_of, lines

# The columns of each version: number, offset, type, bus, identifier, direction, reserved, length or its code, data.
_COLUMNS = {
    "1.0": "N,O,I,l,D",
    "1.1": "N,O,T,I,l,D",
    "1.2": "N,O,B,T,I,l,D",
    "1.3": "N,O,B,T,I,R,l,D",
    "2.0": "N,O,T,I,d,l,D",
    "2.1": "N,O,T,B,I,d,R,L,D",
}
_HEAD = re.compile(r"\s*;\$(FILEVERSION|COLUMNS)=(\S*)")
_OFFSET = re.compile(r"(\d{1,15})(?:\.(\d{1,6}))?", re.A)
_IDENTIFIER = re.compile(r"[0-9A-Fa-f]{3,8}")

# The types of frames with their flags of CAN FD, and of lines that are none.
_FRAMES: Dict[str, Optional[int]] = {
    "Rx": None, "Tx": None, "DT": None, "RR": None,
    "FD": 0, "FB": BIT_RATE_SWITCH, "FE": ERROR_STATE, "BI": BIT_RATE_SWITCH | ERROR_STATE,
}
_ERRORS, _EVENTS = ("Error", "ER"), ("Warng", "ST", "EC", "EV")


def looks_so(head: str) -> bool:
    """The first line is one of a head. It says the version; that of 1.0 says none."""
    return head.lstrip().startswith(";")


def frames(file: BinaryIO, tally: Tally) -> Iterator[Frame]:
    """The frames of a file, at their offsets from its start."""
    version, columns, is_empty = "1.0", _COLUMNS["1.0"].split(","), True
    for line in lines(file, tally):
        is_empty = False
        if not line.text.lstrip().startswith(";"):
            frame = _frame(line, columns, tally)
            if frame:
                yield frame
            continue
        if not line.is_whole:
            raise line.unexplained("")
        head = _HEAD.match(line.text)
        if head and head[1] == "FILEVERSION":
            version = head[2]
            if version not in _COLUMNS:
                raise line.unexplained(f"a TRC file of a version that this does not read: {shown(version[:20])}")
            columns = _COLUMNS[version].split(",")
        elif head:
            columns = head[2].split(",")
            if not {"O", "T", "I", "D"} <= set(columns) or columns[-1] != "D" or not {"l", "L"} & set(columns):
                raise line.unexplained("columns of no TRC file")
    if is_empty:
        raise Fault("line 1", "the file is empty")


def _frame(line: Line, columns: List[str], tally: Tally) -> Optional[Frame]:
    """The frame of a line, if it is one; else it is counted."""
    words = line.text.replace(")", " ", 1).split()
    kind = words[columns.index("T")] if "T" in columns and len(words) > columns.index("T") else "Rx"
    if kind in _ERRORS or kind in _EVENTS:
        if not line.is_whole:
            raise line.unexplained("")
        tally.left_out["error frames" if kind in _ERRORS else "other events"] += 1
        return None
    # The data are the rest of the line.
    row, rest = dict(zip(columns[:-1], words)), words[len(columns) - 1 :]
    try:
        offset = _OFFSET.fullmatch(row["O"])
        if not offset or kind not in _FRAMES or not _IDENTIFIER.fullmatch(row["I"]):
            raise ValueError
        if row["I"].upper() == "FFFFFFFF":
            tally.left_out["other events"] += 1
            return None
        flags = _FRAMES[kind]
        length = length_of(row["l"]) if "l" in row else LENGTHS[length_of(row["L"])]
        is_remote = kind == "RR" or rest[:1] == ["RTR"]
        # A classic frame has at most eight bytes, whatever its length code.
        length = min(length, 8) if flags is None and "L" in row else length
        data = b"" if is_remote else data_of(rest)
        is_read = rest in ([], ["RTR"]) if is_remote else len(data) == len(rest)
        if not is_read or (len(data) < length and not (line.is_whole or is_remote)):
            raise ValueError
    except (ValueError, KeyError, IndexError):
        raise line.unexplained("no line of a TRC file") from None
    micros = (int(offset[1]) * 10**6 + fraction(offset[2] or "", 6) + 500) // 1000
    is_extended = len(row["I"]) > 4
    interface = interface_of(row.get("B"))
    if is_remote:
        return Frame(micros, interface, int(row["I"], 16), is_extended, b"", None, length)
    fitting = tally.fitting(data, length)
    return None if fitting is None else Frame(micros, interface, int(row["I"], 16), is_extended, fitting, flags)
