"""The CSV of SavvyCAN and that of python-can: a row for each frame, below the names of the columns."""

from __future__ import annotations

import base64
import re
from decimal import Decimal
from typing import BinaryIO, Dict, Iterator, List, Optional

from .frames import Fault, Frame, Tally, interface_of, nearest
from .texts import Line, data_of, hexadecimal, length_of, lines

_SAVVYCAN = {"time stamp", "id", "extended", "bus", "len", "d1"}
_PYTHON_CAN = {"timestamp", "arbitration_id", "extended", "remote", "error", "dlc", "data"}
_MICROS = re.compile(r"-?\d{1,18}", re.A)
_SECONDS = re.compile(r"-?\d{1,12}(?:\.\d{1,20})?(?:e-?\d{1,2})?", re.A)
_TRUTHS = {"true": True, "1": True, "false": False, "0": False}


def looks_so(head: str) -> bool:
    """The first line names the columns of one of the two."""
    names = set(_names(head.split("\n", 1)[0]))
    return _SAVVYCAN <= names or _PYTHON_CAN <= names


def _names(line: str) -> List[str]:
    return [name.strip().lower() for name in line.split(",")]


def frames(file: BinaryIO, tally: Tally) -> Iterator[Frame]:
    """The frames of a file, in the order of its rows."""
    rows = lines(file, tally)
    head = next(rows, None)
    if head is None:
        raise Fault("line 1", "the file is empty")
    names = _names(head.text)
    read = _of_savvycan if _SAVVYCAN <= set(names) else _of_python_can if _PYTHON_CAN <= set(names) else None
    if read is None:
        raise head.unexplained("neither SavvyCAN's columns nor python-can's")
    first = names.index("d1") if "d1" in names else len(names)
    for line in rows:
        cells = [cell.strip() for cell in line.text.split(",")]
        # A row that is cut before its last column says too little.
        is_read = line.is_whole or len(cells) >= len(names)
        try:
            frame = read(line, dict(zip(names, cells)), cells[first:], tally) if is_read else None
        except (ValueError, KeyError):
            is_read = False
        if not is_read:
            raise line.unexplained("no row of these columns")
        if frame:
            yield frame


def _of_savvycan(line: Line, row: Dict[str, str], cells: List[str], tally: Tally) -> Optional[Frame]:
    """`166064000,0000021A,false,Rx,0,8,FE,36,12,FE,69,05,07,AD,`: the stamp is in microseconds."""
    if not _MICROS.fullmatch(row["time stamp"]):
        raise ValueError
    length, data = length_of(row["len"]), data_of(cells)
    if any(cells[len(data) :]) or (len(data) < length and not line.is_whole):
        raise ValueError
    # A shorter frame is filled up to eight bytes.
    if len(data) <= 8 and not any(data[length:]):
        data = data[:length]
    identifier, is_extended = hexadecimal(row["id"]), _TRUTHS[row["extended"].lower()]
    fitting, interface = tally.fitting(data, length), interface_of(row["bus"])
    if fitting is None:
        return None
    return Frame(int(row["time stamp"]), interface, identifier, is_extended, fitting, tally.flags_by_length(length))


def _of_python_can(line: Line, row: Dict[str, str], _cells: List[str], tally: Tally) -> Optional[Frame]:
    """`1700000000.012,0x7e8,0,0,0,8,EBRi8ZBXQkE=`: no column says whether the frame is one of CAN FD."""
    length, is_remote, is_error = length_of(row["dlc"]), _TRUTHS[row["remote"]], _TRUTHS[row["error"]]
    data = base64.b64decode(row["data"], validate=True)
    if not _SECONDS.fullmatch(row["timestamp"]) or (len(data) < length and not (is_remote or line.is_whole)):
        raise ValueError
    micros = nearest(*(Decimal(row["timestamp"]) * 10**6).as_integer_ratio())
    interface, identifier = interface_of(row.get("channel")), hexadecimal(row["arbitration_id"])
    is_extended = _TRUTHS[row["extended"]]
    if is_error:
        tally.left_out["error frames"] += 1
        return None
    if is_remote:
        return Frame(micros, interface, identifier, is_extended, b"", None, length)
    fitting = tally.fitting(data, length)
    if fitting is None:
        return None
    return Frame(micros, interface, identifier, is_extended, fitting, tally.flags_by_length(length))
