"""Messages of python-can, and the files that it alone reads here: MF4, and databases of its own."""

from __future__ import annotations

import importlib
from typing import Any, Iterable, Iterator, Optional

from .frames import BIT_RATE_SWITCH, ERROR_STATE, Fault, Frame, Tally, interface_of, nearest

#: What the first bytes of these files are, and the readers of python-can.
READERS = {b"SQLite format 3\0": "SqliteReader", b"MDF     4": "MF4Reader", b"UnFinMF 4": "MF4Reader"}
_SUFFIXES = {".db": "SqliteReader", ".mf4": "MF4Reader"}
# What the modules are called by pip, and by Debian, if it has them.
_PIP = {"can": "python-can", "asammdf": "asammdf"}
_DEBIAN = {"can": "python3-can"}


class Missing(ImportError):
    """A library that reads a file is not installed. The text names it as pip and as Debian do."""


def reader_of(head: bytes, suffix: str) -> Optional[str]:
    """The reader of python-can for a file, by its first bytes, else by its suffix."""
    return next((name for magic, name in READERS.items() if head.startswith(magic)), _SUFFIXES.get(suffix))


def frames_of_file(path: Optional[str], reader: str, tally: Tally) -> Iterator[Frame]:
    """The frames of a file that python-can reads. In a database no column says that a frame is one of CAN FD."""
    if path is None:
        raise Fault("byte 0", "python-can reads such a file by its name alone, and unpacked")
    module = _imported("can")
    new = getattr(module, reader, None)
    if new is None:
        raise Missing(f"python-can {module.__version__} has no {reader}, and a newer one has: pip install -U python-can")
    if reader == "MF4Reader":
        _imported("asammdf")
    number = 0
    try:
        for number, message in enumerate(new(path), 1):
            yield from frames((message,), tally, reader == "SqliteReader")
    except Exception as error:
        raise Fault(f"behind message {number}", f"python-can can't read on: {' '.join(str(error).split())[:200]}") from None


def _imported(module: str) -> Any:
    try:
        found = importlib.import_module(module)
        # What else has this name where the command runs is no library.
        if not hasattr(found, "__version__"):
            raise ImportError
        return found
    except Exception:
        # Also one that is installed may be broken.
        debian = f"apt install {_DEBIAN[module]}" if module in _DEBIAN else "Debian has no package"
        raise Missing(f"this file needs {_PIP[module]}: pip install {_PIP[module]}; {debian}") from None


def frames(messages: Iterable[Any], tally: Tally, is_told_by_length: bool = False) -> Iterator[Frame]:
    """The frames of messages. Where their length alone tells, those of more than eight bytes are of CAN FD."""
    for message in messages:
        if message.is_error_frame:
            tally.left_out["error frames"] += 1
            continue
        micros = _micros(message.timestamp)
        channel = message.channel if isinstance(message.channel, int) else str(message.channel or "")
        interface, identifier, is_extended = interface_of(channel), message.arbitration_id, message.is_extended_id
        if message.is_remote_frame:
            yield Frame(micros, interface, identifier, is_extended, b"", None, message.dlc)
            continue
        data, flags = bytes(message.data or b""), None
        if is_told_by_length:
            flags = tally.flags_by_length(len(data))
        elif message.is_fd:
            flags = (BIT_RATE_SWITCH if message.bitrate_switch else 0) | (ERROR_STATE if message.error_state_indicator else 0)
        fitting = tally.fitting(data, message.dlc if flags is not None or len(data) > 8 else min(message.dlc, 8))
        if fitting is not None:
            yield Frame(micros, interface, identifier, is_extended, fitting, flags)


def _micros(seconds: float) -> int:
    """A time in microseconds; one that is no number is none that a line can say."""
    try:
        numerator, denominator = seconds.as_integer_ratio()
    except (ValueError, OverflowError):
        return -1
    return nearest(numerator * 10**6, denominator)
