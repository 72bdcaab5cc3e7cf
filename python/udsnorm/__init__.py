"""Recorded UDS sessions (ISO 14229 over ISO-TP, ISO 15765-2) from candump logs, by the proved library libudsnorm.

    >>> import udsnorm
    >>> udsnorm.normalise("left.log") == udsnorm.normalise("right.log")
    True
    >>> for item in udsnorm.items("left.log"):
    ...     print(item)

A log is what `candump -l` or `-L` wrote: bytes, any other buffer (it is copied before the call), or the path of a file.
A file may also have any other form that `python3 -m udsnorm` reads; `from_messages` makes a log of what python-can
recorded. What such a log leaves out is told as a warning, `LeftOut`. Settings and errors are those of `normalise` for
every call, but that `find` asks for no identifiers.

The interpreter's lock is given up during a call, so threads run side by side.

The pages of the project, as docs/formats.md, and its sample logs lie in share/doc/udsnorm below the prefix.
"""

from __future__ import annotations

import os
import re
import sys
import warnings
from itertools import islice
from typing import TYPE_CHECKING, Any, Callable, Iterable, Iterator, List, NamedTuple, Optional, Union

from . import _formats, _library
from ._profile import Profile, read_profile
from ._library import Answer, Settings
from ._lines import Change, Counts, Direction, Exchange, Item, Message, Outcome, Pair, Place, Role, Row, RowCounts, Stray
from ._lines import items_of, messages_of, pairs_of, row_counts_of, rows_of

# What a type checker sees of bytes and of every other object with the buffer protocol.
if TYPE_CHECKING:
    from _typeshed import ReadableBuffer
else:
    ReadableBuffer = Any

__all__ = [
    "Change", "Counts", "Diff", "Difference", "Direction", "EXTENDED", "Exchange", "Explanation", "Identifier", "Item",
    "LIMIT", "LeftOut", "Log", "Message", "Outcome", "Pair", "Place", "Profile", "Refused", "Role", "Row", "RowCounts", "Stray",
    "TESTER", "UNIT", "compare", "diff", "explain", "find", "from_messages", "items", "iter_items", "iter_messages",
    "messages", "normalise", "report", "report_pair",
]
__version__ = _library.VERSION

# As `python3 -m udsnorm` the package is imported first, and needs no library.
if sys.argv[:1] != ["-m"]:
    _library.loaded()

#: The flag of an identifier of 29 bits, as in canid_t of <linux/can.h>.
EXTENDED = 1 << 31
#: The identifiers and the limit that the program has where none are given. For `messages` and `report` it has a limit of
#: 2**40.
TESTER, UNIT, LIMIT = 0x7E0, 0x7E8, 1 << 30

#: The path of a file, bytes, or any other buffer.
Log = Union[str, "os.PathLike[str]", ReadableBuffer]
#: A number, as Linux's canid_t has it, or three or eight hexadecimal digits, as the program takes them.
Identifier = Union[int, str]

_SETTING_FAULTS = (_library.ID_RANGE, _library.SAME_ID, _library.LIMIT_RANGE)


class LeftOut(UserWarning):
    """Of a log that is no candump log something was left out, or is told otherwise. The text says how much of what."""


class Refused(ValueError):
    """A log is refused. The text is the line that the program tells, behind the file's name where it was named.

    `reason` says why: "bad line", "oversize" (a message is announced that is too long), "log limit", "output limit"
    (the canonical log is longer than the limit) or "bad file" (one of another form ends in the middle, or can't be
    explained). `line` and `column` count from 1, and are None where there is none; `side` is "left" or "right" in a
    comparison, and `file` the path that was given.
    """

    def __init__(
        self, reason: str, text: str, line: Optional[int], column: Optional[int], side: Optional[str],
        file: Optional[str] = None,
    ) -> None:
        # These are what is handed on where the error passes from process to process.
        super().__init__(reason, text, line, column, side, file)
        self.reason, self.line, self.column, self.side, self.file = reason, line, column, side, file
        self._text = ": ".join(filter(None, (side, file and _formats.shown(file), text)))

    def __str__(self) -> str:
        return self._text


class Explanation(NamedTuple):
    """What was dropped and why, line by line as the program writes it, and the counts."""

    text: str
    counts: Counts


class Difference(NamedTuple):
    """The first item in which two logs differ: its number, from 1, and what each log has there, None where it ends."""

    item: int
    left: Optional[Item]
    right: Optional[Item]


class Diff(NamedTuple):
    """Where two logs differ. As a text it is what `udsnorm diff` writes: nothing where they have the same meaning.

    `rows` are all, those that are the same, too: each item of both logs stands in one, in its order. `shortest` is False
    where equal items may stand in rows of their own, since more items would be removed and added than are looked for."""

    rows: List[Row]
    counts: RowCounts
    shortest: bool
    text: str

    def __str__(self) -> str:
        return self.text


def normalise(
    log: Log,
    *,
    tester: Identifier = TESTER,
    unit: Identifier = UNIT,
    limit: int = LIMIT,
    profile: Optional[Profile] = None,
    only: Optional[str] = None,
) -> bytes:
    """The canonical log. Two logs have the same meaning exactly where these are equal.

    `log`: its bytes in any buffer, or the path of a file.
    `tester`, `unit`: the identifiers of the frames that each side sends, as Linux's canid_t has them: 0 to 0x7FF, or
    `EXTENDED | number` with a number up to 0x1FFFFFFF; or as a text, "7E0" or "18DA10F1". They have to be different.
    `limit`: the most bytes of the log, and of its canonical log: 1 to 2**40. It bounds the memory that a call takes.
    `profile`: which messages are left out, which bytes are masked, and which units a bench has, as docs/formats.md says:
    the path of a file, the bytes of its TOML, or a `dict` with its keys. Where it has units, `tester` and `unit` are not
    looked at. `only`: the name of one of them; it has to be there where there are several.

    Raises `Refused` where the log is refused, `ValueError` for settings that there are not, and with what is wrong in a
    profile, `MemoryError`, `OSError` where a file can't be read, and `ImportError` where python-can is missing that reads
    it.
    """
    return _text("normalise", log, _settings(tester, unit, limit, profile, only))[1]


def items(
    log: Log,
    *,
    tester: Identifier = TESTER,
    unit: Identifier = UNIT,
    limit: int = LIMIT,
    profile: Optional[Profile] = None,
    only: Optional[str] = None,
) -> List[Item]:
    """The exchanges and the stray messages of a log, in the order of its meaning, with their lines and times.

    Settings and errors are those of `normalise`."""
    return list(iter_items(log, tester=tester, unit=unit, limit=limit, profile=profile, only=only))


def iter_items(
    log: Log,
    *,
    tester: Identifier = TESTER,
    unit: Identifier = UNIT,
    limit: int = LIMIT,
    profile: Optional[Profile] = None,
    only: Optional[str] = None,
) -> Iterator[Item]:
    """The items of `items` one after the other, so that no list of them is held. Errors are raised by the call.

    Held are the lines of all items and those of `messages`, which tell their places: for each message about a hundred
    bytes, and four for each byte of it."""
    settings = _settings(tester, unit, limit, profile, only)
    return _items_in(_contents(log, settings.limit), log, settings)


def messages(
    log: Log,
    *,
    tester: Identifier = TESTER,
    unit: Identifier = UNIT,
    limit: int = LIMIT,
    profile: Optional[Profile] = None,
    only: Optional[str] = None,
) -> List[Message]:
    """The messages of a log that were received whole, in the order in which they were complete, with their times.

    Settings and errors are those of `normalise`, but that no announced length and no canonical log refuses a log."""
    return list(iter_messages(log, tester=tester, unit=unit, limit=limit, profile=profile, only=only))


def iter_messages(
    log: Log,
    *,
    tester: Identifier = TESTER,
    unit: Identifier = UNIT,
    limit: int = LIMIT,
    profile: Optional[Profile] = None,
    only: Optional[str] = None,
) -> Iterator[Message]:
    """The messages of `messages` one after the other, so that no list of them is held. Errors are raised by the call."""
    return messages_of(_text("messages", log, _settings(tester, unit, limit, profile, only), _library.TEXT)[1])


def explain(
    log: Log,
    *,
    tester: Identifier = TESTER,
    unit: Identifier = UNIT,
    limit: int = LIMIT,
    profile: Optional[Profile] = None,
    only: Optional[str] = None,
) -> Explanation:
    """What was dropped of a log and why, and its counts.

    Settings and errors are those of `normalise`, but that no announced length and no canonical log refuses a log."""
    answer, text = _text("explain", log, _settings(tester, unit, limit, profile, only), _library.TEXT)
    counts = Counts(
        answer.lines, answer.frames, answer.messages, answer.dropped, answer.ended, answer.unfinished, answer.pending
    )
    counts.clean, counts.exchanged = bool(answer.clean), bool(answer.exchanged)
    return Explanation(text.decode("ascii"), counts)


def find(log: Log, *, limit: int = LIMIT) -> List[Pair]:
    """Which identifiers answer, each with the one that asks it, for a log whose identifiers nobody told: the most answers
    first.

    The limit and errors are those of `normalise`, but that no announced length and no canonical log refuses a log."""
    return pairs_of(_text("find", log, _settings(TESTER, UNIT, limit, None, None), _library.JSON)[1])


def compare(
    left: Log,
    right: Log,
    *,
    tester: Identifier = TESTER,
    unit: Identifier = UNIT,
    limit: int = LIMIT,
    profile: Optional[Profile] = None,
    only: Optional[str] = None,
) -> Optional[Difference]:
    """The first item in which two logs differ; None where they have the same meaning.

    Settings and errors are those of `normalise`. Where both logs are refused, the left one is told."""
    settings = _settings(tester, unit, limit, profile, only)
    answer, one, other = _compared(left, right, settings)
    if answer.item == 0:
        return None
    return Difference(answer.item, _item_at(one, settings, answer.item), _item_at(other, settings, answer.item))


def diff(
    left: Log,
    right: Log,
    *,
    names: "Optional[tuple[str, str]]" = None,
    tester: Identifier = TESTER,
    unit: Identifier = UNIT,
    limit: int = LIMIT,
    profile: Optional[Profile] = None,
    only: Optional[str] = None,
) -> Diff:
    """What stands beside what in two logs: which items are the same, which have changed, and which only one of them has.

    `names` are what its text calls them; without these, they are their paths, or "left" and "right".
    Settings and errors are those of `compare`."""
    settings = _settings(tester, unit, limit, profile, only)
    one, other = _both(left, right, settings, lambda *logs: _library.compare(settings, *logs))
    objects = _diff_text(left, right, one, other, names, settings, _library.JSON)
    rows = rows_of(objects, list(_items_in(one, left, settings)), list(_items_in(other, right, settings)))
    text = _diff_text(left, right, one, other, names, settings, _library.TEXT)
    return Diff([*rows], *row_counts_of(objects), text.decode("ascii"))


def report(
    log: Log,
    *,
    name: Optional[str] = None,
    tester: Identifier = TESTER,
    unit: Identifier = UNIT,
    limit: int = LIMIT,
    profile: Optional[Profile] = None,
    only: Optional[str] = None,
) -> bytes:
    """The page of a log, as the program's `report LOG` writes it: a file of HTML.

    `name` is what the page calls the log; without it, that is the name of its file, or "log".
    Settings and errors are those of `normalise`, but that no announced length and no canonical log refuses a log."""
    settings = _settings(tester, unit, limit, profile, only)
    if name is None:
        name = _file_name(log, "log")
    answer, page = _library.page(settings, os.fsencode(name), _contents(log, settings.limit))
    if answer.status != _library.DONE:
        raise _fault(answer, log)
    return page


def report_pair(
    left: Log,
    right: Log,
    *,
    names: "Optional[tuple[str, str]]" = None,
    tester: Identifier = TESTER,
    unit: Identifier = UNIT,
    limit: int = LIMIT,
    profile: Optional[Profile] = None,
    only: Optional[str] = None,
) -> bytes:
    """The page of two logs, as the program's `report LOG OTHER` writes it: whether they are the same session, and where they
    differ first.

    `names` are what the page calls them; without these, they are the names of their files, or their paths where these
    are equal, or "left" and "right".
    Settings and errors are those of `compare`, but that no announced length and no canonical log refuses a log."""
    settings = _settings(tester, unit, limit, profile, only)
    one, other = _both(left, right, settings, lambda *logs: _library.pair_page(settings, (b"", b""), *logs)[0])
    return _pair_page(left, right, one, other, names, settings)


def from_messages(messages: Iterable[Any]) -> bytes:
    """The log of messages of python-can, `can.Message`, in their order. What can't be said is warned of: `LeftOut`."""
    tally = _formats.Tally()
    log = "".join(_formats.lines_of(_formats.frames_of_messages(messages, tally), tally)).encode("ascii")
    _warn("messages", tally)
    return log


def _settings(
    tester: Identifier, unit: Identifier, limit: int, profile: Optional[Profile], only: Optional[str]
) -> Settings:
    """The settings as numbers that C has; no number is cut."""
    if not 0 <= limit < 1 << 64:
        raise ValueError(_library.status_text(_library.LIMIT_RANGE))
    text, file = read_profile(profile)
    return Settings(_number_of(tester), _number_of(unit), limit, text, os.fsencode(only or ""), file and _formats.shown(file))


def _number_of(identifier: Identifier) -> int:
    """An identifier as a number that C has."""
    if isinstance(identifier, str):
        if not re.fullmatch("[0-9A-Fa-f]{3}|[0-9A-Fa-f]{8}", identifier):
            raise ValueError(_library.status_text(_library.ID_RANGE))
        identifier = int(identifier, 16) | (EXTENDED if len(identifier) == 8 else 0)
    if not 0 <= identifier < 1 << 32:
        raise ValueError(_library.status_text(_library.ID_RANGE))
    return identifier


def _contents(log: Log, limit: int, side: Optional[str] = None) -> bytes:
    """The bytes of a log: of a longer one no more than show that it is longer than the limit."""
    if isinstance(log, bytes):
        return log
    if not isinstance(log, (str, os.PathLike)):
        return memoryview(log).tobytes()
    with _formats.Log(log) as file:
        if file.is_as_it_stands:
            return file.read(limit)
        held = bytearray()
        try:
            for block in file.blocks():
                held += block
                if len(held) > limit:
                    break
        except _formats.Fault as fault:
            raise Refused("bad file", str(fault), None, None, side, file.path) from None
        _warn(file.path, file.tally)
        return bytes(held)


def _warn(name: str, tally: "_formats.Tally") -> None:
    """Says what was left out, at the line that called the package."""
    if str(tally):
        inside = 1
        while sys._getframe(inside).f_globals.get("__name__", "").partition(".")[0] == __name__:
            inside += 1
        warnings.warn(f"{_formats.shown(name)}: {tally}", LeftOut, stacklevel=inside + 1)


def _both(left: Log, right: Log, settings: Settings, judge: Callable[[bytes, bytes], Answer]) -> "tuple[bytes, bytes]":
    """The bytes of two logs. Where the right one can't be read to its end, the left one is judged first: beside nothing."""
    one = _contents(left, settings.limit, "left")
    try:
        return one, _contents(right, settings.limit, "right")
    except Refused:
        answer = judge(one, b"")
        if answer.status != _library.DONE:
            raise _fault(answer, left) from None
        raise


def _compared(left: Log, right: Log, settings: Settings) -> "tuple[Answer, bytes, bytes]":
    """What two logs are to each other, and the bytes of both."""
    one, other = _both(left, right, settings, lambda *logs: _library.compare(settings, *logs))
    answer = _library.compare(settings, one, other)
    if answer.status != _library.DONE:
        raise _fault(answer, right if answer.side == 2 else left)
    return answer, one, other


def _diff_text(
    left: Log, right: Log, one: bytes, other: bytes, names: "Optional[tuple[str, str]]", settings: Settings, style: int
) -> bytes:
    """What is written in this style of where two logs differ that have these bytes."""
    shown = names or (_path(left, "left"), _path(right, "right"))
    answer, text = _library.diff(settings, style, (os.fsencode(shown[0]), os.fsencode(shown[1])), one, other)
    if answer.status != _library.DONE:
        raise _fault(answer, right if answer.side == 2 else left)
    return text


def _pair_page(
    left: Log, right: Log, one: bytes, other: bytes, names: "Optional[tuple[str, str]]", settings: Settings
) -> bytes:
    """The page of two logs that have these bytes."""
    if names is None:
        names = _file_name(left, "left"), _file_name(right, "right")
        if names[0] == names[1]:
            names = _path(left, "left"), _path(right, "right")
    answer, page = _library.pair_page(settings, (os.fsencode(names[0]), os.fsencode(names[1])), one, other)
    if answer.status != _library.DONE:
        raise _fault(answer, right if answer.side == 2 else left)
    return page


def _path(log: Log, name: str) -> str:
    """The path of a log, or what one is called that is no file."""
    return os.fsdecode(os.fspath(log)) if isinstance(log, (str, os.PathLike)) else name


def _file_name(log: Log, name: str) -> str:
    """The last part of that."""
    return os.path.basename(_path(log, name)) or _path(log, name)


def _text(name: str, log: Log, settings: Settings, *style: int) -> "tuple[Answer, bytes]":
    """The answer of a call and its text."""
    return _text_in(name, _contents(log, settings.limit), log, settings, *style)


def _text_in(name: str, held: bytes, log: Log, settings: Settings, *style: int) -> "tuple[Answer, bytes]":
    """The same of these bytes, which the log has."""
    answer, text = _library.text(name, settings, held, *style)
    if answer.status != _library.DONE:
        raise _fault(answer, log)
    return answer, text


def _items_in(held: bytes, log: Log, settings: Settings) -> Iterator[Item]:
    """The items of these bytes, which the log has."""
    text = _text_in("list", held, log, settings, _library.NO_NUMBERS)[1]
    return items_of(text, _text_in("messages", held, log, settings, _library.TEXT)[1])


def _item_at(log: bytes, settings: Settings, number: int) -> Optional[Item]:
    """The item of a log with this number, from 1, if there are so many."""
    return next(islice(_items_in(log, log, settings), number - 1, None), None)


def _fault(answer: Answer, log: Log = b"") -> Exception:
    """Why there is no text of a log."""
    words = _library.status_text(answer.status)
    if answer.status == _library.MEMORY:
        return MemoryError()
    if answer.status in _SETTING_FAULTS:
        return ValueError(words)
    reason, text = {
        _library.BAD_LINE: ("bad line", f"line {answer.line} column {answer.column}: {words}"),
        _library.OVERSIZE: (
            "oversize", f"line {answer.line}: {answer.announced} bytes announced, the limit is 1048575"
        ),
        _library.LOG_LIMIT: ("log limit", words),
        _library.OUTPUT_LIMIT: ("output limit", words),
    }[answer.status]
    file = os.fspath(log) if isinstance(log, (str, os.PathLike)) else None
    side = {1: "left", 2: "right"}.get(answer.side)
    return Refused(reason, text, answer.line or None, answer.column or None, side, file)
