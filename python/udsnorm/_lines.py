"""What the texts of the library tell, line by line. docs/formats.md says what the lines are."""

from __future__ import annotations

import io
import json
import re
from typing import Any, Dict, Iterator, List, Literal, NamedTuple, Optional, Sequence, Tuple, Union, cast

Change = Literal["same", "changed", "removed", "added"]
Direction = Literal["tester", "unit"]
Outcome = Literal["positive", "negative", "silent", "unanswered"]
Role = Literal["request", "answer", "stray", "pending"]


class Place(NamedTuple):
    """Where a message stands in a log: the lines of its first and its last frame, from 1, and their times in
    microseconds. All are 0 of a message of no log."""

    first_line: int
    last_line: int
    begin: int
    end: int


# A place as the line of a message has it. Few of them are asked for, so no sooner are they read.
_NOWHERE = b"0 to 0 at 0 to 0"


class _Placed:
    """What stands in a log, from its first message, which may be all of it, to its last one."""

    _first, _last = _NOWHERE, _NOWHERE

    @property
    def first_line(self) -> int:
        """The line of its first frame, from 1."""
        return _place(self._first).first_line

    @property
    def last_line(self) -> int:
        """The line of its last frame."""
        return _place(self._last).last_line

    @property
    def begin(self) -> int:
        """The time of its first frame, in microseconds."""
        return _place(self._first).begin

    @property
    def end(self) -> int:
        """The time of its last frame."""
        return _place(self._last).end


class _Masked(bytes):
    """A message that the rules of a profile have left, as the canonical log has it: 00 where a byte is masked. Its text has
    `..` there, and a `*` where what followed, if anything, is cut off."""

    text: str


def _bytes(text: str) -> bytes:
    """The bytes of a message that a line tells."""
    if "." not in text and "*" not in text:
        return bytes.fromhex(text)
    masked = _Masked(bytes.fromhex(text.rstrip("*").replace("..", "00")))
    masked.text = text
    return masked


def _digits(message: bytes) -> str:
    """A message as a line tells it."""
    return message.text if isinstance(message, _Masked) else message.hex().upper()


class _ExchangeFields(NamedTuple):
    service: str
    request: bytes
    outcome: Outcome
    code: Optional[str]
    answer: Optional[bytes]


class Exchange(_ExchangeFields, _Placed):
    """A request of the tester, and what came of it.

    `service` and `code` are names, as docs/formats.md lists them. `answer` is None where there is none: the outcome is
    then "silent", where the request asked for no answer, or "unanswered". `code` is there for "negative" alone.

    `first_line`, `last_line`, `begin` and `end` are those of a `Message`: from the first frame of the request to the last
    one of the answer, if there is one. `request_place` and `answer_place` have them of each message. All these stand
    beside the fields: exchanges are equal, and have one hash, where the fields are, wherever they stand in their logs.
    """

    @property
    def request_place(self) -> Place:
        """Where the request stands."""
        return _place(self._first)

    @property
    def answer_place(self) -> Optional[Place]:
        """Where the answer stands, if there is one."""
        return None if self.answer is None else _place(self._last)

    def __repr__(self) -> str:
        return _shown(self)


class _StrayFields(NamedTuple):
    direction: Direction
    message: bytes


class Stray(_StrayFields, _Placed):
    """A message outside of any exchange, and the side that sent it.

    `first_line`, `last_line`, `begin` and `end` are those of a `Message`. They stand beside the fields, as those of an
    `Exchange`.
    """

    def __repr__(self) -> str:
        return _shown(self)


Item = Union[Exchange, Stray]


class Message(NamedTuple):
    """A message that was received whole, with its place in the log.

    `item` is the number of its item in `items`, from 1; `role` says what it is there, and is "pending" for a reply that
    the meaning leaves out. The lines of its first and last frame count from 1, and their times are in microseconds.
    """

    item: int
    role: Role
    direction: Direction
    first_line: int
    last_line: int
    begin: int
    end: int
    message: bytes

    def __repr__(self) -> str:
        return _shown(self)


class Row(NamedTuple):
    """What stands beside what in two logs: an item of each, or one that stands alone.

    `kind` is "same" of two items that are equal, and "changed" of two that ask for one service; an item that the left log
    has alone is "removed", and one that the right log has alone "added". `left_item` and `right_item` are the numbers of
    both in `items`, from 1; `left` and `right` are the items. Where a log has none, that is None, and the number is that
    of its item in front, or 0."""

    kind: Change
    left_item: int
    right_item: int
    left: Optional[Item]
    right: Optional[Item]


class _RowCountsFields(NamedTuple):
    same: int
    removed: int
    added: int
    changed: int


class RowCounts(_RowCountsFields):
    """How many rows are of each kind. `same`, `changed` and `removed` are together the left log, and `same`, `changed` and
    `added` the right one.

    `left_out` stands beside the four: how many messages the rules of a profile left out of the left log, and how many of
    the right one; None where there are no rules."""

    left_out: Optional[Tuple[int, int]] = None


class Pair(NamedTuple):
    """A unit and its tester, how many of the tester's requests the unit answered, and how many requests the tester sent;
    and an identifier for functional requests beside them, where the log has one. The identifiers are those that the
    calls take as `tester` and `unit`, as Linux's canid_t has them."""

    credits: int
    tester: int
    unit: int
    requests: int
    functional: Optional[int] = None


class _CountsFields(NamedTuple):
    lines: int
    frames: int
    messages: int
    dropped: int
    ended: int
    unfinished: int
    pending: int


class Counts(_CountsFields):
    """The counts of a log: its lines; the frames of the two sides; the messages that were received whole; the frames
    that were dropped; the receptions that ended without their message, and those that stand at the end; the replies
    that the meaning leaves out. Where `dropped`, `ended` and `unfinished` are 0, each frame that carries a message
    belongs to a message that was received whole. A single frame that was lost is not seen.

    `clean` stands beside the seven: it is what the program asks with `--strict`, that these three are 0, each side has a
    frame, and the last byte of the log is a line feed. So does `exchanged`: tester and unit look exchanged, since no
    message is a request, one of the tester has the first byte of a response, and one of the unit has not."""

    clean: bool = False
    exchanged: bool = False


def _shown(item: Union[Exchange, Stray, Message]) -> str:
    """An item with its bytes as hexadecimal digits, and under a profile as its lists have them."""
    parts = (f"{name}={_digits(value) if isinstance(value, bytes) else repr(value)}" for name, value in item._asdict().items())
    return f"{type(item).__name__}({', '.join(parts)})"


def _rows(text: bytes) -> Iterator[List[str]]:
    """The fields of each line, one line after the other."""
    begin = 0
    while begin < len(text):
        end = text.index(b"\n", begin)
        yield text[begin:end].decode("ascii").split(" ")
        begin = end + 1


def items_of(text: bytes, messages: bytes) -> Iterator[Item]:
    """The items of a list without numbers, at the places that the lines of the messages of the same log tell."""
    places = _Places(messages)
    return (_item(fields, b"%d" % number, places) for number, fields in enumerate(_rows(text), 1))


def _item(fields: List[str], number: bytes, places: "_Places") -> Item:
    if fields[0] == "stray":
        stray = Stray(cast(Direction, fields[1]), _bytes(fields[2]))
        stray._first = stray._last = places.of(b"%b stray %b" % (number, fields[1].encode()))
        return stray
    service, request, outcome = fields[1], _bytes(fields[2]), cast(Outcome, fields[4])
    code = fields[5] if outcome == "negative" else None
    answer = _bytes(fields[-1]) if outcome in ("positive", "negative") else None
    exchange = Exchange(service, request, outcome, code, answer)
    exchange._first = exchange._last = places.of(b"%b request tester" % number)
    if answer is not None:
        exchange._last = places.of(b"%b answer unit" % number)
    return exchange


class _Places:
    """The places of messages by the words before them: the numbers of their items, what they are there, and their sides. Of
    the lines that tell them no more are read than are asked for."""

    def __init__(self, text: bytes) -> None:
        self._lines = io.BytesIO(text)
        self._kept: Dict[bytes, bytes] = {}

    def of(self, message: bytes) -> bytes:
        """The place of this message. Those of the messages before it are kept until they are asked for."""
        if message in self._kept:
            return self._kept.pop(message)
        for line in self._lines:
            words, _, rest = line.partition(b" lines ")
            if words == message:
                return rest.rpartition(b" ")[0]
            if b" pending " not in words:
                self._kept[words] = rest.rpartition(b" ")[0]
        raise KeyError(message)


def _place(text: bytes) -> Place:
    first, last, begin, end = text.split(b" ")[::2]
    return Place(int(first), int(last), _microseconds(begin.decode()), _microseconds(end.decode()))


def messages_of(text: bytes) -> Iterator[Message]:
    """The messages of the lines that tell of them."""
    return map(_message, _rows(text))


def _message(fields: List[str]) -> Message:
    item, role, direction, _, first, _, last, _, begin, _, end, message = fields
    return Message(
        int(item), cast(Role, role), cast(Direction, direction), int(first), int(last),
        _microseconds(begin), _microseconds(end), _bytes(message),
    )


# The front of the object of a row that is not the same.
_CHANGED = re.compile(rb'\{"place":[0-9]+,"change":"([a-z]+)","left_item":([0-9]+),"right_item":([0-9]+),')


def rows_of(objects: bytes, left: Sequence[Item], right: Sequence[Item]) -> Iterator[Row]:
    """All rows of two logs with these items. Objects tell those that are not the same."""
    one = other = 0
    for kind, left_item, right_item in _changes(objects):
        has_left, has_right = kind != "added", kind != "removed"
        while one < left_item - has_left:
            one, other = one + 1, other + 1
            yield Row("same", one, other, left[one - 1], right[other - 1])
        one, other = left_item, right_item
        yield Row(kind, one, other, left[one - 1] if has_left else None, right[other - 1] if has_right else None)
    for one, other in zip(range(one, len(left)), range(other, len(right))):
        yield Row("same", one + 1, other + 1, left[one], right[other])


def _changes(objects: bytes) -> Iterator[Tuple[Change, int, int]]:
    """What becomes of each item that is not the same, and the numbers in both logs. Behind these objects one has the counts."""
    begin = 0
    while found := _CHANGED.match(objects, begin):
        kind, left_item, right_item = found.groups()
        yield cast(Change, kind.decode("ascii")), int(left_item), int(right_item)
        begin = objects.index(b"\n", begin) + 1


def row_counts_of(objects: bytes) -> Tuple[RowCounts, bool]:
    """The counts of the rows, and whether no script that keeps equal items is shorter: the last object has both."""
    told = json.loads(objects[objects.rfind(b"\n", 0, -1) + 1:])
    counts = RowCounts(told["same"], told["removed"], told["added"], told["changed"])
    if "left_out" in told:
        left, right = told["left_out"]
        counts.left_out = left, right
    return counts, told["shortest"]


def pairs_of(objects: bytes) -> List[Pair]:
    """The pairs of the objects that tell of them."""
    return [_pair(json.loads(line)) for line in objects.splitlines()]


def _pair(told: Dict[str, Any]) -> Pair:
    functional = _identifier(told["functional"]) if "functional" in told else None
    return Pair(told["credits"], _identifier(told["tester"]), _identifier(told["unit"]), told["requests"], functional)


def _identifier(digits: str) -> int:
    """An identifier of eight digits has the flag of those of 29 bits."""
    return int(digits, 16) | (1 << 31 if len(digits) == 8 else 0)


def _microseconds(seconds: str) -> int:
    """The microseconds of a time with six digits behind the dot."""
    return int(seconds.replace(".", ""))
