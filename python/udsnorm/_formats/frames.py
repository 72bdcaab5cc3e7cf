"""A frame of any log, the line that candump writes of it, and what is told of a file beside its frames."""

from __future__ import annotations

import functools
import itertools
import re
from collections import Counter
from typing import Callable, Dict, Iterable, Iterator, List, NamedTuple, Optional, Set, Union

#: How many bytes a frame can have, by its length code.
LENGTHS = (0, 1, 2, 3, 4, 5, 6, 7, 8, 12, 16, 20, 24, 32, 48, 64)
_OF_CLASSIC, _OF_FD = frozenset(LENGTHS[:9]), frozenset(LENGTHS)

#: The flags of a frame of CAN FD in a line of candump: its bit rate switches; its sender is error passive.
BIT_RATE_SWITCH, ERROR_STATE = 1, 2

#: A line has ten digits for the seconds.
MOST_MICROS = 10**16
NO_STAMP = "stamps that no line can say"
_NO_NAME = "frames of interfaces that no name is left for"
_NAME_TAKEN = "frames of an interface whose name another one got"
_NAME = re.compile(r"[!-~]{1,15}")
# What Python has in a text for a byte that is no sign.
_SURROGATE = re.compile("[\udc80-\udcff]")

#: Of what a file may have any number of, so many are named.
_NAMED = 10
_LONGEST_NAME = 40
# How many interfaces are told apart whose names no line can say, and the names that these may get.
_MOST_GIVEN = 100
_GIVEN = tuple(f"can{number}" for number in range(1000))


class Frame(NamedTuple):
    """What a log records of a frame.

    `micros` is its time in microseconds. `interface` may be a name that no line can say. `flags` are those of CAN FD, and
    None of a classic frame. `requested` is the length that a remote frame asks for, and None of a frame with data.
    """

    micros: int
    interface: str
    identifier: int
    is_extended: bool
    data: bytes
    flags: Optional[int] = None
    requested: Optional[int] = None


class Fault(Exception):
    """A file ends in the middle, or has what no form of its format explains. The text is the place and the reason."""

    def __init__(self, place: str, reason: str) -> None:
        super().__init__(place, reason)
        self.place, self.reason = place, reason

    def __str__(self) -> str:
        return f"{self.place}: {self.reason}"


class Tally:
    """How many frames were written; what was left out, by kind; and what else there is to know, with how often."""

    def __init__(self) -> None:
        self.written = 0
        self.left_out: Counter[str] = Counter()
        self.noted: Counter[str] = Counter()
        self._short, self._has_long = 0, False
        self._of_many: Dict[str, Set[str]] = {}
        self._named: Dict[str, str] = {}

    def leave_out_of_many(self, kind: str, others: str) -> None:
        """Counts a kind of which a file may make up any number: the first ones by their names, the others together."""
        named = self._of_many.setdefault(others, set())
        if len(named) < _NAMED:
            named.add(kind)
        self.left_out[kind if kind in named else others] += 1

    def fitting(self, data: bytes, length: int) -> Optional[bytes]:
        """The data as they are stored. Fewer bytes than the frame's length says are counted; more are left out."""
        if len(data) < length:
            self.noted["frames with fewer bytes than their length says"] += 1
        elif len(data) > length:
            self.leave_out_longer()
            return None
        return data

    def leave_out_longer(self) -> None:
        """Counts a frame of which more bytes are stored than its length says."""
        self.left_out["frames with more bytes than their length says"] += 1

    def flags_by_length(self, length: int) -> Optional[int]:
        """The flags of a frame where nothing but its length tells that it is one of CAN FD. In a log that has such frames,
        shorter ones may be of CAN FD, too: these are noted."""
        self._short, self._has_long = self._short + (length <= 8), self._has_long or length > 8
        if self._short and self._has_long:
            self.noted["frames of up to eight bytes that may be of CAN FD"] = self._short
        return 0 if length > 8 else None

    def name(self, interface: str, name: str) -> None:
        """Notes the name that an interface gets whose own no line can say."""
        self.noted["interfaces of a name that no line can say"] += 1
        if len(self._named) < _NAMED:
            self._named[interface] = name

    def __str__(self) -> str:
        """One line; empty where there is nothing to tell but the number of frames."""
        named = ", ".join(f"{shown(interface[:_LONGEST_NAME])} as {name}" for interface, name in self._named.items())
        parts = [_counted("left out", self.left_out), _counted("noted", self.noted), named and f"named: {named}"]
        told = "; ".join(filter(None, parts))
        return f"frames {self.written}; {told}" if told else ""


def _counted(title: str, kinds: Dict[str, int]) -> str:
    return f"{title}: " + ", ".join(f"{kind} {number}" for kind, number in kinds.items()) if kinds else ""


def shown(name: str) -> str:
    """A name on one line: signs that are not printed stand by their numbers, and bytes that are no signs by theirs."""
    return "".join(sign if sign.isprintable() else f"\\x{ord(_SURROGATE.sub(_byte_of, sign)):02x}" for sign in name)


def _byte_of(surrogate: "re.Match[str]") -> str:
    return chr(ord(surrogate[0]) - 0xDC00)


@functools.lru_cache(maxsize=_MOST_GIVEN)
def interface_of(channel: Union[None, int, str]) -> str:
    """The name of a channel: of CAN 1 `can1`, of none `can0`, else its own, which maybe no line can say."""
    name = "" if channel is None else str(channel)
    return f"can{name}" if name.isdigit() else name or "can0"


def is_name(text: str) -> bool:
    """A line can say this name of an interface."""
    return bool(_NAME.fullmatch(text))


def nearest(numerator: int, denominator: int) -> int:
    """The nearest whole number of a fraction, a half upwards."""
    return (2 * numerator + denominator) // (2 * denominator)


class _Names(Dict[str, str]):
    """The name of each interface in a line. One whose own no line can say gets the first `canN` that no interface of the
    log has; where these can't be known before, the last one that none had so far, since logs have the first ones. An
    interface that can't be told from another gets none."""

    def __init__(self, tally: Tally, all_interfaces: Callable[[], Iterable[str]]) -> None:
        super().__init__()
        self._tally, self._all_interfaces = tally, all_interfaces
        self._free = dict.fromkeys(_GIVEN)
        self._given: Set[str] = set()
        self._are_known = False

    def is_given(self, interface: str) -> bool:
        """Another interface got the name of this one."""
        return interface in self._given

    def __missing__(self, interface: str) -> str:
        if not is_name(interface):
            return self._give(interface)
        if self.is_given(interface):
            return ""
        self._free.pop(interface, None)
        if len(self) < len(_GIVEN):
            self[interface] = interface
        return interface

    def _give(self, interface: str) -> str:
        if not self._given:
            for other in self._all_interfaces():
                self._are_known = True
                self._free.pop(other, None)
        if len(self._given) == _MOST_GIVEN or not self._free:
            return ""
        name = next(iter(self._free) if self._are_known else reversed(self._free))
        del self._free[name]
        self._given.add(name)
        self._tally.name(interface, name)
        self[interface] = name
        return name


def lines_of(
    frames: Iterable[Frame], tally: Tally, all_interfaces: Optional[Callable[[], Iterable[str]]] = None
) -> Iterator[str]:
    """The line of each frame. One that no line can say is counted as left out.

    `all_interfaces` gives those of all frames, or none where it can't; it is asked where one has a name that no line can
    say. Without it the frames from there on are held."""
    frames = iter(frames)
    held: List[Frame] = []

    def of_rest() -> Iterable[str]:
        held.extend(frames)
        return (one.interface for one in itertools.chain([frame], held))

    names = _Names(tally, all_interfaces or of_rest)
    # What is held comes once the others have.
    for frame in itertools.chain(frames, held):
        micros, interface, identifier, is_extended, data, flags, requested = frame
        name, largest = names[interface], 0x1FFFFFFF if is_extended else 0x7FF
        if not (
            0 <= micros < MOST_MICROS and 0 <= identifier <= largest and len(data) in (_OF_CLASSIC if flags is None else _OF_FD)
        ) or not name:
            why = _why_unsayable(frame, largest)
            if why == _NO_NAME and names.is_given(interface):
                tally.leave_out_of_many(f"{_NAME_TAKEN} ({interface})", f"{_NAME_TAKEN} (others)")
            else:
                tally.left_out[why] += 1
            continue
        tally.written += 1
        digits = f"{identifier:08X}" if is_extended else f"{identifier:03X}"
        if requested is not None:
            body = f"R{min(requested, 8) or ''}"
        elif flags is None:
            body = data.hex().upper()
        else:
            body = f"#{flags:X}{data.hex().upper()}"
        yield f"({micros // 1000000}.{micros % 1000000:06}) {name} {digits}#{body}\n"


def _why_unsayable(frame: Frame, largest: int) -> str:
    """Why no line can say a frame that none can."""
    if not 0 <= frame.micros < MOST_MICROS:
        return NO_STAMP
    if not 0 <= frame.identifier <= largest:
        return "identifiers that no line can say"
    if len(frame.data) in (_OF_CLASSIC if frame.flags is None else _OF_FD):
        return _NO_NAME
    if frame.flags is None:
        return "classic frames of more than eight bytes"
    return "frames of a length that there is not"
