"""What the readers of texts share: lines of bounded length, numbers and data."""

from __future__ import annotations

import re
from typing import BinaryIO, Iterator, List, NamedTuple

from .frames import Fault, Tally

#: The most bytes of a line.
LONGEST = 1 << 16
_BYTE = re.compile(r"[0-9A-Fa-f]{2}")
_LENGTH = re.compile(r"[0-9]{1,5}")
_HEXADECIMAL = re.compile(r"(?:0[xX])?[0-9A-Fa-f]{1,10}")
_BYTE_ORDER_MARK = b"\xef\xbb\xbf"


class Line(NamedTuple):
    """A line without what ends it. It is whole where a line feed does."""

    number: int
    text: str
    is_whole: bool

    def unexplained(self, why: str) -> Fault:
        """The fault of a line that can't be read."""
        return Fault(f"line {self.number}", why if self.is_whole else "the file ends in the middle of a line")


def lines(file: BinaryIO, tally: Tally) -> Iterator[Line]:
    """The lines of a file, but empty ones that are whole. Bytes that are no ASCII, as Latin-1 has them in names, mean nothing
    here. A last line that is explained may all the same be cut: it is noted."""
    number = 0
    while True:
        line = file.readline(LONGEST)
        number += 1
        if not line:
            return
        is_whole = line.endswith(b"\n")
        if not is_whole and len(line) == LONGEST:
            raise Fault(f"line {number}", f"it has more than {LONGEST} bytes")
        if number == 1 and line.startswith(_BYTE_ORDER_MARK):
            line = line[len(_BYTE_ORDER_MARK) :]
        text = line.decode("ascii", "surrogateescape").rstrip()
        if text or not is_whole:
            yield Line(number, text, is_whole)
        if not is_whole:
            note_no_feed(tally)


def note_no_feed(tally: Tally) -> None:
    """Notes that the last line of a file is not ended."""
    tally.noted["last lines without a line feed"] += 1


def fraction(digits: str, places: int) -> int:
    """What digits behind a dot are, in units of so many places."""
    return int(digits[:places].ljust(places, "0"))


def length_of(word: str) -> int:
    """A length in decimal digits; else a ValueError."""
    if not _LENGTH.fullmatch(word):
        raise ValueError
    return int(word)


def hexadecimal(word: str) -> int:
    """A number in hexadecimal digits; else a ValueError."""
    if not _HEXADECIMAL.fullmatch(word):
        raise ValueError
    return int(word, 16)


def data_of(words: List[str]) -> bytes:
    """The bytes of the first words, each of two hexadecimal digits, up to a word of another form."""
    if set(map(len, words)) <= {2}:
        try:
            return bytes.fromhex(" ".join(words))
        except ValueError:
            pass
    count = next((at for at, word in enumerate(words) if not _BYTE.fullmatch(word)), len(words))
    return bytes.fromhex("".join(words[:count]))
