"""candump's own logs, of `-l` and `-L`. Lines that the program reads stay as they are. Stamps with a day or with more decimals
are spelled as those of other lines, and notices of lost frames are counted."""

from __future__ import annotations

import io
import re
from typing import Iterator, List

from .frames import MOST_MICROS, NO_STAMP, Fault, Tally
from .screen import LOST, micros_of
from .texts import LONGEST, note_no_feed

_LINE = (
    rb"\(\d{1,10}\.\d{6}\) {1,16}[!-~]{1,15} {1,16}(?:[0-9A-Fa-f]{8}|[0-7][0-9A-Fa-f]{2})#"
    rb"(?:(?:[0-9A-Fa-f]{2}){8}_[9A-Fa-f]|(?:[0-9A-Fa-f]{2}){0,8}|R8_[9A-Fa-f]|R[0-8]?|#[0-9A-Fa-f](?:[0-9A-Fa-f]{2}){0,64})"
    rb"(?: {1,16}[RT])?\r?"
)
_LOG_LINE = re.compile(_LINE)
_LOG_LINES = re.compile(rb"(?:(?:%s|\r?)\n)*" % _LINE)
_STAMP = re.compile(rb"\(([\d. :-]{1,40})\)(?= )")
_PLAIN = re.compile(rb"\d+\.\d{6}")

# How a log begins, maybe behind notices.
_BEGINS = re.compile(rb"(?:\s*DROPCOUNT:[^\n]*\n)*\s*\(([\d. :-]+)\) +\S+ +[0-9A-Fa-f]+#")


def looks_so(head: bytes) -> bool:
    """The first line is one of a log."""
    return bool(_BEGINS.match(head))


def is_plain(head: bytes) -> bool:
    """The first line of a log is one for the program: it may be another one all the same, of which that tells."""
    found = _BEGINS.match(head)
    return bool(found and _PLAIN.fullmatch(found[1])) and not head.lstrip().startswith(b"DROPCOUNT")


def copied(file: io.BufferedReader) -> Iterator[bytes]:
    """A log in blocks of whole lines, unread. Only of the last line it is looked whether it is whole."""
    for number, block in _blocks(file):
        if not block.endswith(b"\n") and block.strip() and not _LOG_LINE.fullmatch(block):
            raise Fault(f"line {number}", _CUT)
        yield block


def read(file: io.BufferedReader, tally: Tally) -> Iterator[bytes]:
    """A log in blocks of whole lines, each of which is read."""
    for number, block in _blocks(file):
        if _LOG_LINES.fullmatch(block):
            tally.written += block.count(b"\n(") + block.startswith(b"(")
            yield block
        else:
            yield from _lines(number, block, tally)


_CUT = "the file ends in the middle of a line"


def _blocks(file: io.BufferedReader) -> "Iterator[tuple[int, bytes]]":
    """Blocks of whole lines, and last what no line feed ends, each with the number of its first line."""
    number, rest = 1, b""
    while True:
        piece = file.read1(LONGEST)
        if not piece:
            break
        whole, feed, rest = (rest + piece).rpartition(b"\n")
        if feed:
            yield number, whole + feed
            number += whole.count(b"\n") + 1
        if len(rest) > LONGEST:
            raise Fault(f"line {number}", f"it has more than {LONGEST} bytes")
    if rest:
        yield number, rest


def _lines(number: int, block: bytes, tally: Tally) -> Iterator[bytes]:
    """The lines of a block, those before one that no form explains."""
    held: List[bytes] = []
    for at, line in enumerate(io.BytesIO(block), number):
        try:
            held.append(_spelled(line, tally))
        except ValueError:
            yield b"".join(held)
            raise Fault(f"line {at}", "no line of a candump log" if line.endswith(b"\n") else _CUT) from None
    yield b"".join(held)


def _spelled(line: bytes, tally: Tally) -> bytes:
    """A line as the program reads it: none of a notice, or of a frame that no line can say. Of any other line, a
    ValueError."""
    text = line.rstrip(b"\n")
    feed, lost = line[len(text) :], LOST.match(text.decode("ascii", "replace"))
    if text in (b"", b"\r"):
        return line
    if lost and feed:
        tally.left_out["frames that candump lost"] += int(lost[1])
        return b""
    micros = 0
    if not _LOG_LINE.fullmatch(text):
        stamp = _STAMP.match(text)
        found = micros_of(stamp[1].decode("ascii")) if stamp else None
        if stamp is None or found is None:
            raise ValueError
        micros, text = found, b"(%d.%06d)%s" % (*divmod(found % MOST_MICROS, 10**6), text[stamp.end() :])
        if not _LOG_LINE.fullmatch(text):
            raise ValueError
    if not feed:
        note_no_feed(tally)
    if not 0 <= micros < MOST_MICROS:
        tally.left_out[NO_STAMP] += 1
        return b""
    tally.written += 1
    return text + feed
