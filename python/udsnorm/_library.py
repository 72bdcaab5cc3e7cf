"""The shared library libudsnorm and its calls, as docs/library.md and udsnorm.h say them."""

from __future__ import annotations

import ctypes
import functools
from pathlib import Path
from typing import Any, Iterable, List, NamedTuple, Optional, Tuple

# The name of the shared library, and the version of it that this package is made for.
SONAME = "libudsnorm.so.0"
VERSION = "1.0.0"

# The values of `status`.
DONE, ID_RANGE, SAME_ID, LIMIT_RANGE, BAD_LINE, OVERSIZE, LOG_LIMIT, OUTPUT_LIMIT, MEMORY, ROOM, STYLE, PROFILE = range(12)

# The styles of a text.
TEXT, NO_NUMBERS, JSON = 0, 1, 2


class Answer(ctypes.Structure):
    """What came of a call: struct udsnorm_answer."""

    status: int
    column: int
    line: int
    announced: int
    length: int
    item: int
    side: int
    exchanged: int
    clean: int
    lines: int
    frames: int
    messages: int
    dropped: int
    ended: int
    unfinished: int
    pending: int
    left_out: int

    _fields_ = [
        ("status", ctypes.c_uint32),
        ("column", ctypes.c_uint32),
        ("line", ctypes.c_uint64),
        ("announced", ctypes.c_uint64),
        ("length", ctypes.c_uint64),
        ("item", ctypes.c_uint64),
        ("side", ctypes.c_uint16),
        ("exchanged", ctypes.c_uint16),
        ("clean", ctypes.c_uint32),
        ("lines", ctypes.c_uint64),
        ("frames", ctypes.c_uint64),
        ("messages", ctypes.c_uint64),
        ("dropped", ctypes.c_uint64),
        ("ended", ctypes.c_uint64),
        ("unfinished", ctypes.c_uint64),
        ("pending", ctypes.c_uint64),
        ("left_out", ctypes.c_uint64),
    ]


class _Words(ctypes.Structure):
    """What a status means: struct udsnorm_words."""

    text: bytes

    _fields_ = [("text", ctypes.c_char * 48)]


class Settings(NamedTuple):
    """The identifiers of the two sides, as Linux's canid_t has them, and the limit in bytes; the text of a profile, the name of
    one of its units, and the path of its file, if it has one."""

    tester: int
    unit: int
    limit: int
    profile: bytes = b""
    only: bytes = b""
    file: Optional[str] = None

    def given(self) -> Tuple[Any, ...]:
        """These as a call takes them."""
        only = (self.only, len(self.only))
        return (self.tester, self.unit, self.limit, self.profile, len(self.profile), *only)


@functools.lru_cache(maxsize=None)
def loaded() -> ctypes.CDLL:
    """The library that lies beside this file, else that of the system. It has to be of the package's version."""
    beside = Path(__file__).with_name(SONAME)
    library = ctypes.CDLL(str(beside) if beside.exists() else SONAME)
    library.udsnorm_version.restype = ctypes.c_uint32
    number: int = library.udsnorm_version()
    found = f"{number >> 16}.{number >> 8 & 0xFF}.{number & 0xFF}"
    if found != VERSION:
        raise ImportError(f"udsnorm {VERSION} needs {SONAME} of that version, and found {found}")
    _declare(library)
    return library


# The C library, for memory that is not cleared: of the room for a text most is never used.
_process = ctypes.CDLL(None)
_process.malloc.argtypes = [ctypes.c_size_t]
_process.malloc.restype = ctypes.c_void_p
_process.free.argtypes = [ctypes.c_void_p]
_process.free.restype = None

# The types of the parameters, as udsnorm.h has them.
_LOG: List[Any] = [ctypes.c_char_p, ctypes.c_size_t]
_SETTINGS: List[Any] = [ctypes.c_uint32, ctypes.c_uint32, ctypes.c_uint64, *_LOG, *_LOG]
_STYLE: List[Any] = [ctypes.c_uint32]
_OUT: List[Any] = [ctypes.c_void_p, ctypes.c_size_t]
_ANSWER: List[Any] = [ctypes.POINTER(Answer)]


def _declare(library: ctypes.CDLL) -> None:
    library.udsnorm_normalise.argtypes = [*_SETTINGS, *_LOG, *_OUT, *_ANSWER]
    library.udsnorm_list.argtypes = [*_SETTINGS, *_STYLE, *_LOG, *_OUT, *_ANSWER]
    library.udsnorm_messages.argtypes = [*_SETTINGS, *_STYLE, *_LOG, *_OUT, *_ANSWER]
    library.udsnorm_explain.argtypes = [*_SETTINGS, *_STYLE, *_LOG, *_OUT, *_ANSWER]
    library.udsnorm_find.argtypes = [ctypes.c_uint64, *_STYLE, *_LOG, *_OUT, *_ANSWER]
    library.udsnorm_compare.argtypes = [*_SETTINGS, *_LOG, *_LOG, *_OUT, *_ANSWER]
    library.udsnorm_diff.argtypes = [*_SETTINGS, *_STYLE, *_LOG, *_LOG, *_LOG, *_LOG, *_OUT, *_ANSWER]
    library.udsnorm_report.argtypes = [*_SETTINGS, *_LOG, *_LOG, *_OUT, *_ANSWER]
    library.udsnorm_report_pair.argtypes = [*_SETTINGS, *_LOG, *_LOG, *_LOG, *_LOG, *_OUT, *_ANSWER]
    library.udsnorm_status_text.argtypes = [ctypes.c_uint32]
    library.udsnorm_status_text.restype = _Words


# How many bytes of room a page is given at first: what is fixed in it, and for each byte of its logs.
_OF_A_PAGE, _OF_ITS_LOGS = 1 << 16, 32


def text(name: str, settings: Settings, log: bytes, *style: int) -> Tuple[Answer, bytes]:
    """The answer of the call of this name, and its text: none where the answer says why there is none.

    The interpreter's lock is given up during the call, as during the others."""
    asked = (settings.limit,) if name == "find" else settings.given()
    return _put(getattr(loaded(), f"udsnorm_{name}"), settings, (*asked, *style, log, len(log)), 4 * len(log) + 512)


def diff(settings: Settings, style: int, names: Tuple[bytes, bytes], left: bytes, right: bytes) -> Tuple[Answer, bytes]:
    """The same of where two logs with these names differ."""
    given = (names[0], left, names[1], right)
    logs = [part for data in given for part in (data, len(data))]
    growth = 16 if style == JSON else 4
    return _put(loaded().udsnorm_diff, settings, (*settings.given(), style, *logs), growth * sum(map(len, given)) + 512)


def page(settings: Settings, name: bytes, log: bytes) -> Tuple[Answer, bytes]:
    """The same of the page of a log with this name."""
    given = (*settings.given(), name, len(name), log, len(log))
    return _put(loaded().udsnorm_report, settings, given, _OF_A_PAGE + _OF_ITS_LOGS * len(log))


def pair_page(settings: Settings, names: Tuple[bytes, bytes], left: bytes, right: bytes) -> Tuple[Answer, bytes]:
    """The same of the page of two logs with these names."""
    logs = [part for data in (names[0], left, names[1], right) for part in (data, len(data))]
    room = _OF_A_PAGE + _OF_ITS_LOGS * (len(left) + len(right))
    return _put(loaded().udsnorm_report_pair, settings, (*settings.given(), *logs), room)


# How many bytes of room are enough for what is wrong in a profile.
_OF_A_PROFILE = 1 << 12


def _put(call: Any, settings: Settings, given: Iterable[Any], room: int) -> Tuple[Answer, bytes]:
    """The answer of a call to these arguments, and its text: there is so much room for it at first, if there is, and then
    as much as it wants. What is wrong in a profile is raised."""
    answer = Answer()
    room, is_known = max(room, _OF_A_PROFILE), False
    while True:
        out = _process.malloc(room)
        if not out and is_known:
            raise MemoryError
        try:
            # Without room it is asked how much is wanted.
            call(*given, out, room if out else 0, ctypes.byref(answer))
            if answer.status != ROOM and (answer.status != PROFILE or out):
                text = _bytes_at(out, answer.length) if answer.length else b""
                if answer.status == PROFILE:
                    raise ValueError(": ".join(filter(None, (settings.file, text.decode("ascii")))))
                return answer, text
        finally:
            _process.free(out)
        room, is_known = answer.length, True


def compare(settings: Settings, left: bytes, right: bytes) -> Answer:
    """What two logs are to each other."""
    given = (*settings.given(), left, len(left), right, len(right))
    return _put(loaded().udsnorm_compare, settings, given, _OF_A_PROFILE)[0]


def status_text(status: int) -> str:
    """What a status means, in a few words."""
    words: _Words = loaded().udsnorm_status_text(status)
    return words.text.decode("ascii")


def _bytes_at(address: int, size: int) -> bytes:
    """A copy of so many bytes there. Of these, string_at takes no more than a C int counts."""
    return ctypes.string_at(address, size) if size < 1 << 31 else (ctypes.c_char * size).from_address(address).raw
