"""Assertions over recorded sessions, for pytest, unittest and Robot Framework (`Library  udsnorm.testing`)."""

from __future__ import annotations

import os
from typing import Callable, Iterator, Optional, Union

from . import LIMIT, TESTER, UNIT, Identifier, Log, Profile
from . import _compared, _diff_text, _formats, _library, _pair_page, _settings

__all__ = ["assert_same_session"]

# So many lines of a difference are told.
_TOLD = 1000


def assert_same_session(
    left: Log,
    right: Log,
    *,
    tester: Identifier = TESTER,
    unit: Identifier = UNIT,
    limit: int = LIMIT,
    profile: Optional[Profile] = None,
    only: Optional[str] = None,
    page: "Union[None, str, bytes, os.PathLike[str]]" = None,
    clean: bool = False,
) -> None:
    """Two logs have the same meaning, and where `clean` is asked for, both are clean, as the program asks with `--strict`:
    nothing of them is known to be lost. Else an AssertionError tells what `udsnorm diff` writes, its first 1,000 lines, and
    which log is not clean. Where `page` is a path, the page of both is written there; if it can't be, the error tells that, too.

    Settings and other errors are those of `udsnorm.normalise`."""
    __tracebackhide__ = True
    settings = _settings(tester, unit, limit, profile, only)
    answer, one, other = _compared(left, right, settings)
    is_unclean = clean and not answer.clean
    if answer.item == 0 and not is_unclean:
        return
    if answer.item:
        text = _diff_text(left, right, one, other, None, settings, _library.TEXT)
        told = [f"the sessions differ at item {answer.item}", *_first_lines(text.decode("ascii"))]
    else:
        told = ["the sessions are the same, but not clean"]
    if is_unclean:
        told += [f"{side}: {line}" for side, log in (("left", one), ("right", other)) for line in _unclean(log, settings)]
    if page is not None:
        told.append(_write_page(os.fsdecode(page), lambda: _pair_page(left, right, one, other, None, settings)))
    raise AssertionError("\n".join(told))


def _unclean(log: bytes, settings: _library.Settings) -> Iterator[str]:
    """A line where a log is not clean: what was lost of its frames, and what it lacks."""
    answer, _ = _library.text("explain", settings, log, _library.TEXT)
    if answer.clean:
        return
    line = "not clean: " + " ".join(f"{name} {getattr(answer, name)}" for name in ("frames", "dropped", "ended", "unfinished"))
    has_end = not log or log.endswith(b"\n")
    if answer.frames == 0:
        line += ", no frame of the tester, no frame of the unit"
    elif has_end and answer.dropped == answer.ended == answer.unfinished == 0:
        line += ", no frame of one side"
    yield line if has_end else f"{line}, no line feed at the end"


def _first_lines(text: str) -> Iterator[str]:
    """The lines of a text, and of a long one how many more there are."""
    lines = text.splitlines()
    yield from lines[:_TOLD]
    if len(lines) > _TOLD:
        yield f"and {len(lines) - _TOLD} more lines"


def _write_page(page: str, made: Callable[[], bytes]) -> str:
    """Writes the page of both logs, and says where, or why there is none: no fault of a page hides the difference."""
    try:
        with open(page, "wb") as out:
            out.write(made())
    except (OSError, ValueError) as error:
        return f"no page: {_formats.shown(page)}: {getattr(error, 'strerror', None) or error}"
    except MemoryError:
        return f"no page: {_formats.shown(page)}: out of memory"
    return f"both logs on a page: {_formats.shown(page)}"
