"""The text of a profile, as `profile=` takes it. The library reads it: nothing is judged here."""

from __future__ import annotations

import json
import os
from typing import Any, Dict, Optional, Tuple, Union

#: The path of a file of TOML, its bytes, or its keys.
Profile = Union[str, "os.PathLike[str]", bytes, Dict[str, Any]]

# One byte more than a profile can have, which shows that it has too many.
_MOST = (1 << 16) + 1


def read_profile(profile: Optional[Profile]) -> Tuple[bytes, Optional[str]]:
    """The text of a profile, no bytes where there is none, and the path of its file, if it has one."""
    if profile is None:
        return b"", None
    if isinstance(profile, bytes):
        return profile, None
    if isinstance(profile, dict):
        lines = (f"{_string(key)} = {_value(value)}\n" for key, value in profile.items())
        return "".join(lines).encode("utf-8", "surrogatepass"), None
    path = os.fspath(profile)
    with open(path, "rb") as file:
        return file.read(_MOST), os.fsdecode(path)


def _value(value: Any) -> str:
    """A value of a profile in TOML."""
    if isinstance(value, str):
        return _string(value)
    if isinstance(value, dict):
        return "{" + ", ".join(f"{_string(key)} = {_value(each)}" for key, each in value.items()) + "}"
    if isinstance(value, (list, tuple)):
        return "[" + ", ".join(map(_value, value)) + "]"
    if isinstance(value, (bool, int)):
        return str(value).lower()
    raise TypeError(f"a profile has no {type(value).__name__}")


def _string(text: str) -> str:
    """A string in TOML: that of JSON, but that DEL is escaped, too."""
    return json.dumps(text, ensure_ascii=False).replace("\x7f", "\\u007F")
