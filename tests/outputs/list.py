"""The items of the meaning, a line each."""

from functools import partial

import oracle

HOLDS_MEANING = True

OUTCOMES = {
    "list": oracle.listed,
    "list --no-numbers": partial(oracle.listed, write=partial(oracle.list_text, has_numbers=False)),
    "list --json": partial(oracle.listed, write=oracle.list_objects),
    "list --json --no-numbers": partial(oracle.listed, write=partial(oracle.list_objects, has_numbers=False)),
}
