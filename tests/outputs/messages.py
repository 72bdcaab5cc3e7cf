"""The messages with their places."""

from functools import partial

import oracle

OUTCOMES = {
    "messages": oracle.placed,
    "messages --json": partial(oracle.placed, write=oracle.in_objects),
}
