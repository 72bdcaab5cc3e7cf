"""Dropped frames and ended receptions, and the counts."""

from functools import partial

import oracle

OUTCOMES = {
    "explain": oracle.explained,
    "explain --json": partial(oracle.explained, write=oracle.in_objects),
}
