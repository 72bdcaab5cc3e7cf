"""The same lines while the log comes."""

from functools import partial

import oracle

OUTCOMES = {
    "watch": oracle.watched,
    "watch --json": partial(oracle.watched, write=oracle.list_objects),
}
