"""The units of a log, with their testers."""

from functools import partial

import oracle

OUTCOMES = {
    "find": oracle.found,
    "find --json": partial(oracle.found, write=oracle.pairs_objects),
    "find --toml": partial(oracle.found, write=oracle.pairs_profile),
}
