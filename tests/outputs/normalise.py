"""The canonical log."""

import oracle

OUTCOMES = {"normalise": oracle.outcome}
