"""The page of a log: what it comes to is equal to each page that tells the facts of the log."""

import report_facts

OUTCOMES = {"report": report_facts.reported}
