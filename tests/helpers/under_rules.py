"""What each command comes to under the rules of a profile, by the second readings."""

import argparse
from functools import partial

import difference_oracle
import oracle
import profiles
from oracle import DONE, GIBIBYTE, SIDES, TESTER, UNCLEAN, UNIT, Outcome

# The names of two files where nothing else is said.
NAMES = (b"left.log", b"right.log")


def explained(rules, log, limit=GIBIBYTE, sides=SIDES):
    """What explains a log knows no rules."""
    del rules, sides
    return oracle.explained(log, limit)


def differed(rules, left, right, limit=GIBIBYTE, sides=SIDES, is_strict=False, write=difference_oracle.difference_text, names=NAMES):
    """What `diff` comes to over two logs in files of these names: as `compare`, but for what is written."""
    both = [oracle.trace(oracle.cut(log), sides) for log in (left, right)]
    spoken = [*zip(rules, *(profiles.spoken(rules, frames) for frames in both))]
    did = difference_oracle.Ruled(spoken, [profiles.left_out(rules, frames) for frames in both] if rules else ())

    def written(place, ours, theirs):
        del place
        return write(ours, theirs, names, did)

    return profiles.compared(rules, left, right, limit, sides, is_strict, written)


# What each command with these words comes to under rules.
JOBS = {
    ("normalise",): profiles.outcome,
    ("list",): profiles.listed,
    ("list", "--no-numbers"): partial(profiles.listed, write=partial(oracle.list_text, has_numbers=False)),
    ("list", "--json"): partial(profiles.listed, write=oracle.list_objects),
    ("watch",): profiles.watched,
    ("watch", "--json"): partial(profiles.watched, write=oracle.list_objects),
    ("messages",): profiles.placed,
    ("messages", "--json"): partial(profiles.placed, write=oracle.in_objects),
    ("explain",): explained,
}
COMPARISONS = {
    ("compare",): profiles.compared,
    ("compare", "--show"): partial(profiles.compared, write=partial(oracle.comparison_text, shows_items=True)),
    ("compare", "--json", "--show"): partial(profiles.compared, write=partial(oracle.comparison_object, shows_items=True)),
    ("diff",): differed,
    ("diff", "--json"): partial(differed, write=difference_oracle.difference_objects),
}


def asked(words, profile, logs, names=NAMES):
    """What a command with these words comes to over one log or two, with a profile. `names` are those of two."""
    given = argparse.ArgumentParser()
    given.add_argument("job")
    given.add_argument("--limit", type=int, default=GIBIBYTE)
    given.add_argument("--only")
    given.add_argument("--tester", default=SIDES[TESTER])
    given.add_argument("--unit", default=SIDES[UNIT])
    for option in ("json", "show", "no-numbers", "strict"):
        given.add_argument(f"--{option}", action="store_true")
    found = given.parse_args(words)
    unit = next((unit for unit in profile.units if found.only in (None, unit.name)), found)
    sides = {TESTER: unit.tester, UNIT: unit.unit}
    job = tuple([found.job, *(f"--{option}" for option in ("json", "no-numbers", "show") if getattr(found, option.replace("-", "_")))])
    if len(logs) == 2:
        named = {"names": names} if found.job == "diff" else {}
        return COMPARISONS[job](profile.rules, *logs, found.limit, sides, is_strict=found.strict, **named)
    came = JOBS[job](profile.rules, *logs, found.limit, sides)
    told = oracle.unclean(*logs, sides) if found.strict and came.status == DONE else None
    return Outcome(UNCLEAN, told, came.written) if told else came
