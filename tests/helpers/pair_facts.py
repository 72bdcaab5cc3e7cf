"""A second reading of what the page of two logs tells: its rows, changes, folds and verdict, from the items of both logs."""

import datetime
import re
from collections import namedtuple

import difference_oracle
import oracle
import profiles
import report_facts
import report_reader
import standard_names
from difference_oracle import ADDED, CHANGED, REMOVED, SAME

# How the program ends over two logs and what it tells then; the items of both, where both can be read, and else the letter of the one that
# can't; and of both whether it is clean, and whether its sides look exchanged; the charts of both, where they differ; what is found of each
# recording; what is missing of each log, by items; whether something is in front of its first item; how long the items of each that waited
# for their answer did, by their places; and each rule, with of how many messages of each log it spoke.
Came = namedtuple("Came", "status fault items refused clean exchanged charts recordings losses fronts waited rules", defaults=(None, None, None, None, ()))

# A recording: its state up to the counts, how many items it has, when its first frame was, and how long it is.
Recording = namedtuple("Recording", "state items first length")

# A row: what becomes of the items, and their places in both lists, counted from 0.
Row = namedtuple("Row", "kind left right")

# A change: what kind its rows are of, the first of them, and how many they are.
Change = namedtuple("Change", "kind first count")

# A chart: what each of its rows is told as, how many rows it leaves out, how many items of the difference, and whether it says that the log ends.
Chart = namedtuple("Chart", "rows more items is_end")

# A row of a chart: how it looks, its item, its lines, its time, whether the item that it is of is not the same in both logs, and the lines
# of its bytes, where some of them have marks, with how many are told of each fold.
ChartRow = namedtuple("ChartRow", "look item lines time is_other bytes")

# 100,000,000 seconds after the beginning of 1970.
DATED_FROM = datetime.datetime(1973, 3, 3, 9, 46, 40)

# So many losses of an item are told, and of more rows than so many a page says how many it has.
TOLD_LOSSES, LARGE_PAGE = 20, 100_000

# An answer took much longer than another where it took more than so many times as long, and at least so many microseconds longer.
MANY_TIMES, MUCH_LONGER = 2, 50_000

# So many rows before a change and behind it are shown.
CONTEXT = 3

# A chart has so many rows at most, and so many of them before the one with which its item begins.
MOST_ROWS, MOST_BEFORE = 40, 8

# Of more columns than so many a page shows the first line, and so many that differ; and none beyond so many.
ALL_COLUMNS, OTHER_LINES, MOST_COLUMNS, WIDTH = 64, 8, 4095, 16


def came_of(left, right, limit=oracle.GIBIBYTE, sides=oracle.SIDES, is_strict=False, rules=()):
    """How the program ends over two logs under rules, of which each is refused as `explain` refuses it, the left one first. Where they have
    to be clean, it is told which are not."""
    for letter, side, log in (("A", "left", left), ("B", "right", right)):
        refused = oracle.refusal(log, limit, is_long_refused=False)
        if refused:
            uncounted = [report_reader.Rule(profiles.told_rule(rule), ()) for rule in rules]
            return Came(oracle.REFUSED, f"{side}: {refused.fault}", None, letter, None, None, None, rules=uncounted)
    frames = [oracle.trace(oracle.cut(log), sides) for log in (left, right)]
    sessions = [profiles.under(rules, oracle.messages(trace)) for trace in frames]
    items = [oracle.meaning(session) for session in sessions]
    unclean = [oracle.unclean(log, sides) for log in (left, right)]
    told = [f"{side}: {fault}" for side, fault in zip(("left", "right"), unclean) if is_strict and fault]
    status = oracle.UNCLEAN if told else oracle.DONE if items[0] == items[1] else oracle.DIFFERENT
    exchanged = [oracle.look_exchanged(session) for session in sessions]
    rows = [all_rows(trace, rules) for trace in frames]
    charts = None if items[0] == items[1] else charts_of(frames, rows, items)
    recordings = [recording_of(*log) for log in zip(frames, items, unclean, exchanged)]
    losses, fronts = [losses_of(log) for log in rows], [begins_with_loss(log) for log in rows]
    told_rules = [report_reader.Rule(profiles.told_rule(rule), tuple(map(str, spoken))) for rule, *spoken in zip(rules, *(profiles.spoken(rules, trace) for trace in frames))]
    clean = [not fault for fault in unclean]
    waited = [waited_in(log) for log in rows]
    return Came(status, "\n".join(told) or None, items, None, clean, exchanged, charts, recordings, losses, fronts, waited, told_rules)


def recording_of(frames, items, unclean, exchanged):
    """What is found of a log with these frames and items."""
    counts = f"{unclean.removeprefix('not clean: ')}." if unclean else ""
    states = {(False, False): "clean", (False, True): "tester and unit look exchanged: ", (True, False): "not clean: "}
    state = states.get((bool(unclean), exchanged), "not clean, and tester and unit look exchanged: ") + counts
    if not frames:
        return Recording(state, len(items), "\u2013", "\u2013")
    first, last = frames[0].micros, frames[-1].micros
    return Recording(state, len(items), moment(first), f"{report_facts.seconds(first, last)} s")


def moment(micros):
    """A stamp, with its date in UTC where it is of March 1973 or later, and of a year with four digits."""
    date = DATED_FROM + datetime.timedelta(seconds=micros // 1_000_000 - 100_000_000) if micros // 1_000_000 < 253_402_300_800 else None
    if micros < 100_000_000_000_000 or not date:
        return oracle.stamp(micros)
    return f"{date:%Y-%m-%d %H:%M:%S} UTC ({oracle.stamp(micros)})"


def rows_of(ours, theirs):
    """The rows that set two lists of items side by side."""
    rows, i, j = [], 0, 0
    for kind in difference_oracle.rows_of(ours, theirs):
        rows.append(Row(kind, None if kind == ADDED else i, None if kind == REMOVED else j))
        i += kind != ADDED
        j += kind != REMOVED
    return rows


def changes_of(rows):
    """What a reader counts as one difference: a changed row, or a longest run of rows of one session alone."""
    changes, front = [], SAME
    for place, row in enumerate(rows):
        if row.kind == CHANGED or row.kind in (REMOVED, ADDED) and row.kind != front:
            changes.append(Change(row.kind, place, 1))
        elif row.kind != SAME:
            changes[-1] = changes[-1]._replace(count=changes[-1].count + 1)
        front = row.kind
    return changes


def charts_of(frames, told, items):
    """The charts of two logs with these frames and rows around their first difference."""
    rows = rows_of(*items)
    first = changes_of(rows)[0]
    lacking = {ADDED: 0, REMOVED: 1}.get(first.kind)
    counts = [0 if side == lacking else first.count for side in (0, 1)]
    return [chart_of(trace, told[side], first.first, counts[side], beside(rows, items, side)) for side, trace in enumerate(frames)]


def beside(rows, items, side):
    """Of each item of a log that is not the same in the other, by its number, that and the item that it changed to, if it changed to one; and
    which of both logs it is."""
    places = {row[1 + side] + 1: row for row in rows if row.kind != SAME and row[1 + side] is not None}
    pairs = {number: (items[0][row.left], items[1][row.right]) if row.kind == CHANGED else None for number, row in places.items()}
    return pairs, side


def chart_of(frames, rows, item, count, others):
    """The chart of a log around the item of this place, counted from 0, of so many that the difference has from that on. It goes from the row
    with which the item before begins, or from the request in whose exchange that row stands, to before the first request at or behind the
    row with which the second item behind begins. With the first item it has what is lost in front of it."""
    begun = [place for place, row in enumerate(rows) if isinstance(row, report_facts.Message) and row.asked is None]
    begun += 3 * [len(rows)]
    requests = [place for place in begun[:-3] if rows[place].kind == report_facts.REQUEST]
    begin = max((place for place in requests if item > 1 and place <= begun[item - 1]), default=0)
    begin = max(begin, begun[item] - MOST_BEFORE)
    end = min((place for place in requests if place >= begun[item + 2]), default=len(rows))
    last = min(end, begin + MOST_ROWS)
    numbers = numbers_of(rows)
    told = [chart_row(frames[0].micros, rows[place], numbers[place], others) for place in range(begin, last)]
    left = sum(place >= end for place in begun[item : item + count])
    return Chart(told, end - last, left, last == len(rows))


def all_rows(frames, rules):
    """The rows of a log under rules, with those at its end."""
    rows = [*report_facts.rows_of(frames, rules), *report_facts.end_rows(frames, rules)] if frames else []
    return list(map(without_echo, rows))


def without_echo(row):
    """A row as the page of two logs has it, which tells of no answer that it is other than was asked."""
    return row._replace(kind="positive") if isinstance(row, report_facts.Message) and row.kind == report_facts.OTHER else row


def numbers_of(rows):
    """The number of the item that each row is of. What is missing of the log is of the item that began last before it, or of the first."""
    numbers, last = [], 1
    for row in rows:
        own = row.item if isinstance(row, (report_facts.Message, report_facts.NoAnswer)) else last
        last = own if isinstance(row, report_facts.Message) and row.asked is None else last
        numbers.append(own)
    return numbers


def chart_row(origin, row, number, others):
    told, (pairs, side) = report_facts.row_told(origin, row), others
    marked = marked_lines(row, pairs.get(number), side)
    return ChartRow(report_reader.KINDS[told.kind].look, told.item, told.lines, told.time, number in pairs, marked)


def marked_lines(row, pair, side):
    """The lines of the bytes of a row, if it tells a message of an item that changed and not the same one as in the other log."""
    if pair is None or not isinstance(row, report_facts.Message):
        return []
    if row.asked is None:
        messages = [item.message if isinstance(item, oracle.Stray) else item.request for item in pair]
    elif row.kind in report_facts.REPLIES and all(item.answer for item in pair) and outcome_of(pair[0]) == outcome_of(pair[1]):
        messages = [item.answer for item in pair]
    else:
        return []
    stand_beside = messages[0] != messages[1] and not are_masked(*messages)
    return [(lines_of(*messages, only=side), counts_of(*messages, only=side))] if stand_beside else []


def are_masked(one, other):
    """Whether a mask speaks of one of two messages. Their bytes don't stand under each other."""
    return any(isinstance(message, profiles.Masked) for message in (one, other))


def shown_of(rows):
    """Which rows stand unfolded: those with a change at most three rows away."""
    changes = [place for place, row in enumerate(rows) if row.kind != SAME]
    return [any(abs(place - change) <= CONTEXT for change in changes) for place in range(len(rows))]


def folds_of(rows):
    """Each longest run of rows that are folded: how many, and the first and last numbers in both logs."""
    folds, shown = [], shown_of(rows)
    for place, row in enumerate(rows):
        if shown[place]:
            continue
        left, right = row.left + 1, row.right + 1
        if place and not shown[place - 1]:
            count, (first, _), (start, _) = folds[-1]
            folds[-1] = (count + 1, (first, left), (start, right))
        else:
            folds.append((1, (left, left), (right, right)))
    return folds


def items_words(count):
    return "1 item" if count == 1 else f"{count} items"


def heading_of(rows):
    """How many differences there are, and how many items of each kind."""
    count = {kind: sum(row.kind == kind for row in rows) for kind in (REMOVED, ADDED, CHANGED)}
    words = []
    for kind, what in ((REMOVED, "only in A"), (ADDED, "only in B"), (CHANGED, "changed")):
        if count[kind]:
            words.append(f"{count[kind] if words else items_words(count[kind])} {what}")
    differences = len(changes_of(rows))
    return f"{differences} difference{'' if differences == 1 else 's'}: {', '.join(words)}"


def columns_of(one, other):
    """Two messages byte under byte: a pair for each column, with None in a gap."""
    head = difference_oracle.shared(one, other)
    tail = difference_oracle.shared(one[head:][::-1], other[head:][::-1])
    middles = [list(message[head : len(message) - tail]) for message in (one, other)]
    for middle in middles:
        middle += [None] * (max(map(len, middles)) - len(middle))
    same = [[(byte, byte) for byte in part] for part in (one[:head], one[len(one) - tail :])]
    return same[0] + list(zip(*middles)) + same[1]


def cells_of(columns, side):
    """What a log has in each column, as it is spelled, and whether the column differs."""
    return [("--" if pair[side] is None else f"{pair[side]:02X}", pair[0] != pair[1]) for pair in columns]


def letters_of(columns, side):
    """The letters for what a log has in each column, with a blank in a gap."""
    return "".join(" " if pair[side] is None else re.sub(rb"[^ %s]" % report_facts.MARK, b".", bytes([pair[side]])).decode() for pair in columns)


def lines_of(one, other, only=None):
    """The lines of both messages, or of one of them alone: whose each is, the number of its first byte, or both numbers, where it stands once
    for both and they are not the same, its cells, its letters, where one of both may be text, and whether it is folded."""
    columns = columns_of(one, other)
    is_text = any(re.search(rb"[%s]{4}" % report_facts.MARK, message) for message in (one, other))
    lines = []
    for start, line, differs, is_shown in cut(columns):
        first = [1 + sum(pair[side] is not None for pair in columns[:start]) for side in (0, 1)]
        for side in (0, 1) if differs and only is None else (only or 0,):
            whose = None if only is not None else "AB"[side] if differs else "="
            cells = cells_of(line, side)
            is_empty = all(cell == "--" for cell, _ in cells)
            numbers = tuple(sorted(set(first), key=first.index)) if whose == "=" else (first[side],)
            told = () if is_empty or len(columns) <= WIDTH else numbers
            letters = letters_of(line, side) if is_text and not is_empty else None
            lines.append((whose, told, None if is_empty else cells, letters, not is_shown))
    return lines


def cut(columns):
    """The lines of columns: where each begins, its columns, whether one of them differs, and whether it is shown where no fold is opened."""
    other_lines = 0
    for start in range(0, min(len(columns), MOST_COLUMNS), WIDTH):
        line = columns[start : min(start + WIDTH, MOST_COLUMNS)]
        differs = any(left != right for left, right in line)
        yield start, line, differs, len(columns) <= ALL_COLUMNS or start == 0 or (differs and other_lines < OTHER_LINES)
        other_lines += differs


def counts_of(one, other, only=None):
    """Of each longest run of lines that are folded, and of what stands behind all lines, how many bytes there are, and how many of them
    differ: columns, where both messages are told, and else the bytes of one of them; then also how many the other one has alone, with its
    letter, if there are some. Nothing is said of none behind all lines."""
    columns = columns_of(one, other)
    runs = [[]]
    for _, line, _, is_shown in cut(columns):
        runs = [*runs, []] if is_shown else [*runs[:-1], runs[-1] + line]
    runs = [*filter(None, runs), columns[MOST_COLUMNS:]]
    counted = [[pair for pair in run if only is None or pair[only] is not None] for run in runs]
    alone = [(len(run) - len(own), "BA"[only]) if len(own) < len(run) else None for run, own in zip(runs, counted)]
    counts = [(len(own), sum(left != right for left, right in own), others) for own, others in zip(counted, alone)]
    return counts if runs[-1] else counts[:-1]


# --- What is missing ----------------------------------------------------------------------------------------------------


def losses_of(rows):
    """What is missing of a log with these rows, by the places of its items: each loss belongs to the item that began last before it, or to
    the first."""
    begun = [place for place, row in enumerate(rows) if isinstance(row, report_facts.Message) and row.asked is None]
    losses = {}
    for place, row in enumerate(rows):
        if is_loss(row):
            losses.setdefault(max(sum(begin < place for begin in begun) - 1, 0), []).append(loss_words(row))
    return losses


def is_loss(row):
    return not isinstance(row, (report_facts.Message, report_facts.NoAnswer))


def begins_with_loss(rows):
    """Whether something is missing in front of the first item of a log: of the messages the first one always begins an item."""
    return any(map(is_loss, rows[:1]))


def loss_words(row):
    """How a loss is told, up to why in other words."""
    match row:
        case report_facts.Dropped():
            return f"line {row.entry.line}: dropped {row.entry.direction} frame: {row.reason}"
        case report_facts.Ended():
            return f"line {row.entry.line}: ended {partial_words(row)} {row.cause}"
    return f"unfinished {partial_words(row)} the log ends before its last frame"


def partial_words(row):
    return f"{row.side} message from line {row.begun.line}, {row.begun.layout.announced} bytes announced:"


def losses_told(log, losses):
    """What is told of the losses of an item: the first ones, and how many more there are."""
    more = len(losses) - TOLD_LOSSES
    return [f"{log} {words}" for words in losses[:TOLD_LOSSES]] + ([f"and {more} more in {log}"] if more > 0 else [])


def is_lossy(losses, begins_lossy, has_item, before, count):
    """Whether something is missing of the items that a log has in a change, or where it has none, of the last one before it; in front of
    the first one, before that."""
    if not has_item and before == 0:
        return begins_lossy
    places = range(before, before + count) if has_item else [before - 1]
    return any(losses.get(place) for place in places)


def lossy_at(came, rows, changes):
    """Of each log at which changes it is not clean."""
    at = [[], []]
    for change in changes:
        for side, kind in ((0, ADDED), (1, REMOVED)):
            before = sum(row[1 + side] is not None for row in rows[: change.first])
            at[side].append(is_lossy(came.losses[side], came.fronts[side], change.kind != kind, before, change.count))
    return at


def unclean_notes(came, rows, changes):
    """What is said behind each change of a log that is not clean there."""
    words = {(True, True): "neither is clean here", (True, False): "A is not clean here", (False, True): "B is not clean here"}
    return [words.get(both) for both in zip(*lossy_at(came, rows, changes))]


def lossy_note(came, rows, changes):
    """What is said of the changes at which a log is not clean, if there are some."""
    at = lossy_at(came, rows, changes)
    lossy, everywhere = sum(map(any, zip(*at))), len(changes)
    if not lossy:
        return []
    each = "At this difference" if everywhere == 1 else "At each of these differences"
    place = each if lossy == everywhere else f"At {lossy} of these {everywhere} differences"
    who = {(True, True): "A or B is", (True, False): "A is", (False, True): "B is"}[tuple(map(any, at))]
    told = "frames are missing, late, out of order or of no legal form there. The recording may differ, and not the session."
    return [f"{place} {who} not clean: {told}"]


# --- Answers that took much longer --------------------------------------------------------------------------------------


def waited_in(rows):
    """How many microseconds the items of a log with these rows waited for their answers, by their places. One whose answer began before its
    request ended did not."""
    answers = [row for row in rows if isinstance(row, report_facts.Message) and row.kind in report_facts.REPLIES]
    return {row.item - 1: row.first.micros - row.asked for row in answers if row.first.micros >= row.asked}


def longer_rows(came, rows):
    """Of each log the rows in which its answer took much longer than that of the other one, with how long it took and how long that did."""
    longer = ([], [])
    for row in rows:
        times = [waited.get(place) for waited, place in zip(came.waited, (row.left, row.right))]
        for side in (0, 1):
            own, other = times[side], times[1 - side]
            if None not in times and own > MANY_TIMES * other and own >= other + MUCH_LONGER:
                longer[side].append((row, own, other))
    return longer


def longer_notes(came, rows):
    """What is said of the answers that took much longer in a log, if some did: of the first of the slowest ones where it stands, what was asked
    in A, and both times."""
    notes = []
    for side, longer in enumerate(longer_rows(came, rows)):
        if longer:
            row, own, other = slowest_row(longer)
            times = [f"{report_facts.milliseconds(0, micros)} in {log}" for log, micros in zip("AB", (own, other) if side == 0 else (other, own))]
            counted = "1 answer" if len(longer) == 1 else f"{len(longer)} answers"
            front = f"{counted} took more than twice as long in {'AB'[side]} as in {'BA'[side]}, and at least 50 ms longer"
            place = f"A {row.left + 1}, B {row.right + 1} {title_of(came.items[0][row.left])}"
            notes.append(f"{front}{':' if len(longer) == 1 else '. The slowest:'} {place}, {', '.join(times)}.".replace("&#160;", " "))
    return notes


def slowest_row(longer):
    slowest = max(own for _, own, _ in longer)
    return next(found for found in longer if found[1] == slowest)


def longer_names(came, rows):
    """The names of the rows in which an answer took much longer, and those to which the verdict links."""
    longer = longer_rows(came, rows)
    names = [f"t{row.left + 1}" for row in rows if any(row == found[0] for side in longer for found in side)]
    return names, [f"t{slowest_row(side)[0].left + 1}" for side in longer if side]


def notes_of(came, rows, changes):
    """What is said below the heading and its sentence."""
    notes = []
    if changes:
        notes = lossy_note(came, rows, changes)
        count = sum(map(len, came.items))
        bound = difference_oracle.bound_for(count)
        is_shortest = count <= bound or difference_oracle.is_shortest(*came.items)
        notes += [] if is_shortest else [f"Perhaps not the shortest: more than {bound} items would be removed or added."]
    if len(rows) > LARGE_PAGE:
        notes.append(f"This page has {len(rows)} rows. udsnorm diff has the differences alone, and udsnorm list any part of a session.")
    return notes + longer_notes(came, rows)


def look_of(came):
    """The look of a verdict: green where both sessions are the same without a doubt, and that has something to say; under rules another
    one, and never green."""
    ours, theirs = came.items
    asked = any(isinstance(item, oracle.Exchange) for item in ours)
    is_beyond_doubt = ours == theirs and asked and all(came.clean) and not any(came.exchanged)
    return ("ruled" if came.rules else "good") if is_beyond_doubt else "warn"


def same_heading_of(came):
    """The heading of two sessions that are the same."""
    ours, _ = came.items
    if not ours:
        return "Neither session has an item"
    clean = tuple(came.clean)
    who = {(False, False): "neither is clean", (False, True): "A is not clean", (True, False): "B is not clean"}.get(clean)
    heading = "The two sessions are the same" + under_words(came.rules) + (f" as far as they are recorded: {who}" if who else "")
    if any(came.exchanged):
        return f"{heading}, but tester and unit look exchanged"
    asked = any(isinstance(item, oracle.Exchange) for item in ours)
    return heading if asked else f"{heading}, and neither has a request"


def under_words(rules):
    return f" under {len(rules)} rule{'' if len(rules) == 1 else 's'}" if rules else ""


def same_line_of(came):
    """The sentence below the heading of two sessions that are the same, if they have an item."""
    count = len(came.items[0])
    words = "One item is equal in both, byte for byte." if count == 1 else f"Each of the {count} items is equal in both, byte for byte."
    return f"Of what the rules leave, {words[0].lower()}{words[1:]}" if came.rules else words


# --- In words -----------------------------------------------------------------------------------------------------------


def what_of(change, rows, ours, theirs):
    """What a change is, in words: two items and how they differ, or those that stand alone."""
    row = rows[change.first]
    if change.kind == CHANGED:
        one, other = ours[row.left], theirs[row.right]
        return f"{title_of(one)}: {differing(one, other)}"
    items, place = (ours, row.left) if change.kind == REMOVED else (theirs, row.right)
    if change.count == 1:
        return title_of(items[place]) + outcome_behind(items[place])
    return f"{change.count} items, from {title_of(items[place])} to {title_of(items[place + change.count - 1])}"


def title_of(item):
    """What an item is, and how it begins."""
    if isinstance(item, oracle.Stray):
        is_keep_alive = item.direction == oracle.TESTER and item.message == b"\x3E\x80"
        return ("keep-alive " if is_keep_alive else f"stray from the {item.direction} ") + front_of(item.message)
    service = item.request[0]
    return f"{oracle.SERVICES.get(service, f'service_{service:02X}')} {front_of(item.request)}"


def front_of(message):
    more = len(message) - 8
    told = f" and {profiles.at_least(message)}{more} byte{'' if more == 1 else 's'} more" if more > 0 else ""
    return report_facts.spelled(message[:8]) + told


def outcome_behind(item):
    return f": {outcome_of(item)}" if isinstance(item, oracle.Exchange) else ""


def outcome_of(item):
    """What came of a request."""
    told = oracle.answer_text(item).split()[0]
    if told == "negative":
        return f"refused with {standard_names.code_told(item.answer[2])}"
    return {"positive": "positive", "silent": "silent, as the request asks", "unanswered": "without an answer"}[told]


def differing(one, other):
    """How two items of one service differ."""
    if isinstance(one, oracle.Stray):
        return "message" + bytes_differing(one.message, other.message)
    words = [] if one.request == other.request else ["request" + bytes_differing(one.request, other.request)]
    if outcome_of(one) != outcome_of(other):
        words.append(outcomes_differing(outcome_of(one), outcome_of(other)))
    elif one.answer != other.answer and one.answer and other.answer:
        words.append("answer" + bytes_differing(one.answer, other.answer))
    return "; ".join(words)


def outcomes_differing(one, other):
    """Two outcomes that are not the same, each with its log: what both are, refusals, is said once, and why a log is silent behind its name."""
    both = [outcome.replace("silent, as", f"silent in {log}, as") for log, outcome in (("A", one), ("B", other))]
    both = [words if "silent" in words else f"{words} in {log}" for log, words in zip("AB", both)]
    refused = "refused "
    rest = both[1].removeprefix(refused) if both[0].startswith(refused) else both[1]
    return f"{both[0]}{';' if 'silent' in both[0] else ','} {rest}"


def bytes_differing(one, other):
    """Where two messages differ, and how long they were: which bytes one of them has alone, where all others are the same; or at which byte
    they differ first, what both have there, and how many more bytes differ."""
    columns = columns_of(one, other)
    places = [place for place, (ours, theirs) in enumerate(columns) if ours != theirs]
    alone = [[place for place, pair in enumerate(columns) if pair[1 - side] is None] for side in (0, 1)]
    if len(places) == max(map(len, alone)):
        side = next(side for side in (0, 1) if alone[side])
        log, own = "AB"[side], (one, other)[side][places[0] : places[0] + len(alone[side])]
        where = f"byte {places[0] + 1} only in {log}" if len(own) == 1 else f"{len(own)} bytes only in {log}, from byte {places[0] + 1} on"
        words = f": {where}: {report_facts.spelled(own[:8])}" + (f" and {len(own) - 8} more" if len(own) > 8 else "")
    else:
        names = ["no byte" if byte is None else report_facts.spelled(message[places[0] : places[0] + 1]) for message, byte in zip((one, other), columns[places[0]])]
        words = f" byte {places[0] + 1}: {names[0]} in A, {names[1]} in B"
        if len(places) > 1:
            words += "; and 1 more byte" if len(places) == 2 else f"; and {len(places) - 1} more bytes"
    if len(one) != len(other):
        words += f"; {profiles.at_least(one)}{len(one)} byte{'' if len(one) == 1 else 's'} in A, {profiles.at_least(other)}{len(other)} in B"
    return words
