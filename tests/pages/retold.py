"""What `list`, `watch` and `explain` write of a log, told from the rows of its page alone.

Of a long message a page has the first bytes and the number of the others, which is then all that can be told of it: `shortened` says
the same of a list.
"""

import re

from report_reader import KINDS, MESSAGES

# Above 512 bytes, and in a brief row above 32, a page has the first 32 bytes of a message: so many digits of a list stand there,
# and so many at least do not.
BYTE = r"(?:[0-9A-F]{2}|\.\.)"
LONG = re.compile(rf"(?<!\S)({BYTE}{{32}})({BYTE}{{481,}})()(?!\S)")
LONG_IN_BRIEF = re.compile(rf"(?<!\S)({BYTE}{{32}})({BYTE}+)(\*?)(?!\S)")


def digits_of(said):
    """The digits of a message, and how many bytes more it has where not all are shown."""
    shown = (said.get("shown", "") + said.get("folded", "")).replace(" ", "")
    return f"{shown}+{said['hidden']}" if "hidden" in said else shown


def shortened(listed, is_brief):
    """A list with the messages that a page does not show whole, as `digits_of` has them: of one that has brief rows, too, each
    message that such a row would not. Of a message that a rule cuts off at least so many bytes are not shown."""
    return (LONG_IN_BRIEF if is_brief else LONG).sub(lambda found: f"{found[1]}+{'at least ' * len(found[3])}{len(found[2]) // 2}", listed)


def list_told(rows):
    """The list, up to the first exchange of which the page does not say how it came out: this is that of a refused log."""
    items, outcomes = {}, {}
    for row in rows:
        tell_item(row, items, outcomes)
    lines = []
    for number, text in items.items():
        if text.endswith("->") and number not in outcomes:
            break
        lines.append(" ".join(filter(None, [number, text, outcomes.get(number)])) + "\n")
    return "".join(lines)


def tell_item(row, items, outcomes):
    """What a row says of its item: what it is, or how it came out."""
    said, digits = row.said, digits_of(row.said)
    match row.kind:
        case "request":
            items[row.item] = f"exchange {said['service']} {digits} ->"
        case "keep-alive":
            items[row.item] = f"stray tester {digits}"
        case "stray":
            items[row.item] = f"stray {said['of']} {digits}"
        case "positive" | "other than asked":
            outcomes[row.item] = f"positive {digits}"
        case "negative":
            outcomes[row.item] = f"negative {code_listed(said['code'])} {digits}"
        case "silent":
            outcomes[said["to"]] = "silent"
        case "no answer" | "no answer (all units)":
            outcomes[said["to"]] = "unanswered"


def code_listed(code):
    """A response code as `list` has it: one that stands on pages with its digits has no name there."""
    name, _, digits = code.partition(" ")
    return f"code_{digits}" if digits else name


def explanation_told(rows):
    """What `explain` tells before its counts."""
    return "".join(map(fault_told, rows))


def fault_told(row):
    said = row.said
    match row.kind:
        case "dropped":
            return f"line {row.lines[0]}: {said['of']} frame dropped: {said['reason']}\n"
        case "ended":
            return f"line {row.lines[0]}: {reception_told(said)} ended: {said['cause']}\n"
        case "unfinished":
            return f"end: {reception_told(said)} unfinished\n"
    return ""


def reception_told(said):
    return f"{said['of']} reception from line {said['begun']} of {said['announced']} bytes"


def counts_told(counts, rows):
    """The line of the counts: no row says how many lines and frames there are, and what each of the others counts is rows."""
    of_page = {count.name: count.number for count in counts}
    kinds = [row.kind for row in rows]
    messages = sum(kind in MESSAGES for kind in kinds)
    of_rows = " ".join(f"{name} {kinds.count(name)}" for name in ("dropped", "ended", "unfinished", "pending"))
    return f"lines {of_page['lines']} frames {of_page['frames']} messages {messages} {of_rows}\n"


def counts_of_rows(rows):
    """How many rows there are of each kind, as the verdict of the page has it."""
    kinds = [row.kind for row in rows]
    names = {kind: "requests" if kind == "request" else kind for kind in KINDS}
    counts = {name: kinds.count(kind) for kind, name in names.items()}
    return {"messages": sum(kind in MESSAGES for kind in kinds), **counts, "positive": counts["positive"] + counts["other than asked"]}


def counts_in(counts):
    """The same, as the page counts it: a message that rules leave out has no row."""
    counted = {count.name: int(count.number) for count in counts if count.name not in ("lines", "frames")}
    left_out = counted.pop("left out", 0)
    return {"no answer (all units)": 0, "other than asked": 0, **counted, "messages": counted["messages"] - left_out}
