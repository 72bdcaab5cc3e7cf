"""What the page that `udsnorm report` writes of a log has to tell, by the definitions alone, as facts and not as a text.

What the frames of a log do is read off the whole log by oracle.py. A row is what is told of a frame, of a message or of a missing
answer, and the verdict counts rows. Nothing is written as the log is read: so this shares no idea with the program, which tells the
page frame by frame and keeps a few numbers. report_reader.py reads the same facts from a page.
"""

import itertools
import re
import subprocess
from collections import Counter, namedtuple
from pathlib import Path

import causes
import echoes
import oracle
import profiles
import standard_names
from oracle import GIBIBYTE, SIDES, TESTER, UNIT, Outcome
from report_reader import Block, Count, Facts, Link, Look, Row, Rule, Slow, Verdict, golden_words, read, rows_in

TOP = Path(__file__).resolve().parents[2]
WRITER = TOP / "scripts" / "report-style"
STYLE = subprocess.run([WRITER, "report", "css"], check=True, capture_output=True, text=True, timeout=60).stdout

# What the style of a page under rules has besides.
RULES_SOURCE = (TOP / "crates" / "trace_report" / "src" / "rules_style.rt").read_text()
RULES_STYLE = re.search(r'const RULES_STYLE: &str = "\\\n(.*?)";', RULES_SOURCE, re.DOTALL)[1]

STANDARD_INPUT = b"standard input"

# --- What the rows tell -----------------------------------------------------------------------------------------------

# A message, as report_reader.py calls its kind: the frames that it begins and ends with, how many carry it, when its request was
# complete, if it replies to one, whether it went to all units, and its request, if it is an answer.
Message = namedtuple("Message", "kind side item first last frames asked data is_functional request")
# An item without an answer, as report_reader.py calls the kind of its row.
NoAnswer = namedtuple("NoAnswer", "item kind")
# A frame that is dropped, and whether the row before is named by the same line.
Dropped = namedtuple("Dropped", "entry reason is_named")
# A frame that ends a message of a side, and the first frame of that.
Ended = namedtuple("Ended", "entry side begun cause")
# The first frame of a message that the log ends in.
Unfinished = namedtuple("Unfinished", "side begun")

OTHER = "other than asked"
REPLIES = ("positive", OTHER, "negative")
NONE_OF_ALL = "no answer (all units)"
REQUEST = "request"


def rows_of(frames, rules=()):
    """The rows of these frames under rules, in their order: what a frame ends, and then why it is dropped, or the message that it completes.
    Before a request stands that the request before has no answer."""
    messages = {row.last.line: row for row in messages_of(frames, rules)}
    missing = missing_answers(messages.values())
    rows = []
    for p, entry in enumerate(frames):
        rows += faults_at(frames, p)
        if entry.line in messages:
            row = messages[entry.line]
            rows += [missing[row.item]] if row.kind == REQUEST and row.item in missing else []
            rows.append(row)
    return rows


def end_rows(frames, rules=()):
    """The rows of the end of a log: what it ends in, and that its last request has no answer."""
    begun = [(side, oracle.reception(frames, side, len(frames))) for side in (TESTER, UNIT)]
    unfinished = [Unfinished(side, frames[standing[0]]) for side, standing in begun if standing]
    missing = missing_answers(messages_of(frames, rules))
    return unfinished + [row for later, row in missing.items() if later is None]


def messages_of(frames, rules):
    """The row of each message that the rules leave, as they leave it. To which item it belongs, all of these together say."""
    delivered = [(p, oracle.delivered(frames, p)) for p in range(len(frames))]
    made = [(p, profiles.made_of(rules, message)) for p, message in delivered if message is not None]
    ends = [p for p, message in made if message is not None]
    listed = [(oracle.SENDERS[frames[p].direction], message) for p, message in made if message is not None]
    parts = oracle.parts_of(listed)
    asked = {item: frames[p].micros for p, (item, role) in zip(ends, parts) if role == REQUEST}
    requests = {item: data for (_, data), (item, role) in zip(listed, parts) if role == REQUEST}
    return [
        Message(
            kind=kind_of(role, side, data, requests.get(item)),
            side=side,
            item=item,
            first=frames[oracle.first_position(frames, p)],
            last=frames[p],
            frames=frames_carrying(frames, p),
            asked=asked[item] if role in ("answer", "pending") else None,
            data=data,
            is_functional=frames[p].direction == oracle.FUNCTIONAL,
            request=requests[item] if role == "answer" else None,
        )
        for p, (side, data), (item, role) in zip(ends, listed, parts)
    ]


def kind_of(role, side, data, request):
    if role == "answer":
        return "negative" if data[0] == 0x7F else OTHER if echoes.is_other_on_page(request, data) else "positive"
    return "keep-alive" if role == "stray" and (side, data) == (TESTER, b"\x3E\x80") else role


def frames_carrying(frames, p):
    """How many frames carry the message that the frame at p completes: flow control carries nothing."""
    if isinstance(frames[p].layout, oracle.Single):
        return 1
    first, taken = oracle.reception(frames, frames[p].direction, p)
    return len([first, *taken, p])


def missing_answers(messages):
    """The row of each request without an answer, by the item of the request that comes next; that of the last request by None."""
    requests = [row for row in messages if row.kind == REQUEST]
    answered, promised = ({row.item for row in messages if row.kind in kinds} for kinds in (REPLIES, ["pending"]))
    later = [*(row.item for row in requests[1:]), None]
    return {item: no_answer(row, row.item in promised) for row, item in zip(requests, later) if row.item not in answered}


def no_answer(request, is_promised):
    """Silent, where the request asked for that. One to all units need not concern this one, and needs no look, unless this one said that
    its answer would come."""
    if oracle.answer_text(oracle.Exchange(request.data, None)) == "silent":
        return NoAnswer(request.item, "silent")
    return NoAnswer(request.item, NONE_OF_ALL if request.is_functional and not is_promised else "no answer")


def faults_at(frames, p):
    side, cause, reason = oracle.verdict(frames, p)
    ended = [Ended(frames[p], side, frames[oracle.reception(frames, side, p)[0]], cause)] if side else []
    return ended + ([Dropped(frames[p], reason.words, is_named=bool(ended))] if reason else [])


# --- Rows -------------------------------------------------------------------------------------------------------------

# How much of a message is shown: all of a short one, the others of a longer one folded, and of a block of data only the first.
ALL_SHOWN, ALL_FOLDED, SHOWN_FIRST = 64, 512, 32

# Bytes that are shown as letters, where four of them stand in a row; among them a blank is shown, too.
MARK = rb"0-9A-Za-z\-./:_"


def row_told(origin, row, is_brief=False):
    """A row as the page has it, with times since this one. In a block that is folded at first what needs no look is brief."""
    match row:
        case Message():
            return message_told(origin, row, is_brief and row.kind not in LOOKS)
        case NoAnswer():
            return Row(row.kind, None, f"{row.item}", False, (), "", UNIT, is_brief and row.kind not in LOOKS, {"to": f"{row.item}"})
        case Dropped():
            return lost_told("dropped", target(row), at(origin, row.entry), oracle.SENDERS[row.entry.direction], {"reason": row.reason})
        case Ended():
            return lost_told("ended", target(row), at(origin, row.entry), row.side, {**partial_told(row), "cause": row.cause})
    return lost_told("unfinished", target(row), ((), ""), row.side, partial_told(row))


def message_told(origin, row, is_brief):
    lines = (f"{row.first.line}",) if row.first.line == row.last.line else (f"{row.first.line}", f"{row.last.line}")
    begins_item = row.asked is None
    data = brief_data(row) if is_brief else {**data_told(row.data), "names": names_told(row.data)}
    functional = {"functional": "functional"} if row.is_functional else {}
    said = {**said_of_kind(row), **functional, **data, **note_told(row, is_brief)}
    identifier = target(row) if begins_item else None
    return Row(row.kind, identifier, f"{row.item}", begins_item, lines, seconds(origin, row.last.micros), row.side, is_brief, said)


def said_of_kind(row):
    match row.kind:
        case "request":
            return {"service": oracle.SERVICES.get(row.data[0], f"service_{row.data[0]:02X}")}
        case "other than asked":
            return dict(zip(("answers", "asked"), echoes.words_on_page(row.request, row.data)))
        case "negative":
            return {"code": standard_names.code_told(row.data[2])}
        case "stray":
            return {"of": row.side}
    return {}


def data_told(data):
    if len(data) <= ALL_SHOWN:
        return {"shown": spelled(data), **letters_told(data)}
    front, rest = data[:SHOWN_FIRST], data[SHOWN_FIRST:]
    if len(data) <= ALL_FOLDED:
        return {"shown": spelled(front), "more": f"{len(rest)}", "folded": spelled(rest), **letters_told(rest)}
    return {"shown": spelled(front), "hidden": f"{len(rest)}"}


def names_told(data):
    """The names of the standards. There are none behind a message that is masked."""
    return "" if isinstance(data, profiles.Masked) else standard_names.small(data)


def brief_data(row):
    more = len(row.data) - SHOWN_FIRST
    return {"shown": spelled(row.data[:SHOWN_FIRST]), **({"hidden": f"{profiles.at_least(row.data)}{more}"} if more > 0 else {})}


def spelled(data):
    return data.hex(" ").upper()


def letters_told(data):
    """The last bytes of a message as letters, where they may be text; `*` is none of these, and stands where the message is cut off."""
    star = "*" if profiles.at_least(data) else ""
    return {"letters": re.sub(rb"[^ %s]" % MARK, b".", data).decode() + star} if re.search(rb"[%s]{4}" % MARK, data) else {}


def note_told(row, is_brief):
    """In how many frames a message came, where they are several, and how many bytes they carry, where none was cut off; and how long after
    its request it began."""
    length = {} if profiles.at_least(row.data) else {"length": f"{len(row.data)}"}
    frames = {**length, "frames": f"{row.frames}"} if row.frames > 1 and not is_brief else {}
    return frames if row.asked is None else {**frames, "after": milliseconds(row.asked, row.first.micros)}


def at(origin, entry):
    return (f"{entry.line}",), seconds(origin, entry.micros)


def lost_told(kind, identifier, place, side, said):
    lines, time = place
    return Row(kind, identifier, "", False, lines, time, side, False, {"of": side, **said})


def partial_told(row):
    return {"begun": f"{row.begun.line}", "announced": f"{row.begun.layout.announced}"}


def target(row):
    """What a link to a row names. A frame that ends a message and is dropped is named once."""
    match row:
        case Dropped(is_named=True):
            return None
        case Dropped() | Ended():
            return f"l{row.entry.line}"
        case Unfinished():
            return f"e{row.side[0]}"
    return f"i{row.item}"


def sign(start, end):
    return "-" if end < start else ""


def seconds(start, end):
    return sign(start, end) + oracle.stamp(abs(end - start))


def milliseconds(start, end):
    micros = abs(end - start)
    return f"{sign(start, end)}{micros // 1000}.{micros % 1000:03}&#160;ms"


# --- Blocks -----------------------------------------------------------------------------------------------------------

FULL_BLOCK, LARGEST_BLOCK, OPEN_BLOCKS = 200, 1000, 10


def is_request(row):
    return isinstance(row, Message) and row.kind == REQUEST


def blocks_of(rows):
    """The rows in blocks: a request begins one behind a full block, and any row behind the largest."""
    blocks = []
    for row in rows:
        if not blocks or len(blocks[-1]) >= (FULL_BLOCK if is_request(row) else LARGEST_BLOCK):
            blocks.append([])
        blocks[-1].append(row)
    return blocks


def blocks_told(origin, rows):
    return [block_told(origin, place < OPEN_BLOCKS, block) for place, block in enumerate(blocks_of(rows))]


def block_told(origin, is_open, rows):
    """A block. With each request a body of its table begins."""
    bodies = []
    for row in rows:
        if not bodies or is_request(row):
            bodies.append([])
        bodies[-1].append(row_told(origin, row, not is_open))
    return Block(is_open, block_begin(origin, rows[0]), bodies)


def block_begin(origin, row):
    match row:
        case Message():
            return {"item": f"{row.item}", "line": f"{row.first.line}", "time": seconds(origin, row.first.micros)}
        case NoAnswer():
            return {"item": f"{row.item}"}
        case Unfinished():
            return {}
    return {"line": f"{row.entry.line}", "time": seconds(origin, row.entry.micros)}


# --- The verdict ------------------------------------------------------------------------------------------------------

# What needs a look, in this order, and how many links there are at most to each.
LOOKS = ("dropped", "ended", "unfinished", "negative", OTHER, "no answer", "stray")
MOST_LINKS = 10

# All counts, as they are told. Behind the first four each is of the rows of its kind.
COUNTS = [
    "lines", "frames", "messages", "left out", "requests", "positive", "negative", "no answer", NONE_OF_ALL, "silent", OTHER, "pending",
    "keep-alive", "stray", "dropped", "ended", "unfinished",
]
LOSSES = ("dropped", "ended", "unfinished")


def row_kind(row):
    """What the counts call a row."""
    match row:
        case Message():
            return "requests" if row.kind == REQUEST else row.kind
        case NoAnswer():
            return row.kind
    return {Dropped: "dropped", Ended: "ended", Unfinished: "unfinished"}[type(row)]


def counts_of(lines, frames, rows):
    """How many there are of each thing. Messages are those of the log, also those that rules leave out."""
    counts = Counter(map(row_kind, rows))
    messages = len(oracle.messages(frames))
    counts.update({"lines": len(lines), "frames": len(frames), "messages": messages})
    counts["positive"] += counts[OTHER]
    counts["left out"] = messages - sum(isinstance(row, Message) for row in rows)
    return counts


def looks_told(rows):
    """What needs a look, where something does."""
    of_kinds = {kind: [row for row in rows if row_kind(row) == kind] for kind in LOOKS}
    return [look_told(kind, found) for kind, found in of_kinds.items() if found]


def look_told(kind, rows):
    more = f"{len(rows) - MOST_LINKS}" if len(rows) > MOST_LINKS else None
    return Look(kind, f"{len(rows)}", [Link(target_of_line(row), link_words(row)) for row in rows[:MOST_LINKS]], more)


def target_of_line(row):
    """Where a link to a row leads: of a frame that ends a message and is dropped to the row before."""
    return f"l{row.entry.line}" if isinstance(row, Dropped) else target(row)


def link_words(row):
    match row:
        case Dropped() | Ended():
            return f"line {row.entry.line}"
        case Unfinished():
            return f"of the {row.side}"
    return f"item {row.item}"


def counts_told(counts):
    told = [name for name in COUNTS if name not in ("left out", NONE_OF_ALL, OTHER) or counts[name]]
    return [Count(name=name, number=f"{counts[name]}", mark=count_mark(name, counts[name])) for name in told]


def count_mark(name, count):
    if count == 0:
        return "zero"
    return "hot" if name in LOOKS else None


def span_told(frames):
    if not frames:
        return []
    first, last = frames[0].micros, frames[-1].micros
    return [oracle.stamp(first), oracle.stamp(last), seconds(first, last)]


MOST_SLOW = 10


def slowest_told(rows):
    """The slowest answers, and of equal ones the first before the others. One that began before its request ended was not waited for."""
    answers = [row for row in rows if row_kind(row) in REPLIES and row.first.micros >= row.asked]
    ordered = sorted(answers, key=lambda row: row.asked - row.first.micros)
    return [slow_told(rows, answer) for answer in ordered[:MOST_SLOW]]


def slow_told(rows, answer):
    of_item = [row for row in rows if isinstance(row, Message) and row.item == answer.item]
    pending = sum(row.kind == "pending" for row in of_item)
    service = said_of_kind(next(row for row in of_item if row.kind == REQUEST))["service"]
    return Slow(Link(target(answer), link_words(answer)), service, milliseconds(answer.asked, answer.first.micros), f"{pending}" if pending else None)


def state(log, frames, counts, rules):
    """What a recording is that is not refused, what `--strict` tells of it, and what the sentences below say of that."""
    told = unclean_words(log, frames, counts)
    is_exchanged = oracle.look_exchanged(profiles.under(rules, oracle.messages(frames)))
    if not told and not is_exchanged:
        return "clean", None, ["whole"]
    kind = " and ".join([*(["not clean"] if told else []), *(["exchanged"] if is_exchanged else [])])
    return kind if frames else "no frame", told, meant(log, frames, counts) + ([sentence_under(rules, "exchanged")] if is_exchanged else [])


def unclean_words(log, frames, counts):
    """What is told of a log that has to be clean and is not."""
    senders = {oracle.SENDERS[entry.direction] for entry in frames}
    lacking = [f"frame of the {side}" for side in (TESTER, UNIT) if side not in senders]
    lacking += ["line feed at the end"] if is_cut(log) else []
    if not lacking and not lost(counts):
        return None
    told = " ".join(f"{name} {number}" for name, number in [("frames", len(frames)), *((name, counts[name]) for name in LOSSES)])
    return told + "".join(f", no {what}" for what in lacking)


def meant(log, frames, counts):
    """What that means for what the page has."""
    other = [] if frames else ["others" if log else "empty"]
    return [*(["lost"] if lost(counts) else []), *(["cut"] if is_cut(log) else []), *other]


def lost(counts):
    return sum(counts[name] for name in LOSSES)


def is_cut(log):
    return log != b"" and not log.endswith(b"\n")


def answers_meant(counts, rules):
    if not counts["requests"]:
        return []
    other = [sentence_under(rules, "other")] if counts[OTHER] else []
    return [sentence_under(rules, "unanswered" if counts["negative"] or counts["no answer"] else "answered"), *other]


def sentence_under(rules, name):
    """A sentence about messages; under rules it is said that it is of what these leave."""
    return f"{name}_of_what_is_left" if rules else name


# --- The page ---------------------------------------------------------------------------------------------------------


def facts_of(log, name=STANDARD_INPUT, refused=None, sides=SIDES, limit=GIBIBYTE, rules=()):
    """What the page of a log with this name tells under rules, or of what stands before the place where it is refused. What is open there
    is called neither unanswered nor unfinished."""
    lines = refused.lines if refused else oracle.cut(log)
    frames = oracle.trace(lines, sides)
    rows = rows_of(frames, rules) + ([] if refused else end_rows(frames, rules))
    counts = counts_of(lines, frames, rows)
    kind, told, sentences = ("refused", refused.fault, ["before"]) if refused else state(log, frames, counts, rules)
    return Facts(
        names=2 * (name_text(name),),
        sides=(sides[TESTER], sides.get(oracle.FUNCTIONAL), sides[UNIT]),
        blocks=blocks_told(frames[0].micros if frames else 0, rows),
        refused=refused.fault if refused else None,
        rules=[Rule(profiles.told_rule(rule), (f"{count}",)) for rule, count in zip(rules, profiles.spoken(rules, frames))],
        verdict=Verdict(
            kind=kind,
            told=told,
            sentences=sentences + ([] if refused else answers_meant(counts, rules)),
            cause=causes.cause(log, limit, refused.fault) if refused else None,
            looks=looks_told(rows),
            counts=counts_told(counts),
            span=span_told(frames),
            slowest=slowest_told(rows),
        ),
        helps_on_answers=any(row_kind(row) in REPLIES for row in rows),
    )


def name_text(name):
    """The name of a log: the five signs of HTML by their names, other printable ASCII as it is, and each other byte by number."""
    named = {ord("&"): "&amp;", ord("<"): "&lt;", ord(">"): "&gt;", ord('"'): "&quot;", ord("'"): "&#39;"}
    return "".join(named.get(byte, chr(byte) if 0x20 <= byte <= 0x7E else f"%{byte:02X}") for byte in name)


def last_part(path):
    """The name of a log in a file."""
    return path.rpartition(b"/")[2]


class Page:
    """Is equal to each page, as bytes, that tells these facts, has the style, and says nothing else than the pages of tests/pages/golden
    do. It is shown as what another page has otherwise."""

    def __init__(self, facts):
        self.facts = facts
        self.wrong = ["it was compared with nothing"]

    def __eq__(self, page):
        self.wrong = self.differences(page)
        return not self.wrong

    def __repr__(self):
        return f"the page of this log: {'; '.join(self.wrong)}"

    def differences(self, page):
        try:
            found = read(page.decode("ascii"))
        except ValueError as error:
            return [f"the page can't be read: {error}"]
        new = sorted(found.words - golden_words())
        return [
            *fact_differences(found.facts, self.facts),
            *([] if found.style == style_under(self.facts.rules) else ["the style is not that of report.css"]),
            *([f"no page of tests/pages/golden says {new[0]}"] if new else []),
        ]


def style_under(rules):
    """The style of a page."""
    return STYLE + (RULES_STYLE if rules else "")


def fact_differences(came, want):
    """How facts differ: of each kind what differs first."""
    return [
        *first_difference("name", came.names, want.names),
        *first_difference("identifier", came.sides, want.sides),
        *first_difference("row", rows_in(came), rows_in(want)),
        *first_difference("block", list(map(shape_of, came.blocks)), list(map(shape_of, want.blocks))),
        *first_difference("refusal", [came.refused], [want.refused]),
        *first_difference("rule", came.rules, want.rules),
        *first_difference("words on answers", [came.helps_on_answers], [want.helps_on_answers]),
        *(text for name in Verdict._fields for text in verdict_difference(name, came.verdict, want.verdict)),
    ]


def shape_of(block):
    """A block without its rows."""
    return block.is_open, block.begin, [len(body) for body in block.bodies]


def verdict_difference(name, came, want):
    ours, theirs = getattr(came, name), getattr(want, name)
    return first_difference(f"the verdict's {name}", *(value if isinstance(value, list) else [value] for value in (ours, theirs)))


def first_difference(what, came, want):
    """The first place, from 1, at which two lists differ."""
    for place, (ours, theirs) in enumerate(itertools.zip_longest(came, want), 1):
        if ours != theirs:
            return [f"{what} {place}: {apart(ours, theirs)}"]
    return []


def apart(came, want):
    """How two values differ; of two of one kind the parts that do."""
    if type(came) is type(want) and hasattr(came, "_fields"):
        return apart(came._asdict(), want._asdict())
    if isinstance(came, dict) and isinstance(want, dict):
        differing = [name for name in want | came if came.get(name) != want.get(name)]
        return ", and ".join(f"{name} {apart(came.get(name), want.get(name))}" for name in differing)
    return f"{came!r}, not {want!r}"


def reported(log, limit=GIBIBYTE, sides=SIDES, name=STANDARD_INPUT, rules=()):
    """The page of a log under rules, which is refused as `explain` refuses it."""
    refused = oracle.refusal(log, limit, is_long_refused=False)
    written = Page(facts_of(log, name, refused, sides, limit, rules))
    return Outcome(oracle.REFUSED, refused.fault, written) if refused else Outcome(oracle.DONE, None, written)


def so_far(page, log, sides=SIDES):
    """What stands of a page, while more lines may come than those of this log: nothing before the first frame, and then its front and
    the rows that these frames have."""
    frames = oracle.trace(oracle.cut(log), sides)
    front = re.search(rb'^<p class="filter">.*\n', page, re.M)
    ends = [front.end(), *(row.end() for row in re.finditer(rb"^<tr .*\n", page, re.M))]
    return page[: ends[len(rows_of(frames))]] if frames else b""
