"""A reader of the page that `udsnorm report` writes of a log: the facts that it tells, and all its other words.

Facts are kept as they are spelled, and what has none of the forms below is an error. All other words are kept with the place where they
stand: those of any page have to be those of a page of tests/pages/golden, which somebody has read whole.
"""

import re
from collections import namedtuple
from functools import lru_cache
from pathlib import Path

# What stands in a page of tests/pages/golden in the place of the style, and of the blocks that are open.
STYLE_MARK, BLOCKS_MARK = "[the style]\n", "[the open blocks]\n"

# --- What a page tells ------------------------------------------------------------------------------------------------

# The name of the log, which stands twice, the identifiers, the blocks of rows, why the log is refused, if it is, the rules, the
# verdict, and whether the help has words on answers.
Facts = namedtuple("Facts", "names sides blocks refused rules verdict helps_on_answers")

# A rule, and of how many messages of each log it spoke.
Rule = namedtuple("Rule", "text counts")

# Whether it is open, where it begins, and the bodies of its table, each a list of rows.
Block = namedtuple("Block", "is_open begin bodies")

# What links call it, its item, if that begins here, too, its lines, time and side; and what it says, by the names of KINDS.
Row = namedtuple("Row", "kind identifier item begins_item lines time side is_brief said")

# What `--strict` tells, or why the log is refused; the sentences behind that, by the names of SENTENCES; and the times by the clock.
Verdict = namedtuple("Verdict", "kind told sentences cause looks counts span slowest")
Look = namedtuple("Look", "kind number links more")
Link = namedtuple("Link", "target words")
# An answer: its item, its service, how long its request waited for it, and how many replies said that it is pending, if some did.
Slow = namedtuple("Slow", "link service after pending")
Count = namedtuple("Count", "name number mark")

# A page that was read: its facts, its style, and its other words, each with the place where they stand.
Read = namedtuple("Read", "facts style words")

# --- Rows -------------------------------------------------------------------------------------------------------------

# `..` is a byte that is masked, and `*` stands where the others are cut off.
BYTE = r"(?:[0-9A-F]{2}|\.\.)"
BYTES, TIME, MILLISECONDS = rf"{BYTE}(?: {BYTE})*(?: \*)?", r"-?\d+\.\d{6}", r"-?\d+\.\d{3}&\#160;ms"

# Fields whose names differ only in a last `_` are the same fact.
ROW = re.compile(
    rf"""
    <tr\ class="(?P<look>\w+)" (?:\ id="(?P<id>\w+)")? >
    (?: <th\ scope="row">(?P<begun>\d+) | <td>(?P<item>\d*) ) <td>(?:(?P<first>\d+)(?:&\#8211;(?P<last>\d+))?)? <td>(?P<time>(?:{TIME})?)
    (?: <td><div\ class="(?P<side>[tu])"><div>(?P<words>.*)</div><svg\ aria-hidden="true"\ width="32"\ height="12"><use\ href="\#(?P<arrow>\w+)"/></svg></div>
      | <td\ class="(?P<side_>[tu])">(?P<brief>.*) )
    \n""",
    re.VERBOSE,
)

OF, PARTIAL = r"(?P<of>tester|unit)", r"message from line (?P<begun>\d+), (?P<announced>\d+) bytes announced:"
NOTE = (
    rf"(?:<br><i>(?:(?P<length>\d+) bytes )?in (?P<frames>\d+) frames(?:, after (?P<after>{MILLISECONDS}))?</i>"
    rf"| <i>after (?P<after_>{MILLISECONDS})</i>)?"
)
FOLDED = (
    rf" <details><summary>(?P<more>\d+) bytes more</summary><code>(?P<folded>{BYTES})</code>(?: <samp>(?P<letters_>[^<]+)</samp>)?"
    "</details>"
)
# Names from the standards stand in brackets.
NAMES = r"(?P<names>(?: <i>\([A-Za-z][^<]*\)</i>)*)"
DATA = rf"<code>(?P<shown>{BYTES})</code>(?: <samp>(?P<letters>[^<]+)</samp>|{FOLDED}| <i>(?P<hidden>\d+) bytes more, not shown</i>)?{NAMES}{NOTE}"
# A message of the tester that went to all units.
TO_ALL, BRIEF_TO_ALL = "(?:<i>(?P<functional>functional)</i> )?", "(?:(?P<functional>functional) )?"
MORE = r"(?: and (?:at least )?\d+ bytes? more)?"
BRIEF_DATA = rf"(?P<shown>{BYTES})(?: and (?P<hidden>(?:at least )?\d+) (?:(?<= 1 )byte|(?<! 1 )bytes) more)?"

# Of each kind of row how it looks, how its arrow ends, and what it says. `words` are no facts.
Kind = namedtuple("Kind", "look end form")
KINDS = {
    "request": Kind("q", "", rf"<b>(?P<service>\w+)</b> <i>request</i> {TO_ALL}{DATA}"),
    "positive": Kind("ok", "", rf"<b>positive</b> {DATA}"),
    "other than asked": Kind("s", "", rf"<b>positive</b> <em>answers (?P<answers>{BYTES}), asked was (?P<asked>{BYTES}{MORE})</em> {DATA}"),
    "negative": Kind("n", "", rf"<b>negative</b> <em>(?P<code>\w+(?: [0-9A-F]{{2}})?)</em> {DATA}"),
    "pending": Kind("p", "", rf"<b>pending</b> {DATA}"),
    "keep-alive": Kind("p", "", rf"<b>keep-alive</b> {TO_ALL}{DATA}"),
    "stray": Kind("s", "", rf"<b>stray</b> <i>from the {OF}</i> {TO_ALL}{DATA}"),
    "silent": Kind("p", "e", r"<b>silent</b> <i>item (?P<to>\d+) (?P<words>[^<]+)</i>"),
    "no answer": Kind("m", "e", r"<b>no answer</b> <i>to item (?P<to>\d+)</i>"),
    "no answer (all units)": Kind("p", "e", r"<b>no answer</b> <i>to item (?P<to>\d+), which went to all units</i>"),
    "dropped": Kind("x", "x", rf"<b>dropped</b> <i>{OF} frame:</i> <em>(?P<reason>[^<]+)</em>(?: <i>(?P<words>[^<]+)</i>)?"),
    "ended": Kind("x", "e", rf"<b>ended</b> <i>{OF} {PARTIAL}</i> <em>(?P<cause>[^<]+)</em> <i>(?P<words>[^<]+)</i>"),
    "unfinished": Kind("x", "e", rf"<b>unfinished</b> <i>{OF} {PARTIAL} (?P<words>[^<]+)</i>"),
}
BRIEF_KINDS = {
    "request": Kind("q", "", rf"(?P<service>\w+) request {BRIEF_TO_ALL}{BRIEF_DATA} &\#8594;"),
    "positive": Kind("ok", "", rf"&\#8592; positive {BRIEF_DATA} after (?P<after>{MILLISECONDS})"),
    "pending": Kind("p", "", rf"&\#8592; pending {BRIEF_DATA} after (?P<after>{MILLISECONDS})"),
    "keep-alive": Kind("p", "", rf"keep-alive {BRIEF_TO_ALL}{BRIEF_DATA} &\#8594;"),
    "silent": Kind("p", "", r"silent: item (?P<to>\d+) (?P<words>[^<]+)"),
    "no answer (all units)": Kind("p", "", r"no answer to item (?P<to>\d+), which went to all units"),
}
MESSAGES = ("request", "positive", "other than asked", "negative", "pending", "keep-alive", "stray")
SIDES = {"t": "tester", "u": "unit"}


def row_of(line, words):
    """The row that a line is. What it says beside its facts is added to these words."""
    found = facts_in(ROW.fullmatch(line))
    is_brief = "brief" in found
    for kind, (look, end, form) in (BRIEF_KINDS if is_brief else KINDS).items():
        said = facts_in(re.fullmatch(form, found.get("brief" if is_brief else "words", "")))
        if said and found["look"] == look and found.get("arrow") in (None, found["side"] + end):
            words.add((kind, without_numbers(said.get("reason") or said.get("cause", "")), said.pop("words", "")))
            lines, item = tuple(found[end] for end in ("first", "last") if end in found), found.get("begun") or found["item"]
            return Row(kind, found.get("id"), item, "begun" in found, lines, found["time"], SIDES[found["side"]], is_brief, said)
    raise ValueError(f"a row that can't be read: {line}")


def without_numbers(reason):
    return re.sub(r"\b[0-9A-F]\b|\d+", "#", reason)


def facts_in(found):
    """What the groups of a match are, by their names."""
    return {name.rstrip("_"): text for name, text in found.groupdict().items() if text is not None} if found else {}


# --- The page ---------------------------------------------------------------------------------------------------------

PAGE = re.compile(
    r'(?P<front>.*?\n<p class="filter">[^\n]*\n)(?P<blocks>.*?)(?:<p class="stop">(?P<stop><b>[^<\n]+</b> [^\n]*\.)</p>\n)?</main>\n'
    r'(?P<rules><section id="rules">.*?</section>\n)?(?P<verdict><section id="verdict" .*?</section>\n)(?P<help>.*)',
    re.DOTALL,
)
# What is no fact has no name.
FRONT = re.compile(
    r"(.*<title>)(?P<title>[^<]*)( - .*<style>\n)(?P<style>.*)(</style>\n.*<h1>)(?P<name>[^<]*)(</h1>\n.*>tester )(?P<tester>[0-9A-F]+)"
    r"(?:(, functional )(?P<functional>[0-9A-F]+))?(<.*>unit )(?P<unit>[0-9A-F]+)(<.*)",
    re.DOTALL,
)
BLOCK = re.compile(
    r'<details class="b"(?P<open> open)?>\n<summary>(?P<title>[^<]*)</summary>\n(?P<head><table>\n<thead>[^\n]*\n)'
    r"(?P<bodies>(?:<tbody>\n(?:<tr [^\n]*\n)+)+)</table>\n</details>\n"
)
BODY, LINE = re.compile(r"<tbody>\n((?:<tr [^\n]*\n)+)"), re.compile(r"[^\n]*\n")
TITLE = (
    rf"From item (?P<item>\d+)(?:, line (?P<line>\d+), (?P<time>{TIME}) s)?|From line (?P<line_>\d+), (?P<time_>{TIME}) s"
    "|(?P<end>At the end of the log)"
)

RULES = re.compile(
    r'<section id="rules">\n<h2>Under (?P<count>1 rule|(?!1 )\d+ rules)</h2>\n<p>(?P<words>.*)</p>\n<ul>\n(?P<lines>(?:<li>.*\n)+)</ul>\n</section>\n'
)
# A page of two logs of which one is refused counts no messages.
RULE = re.compile(
    r"<li><code>(?P<text>[^<]+)</code>(?:: (?P<count>\d+) (?:(?<=: 1 )message|(?<!: 1 )messages)(?: of A, (?P<other>\d+) of B)?)?\n"
)

VERDICT = re.compile(
    r'<section id="verdict" class="(?P<look>\w+)">\n<h2><span aria-hidden="true">(?P<sign>[^<]+)</span> (?P<heading>[^<]+)</h2>\n'
    r"<p>(?:<em>(?P<told>[^<]+)\.</em>(?: |(?=</p>)))?(?P<sentences>.*)</p>\n(?:<p><b>Cause:</b> (?P<cause>.*)\.</p>\n)?"
    r'(?:<ul class="look">\n(?P<looks>(?:<li>.*\n)+)</ul>\n)?<dl class="counts">\n(?P<counts>(?:<div.*\n)+)</dl>\n'
    r'(?:<p class="span">(?P<span>.*)</p>\n)?(?:<p>(?P<slow>Slowest .*)</p>\n<ol class="look">\n(?P<slowest>(?:<li>.*\n)+)</ol>\n)?</section>\n'
)
VERDICTS = {
    "The recording is clean": "clean",
    "The recording is not clean": "not clean",
    "No frame of the tester or the unit": "no frame",
    "Tester and unit look exchanged": "exchanged",
    "The recording is not clean, and tester and unit look exchanged": "not clean and exchanged",
    "The log is refused": "refused",
}
# What a verdict says in sentences, by how these begin.
SENTENCES = {
    "whole": r"No frame of [^.]+\.",
    "lost": r"Frames are missing[^.]+\. Messages [^.]+\.",
    "cut": r"The log ends [^.]+\.",
    "empty": r"The log is empty[^.]+\.",
    "others": r"Either no line [^.]+\.",
    "exchanged": r"No message is a request[^.]+\. See [^.]+\.",
    "exchanged_of_what_is_left": r"Of what the rules leave, no message is a request[^.]+\. See [^.]+\.",
    "answered": r"No answer is negative[^.]+\.",
    "answered_of_what_is_left": r"Of what the rules leave, no answer is negative[^.]+\.",
    "unanswered": r"Not every request [^.]+\.",
    "unanswered_of_what_is_left": r"Of what the rules leave, not every request [^.]+\.",
    "other": r"Not every answer [^.]+\.",
    "other_of_what_is_left": r"Of what the rules leave, not every answer [^.]+\.",
    "before": r"Below is [^.]+\.",
}
SENTENCE = re.compile("(?:" + "|".join(f"(?P<{name}>{form})" for name, form in SENTENCES.items()) + ")(?: (?!$)|$)")
LOOKS = {
    "dropped frames": "dropped", "ended early": "ended", "unfinished": "unfinished", "negative answers": "negative",
    "other than asked": "other than asked", "without an answer": "no answer", "strays": "stray",
}
LOOK = re.compile(r'<li>(?P<words>[^<]+) <b>(?P<number>\d+)</b>: (?P<links>.*?)(?: and (?P<more>\d+) more)?\n')
LINK = re.compile(r'<a href="#(\w+)">([^<]*)</a>(?:, (?=<)|$)')
SLOW = re.compile(rf'<li><a href="#(\w+)">([^<]*)</a> (?P<service>\w+) <b>(?P<after>{MILLISECONDS})</b>(?:, (?P<pending>\d+) pending)?\n')
COUNT = re.compile(r'<div(?: class="(?P<mark>\w+)")?><dt>(?P<name>[^<]+)</dt><dd>(?P<number>\d+)</dd></div>\n')


def read(page):
    """What a page tells, and what else it says."""
    parts = PAGE.fullmatch(page)
    if not parts:
        raise ValueError("it has not the parts of a page")
    front, words = FRONT.fullmatch(parts["front"]), set()
    if not front:
        raise ValueError(f"a front that can't be read: {parts['front']}")
    words.update([("front", "", "#".join(filter(None, front.group(1, 3, 5, 7, 9, 11, 13)))), ("help", "", parts["help"])])
    facts = Facts(
        names=front.group("title", "name"),
        sides=front.group("tester", "functional", "unit"),
        blocks=[block_of(piece, words) for piece in pieces(BLOCK, parts["blocks"])],
        refused=stop_of(parts["stop"], words),
        rules=rules_of(parts["rules"], words),
        verdict=verdict_of(parts["verdict"], words),
        helps_on_answers="slowest answers" in parts["help"],
    )
    return Read(facts, front["style"], words)


def pieces(form, text):
    """The pieces of this form that make up a text."""
    found, at = [], 0
    while at < len(text):
        piece = form.match(text, at)
        if not piece or piece.end() == at:
            raise ValueError(f"what can't be read: {text[at : at + 300]}")
        found.append(piece)
        at = piece.end()
    return found


def block_of(found, words):
    title = facts_in(re.fullmatch(TITLE, found["title"]))
    if not title:
        raise ValueError(f"a title that can't be read: {found['title']}")
    words.update([("head", "", found["head"]), ("title", "", title.get("end", ""))])
    bodies = [[row_of(line[0], words) for line in pieces(LINE, body[1])] for body in pieces(BODY, found["bodies"])]
    return Block(bool(found["open"]), {name: text for name, text in title.items() if name != "end"}, bodies)


def stop_of(text, words):
    """Why the log is refused, as it stands below the rows."""
    if text is None:
        return None
    front, fault = re.fullmatch(r"(<b>[^<]+</b> )(.*)\.", text).groups()
    words.add(("stop", "", front))
    return fault


def rules_of(text, words):
    """What stands above the verdict of the rules, where there are some."""
    if text is None:
        return []
    found = RULES.fullmatch(text)
    rules = [Rule(rule["text"], tuple(filter(None, rule.group("count", "other")))) for rule in pieces(RULE, found["lines"])] if found else []
    if not rules or found["count"].split(" ")[0] != f"{len(rules)}":
        raise ValueError(f"rules that can't be read: {text}")
    words.add(("rules", "", found["words"]))
    return rules


def verdict_of(text, words):
    found = VERDICT.fullmatch(text)
    if not found or found["heading"] not in VERDICTS:
        raise ValueError(f"a verdict that can't be read: {text}")
    kind = VERDICTS[found["heading"]]
    sentences = [(sentence.lastgroup, sentence[sentence.lastgroup]) for sentence in pieces(SENTENCE, found["sentences"])]
    span = re.findall(TIME, found["span"] or "")
    words.add(("verdict", kind, f"{found['look']} {found['sign']}"))
    words.update(("sentence", name, sentence) for name, sentence in sentences)
    words.update([("span", "", re.sub(TIME, "#", found["span"] or "")), ("slowest", "", found["slow"] or "")])
    return Verdict(
        kind=kind,
        told=found["told"],
        sentences=[name for name, _ in sentences],
        cause=found["cause"],
        looks=[look_of(look) for look in pieces(LOOK, found["looks"] or "")],
        counts=[Count(**count.groupdict()) for count in pieces(COUNT, found["counts"])],
        span=span,
        slowest=[slow_of(line) for line in pieces(SLOW, found["slowest"] or "")],
    )


def slow_of(found):
    return Slow(Link(*found.group(1, 2)), *found.group("service", "after", "pending"))


def look_of(found):
    links = [Link(*link.groups()) for link in pieces(LINK, found["links"])]
    if found["words"] not in LOOKS:
        raise ValueError(f"what needs a look and can't be read: {found[0]}")
    return Look(LOOKS[found["words"]], found["number"], links, found["more"])


def rows_in(facts):
    """All rows, in their order."""
    return [row for block in facts.blocks for body in block.bodies for row in body]


# --- The pages that were read whole -----------------------------------------------------------------------------------

GOLDEN = Path(__file__).resolve().parents[1] / "pages" / "golden"


@lru_cache
def golden_words():
    """All that the pages of tests/pages/golden say beside facts."""
    pages = (path.read_text().replace(BLOCKS_MARK, "") for path in sorted(GOLDEN.glob("*.html")))
    return {words for page in pages for words in read(page).words}
