#!/usr/bin/env python3
"""The pages of `udsnorm report` in real browsers:

- a page asks the network for nothing and tells the console nothing;
- the verdict is above the session, also on paper (pdftotext reads what is printed);
- nothing is too wide at 320, 420 and 1280 pixels; charts stand side by side in the last, below each other in the first;
- contrasts are 4.5 or more: light, dark, forced colours;
- screen readers find headers, the keyboard reaches everything, the filter works, and links into folded blocks;
- a page that was cut says so, at 200 places; a whole one doesn't, with its style or without;
- file names are text; 100,000 items open.

    tests/pages/browser.py crates/udsnorm/out/udsnorm

Makes logs, has the program write the page of each, and looks at them in Chromium and in Firefox; it was written with Chromium 156
(Selenium, `chromium-driver`) and Firefox 153 (WebDriver BiDi). What is missing is named and skipped, and nothing is installed.

Prints a line for each case and ends with `N passed, M failed`; its status is 1 where a case failed.
"""

import json
import os
import re
import shutil
import subprocess
import sys
import tempfile
import threading
import time
import unicodedata
from collections import Counter, namedtuple
from concurrent.futures import ThreadPoolExecutor
from pathlib import Path

sys.path.insert(0, str(Path(__file__).resolve().parents[1] / "helpers"))

import browsers
import report_logs
from browsers import DARK, FORCED, LIGHT
from cases import DIFFERENT, Cases
from report_pages import (
    EVERY_KIND, FOLDED, FOLDED_PAIR, LOST, NO_ITEMS, NOTHING, PAIR, REFUSED, REFUSED_PAIR, SAME, Writer, flawed,
    pages_of_names, pages_of_pairs, pages_of_pairs_of_names, pages_of_sessions,
)

IN_PAGE = Path(__file__).with_name("in_page.js").read_text()

# The widths at which nothing may reach over the edge: two telephones and a screen. The least contrast is that of WCAG 2, AA.
WIDTHS = [320, 420, 1280]
LEAST_CONTRAST = 4.5

# How many places a page is cut at, and how many items the longest session has.
CUTS = 200
ITEMS = 100_000

# What the first row of a table looks like on paper, and what the others do.
HEADER_ON_PAPER = r"Item +Lines +Time +Tester +Unit"
ROW_ON_PAPER = r"^ *\d+ +\d+(–\d+)? +\d+\.\d{6} "

# The same of the items of two sessions, and the heading above them.
ITEMS_HEADER_ON_PAPER = r"A +B +Item"
ITEMS_ON_PAPER = r"^ *Items$"

# How many tables of items are open at first, beside those of what is the same.
OPEN_TABLES = 5

Check = namedtuple("Check", "name pages function")

# The browsers are tried at the same time, and report to the same cases.
ONE_AT_A_TIME = threading.Lock()


def ask(browser, question):
    """The answer of a page to a question in the words of in_page.js."""
    return browser.ask(f"(() => {{ {IN_PAGE}\nreturn {question}; }})()")


def show(browser, page, width=WIDTHS[-1], look=LIGHT, part=""):
    browser.width(width)
    browser.colours(look)
    browser.open(page.file.as_uri() + part)


def asks_for_nothing(browser, page):
    show(browser, page)
    return [f"it asks for {address}" for address in browser.requests()]


def tells_the_console_nothing(browser, page):
    show(browser, page)
    return [f"it tells {message}" for message in browser.messages()]


def is_said_to_be_whole(browser, page):
    show(browser, page)
    return ["the notice that its end is missing is shown"] if ask(browser, "noticeIsShown()") else []


def is_said_to_be_whole_without_its_style(browser, page):
    """Where its style is blocked, too; then the link at the top says where a verdict is that is not shown first."""
    text = page.file.read_text()
    bare = page.file.with_suffix(".bare.html")
    bare.write_text(re.sub("<style>.*?</style>", "", text, count=1, flags=re.S))
    wrong = is_said_to_be_whole(browser, page._replace(file=bare))
    first = ask(browser, "verdictIsAbove()")
    return wrong + ([] if ask(browser, "endIsNamed()") != first else [f"its verdict is {'not ' if not first else ''}first, and its top says otherwise"])


def names_no_end_with_its_style(browser, page):
    """The style shows the verdict first, so the link to it doesn't name another place."""
    show(browser, page)
    return ["the link to the verdict says that it is at the end"] if ask(browser, "endIsNamed()") else []


def shows_the_verdict_first(browser, page):
    show(browser, page)
    wrong = []
    for width in WIDTHS:
        browser.width(width)
        wrong += [] if ask(browser, "verdictIsAbove()") else [f"not at {width} pixels"]
    return wrong


def fits(browser, page):
    show(browser, page)
    wrong = []
    for width in WIDTHS:
        browser.width(width)
        wrong += [f"at {width} pixels: {part}" for part in ask(browser, "tooWide()")]
    return wrong


def fits_where_all_is_open(browser, page):
    """Also the tables that are folded."""
    wrong = []
    for width in WIDTHS:
        show(browser, page, width)
        browser.ask("document.querySelectorAll('details').forEach(block => block.open = true)")
        wrong += [f"at {width} pixels: {part}" for part in ask(browser, "tooWide()")]
    return wrong


def can_be_read(browser, page):
    wrong = []
    for look in (LIGHT, DARK, FORCED):
        show(browser, page, look=look)
        wrong += [] if ask(browser, "elementsWithText().length") else ["it has no text"]
        wrong += [f"{look}: a contrast of {text}" for text in ask(browser, f"faint({LEAST_CONTRAST})")]
    return wrong


def is_a_table_to_a_screen_reader(browser, page):
    show(browser, page)
    found = browser.parts()
    wrong = []
    for role, names in ask(browser, "partsShown()").items():
        came = [name for kind, name in found if kind == role]
        wrong += [] if came == names else [f"{role}: {first_difference(came, names)}"]
    return wrong


def has_the_headers_of_each_block(browser, page):
    """A screen reader finds them also in blocks that are not drawn yet."""
    show(browser, page)
    found = Counter(role for role, _ in browser.parts())
    wanted = {role: len(names) for role, names in ask(browser, "partsShown()").items()}
    return [f"{role}: {found[role]}, not {number}" for role, number in wanted.items() if found[role] != number]


def first_difference(came, wanted):
    at = next((at for at, (one, other) in enumerate(zip(came, wanted)) if one != other), min(len(came), len(wanted)))
    return f"{len(came)} of {len(wanted)}, number {at + 1} is {came[at : at + 1]}, not {wanted[at : at + 1]}"


def is_reached_by_keys(browser, page):
    """Tab goes to each link, to the filter, if there is one, and to each block, in the order of the page."""
    show(browser, page)
    wanted = ask(browser, "watchStops()")
    browser.press(["Tab"] * len(wanted))
    reached = browser.ask("window.reached")
    return [] if reached == wanted else [first_difference(reached, wanted)]


def folds_by_keys(browser, page):
    show(browser, page)
    browser.ask("document.querySelector('details.b > summary').focus()")
    before, states = browser.ask("document.querySelector('details.b').open"), []
    for _ in range(2):
        browser.press(["Enter"])
        states.append(browser.ask("document.querySelector('details.b').open"))
    return [] if states == [not before, before] else [f"open is {states} after Enter, and {before} before"]


def leaves_what_needs_a_look(browser, page):
    """The filter, also in blocks that are folded, and the same without it as before."""
    show(browser, page)
    wanted, before = ask(browser, "exchangesToLookAt()"), ask(browser, "exchangesShown()")
    browser.ask("document.getElementById('only').focus()")
    browser.press(["Space"])
    left = shown_in_a_while(browser, wanted)
    browser.press(["Space"])
    wrong = [] if left == wanted else [f"it leaves {first_difference(left, wanted)}"]
    return wrong + ([] if shown_in_a_while(browser, before) == before else ["without it others are shown than before"])


def shown_in_a_while(browser, wanted):
    """The exchanges that are shown, once they are these, or else in the end: a browser opens a folded block when it next draws."""
    becomes(browser, f"JSON.stringify(exchangesShown()) === {json.dumps(json.dumps(wanted, separators=(',', ':')))}")
    return ask(browser, "exchangesShown()")


def leaves_the_items_that_are_known(browser, page):
    """The filter, over a session of which is known what needs a look."""
    show(browser, page)
    browser.ask("document.getElementById('only').focus()")
    browser.press(["Space"])
    left = shown_in_a_while(browser, report_logs.TO_LOOK_AT)
    return [] if left == report_logs.TO_LOOK_AT else [f"it leaves {left}, not {report_logs.TO_LOOK_AT}"]


def opens_the_block_that_a_link_leads_into(browser, page):
    item = f"i{report_logs.FOLDED_ITEM}"
    show(browser, page)
    wrong = ["its block is open before"] if ask(browser, f"blockAround('{item}').open") else []
    browser.ask(f"document.querySelector('a[href=\"#{item}\"]').focus()")
    browser.press(["Enter"])
    wrong += is_in_sight(browser, item)
    show(browser, page, part=f"#{item}")
    return wrong + [f"opened there: {what}" for what in is_in_sight(browser, item)]


def is_in_sight(browser, identifier):
    return [] if becomes(browser, f"isInSight('{identifier}')") else [f"{identifier} is not in sight"]


def becomes(browser, question):
    """Whether it is so in a while: a browser scrolls when it next draws."""
    for _ in range(50):
        if ask(browser, question):
            return True
        time.sleep(0.1)
    return False


def is_printed_with_the_verdict_first(browser, page):
    show(browser, page)
    heading = browser.ask("document.querySelector('#verdict h2').lastChild.textContent.trim()")
    printed = text_of_paper(browser.paper())
    verdict, session = printed.find(heading), re.search(r"^ *Session$", printed, re.M)
    wrong = [] if session and 0 <= verdict < session.start() else ["the verdict is not above the session"]
    with_rows = [sheet for sheet in printed.split("\f") if re.search(ROW_ON_PAPER, sheet, re.M)]
    wrong += [] if with_rows else ["it has no row"]
    return wrong + ["a sheet has no header row" for sheet in with_rows if not re.search(HEADER_ON_PAPER, sheet)]


def leads_to_the_difference(browser, page):
    """The link of the verdict, at each width."""
    wrong = []
    for width in WIDTHS:
        show(browser, page, width)
        wrong += [] if goes_to_the_difference(browser) else [f"not at {width} pixels"]
    return wrong


def goes_to_the_difference(browser):
    """Whether the page that is shown goes there by its link."""
    browser.ask("document.querySelector('#verdict a[href=\"#difference\"]').focus()")
    browser.press(["Enter"])
    return becomes(browser, "differenceIsInSight()")


def marks_what_differs(browser, page):
    show(browser, page)
    marks = ask(browser, "marks()")
    return [] if marks == ["2F", "3F"] else [f"the marks are {marks}"]


def has_both_sides_in_their_places(browser, page):
    """Where there is room they are side by side, and else below each other."""
    wrong = []
    for width, place in zip(WIDTHS, ("below", "below", "beside")):
        show(browser, page, width)
        found = ask(browser, "places()")
        wrong += [] if found and set(found) == {place} else [f"at {width} pixels: {found}"]
    return wrong


def folds_what_is_the_same(browser, page):
    """And of the other tables those behind the first ones."""
    show(browser, page)
    folds = ask(browser, "folds()")
    others = [fold["isOpen"] for fold in folds if not fold["isSame"]]
    wrong = [f"{fold}" for fold in folds if fold["isSame"] and fold["isOpen"]]
    return wrong + ([] if others == [at < OPEN_TABLES for at in range(len(others))] else [f"open are {others}"])


def leaves_the_differences(browser, page):
    """The box, and without it the same rows as before."""
    show(browser, page)
    wanted, before = ask(browser, "rowsThatDiffer()"), ask(browser, "rowsShown()")
    browser.ask("document.getElementById('apart').focus()")
    browser.press(["Space"])
    wrong = [] if rows_in_a_while(browser, wanted) else ["it leaves other rows"]
    browser.press(["Space"])
    return wrong + ([] if rows_in_a_while(browser, before) else ["without it others are shown than before"])


def rows_in_a_while(browser, wanted):
    return becomes(browser, f"JSON.stringify(rowsShown()) === {json.dumps(json.dumps(wanted, separators=(',', ':'), ensure_ascii=False))}")


def is_printed_with_the_verdict_and_its_rows(browser, page):
    """The verdict first, each row that no fold of what is the same has, and a header row on each sheet with rows."""
    show(browser, page)
    heading = browser.ask("document.querySelector('#verdict h2').lastChild.textContent.trim()")
    wanted = ask(browser, "rowsOnPaper()")
    printed = text_of_paper(browser.paper())
    verdict = re.search(r"\s+".join(map(re.escape, heading.split())), printed)
    items = re.search(ITEMS_ON_PAPER, printed, re.M)
    if not verdict or not items or items.start() < verdict.start():
        return ["the verdict is not above the items"]
    places = places_on_paper(printed, items.end(), wanted)
    wrong = [] if len(places) == len(wanted) else [f"{len(places)} of {len(wanted)} rows are there"]
    with_rows = {printed.count("\f", 0, place) for place in places}
    sheets = [sheet for number, sheet in enumerate(printed.split("\f")) if number in with_rows]
    return wrong + ["a sheet has no header row" for sheet in sheets if not re.search(ITEMS_HEADER_ON_PAPER, sheet)]


def places_on_paper(printed, at, rows):
    """Where rows stand, each behind the one before it, up to the first that doesn't."""
    places = []
    for one, other in rows:
        found = re.compile(rf"^ *{one} +{other}(?= |$)", re.M).search(printed, at)
        if not found:
            return places
        places.append(found.start())
        at = found.end()
    return places


def text_of_paper(paper):
    """The text of a file PDF as it is seen, letters that are set as one apart again."""
    done = subprocess.run(["pdftotext", "-layout", "-", "-"], input=paper, capture_output=True, check=True, timeout=60)
    return unicodedata.normalize("NFKC", done.stdout.decode())


# Which pages a check looks at: every one, or those of these names.
EVERY = "every"
SHORT = [EVERY_KIND, REFUSED, "lost-frame"]

CHECKS = [
    Check("asks the network for nothing", EVERY, asks_for_nothing),
    Check("tells the console nothing", EVERY, tells_the_console_nothing),
    Check("is said to be whole", EVERY, is_said_to_be_whole),
    Check("is said to be whole without its style", EVERY, is_said_to_be_whole_without_its_style),
    Check("does not say that its verdict is at the end", EVERY, names_no_end_with_its_style),
    Check("shows the verdict above the session", EVERY, shows_the_verdict_first),
    Check("fits", EVERY, fits),
    Check("can be read in light, dark and forced colours", [*SHORT, NOTHING], can_be_read),
    Check("is a table to a screen reader", SHORT, is_a_table_to_a_screen_reader),
    Check("has the headers of each block", [FOLDED], has_the_headers_of_each_block),
    Check("is reached by Tab", [*SHORT, FOLDED], is_reached_by_keys),
    Check("folds a block by Enter", [EVERY_KIND, FOLDED], folds_by_keys),
    Check("leaves exactly what needs a look", [*SHORT, FOLDED], leaves_what_needs_a_look),
    Check("leaves the items that are known to need a look", [EVERY_KIND], leaves_the_items_that_are_known),
    Check("opens the block that a link leads into", [FOLDED], opens_the_block_that_a_link_leads_into),
    Check("is printed with the verdict first and a header row on each sheet", SHORT, is_printed_with_the_verdict_first),
]

# And those of pages of two logs.
SHORT_PAIRS = [LOST, PAIR, SAME, REFUSED_PAIR]
DIFFERENT_PAIRS = [LOST, PAIR, FOLDED_PAIR]

PAIR_CHECKS = [
    Check("asks the network for nothing", EVERY, asks_for_nothing),
    Check("tells the console nothing", EVERY, tells_the_console_nothing),
    Check("is said to be whole", EVERY, is_said_to_be_whole),
    Check("is said to be whole without its style", EVERY, is_said_to_be_whole_without_its_style),
    Check("does not say that its verdict is at the end", EVERY, names_no_end_with_its_style),
    Check("shows the verdict above the items", EVERY, shows_the_verdict_first),
    Check("fits", EVERY, fits),
    Check("fits where all is open", EVERY, fits_where_all_is_open),
    Check("can be read in light, dark and forced colours", [*SHORT_PAIRS, NO_ITEMS], can_be_read),
    Check("is a table to a screen reader", SHORT_PAIRS, is_a_table_to_a_screen_reader),
    Check("is reached by Tab", [*SHORT_PAIRS, FOLDED_PAIR], is_reached_by_keys),
    Check("folds a table by Enter", [PAIR, SAME, FOLDED_PAIR], folds_by_keys),
    Check("leads to the difference", DIFFERENT_PAIRS, leads_to_the_difference),
    Check("marks what differs", [PAIR], marks_what_differs),
    Check("has both sides in their places", [*DIFFERENT_PAIRS, SAME, NO_ITEMS], has_both_sides_in_their_places),
    Check("folds what is the same", [*DIFFERENT_PAIRS, SAME], folds_what_is_the_same),
    Check("leaves exactly the differences", [PAIR, FOLDED_PAIR], leaves_the_differences),
    Check("is printed with the verdict and its rows", [LOST, PAIR, SAME], is_printed_with_the_verdict_and_its_rows),
]

ON_PAPER = (is_printed_with_the_verdict_first, is_printed_with_the_verdict_and_its_rows)

# What each check has to find where it is put into a page: into its style, or, where it is a tag, behind its style.
FLAWS = [
    (asks_for_nothing, EVERY_KIND, "<img src='http://127.0.0.1:1023/'>"),
    (tells_the_console_nothing, EVERY_KIND, "<script>console.log(1)</script>"),
    (is_said_to_be_whole, EVERY_KIND, "#cut { display: block !important; }"),
    (is_said_to_be_whole_without_its_style, EVERY_KIND, "<style>#cut { display: block; }</style>"),
    (is_said_to_be_whole_without_its_style, EVERY_KIND, "<style>.plain { display: none; }</style>"),
    (names_no_end_with_its_style, EVERY_KIND, ".plain { display: inline !important; }"),
    (shows_the_verdict_first, EVERY_KIND, "#verdict { order: 9 !important; }"),
    (fits, EVERY_KIND, "h1 { min-width: 400px; }"),
    (fits, EVERY_KIND, "td b { white-space: nowrap; }"),
    (can_be_read, EVERY_KIND, "i { color: #8a8a8a !important; }"),
    (can_be_read, EVERY_KIND, "@media (prefers-color-scheme: dark) { i { color: #666 !important; } }"),
    (can_be_read, EVERY_KIND, "@media (forced-colors: active) { i { forced-color-adjust: none; color: #999 !important; } }"),
    (is_a_table_to_a_screen_reader, EVERY_KIND, "tbody th { visibility: hidden; }"),
    (has_the_headers_of_each_block, FOLDED, ".b:first-of-type tbody th { visibility: hidden; }"),
    (is_reached_by_keys, EVERY_KIND, ".look a { visibility: hidden; }"),
    (folds_by_keys, EVERY_KIND, "summary { visibility: hidden; }"),
    (leaves_what_needs_a_look, EVERY_KIND, "tbody:has(.ok) { display: table-row-group !important; }"),
    (leaves_what_needs_a_look, FOLDED, "main:has(#only:checked) .b::details-content { content-visibility: hidden !important; }"),
    (leaves_the_items_that_are_known, EVERY_KIND, "main:has(#only:checked) tbody:has(.s) { display: none; }"),
    (opens_the_block_that_a_link_leads_into, FOLDED, ".b:nth-of-type(12) { display: none; }"),
    (is_printed_with_the_verdict_first, EVERY_KIND, "@media print { #verdict { order: 9 !important; } }"),
    (is_printed_with_the_verdict_first, EVERY_KIND, "thead { display: table-row-group; }"),
]

PAIR_FLAWS = [
    (shows_the_verdict_first, PAIR, "#verdict { order: 9 !important; }"),
    (fits, PAIR, ".two { grid-template-columns: 30rem !important; }"),
    (can_be_read, PAIR, "mark { background: #888 !important; color: #666 !important; }"),
    (can_be_read, PAIR, "@media (prefers-color-scheme: dark) { .who { color: #444 !important; } }"),
    (is_a_table_to_a_screen_reader, PAIR, ".pair tbody th { visibility: hidden; }"),
    (is_reached_by_keys, PAIR, "#verdict a { visibility: hidden; }"),
    (folds_by_keys, PAIR, "summary { visibility: hidden; }"),
    (leads_to_the_difference, FOLDED_PAIR, "#difference { display: none; }"),
    (marks_what_differs, PAIR, "mark { display: none; }"),
    (has_both_sides_in_their_places, PAIR, ".two { display: block !important; }"),
    (has_both_sides_in_their_places, PAIR, ".two { grid-template-columns: 1fr 1fr !important; }"),
    (leaves_the_differences, PAIR, "main:has(#apart:checked) tr.same { display: table-row !important; }"),
    (leaves_the_differences, PAIR, "main:has(#apart:checked) tr.d { display: none; }"),
    (is_printed_with_the_verdict_and_its_rows, PAIR, "@media print { #verdict { display: none; } }"),
    (is_printed_with_the_verdict_and_its_rows, PAIR, "@media print { tr.d { display: none; } }"),
]


def check_pages(cases, browser, pages, checks):
    for check in checks_here(checks):
        for page in pages:
            if check.pages == EVERY or page.name in check.pages:
                report(cases, f"{browser.name}: the page of {page.name} {check.name}", check.function, browser, page)


def checks_here(checks):
    has_text_of_paper = shutil.which("pdftotext")
    return [check for check in checks if has_text_of_paper or check.function not in ON_PAPER]


def report(cases, name, function, *arguments):
    """A browser that ends, or doesn't answer, fails the case."""
    try:
        wrong = function(*arguments)
    except Exception as error:
        wrong = [f"{type(error).__name__}: {' '.join(str(error).split())[:300]}"]
    with ONE_AT_A_TIME:
        cases.report(name, wrong)


def check_names(cases, browser, pages, is_text):
    """A hostile name stands as it is, and nothing of it is more than text."""
    for said, page in pages:
        for function in (asks_for_nothing, tells_the_console_nothing, fits):
            report(cases, f"{browser.name}: {page.name}: {function.__name__.replace('_', ' ')}", function, browser, page)
        report(cases, f"{browser.name}: {page.name}: it is text", is_text, browser, page, said)


def name_is_text(browser, page, said):
    show(browser, page)
    shown, inside, title = browser.ask("(h1 => [h1.textContent, h1.childElementCount, document.title])(document.querySelector('h1'))")
    wrong = [] if (shown, inside) == (said, 0) else [f"it shows {shown!r} with {inside} elements"]
    wrong += [] if title == f"{said} - udsnorm report" else [f"its title is {title!r}"]
    return wrong + has_other_elements(browser)


def names_are_texts(browser, page, said):
    """Those of two logs, behind their letters."""
    show(browser, page)
    shown, inside, title = browser.ask("(h1 => [h1.innerText.split('\\n'), h1.childElementCount, document.title])(document.querySelector('h1'))")
    wrong = [] if inside == 3 else [f"the heading has {inside} elements"]
    wrong += [] if [line.split(" ", 1) for line in shown] == [["A", said[0]], ["B", said[1]]] else [f"it shows {shown!r}"]
    wrong += [] if title == f"{said[0]} and {said[1]} - udsnorm report" else [f"its title is {title!r}"]
    return wrong + has_other_elements(browser)


def has_other_elements(browser):
    return ["it has other elements"] if ask(browser, "all('body script, body img, body style').length") else []


def cuts_without_notice(browser, page, cut):
    """Wherever the page ends before its end, it says so."""
    text = page.file.read_bytes()
    begin, end = text.index(b"</header>"), text.index(b'<p id="end"')
    show(browser, page)
    wrong = []
    for number in range(CUTS):
        place = begin + (end - begin) * (number + 1) // CUTS
        cut.file.write_bytes(text[:place])
        browser.open(cut.file.as_uri())
        wrong += [] if ask(browser, "noticeIsShown()") else [f"not after {place} bytes"]
    return wrong[:3]


def opens_many_items(browser, page):
    """The page of a long session: complete, and its last block opens where a link leads into it."""
    show(browser, page)
    wrong = [f"it asks for {address}" for address in browser.requests()] + [f"it tells {message}" for message in browser.messages()]
    items = ask(browser, "all('tbody > .q').length")
    wrong += [] if items == ITEMS else [f"it has {items} items"]
    wrong += [] if ask(browser, "verdictIsAbove()") else ["its verdict is not above the session"]
    wrong += [] if ask(browser, "document.documentElement.scrollWidth <= innerWidth") else ["it is too wide"]
    browser.ask(f"void (location.hash = 'i{ITEMS}')")
    return wrong + is_in_sight(browser, f"i{ITEMS}")


def opens_many_pairs(browser, page):
    """The page of two long sessions that differ in their middle: complete, and the verdict leads there."""
    show(browser, page)
    wrong = [f"it asks for {address}" for address in browser.requests()] + [f"it tells {message}" for message in browser.messages()]
    items = ask(browser, "all('.pair tbody tr').length")
    wrong += [] if items == ITEMS else [f"it has {items} items"]
    wrong += [] if ask(browser, "verdictIsAbove()") else ["its verdict is not above the items"]
    wrong += [] if ask(browser, "document.documentElement.scrollWidth <= innerWidth") else ["it is too wide"]
    return wrong + ([] if goes_to_the_difference(browser) else ["it does not lead to the difference"])


def check_flaws(cases, browser, pages, writer, checks, flaws):
    """Each check finds what is made for it to find."""
    functions = [check.function for check in checks_here(checks)]
    for function, name, flaw in flaws:
        if function in functions:
            text = flawed(named(pages, name).file.read_text(), flaw)
            report(cases, f"{browser.name}: found where a page has {flaw}", finds, function, browser, writer.kept(name, text.encode()))


def named(pages, name):
    return next(page for page in pages if page.name == name)


def finds(function, browser, page):
    return [] if function(browser, page) else ["nothing is found"]


def browsers_here():
    """Those that can be started; what is missing is told."""
    found = []
    for browser in browsers.ALL:
        packages = browsers.missing(browser)
        for package in packages:
            print(f"skipped: {browser.name}, since {package} is missing (Debian: apt-get install {package})", flush=True)
        found += [] if packages else [browser]
    if found and not shutil.which("pdftotext"):
        print("skipped: pages on paper, since poppler-utils is missing (Debian: apt-get install poppler-utils)", flush=True)
    return found


def try_browser(cases, start, sessions, names, pairs, pairs_of_names, many, many_pairs):
    with start() as browser, tempfile.TemporaryDirectory() as folder:
        writer = Writer(cases, Path(folder))
        check_pages(cases, browser, sessions, CHECKS)
        check_pages(cases, browser, pairs, PAIR_CHECKS)
        check_names(cases, browser, names, name_is_text)
        check_names(cases, browser, pairs_of_names, names_are_texts)
        check_flaws(cases, browser, sessions, writer, CHECKS, FLAWS)
        check_flaws(cases, browser, pairs, writer, PAIR_CHECKS, PAIR_FLAWS)
        cut = writer.kept("cut", b"")
        for page in (named(sessions, EVERY_KIND), named(pairs, PAIR)):
            report(cases, f"{browser.name}: {page.name}, cut at {CUTS} places", cuts_without_notice, browser, page, cut)
        report(cases, f"{browser.name}: opens {ITEMS} items", opens_many_items, browser, many)
        report(cases, f"{browser.name}: opens {ITEMS} items of two logs", opens_many_pairs, browser, many_pairs)
    return []


def try_browsers(cases, found):
    with tempfile.TemporaryDirectory() as folder, ThreadPoolExecutor() as pool:
        writer = Writer(cases, Path(folder))
        sessions = pages_of_sessions(writer), pages_of_names(writer), pages_of_pairs(writer), pages_of_pairs_of_names(writer)
        logs = report_logs.many(ITEMS), report_logs.many(ITEMS, different=ITEMS // 2 + 1)
        pages = *sessions, writer.page_of(f"{ITEMS} items", logs[0]), writer.page_of(f"{ITEMS} items of two", *logs, status=DIFFERENT)
        for start in found:
            pool.submit(report, cases, f"{start.name} starts and ends", try_browser, cases, start, *pages)


def main():
    if len(sys.argv) != 2:
        sys.exit(__doc__)
    cases = Cases(os.path.abspath(sys.argv[1]))
    found = browsers_here()
    if found:
        try_browsers(cases, found)
    cases.end()


main()
