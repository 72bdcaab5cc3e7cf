"""The two spellings of what is told of a fault: the one that it displays, by the texts that `thiserror` derives from, and the
line that a definition has, which the program tells.

In either the fields of a fault are numbered from 0, and `{0}` stands for the first. A fault in a field ends its line, and so
does the parser's text, which brings a line feed. A line that was made in memory, of bytes, is displayed by no text of its own.
"""

import re

# The lines of faults of a run, and those of faults of words.
RUN, WORDS = "udsnorm/specs/FaultLines.antt", "command_line/specs/WordsTexts.antt"
# The enumerations of faults: the crate and file of each, and the file and the name of the definition that has its lines.
FAULTS = {
    "Fault": ("trace_log/src/fault.rt", RUN, "fault_line"),
    "CompareFault": ("trace_log/src/fault.rt", RUN, "side_line"),
    "ConfigFault": ("trace_log/src/fault.rt", WORDS, "config_line"),
    "WordsFault": ("command_line/src/job.rt", WORDS, "words_text"),
}

VARIANT = re.compile(r'#\[error\(\s*"([^"]*)"\s*\)\]\s*(\w+)(?: \{([^}]*)\})?')
TERM = re.compile(r'codes "([^"]*)"|(\w+) (?:\w+\.)?(\w+)')
LINE_FEED = r"\n"
# What stands for a line that was made in memory.
MADE = "{0} as it is"


def compared(crates):
    """Each enumeration of faults, with what is wrong between what its variants display and their lines."""
    for name, (path, lines, definition) in FAULTS.items():
        shown = displayed(name, (crates / path).read_text())
        wanted = told(definition, (crates / lines).read_text())
        both = {variant: (shown.get(variant), wanted.get(variant)) for variant in {**shown, **wanted} if wanted.get(variant) != MADE}
        wrong = [f"{variant}: displayed is {one}, and told {other}" for variant, (one, other) in both.items() if one != other]
        yield name, wrong if shown else ["it has no variants"]


def displayed(enumeration, text):
    """What each variant of an enumeration displays, as a line."""
    block = re.search(rf"^pub enum {enumeration} \{{\n(.*?)^\}}", text, re.M | re.S)
    found = {}
    for shown, variant, fields in VARIANT.findall(block[1] if block else ""):
        places = {name: place for place, name in enumerate(re.findall(r"(\w+):", fields))}
        found[variant] = re.sub(r"\{(\w+)\}", lambda field: f"{{{places.get(field[1], field[1])}}}", shown) + LINE_FEED
    return found


def told(definition, text):
    """The line of each variant by a definition."""
    equation = re.compile(rf"^{definition} \(?(?:\w+\.)?(\w+)((?: \w+)*)\)? = (.*)$", re.M)
    found = {}
    for variant, names, line in equation.findall(re.sub(r"\n +", " ", text)):
        places = {name: f"{{{place}}}" for place, name in enumerate(names.split())}
        is_made = re.fullmatch(r"(\w+)\.items", line.strip()) is not None
        found[variant] = MADE if is_made else "".join(term_text(term, places) for term in TERM.findall(line))
    return found


def term_text(term, places):
    """What a term of a line stands for: letters, or a number, a fault or the parser's text in a field."""
    letters, of, name = term
    if not of:
        return letters
    if name in places:
        return places[name] + ("" if of == "decimal" else LINE_FEED)
    return f"{of} {name}"
