"""The clauses of contracts: those that the source has, those that a crate's page for callers names, and those that docs/proved.md
cites.

In the page for callers, each clause of a public function stands in the rows, items and paragraphs that name the function or its
type. What all runs of a kind promise is one clause `ran`, a record, and how a run reads is one, `way`. Its fields are clauses, too;
they stand there, or in the item that begins with the record, of the page of a crate that has such records. A call needs no row
where these items say all of its clauses.

In docs/proved.md a column of each table cites clauses, in parts between semicolons. Of these are the names in backticks read:

    `normalise`, `list`: `read`, `wrote`, by `SomeDefinition`       these clauses of each of these calls
    `Pair::new`, `open`: their clauses                             those that have no name; `open` is one of `Pair`, too
    clause `again` of `normalise`, ..                              the same, the other way round; `.. of `call` of `crate``, too
    private `message_bytes::make_room`: `room`                     of a private function, by its module
    laws `one_is_open`, `messages_fit` (`length`, `bytes`)         all clauses of a law, or these; `law .. of `crate`` too
"""

import re
from collections import namedtuple
from functools import lru_cache

# A function of a crate by its path, as `normaliser::normalise` or `scanner::Scanner::scan`, with the names of the clauses that its
# contract ensures. That of a lone clause is empty. Those of a run are also the fields of its record, and `run` has the names of that.
# A law stands in a public module, and does nothing. `texts` has each clause as it is written, those that it requires as one. `names`
# is what a clause calls what is of the code: the words of the function's head and of its type's, and what the file has and uses.
Function = namedtuple("Function", "path clauses is_public is_law run texts names")
REQUIRES = "requires"

# What a part of a cell says of some names: what they are, the names, their clauses, None where it names none, and their crate,
# None where that is one of the section's.
Citation = namedtuple("Citation", "kind names clauses crate")

CALL, PRIVATE, LAW = "call", "private", "law"

# --- The source ---------------------------------------------------------------------------------------------------------

COMMENT_OR_TEXT = re.compile(r'//[^\n]*|"(?:\\.|[^"\\\n])*"|\'(?:\\.|[^\'\\\n])\'')
ARRAY_LENGTH = re.compile(r";(?=[^;{}\[\]\n]*\])")
BLOCK = re.compile(r"^(pub )?(trait|impl)\b(.*?)\{\n(.*?)^\}", re.M | re.S)
FUNCTION = re.compile(r"^ *(pub )?(?:pub\(crate\) )?(?:extern\s+)?fn (\w+)", re.M)
CLAUSE = re.compile(r"\b(requires|ensures)\*?\s*(\w*)\s*$")
OF_THE_FILE = re.compile(r"^(?:pub )?use ([^;]*);|^(?:pub(?:\(crate\))? )?(?:struct|enum|trait|const) (\w+)", re.M)


def bare(text):
    """A source file with blanks for comments, texts and lengths of arrays, so that each brace and semicolon left has a meaning."""
    return ARRAY_LENGTH.sub(" ", COMMENT_OR_TEXT.sub(lambda found: " " * len(found[0]), text))


def folded(text):
    """A text on one line, without comments."""
    return " ".join(COMMENT_OR_TEXT.sub(lambda found: "" if found[0].startswith("//") else found[0], text).split())


def after_braces(text, at):
    """Where what the brace here opens is closed."""
    depth = 0
    for brace in re.finditer(r"[{}]", text[at:]):
        depth += 1 if brace[0] == "{" else -1
        if depth == 0:
            return at + brace.end()
    raise ValueError(f"a brace is not closed: {text[at : at + 60]!r}")


def contract(text, at):
    """The clauses of a function whose name ends here, which stand before its body, or before a semicolon: whether each is ensured, its
    name, and where its braces begin and end."""
    while True:
        stop = re.search(r"[{;]", text[at:]).start() + at
        clause = CLAUSE.search(text[at:stop]) if text[stop] == "{" else None
        if clause is None:
            return
        at = after_braces(text, stop)
        yield clause[1] == "ensures", clause[2], stop, at


def owner(kind, head):
    """The type or the trait that a block is about, by its first word, which a tuple of no type has not, and whether its functions
    are as public as that: those of a trait are, and those that a type has of one."""
    head = re.sub(r"^\s*<[^<>]*(?:<[^<>]*>[^<>]*)*>", "", head)
    of_trait = re.search(r"\bfor\b(.*)", head)
    word = re.search(r"(?<!')\b\w+|\(\)", of_trait[1] if of_trait else head)
    return word[0], kind == "trait" or of_trait is not None


@lru_cache(maxsize=None)
def functions_in(source):
    """The functions of a source file: owner or None, name, the texts of its clauses by their names, whether it is as public as its
    owner, and what its clauses call what is of the code. Clauses of one name are one text."""
    return list(read_functions(source))


def read_functions(source):
    text = bare(source)
    blocks = [(block.start(), block.end(), *owner(block[2], block[3]), block[3]) for block in BLOCK.finditer(text)]
    of_file = " ".join(used or named for used, named in OF_THE_FILE.findall(text))
    for found in FUNCTION.finditer(text):
        of, is_shared, above = next((block[2:] for block in blocks if block[0] < found.start() < block[1]), (None, False, ""))
        head = text[found.end() : re.search(r"[{;]", text[found.end() :]).start() + found.end()]
        texts = {}
        for is_ensured, name, begin, end in contract(text, found.end()):
            key = name if is_ensured else REQUIRES
            texts[key] = f"{texts.get(key, '')} {folded(source[begin + 1 : end - 1])}".strip()
        yield of, found[2], texts, found[1] is not None or is_shared, frozenset(re.findall(r"\w+", f"{of_file} {above} {head}"))


# The files with the records of runs.
RUNS = ["trace_run/specs/Ran.antt", *(f"trace_canon/specs/{name}.antt" for name in ("WaysOfReading", "WrittenAtEnd", "ItemText", "Finding", "ReadOnly", "Sessions"))]
OF_RUNS = ("trace_run", "trace_canon")

# The clauses that are such a record: what all runs of a kind promise, and how a run reads.
RUN, WAY = "ran", "way"


def run_of(folder, name):
    """The records of runs that a definition is, and has: the names, and the fields."""
    text = "".join((folder / path).read_text() for path in RUNS)
    is_short_for = re.search(rf"^{name} .*=\s+(\w+)", text, re.M)
    record = re.search(rf"^pub record {name} (.*?)(?:\n\n|\Z)", text, re.M | re.S)
    names, fields = [name], re.findall(r"^  pub (\w+) : (\w*)", record[1], re.M) if record else []
    for below in [is_short_for[1]] if is_short_for else [head for _, head in fields if head.startswith(("Ran", "ReadInThisWay"))]:
        more, of_more = run_of(folder, below)
        names, fields = names + more, [field for field in fields if field[1] != below] + of_more
    return names, fields


def record_of(texts):
    """The clause of a function that is a record of runs, if one is."""
    return next((clause for clause in (RUN, WAY) if clause in texts), None)


def exported(root):
    """The names that the file of a crate's root hands out, and its public modules."""
    text = bare(root)
    lists = re.findall(r"^pub use \w+::(?:\{([^}]*)\}|(\w+));", text, re.M)
    names = {name for many, one in lists for name in re.findall(r"\w+", many or one)}
    names |= set(re.findall(r"^pub (?:(?:extern\s+)?fn|struct|enum|trait) (\w+)", text, re.M))
    return names, set(re.findall(r"^pub mod (\w+);", text, re.M))


def functions(crate):
    """The functions of a crate, by its folder. A program hands out nothing: there what is `pub` in a module is public, and what a
    type has of a trait if the type is."""
    library, files = crate / "src" / "lib.rt", sorted((crate / "src").glob("*.rt"))
    if library.exists():
        names, modules = exported(library.read_text())
    else:
        names, modules = set().union(*(exported(path.read_text())[0] for path in files)), set()
    found = []
    for path in files:
        for of, name, texts, is_public, words in functions_in(path.read_text()):
            record = record_of(texts)
            run, fields = run_of(crate.parent, re.search(r"\w+", texts[record])[0]) if record else ([], [])
            clauses = list(dict.fromkeys([*(clause for clause in texts if clause != REQUIRES), *(field for field, _ in fields)]))
            is_in_module = path.stem in modules and of is None
            is_seen = is_public and (is_in_module or (of or name) in names)
            is_law = is_in_module and path.stem == "laws"
            full = "::".join(part for part in (path.stem, of, name) if part)
            found.append(Function(full, clauses, is_seen, is_law and is_seen, run if fields else [], texts, words))
    return found


# --- The page for callers ------------------------------------------------------------------------------------------------


def blocks(page):
    """The rows, items and paragraphs of a page."""
    block = []
    for line in page.splitlines():
        if block and (not line.strip() or line.startswith(("|", "- ", "#"))):
            yield "\n".join(block)
            block = []
        block += [line] if line.strip() else []
    yield "\n".join(block)


def unnamed(page, of_runs, function):
    """The clauses of a public function that the page for callers leaves out; a lone one stands where the function does. Those of a run
    may stand in the items of the pages of runs that are about its record. Where this is one of them, the function itself need not
    stand there."""
    of_type = [part for part in function.path.split("::")[:-1] if part[0].isupper()]
    names = "|".join([*of_type, function.path.rpartition("::")[2]])
    about = [block for block in blocks(page) if re.search(rf"`(?:\w+::)*({names})\b", block)]
    of_run = [block for block in blocks(of_runs) if any(block.startswith(f"- **`{record}`") for record in function.run)]
    if not about and not (of_run and page in of_runs):
        return [f"{function.path} is not named"]
    said = "\n".join([*about, *of_run, *(f"`{RUN}`" for _ in of_run)])
    return [f"{function.path}: {clause} is not named" for clause in function.clauses if clause and f"`{clause}`" not in said]


def left_out(folder):
    """What the page for callers leaves out, for each crate that has one."""
    of_runs = "\n\n".join((folder / name / "CALLING.md").read_text() for name in OF_RUNS)
    for path in sorted(folder.glob("*/CALLING.md")):
        page = path.read_text()
        public = [function for function in functions(path.parent) if function.is_public]
        yield path.parent.name, [missing for function in public for missing in unnamed(page, of_runs, function)]


# --- The page of the proofs ---------------------------------------------------------------------------------------------

# The heads of the columns that cite contracts; and the crates of the table that stands before the sections of the crates, which is
# that of the headline.
CITING = ("Contract", "is carried by")
FIRST = ["trace_log", "trace_run", "trace_text", "trace_canon"]

QUOTED = re.compile(r"`([\w:]+)`")


def cells(page):
    """The cells that say which contracts carry a promise, each with the crates of its section. A table has one column of them, which
    its head names."""
    crates, column, is_row = FIRST, None, False
    for line in page.splitlines():
        crates = line.startswith("## ") and re.findall(r"`(\w+)`", line) or crates
        row = [cell.strip() for cell in line[1:-1].split(" | ")] if line.startswith("|") else None
        if row is not None and not is_row:
            column = next((row.index(head) for head in CITING if head in row), None)
        elif row is not None and column is not None and not line.startswith("|---"):
            yield crates, row[column]
        is_row = row is not None


def rows_of_the_headline(page):
    """How many of the first cells are those of the headline's table."""
    table = re.search(r"^\| This \|.*\n\|[-|]+\n((?:\|.*\n)+)", page, re.M)
    return len(table[1].splitlines())


def citations(cell):
    """What a cell cites. A part without a name in it says something else."""
    for part in (part.strip() for part in cell.split(";") if "`" in part):
        if re.match(r"laws? ", part):
            yield from laws_cited(part)
        elif clause := re.match(r"clause `(\w+)` of `([\w:]+)`(?: of `(\w+)`)?(?:, by .*)?$", part):
            yield Citation(CALL, [clause[2]], [clause[1]], clause[3])
        else:
            yield calls_cited(part)


def laws_cited(part):
    crate = re.search(r" of `(\w+)`$", part)
    for name, clauses in re.findall(r"`(\w+)`(?: \(([^)]*)\))?", part[: crate.start()] if crate else part):
        yield Citation(LAW, [name], QUOTED.findall(clauses) or None, crate and crate[1])


def calls_cited(part):
    names, _, clauses = re.split(r", (?:and )?(?:by|at) ", part)[0].partition(": ")
    told = [""] if re.match(r"(its clause|their clauses)\b", clauses) else QUOTED.findall(clauses) or None
    return Citation(PRIVATE if part.startswith("private ") else CALL, QUOTED.findall(names) or [part], told, None)


class Contracts:
    """The contracts of a crate, and what is wrong with what a page cites of them."""

    def __init__(self, crate):
        self.functions = functions(crate)
        self.wrong = []

    def laws(self):
        return [function for function in self.functions if function.is_law]

    def named(self, kind, name, owner):
        """The functions of this kind that a name stands for, itself or with the type."""
        of_kind = [function for function in self.functions if function.is_law == (kind == LAW) and function.is_public == (kind != PRIVATE)]
        for path in [name] if "::" in name or owner is None else [name, f"{owner}::{name}"]:
            found = [function for function in of_kind if path in (function.path, function.path.partition("::")[2])]
            if found:
                return found
        return []


def looked_up(cell, section, crates):
    """What a cell cites, each name with its citation: the crates in which it is looked for, and the functions of the first that has it.
    A name without a type may be of the type before it."""
    owner = None
    for citation in citations(cell):
        several = [citation.crate] if citation.crate else section
        for name in citation.names:
            owner = name.split("::")[-2] if "::" in name and citation.kind == CALL else owner
            having = [crate for crate in several if crates[crate].named(citation.kind, name, owner)]
            yield citation, name, several, crates[having[0]].named(citation.kind, name, owner) if having else [], (having or [None])[0]


def cited(cell, section, crates):
    """The functions that a cell cites, by their crates, each with those of its clauses that it cites and that are there."""
    for citation, _, _, found, crate in looked_up(cell, section, crates):
        for function in found:
            yield crate, function, [clause for clause in function.clauses if citation.clauses is None or clause in citation.clauses]


def cited_wrongly(page, folder):
    """What is wrong with the citations of a page, for each crate that has contracts for callers."""
    crates = {path.parent.name: Contracts(path.parent) for path in sorted(folder.glob("*/CALLING.md"))}
    for section, cell in cells(page):
        for citation, name, several, found, crate in looked_up(cell, section, crates):
            if not found:
                crates[several[-1]].wrong.append(f"there is no {citation.kind} {name}")
            for function in found:
                missing = [clause for clause in citation.clauses or [] if clause not in function.clauses]
                crates[crate].wrong += [f"{function.path} has no clause {clause}".rstrip() for clause in missing]
                crates[crate].wrong += [] if function.clauses else [f"{function.path} has no clause"]
    for name, contracts in crates.items():
        yield name, contracts.wrong
