#!/usr/bin/env python3
"""Tests of the documents: what they say of the repository's files is so.

    tests/documents/documents.py [TEST..]

- the picture of the crates is the one that scripts/draw-crates draws of crates.txt, and names each crate and dependency;
- the styles that the program embeds in pages are those of crates/trace_report/style/ and crates/trace_pair/style/;
- each link of each document to a file of the repository, and to a heading in it, leads somewhere;
- no line of their prose has more than 120 characters, and each table has a head;
- the source files that documents name are there;
- each wrong body of must-fail/ and attacks/ can be applied: what it takes away stands once;
- those that the first table of docs/proved.md names are tried by the gate, one or more for each part of the headline;
- each definition that docs/definitions.md names stands in the file that it names;
- a line of prose stands above each definition that a public function's contract or a law cites;
- docs/architecture.md says of each crate of the kit that the program stands on where it is called, and the call stands there;
- the page for callers of each crate names each clause of its public calls, and docs/proved.md cites no other;
- what docs/proved.md prints of the source stands there;
- what docs/proved.md cites is written as tests/documents/clauses.txt lists it, with each definition that it is made of; no law says nothing,
  and no edit of a table of edits that takes a promise away passes these tests;
- each law has a line in attacks/laws.txt, of a wrong body that makes it false, one of the headline in the gate; each line is one of a law
  and of a wrong body that are there, and no copy of a table of wrong copies passes this;
- scripts/clauses prints a row for each call and law that docs/proved.md cites, with the clauses that it cites, and what a law is
  made of are the definitions that its `use` lines name, and no others of the same names; a name that means nothing is told;
- each decision of docs/DECISIONS.md says what would change it;
- what introduces the program or the library has the words by which somebody looks for such a tool;
- each fault displays the line that the program tells of it, as the page for callers of udsnorm says;
- the number of the version stands in the source of the command line once, and is that of the file VERSION;
- what a proof cites of the proofs of a lower crate stands in its module Promises;
- nothing in the project is a symbolic link, what is built included: the gate, which runs last, would take none.

Prints a line for each case and ends with `N passed, M failed`; its status is 1 where a case failed.
"""

import os
import re
import shutil
import subprocess
import sys
import tempfile
from functools import lru_cache
from pathlib import Path
from xml.etree import ElementTree

sys.path.insert(0, str(Path(__file__).resolve().parents[1] / "helpers"))

import clauses
import edits
import fault_lines
import promised
import statements
from cases import Cases

TOP = Path(__file__).resolve().parents[2]
DOCS = TOP / "docs"
PICTURE = DOCS / "crates.svg"
STYLES = {"report": TOP / "crates/trace_report/src/style.rt", "pair": TOP / "crates/trace_pair/src/style.rt"}
ARCHITECTURE = DOCS / "architecture.md"
DEFINITIONS = DOCS / "definitions.md"
PROVED = DOCS / "proved.md"
PROGRAM = "udsnorm"
# What its words ask for.
WORDS = "command_line"
LIBRARY = "udsnorm_c"
SVG = "{http://www.w3.org/2000/svg}"

# The words by which somebody looks for such a tool, and what has to have them.
SEARCHED = ["UDS", "ISO 14229", "ISO-TP", "ISO 15765-2", "DoCAN", "candump", "SocketCAN", "CAN FD", "ECU", "regression test", "diagnostic traces"]
INTRODUCING = [
    "README.md", "docs/library.md", "library/udsnorm.h", "packaging/INSTALL.md", "packaging/deb", "packaging/deb-library", "python/pyproject.toml",
    "share/man/udsnorm.1.in",
]
DESCRIPTIONS = [("pyproject.toml", r'description = "(.*)"'), ("wheel_builder.py", r"Summary: (.*)")]


def files_below(folder):
    """The files of a folder, without those that are built or hidden."""
    for path in sorted(folder.iterdir()):
        if path.name == "out" or path.name.startswith("."):
            continue
        if path.is_dir():
            yield from files_below(path)
        else:
            yield path


FILES = list(files_below(TOP))
DOCUMENTS = [path for path in FILES if path.suffix == ".md"]


def name_of(path):
    return str(path.relative_to(TOP))


def crates():
    """What each crate stands on, by crates.txt."""
    text = re.sub(r"#.*", "", (TOP / "crates.txt").read_text())
    return {name: below.split() for name, below in re.findall(r"^(\w+)(?: staticlib)?:(.*)$", text, re.M)}


def below(table, name):
    """All that a crate stands on, over any number of crates."""
    return set(table[name]).union(*(below(table, crate) for crate in table[name] if crate in table))


def picture(cases):
    with tempfile.TemporaryDirectory() as folder:
        drawn = Path(folder, "crates.svg")
        subprocess.run([TOP / "scripts" / "draw-crates", drawn], check=True, timeout=60)
        wrong = [] if drawn.read_bytes() == PICTURE.read_bytes() else ["run scripts/draw-crates"]
    cases.report("the picture is that of crates.txt", wrong)
    table = crates()
    boxes = {group.get("id"): group for group in ElementTree.parse(PICTURE).iter(f"{SVG}g")}
    cases.report("the picture has each crate", [] if set(boxes) == set(table) else [str(sorted(set(boxes) ^ set(table)))])
    shipped = {PROGRAM, *below(table, PROGRAM), LIBRARY, *below(table, LIBRARY)}
    for name in sorted(set(boxes) & set(table)):
        words = re.findall(r"\w+", " ".join(text.text for text in boxes[name].iter(f"{SVG}text")))
        kind = boxes[name].find(f"{SVG}rect").get("class")
        wrong = [] if sorted(words) == sorted([name, *table[name]]) else [f"it names {words}"]
        wrong += [] if kind == ("shipped" if name in shipped else "apart") else [f"it is {kind}"]
        cases.report(f"the picture has all that {name} stands on", wrong)
    alternative = re.search(r"!\[([^]]*)\]\(crates\.svg\)", (DOCS / "architecture.md").read_text())
    words = re.findall(r"\w+", alternative[1]) if alternative else []
    cases.report("the text in place of the picture names each crate", [f"no {name}" for name in table if name not in words])


def style(cases):
    for name, path in STYLES.items():
        written = subprocess.run([TOP / "scripts" / "report-style", name], check=True, capture_output=True, timeout=60).stdout
        wrong = [] if written == path.read_bytes() else [f"run scripts/report-style {name} > {name_of(path)}"]
        cases.report(f"the style {name} of a page is that of its file", wrong)


def prose(path):
    """A document without its blocks of code, each of their lines left blank."""
    return re.sub(r"^```.*?^```$", lambda block: "\n" * block[0].count("\n"), path.read_text(), flags=re.M | re.S)


def anchors(path):
    """What a link can name in a document: its headings in lower case, a hyphen for each space, without other signs."""
    found = []
    for heading in re.findall(r"^#+ +(.*?) *$", prose(path), re.M):
        words = re.sub(r"\[([^]]*)\]\([^)]*\)", r"\1", heading).lower()
        anchor = re.sub(r"[^\w\- ]", "", words).replace(" ", "-")
        again = found.count(anchor)
        found.append(f"{anchor}-{again}" if again else anchor)
    return found


def links(cases):
    known = {*FILES, *(folder for path in FILES for folder in path.parents)}
    count = 0
    for document in DOCUMENTS:
        wrong = []
        text = re.sub(r"`[^`\n]*`", "", prose(document))
        for link in re.findall(r"\]\(([^()\s]+)\)", text):
            if re.match(r"\w+:", link):
                continue
            count += 1
            file, _, anchor = link.partition("#")
            target = (document.parent / file).resolve() if file else document
            if target not in known:
                wrong.append(f"no file {file}")
            elif anchor and anchor not in anchors(target):
                wrong.append(f"no heading {link}")
        cases.report(f"the links of {name_of(document)}", wrong)
    cases.report("links were found", [] if count >= 100 else [f"{count} alone"])


def lengths_of_lines(cases):
    """A line of prose has at most 120 characters. Rows of tables and pictures have no other way to break, and blocks of code
    are what a shell or a program says."""
    for document in DOCUMENTS:
        lines = enumerate(prose(document).splitlines(), 1)
        wrong = [f"line {number} has {len(line)}" for number, line in lines if len(line) > 120 and not re.match(r" *\||!\[", line)]
        cases.report(f"no line of prose of {name_of(document)} is too long", wrong)


def heads_of_tables(cases):
    """A row that follows a blank line is one of no table: it shows as plain text."""
    for document in DOCUMENTS:
        tables = re.findall(r"(?:^\|.*\n)+", prose(document), re.M)
        wrong = [table.splitlines()[0][:60] for table in tables if not re.match(r"\|.*\n\|[-|: ]+\n\|", table)]
        cases.report(f"each table of {name_of(document)} has a head", wrong)


def named_files(cases):
    """A source file is named by the end of its path, from its crate or from the top. Answers to open goals come and go, and a
    script that stands on a page is saved by its reader."""
    paths = [f"/{name_of(path)}" for path in FILES]
    for document in DOCUMENTS:
        names = [name for words in re.findall(r"`([^`\n]+)`", prose(document)) for name in re.findall(r"[\w./-]+\.(?:rt|antt|py)\b", words)]
        not_here = ["Answers.antt", *re.findall(r"^```python (\S+)$", document.read_text(), re.M)]
        wrong = [f"no {name}" for name in names if not name.endswith(tuple(not_here)) and not any(path.endswith(f"/{name}") for path in paths)]
        cases.report(f"the source files that {name_of(document)} names", wrong)


def not_there_once(edit, crate):
    """What a wrong body takes away and doesn't stand once in its file, as it is after what the body changed before. A file that
    is not there has nothing to take away."""
    texts, wrong = {}, []
    for file, old, new in edits.changes(edit):
        path = crate / file
        texts.setdefault(path, path.read_text() if path.exists() else "")
        wrong += [old] if texts[path].count(old) != 1 else []
        texts[path] = texts[path].replace(old, new)
    return wrong


def wrong_bodies(cases):
    for crate in crates():
        folder = TOP / "crates" / crate
        bodies = [*edits.of_the_gate(crate), *edits.beyond_it(crate)]
        wrong = [f"{edit.name}: {old}" for edit in bodies for old in not_there_once(edit, folder)]
        names = [edit.name for edit in bodies]
        wrong += [f"{name} stands twice" for name in sorted(set(names)) if names.count(name) > 1]
        if bodies:
            cases.report(f"the wrong bodies of {crate} can be applied", wrong)


def tried_by_the_gate(cases):
    """Each row of the first table of docs/proved.md names wrong bodies in its last cell."""
    there = {edit.stem for crate in crates() for edit in edits.of_the_gate(crate)}
    for part, _, bodies in table_below(PROVED, "What is proved, and what is not"):
        names = re.findall(r"`(\w+)`", bodies)
        wrong = [f"{name} is not there" for name in names if name not in there]
        cases.report(f"the gate tries wrong bodies for: {part}", wrong if names else ["none is named"])


def definition_rows(page):
    """The rows and items of docs/definitions.md that name definitions: their names, and the files of crates/ in which they stand."""
    for line in re.sub(r"\n +", " ", page).splitlines():
        if line.startswith(("| ", "- ")) and ".antt`" in line:
            words = re.findall(r"`([^`]+)`", line)
            yield [word for word in words if re.fullmatch(r"\w+", word)], [word for word in words if word.endswith(".antt")]


def definitions(cases):
    rows = list(definition_rows(DEFINITIONS.read_text()))
    wrong = []
    for names, files in rows:
        paths = [TOP / "crates" / file for file in files]
        wrong += [f"no {path}" for path in paths if not path.exists()]
        texts = "\n".join(path.read_text() for path in paths if path.exists())
        wrong += [f"{name} is not in {', '.join(files)}" for name in names if not is_defined(name, texts)]
    cases.report("the definitions that docs/definitions.md names stand in the files that it names", wrong if rows else ["none is named"])


def is_defined(name, text):
    """A definition, a record or a list of cases of this name, for other crates to cite."""
    return re.search(rf"\bpub (?:record |data )?{re.escape(name)} ", text) is not None


def contracts(text):
    """The contracts of the public functions of a source file: what stands between their names and their bodies."""
    return re.findall(r"^( *)pub (?:extern \"C\" )?fn \w+(.*?)^\1\{", text, re.M | re.S)


def cited(path):
    """The definitions that the public functions of a source file cite in their contracts, or the laws of a file of laws in
    what they say: crate, file and name."""
    text = path.read_text()
    citing = " ".join(contract for _, contract in contracts(text)) if path.suffix == ".rt" else text
    for crate, file, names in re.findall(r"use Rattle\.(\w+)\.specs\.(\w+)\.\{([^}]*)\}", text):
        for name, alias in re.findall(r"(\w+)(?: as (\w+))?", names):
            if re.search(rf"\b{alias or name}\b", citing):
                yield crate, file, name


def prose_above(name, text):
    """The comment directly above the definition of this name."""
    found = re.search(rf"((?:^ *--.*\n)+) *(?:abbrev |unfoldable )?pub (?:record |data )?{re.escape(name)} ", text, re.M)
    return found[1] if found else ""


def citations(cases):
    """A law's statement is found by its name in a file of laws."""
    for crate in crates():
        folder = TOP / "crates" / crate
        citing = [path for path in FILES if (folder / "src") in path.parents or (path.parent == folder / "specs" and path.stem.endswith("Laws"))]
        wrong = set()
        for of, file, name in (row for path in citing for row in cited(path)):
            path = TOP / "crates" / of / "specs" / f"{file}.antt"
            text = path.read_text() if path.exists() else ""
            wrong |= {f"{name} of {of}"} if is_defined(name, text) and not prose_above(name, text) else set()
        cases.report(f"a line of prose stands above each definition that contracts and laws of {crate} cite", sorted(wrong))


def table_below(document, title):
    """The rows of the table below a heading of a document, without the one that names the columns: the cells of each."""
    section = re.search(rf"^#+ {re.escape(title)}\n(.*?)(?=^#|\Z)", document.read_text(), re.M | re.S)
    lines = re.findall(r"^\| (.*) \|$", section[1] if section else "", re.M)
    return [line.split(" | ") for line in lines[1:]]


def stands_in(call, text):
    """A call, in which `..` leaves out anything but a brace, stands in a source file, and not in a comment."""
    pattern = r"[^{}]*".join(re.escape(part) for part in call.split(".."))
    return re.search(pattern, re.sub(r"//.*", "", text)) is not None


def calls_of_the_kit(cases):
    table = crates()
    of_kit = {name for crate in {PROGRAM, *below(table, PROGRAM)} & set(table) for name in table[crate]} - set(table)
    rows = [[cell.strip("`") for cell in cells[:3]] for cells in table_below(ARCHITECTURE, "Where the crates of the kit stand")]
    named = {name for name, _, _ in rows}
    cases.report("the page of the architecture says where each crate of the kit stands", sorted(f"not {name}" for name in of_kit ^ named))
    for name, call, file in rows:
        path = TOP / "crates" / file
        text = path.read_text() if path.exists() else ""
        wrong = [] if stands_in(call, text) else [f"{call} is not there"]
        wrong += [] if re.search(rf"\b{name}::", text) else [f"it imports nothing of {name}"]
        wrong += [] if name in table.get(file.split("/")[0], []) else [f"crates.txt has no {name} below it"]
        cases.report(f"`{call}` of {name} stands in {file}", wrong)


def named_clauses(cases):
    for crate, wrong in clauses.left_out(TOP / "crates"):
        cases.report(f"the page for callers of {crate} names each clause of its calls", wrong)
    for crate, wrong in clauses.cited_wrongly(PROVED.read_text(), TOP / "crates"):
        cases.report(f"{name_of(PROVED)} cites no clause that {crate} has not", wrong)


def printed_tables():
    """The tables that scripts/clauses prints, by their crates."""
    printed = subprocess.run([TOP / "scripts" / "clauses"], check=True, capture_output=True, text=True, timeout=60).stdout
    return dict(re.findall(r"^## (\w+)\n\n(.*?)(?=\n\n|\Z)", printed, re.M | re.S))


def printed_clauses(cases):
    """What docs/proved.md cites is in the tables that scripts/clauses prints: each law and call in that of its crate."""
    tables = printed_tables()
    wrong, count = [], 0
    for section, cell in clauses.cells(PROVED.read_text()):
        for citation in clauses.citations(cell):
            table = "\n".join(tables.get(crate, "") for crate in ([citation.crate] if citation.crate else section))
            for name in citation.names:
                count += 1
                rows = re.findall(rf"^\| (?:law |private )?`(?:\w+::)*{name}` \| ([^|]*) \|", table, re.M)
                wanted = [f"`{clause}`" if clause else "without a name" for clause in citation.clauses or []]
                wrong += [] if any(all(clause in row for clause in wanted) for row in rows) else [f"no {name} with {wanted}"]
    cases.report("scripts/clauses prints what docs/proved.md cites", wrong if count >= 80 else [f"{count} citations alone", *wrong])


def printed_formulas(cases):
    """Each part of a block of docs/proved.md, between blank lines, stands in a file of a crate, whatever its white space."""
    blocks = re.findall(r"^```\n(.*?)^```$", PROVED.read_text(), re.M | re.S)
    parts = [" ".join(part.split()) for block in blocks for part in block.split("\n\n")]
    texts = [" ".join(path.read_text().split()) for path in FILES if path.suffix in (".rt", ".antt") and path.parent.name in ("src", "specs")]
    wrong = [part[:60] for part in parts if not any(part in text for text in texts)]
    cases.report("docs/proved.md prints formulas of the source", wrong if parts else ["it prints none"])


# What takes a promise of the headline away, or of a run: a file of crates/ or the page, what it takes from it, and what it puts there.
TAKEN_AWAY = [
    ("clause again is deleted", "trace_canon/src/normaliser.rt", r"    ensures again \{.*\n.*\n", ""),
    ("clause again has another name", "trace_canon/src/normaliser.rt", "ensures again", "ensures once_more"),
    ("clause again says less", "trace_canon/src/normaliser.rt", "IsCanonicalFor MESSAGE_LIMIT config.now log text", "HaveSameMeaning MESSAGE_LIMIT config.now log text"),
    ("normalise requires more", "trace_canon/src/normaliser.rt", "requires target {", "requires small { config.now.max_bytes ≡ 1 }\n    requires target {"),
    ("a law is deleted", "trace_log/src/laws.rt", r"pub fn same_meaning_same_text\(\)\n.*\n\{\}", ""),
    ("a law has another name", "trace_log/src/laws.rt", "fn outcome_is_one", "fn outcome_is_single"),
    ("a law is private", "trace_log/src/laws.rt", "pub fn outcome_is_there", "fn outcome_is_there"),
    ("a law ensures nothing", "trace_log/src/laws.rt", r"\n    ensures \{ OutcomeIsOne \}", ""),
    ("a law ensures what is always so", "trace_log/src/laws.rt", r"\{ OutcomeIsOne \}", "{ ⊤ }"),
    ("a law requires something", "trace_log/src/laws.rt", r"    ensures \{ OutcomeIsOne \}", "    requires { ⊥ }\n    ensures { OutcomeIsOne }"),
    ("a statement is always so", "trace_log/specs/Laws.antt", r"^OutcomeIsOne = (.*\n) .*", r"OutcomeIsOne = \1    → ⊤"),
    ("a statement has half of its words", "trace_log/specs/Laws.antt", r"HaveSameMeaning limit settings a b ↔ ", "HaveSameMeaning limit settings a b → "),
    ("a record has a field less", "trace_log/specs/Laws.antt", r"  pub own : .*\n(?=  pub same_meaning)", ""),
    ("a definition far below says less", "isotp_receive/specs/StandingReception.antt", r"nat_le micros \(standing.reference \+ n_cr\)", "true"),
    ("the record of runs has a field less", "trace_run/specs/Ran.antt", r"  pub eager : .*\n.*\n", ""),
    ("the record of runs says less", "trace_run/specs/Ran.antt", r"(pub eager : .*) → WritesSaidEagerly .*\n.*", r"\1 → ⊤"),
    ("a law beyond the headline is deleted", "uds_exchange/src/laws.rt", r"pub fn held_must_wait\(\)\n.*\n\{\}", ""),
    ("a run over a log may tell nothing as it comes", "udsnorm/specs/Run.antt", r"  pub eager : .*\n.*\n", ""),
    ("a run over a log may have any status", "udsnorm/specs/Run.antt", r"  pub status_is : status ≡ status_of_run strict outcome\n", ""),
    ("the right log may be read after a fault of the left", "udsnorm/specs/Run.antt", r"  pub unread : .*\n", ""),
    ("an engine need not tell as the log comes", "udsnorm/specs/Engines.antt", r"^(writes_eagerly_of \(runs script needs\) .*) = .*", r"\1 = ⊤"),
    ("a log may be that of another file", "udsnorm/specs/Profiled.antt", r"  pub by_name : .*\n", ""),
    ("the right log may have been read", "udsnorm/specs/Asked.antt", r"  pub other_unread : .*\n", ""),
    ("what is done with status 0 may be anything", "udsnorm/specs/Asked.antt", r"(?:^IsDoneBy .*\n(?:  .*\n)*)+", "IsDoneBy says file asked log before after = ⊤\n"),
    ("a hint may be given where none is wanted", "udsnorm/specs/Process.antt", r"  pub only_there : is_wanted .*\n", ""),
    ("memory may be refused for any log", "trace_canon/specs/InMemory.antt", r"  pub memory : fault ≡ Memory → .*\n", ""),
    ("each log is clean", "udsnorm/specs/Ending.antt", r"^is_unclean strict summary = .*", "is_unclean strict summary = false"),
    ("pairs may have any order", "uds_find/specs/Finding.antt", r"  pub sorted : IsSorted .*\n", ""),
    ("the least credits stand first", "uds_find/specs/Finding.antt", r"other\.credits one\.credits", "one.credits other.credits"),
    ("faults have another order", "isotp_pdu/specs/Fault.antt", r"^precedence fault.Remote = 1", "precedence fault.Remote = 2"),
    ("a name is that of another definition", "udsnorm/specs/Run.antt", r"\{ComesTo, answer_written, flushes, status_of_run, ", "{ComesTo, answer_written, flushes, status_of_pair as status_of_run, "),
    ("a clause's name is that of another definition", "trace_canon/src/normaliser.rt", r"\bIsCanonicalFor([,}])", r"HaveSameMeaning as IsCanonicalFor\1"),
    ("a name means nothing", "udsnorm/specs/Run.antt", r", has_text\}", "}"),
]


def taken_away(cases):
    """Each edit is made in a copy, in which all else is as it is here. A test that finds nothing in one would find nothing here."""
    page = PROVED.read_text()
    with tempfile.TemporaryDirectory() as room:
        copy = Path(room, "crates")
        shutil.copytree(TOP / "crates", copy, ignore=shutil.ignore_patterns("out", "proofs", "must-fail"))
        cases.report("nothing is wrong with a copy", promised.wrong(page, copy))
        for name, file, old, new in TAKEN_AWAY:
            text = (copy / file).read_text()
            edited, count = re.subn(old, new, text, flags=re.M)
            (copy / file).write_text(edited)
            wrong = [] if count == 1 else [f"it changes {count} places"]
            wrong += [] if promised.wrong(page, copy) else ["no test sees it"]
            cases.report(f"a promise is taken away where {name}", wrong)
            (copy / file).write_text(text)


def texts_of_clauses(cases):
    found = promised.Promised(PROVED.read_text(), TOP / "crates")
    cases.report("what docs/proved.md cites is as tests/documents/clauses.txt lists it", promised.changed(found))
    cases.report("each name in what docs/proved.md cites means something", found.unknown)
    cases.report("no law says nothing", list(found.empty()))


# Wrong copies of attacks/laws.txt: what is taken from its lines, and what is put there.
LINES_OF_LAWS = [
    ("a law without a line", r"^can_log log_tells_one .*\n", ""),
    ("a law that is not there", r"^can_log log_tells_one (.*)", r"\g<0>\ncan_log log_tells_two \1"),
    ("a wrong body that is not there", "^can_log log_tells_one ", r"\g<0>definition_of_two_logs\n\g<0>"),
    ("a wrong body of another crate", "^can_log log_tells_one ", r"\g<0>definition_of_early_as_all\n\g<0>"),
    ("a line without a wrong body", "^(can_log log_tells_one) ", r"\1\n\g<0>"),
    ("a law of the headline that the gate tries nothing of", "definition_of_a_report_without_the_refused_place", "definition_of_meanings_of_some_of_the_lines"),
]


def bodies_of_laws(cases):
    lines = edits.LAWS.read_text()
    cases.report("each law has a wrong body that makes it false, one of the headline in the gate", wrong_lines(lines))
    for name, old, new in LINES_OF_LAWS:
        edited, count = re.subn(old, new, lines, flags=re.M)
        wrong = [] if count == 1 else [f"it changes {count} places"]
        wrong += [] if wrong_lines(edited) else ["no test sees it"]
        cases.report(f"attacks/laws.txt is not taken with {name}", wrong)


def wrong_lines(text):
    """What is wrong with lines of attacks/laws.txt: each names a law and a wrong body that are there, each law has one, and a law
    of the headline one whose wrong body the gate tries."""
    laws, of_headline, gate, bodies = laws_and_bodies()
    whole = [line for line in edits.laws(text) if len(line) == 3]
    wrong = [f"{' '.join(line)} is no line" for line in edits.laws(text) if len(line) != 3]
    wrong += [f"no law {law} of {crate}" for crate, law, _ in whole if (crate, law) not in laws]
    wrong += [f"no {body} of {crate}" for crate, _, body in whole if (crate, body) not in bodies]
    having = {(crate, law) for crate, law, _ in whole}
    tried = {(crate, law) for crate, law, body in whole if (crate, body) in gate}
    wrong += [f"{law} of {crate} has no line" for crate, law in sorted(laws - having)]
    return wrong + [f"{law} of {crate} has none in the gate" for crate, law in sorted(laws - tried) if law in of_headline]


@lru_cache(maxsize=None)
def laws_and_bodies():
    """The laws, each with its crate; the names of those of the headline; and the wrong bodies with their crates: those of the gate, and
    all."""
    page = PROVED.read_text()
    of_headline = {name for _, cell in list(clauses.cells(page))[: clauses.rows_of_the_headline(page)] for name in laws_in(cell)}
    laws = {(crate, law.path.partition("::")[2]) for crate in crates() for law in clauses.Contracts(TOP / "crates" / crate).laws()}
    gate = {(crate, edit.stem) for crate in crates() for edit in edits.of_the_gate(crate)}
    return laws, of_headline, gate, gate | {(crate, edit.stem) for crate in crates() for edit in edits.beyond_it(crate)}


def laws_in(cell):
    return [name for citation in clauses.citations(cell) if citation.kind == clauses.LAW for name in citation.names]


# A crate in which two files define one name, and of which laws are made: definitions that cite each other, that have parameters in common,
# on two lines, a case, and an operator, whose equation begins with the name of another definition.
MADE = {
    "Left.antt": "pub same : ℕ\nsame = part\n\npart : ℕ\npart = 1\n",
    "Right.antt": "pub same : ℕ\nsame = other\n\nabbrev mutual\n  pub other : ℕ\n  other = 2\n",
    "Parts.antt": "module _ (limit : ℕ)\n    (most : ℕ) where\n  pub Within : ℕ → Type 0\n  Within n = n ≤ rank one\n\npub data Kind : Type 0 where\n  one : Kind\n\n"
    "rank : Kind → ℕ\nrank one = 1\n\ninfixl 10 ◌><◌\nabbrev pub ◌><◌ : ℕ → ℕ → ℕ\nrank >< limit = limit\n",
    "Laws.antt": "use Rattle.made.specs.Left.{same}\nuse Rattle.made.specs.Right as right\nuse Rattle.made.specs.Parts.{◌><◌, Within}\n\n"
    "pub One : Type 0\nOne = same ≡ 1\n\npub Two : Type 0\nTwo = right.same ≡ 2\n\npub Three : Type 0\nThree = Within 1 2\n\npub Four : Type 0\nFour = 1 >< 2\n",
}
MADE_OF = {
    "One": {("Left", "same"), ("Left", "part")},
    "Two": {("Right", "same"), ("Right", "other")},
    "Three": {("Parts", "Within"), ("Parts", "Kind"), ("Parts", "rank")},
    "Four": {("Parts", "◌><◌"), ("Parts", "Kind"), ("Parts", "rank")},
}
OF_A_LAW = "ghost use Rattle.made.specs.Laws.{One, Two, Three, Four};"


def made(folder, files):
    """The definitions of a crate of these files."""
    specs = Path(folder, "made", "specs")
    specs.mkdir(parents=True)
    for name, text in files.items():
        (specs / name).write_text(text)
    return statements.Definitions(specs.parent)


def names_of_definitions(cases):
    with tempfile.TemporaryDirectory() as folder:
        known = made(folder, MADE)
    scope = known.uses(statements.used_in(OF_A_LAW))
    for law, want in MADE_OF.items():
        found = known.reached(f"ensures {{ {law} }}", scope)
        wanted = {(("made", f"specs/{file}.antt"), name) for file, name in {("Laws", law), *want}}
        cases.report(f"the law {law} is made of the definitions of one file", [] if found == wanted else [str(sorted(found ^ wanted))])


# Lines of a file, and what of them means nothing.
NAMED = [
    ("names that are used or bound", "use Rattle.std.specs.Prelude.{ℕ, ◌+◌}\npub sum : ℕ → ℕ\nsum n = (λ m. let k = m + n in k) n\n", []),
    ("a name that no line brings", "pub sum : ℕ → ℕ\nsum n = n\n", ["ℕ"]),
    ("an operator that no line brings", "pub sum : Type 0\nsum = λ n. n + n\n", ["+"]),
    ("a name that its file lacks", "use Rattle.made.specs.Left as left\npub sum : Type 0\nsum = left.other\n", ["left.other"]),
    ("a line for a name that its file lacks", "use Rattle.made.specs.Left.{other}\n", ["Rattle.made.specs.Left.other"]),
    ("a line for a file that is not there", "use Rattle.made.specs.Middle as middle\n", ["Rattle.made.specs.Middle"]),
    ("types of the code", "use Rattle.made.specs.declared.Kind.TheVariants as kind\npub sum : Type 0\nsum = kind.One\n", []),
]


def names_that_mean_nothing(cases):
    for name, text, want in NAMED:
        with tempfile.TemporaryDirectory() as folder:
            known = made(folder, {"Left.antt": MADE["Left.antt"], "Named.antt": text})
        file = ("made", "specs/Named.antt")
        found = [word for of in known.texts[file] for word in known.unknown_in(file, of)] + known.lost(known.files[file].used)
        cases.report(f"what means nothing: {name}", [] if sorted({*found}) == want else [str(found)])


def decisions(cases):
    page = (DOCS / "DECISIONS.md").read_text()
    found = re.split(r"^(?:- (?=\*\*)|## )", page, flags=re.M)
    lacking = [decision.splitlines()[0] for decision in found if decision.startswith("**") and "*Otherwise:*" not in decision]
    cases.report("each decision says what would change it", lacking)


def searched_words(cases):
    for name in INTRODUCING:
        text = re.sub(r"\s+(\* )?", " ", (TOP / name).read_text())
        cases.report(f"{name} has the words that are searched", [f"no {word}" for word in SEARCHED if word not in text])
    told = [re.search(pattern, (TOP / "python" / file).read_text())[1] for file, pattern in DESCRIPTIONS]
    cases.report("the Python package has one description", [] if told[0] == told[1] else told)
    project, metadata = ((TOP / "python" / file).read_text() for file in ("pyproject.toml", "wheel_builder.py"))
    keywords = re.findall(r'"([^"]+)"', re.search(r"^keywords = \[(.*)\]", project, re.M)[1])
    wrong = [] if re.search(r"^Keywords: (.*)$", metadata, re.M)[1].split(",") == keywords else ["other keywords"]
    classifiers = re.findall(r'^    "(\w.* :: .*)",$', project, re.M)
    wrong += [] if re.findall(r"^Classifier: (.*)$", metadata, re.M) == classifiers != [] else ["other classifiers"]
    cases.report("the wheel has the keywords and classifiers of the Python package", wrong)


def lines_of_faults(cases):
    for name, wrong in fault_lines.compared(TOP / "crates"):
        cases.report(f"what {name} displays is the line that is told of it", wrong)


def version_of_the_source(cases):
    version = (TOP / "VERSION").read_text().rstrip("\n")
    texts = [path.read_text() for crate in (WORDS, PROGRAM) for path in (TOP / "crates" / crate / "src").glob("*.rt")]
    told = [number for text in texts for number in re.findall(r'"(\d+\.\d+\.\d+)"', text)]
    cases.report("the source of the command line has the number of the version, once", [] if told == [version] else [f"it has {told}, not {version}"])


def lower_proofs(cases):
    """What a proof cites of the proofs of a lower crate stands in its module Promises."""
    known = crates()
    for crate in known:
        paths = [path for path in FILES if path.suffix == ".antt" and (TOP / "crates" / crate) in path.parents]
        cited = [(path, *found) for path in paths for found in re.findall(r"\bRattle\.(\w+)\.proofs\.(\w+)", path.read_text())]
        wrong = {f"{name_of(path)}: {of}.{module}" for path, of, module in cited if of in known and of != crate and module != "Promises"}
        cases.report(f"proofs of {crate} cite of other crates what these promise", sorted(wrong))


def symbolic_links(cases):
    """The files of the project that `rt ci` would not take. Beside proofs, what is built comes and goes meanwhile."""
    paths = (Path(place, name) for place, folders, files in os.walk(TOP) for name in folders + files)
    cases.report("no file is a symbolic link", [str(path.relative_to(TOP)) for path in paths if path.is_symlink()])


def main():
    cases = Cases(None, sys.argv[1:])
    cases.each([
        picture, style, links, lengths_of_lines, heads_of_tables, named_files, wrong_bodies, tried_by_the_gate, definitions, citations, calls_of_the_kit,
        named_clauses, printed_clauses, printed_formulas, texts_of_clauses, taken_away, bodies_of_laws, names_of_definitions, names_that_mean_nothing,
        decisions, searched_words, lines_of_faults, version_of_the_source, lower_proofs, symbolic_links,
    ])
    cases.end()


main()
