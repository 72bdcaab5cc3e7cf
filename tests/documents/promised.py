"""What docs/proved.md promises, as it is written: a line for each clause that it cites, for each law, and for each definition of which
these are made, over any number of others, in whatever crate. tests/documents/clauses.txt has these lines, so that a clause, a law or a definition
that is weakened under its name is a change of that file, which somebody reads:

    CRATE FUNCTION CLAUSE CHECKSUM        a clause, `-` where it has no name; `requires` for all that the function requires
    CRATE FILE DEFINITION CHECKSUM        a definition of specs/
    CRATE FILE use CHECKSUM               what the `use` lines of a file say of the names in these clauses and definitions

Of a run the clause is `ran`, and its records are definitions. What is the kit's has no line, nor what is made of the code: types, and
what a call owes. Names are looked up as statements.py says; one that means nothing is an error. `scripts/clauses --write` writes the
file anew."""

import hashlib
import re
from pathlib import Path

import clauses
import statements

LIST = Path(__file__).resolve().parent / "clauses.txt"

# What a clause calls what is returned.
RESULT = {"result"}


def checksum(text):
    """Of a text, whatever its white space."""
    return hashlib.sha256(" ".join(text.split()).encode()).hexdigest()[:12]


class Promised:
    """What a page promises of the crates of a folder."""

    def __init__(self, page, folder):
        self.folder = folder
        self.contracts = {path.parent.name: clauses.Contracts(path.parent) for path in sorted(folder.glob("*/CALLING.md"))}
        self.known = statements.Definitions(*(path.parent for path in sorted(folder.glob("*/specs"))))
        self.found, self.named, self.brought, self.files, self.unknown = set(), set(), {}, {}, []
        for section, cell in clauses.cells(page):
            for crate, function, names in clauses.cited(cell, section, self.contracts):
                self.add(crate, function, names)
        for crate, contracts in self.contracts.items():
            for law in contracts.laws():
                self.add(crate, law, law.clauses)
        for of, name in self.known.below_all(self.named):
            self.add_definition(of, name)
        for of, said in self.brought.items():
            self.found.add((*of, "use", checksum("\n".join(sorted(said)))))
        for of, file in self.known.files.items():
            self.unknown += [f"{' '.join(of)}: {line} is not there" for line in self.known.lost(file.used)]

    def add(self, crate, function, names):
        """Adds these clauses of a function, what it requires, and the definitions that they name."""
        cited = {name if name in function.texts else clauses.record_of(function.texts) for name in names} | {clauses.REQUIRES}
        file, used, scope = self.source(crate, function)
        for name in cited & set(function.texts):
            text = function.texts[name]
            self.found.add((crate, function.path, name or "-", checksum(text)))
            self.bring(crate, file, text, used)
            self.named |= self.known.named(text, scope)
            unknown = self.known.unknown(text, scope, function.names | statements.bound_in(text) | RESULT)
            self.unknown += [f"{crate} {function.path}: {word} means nothing" for word in unknown]

    def add_definition(self, of, name):
        """Adds a definition of which some clause is made."""
        text = self.known.texts[of][name]
        self.found.add((*of, name, checksum(text)))
        self.bring(*of, text, self.known.files[of].used)
        self.unknown += [f"{' '.join(of)} {name}: {word} means nothing" for word in self.known.unknown_in(of, name)]

    def bring(self, crate, file, text, used):
        """Adds what the `use` lines of a file say of the names in a text."""
        self.brought.setdefault((crate, file), set()).update(statements.brought(text, used))

    def source(self, crate, function):
        """The file of a function, what its `use` lines name, and what these names mean."""
        file = f"src/{function.path.partition('::')[0]}.rt"
        if (crate, file) not in self.files:
            used = statements.used_in((self.folder / crate / file).read_text())
            self.files[crate, file] = file, used, self.known.uses(used)
            self.unknown += [f"{crate} {file}: {line} is not there" for line in self.known.lost(used)]
        return self.files[crate, file]

    def cited(self):
        """The functions of which there is a clause, each with its crate."""
        return {row[:2] for row in self.found}

    def lines(self):
        return sorted(" ".join(row) for row in self.found)

    def empty(self):
        """The laws that say nothing: those that ensure nothing, or whose conclusion is ⊤."""
        for crate, contracts in self.contracts.items():
            for law in contracts.laws():
                scope = self.source(crate, law)[2]
                texts = [text for name, text in law.texts.items() if name != clauses.REQUIRES]
                said = [*texts, *(self.known.texts[of][name] for text in texts for of, name in self.known.named(text, scope))]
                if not texts or any(says_nothing(text) for text in said):
                    yield f"{law.path} of {crate} says nothing"


def says_nothing(text):
    """A statement whose conclusion is ⊤, or a record without fields."""
    body = text.rpartition(" where")[2] if "record " in text else text
    return re.split(r"→|\s=\s", body)[-1].strip("() \n") in ("⊤", "")


def changed(promised):
    """What the lines of a page's promises and of tests/documents/clauses.txt differ in."""
    now, listed = set(promised.lines()), set(LIST.read_text().splitlines())
    return [f"not as listed: {line}" for line in sorted(now - listed)] + [f"not there: {line}" for line in sorted(listed - now)]


def wrong(page, folder):
    """All that is wrong with what a page promises."""
    promised = Promised(page, folder)
    cited = [line for _, lines in clauses.cited_wrongly(page, folder) for line in lines]
    return [*cited, *promised.unknown, *promised.empty(), *changed(promised)]
