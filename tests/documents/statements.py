"""What a statement is made of: the definitions that it reaches, by the `use` lines of the file in which each stands. A name may be that
of two definitions, in two files; each is another one.

What the `use` lines name of other crates than those that are given, as those of the kit, is left out, and so is what is made of
the code: its types (`specs.declared`), and what a call owes (`specs.contracts`). Every other name is a definition's, one that is bound
where it stands, or a word of the language; else it is unknown, which is an error. A name that is bound in one part of a definition
may be a definition's in another: so it is taken for that, too, where there is one."""

import re
from collections import namedtuple
from functools import lru_cache

# What a name is made of, and the words that are none: those of the language, and what stands between names.
NAME = r'[^\s(){}.;,@"«»]+'
WORD = re.compile(r'[^\s(){};,@"«»]+')
RESERVED = frozenset(
    "data record deriving module where use mod pub package open as unfoldable abbrev axiom unfold unfolding ruleset mutual infix infixl infixr "
    "elim let in do λ ∀ Type 𝕀 𝔽 tt Unit absurd ⊥ ¬ → × ↦ ← = | : [ ] _".split()
)
QUOTED = re.compile(r'"(?:\\.|[^"\\\n])*"')
# A type of the code in a clause that is not one word.
TYPE = re.compile(r"⟦[^⟧]*⟧")

# The line with which a definition begins: marks and a name, or a name and its type. Other lines at the margin are its equations. Lines
# that belong to none; those that name what is used; and those above definitions that stand two places further right, because they
# cite each other or have the same parameters.
BEGINS = re.compile(rf"(?:(?:abbrev|unfoldable|pub|record|data) )+({NAME})(?= |$)|({NAME})(?: \{{[^}}]*\}})? :")
OF_NONE = re.compile(r"(?:use|pub mod|infix[lr]?|open) ")
USES = re.compile(rf"^ *(?:ghost )?use ((?:\w+\.)+?\w+)(?:\.\{{([^}}]*)\}}| as ({NAME}))?;?$", re.M)
TOGETHER = re.compile(r"(?:abbrev )?mutual$|(module _ .*where)$")
# The parameters that stand on a second line.
MORE_PARAMETERS = re.compile(r"^(module _ .*(?<!where))\n +(.*where)$", re.M)
CASE = re.compile(rf"^  ({NAME}) :", re.M)

# Where names are bound: with their type, by a λ, by `let`, as fields of a record or cases, as fields of a value or arguments that are
# given by name, and in a line of a `do` block. An equation binds what stands before its sign.
BINDING = [
    re.compile(rf"[({{]((?:{NAME} )+):"),
    re.compile(r"λ ([^.]*)\."),
    re.compile(rf"\blet ({NAME}|\([^)]*\)) [:=]"),
    re.compile(rf"^  (?:pub )?({NAME}) :", re.M),
    re.compile(rf"[{{;]\s*({NAME}) ="),
    re.compile(rf"({NAME}) ←"),
]
EQUATION = re.compile(r"^\S(?:\{[^}]*\}|(?! =(?: |$))[^{\n])*(?= =(?: |$))", re.M)

# What a file has: the texts of its definitions by their names, the lists that its cases are of, and, by the names that its `use` lines
# give them, the module of each and its name there, None for the whole module.
File = namedtuple("File", "texts cases used")
OF_THE_CODE = ("declared", "contracts")
LEFT_OUT = object()


@lru_cache(maxsize=None)
def read(text):
    texts = definitions_in(text)
    cases = {case: name for name, said in texts.items() if re.match(r"(?:pub )?data ", said) for case in CASE.findall(said)}
    return File(texts, cases, used_in(text))


@lru_cache(maxsize=None)
def used_in(text):
    found = {}
    for module, names, alias in USES.findall(text):
        for name in filter(None, (part.strip() for part in names.split(","))):
            there, _, here = name.partition(" as ")
            found[here or there] = (module, there)
        if not names:
            found[alias or module.rpartition(".")[2]] = (module, None)
    return found


@lru_cache(maxsize=None)
def definitions_in(text):
    """The definitions of a file by their names, each with its equations, and with the parameters that it has in common with others."""
    texts, name, above = {}, None, None
    for line in MORE_PARAMETERS.sub(r"\1 \2", text).splitlines():
        if line.lstrip().startswith("--"):
            continue
        together = TOGETHER.match(line)
        if together or above is not None and line[:1].strip():
            name, above = None, f"{together[1]}\n" if together and together[1] else "" if together else None
            if together:
                continue
        line = line.removeprefix("  ") if above is not None else line
        name = begun(line, name, texts)
        if name:
            texts[name] = texts.get(name, above or "") + line + "\n"
        elif line.strip() and not OF_NONE.match(line):
            raise ValueError(f"no definition has this line: {line!r}")
    return texts


def begun(line, name, texts):
    """The definition that a line belongs to, where the one before belongs to this. An equation of an operator begins with what it is of."""
    if not line[:1].strip():
        return name
    if OF_NONE.match(line):
        return None
    first = BEGINS.match(line)
    if first:
        return first[1] or first[2]
    word = line.partition(" ")[0]
    return word if word in texts and "◌" not in (name or "") else name


@lru_cache(maxsize=None)
def mentioned(text):
    """The names in a text, each with the one behind its dot. What follows a value and a dot is a field. A `do` block cites the
    operators that join its lines."""
    found = {}
    for word in WORD.findall(TYPE.sub("", QUOTED.sub("", text))):
        first, _, later = word.partition(".")
        if first and first not in RESERVED and not first[0].isdecimal():
            found[first, later.partition(".")[0]] = None
        if first == "do":
            found |= {(">>=", ""): None, (">>", ""): None}
    return list(found)


@lru_cache(maxsize=None)
def bound_in(text):
    """The names that a definition binds somewhere."""
    text = QUOTED.sub('""', text)
    parts = [part for form in BINDING for part in form.findall(text)] + [found[0] for found in EQUATION.finditer(text)]
    return {name for part in parts for name in re.findall(NAME, part)}


class Definitions:
    """The definitions of some crates, by file, which is crate and path, and name."""

    def __init__(self, *crates):
        self.crates = {crate.name for crate in crates}
        paths = {(crate.name, str(path.relative_to(crate))): path for crate in crates for path in sorted((crate / "specs").rglob("*.antt"))}
        self.files = {file: read(path.read_text()) for file, path in paths.items()}
        self.texts = {file: found.texts for file, found in self.files.items()}
        self.scopes, self.below = {}, {}

    def of_name(self, file, name):
        """What a name is of in a file: the definition, or the list of cases; None where it is there for nothing."""
        found = self.files.get(file, File({}, {}, {}))
        name = found.cases.get(name, name)
        return (file, name) if name in found.texts else None

    def meant(self, module, name):
        """What a `use` line means by a name of a module: a definition, or the whole file; None where it is not there."""
        path = module.split(".")
        if path[0] != "Rattle" or path[1] not in self.crates or path[3:4] and path[3] in OF_THE_CODE:
            return LEFT_OUT
        file = (path[1], "/".join(path[2:]) + ".antt")
        return self.of_name(file, name) if name else file if file in self.files else None

    def uses(self, used):
        """What the names mean that `use` lines give, and the parts of operators."""
        return with_parts({name: self.meant(*there) for name, there in used.items()})

    def scope(self, file):
        """What a file's names mean: those of its `use` lines, and its own."""
        if file not in self.scopes:
            texts, cases, used = self.files[file]
            own = {name: self.of_name(file, name) for name in [*texts, *cases]}
            self.scopes[file] = self.uses(used) | with_parts(own)
        return self.scopes[file]

    def looked_up(self, text, scope):
        """The names of a text, each with what it means, None where it means nothing here."""
        for first, second in mentioned(text):
            found = scope.get(first)
            if found in self.files:
                found = self.of_name(found, second)
            yield f"{first}.{second}" if second and first in scope else first, first, found

    def named(self, text, scope):
        """The definitions that a text names, by file and name."""
        return {found for _, _, found in self.looked_up(text, scope) if found not in (None, LEFT_OUT)}

    def reached(self, statement, scope):
        """The definitions that a statement is made of, over any number of others, by file and name."""
        return self.below_all(self.named(statement, scope))

    def below_all(self, definitions):
        """These definitions, and those that they are made of."""
        found, left = set(), set(definitions)
        while left:
            found |= left
            left = set().union(*(self.named_by(*definition) for definition in left)) - found
        return found

    def named_by(self, file, name):
        """The definitions that a definition names."""
        if (file, name) not in self.below:
            self.below[file, name] = self.named(self.texts[file][name], self.scope(file))
        return self.below[file, name]

    def lost(self, used):
        """The `use` lines that lead nowhere."""
        return [f"{module}.{name or ''}".rstrip(".") for module, name in used.values() if self.meant(module, name) is None]

    def unknown(self, text, scope, bound):
        """The names of a text that mean nothing here, and are not bound."""
        return [name for name, first, found in self.looked_up(text, scope) if found is None and first not in bound]

    def unknown_in(self, file, name):
        """Those of a definition."""
        text = self.texts[file][name]
        return self.unknown(text, self.scope(file), bound_in(text))


def brought(text, used):
    """What these `use` lines say of the names in a text: a line for each."""
    known = with_parts(used)
    return {" ".join((first, *filter(None, known[first]))) for first, _ in mentioned(text) if first in known}


def with_parts(scope):
    """Names with their meanings, and with the parts of those that are operators: `◌+◌` is also `+`."""
    parts = {part: found for name, found in scope.items() if "◌" in name for part in name.split("◌") if part}
    return parts | scope
