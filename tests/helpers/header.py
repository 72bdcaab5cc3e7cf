"""The header of the library beside the crate that it stands for: statuses, styles, the answer, the calls and the version.

What C has to see of the crate is made of its source: the statuses and the styles, the usual identifiers, the fields of
the answer with their types and, by the rules of C, their places, and the types of the calls. A compiler then takes that
beside the header, and refuses what differs.
"""

import re
from pathlib import Path

TOP = Path(__file__).resolve().parents[2]
CRATE = TOP / "crates" / "udsnorm_c" / "src"
HEADER = TOP / "library" / "udsnorm.h"

# How C writes the type of a parameter. A slice is a pointer and a length, of signs where it is the name of a log or a unit; the allocator
# takes no bytes.
IN_C = {
    "Global": [],
    "u32": ["uint32_t"],
    "u64": ["uint64_t"],
    "&[u8]": ["const uint8_t *", "size_t"],
    "name": ["const char *", "size_t"],
    "&mut [u8]": ["uint8_t *", "size_t"],
    "&mut UdsnormAnswer": ["struct udsnorm_answer *"],
}
RESULTS_IN_C = {"u32": "uint32_t", "UdsnormWords": "struct udsnorm_words"}
SIZES = {"u16": 2, "u32": 4, "u64": 8}

# The names that the header gives to the styles of the crate, and to constants of it.
STYLES = {
    ("Text", "Shown"): "TEXT", ("Text", "Hidden"): "NO_NUMBERS",
    ("Json", "Shown"): "JSON", ("Json", "Hidden"): "JSON_NO_NUMBERS",
}
CONSTANTS = {"USUAL_TESTER": "TESTER", "USUAL_UNIT": "UNIT", "EXTENDED": "EXTENDED"}


def statuses():
    """The names and numbers of the statuses in the crate."""
    return {name: int(number) for name, number in re.findall(r"^const (\w+): u32 = (\d+);$", (CRATE / "answer.rt").read_text(), re.M)}


def styles():
    """The names of the header and the numbers of the crate: of the styles of a list."""
    found = re.findall(r"^        (\d+) => Some\(written\(Notation::(\w+), Numbering::(\w+)\)\),$", (CRATE / "sides.rt").read_text(), re.M)
    return {STYLES[notation, numbering]: int(number) for number, notation, numbering in found}


def constants():
    """The same of identifiers and their flag."""
    found = re.findall(r"^(?:pub\(crate\) )?const (\w+): u32 = (0x\w+);$", (CRATE / "sides.rt").read_text(), re.M)
    return {CONSTANTS[name]: int(number, 16) for name, number in found}


def fields():
    """The fields of the answer in the crate: name and type, in order."""
    body = re.search(r"pub struct UdsnormAnswer \{\n(.*?)^\}", (CRATE / "answer.rt").read_text(), re.M | re.S)[1]
    return re.findall(r"^    pub (\w+): (\w+),$", body, re.M)


def calls():
    """The calls of the crate: their names, and the types of their results and of their parameters as C writes them."""
    source = (CRATE / "lib.rt").read_text()
    for name, parameters, result in re.findall(r'#\[unsafe\(no_mangle\)\]\npub extern "C" fn (\w+)\(([^)]*)\) -> (\w+)\b', source):
        typed = [[word.strip() for word in part.split(":", 1)] for part in parameters.split(",") if ":" in part]
        yield name, RESULTS_IN_C[result], [c for word, of in typed for c in IN_C["name" if word == "only" or word.endswith("name") else of]]


def words_length():
    """How many bytes the words of a status have in the crate."""
    return int(re.search(r"const WORDS: usize = (\d+);", (CRATE / "answer.rt").read_text())[1])


def version():
    major, minor, patch = map(int, (TOP / "VERSION").read_text().split("."))
    return major << 16 | minor << 8 | patch


def declared():
    """The calls that the header declares."""
    return set(re.findall(r"^(?:uint32_t|struct \w+) (udsnorm_\w+)\(", HEADER.read_text(), re.M))


def beside():
    """A C file that is compiled only where the header says what the crate says."""
    lines = ["#include <stddef.h>", '#include "udsnorm.h"', "#define SAME(name, a, b) typedef char name[(a) == (b) ? 1 : -1]"]
    numbers = [*statuses().items(), *styles().items(), *constants().items()]
    lines += [f"SAME(number_{name.lower()}, UDSNORM_{name}, {number});" for name, number in numbers]
    place = 0
    for name, of in fields():
        lines.append(f"SAME(place_{name}, offsetof(struct udsnorm_answer, {name}), {place});")
        lines.append(f"SAME(size_{name}, sizeof(((struct udsnorm_answer *)0)->{name}), {SIZES[of]});")
        if place % SIZES[of]:
            raise ValueError(f"{name} has a gap before it")
        place += SIZES[of]
    lines.append(f"SAME(size_of_the_answer, sizeof(struct udsnorm_answer), {place});")
    lines.append(f"SAME(version, UDSNORM_VERSION, {version()});")
    lines.append(f"SAME(size_of_the_words, sizeof(struct udsnorm_words), {words_length()});")
    for name, result, types in calls():
        pointer = f"{result} (*const at_{name})({', '.join(types) or 'void'})"
        lines += [f"extern {pointer};", f"{pointer} = {name};"]
    return "\n".join(lines) + "\n"


def differences():
    """What no compiler sees: calls of one side alone, values of the header that the crate has not, and the version."""
    ours = {name for name, *_ in calls()}
    wrong = [f"{name} stands on one side" for name in sorted(ours ^ declared())]
    for kind, known in (("status", statuses()), ("style", styles())):
        names = re.findall(r"^    UDSNORM_(\w+) = \d+,? ", re.search(rf"enum udsnorm_{kind} \{{(.*?)\}};", HEADER.read_text(), re.S)[1], re.M)
        wrong += [f"the {kind} {name} stands on one side" for name in sorted(set(names) ^ set(known))]
    number = int(re.search(r"^const VERSION: u32 = (\w+);$", (CRATE / "lib.rt").read_text(), re.M)[1], 16)
    return wrong + ([] if number == version() else [f"the version of the crate is {number:#x}"])
