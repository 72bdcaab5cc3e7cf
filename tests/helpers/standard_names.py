"""Names that the standards have for the first bytes of a message: a second reading, by the rows that are typed from the standards.

The rows are those of crates/acceptance/src/standard_names.rt. Of a range these have both ends; what lies between is said here.
"""

import re
from pathlib import Path

import oracle

ROWS = Path(__file__).resolve().parents[2].joinpath("crates/acceptance/src/standard_names.rt").read_text()


def table(name):
    """The names of a table, by the bytes of their numbers."""
    rows = re.search(rf'const {name}: &str = "\\\n(.*?)";', ROWS, re.DOTALL)[1].splitlines()
    split = (row.split(" ", 1) for row in rows)
    return {bytes.fromhex(digits): name for digits, name in split if name != "-"}


SUB_FUNCTIONS = table("SUB_FUNCTIONS") | {bytes([0x27, level]): "requestSeed" if level % 2 else "sendKey" for level in range(0x01, 0x43)}
IDENTIFIERS = table("DATA_IDENTIFIERS")
ROUTINES = table("ROUTINES")
CODES = table("RESPONSE_CODES")
OBD, KWP = table("OBD_SERVICES"), table("KWP_SERVICES")

IDENTIFIERS.update({bytes([high, low]): IDENTIFIERS[bytes([high, 0])] for high in (0xF2, 0xF3, 0xF4, 0xF6, 0xF8) for low in range(0x100)})
CODES.update({bytes([code]): CODES[b"\x95"] for code in range(0x95, 0xF0)} | {bytes([code]): CODES[b"\xF0"] for code in range(0xF0, 0xFF)})

# The services behind whose identifier a data identifier stands.
WITH_IDENTIFIER = (0x22, 0x24, 0x2E, 0x2F)


def code_told(code):
    """A response code, as a page tells it."""
    if bytes([code]) in CODES:
        return f"{CODES[bytes([code])]} {code:02X}"
    return oracle.CODES.get(code, f"code_{code:02X}")


def names_of(message):
    """The names behind the bytes of a message, in their order."""
    if not message:
        return []
    is_response, service, rest = bool(message[0] & 0x40), message[0] & 0xBF, message[1:]
    if not is_response and service == 0x22 and len(rest) > 2:
        return []
    foreign = [] if is_response else [mark + names[message[:1]] for mark, names in (("OBD: ", OBD), ("KWP2000: ", KWP)) if message[:1] in names]
    if service in WITH_IDENTIFIER:
        return [name for name in [IDENTIFIERS.get(rest[:2])] if name]
    if is_response and rest and rest[0] & 0x80:
        return []
    number = rest[0] & 0x7F if rest else None
    name = None if number is None else SUB_FUNCTIONS.get(bytes([service, number]))
    level = f" {number:02X}" if service == 0x27 else ""
    routine = ROUTINES.get(rest[1:3]) if service == 0x31 else None
    return foreign + ([name + level] if name else []) + ([routine] if routine else [])


# The bits of the status of a trouble code, and the reports of ReadDTCInformation whose response lists codes, or begins with one.
STATUS_BITS = [table("STATUS_BITS")[bytes([bit])] for bit in range(8)]
LISTS, BEGINS = (0x02, 0x0A, 0x0B, 0x0C, 0x0D, 0x0E, 0x15), (0x04, 0x06)


def trouble_code(record):
    """A trouble code of four bytes as people spell it, and the names of the bits of its status."""
    number = int.from_bytes(record[:2])
    names = [name for bit, name in enumerate(STATUS_BITS) if record[3] >> bit & 1]
    return " ".join([f"{'PCBU'[number >> 14]}{number & 0x3FFF:04X}-{record[2]:02X}", *names])


def trouble_records(message):
    """The trouble codes of a message, each of four bytes."""
    if message[:1] != b"\x59" or len(message) < 2:
        return []
    if message[1] in LISTS and len(message) > 3 and len(message) % 4 == 3:
        return [message[place : place + 4] for place in range(3, len(message), 4)]
    return [message[2:6]] if message[1] in BEGINS and len(message) >= 6 else []


def trouble_codes(message):
    """The trouble codes of a message, as a page tells them: 16 at most, and how many others there are."""
    told = [trouble_code(record) for record in trouble_records(message)]
    more = [f"and {len(told) - 16} more"] if len(told) > 16 else []
    return [f"read as SAE J2012: {', '.join(told[:16] + more)}"] if told else []


def small(message):
    """The same as a page has them."""
    return "".join(f" <i>({name})</i>" for name in names_of(message) + trouble_codes(message))
