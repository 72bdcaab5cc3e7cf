"""Why a log is refused beyond the place, as a hint and a page say it: a second reading of the definitions."""

import re

import oracle

READS_IT = "python3 -m udsnorm reads it"

# What files look like that begin with these bytes.
SIGNS = [
    (b"\x1f\x8b", "looks compressed with gzip; zcat unpacks it"),
    (b"\x28\xb5\x2f\xfd", "looks compressed with zstd; zstdcat unpacks it"),
    (b"\xfd7zXZ\0", "looks compressed with xz; xzcat unpacks it"),
    (b"BZh", "looks compressed with bzip2; bzcat unpacks it"),
    (b"PK\x03\x04", "looks like a zip archive; unzip -p unpacks it"),
    (b"\xef\xbb\xbf", "begins with a byte order mark, which an editor has put in front; save it without"),
    (b"\xff\xfe", "looks like a text in UTF-16; iconv -f UTF-16 -t ASCII makes a log of one"),
    (b"\xfe\xff", "looks like a text in UTF-16; iconv -f UTF-16 -t ASCII makes a log of one"),
    (b"  ", f"looks like candump's form for the screen; {READS_IT}, and candump -l records a log"),
    (b" (", f"looks like candump's form for the screen; {READS_IT}, and candump -l records a log"),
    (b"date ", f"looks like a Vector ASC file; {READS_IT}"),
    (b"base ", f"looks like a Vector ASC file; {READS_IT}"),
    (b"LOGG", f"looks like a Vector BLF file; {READS_IT}"),
    (b"MDF     4", f"looks like an MF4 file; {READS_IT}"),
    (b"UnFinMF 4", f"looks like an MF4 file; {READS_IT}"),
    (b";", f"looks like a PCAN TRC file; {READS_IT}"),
    (b"\xa1\xb2\xc3\xd4", f"looks like a pcap capture; {READS_IT}"),
    (b"\xd4\xc3\xb2\xa1", f"looks like a pcap capture; {READS_IT}"),
    (b"\xa1\xb2\x3c\x4d", f"looks like a pcap capture; {READS_IT}"),
    (b"\x4d\x3c\xb2\xa1", f"looks like a pcap capture; {READS_IT}"),
    (b"\n\r\r\n", f"looks like a pcapng capture; {READS_IT}"),
    *((sign, "looks like a profile; --profile takes it") for sign in [b"drop", b"mask", b"[[unit", b"# "]),
]
DATE = f"looks like a log whose stamps have a date; {READS_IT}"
CSV = "looks like a CSV file; python3 -m udsnorm reads those of SavvyCAN and python-can"
DECIMALS = "looks like a log whose stamps have more than six decimals; python3 -m udsnorm rounds them"


def cause(log, limit, fault, name="this log"):
    """The cause of this fault of a log with this name, or None."""
    place = re.fullmatch(r"line (\d+) column (\d+): not a log line", fault)
    if not place:
        return f"the limit is {limit} bytes; --limit sets it, up to 1099511627776" if limit < 1 << 40 else None
    line, column = map(int, place.groups())
    lines = oracle.cut(log)
    if line == len(lines) and column == len(lines[-1]) + 1 and not log.endswith(b"\n"):
        return f"the last line of {name} looks cut; sed '$d' leaves it out, and a frame is missing"
    if column == 1 and (line > 1 or log.startswith(b"DROPCOUNT")):
        return f"line {line} of {name} begins with no stamp; if it is a notice of candump -d, grep -v ^DROPCOUNT leaves it out"
    look = look_of(log[:16], line, column)
    return look and f"{name} {look}"


def look_of(first, line, column):
    """What a log looks like that begins so and is refused at this place, or None."""
    if line == 1 and column >= 10 and first[column - 8 : column - 7] == b".":
        return DECIMALS
    told = next((words for sign, words in SIGNS if first.startswith(sign)), None)
    if told or line > 1:
        return told
    if first.startswith(b"("):
        return DATE if first[5:6] == b"-" else None
    return CSV if b"," in first or b";" in first else None
