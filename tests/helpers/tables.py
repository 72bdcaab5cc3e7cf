r"""Tables of logs and of what is expected of them: the files of rows/, and the rows in the files of outputs/.

Rows are separated by a blank line. A row begins with its name; each other line is a mark and a text. The head of a table, its
first paragraph, says in lines that begin with `#` what it has, and its other lines are lines of each row, after the row's own.
In a text `\r` is a carriage return and `\x20` a space. Lines with these marks make a log:

    line TEXT     a line
    last TEXT     a last line, which has no line feed
    frame FRAME   a line with this frame, a millisecond after the frame before
    log NAME      the lines of this file of examples/

and lines with these a canonical log:

    canonical FRAME   a line with this frame, a millisecond after the frame before
    gives NAME        the lines of this file of examples/

What is told of the log is the lines with the mark `told`, and last its counts:

    told TEXT            a line
    counts NAME=NUMBER   counts that the row is about; there may be several such lines, and none of them need say anything.
                         The others are those of its log and its canonical log, or zero: counts.py says which

    placed TEXT          the line of a message
    row TEXT             a row of its page
    page TEXT            another line that stands there
    lacks TEXT           what is told of a log that has to be clean and is not

    with WORDS           a command with its options: a table whose rows or whose head have it is taken as soon as it is there
    found TEXT           a line that it writes
    object TEXT          an object that it writes; where the row has counts, too, their object comes last

    between TESTER UNIT  the identifiers, where they are not 7E0 and 7E8

Of two logs, whose lines have the marks `left` and `right`:

    with WORDS      options
    status NUMBER   the exit status; a row without one is that of logs that are compared also the other way round
    found TEXT      a line that is written, or told, where the row has no status and the logs are not compared
"""

from pathlib import Path

from counts import SIDES, counts_line

TESTS = Path(__file__).resolve().parents[1]
ROWS = TESTS / "rows"
EXAMPLES = TESTS.parent / "examples"

# A vehicle identification number, read in five classic frames.
VIN = (EXAMPLES / "vin.log").read_bytes()
VIN_CANONICAL = (EXAMPLES / "vin.canonical").read_bytes()
VIN_PLACED = b"""\
1 request tester lines 1 to 1 at 1700000000.000000 to 1700000000.000000 22F190
1 answer unit lines 2 to 5 at 1700000000.012000 to 1700000000.030000 62F1905742413341354335304546313233343536
"""

# The length of a canonical line with its line feed.
CANONICAL_LINE = 46


# The names of the tables that were read.
taken = set()


class Row:
    """The name of a row, and its lines, each with its mark and its text."""

    def __init__(self, name, lines):
        self.name = name
        self.lines = [tuple(line.partition(" ")[::2]) for line in lines]

    def has(self, mark):
        return any(found == mark for found, _ in self.lines)

    def texts(self, mark):
        return [text for found, text in self.lines if found == mark]

    def text(self, mark):
        """The lines with this mark as one text."""
        return "".join(f"{text}\n" for text in self.texts(mark)).encode()

    def log(self):
        return log_of(self.lines)

    def canonical(self):
        kinds = {"canonical": "frame", "gives": "log"}
        return log_of([(kinds[mark], text) for mark, text in self.lines if mark in kinds])

    def sides(self):
        """The identifiers of the tester and the unit."""
        return tuple((self.texts("between") or [" ".join(SIDES)])[0].split(" "))

    def said(self):
        """The counts that the row is about, by their names."""
        said = dict(word.split("=") for text in self.texts("counts") for word in text.split())
        return {name: int(number) for name, number in said.items()}

    def counts(self):
        """The line with the counts of the log."""
        return counts_line(self.log(), self.canonical(), self.sides(), **self.said())

    def side(self, mark):
        """The log of one side of a comparison: after the mark of the side stands a frame, or a line with its own mark."""
        texts = [text.partition(" ") for text in self.texts(mark)]
        return log_of([("line", rest) if first == "line" else ("frame", first + space + rest) for first, space, rest in texts])


def log_of(lines):
    """The log that these marked lines make."""
    log, frames = b"", 0
    for mark, text in lines:
        if mark == "log":
            log += (EXAMPLES / text).read_bytes()
        elif mark == "frame":
            log += stamped(frames, text)
            frames += 1
        elif mark in ("line", "last"):
            log += text.encode() + (b"\n" if mark == "line" else b"")
    return log


def stamped(number, frame):
    """The line of a frame after this number of others, a millisecond each."""
    return f"({number // 1000:010d}.{number % 1000:03d}000) can0 {frame}\n".encode()


def paragraphs(name):
    """The head of a table, and its rows, as lists of lines."""
    return paragraphs_of((ROWS / f"{name}.txt").read_text())


def paragraphs_of(text):
    return [[unescaped(line) for line in paragraph.split("\n")] for paragraph in text.strip("\n").split("\n\n")]


def of_commands():
    """The names of the tables that say with which words the program runs over each of their logs."""
    return sorted(path.stem for path in ROWS.iterdir() if "with" in marks(path.stem) and not marks(path.stem) & {"left", "right"})


def marks(name):
    """The marks of a table: those of its head, and those behind the names of its rows."""
    head, *rows = paragraphs(name)
    return {line.partition(" ")[0] for row in [head, *(row[1:] for row in rows)] for line in row}


def left():
    """The names of the tables that were not read."""
    return sorted({path.stem for path in ROWS.iterdir()} - taken)


def unescaped(line):
    return line.replace("\\r", "\r").replace("\\x20", " ")


def table(name):
    """The rows of a table."""
    taken.add(name)
    return rows_of(paragraphs(name))


def rows_in(text):
    """The rows of a table that is this text."""
    return rows_of(paragraphs_of(text))


def rows_of(found):
    head, *rows = found
    of_each = [line for line in head if not line.startswith("#")]
    return [Row(row[0], row[1:] + of_each) for row in rows]


def lines(name):
    """The rows of a table whose rows are lines without a name."""
    taken.add(name)
    _, rows = paragraphs(name)
    return rows
