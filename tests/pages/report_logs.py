"""Logs whose reports are shown in browsers."""

# The identifiers of the two sides, and what a unit says to a first frame.
IDENTIFIERS = {"tester": "7E0", "unit": "7E8"}
CONTINUE = "300000"

# The first items of the exchanges of `every_kind` that need a look: after their request, or in its place, stands something
# negative, missing, stray or lost.
TO_LOOK_AT = ["1", "5", "8", "12", "15", "18"]

# In `folded`, the exchange that needs a look: it stands in a block that is written folded.
FOLDED_ITEM = 1101

# Names of files that mean something to HTML, to a terminal, to a page's width or to nobody; all are UTF-8, as words have to be.
HOSTILE_NAMES = [
    "<b>&\"'\u00ff.log".encode(),
    b"<img src=x onerror=alert(1)>.log",
    b'"><script>alert(1)<!--.log',
    b"--><style>body{display:none}.log",
    b"&lt;b&gt;&#60;&amp;&nbsp.log",
    b"%3Cb%3E%s%n{0}$1.log",
    b"line\nbreak\ttab\x1b[31m\x7f.log",
    "\u202egol.\u00e9\ufeff".encode() + b".log",
    b"W" * 251 + b".log",
]


class Recording:
    """The lines of a log, each frame ten milliseconds after the one before."""

    def __init__(self):
        self.lines = []
        self.micros = 1_700_000_000_000_000

    def frame(self, side, digits):
        self.micros += 10_000
        self.lines.append(f"({self.micros // 1_000_000}.{self.micros % 1_000_000:06d}) can0 {IDENTIFIERS[side]}#{digits}\n")

    def message(self, side, digits, lost=()):
        """A message in as many frames as it needs, but without the consecutive frames of these numbers."""
        length = len(digits) // 2
        if length < 8:
            self.frame(side, f"{length:02X}{digits}")
            return
        self.frame(side, f"{0x1000 + length:04X}{digits[:12]}")
        self.frame("unit" if side == "tester" else "tester", CONTINUE)
        for number, begin in enumerate(range(12, len(digits), 14), 1):
            if number not in lost:
                self.frame(side, f"{0x20 + number % 16:02X}{digits[begin : begin + 14]}")

    def exchange(self, request, *answers):
        self.message("tester", request)
        for answer in answers:
            self.message("unit", answer)

    def log(self):
        return "".join(self.lines).encode()


def every_kind():
    """A session with a row of every kind. The numbers are those of the items."""
    told = Recording()
    told.message("unit", "7E00")  # 1, a stray
    told.exchange("1003", "5003003201F4")  # 2
    told.message("tester", "3E80")  # 3, a keep-alive
    told.exchange("22F190", "62F190" + b"WBA5A5C50EF123456".hex())  # 4
    told.exchange("22F191", "7F2231")  # 5, negative
    told.exchange("31010203", "7F3178", "7F3178", "7101020300")  # 6, pending twice
    told.exchange("2EF15A" + "5A" * 97, "6EF15A")  # 7, so long that some of its bytes are folded
    told.message("tester", "22F195")  # 8, without an answer, since a frame of it was lost
    told.message("unit", "62F195" + b"SW-7.31.0-release".hex(), lost=[1])
    told.exchange("3601" + "00FF" * 500, "7601")  # 9, so long that some of its bytes are not shown
    told.message("tester", "8582")  # 10, silent
    told.exchange("1902FF", "5902FF" + "01230A2F" * 24)  # 11, an answer of which some bytes are folded
    told.exchange("2701", "67015A3C9911")  # 12, and after it the tester says what only a unit says
    told.message("tester", "6201")  # 13, a stray of the tester
    told.exchange("22F18C", "62F18C" + b"ECU-0042-77".hex())  # 14
    told.exchange("22F1A0", "62F1A00A")  # 15, and after it frames that are of no message
    told.frame("tester", CONTINUE)
    told.frame("tester", "21DEADBEEF")
    told.frame("unit", "4411")
    told.message("tester", "2EF15B" + "11" * 20, lost=[2, 3])  # ended by the next request, so of the item before
    told.exchange("1101", "7F1178", "5101")  # 16
    told.exchange("3E00", "7E00")  # 17
    told.message("tester", "22F190")  # 18, without an answer: the log ends in it
    told.message("unit", "62F190" + b"WBA5A5C50EF123456".hex(), lost=[2])
    return told.log()


def refused_late():
    """The same, and a line that is none."""
    return every_kind() + b"(1700000009.000000) can0 7E0#0322F19\n" + every_kind()


def folded():
    """A session of 13 blocks, of which the first ten are written open. One exchange needs a look."""
    told = Recording()
    for number in range(1, 1301):
        told.exchange(f"22{number:04X}", "7F2231" if number == FOLDED_ITEM else f"62{number:04X}00")
        if number == FOLDED_ITEM:
            told.frame("unit", "4411")
    return told.log()


def folded_pair():
    """Two sessions of 1,300 items, of which one differs; before it stand several tables of a page of two logs, and behind it, too."""
    ours = folded()
    return ours, ours.replace(b"7E8#037F2231", b"7E8#037F2233")


def many(count, different=None):
    """A session of so many exchanges. Every seventh answer has several frames, some are negative, pending or missing. The item of
    this number may be another one."""
    told = Recording()
    for number in range(1, count + 1):
        data = f"{number % 0x10000:04X}"
        positive = f"62{data}" + ("66" if number == different else "") + ("55" * 20 if number % 7 == 0 else "00")
        if number % 97 == 0:
            told.exchange(f"22{data}")
        elif number % 41 == 0:
            told.exchange(f"22{data}", "7F2231")
        elif number % 53 == 0:
            told.exchange(f"22{data}", "7F2278", positive)
        else:
            told.exchange(f"22{data}", positive)
    return told.log()


# In `pair_of_kinds`, the lines of the one log that the other has otherwise or lacks.
CHANGED_LINE, LOST_LINE = 195, 207


def pair_of_kinds():
    """Two recordings of the session of `every_kind`. In the second a byte of a long answer is another one, a frame of a later answer
    is lost, and an exchange more is there."""
    ours = every_kind().splitlines(keepends=True)
    theirs = [line.replace(b"2F", b"3F", 1) if number == CHANGED_LINE else line for number, line in enumerate(ours, 1) if number != LOST_LINE]
    more = Recording()
    more.micros += 10_000_000
    more.exchange("1101", "5101")
    return b"".join(ours), b"".join(theirs) + more.log()
