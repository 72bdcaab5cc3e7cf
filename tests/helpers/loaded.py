"""The shared library, called by way of ctypes, whose types are those of the crate's source."""

import ctypes
from collections import namedtuple

import header

# What the library calls a text, and the words of the program that write it.
JOBS = {
    "normalise": ["normalise"],
    "list": ["list"],
    "unnumbered": ["list", "--no-numbers"],
    "objects": ["list", "--json"],
    "unnumbered objects": ["list", "--json", "--no-numbers"],
    "messages": ["messages"],
    "message objects": ["messages", "--json"],
    "explain": ["explain"],
    "explain objects": ["explain", "--json"],
    "find": ["find"],
    "find objects": ["find", "--json"],
    "report": ["report"],
}
STYLES = {"unnumbered": 1, "objects": 2, "unnumbered objects": 3, "message objects": 2, "explain objects": 2, "find objects": 2, "diff objects": 2}
STATUSES = header.statuses()
# The calls whose text has no style to choose.
OF_ONE_STYLE = ("normalise", "report")
# What a page of the program calls the log that comes by standard input.
NAME = b"standard input"

# A log with the identifiers of its sides, as canid_t has them, and a limit; the text of a profile, and the name of a unit.
Session = namedtuple("Session", "name log tester unit limit profile only", defaults=(b"", b""))


class Answer(ctypes.Structure):
    """The answer of a call, by the crate's source."""

    _fields_ = [(name, {"u16": ctypes.c_uint16, "u32": ctypes.c_uint32, "u64": ctypes.c_uint64}[of]) for name, of in header.fields()]


class Words(ctypes.Structure):
    """What a status means: a text with a 0 behind it."""

    _fields_ = [("text", ctypes.c_char * header.words_length())]


class Loaded:
    """The shared library, called by way of ctypes."""

    def __init__(self, path):
        self.library = ctypes.CDLL(str(path))

    def text(self, job, session, room=None):
        """What a call answers, and the text, for which there is this room, or else enough."""
        call = JOBS[job][0]
        sides = settings(session) if call != "find" else [ctypes.c_uint64(session.limit)]
        style = [] if call in OF_ONE_STYLE else [ctypes.c_uint32(STYLES.get(job, 0))]
        given = [*sides, *style, *(bytes_of(NAME) if call == "report" else []), *bytes_of(session.log)]
        if room is None and call == "report":
            room = self.put(call, given, 0)[0].length
        return self.put(call, given, (8 if "objects" in job else 4) * len(session.log) + 512 if room is None else room)

    def put(self, call, given, room):
        """What the call of this name answers to these arguments, and the text, for which there is this room."""
        answer, out = Answer(), ctypes.create_string_buffer(max(room, 1))
        status = self.library[f"udsnorm_{call}"](*given, out, ctypes.c_size_t(room), ctypes.byref(answer))
        if status != answer.status:
            raise ValueError("the result is not the status")
        return answer, ctypes.string_at(out, min(answer.length, room))

    def page(self, session, other, names, room=None):
        """The same of the page of two logs with these names."""
        sides = settings(session)
        given = [*sides, *bytes_of(names[0]), *bytes_of(session.log), *bytes_of(names[1]), *bytes_of(other)]
        return self.put("report_pair", given, self.put("report_pair", given, 0)[0].length if room is None else room)

    def diff(self, style, session, other, names, room=None):
        """The same of where two logs with these names differ, in this style."""
        sides = settings(session)
        given = [*sides, ctypes.c_uint32(style), *bytes_of(names[0]), *bytes_of(session.log), *bytes_of(names[1]), *bytes_of(other)]
        size = len(session.log) + len(other) + sum(map(len, names))
        return self.put("diff", given, (16 if style else 4) * size + 512 if room is None else room)

    def compare(self, session, other):
        return self.put("compare", [*settings(session), *bytes_of(session.log), *bytes_of(other)], 0)[0]

    def wrong(self, session):
        """What is told of a wrong profile, where its log is compared with none."""
        return self.put("compare", [*settings(session), *bytes_of(session.log), *bytes_of(b"")], 4096)


def settings(session):
    sides = [ctypes.c_uint32(session.tester), ctypes.c_uint32(session.unit), ctypes.c_uint64(session.limit)]
    return [*sides, *bytes_of(session.profile), *bytes_of(session.only)]


def bytes_of(data):
    return data, ctypes.c_size_t(len(data))
