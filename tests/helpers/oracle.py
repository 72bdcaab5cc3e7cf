#!/usr/bin/env python3
"""The outcome of a log, by the definitions alone.

    tests/helpers/oracle.py [LIMIT [TESTER UNIT]] < LOG > CANONICAL

Writes the canonical log of a log between the tester and the unit, 7E0 and 7E8 where nothing else is said, and ends with the exit status that the program
ends with. It shares no idea with the program: a line is one regular expression, a refused place is found by trying what
could follow, each frame is judged by looking back over the frames before it, and the meaning is read off the whole list of
messages. So it keeps no state and is slow, and it is meant to be read.
"""

import itertools
import json
import re
import sys
from collections import Counter, namedtuple

from echoes import echo_told, echo_told_as_it_comes

TESTER, UNIT = "tester", "unit"
OTHER = {TESTER: UNIT, UNIT: TESTER}

# Beside its own identifier a tester may have one on which it asks all units. Its frames are no part of any reception, so they
# go through all definitions as a direction of their own, of which no message has several frames.
FUNCTIONAL = "functional"
OTHER[FUNCTIONAL] = UNIT
SENDERS = {TESTER: TESTER, UNIT: UNIT, FUNCTIONAL: TESTER}

SIDES = {TESTER: "7E0", UNIT: "7E8"}

MESSAGE_LIMIT = 1_048_575
N_CR = 1_000_000

GIBIBYTE = 1 << 30

DONE, DIFFERENT, REFUSED, UNCLEAN = 0, 1, 3, 6

# --- Lines ------------------------------------------------------------------------------------------------------------

LINE = re.compile(
    rb"""
    \( (?P<seconds> [0-9]{1,10} ) \. (?P<micros> [0-9]{6} ) \)
    \x20{1,16} [\x21-\x7E]{1,15} \x20{1,16}
    (?P<identifier> [0-7][0-9A-Fa-f]{2} | [0-9A-Fa-f]{8} ) \#
    (?: (?P<classic> (?: [0-9A-Fa-f]{2} ){0,8} )
      | (?P<whole> [0-9A-Fa-f]{16} ) _ [9A-Fa-f]
      | (?P<remote> R [0-8]? | R8_ [9A-Fa-f] )
      | \# [0-9A-Fa-f] (?P<fd> (?: [0-9A-Fa-f]{2} ){0,64} )
    )
    (?: \x20{1,16} [RT] )?
    """,
    re.VERBOSE,
)

# What completes the front of any line that can be completed, in at most 16 bytes: the ends of the shortest lines, a digit, the
# digit of a raw length, and a mark.
SHORTEST_LINES = (b"(0.000000) a 000#", b"(0.000000) a 00000000#")
ENDS = {line[n:] for line in SHORTEST_LINES for n in range(len(line) + 1)}
COMPLETIONS = {end for end in ENDS if len(end) <= 16} | {b"0", b"9", b"R"}


def without_return(line):
    """A line without the one carriage return that it may end in."""
    return line.removesuffix(b"\r")


def is_legal(line):
    """Whether these bytes, without a line feed, are a line of a log."""
    return without_return(line) == b"" or LINE.fullmatch(without_return(line)) is not None


def refused_column(line):
    """The column of the first byte that no legal line can have there, in a line that is not legal; where every byte passes,
    the column after the last."""
    for column in range(1, len(line) + 1):
        if not any(is_legal(line[:column] + completion) for completion in COMPLETIONS):
            return column
    return len(line) + 1


def cut(log):
    """The lines of a log. A log that ends in a line feed has no line after it."""
    return log.removesuffix(b"\n").split(b"\n") if log else []


# --- Frames -----------------------------------------------------------------------------------------------------------

Entry = namedtuple("Entry", "line micros direction layout length data")

Single = namedtuple("Single", "message")
First = namedtuple("First", "announced frame_length bytes_in_first")
Consecutive = namedtuple("Consecutive", "number")
Flow = namedtuple("Flow", "status")
Nothing = namedtuple("Nothing", "reason")

CONTINUE, WAIT, OVERFLOW = 0, 1, 2


def trace(lines, sides=SIDES):
    """The frames of the tester and the unit in these lines, in order. Three digits never are the identifier that eight are."""
    senders = {identifier.encode(): direction for direction, identifier in sides.items()}
    entries = []
    for number, line in enumerate(lines, 1):
        match = LINE.fullmatch(without_return(line))
        sender = senders.get(match["identifier"].upper()) if match else None
        if sender:
            micros = int(match["seconds"]) * 1_000_000 + int(match["micros"])
            digits = match["classic"] or match["whole"] or match["fd"] or b""
            data = bytes.fromhex(digits.decode())
            layout = Nothing("remote frame") if match["remote"] else layout_of(data)
            if sender == FUNCTIONAL and not isinstance(layout, (Single, Nothing)):
                layout = Nothing("functional frame not single")
            entries.append(Entry(number, micros, sender, layout, len(data), data))
    return entries


def layout_of(data):
    """What a frame of these bytes is by ISO 15765-2, or the first reason in the table why it is nothing."""
    size = len(data)
    if size > 8 and size not in (12, 16, 20, 24, 32, 48, 64):
        return Nothing("frame length")
    if size == 0:
        return Nothing("empty frame")
    kind, low = data[0] >> 4, data[0] & 0xF
    if kind == 0:
        return single_frame(data, size, low)
    if kind == 1:
        return first_frame(data, size, low)
    if kind == 2:
        return Consecutive(low)
    if kind == 3:
        return flow_control(size, low)
    return Nothing("unknown kind")


def single_frame(data, size, low):
    if size <= 8 and 1 <= low <= size - 1:
        return Single(data[1 : 1 + low])
    if size > 8 and low == 0 and 1 <= data[1] <= size - 2:
        return Single(data[2 : 2 + data[1]])
    return Nothing("single frame length")


def first_frame(data, size, low):
    if size < 8:
        return Nothing("first frame length")
    announced = low << 8 | data[1]
    smallest = 8 if size == 8 else size - 1
    if announced == 0:
        announced = int.from_bytes(data[2:6], "big")
        return First(announced, size, size - 6) if announced > 4095 else Nothing("first frame length")
    return First(announced, size, size - 2) if announced >= smallest else Nothing("first frame length")


def flow_control(size, low):
    if size < 3:
        return Nothing("flow control too short")
    return Flow(low) if low in (CONTINUE, WAIT, OVERFLOW) else Nothing("flow control status")


# --- Receptions: each frame by the frames before it ---------------------------------------------------------------------


def is_frame(entry, direction, kinds):
    return entry.direction == direction and isinstance(entry.layout, kinds)


def consecutive_count(first):
    """The least number of consecutive frames that hold what the first frame leaves of its message."""
    rest = first.announced - first.bytes_in_first
    return -(-rest // (first.frame_length - 1))


def fits(entry, first, k):
    """Whether a consecutive frame can be the k-th of the message: by its number and its length."""
    count = consecutive_count(first)
    missing = first.announced - first.bytes_in_first - (count - 1) * (first.frame_length - 1)
    shortest = 1 + missing if k == count else first.frame_length
    return entry.layout.number == k % 16 and shortest <= entry.length <= first.frame_length


def is_on_time(frames, i, p):
    """Whether the consecutive frame at p comes within N_Cr of its reference frame: the latest of the first frame at i, the
    consecutive frames of its direction and the continue and wait frames of the other, before p."""
    sender = frames[i].direction
    reference = next(q for q in range(p - 1, i - 1, -1) if q == i or is_reference(frames[q], sender))
    return frames[p].micros - frames[reference].micros <= N_CR


def is_reference(entry, sender):
    is_pacing = is_frame(entry, OTHER[sender], Flow) and entry.layout.status in (CONTINUE, WAIT)
    return is_frame(entry, sender, Consecutive) or is_pacing


def reception(frames, direction, p):
    """The reception of a direction that stands before position p: the position of its first frame, and those of its
    consecutive frames. None where there is none."""
    i = next((q for q in range(p - 1, -1, -1) if is_frame(frames[q], direction, (Single, First))), None)
    if i is None or isinstance(frames[i].layout, Single):
        return None
    first = frames[i].layout
    taken = [q for q in range(i + 1, p) if is_frame(frames[q], direction, Consecutive)]
    before_taken = range(i + 1, taken[0] if taken else p)
    is_stopped = any(is_overflow(frames[q], OTHER[direction]) for q in before_taken)
    is_kept = all(fits(frames[q], first, k) and is_on_time(frames, i, q) for k, q in enumerate(taken, 1))
    if first.announced > MESSAGE_LIMIT or is_stopped or not is_kept or len(taken) >= consecutive_count(first):
        return None
    return i, taken


def is_overflow(entry, direction):
    return is_frame(entry, direction, Flow) and entry.layout.status == OVERFLOW


def delivered(frames, p):
    """The message that the frame at p completes, or None."""
    entry = frames[p]
    if isinstance(entry.layout, Single):
        return entry.layout.message
    standing = reception(frames, entry.direction, p) if isinstance(entry.layout, Consecutive) else None
    if standing is None:
        return None
    i, taken = standing
    first, k = frames[i].layout, len(taken) + 1
    if k < consecutive_count(first) or not fits(entry, first, k) or not is_on_time(frames, i, p):
        return None
    parts = [frames[i].data[-first.bytes_in_first :], *(frames[q].data[1:] for q in (*taken, p))]
    return b"".join(parts)[: first.announced]


def messages(frames):
    """The messages of a trace with their directions, in the order in which they are completed."""
    found = ((SENDERS[entry.direction], delivered(frames, p)) for p, entry in enumerate(frames))
    return [(direction, message) for direction, message in found if message is not None]


# --- Messages -----------------------------------------------------------------------------------------------------------

Exchange = namedtuple("Exchange", "request answer")
Stray = namedtuple("Stray", "direction message")


def is_request(direction, message):
    return direction == TESTER and message[0] & 0x40 == 0 and message != b"\x3E\x80"


def is_final(service, message):
    is_positive = message[0] == service + 0x40 and message[0] != 0x7F
    return is_positive or (len(message) == 3 and message[:2] == bytes([0x7F, service]) and message[2] != 0x78)


def is_pending(service, message):
    return message == bytes([0x7F, service, 0x78])


def meaning(listed):
    """The items of a list of messages: strays before the first request, and then each request's part."""
    requests = [n for n, (direction, message) in enumerate(listed) if is_request(direction, message)]
    ends = [*requests, len(listed)]
    items = [Stray(*stray) for stray in listed[: ends[0]]]
    for begin, end in zip(requests, ends[1:]):
        items += part_items(listed[begin][1], listed[begin + 1 : end])
    return items


def part_items(request, others):
    """The items of the part of a request: its exchange, and the other messages without the pending ones before its answer."""
    service = request[0]
    final = [n for n, (direction, message) in enumerate(others) if direction == UNIT and is_final(service, message)]
    answered = final[0] if final else len(others)
    kept = [
        Stray(direction, message)
        for n, (direction, message) in enumerate(others)
        if n != answered and not (n < answered and direction == UNIT and is_pending(service, message))
    ]
    return [Exchange(request, others[answered][1] if final else None), *kept]


def in_order(items):
    """The messages of items, in the order of a canonical log."""
    listed = []
    for item in items:
        if isinstance(item, Stray):
            listed.append((item.direction, item.message))
        else:
            listed.append((TESTER, item.request))
            if item.answer is not None:
                listed.append((UNIT, item.answer))
    return listed


def early(listed):
    """The messages whose place no later message can change: all but the strays after a last request without an answer."""
    items = meaning(listed)
    waiting = [n for n, item in enumerate(items) if isinstance(item, Exchange)]
    is_open = waiting and items[waiting[-1]].answer is None
    return in_order(items[: waiting[-1] + 1] if is_open else items)


def decided(listed):
    """The items that no later message can change: all before the last exchange, where that has no answer, and else all."""
    items = meaning(listed)
    waiting = [n for n, item in enumerate(items) if isinstance(item, Exchange)]
    is_open = waiting and items[waiting[-1]].answer is None
    return items[: waiting[-1]] if is_open else items


# --- The canonical log --------------------------------------------------------------------------------------------------


def canonical_frames(direction, message):
    """The frames of a message in a canonical log, with their directions."""
    size = len(message)
    if size <= 7:
        return [(direction, bytes([size]) + message)]
    head = bytes([0x10 | size >> 8, size & 0xFF]) if size <= 4095 else b"\x10\x00" + size.to_bytes(4, "big")
    begun = 8 - len(head)
    rest = [message[at : at + 7] for at in range(begun, size, 7)]
    consecutive = [(direction, bytes([0x20 | k % 16]) + part) for k, part in enumerate(rest, 1)]
    return [(direction, head + message[:begun]), (OTHER[direction], b"\x30\x00\x00"), *consecutive]


def canonical_lines(listed, sides=SIDES):
    """The lines of the canonical log of messages in order."""
    frames = [frame for direction, message in listed for frame in canonical_frames(direction, message)]
    return [
        f"({n // 1000:010d}.{n % 1000:03d}000) can0 {sides[direction]}#{data.ljust(8, bytes([0xCC])).hex().upper()}\n"
        for n, (direction, data) in enumerate(frames)
    ]


def fitting(lines, limit):
    """The longest front of whole lines within the limit."""
    ends = itertools.accumulate(map(len, lines))
    return "".join(line for line, end in zip(lines, ends) if end <= limit).encode()


# --- Texts --------------------------------------------------------------------------------------------------------------

# The services with their names, those with a sub-function apart.
SUB_FUNCTION_SERVICES = {
    0x10: "DiagnosticSessionControl",
    0x11: "ECUReset",
    0x19: "ReadDTCInformation",
    0x27: "SecurityAccess",
    0x28: "CommunicationControl",
    0x29: "Authentication",
    0x2C: "DynamicallyDefineDataIdentifier",
    0x31: "RoutineControl",
    0x3E: "TesterPresent",
    0x83: "AccessTimingParameter",
    0x85: "ControlDTCSetting",
    0x86: "ResponseOnEvent",
    0x87: "LinkControl",
}
OTHER_SERVICES = {
    0x14: "ClearDiagnosticInformation",
    0x22: "ReadDataByIdentifier",
    0x23: "ReadMemoryByAddress",
    0x24: "ReadScalingDataByIdentifier",
    0x2A: "ReadDataByPeriodicIdentifier",
    0x2E: "WriteDataByIdentifier",
    0x2F: "InputOutputControlByIdentifier",
    0x34: "RequestDownload",
    0x35: "RequestUpload",
    0x36: "TransferData",
    0x37: "RequestTransferExit",
    0x38: "RequestFileTransfer",
    0x3D: "WriteMemoryByAddress",
    0x84: "SecuredDataTransmission",
}
SERVICES = SUB_FUNCTION_SERVICES | OTHER_SERVICES

CODES = {
    0x10: "generalReject",
    0x11: "serviceNotSupported",
    0x12: "subFunctionNotSupported",
    0x13: "incorrectMessageLengthOrInvalidFormat",
    0x14: "responseTooLong",
    0x21: "busyRepeatRequest",
    0x22: "conditionsNotCorrect",
    0x24: "requestSequenceError",
    0x25: "noResponseFromSubnetComponent",
    0x26: "failurePreventsExecutionOfRequestedAction",
    0x31: "requestOutOfRange",
    0x33: "securityAccessDenied",
    0x35: "invalidKey",
    0x36: "exceedNumberOfAttempts",
    0x37: "requiredTimeDelayNotExpired",
    0x70: "uploadDownloadNotAccepted",
    0x71: "transferDataSuspended",
    0x72: "generalProgrammingFailure",
    0x73: "wrongBlockSequenceCounter",
    0x78: "requestCorrectlyReceivedResponsePending",
    0x7E: "subFunctionNotSupportedInActiveSession",
    0x7F: "serviceNotSupportedInActiveSession",
}


def digits(message):
    return message.hex().upper()


def list_text(items, has_numbers=True):
    """The list of items, a line each, with their numbers or without."""
    return "".join(f"{number} {item_text(item)}\n" if has_numbers else f"{item_text(item)}\n" for number, item in enumerate(items, 1))


def list_objects(items, has_numbers=True):
    """The same as JSON lines."""
    numbers = ({"item": number} if has_numbers else {} for number in itertools.count(1))
    return "".join(object_line({**number, **item_members(item)}) for number, item in zip(numbers, items))


def object_line(members):
    return json.dumps(members, separators=(",", ":")) + "\n"


def item_members(item):
    if isinstance(item, Stray):
        return {"kind": "stray", "direction": item.direction, "message": digits(item.message)}
    outcome, *reply = answer_text(item).split(" ")
    names = {"positive": ["answer"], "negative": ["code", "answer"]}.get(outcome, [])
    service = SERVICES.get(item.request[0], f"service_{item.request[0]:02X}")
    asked = {"kind": "exchange", "service": service, "request": digits(item.request), "outcome": outcome}
    echo = echo_told(asked["request"], reply[0]) if outcome == "positive" else {}
    return {**asked, **echo, **dict(zip(names, reply))}


def item_text(item):
    if isinstance(item, Stray):
        return f"stray {item.direction} {digits(item.message)}"
    service = item.request[0]
    name = SERVICES.get(service, f"service_{service:02X}")
    return f"exchange {name} {digits(item.request)} -> {answer_text(item)}"


def answer_text(item):
    if item.answer is None:
        has_bit = len(item.request) >= 2 and item.request[1] & 0x80 != 0
        return "silent" if has_bit and item.request[0] in SUB_FUNCTION_SERVICES else "unanswered"
    if item.answer[0] == 0x7F:
        code = item.answer[2]
        return f"negative {CODES.get(code, f'code_{code:02X}')} {digits(item.answer)}"
    return f"positive {digits(item.answer)}"


# What is told in words, and the same as an object of JSON.
Told = namedtuple("Told", "words members")


def in_words(told):
    """What is told, a line each."""
    return "".join(f"{words}\n" for words, _ in told)


def in_objects(told):
    """The same as JSON lines."""
    return "".join(json.dumps(members, separators=(",", ":")) + "\n" for _, members in told)


def named(reason):
    return Told(reason, {"reason": reason})


def verdict(frames, p):
    """What the frame at p does wrong: the direction whose reception it ends, the cause, and the reason why it is dropped, in
    words and as JSON. None for what it doesn't do."""
    entry = frames[p]
    sender, receiver = entry.direction, OTHER[entry.direction]
    own, others = reception(frames, sender, p), reception(frames, receiver, p)
    match entry.layout:
        case Nothing(reason):
            return None, None, named(reason)
        case Flow(status) if others is None or (status == OVERFLOW and others[1]):
            return None, None, named("flow control unexpected")
        case Flow(status):
            return (receiver, "overflow", None) if status == OVERFLOW else (None, None, None)
        case Consecutive() if own is None:
            return None, None, named("consecutive frame unexpected")
        case Consecutive():
            cause, reason = consecutive_fault(frames, p, own)
            return sender if cause else None, cause, reason
        case First(announced) if announced > MESSAGE_LIMIT:
            reason = Told(f"{announced} bytes announced", {"reason": "bytes announced", "announced": announced})
        case _:
            reason = None
    return (sender, "new start", reason) if own else (None, None, reason)


def consecutive_fault(frames, p, standing):
    """Why the reception that stands does not take the consecutive frame at p: the cause of its end, and the reason."""
    i, taken = standing
    expected, found = (len(taken) + 1) % 16, frames[p].layout.number
    if not is_on_time(frames, i, p):
        return "late", named("consecutive frame late")
    if found != expected:
        words = f"sequence number {expected:X} expected, {found:X} found"
        return "sequence", Told(words, {"reason": "sequence number", "expected": expected, "found": found})
    if not fits(frames[p], frames[i].layout, len(taken) + 1):
        return "length", named("consecutive frame length")
    return None, None


def told_of(frames):
    """What is told of frames: the receptions that end, and the frames that are dropped."""
    told = []
    for p, entry in enumerate(frames):
        direction, cause, reason = verdict(frames, p)
        if direction:
            words, members = reception_told(frames, direction, p)
            event = {"line": entry.line, "event": "ended", **members, "cause": cause}
            told.append(Told(f"line {entry.line}: {words} ended: {cause}", event))
        if reason:
            event = {"line": entry.line, "event": "dropped", "direction": SENDERS[entry.direction], **reason.members}
            told.append(Told(f"line {entry.line}: {SENDERS[entry.direction]} frame dropped: {reason.words}", event))
    return told


def reception_told(frames, direction, p):
    first = frames[reception(frames, direction, p)[0]]
    line, length = first.line, first.layout.announced
    return Told(
        f"{direction} reception from line {line} of {length} bytes",
        {"direction": direction, "begun_line": line, "length": length},
    )


def explanation(lines, sides=SIDES):
    """What is told of a log of these lines: of its frames, of the receptions that its end leaves, and how many of each
    there are."""
    frames = trace(lines, sides)
    end = len(frames)
    unfinished = [reception_told(frames, direction, end) for direction in (TESTER, UNIT) if reception(frames, direction, end)]
    told = [Told(f"end: {words} unfinished", {"event": "unfinished", **members}) for words, members in unfinished]
    counts = counts_of(lines, sides)
    words = " ".join(f"{name} {count}" for name, count in counts.items())
    return [*told_of(frames), *told, Told(words, {"event": "counts", **counts})]


def counts_of(lines, sides=SIDES):
    """How many there are of each thing."""
    frames = trace(lines, sides)
    end = len(frames)
    wrong = [verdict(frames, p) for p in range(end)]
    found = messages(frames)
    return {
        "lines": len(lines),
        "frames": end,
        "messages": len(found),
        "dropped": sum(reason is not None for _, _, reason in wrong),
        "ended": sum(direction is not None for direction, _, _ in wrong),
        "unfinished": sum(reception(frames, direction, end) is not None for direction in (TESTER, UNIT)),
        "pending": len(found) - len(in_order(meaning(found))),
    }


def unclean(log, sides=SIDES):
    """What is told of a log that is not clean, and nothing of one that is."""
    counts = counts_of(cut(log), sides)
    senders = [SENDERS[entry.direction] for entry in trace(cut(log), sides)]
    lacking = [f"frame of the {side}" for side in (TESTER, UNIT) if side not in senders]
    lacking += ["line feed at the end"] if log and not log.endswith(b"\n") else []
    if lacking or counts["dropped"] + counts["ended"] + counts["unfinished"]:
        told = " ".join(f"{name} {counts[name]}" for name in ("frames", "dropped", "ended", "unfinished"))
        return f"not clean: {told}" + "".join(f", no {what}" for what in lacking)
    return None


def look_exchanged(listed):
    """Whether tester and unit look exchanged in a list of messages: none is a request, one of the tester has bit 6 of its
    first byte set, and one of the unit has not."""
    has_bit = {(direction, bool(message[0] & 0x40)) for direction, message in listed}
    return not any(is_request(*one) for one in listed) and {(TESTER, True), (UNIT, False)} <= has_bit


# --- The places of messages ---------------------------------------------------------------------------------------------


def parts_of(listed):
    """Of each message the number of its item in the meaning of them all, and what it is to that item."""
    requests = [n for n, (direction, message) in enumerate(listed) if is_request(direction, message)]
    parts = [(number, "stray") for number in range(1, (requests or [len(listed)])[0] + 1)]
    for begin, end in zip(requests, [*requests[1:], len(listed)]):
        service, exchange = listed[begin][1][0], 1 + max((number for number, _ in parts), default=0)
        replies = [n for n in range(begin + 1, end) if listed[n][0] == UNIT]
        answer = next((n for n in replies if is_final(service, listed[n][1])), end)
        parts.append((exchange, "request"))
        strays = itertools.count(exchange + 1)
        for n in range(begin + 1, end):
            is_left_out = n < answer and n in replies and is_pending(service, listed[n][1])
            role = "answer" if n == answer else "pending" if is_left_out else "stray"
            parts.append((next(strays) if role == "stray" else exchange, role))
    return parts


def first_position(frames, p):
    """The position of the first frame of the message that the frame at p completes."""
    entry = frames[p]
    return p if isinstance(entry.layout, Single) else reception(frames, entry.direction, p)[0]


def stamp(micros):
    return f"{micros // 1_000_000}.{micros % 1_000_000:06}"


def places(frames):
    """What is told of each message that these frames deliver."""
    ends = [p for p in range(len(frames)) if delivered(frames, p) is not None]
    listed = messages(frames)
    told, requests = [], {}
    for p, (direction, message), (number, role) in zip(ends, listed, parts_of(listed)):
        first, last = frames[first_position(frames, p)], frames[p]
        start, stop, spelled = stamp(first.micros), stamp(last.micros), digits(message)
        words = f"{number} {role} {direction} lines {first.line} to {last.line} at {start} to {stop} {spelled}"
        members = {"item": number, "role": role, "direction": direction, "first_line": first.line, "last_line": last.line}
        mark = {"functional": True} if last.direction == FUNCTIONAL else {}
        requests.update({number: (last.micros, spelled)} if role == "request" else {})
        reply = reply_told(role, first.micros, spelled, requests.get(number))
        told.append(Told(words, {**members, "start": start, "end": stop, **reply, **mark, "message": spelled}))
    return told


def reply_told(role, start, spelled, asked):
    """The members that tell of a reply to this request, which has a time and its bytes as they are told."""
    if role not in ("answer", "pending"):
        return {}
    echo = echo_told_as_it_comes(asked[1], spelled) if role == "answer" else {}
    return {"after_us": start - asked[0], **echo}


def listed_again(placed):
    """The list of a log, told from the lines of its messages alone. None where a request or a stray has not the next number, or
    an answer or a pending reply not that of an exchange without an answer."""
    items = []
    for line in placed.splitlines():
        number, role, direction, *_, spelled = line.split(" ")
        at, message = int(number) - 1, bytes.fromhex(spelled)
        is_next, is_open = at == len(items), is_unanswered(items[at : at + 1])
        match role:
            case "request" if is_next:
                items.append(Exchange(message, None))
            case "stray" if is_next:
                items.append(Stray(direction, message))
            case "answer" if is_open:
                items[at] = Exchange(items[at].request, message)
            case "pending" if is_open:
                pass
            case _:
                return None
    return list_text(items)


def is_unanswered(items):
    return [isinstance(item, Exchange) and item.answer is None for item in items] == [True]


# --- Who speaks, whatever the identifiers are ---------------------------------------------------------------------------

Said = namedtuple("Said", "identifier answers service")

LARGEST_IDENTIFIER = 0x1FFFFFFF


def frames_in(lines):
    """Each identifier of these lines that a bus carries, with its frames."""
    matches = [LINE.fullmatch(without_return(line)) for line in lines]
    for identifier in sorted({match["identifier"].upper() for match in matches if match}):
        if int(identifier, 16) <= LARGEST_IDENTIFIER:
            yield identifier.decode(), trace(lines, {TESTER: identifier.decode()})


def said_in(lines):
    """What the frames of these lines say of services, whatever their identifiers: each that asks for one or answers it."""
    for identifier, entries in frames_in(lines):
        for entry in entries:
            message = begun_in(entry)
            if message:
                yield entry.line, Said(identifier, *message)


def functional_in(lines):
    """The identifiers for functional requests that send a single frame, by their texts."""
    for identifier, entries in frames_in(lines):
        if re.fullmatch("7DF|18DB....", identifier) and any(isinstance(entry.layout, Single) for entry in entries):
            yield identifier


def begun_in(entry):
    """Whether the message that a frame begins answers a service, and which one, by the bytes in this frame."""
    layout = entry.layout
    if not isinstance(layout, (Single, First)):
        return None
    message = layout.message if isinstance(layout, Single) else entry.data[-layout.bytes_in_first :]
    if message == b"\x3E\x80":
        return None
    if message[0] == 0x7F:
        return (True, message[1]) if len(message) >= 3 and message[2] != 0x78 else None
    return (True, message[0] - 0x40) if message[0] & 0x40 else (False, message[0])


def credited(said):
    """The pair of each answer that is credited: who asked last for its service, where its sender hasn't answered that yet."""
    for place, answer in enumerate(said):
        if answer.answers:
            asked = [p for p in range(place) if said[p].service == answer.service and not said[p].answers]
            if asked and said[asked[-1]].identifier != answer.identifier and answer not in said[asked[-1] : place]:
                yield said[asked[-1]].identifier, answer.identifier


def partner_of(unit):
    """The identifier that asks this one where both keep to ISO 15765-4 or to normal fixed addressing."""
    if re.fullmatch("7E[89A-F]", unit):
        return f"{int(unit, 16) - 8:03X}"
    fixed = re.fullmatch("18DA(..)(..)", unit)
    return f"18DA{fixed[2]}{fixed[1]}" if fixed and fixed[1] != fixed[2] else None


Line = namedtuple("Line", "credits tester unit requests functional")


def pairs_in(lines):
    """The line of each unit that has a credit, with its tester, that one's credits of it, its requests, and a functional identifier
    of as many digits that is neither, in the order in which they are told."""
    said = [each for _, each in sorted(said_in(lines))]
    credits = Counter(credited(said))
    requests = Counter(each.identifier for each in said if not each.answers)
    functional = list(functional_in(lines))
    testers = {unit: tester_of(unit, credits, requests, functional) for _, unit in credits}
    told = sorted((-credits[tester, unit], tester, unit) for unit, tester in testers.items())
    return [Line(-less, tester, unit, requests[tester], beside(tester, unit, functional)) for less, tester, unit in told]


def tester_of(unit, credits, requests, functional):
    """A unit's partner, where that asks; or else who has credits of it: rather one that isn't functional, with the most."""
    if partner_of(unit) in requests:
        return partner_of(unit)
    return min((tester in functional, -number, tester) for (tester, one), number in credits.items() if one == unit)[-1]


def beside(tester, unit, functional):
    """The first functional identifier of as many digits that is neither; None where there is none."""
    return next((each for each in functional if len(each) == len(unit) and each not in (tester, unit)), None)


def pairs_text(pairs):
    return "".join(
        f"{line.credits} --tester {line.tester} --unit {line.unit}{f' --functional {line.functional}' if line.functional else ''}\n"
        for line in pairs
    )


def pairs_objects(pairs):
    keys = ["credits", "requests", "tester", "unit", "functional"]
    objects = [{key: getattr(line, key) for key in keys if getattr(line, key) is not None} for line in pairs]
    return "".join(json.dumps(each, separators=(",", ":")) + "\n" for each in objects)


def pairs_profile(pairs):
    """The first 64 pairs as the units of a profile."""
    units = [
        f"# {line.credits} of {line.requests} requests answered\n[[unit]]\n"
        f'name = "{line.tester}-{line.unit}"\ntester = "{line.tester}"\nunit = "{line.unit}"\n'
        + (f'functional = "{line.functional}"\n' if line.functional else "")
        for line in pairs[:64]
    ]
    return "\n".join(units) or "# nobody answered\n"


# --- The outcome --------------------------------------------------------------------------------------------------------

Outcome = namedtuple("Outcome", "status fault written")
Refusal = namedtuple("Refusal", "fault lines")


def refusal(log, limit, is_long_refused=True, sides=SIDES):
    """Why a log is refused by its lines or its length, with the lines that were read before; None where it is not."""
    seen, is_whole = log[:limit], len(log) <= limit
    lines = cut(seen)
    ended = lines[: seen.count(b"\n")]
    for number, line in enumerate(lines, 1):
        fault = line_fault(number, line, is_whole or number <= len(ended), is_long_refused, sides)
        if fault:
            return Refusal(fault, lines[: number - 1])
    return None if is_whole else Refusal("log longer than the limit", ended)


def line_fault(number, line, is_whole, is_long_refused, sides):
    """Why a line refuses its log: it is no line, or it announces too much. Of a line that goes on after the limit only a
    byte can be wrong."""
    if not is_legal(line):
        column = refused_column(line)
        return f"line {number} column {column}: not a log line" if is_whole or column <= len(line) else None
    first = [entry.layout for entry in trace([line], sides) if isinstance(entry.layout, First)]
    if first and is_whole and is_long_refused and first[0].announced > MESSAGE_LIMIT:
        return f"line {number}: {first[0].announced} bytes announced, the limit is {MESSAGE_LIMIT}"
    return None


def items_of(lines, sides=SIDES):
    """What a log of these lines means."""
    return meaning(messages(trace(lines, sides)))


def outcome(log, limit=GIBIBYTE, sides=SIDES):
    """The outcome of a log: its canonical log, or why it is refused, and what is written of the canonical log before."""
    refused = refusal(log, limit, sides=sides)
    if refused:
        known = canonical_lines(early(messages(trace(refused.lines, sides))), sides)
        return Outcome(REFUSED, refused.fault, fitting(known, limit))
    text = canonical_lines(in_order(items_of(cut(log), sides)), sides)
    if sum(map(len, text)) > limit:
        return Outcome(REFUSED, "canonical log longer than the limit", fitting(text, limit))
    return Outcome(DONE, None, "".join(text).encode())


def listed(log, limit=GIBIBYTE, write=list_text, sides=SIDES):
    """The list of a log, which is accepted and refused as its canonical log is. Nothing is written of a refused log."""
    came = outcome(log, limit, sides)
    return Outcome(came.status, came.fault, write(items_of(cut(log), sides)).encode() if came.status == DONE else b"")


def watched(log, limit=GIBIBYTE, write=list_text, sides=SIDES):
    """The list of a log, however long its canonical log is; where it is refused, that of what its lines before decide."""
    refused = refusal(log, limit, is_long_refused=False)
    if refused:
        return Outcome(REFUSED, refused.fault, write(decided(messages(trace(refused.lines, sides)))).encode())
    return Outcome(DONE, None, write(items_of(cut(log), sides)).encode())


def explained(log, limit=GIBIBYTE, write=in_words, sides=SIDES):
    """The explanation of a log; where it is refused, that of its frames before the fault."""
    refused = refusal(log, limit, is_long_refused=False)
    if refused:
        return Outcome(REFUSED, refused.fault, write(told_of(trace(refused.lines, sides))).encode())
    return Outcome(DONE, None, write(explanation(cut(log), sides)).encode())


def placed(log, limit=GIBIBYTE, sides=SIDES, write=in_words):
    """The messages of a log with their places; where it is refused, those of its frames before the fault."""
    refused = refusal(log, limit, is_long_refused=False)
    text = write(places(trace(refused.lines if refused else cut(log), sides)))
    return Outcome(REFUSED if refused else DONE, refused.fault if refused else None, text.encode())


def found(log, limit=GIBIBYTE, write=pairs_text):
    """The pairs of a log whose identifiers nobody told. Nothing is written of a refused log."""
    refused = refusal(log, limit, is_long_refused=False)
    return Outcome(REFUSED, refused.fault, b"") if refused else Outcome(DONE, None, write(pairs_in(cut(log))).encode())


def strictly(job, log, limit=GIBIBYTE):
    """What a job comes to over a log that has to be clean."""
    came = job(log, limit)
    told = unclean(log) if came.status == DONE else None
    return Outcome(UNCLEAN, told, came.written) if told else came


def comparison_text(place, ours, theirs, shows_items=False):
    """Whether two lists of items are the same, or at which place they first differ, counted from 0; and what stands there."""
    if place is None:
        return "same\n"
    sides = [("left", ours), ("right", theirs)] if shows_items else []
    shown = [f"{side}: {shown_line(place, items)}\n" for side, items in sides]
    return "".join([f"different at item {place + 1}\n", *shown])


def shown_line(place, items):
    return f"{place + 1} {item_text(items[place])}" if place < len(items) else "nothing"


def comparison_object(place, ours, theirs, shows_items=False):
    """The same as an object."""
    if place is None:
        return object_line({"same": True})
    sides = {"left": ours, "right": theirs} if shows_items else {}
    shown = {side: {"item": place + 1, **item_members(items[place])} if place < len(items) else None for side, items in sides.items()}
    return object_line({"same": False, "item": place + 1, **shown})


def compared(left, right, limit=GIBIBYTE, is_strict=False, write=comparison_text):
    """How two logs compare: what is told, or which of them is refused first, or which are not clean and have to be."""
    for side, log in (("left", left), ("right", right)):
        came = outcome(log, limit)
        if came.status == REFUSED:
            return Outcome(REFUSED, f"{side}: {came.fault}", b"")
    told = [f"{side}: {unclean(log)}" for side, log in (("left", left), ("right", right)) if is_strict and unclean(log)]
    if told:
        return Outcome(UNCLEAN, "\n".join(told), b"")
    ours, theirs = items_of(cut(left)), items_of(cut(right))
    is_same = [one == other for one, other in zip(ours, theirs)]
    differing = is_same.index(False) if False in is_same else len(is_same)
    place = None if ours == theirs else differing
    return Outcome(DONE if place is None else DIFFERENT, None, write(place, ours, theirs).encode())


def main():
    limit = int(sys.argv[1]) if len(sys.argv) > 1 else GIBIBYTE
    sides = dict(zip((TESTER, UNIT), sys.argv[2:])) or SIDES
    came = outcome(sys.stdin.buffer.read(), limit, sides)
    sys.stdout.buffer.write(came.written)
    sys.exit(came.status)


if __name__ == "__main__":
    main()
