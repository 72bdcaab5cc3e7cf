"""A second reading of the echo: which bytes of a request its positive answer repeats (ISO 14229-1, the message of each service).

A byte that is masked is None.
"""

# Of each service the places that are repeated; of the first ones the number is the low seven bits.
WITH_SUB_FUNCTION = {0x10, 0x11, 0x19, 0x27, 0x28, 0x29, 0x3E, 0x83, 0x85, 0x86, 0x87, 0x2C, 0x31}
OTHERS = {0x24: [1, 2], 0x2E: [1, 2], 0x2F: [1, 2], 0x36: [1], 0x38: [1]}

# The sub-functions of RoutineControl that tell a routine.
OF_ROUTINES = {1, 2, 3}

# The service ReadDataByIdentifier.
IDENTIFIERS = 0x22

# So many bytes of a request are kept until its answer comes, where a log is told as it comes.
MOST_ASKED = 4095

# A page tells so many bytes of what was asked at the most.
MOST_SHOWN = 32


def is_other(request, answer):
    """Whether a positive answer is other than was asked: both have all the bytes that are repeated, and these differ."""
    if not request or not answer or request[0] is None or answer[0] != request[0] + 0x40 or answer[0] == 0x7F:
        return False
    if request[0] == IDENTIFIERS:
        return is_another_identifier(request, answer)
    repeated = places(request, answer)
    if len(request) <= max(repeated, default=0) or len(answer) <= max(repeated, default=0):
        return False
    return any(differ(compared(request, place), compared(answer, place)) for place in repeated)


def is_another_identifier(request, answer):
    """An answer of ReadDataByIdentifier begins with none of the identifiers that were asked for."""
    if len(request) < 3 or len(answer) < 3:
        return False
    asked = [request[place : place + 2] for place in range(1, len(request) - 1, 2)]
    return all(any(differ(*pair) for pair in zip(identifier, answer[1:3])) for identifier in asked)


def places(request, answer):
    service = request[0]
    if service not in WITH_SUB_FUNCTION:
        return OTHERS.get(service, [])
    number = request[1] % 0x80 if len(request) > 1 and request[1] is not None else None
    both = len(request) > 3 and len(answer) > 3
    has_more = number in OF_ROUTINES if service == 0x31 else both if service == 0x2C else False
    return [1, 2, 3] if has_more else [1]


def compared(message, place):
    byte = message[place]
    return byte % 0x80 if byte is not None and place == 1 and message[0] - (0x40 if message[0] & 0x40 else 0) in WITH_SUB_FUNCTION else byte


def differ(one, other):
    return None not in (one, other) and one != other


def bytes_told(text):
    """The bytes of a message that a line tells; a masked one is None."""
    text = text.rstrip("*")
    return [None if text[at] == "." else int(text[at : at + 2], 16) for at in range(0, len(text), 2)]


def echo_told(request, answer):
    """The member of an object for a request and its answer, both as a line tells them."""
    return {"echo": False} if is_other(bytes_told(request), bytes_told(answer)) else {}


def asked_of(request):
    """What is kept of a request: of one for data identifiers that has more bytes nothing, for an answer may be to any of them."""
    return [] if request[0] == IDENTIFIERS and len(request) > MOST_ASKED else request[:MOST_ASKED]


def echo_told_as_it_comes(request, answer):
    """The same by what is kept of the request."""
    return {"echo": False} if is_other(asked_of(bytes_told(request)), bytes_told(answer)) else {}


def is_other_on_page(request, answer):
    """Whether a page tells of a positive answer that it is other than was asked; both are messages, or what masks leave of them."""
    return is_other(asked_of(cells_of(request)), cells_of(answer))


def words_on_page(request, answer):
    """What a row says of such an answer: what it answers, and what was asked, of data identifiers the first bytes."""
    if request[0] == IDENTIFIERS:
        more, at_least = len(request) - MOST_SHOWN, "at least " if getattr(request, "is_cut", False) else ""
        behind = f" and {at_least}{more} byte{'s' * (more > 1)} more" if more > 0 else ""
        return spelled(answer[:3]), spelled(request[:MOST_SHOWN]) + behind
    count = max(places(cells_of(request), cells_of(answer))) + 1
    return spelled(answer[:count]), spelled(request[:count])


def cells_of(message):
    return bytes_told(message.hex())


def spelled(message):
    return message.hex(" ").upper()
