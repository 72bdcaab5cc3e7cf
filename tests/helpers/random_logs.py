"""Random logs: sessions whose frames are lost, repeated, exchanged and late, and logs of which bytes are changed."""

import random

import oracle
from tables import EXAMPLES

FRAME_LENGTHS = (8, 8, 8, 12, 16, 20, 24, 32, 48, 64)
MICROS = (0, 1, 1000, 999_999, 1_000_000, 1_000_001, -1, -1_000_000, 241, 97_000)
BYTES = b"\n\r (#_)RT0123456789ABCDEFabcdf.7E\xff\x00\x21\x7e"


def frames_of(rng, sender, message):
    """The frames of a message as some sender may cut it, flow control among them."""
    rx_dl = rng.choice(FRAME_LENGTHS)
    padding = rng.choice((None, 0x00, 0xAA, 0xCC))
    receiver = "7E8" if sender == "7E0" else "7E0"
    size = len(message)
    if size <= 7:
        return [(sender, padded(rng, bytes([size]) + message, padding, 8))]
    if rx_dl > 8 and size + 2 <= rx_dl:
        return [(sender, padded(rng, bytes([0, size]) + message, padding, rx_dl))]
    head = bytes([0x10 | size >> 8, size & 0xFF]) if size <= 4095 else b"\x10\x00" + size.to_bytes(4, "big")
    at = rx_dl - len(head)
    frames = [(sender, head + message[:at])]
    for k, begin in enumerate(range(at, size, rx_dl - 1), 1):
        if rng.random() < 0.3 or k == 1:
            frames.append((receiver, bytes([0x30 | rng.choice((0, 0, 0, 1)), 0, 0])))
        part = bytes([0x20 | k % 16]) + message[begin : begin + rx_dl - 1]
        frames.append((sender, padded(rng, part, padding, rx_dl)))
    return frames


def padded(rng, data, padding, rx_dl):
    """A frame filled up: to the next length that a frame may have, or to that of the others."""
    least = next(n for n in (*range(9), 12, 16, 20, 24, 32, 48, 64) if n >= len(data))
    length = rx_dl if padding is not None and rng.random() < 0.5 else least
    return data.ljust(max(length, least), bytes([padding or 0]))


def message_of(rng, services):
    """A message of the tester or the unit, most often a request of one of these services or what a unit answers to it."""
    service = rng.choice(services)
    size = rng.choice((0, 0, 1, 2, 2, 3, 5, 6, 7, 8, 20, 60, 130)) if rng.random() < 0.99 else rng.randint(131, 5000)
    kind = rng.random()
    if kind < 0.35:
        return "7E0", bytes([service]) + rng.randbytes(size)
    if kind < 0.45:
        return "7E0", rng.choice((b"\x3E\x80", b"\x3E\x00", b"\x62\xF1"))
    if kind < 0.7:
        return "7E8", bytes([0x7F, service, rng.choice((0x78, 0x78, 0x78, 0x31, 0x99))])
    return "7E8", bytes([(service + 0x40) % 256]) + rng.randbytes(size)


def noise(rng):
    """A frame that is foreign, means nothing or comes where nobody expects it."""
    sender = rng.choice(("7E0", "7E8", "7E8", "123", "7DF"))
    kind = rng.choice((0x00, 0x03, 0x10, 0x1F, 0x21, 0x2F, 0x30, 0x31, 0x32, 0x32, 0x33, 0x40, 0xFF))
    size = rng.choice((0, 1, 2, 3, 7, 8, 8, 9, 11, 12, 16, 24, 48, 63, 64))
    data = bytes([kind]) + rng.randbytes(63)
    if rng.random() < 0.2:
        data = bytes([0x10, 0x00, 0x00, rng.choice((0, 0, 1)), rng.choice((0x0F, 0x10, 0xFF)), 0xFF]) + rng.randbytes(58)
    return sender, data[:size]


def session(rng):
    """The frames of some messages, which may come at the same time, with some lost, repeated, exchanged and put in."""
    waiting = []
    services = rng.choices((0x10, 0x22, 0x3E, 0x3F, 0x2E, 0xBA, 0x00), k=rng.choice((1, 1, 2)))
    for _ in range(rng.choice((1, 2, 3, 5, 8, 8))):
        frames = frames_of(rng, *message_of(rng, services))
        if waiting and rng.random() < 0.3:
            merge(rng, waiting, frames)
        else:
            waiting += frames
    for _ in range(rng.choice((0, 0, 0, 1, 2, 4))):
        at = rng.randrange(len(waiting))
        change = rng.randrange(4)
        if change == 0 and len(waiting) > 1:
            del waiting[at]
        elif change == 1:
            waiting.insert(at, waiting[at])
        elif change == 2:
            waiting.insert(at, noise(rng))
        else:
            waiting[at:] = waiting[at:][1:2] + waiting[at:][:1] + waiting[at:][2:]
    return waiting


def merge(rng, frames, others):
    """Puts other frames between these, from some place on, each list in its order."""
    at = rng.randrange(len(frames))
    for other in others:
        frames.insert(at, other)
        at = min(at + rng.randint(1, 3), len(frames))


def log_of(rng, frames):
    """The log of these frames, in the spellings that a log may have."""
    micros = rng.choice((0, 1_700_000_000_000_000, 9_999_999_998_000_000))
    end = rng.choice((b"\n", b"\n", b"\n", b"\r\n"))
    lines = []
    for identifier, data in frames:
        micros = min(max(0, micros + rng.choice(MICROS)), 9_999_999_999_999_999)
        lines.append(spelled(rng, micros, identifier, data))
    return end.join(lines) + (end if rng.random() < 0.8 else b"")


def spelled(rng, micros, identifier, data):
    if rng.random() < 0.03:
        return rng.choice((b"", b"(1.000000) can0 7E0#R", b"(1.000000) x 18DAF110#00", b"(1.000000) x 000007E0#0101"))
    mark = "#" + ("#1" if len(data) > 8 or rng.random() < 0.1 else "")
    tail = rng.choice(("", "", "", " R", " T"))
    if len(data) == 8 and mark == "#" and rng.random() < 0.2:
        tail = "_9" + tail
    text = f"({micros // 1_000_000}.{micros % 1_000_000:06}) can0 {identifier}{mark}{data.hex()}"
    return (rng.choice((text.upper, text.lower))().replace("CAN0", "can0") + tail).encode()


def mutated(rng, log):
    """The log with some of its bytes changed, taken out, put in or cut off."""
    log = bytearray(log)
    for _ in range(rng.choice((1, 1, 2, 4))):
        at = rng.randrange(len(log) + 1)
        change = rng.randrange(4)
        if change == 0:
            log[at : at + 1] = bytes([rng.choice(BYTES)])
        elif change == 1:
            del log[at : at + rng.choice((1, 1, 2, 38))]
        elif change == 2:
            log[at:at] = bytes([rng.choice(BYTES)])
        elif rng.random() < 0.3:
            del log[at:]
    return bytes(log)


def random_logs(seed):
    """Logs without end."""
    rng = random.Random(seed)
    samples = [path.read_bytes() for path in sorted(EXAMPLES.glob("*.log"))]
    while True:
        log = log_of(rng, session(rng))
        yield log
        yield mutated(rng, rng.choice((log, rng.choice(samples))))


def limit_for(rng, log):
    """A limit about the length of the log or of its canonical log, or the one that holds where none is given."""
    if rng.random() < 0.5:
        return oracle.GIBIBYTE
    lengths = (len(log), len(oracle.outcome(log).written), rng.randint(1, 500), 46 * rng.randint(1, 9))
    return max(1, rng.choice(lengths) + rng.choice((-1, 0, 0, 1)))
