"""Logs of one message of the unit: each way in which it may be sent."""

from collections import namedtuple

import tables

# The lengths of frames, and the shortest message that takes more than one of each.
SIZES = {8: 8, 12: 11, 16: 15, 20: 19, 24: 23, 32: 31, 48: 47, 64: 63}

# How a unit may send a message: the size of its frames, what they are padded with, and whether the last one is as long as the
# others or as short as its bytes allow.
Style = namedtuple("Style", "size padding is_last_long")

# As a canonical log has it.
CANONICAL = Style(8, b"\xcc", True)


def message_of(length):
    """A response in which no two neighbouring bytes are equal."""
    return bytes(k % 251 for k in range(length))


def recorded(style, message):
    """The log of a message of the unit, with a continue frame of the tester after its first frame."""
    length = len(message).to_bytes(4, "big")
    control = bytes([0x10 | length[2], length[3]]) if len(message) <= 4095 else b"\x10\x00" + length
    begun = style.size - len(control)
    frames = [spelled("7E8", filled(style, control + message[:begun])), "7E0#300000CCCCCCCCCC"]
    for number, begin in enumerate(range(begun, len(message), style.size - 1), 1):
        data = bytes([0x20 | number % 16]) + message[begin : begin + style.size - 1]
        frames.append(spelled("7E8", filled(style, data)))
    return b"".join(tables.stamped(number, frame) for number, frame in enumerate(frames))


def filled(style, data):
    """The data of a frame, padded to the size of the others, or where it may be short to the next one that CAN FD has."""
    allowed = next(size for size in SIZES if len(data) <= size)
    size = style.size if style.is_last_long else allowed if allowed > 8 else len(data)
    return data.ljust(size, style.padding)


def spelled(identifier, data):
    """A frame as a line spells it, of CAN FD where it has more bytes than a classic one."""
    return f"{identifier}{'##1' if len(data) > 8 else '#'}{data.hex().upper()}"
