"""The JSON lines of a text, told from the same text in words: each line is read, and written again as an object."""

import json
import re

from echoes import echo_told, echo_told_as_it_comes

ENDED = re.compile(r"line (\d+): (tester|unit) reception from line (\d+) of (\d+) bytes ended: (.+)")
DROPPED = re.compile(r"line (\d+): (tester|unit) frame dropped: (.+)")
UNFINISHED = re.compile(r"end: (tester|unit) reception from line (\d+) of (\d+) bytes unfinished")
SEQUENCE = re.compile(r"(sequence number) ([0-9A-F]) expected, ([0-9A-F]) found")
ANNOUNCED = re.compile(r"(\d+) (bytes announced)")
DIFFERENT = re.compile(r"different at item (\d+)")


def in_objects(job, text):
    """The text that a job writes with `--json`, by the one that it writes without."""
    lines = text.decode().splitlines()
    objects = message_objects(lines) if job == "messages" else map(OBJECTS[job], lines)
    return "".join(map(object_line, objects)).encode()


def object_line(members):
    return json.dumps(members, separators=(",", ":")) + "\n"


def item_object(line):
    words = line.split(" ")
    number = {"item": int(words.pop(0))} if words[0].isdigit() else {}
    if words[0] == "stray":
        return {**number, **named("kind direction message", words)}
    kind, service, request, _, *outcome = words
    asked = {**number, **named("kind service request", [kind, service, request]), "outcome": outcome[0]}
    if outcome[0] == "positive":
        return {**asked, **echo_told(request, outcome[1]), "answer": outcome[1]}
    return {**asked, **named("code answer", outcome[1:])}


def message_objects(lines):
    """Those of the lines of messages: a reply is told with its request, the last one of its item."""
    requests = {}
    for line in lines:
        number, role, direction, _, first, _, last, _, start, _, end, message = line.split(" ")
        if role == "request":
            requests[number] = end, message
        reply = {}
        if role in ("answer", "pending"):
            asked, request = requests[number]
            reply = {"after_us": micros(start) - micros(asked), **(echo_told_as_it_comes(request, message) if role == "answer" else {})}
        item = {"item": int(number), "role": role, "direction": direction, "first_line": int(first), "last_line": int(last)}
        yield {**item, "start": start, "end": end, **reply, "message": message}


def micros(stamp):
    """A time stamp in microseconds."""
    return int(stamp.replace(".", ""))


def event_object(line):
    if found := ENDED.fullmatch(line):
        return {"line": int(found[1]), "event": "ended", "direction": found[2], **begun(found[3], found[4]), "cause": found[5]}
    if found := DROPPED.fullmatch(line):
        return {"line": int(found[1]), "event": "dropped", "direction": found[2], **reason(found[3])}
    if found := UNFINISHED.fullmatch(line):
        return {"event": "unfinished", "direction": found[1], **begun(found[2], found[3])}
    words = line.split(" ")
    return {"event": "counts", **{name: int(number) for name, number in zip(words[::2], words[1::2])}}


def begun(line, length):
    return {"begun_line": int(line), "length": int(length)}


def reason(text):
    if found := SEQUENCE.fullmatch(text):
        return {"reason": found[1], "expected": int(found[2], 16), "found": int(found[3], 16)}
    if found := ANNOUNCED.fullmatch(text):
        return {"reason": found[2], "announced": int(found[1])}
    return {"reason": text}


def comparison_object(line):
    found = DIFFERENT.fullmatch(line)
    return {"same": False, "item": int(found[1])} if found else {"same": line == "same"}


def named(names, words):
    return dict(zip(names.split(" "), words))


OBJECTS = {
    "list": item_object,
    "explain": event_object,
    "compare": comparison_object,
}
