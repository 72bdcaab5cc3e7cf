#!/usr/bin/env python3
"""Other tools read what `udsnorm` writes, and `udsnorm` reads what they write, as docs/interop.md says.

    tests/program/interop.py crates/udsnorm/out/udsnorm

The tools are can-utils' log2asc and asc2log, python-can, tshark and scapy (Debian: apt-get install can-utils python3-can
tshark python3-scapy). What is missing is named and skipped. Cells of the table other_tools.txt, and what the page says of one
version, are compared for tools of that version only.

Prints a line for each case and ends with `N passed, M failed`; its status is 1 where a case failed.
"""

import functools
import json
import os
import re
import shutil
import subprocess
import sys
import tempfile
from pathlib import Path

sys.path.insert(0, str(Path(__file__).resolve().parents[1] / "helpers"))

from cases import DONE, REFUSAL, Cases
from told import place

TOP = Path(__file__).resolve().parents[2]
PAGE = TOP / "docs" / "interop.md"
TABLE = Path(__file__).with_name("other_tools.txt")
PACKAGES = {"log2asc": "can-utils", "python-can": "python3-can", "tshark": "tshark", "scapy": "python3-scapy"}

# By python-can: reads a log of candump, or writes a file again in the format that the other name ends in.
READER = """
import can, sys
for message in can.CanutilsLogReader(sys.argv[1]):
    identifier = format(message.arbitration_id, "08X" if message.is_extended_id else "03X")
    data = "R" if message.is_remote_frame else bytes(message.data).hex().upper()
    print(identifier + ("##" if message.is_fd else "#") + data, flush=True)
"""
WRITER = """
import can, sys
reader = can.LogReader if sys.argv[1].endswith((".asc", ".csv", ".blf")) else can.CanutilsLogReader
writer = can.Logger(sys.argv[2])
for message in reader(sys.argv[1]):
    writer(message)
writer.stop()
"""

# By scapy: the messages of a log of candump, each with its identifier.
BUILDER = """
import sys
from scapy.contrib.isotp import ISOTPMessageBuilder
from scapy.layers.can import rdcandump
builder = ISOTPMessageBuilder(use_ext_address=False)
for frame in rdcandump(sys.argv[1]):
    builder.feed(frame)
    while builder.count:
        message = builder.pop()
        print(message.rx_id, bytes(message.data).hex().upper())
"""

# The modules of the tools that are no programs.
MODULES = {"python-can": "can", "scapy": "scapy"}

# The longest message that tshark 4.0.17 puts together.
LONGEST_OF_TSHARK = 28555

# The testers of the logs here, and what names the two sides of a log that has others than those of the program.
TESTERS = {0x7E0, 0x18DA10F1}
SIDES = {"extended-identifiers": ["--tester", "18DA10F1", "--unit", "18DAF110"]}

# The status of each tool where it refuses a line.
REFUSED = {"log2asc": 1, "python-can": 1, "tshark": 2}

# The interfaces of the logs here: log2asc leaves out frames of others.
INTERFACES = ["can0", "vcan1", "gateway-bus-can", "abcdefghijklmnop"]

BEFORE = "(1.000000) can0 7E0#0322F190"
BEHIND = "(1.900000) can0 7E8#037F2231"


def run(*words):
    return subprocess.run([str(word) for word in words], capture_output=True, text=True, timeout=120)


@functools.cache
def python_with(module):
    """A Python that has this module: this one, or that of Debian."""
    for python in (sys.executable, "/usr/bin/python3"):
        if Path(python).exists() and run(python, "-c", f"import {module}").returncode == 0:
            return python
    return None


@functools.cache
def version_of(tool):
    """The version of an installed tool, by Debian where the tool doesn't tell it; None where the tool is missing."""
    if tool in MODULES:
        python = python_with(MODULES[tool])
        return run(python, "-c", f"import {MODULES[tool]}; print({MODULES[tool]}.__version__)").stdout.strip() if python else None
    if not shutil.which(tool):
        return None
    if tool == "tshark":
        return re.search(r"\d+\.\d+\.\d+", run("tshark", "--version").stdout)[0]
    asked = run("dpkg-query", "--show", "--showformat=${Version}", PACKAGES[tool]) if shutil.which("dpkg-query") else None
    return asked.stdout.split("-")[0] if asked and asked.returncode == 0 else "unknown"


def frames_of_log2asc(log):
    """The frames that log2asc finds in a log, in the spelling of candump, and its status."""
    done = run("log2asc", "-I", log, *INTERFACES)
    frames = []
    for line in done.stdout.split("\n"):
        classic = re.match(r"\s*[\d.]+ \d\s+([0-9A-F]+)(x?)\s+[RT]x\s+(?:d \d+((?: [0-9A-F]{2})*)|(r).*)$", line)
        fd = re.match(r"\s*[\d.]+ CANFD\s+\d [RT]x\s+([0-9A-F]+)(x?)\s+\d \d [0-9a-f]\s+\d+((?: [0-9A-F]{2})*)   ", line)
        if classic or fd:
            identifier, extended, data = (classic or fd).group(1, 2, 3)
            data = "R" if classic and classic[4] else data.replace(" ", "")
            frames.append(identifier.zfill(8 if extended else 3) + ("##" if fd else "#") + data)
    return frames, done.returncode


def frames_of_python_can(log):
    done = run(python_with("can"), "-c", READER, log)
    return done.stdout.split("\n")[:-1], done.returncode


def frames_of_tshark(log):
    """The frames as Wireshark's reader of candump logs sees them."""
    done = run("tshark", "-r", log, "-T", "json", "-x")
    frames = []
    for packet in json.loads(done.stdout or "[]"):
        raw = bytes.fromhex(layers_of(packet)["can_raw"][0] if "can_raw" in layers_of(packet) else layers_of(packet)["canfd_raw"][0])
        identifier = int.from_bytes(raw[:4], "little")
        data = "R" if identifier & 0x40000000 else raw[8 : 8 + raw[4]].hex().upper()
        name = format(identifier & 0x1FFFFFFF, "08X") if identifier & 0x80000000 else format(identifier & 0x1FFFFFFF, "03X")
        frames.append(name + ("##" if "canfd_raw" in layers_of(packet) else "#") + data)
    return frames, done.returncode


READERS = {"log2asc": frames_of_log2asc, "python-can": frames_of_python_can, "tshark": frames_of_tshark}


def layers_of(packet):
    return packet["_source"]["layers"]


def messages_of_tshark(log):
    """The messages that the dissectors of ISO 15765 and of UDS find: who sent each, and its bytes."""
    done = run("tshark", "-d", "can.subdissector,iso15765", "-d", "iso15765.subdissector,uds", "-r", log, "-T", "json", "-x")
    messages = []
    for packet in json.loads(done.stdout or "[]"):
        layers = layers_of(packet)
        if "uds_raw" in layers:
            side = "tester" if int(layers["can"]["can.id"]) in TESTERS else "unit"
            messages.append((side, layers["uds_raw"][0].upper()))
    return messages


def messages_of_scapy(log):
    """The messages that scapy puts together: who sent each, and its bytes."""
    messages = []
    for line in run(python_with("scapy"), "-c", BUILDER, log).stdout.split("\n")[:-1]:
        identifier, data = line.split(" ")
        messages.append(("tester" if int(identifier) in TESTERS else "unit", data))
    return messages


def messages_of_list(cases, log):
    """The messages that `list` tells of a log, in the order of the canonical log."""
    messages = []
    for line in cases.run(["list", *sides_of(log), log]).output.decode().split("\n")[:-1]:
        words = line.split(" ")
        if words[1] == "stray":
            messages.append((words[2], words[3]))
        else:
            messages.append(("tester", words[3]))
            messages += [("unit", words[-1])] if words[5] in ("positive", "negative") else []
    return messages


def sides_of(log):
    return SIDES.get(log.stem, [])


def frames_of_lines(log):
    """The frames of a canonical log as they stand in its lines."""
    return [line.split(" ")[2] for line in log.read_text().split("\n")[:-1]]


def difference(found, want):
    for at, (came, wanted) in enumerate(zip(found, want)):
        if came != wanted:
            return [f"number {at + 1} is {str(came)[:80]}, not {str(wanted)[:80]}"]
    return [] if len(found) == len(want) else [f"{len(found)}, not {len(want)}"]


def canonical_logs(cases, folder):
    """Those of examples/, and one of messages at each length where the layout of the first frame changes."""
    logs = sorted((TOP / "examples").glob("*.canonical"))
    for length in (7, 8, 4095, 4096, LONGEST_OF_TSHARK, LONGEST_OF_TSHARK + 1, 65535):
        log = folder / f"{length}-bytes.canonical"
        log.write_text(recorded(length))
        cases.case(f"a log of a message of {length} bytes is canonical", cases.run(["normalise", *sides_of(log), log]), DONE, log.read_bytes())
        logs.append(log)
    return logs


def recorded(length):
    """The canonical log of one request with this many bytes."""
    message = bytes([0x36, 0x01]) + bytes(k % 251 for k in range(length - 2))
    if length < 8:
        frames = [bytes([length]) + message]
    else:
        first = (0x1000 + length).to_bytes(2, "big") if length < 4096 else b"\x10\x00" + length.to_bytes(4, "big")
        room = 8 - len(first)
        frames = [first + message[:room], None]
        frames += [bytes([0x20 + (k + 1) % 16]) + message[at : at + 7] for k, at in enumerate(range(room, length, 7))]
    lines = []
    for n, frame in enumerate(frames):
        identifier, data = ("7E8", b"\x30\x00\x00") if frame is None else ("7E0", frame)
        lines.append(f"({n // 1000:010d}.{n % 1000:03d}000) can0 {identifier}#{data.ljust(8, bytes([0xCC])).hex().upper()}\n")
    return "".join(lines)


def reads_canonical(cases, tool, logs):
    """A tool reads each frame of each canonical log."""
    for log in logs:
        frames, status = READERS[tool](log)
        wrong = difference(frames, frames_of_lines(log)) + ([f"status {status}"] if status else [])
        cases.report(f"{tool} reads {log.name}", wrong)


def log2asc_loses_times(cases, log):
    """In the first second of a log that begins in second 0 each line of the ASC file has a header and the time 0."""
    done = run("log2asc", "-I", log, *INTERFACES)
    lines = log.read_text().count("\n")
    headers, times = done.stdout.count("date "), done.stdout.count("\n   0.000000 1 ")
    cases.report(f"log2asc puts each line of {log.name} at 0", [] if headers == times == lines else [f"{headers} headers, {times} times"])


def tshark_finds_messages(cases, logs):
    for log in logs:
        want = messages_of_list(cases, log)
        if all(len(data) <= 2 * LONGEST_OF_TSHARK for _, data in want):
            cases.report(f"tshark finds the messages of {log.name}", difference(messages_of_tshark(log), want))
        elif is_of_page("tshark"):
            cases.report(f"tshark finds no message of {log.name}", difference(messages_of_tshark(log), []))


def scapy_finds_messages(cases, logs):
    for log in logs:
        cases.report(f"scapy finds the messages of {log.name}", difference(messages_of_scapy(log), messages_of_list(cases, log)))


def scapy_misreads_flexible_frames(cases, log):
    """Of a recording of CAN FD it finds other messages than of its canonical log."""
    wrong = [] if messages_of_scapy(log) != messages_of_list(cases, log) else ["the same messages"]
    cases.report(f"scapy finds other messages in {log.name}", wrong)


def asc_and_back(cases, logs, folder):
    """asc2log writes what log2asc has made of a log, and `udsnorm` reads that; the ASC file itself it refuses."""
    for log in logs:
        asc, again = folder / "log.asc", folder / "asc.log"
        run("log2asc", "-I", log, "-O", asc, *INTERFACES)
        run("asc2log", "-I", asc, "-O", again)
        cases.case(f"{log.name} by log2asc and asc2log", cases.run(["compare", *sides_of(log), log, again]), DONE, b"same\n")
    refused(cases, "an ASC file", asc, place(1, 1))


def python_can_writes(cases, logs, folder):
    """python-can writes again what it has read of a log. It knows no raw length codes."""
    for log in logs:
        if re.search(r"_[0-9A-Fa-f]", log.read_text()):
            continue
        again = folder / "python-can.log"
        again.unlink(missing_ok=True)
        run(python_with("can"), "-c", WRITER, log, again)
        cases.case(f"{log.name} written by python-can", cases.run(["compare", *sides_of(log), log, again]), DONE, b"same\n")
    for name in ("vin", "candump-fd"):
        for kind in ("asc", "csv", "blf"):
            converted(cases, TOP / "examples" / f"{name}.log", kind, folder)


def converted(cases, log, kind, folder):
    """python-can writes a log in another format, which is refused, and that as a log again. Its CSV files don't tell CAN FD."""
    file, again = folder / f"python-can.{kind}", folder / "converted.log"
    again.unlink(missing_ok=True)
    run(python_with("can"), "-c", WRITER, log, file)
    refused(cases, f"{log.name} as a file {kind} of python-can", file, place(1, 1))
    run(python_with("can"), "-c", WRITER, file, again)
    if kind == "csv" and "##" in log.read_text():
        refused(cases, f"that of {log.name} converted", again, place(4, 47))
    else:
        cases.case(f"that of {log.name} converted", cases.run(["compare", *sides_of(log), log, again]), DONE, b"same\n")


def tshark_writes(cases, log, folder):
    for kind, told in [("pcap", place(1, 1)), ("pcapng", place(2, 2))]:
        file = folder / f"log.{kind}"
        run("tshark", "-r", log, "-F", kind, "-w", file)
        refused(cases, f"a file {kind} of tshark", file, told)


def refused(cases, name, file, told):
    there = file.exists() and file.stat().st_size > 0
    if not there:
        cases.report(name, ["the tool has not written it"])
        return
    cases.case(name, cases.run(["list", file]), REFUSAL, b"", told)


@functools.cache
def versions_of_page():
    """The versions that the page was tried with: each item of its list begins with a tool and ends with its version."""
    return dict(re.findall(r"^- `(log2asc|python-can|tshark|scapy)` .*?(\d+\.\d+\.\d+)$", PAGE.read_text(), re.M))


def page_has_versions(cases):
    """Without the version of a tool nothing that the page says of one version could be compared."""
    wrong = [f"none of {tool}" for tool in PACKAGES if tool not in versions_of_page()]
    cases.report(f"{PAGE.name} has the version of each tool", wrong)


def is_of_page(tool):
    """The installed tool is of the version that the page was tried with."""
    return version_of(tool) == versions_of_page().get(tool)


def rows():
    """The lines in the table, each with what it says of `udsnorm` and of each tool."""
    found = []
    for line in TABLE.read_text().split("\n"):
        cells = [cell.strip() for cell in line.strip("|").split("|")]
        if line.startswith("| `") and len(cells) == 5:
            found.append((line_of(cells[0]), cells[1:]))
    return found


def line_of(cell):
    """A line of the table as it stands in a log: what is between the ticks, in which some bytes are named."""
    return cell.strip("`").replace("\\t", "\t").replace("\\r", "\r").replace("{17 spaces}", " " * 17).replace("{65 bytes}", "00" * 65).replace("{9 bytes}", "00" * 9)


def what_it_does(tool, line, folder):
    """What a tool makes of a line between two good ones."""
    frames, status = READERS[tool](between(line, folder))
    first, last = BEFORE.split(" ")[2], BEHIND.split(" ")[2]
    if frames[:1] != [first]:
        return f"status {status}, {frames}"
    rest = frames[1:]
    if status == REFUSED[tool]:
        return "refused" if not rest else f"read as {named(rest[0])}, then refused"
    if status == 0 and rest[-1:] == [last] and len(rest) < 3:
        return f"read as {named(rest[0])}" if rest[1:] else "skipped"
    return f"status {status}, {frames}"


def named(frame):
    """A frame in a cell of the table."""
    front, _, data = frame.rpartition("#")
    return f"`{frame}`" if len(data) <= 18 else f"`{front}#` with {len(data) // 2} bytes"


def between(line, folder):
    log = folder / "between.log"
    log.write_bytes("\n".join([BEFORE, line, BEHIND, ""]).encode())
    return log


def place_of(cases, line, folder):
    """The column at which `udsnorm` refuses a line between two good ones."""
    found = cases.run(["explain", between(line, folder)])
    told = re.match(rb"line 2 column (\d+): not a log line\n$", found.error)
    if told:
        return f"column {told[1].decode()}"
    return "accepted" if found.status == DONE else f"{found}"


def table(cases, tools, folder):
    """Each cell of the table, for the tools whose version is that of the page."""
    readers = [tool for tool in READERS if tool in tools]
    compared = [tool for tool in readers if is_of_page(tool)]
    for tool in set(readers) - set(compared):
        print(f"skipped the table for {tool}: it is of {versions_of_page().get(tool)}, and {tools[tool]} is installed", flush=True)
    for line, cells in rows():
        found = {"udsnorm": place_of(cases, line, folder)}
        found |= {tool: what_it_does(tool, line, folder) for tool in compared}
        said = dict(zip(["udsnorm", *READERS], cells))
        wrong = [f"{tool}: {found[tool]}, not {said[tool]}" for tool in found if found[tool] != said[tool]]
        cases.report(f"the table, {line[:60]!r}", wrong)


def installed():
    """The tools that are there, with their versions; what is missing is told."""
    tools = {tool: version_of(tool) for tool in PACKAGES}
    missing = [tool for tool in tools if tools[tool] is None]
    for tool in missing:
        print(f"skipped {tool}: it is not installed (Debian: apt-get install {PACKAGES[tool]})", flush=True)
    return {tool: tools[tool] for tool in tools if tools[tool]}


def main():
    if len(sys.argv) != 2:
        sys.exit(__doc__)
    tools = installed()
    cases = Cases(os.path.abspath(sys.argv[1]))
    with tempfile.TemporaryDirectory() as directory:
        folder = Path(directory)
        page_has_versions(cases)
        logs = canonical_logs(cases, folder)
        for tool in [tool for tool in READERS if tool in tools]:
            reads_canonical(cases, tool, logs)
        if "tshark" in tools:
            tshark_finds_messages(cases, logs)
            tshark_writes(cases, TOP / "examples" / "vin.log", folder)
        recordings = [log for log in sorted((TOP / "examples").glob("*.log")) if log.with_suffix(".canonical").exists()]
        if "scapy" in tools:
            scapy_finds_messages(cases, logs)
            if is_of_page("scapy"):
                scapy_misreads_flexible_frames(cases, TOP / "examples" / "vin-fd-crlf.log")
        if "log2asc" in tools:
            if is_of_page("log2asc"):
                log2asc_loses_times(cases, TOP / "examples" / "vin.canonical")
            asc_and_back(cases, recordings + logs, folder)
        if "python-can" in tools:
            python_can_writes(cases, recordings + logs, folder)
        table(cases, tools, folder)
    cases.end()


main()
