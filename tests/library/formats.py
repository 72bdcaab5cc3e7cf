#!/usr/bin/env python3
"""Tests of the Python package as a tool: what it reads, what it says of what it leaves out, and the program over it.

    tests/library/formats.py crates/udsnorm/out/udsnorm out/lib [TEST..]

Files are built by `format_samples.py`, and made by log2asc and log2long of can-utils, python-can and tshark where these
are. What is missing is named. The status is 1 where a test failed.
"""

import argparse
import bz2
import contextlib
import ctypes
import gzip
import importlib
import lzma
import os
import random
import re
import resource
import shutil
import signal
import socket
import struct
import sys
import tempfile
import time
import unittest
import unittest.mock
import warnings
import zlib
from pathlib import Path

sys.path.insert(0, str(Path(__file__).resolve().parents[1] / "helpers"))

import format_samples as samples
from cases import DEVICE, DIFFERENT, DONE, REFUSAL, WORDS
from format_samples import SAMPLES
from runs import end, run, start, told_by
from unit_tests import run_tests

TOP = Path(__file__).resolve().parents[2]
EXAMPLES = TOP / "examples"
VIN = EXAMPLES / "vin.log"

# The sample logs that are accepted.
LOGS = sorted(path for path in EXAMPLES.glob("*.log") if path.name != "refused.log")
PACKERS = {".gz": gzip.compress, ".bz2": bz2.compress, ".xz": lzma.compress}
PLACES = 50
# The most memory of a process that reads a hostile file: some ten more than Python with the package has.
BYTES = 300 << 20

given = argparse.Namespace()


def environment():
    """What a process sees that finds the package, its library and the program."""
    found = {"PYTHONPATH": str(TOP / "python"), "LD_LIBRARY_PATH": str(given.library.resolve())}
    return {**os.environ, **found, "PATH": f"{Path(given.program).parent}:{os.environ['PATH']}"}


def package(words, **options):
    """How `python3 -m udsnorm` ends."""
    return run(sys.executable, ["-B", "-m", "udsnorm", *map(str, words)], **{"env": environment(), **options})


def converted(path):
    """The status of `convert`, the most kilobytes that it took, and what it tells."""
    found = run(sys.executable, ["-B", "-c", CONVERTED, path], env=environment())
    return (*map(int, found.output.split()), found.error)


# What the process had before it was Python's is another one's.
CONVERTED = """
import re, sys
from udsnorm.__main__ import main
status = main(["convert", sys.argv[1], "/dev/null"])
print(status, re.search(r"VmHWM:\\s+(\\d+)", open("/proc/self/status").read())[1])
"""


# A run that takes its time to remove its folder.
SLOWLY = """
import sys, tempfile, time
from udsnorm.__main__ import main
remove = tempfile.TemporaryDirectory.cleanup
def slowly(folder):
    print("removing", flush=True)
    time.sleep(0.3)
    remove(folder)
tempfile.TemporaryDirectory.cleanup = slowly
sys.exit(main(["list", "run.blf"]))
"""


class Read:
    """What is read of a file: its lines, the fault if there is one, and the tally."""

    def __init__(self, name, content):
        with tempfile.TemporaryDirectory() as folder:
            path = Path(folder, name)
            path.write_bytes(content)
            with formats.Log(path) as log:
                held, self.fault = [], None
                try:
                    held.extend(log.blocks(reads=True))
                except formats.Fault as fault:
                    self.fault = str(fault)
        self.lines = b"".join(held).decode("ascii").splitlines(keepends=True)
        self.tally = log.tally


def blf_of(log):
    """A BLF file of a candump log."""
    objects = []
    for stamp, interface, identifier, body in re.findall(r"\((\d+\.\d{6})\) +(\S+) +([0-9A-Fa-f]+)#([^\s_]*)", log.decode()):
        word = int(identifier, 16) | (1 << 31 if len(identifier) == 8 else 0)
        nanos, channel = int(stamp.replace(".", "")) * 1000, int(re.sub(r"\D", "", interface) or 0)
        if body.startswith("#"):
            data = bytes.fromhex(body[2:])
            code = (0, 1, 2, 3, 4, 5, 6, 7, 8, 12, 16, 20, 24, 32, 48, 64).index(len(data))
            objects.append(samples.blf_object(100, nanos, samples.blf_fd(channel, word, code, data)))
        elif body.startswith("R"):
            objects.append(samples.blf_object(1, nanos, samples.blf_classic(channel, word, b"", 0x80, int(body[1:] or 0))))
        else:
            objects.append(samples.blf_object(1, nanos, samples.blf_classic(channel, word, bytes.fromhex(body))))
    return samples.blf_file(samples.blf_container(b"".join(map(samples.filled, objects))), start=(0,) * 8)


def frames_of(lines):
    """The frames of log lines, from the first one's time on, without what other tools leave out: interfaces, marks, flags and
    raw length codes."""
    found = [re.match(r"\((\d+)\.(\d{6})\) +\S+ +([0-9A-Fa-f]+)#(.*?)(?:_.)?(?: +[RT])?\s*$", line) for line in lines]
    frames = [(int(one[1] + one[2]), one[3].upper(), re.sub("^#.", "#", one[4].upper())) for one in found]
    return [(stamp - frames[0][0], identifier, body) for stamp, identifier, body in frames]


def source_frames(path):
    return frames_of([line for line in path.read_text().splitlines() if line.strip()])


class Formats(unittest.TestCase):
    """Each form of each format."""

    def test_samples(self):
        for sample in SAMPLES:
            found = Read(sample.name, sample.content)
            with self.subTest(sample.name):
                self.assertEqual((found.lines, found.fault), (sample.lines, None))
                self.assertEqual((found.tally.left_out, found.tally.noted), (sample.left_out, sample.noted))
                self.assertEqual(found.tally.written, len(sample.lines))

    def test_by_content_first(self):
        """A file of another name, or of none, is read by what it is; what its first bytes don't tell, by its suffix."""
        for sample in SAMPLES:
            with self.subTest(sample.name):
                self.assertEqual(Read("recorded", sample.content).lines, sample.lines)
        found = package(["convert", "-"], log=samples.TRC_10.encode())
        self.assertEqual(found.output, "".join(samples.TRC_10_LINES).encode())
        self.assertEqual(Read("bare.asc", samples.ASC.split("\n", 7)[7].encode("latin-1")).lines, samples.ASC_LINES)

    def test_packed(self):
        for path in LOGS:
            for suffix, pack in PACKERS.items():
                with self.subTest(path=path.name, suffix=suffix):
                    content = path.read_bytes()
                    want = content.decode().splitlines(keepends=True)
                    self.assertEqual(Read(f"{path.name}{suffix}", pack(content)).lines, want)
                    self.assertEqual(Read("packed", pack(content[:100]) + pack(content[100:])).lines, want)
        for sample in SAMPLES:
            with self.subTest(sample.name):
                self.assertEqual(Read(f"{sample.name}.gz", gzip.compress(sample.content)).lines, sample.lines)

    def test_binary_data(self):
        """What `candump -i` shows."""
        self.assertEqual(Read("bits.txt", b"  can0  7E0   [2]  00000001 00111110\n").lines, [samples.line(0, "can0", 0x7E0, b"\x01\x3e")])

    def test_lost_frames_are_counted(self):
        notice = "DROPCOUNT: dropped 3 CAN frames on 'can1' socket (total drops 3)\n"
        found = Read("lost.txt", (samples.screen_text() + notice).encode())
        self.assertEqual((found.fault, found.tally.left_out["frames that candump lost"]), (None, 3))

    def test_equal_stamps_say_nothing(self):
        """Adapters that stamp in milliseconds, and bursts, repeat the stamps of `-t z`. Those of `-t d` fall."""
        rng = random.Random(5)
        for share in (0.0, 0.25, 0.5, 0.9):
            steps = [0 if rng.random() < share else rng.choice((1000, 2000, 15000)) for _ in range(400)]
            shown = "".join(f" {samples.few_digits(at)} can0  7E0   [2]  01 3E\n" for at in samples.sums(steps))
            found = Read("zero.txt", shown.encode())
            with self.subTest(share=share):
                self.assertEqual(found.lines, [samples.line(at, "can0", 0x7E0, b"\x01\x3e") for at in samples.sums(steps)])
                self.assertEqual(found.tally.noted, {"stamps since the first frame": 400})
            steps = [step or 0 for step in steps]
            shown = "".join(f" {samples.few_digits(step)} can0  7E0   [2]  01 3E\n" for step in steps)
            found = Read("differences.txt", shown.encode())
            with self.subTest(share=share, kind="differences"):
                self.assertEqual(found.lines, [samples.line(at, "can0", 0x7E0, b"\x01\x3e") for at in samples.sums(steps)])
                self.assertEqual(found.tally.noted, {"stamps since the frame before": 400})

    def test_decimals_of_stamps(self):
        """Six to twelve, in each form of candump's stamps: rounded to the nearest microsecond, a half upwards."""
        for digits in ("0000124", "000012499999", "00001150", "0000115000", "00001249999", "000012499", "0000115", "00001200"):
            for seconds in ("1700000000", "2023-11-14 22:13:20"):
                for shown in (f"({seconds}.{digits}) can0 7E0#013E\n", f" ({seconds}.{digits})  can0  7E0   [2]  01 3E\n"):
                    with self.subTest(shown=shown):
                        self.assertEqual(Read("run", shown.encode()).lines, ["(1700000000.000012) can0 7E0#013E\n"])
                        self.assertEqual(package(["convert", "-"], log=shown.encode()).output, b"(1700000000.000012) can0 7E0#013E\n")
        for digits in ("00001", "0000120000000"):
            self.assertTrue(Read("run", f"(1.000001) can0 7E0#\n(1.{digits}) can0 7E0#013E\n".encode()).fault.startswith("line 2: no line"))
        for digits, want in (("999999500000", "2.000000"), ("999999499999", "1.999999")):
            self.assertEqual(Read("run", f"(1.{digits}) can0 7E0#013E\n".encode()).lines, [f"({want}) can0 7E0#013E\n"])
        self.assertEqual(Read("run", b"(9999999999.9999995) can0 7E0#013E\n").tally.left_out, {"stamps that no line can say": 1})

    def test_more_bytes_than_the_length_says(self):
        """A frame of which more is stored is left out and counted, and no other one is made of it."""
        longer = {"frames with more bytes than their length says": 1}
        whole, few = "130000 130 1000 0 0 0 0 0", "1331984 11 0 46500250 460a0250 20011736 20010205"
        eight = "01 02 03 04 05 06 07 08"
        for shown in (
            f"3 3 01 02 03 04 {whole}", f"3 3 01 02 03 0A {few}", f"3 3 01 02 03 04 {few}", f"9 12 {eight} 09 10 11 12 13 {whole}",
            f"8 8 {eight} 09 {whole}", f"8 0 {eight} {whole}", "3 3 01 02 03 130000 130 10 0 0 0 0 0",
        ):
            text = "date Tue Nov 14 10:13:20 pm 2023\nbase hex  timestamps absolute\n" + f"   1.000000 CANFD   1 Rx 7E0 0 0 {shown}\n"
            found = Read("a.asc", text.encode())
            with self.subTest(shown):
                self.assertEqual((found.lines, found.fault, found.tally.left_out), ([], None, longer))
        ends = (whole, few, "130000 68 1000 0 0 0 0", "130000 100 1000", "29000 100 1000 0 0 0 0", "102203 133 303000 e0006659 46500250 4b140250")
        zeros = "0 0 1000 0 0 0 0"
        unknown = (zeros, "100000 0 303000 0 0 0 0 0", "101000 0 3000", "0 0 303000 1234 0 0 0 0")
        for base, three, surplus in (("hex", "01 02 03", ("00", "04", "10", "64", "99", "FF")), ("dec", "1 2 3", ("0", "4", "16", "100", "144", "255"))):
            head = f"date Tue Nov 14 10:13:20 pm 2023\nbase {base}  timestamps absolute\n   1.000000 CANFD   1 Rx 7 0 0 3 3 {three} "
            for behind in (*ends, *unknown):
                with self.subTest(base=base, behind=behind):
                    found = Read("a.asc", f"{head}{behind}\n".encode())
                    self.assertEqual((found.fault, str(found.tally)), (None, ""))
                    self.assertEqual([re.sub("##.", "#", line) for line in found.lines], [samples.line(1000000, "can1", 7, b"\1\2\3")])
            for behind in (*ends, zeros):
                more_of = surplus if behind != zeros else surplus[1:]
                two = (f"{one} {other}" for one in more_of for other in more_of if behind != zeros and (one, other) != ("0", "0"))
                for more in (*more_of, *two):
                    with self.subTest(base=base, behind=behind, more=more):
                        found = Read("a.asc", f"{head}{more} {behind}\n".encode())
                        self.assertEqual((found.lines, found.fault, found.tally.left_out), ([], None, longer))
        e, more = 1 << 31, bytes(range(24))
        for held in (
            samples.blf_object(100, 0, samples.blf_fd(1, 0x7E8, 8, more)), samples.blf_object(100, 0, samples.blf_fd(1, 0x7E8, 8, more, 0, 0)),
            samples.blf_object(101, 0, samples.blf_fd_64(1, e | 0x18DA10F1, 8, more)),
            samples.blf_object(101, 0, samples.blf_fd_64(1, 0x7E8, 12, more, 0)),
        ):
            found = Read("a.blf", samples.blf_file(samples.blf_container(samples.filled(held))))
            self.assertEqual((found.lines, found.fault, found.tally.left_out), ([], None, longer))

    def test_captures_that_do_not_say_which_frames_are_of_can_fd(self):
        """As tshark makes them of BLF: where a longer frame has no flag, shorter ones may lack theirs, which is noted."""
        short, long = samples.can_frame(0x7E0, b"\x01\x3e", room=2), samples.can_frame(0x7E8, LONG, room=24)
        for shown, noted in (([short], {}), ([short, long], {"frames of up to eight bytes that may be of CAN FD": 1})):
            found = Read("a.pcap", b"".join(samples.pcap("<", False, 227, [(0, 0, frame) for frame in shown])))
            want = [samples.line(0, "can0", 0x7E0, b"\x01\x3e"), samples.line(0, "can0", 0x7E8, LONG, 0)]
            self.assertEqual((found.lines, found.fault, found.tally.noted), (want[: len(shown)], None, noted))

    def test_days_that_there_are_not(self):
        for day in ("0000-01-01 00:00:00", "2023-02-29 00:00:00", "2023-13-01 00:00:00", "2023-01-01 24:00:00"):
            for shown in (f" ({day}.000000)  can0  7E0   [2]  01 3E\n", f"({day}.000000) can0 7E0#013E\n"):
                self.assertTrue(Read("days", shown.encode()).fault.startswith("line 1: no line"), day)

    def test_logs_of_candump(self):
        """Lines as they stand; stamps with days and in nanoseconds; notices of lost frames."""
        log = (
            b"\n(1700000000.000000) can0 7E0#0322F190 R\r\n\r\n(2023-11-14 22:13:20.000012) can0 7E8##300\n"
            b"DROPCOUNT: dropped 2 CAN frames on 'can0' socket (total drops 2)\n(1700000000.000012500) can0 7E8#R8_F\n"
            b"(2023-11-14 22:13:20.000013499) can0 20000004#0000000000000000\n(123456789012.000000) can0 7E8#\n(0000000001.000000) can0 7E8#"
        )
        want = (
            b"\n(1700000000.000000) can0 7E0#0322F190 R\r\n\r\n(1700000000.000012) can0 7E8##300\n"
            b"(1700000000.000013) can0 7E8#R8_F\n(1700000000.000013) can0 20000004#0000000000000000\n(0000000001.000000) can0 7E8#"
        )
        found = Read("run.log", log)
        self.assertEqual(("".join(found.lines).encode(), found.fault, found.tally.written), (want, None, 5))
        self.assertEqual(found.tally.left_out, {"frames that candump lost": 2, "stamps that no line can say": 1})
        self.assertEqual(found.tally.noted, {"last lines without a line feed": 1})
        long = VIN.read_bytes() * 2000
        found = Read("long.log", long + log)
        self.assertEqual((found.tally.written, found.tally.left_out["frames that candump lost"]), (5 * 2000 + 5, 2))

    def test_names_that_no_line_can_say(self):
        """Different names stay different, and from those that other interfaces have; it is said which got which."""
        channels = ["a b", "can0", "c\td", "a b", "can2", "\xe9", "0"]
        want = ["can1", "can0", "can3", "can1", "can2", "can4", "can0"]
        rows = "".join(f"{at}.0,0x7e0,0,0,0,1,/g==,{channel}\n" for at, channel in enumerate(channels))
        content = (samples.PYTHON_CAN.split("\n")[0] + ",channel\n" + rows).encode("latin-1")
        found = Read("names.csv", content)
        self.assertEqual([line.split()[1] for line in found.lines], want)
        told = r"frames 7; noted: interfaces of a name that no line can say 3; named: a b as can1, c\x09d as can3, \xe9 as can4"
        self.assertEqual(str(found.tally), told)
        messages = [samples.message(0.0, 1, b"", 0, channel) for channel in channels]
        tally = formats.Tally()
        self.assertEqual([line.split()[1] for line in formats.lines_of(formats.frames_of_messages(iter(messages), tally), tally)], want)
        last = [samples.message(0.0, 1, b"", 0, channel) for channel in ("can0", "a b")]
        found = list(formats.lines_of(formats.frames_of_messages(iter(last), tally), tally))
        self.assertEqual([line.split()[1] for line in found], ["can0", "can1"])
        rows = "".join(f"{at}.0,0x7e0,0,0,0,1,/g==,{at} x\n" for at in range(300))
        found = Read("many.csv", (samples.PYTHON_CAN.split("\n")[0] + ",channel\n" + rows).encode())
        self.assertEqual((len(found.lines), len({line.split()[1] for line in found.lines}), len(str(found.tally)) < 300), (100, 100, True))

    def test_names_of_a_stream(self):
        """Of a stream it isn't known before which names come: given are the last ones, which logs seldom have."""
        channels = ["a b", "can0", "c\td", "a b", "can2", "can998", "0", "can999", "can999"]
        head = samples.PYTHON_CAN.split("\n")[0] + ",channel\n"
        rows = "".join(f"{at}.0,0x7e0,0,0,0,1,/g==,{channel}\n" for at, channel in enumerate(channels))
        found = package(["convert", "-"], log=(head + rows).encode())
        names = [line.split()[1].decode() for line in found.output.splitlines()]
        self.assertEqual(names, ["can999", "can0", "can998", "can999", "can2", "can0"])
        taken = "frames of an interface whose name another one got"
        self.assertIn(f"frames 6; left out: {taken} (can998) 1, {taken} (can999) 2; noted: ".encode(), found.error)
        self.assertIn(b"named: a b as can999, c\\x09d as can998\n", found.error)
        many = [f"{at} x" for at in range(100)] + [f"can{at}" for at in range(900, 1000)]
        rows = "".join(f"{at}.0,0x7e0,0,0,0,1,/g==,{channel}\n" for at, channel in enumerate(many))
        found = package(["convert", "-"], log=(head + rows).encode())
        self.assertEqual(len(found.output.splitlines()), 100)
        self.assertIn(f"{taken} (can909) 1, {taken} (others) 90;".encode(), found.error)

    def test_no_bus_is_thrown_away_of_a_stream(self):
        """The session of a named pipe is that of its file, whatever another bus is called."""
        rows = samples.SAVVYCAN.split("\n")
        content = "\n".join([rows[0], rows[1].replace(",0,4,", ",my bus,4,"), *rows[1:3], ""]).encode()
        with tempfile.TemporaryDirectory() as folder:
            path, pipe = Path(folder, "run.csv"), Path(folder, "pipe")
            path.write_bytes(content)
            os.mkfifo(pipe)
            of_file, of_stream = package(["convert", path]), package(["convert", "-"], log=content)
            running = start(sys.executable, ["-B", "-m", "udsnorm", "convert", pipe], env=environment())
            pipe.write_bytes(content)
            of_pipe = end(running)
        self.assertEqual(len(of_file.output.splitlines()), 3)
        for found in (of_stream, of_pipe):
            self.assertEqual(found.output, of_file.output.replace(b"can1 ", b"can999 "))
            self.assertNotIn(b"left out", found.error)

    def test_what_no_line_can_say(self):
        frames = [
            formats.Frame(-1, "can0", 1, False, b""), formats.Frame(10**16, "can0", 1, False, b""),
            formats.Frame(0, "can0", 0x800, False, b""), formats.Frame(0, "can0", 1 << 29, True, b""),
            formats.Frame(0, "can0", 1, False, bytes(9)), formats.Frame(0, "can0", 1, False, bytes(13), 0),
            formats.Frame(10**16 - 1, "can0", 0x7FF, False, bytes(8)), formats.Frame(0, "can0", 0x1FFFFFFF, True, bytes(64), 3),
        ]
        tally = formats.Tally()
        lines = list(formats.lines_of(frames, tally))
        self.assertEqual(lines, [f"(9999999999.999999) can0 7FF#{'00' * 8}\n", f"(0.000000) can0 1FFFFFFF##3{'00' * 64}\n"])
        self.assertEqual(tally.left_out, {
            "stamps that no line can say": 2, "identifiers that no line can say": 2,
            "classic frames of more than eight bytes": 1, "frames of a length that there is not": 1,
        })
        for name, want in {"can0": "can0", "1": "can1", "PCAN_USBBUS1": "PCAN_USBBUS1", "": "can0", "a b": "a b"}.items():
            self.assertEqual(formats.interface_of(name), want)


class Faults(unittest.TestCase):
    """Files that end in the middle, that lie, or that are none of these."""

    def test_cuts(self):
        """Each sample, cut anywhere, is told as cut, or was whole before; and the frames before are there."""
        for sample in SAMPLES:
            is_text = not sample.name.endswith((".blf", ".pcap", ".pcapng"))
            for place in range(1, PLACES + 1):
                end = len(sample.content) * place // (PLACES + 1)
                found = Read(sample.name, sample.content[:end])
                with self.subTest(sample=sample.name, end=end):
                    self.assertEqual(found.lines, sample.lines[: len(found.lines)])
                    if found.fault is None and is_text:
                        rest_of_line = sample.content.find(b"\n", end - 1) + 1
                        self.assertEqual(found.lines, Read(sample.name, sample.content[:rest_of_line]).lines)
                        is_told = found.tally.noted["last lines without a line feed"]
                        self.assertEqual(bool(is_told), sample.content[end - 1 : end] != b"\n")
                    elif found.fault is None:
                        self.assertIn(end, sample.ends)

    def test_cuts_of_packed_files(self):
        """Of a packed log each cut is told, and what comes before it is whole lines of the log."""
        content = b"".join(samples.line(at, "can0", 0x7E8, random.Random(at).randbytes(8)).encode() for at in range(5000))
        want = content.decode().splitlines(keepends=True)
        for suffix, pack in PACKERS.items():
            packed = pack(content)
            for place in range(1, PLACES + 1):
                found = Read(f"log{suffix}", packed[: len(packed) * place // (PLACES + 1)])
                with self.subTest(suffix=suffix, place=place):
                    self.assertEqual(found.lines, want[: len(found.lines)])
                    self.assertIsNotNone(found.fault)

    def test_cut_log(self):
        content = VIN.read_bytes()
        self.assertEqual(Read("cut.log", content[:-4]).fault, "line 5: the file ends in the middle of a line")
        self.assertIsNone(Read("whole.log", content[:-1]).fault)
        self.assertEqual((Read("empty.log", b"").lines, Read("empty.log", b"").fault), ([], None))

    def test_unexplained(self):
        for name, content, fault in (
            ("a.asc", samples.ASC + "what is this\n", "line 32: no line of an ASC file"),
            ("a.asc", samples.ASC + "   3.0 1  7E0  Rx   d 8 08\n   4.0 1  7E0  Rx   q 8 8\n", "line 33: no event of an ASC file"),
            ("a.trc", samples.TRC_11 + "     6)      1346.8  Xx         0321  4  RTR\n", "line 9: no line of a TRC file"),
            ("a.trc", ";$FILEVERSION=3.7\n", "line 1: a TRC file of a version that this does not read: 3.7"),
            ("a.csv", samples.SAVVYCAN + "x,y,z\n", "line 9: no row of these columns"),
            ("a.csv", "time;id\n", "line 1: neither SavvyCAN's columns nor python-can's"),
            ("a.txt", samples.screen_text() + "what is this\n", "line 10: no line that candump writes for the screen"),
            ("a.txt", "what is this\n", "line 1: no log of a form that this reads"),
            ("a.blf", "", "byte 0: the file ends in its head"),
            ("a.asc", samples.ASC + "   3.0 1  7E0  Rx   d 4 03 ZZ F1 90\n", "line 32: no event of an ASC file"),
            ("a.asc", samples.ASC + "   3.0 1  7E0  Rx   d 4 03 2 F1 90\n", "line 32: no event of an ASC file"),
            ("a.asc", samples.ASC + "   3.0 CANFD 1 Rx 7E0  0 0 4 4 03 ZZ F1 90 130 130 1000 0 0 0 0 0\n", "line 32: no event of an ASC file"),
            ("a.asc", samples.ASC_DECIMAL + "   3.0 1  2016  Rx   d 4 3 ZZ 241 144\n", "line 9: no event of an ASC file"),
            ("a.asc", samples.ASC_DECIMAL + "   3.0 1  2016  Rx   d 4 3 999 241 144\n", "line 9: no event of an ASC file"),
            ("a.trc", samples.TRC_11 + "     6)      1346.8  Rx         0321  4  03 ZZ F1 90\n", "line 9: no line of a TRC file"),
            ("a.trc", samples.TRC_11 + "     6)      1346.8  Rx         0321  4  RTR 03\n", "line 9: no line of a TRC file"),
            ("a.csv", samples.SAVVYCAN + "1,000007E0,false,Tx,0,4,03,ZZ,F1,90,00,00,00,00,\n", "line 9: no row of these columns"),
            ("a.csv", samples.SAVVYCAN + "1,000007E0,false,Tx,0,4,3,22,F1,90,00,00,00,00,\n", "line 9: no row of these columns"),
            ("a.csv", samples.SAVVYCAN + "1,000007E0,maybe,Tx,0,4,03,22,F1,90,00,00,00,00,\n", "line 9: no row of these columns"),
            ("a.csv", samples.PYTHON_CAN + "1.0,0x7_0,0,0,0,1,/g==\n", "line 7: no row of these columns"),
            ("a.csv", samples.PYTHON_CAN.replace(",data", ",data,channel", 1).replace("=\n", "=,1\n") + "1.0,0x7e0,0,0,0,1,/g==", "line 7: the file ends in the middle of a line"),
            ("a.txt", samples.screen_text() + "  can1  7E0   [4]  03 ZZ F1 90\n", "line 10: no line that candump writes for the screen"),
            ("a.log", VIN.read_text() + "what is this\n", "line 6: no line of a candump log"),
            ("a.log", VIN.read_text() + "(1.000000) can0 7E0#03ZZ\n", "line 6: no line of a candump log"),
            ("a.log", VIN.read_text() + "  \n", "line 6: no line of a candump log"),
            ("a.log", VIN.read_text() + "(12.00.000000) can0 7E0#03\n", "line 6: no line of a candump log"),
            ("a.log", VIN.read_text() + "DROPCOUNT: dropped 2 CAN fr", "line 6: the file ends in the middle of a line"),
        ):
            with self.subTest(fault):
                self.assertEqual(Read(name, content.encode("latin-1")).fault, fault)

    def test_damaged(self):
        """Of a file with any bytes changed nothing but a fault comes, and the process goes on."""
        rng = random.Random(1)
        for sample in SAMPLES:
            for _ in range(30):
                content = bytearray(sample.content)
                for _ in range(rng.randrange(1, 6)):
                    content[rng.randrange(len(content))] = rng.choice((0, 0x20, 0x31, 0x39, 0x46, 0x80, 0xFF, rng.randrange(256)))
                with self.subTest(sample=sample.name):
                    for written in Read(sample.name, bytes(content)).lines:
                        self.assertRegex(written, r"^\(\d{1,10}\.\d{6}\) [!-~]{1,15} [0-9A-F]{3,8}#[0-9A-FR#]*\n$")

    def test_hostile(self):
        """Sizes that lie: a clear fault, soon, and in bounded memory."""
        container, zeros = samples.blf_container, bytes(100 << 20)
        packed = zlib.compress(zeros)
        head = struct.pack("<4sHHII", b"LOBJ", 16, 1, 32 + len(packed), 10)
        told_small, told_large = (head + struct.pack("<HxxxxxxIxxxx", 2, size) + packed for size in (1000, 0xFFFFFFFF))
        liar = struct.pack("<4sHHII", b"LOBJ", 32, 1, 0xFFFFFFF0, 115)
        little = struct.pack("<4sHHII", b"LOBJ", 16, 1, 0, 115)
        pcap_head = samples.pcap("<", False, 227, [])[0]
        begun = samples.section("<") + samples.interface("<", 227)
        for name, content, fault in (
            ("a.blf", samples.blf_file(told_small), "unpacks to more bytes than it says"),
            ("a.blf", samples.blf_file(told_large), "no object begins where one has to"),
            ("a.blf", samples.blf_file(container(liar + bytes(1000))), "the file ends in the middle of an object"),
            ("a.blf", samples.blf_file(liar), "the file ends in the middle of an object"),
            ("a.blf", samples.blf_file(container(little + bytes(100))), "an object has a size that there is not"),
            ("a.blf", b"LOGG" + b"\xff" * 140, "the file ends in the middle of an object"),
            ("a.blf", samples.blf_file(container(samples.blf_object(1, 0, b"12"))), "an object has a size that there is not"),
            ("a.blf", samples.blf_file(container(b"", 7)), "packed in a way that this does not read: 7"),
            ("a.pcap", pcap_head + struct.pack("<IIII", 0, 0, 0xFFFFFFFF, 8), "a packet of 4294967295 bytes"),
            ("a.pcapng", begun + struct.pack("<II", 6, 0xFFFFFFFC), "a block of 4294967292 bytes"),
            ("a.pcapng", begun + struct.pack("<II", 4, 0xFFFFFFFC), "the file ends in the middle"),
            ("a.pcapng", begun + struct.pack("<II", 6, 0), "a block of a size that there is not"),
            ("a.pcapng", begun + samples.packet_block("<", 9, 0, bytes(16)), "a packet of an interface that there is not"),
            ("a.asc", samples.ASC.encode("latin-1") + b"9" * (1 << 20), "it has more than 65536 bytes"),
            ("a.asc", samples.ASC.encode("latin-1") + b"1.0 1 " + b"F" * 5000 + b" Rx d 8\n", "no event of an ASC file"),
            ("a.csv", samples.PYTHON_CAN.encode() + b"1e-99999999,1,0,0,0,0,\n", "no row of these columns"),
            ("a.csv", samples.SAVVYCAN.encode() + b"1,1,false,Rx,0," + b"9" * 5000 + b",1\n", "no row of these columns"),
            ("a.log.gz", gzip.compress(VIN.read_bytes() + zeros), "it has more than 65536 bytes"),
            ("a.log.xz", lzma.compress(zeros), "no log of a form that this reads"),
        ):
            with self.subTest(name=name, fault=fault), tempfile.TemporaryDirectory() as folder:
                path = Path(folder, f"a\n{name}")
                path.write_bytes(content)
                found = package(["convert", path], preexec_fn=lambda: resource.setrlimit(resource.RLIMIT_AS, (BYTES, BYTES)))
                lines = found.error.decode().splitlines()
                self.assertEqual(found.status, REFUSAL, lines)
                self.assertTrue(lines[0].startswith(f"{folder}/a\\x0a{name}: ") and fault in lines[0], lines)

    def test_kinds_without_end(self):
        """What a file may make up any number of takes no more memory, and no longer line."""
        kinds = b"".join(struct.pack("<4sHHII", b"LOBJ", 16, 1, 16, 200 + kind) for kind in range(400000))
        shown = samples.socketcan_frames()[0]
        faces = b"".join(
            samples.interface("<", 227, (2, b"face %d" % number)) + samples.packet_block("<", number, 0, shown) for number in range(40000)
        )
        links = b"".join(samples.interface("<", 300 + kind) + samples.packet_block("<", kind, 0, bytes(16)) for kind in range(4000))
        for name, content, status, told in (
            ("a.blf", samples.blf_file(samples.blf_container(kinds)), DONE, b"objects of type 209 1, objects of other types 399990"),
            ("a.pcapng", samples.section("<") + faces, DONE, b"frames 100; left out: frames of interfaces that no name is left for 39900"),
            ("c.pcapng", samples.section("<") + samples.interface("<", 227) * 400000, DONE, b""),
            ("b.pcapng", samples.section("<") + links, DONE, b"packets of link type 309 1, packets of other link types 3990"),
        ):
            with self.subTest(name=name), tempfile.TemporaryDirectory() as folder:
                path = Path(folder, name)
                path.write_bytes(content)
                ended, peak, error = converted(path)
                self.assertEqual(ended, status)
                self.assertIn(told, error)
                self.assertLess(len(error), 1000)
                self.assertLess(peak, 40000)

    def test_many_interfaces(self):
        """However many a section has, each keeps its name, its resolution and its offset, in any order of the packets."""
        shown = samples.socketcan_frames()[0]
        count, rng = 70000, random.Random(3)
        faces = b"".join(
            samples.interface("<", 227, (2, b"vcan%d" % at), (9, bytes([at % 10])), (14, struct.pack("<q", at))) if at % 3 else samples.interface("<", 227)
            for at in range(count)
        )
        asked = [*range(3000), *(rng.randrange(count) for _ in range(3000)), count - 1]
        content = samples.section("<") + faces + b"".join(samples.packet_block("<", at, 3, shown) for at in asked)
        times = [at * 10**6 + (6 * 10**6 // 10 ** (at % 10) + 1) // 2 if at % 3 else 3 for at in asked]
        want = [samples.line(micros, f"vcan{at}" if at % 3 else f"can{at}", 0x7E0, bytes.fromhex("0322F190")) for micros, at in zip(times, asked)]
        found = Read("many.pcapng", content)
        self.assertEqual((found.lines, found.fault, str(found.tally)), (want, None, ""))
        found = Read("more.pcapng", content + samples.packet_block("<", count, 3, shown))
        self.assertRegex(found.fault, r"^byte \d+: a packet of an interface that there is not$")
        with unittest.mock.patch("udsnorm._formats.captures._MOST_HELD", 1000):
            self.assertRegex(Read("few.pcapng", content).fault, r"^byte \d+: interfaces of more than 1000 bytes$")

    def test_last_lines_without_a_line_feed(self):
        """A cut that leaves a line which is legal by itself is told all the same."""
        found = Read("cut.log", VIN.read_bytes()[:-3])
        self.assertEqual((found.fault, found.tally.noted), (None, {"last lines without a line feed": 1}))
        for sample in SAMPLES:
            if not sample.name.endswith((".blf", ".pcap", ".pcapng")):
                found = Read(sample.name, sample.content[:-1])
                self.assertEqual(found.tally.noted["last lines without a line feed"], found.fault is None, sample.name)

    def test_constant_memory(self):
        """A long file is read in no more memory than a short one, by some megabytes."""
        objects = b"".join(samples.filled(samples.blf_object(1, at * 10**6, samples.blf_classic(1, 0x7E8, bytes(8)))) for at in range(2000))
        peaks = []
        for times in (1, 100):
            with tempfile.TemporaryDirectory() as folder:
                path = Path(folder, "run.blf")
                path.write_bytes(samples.blf_file(*[samples.blf_container(objects)] * times))
                peaks.append(converted(path)[1])
        self.assertLess(peaks[1], peaks[0] + 4000)


class Tool(unittest.TestCase):
    """`python3 -m udsnorm`: the program's words, texts and statuses, over any log."""

    def setUp(self):
        self._folder = tempfile.TemporaryDirectory()
        self.addCleanup(self._folder.cleanup)
        self.folder = Path(self._folder.name)

    def put(self, name, content):
        path = self.folder / name
        path.parent.mkdir(parents=True, exist_ok=True)
        path.write_bytes(content)
        return path

    def same(self, words, wanted_words, **options):
        """The package does over these files what the program does over those."""
        found = package(words, cwd=self.folder, **options)
        want = run(given.program, wanted_words, cwd=self.folder)
        self.assertEqual((found.status, found.output, found.error), (want.status, want.output, want.error), words)
        return found

    def test_commands(self):
        """Each command says of a BLF file, whose frames have no blank lines between them, what it says of the log."""
        for path in LOGS:
            log = b"".join(line for line in path.read_bytes().splitlines(keepends=True) if line.strip() and b" 2000" not in line)
            self.put("run.log", log)
            self.put("run.blf", blf_of(log))
            self.put("run.log.xz", lzma.compress(log))
            for command in ("normalise", "list", "messages", "explain", "find"):
                self.same([command, "run.blf"], [command, "run.log"])
                self.same([command, "run.log.xz"], [command, "run.log"])
        self.same(["list", "--json", "--tester", "7E0", "run.blf"], ["list", "--json", "--tester", "7E0", "run.log"])

    def test_what_the_program_does_itself(self):
        for words in ([], ["--version"], ["list", "--help"], ["list", VIN], ["list", "none.log"], ["list", self.folder], ["compare", "x"], ["diff", "x"], ["diff"]):
            self.same(words, words)
        self.assertEqual(package(["list"], log=VIN.read_bytes()).output, run(given.program, ["list", VIN]).output)

    def test_help(self):
        """The program's own, and behind it what the package has beside."""
        found, want = package(["--help"]), run(given.program, ["--help"])
        self.assertEqual((found.status, found.error, found.output.startswith(want.output)), (DONE, b"", True))
        self.assertIn(b"python3 -m udsnorm convert FILE [LOG]", found.output[len(want.output) :])

    def test_options_with_values(self):
        """It is known of which options the next word is a value."""
        program = importlib.import_module("udsnorm._program")
        commands = re.findall(r"^  ([a-z]+)  ", run(given.program, ["--help"]).output.decode(), re.M)
        texts = [run(given.program, [command, "--help"]).output.decode() for command in commands]
        self.assertEqual({name for text in texts for name in re.findall(r"(--[\w-]+)[ =]<", text)}, set(program.VALUED))
        for command, text in zip(commands, texts):
            self.assertEqual(program.limit_of(given.program, [command]), 1 << (40 if "1099511627776" in text else 30), command)
        for words, limit in (
            (["--limit=5", "--limit", "7"], 7), (["--limit", "+3000000000"], 3 * 10**9), (["--limit=+007"], 7),
            (["--limit", "0" * 30 + "12"], 12), (["--limit=0"], 0), (["--limit", "9", "--", "--limit=5"], 9), (["--", "--limit", "5"], 1 << 30),
        ):
            self.assertEqual(program.limit_of(given.program, ["list", *words]), limit, words)

    def test_words_that_are_no_logs(self):
        """A file or folder that is named as the command, or an option or its value, is no log of the run."""
        for name in ("report", "7E0", "7E8", "--strict", "--limit", "--unit=7E8", "100000"):
            self.put(name, b"x")
        for name in ("list", "compare", "normalise"):
            (self.folder / name).mkdir()
        self.put("run.blf", blf_of(VIN.read_bytes()))
        self.put("run.log", VIN.read_bytes())
        for words in (
            ["list", "run"], ["list", "--tester", "7E0", "--unit", "7E8", "run"], ["list", "run", "--limit", "100000"],
            ["list", "--strict", "--unit=7E8", "--", "run"], ["compare", "run", "run"], ["normalise", "--json", "run"],
            ["--strict", "run"], ["list", "--tester"],
        ):
            self.same([word.replace("run", "run.blf") for word in words], [word.replace("run", "run.log") for word in words])
        for words in (["list", "--limit", "run.blf"], ["run.blf", "run.log"], ["run.blf", "--hints", "run.blf"], ["List", "run.blf"]):
            self.same(words, words)
        self.assertEqual(package(["report", "run.blf"], cwd=self.folder).status, DONE)
        self.put("logs/list", blf_of(VIN.read_bytes()))
        self.put("logs/--strict", blf_of(VIN.read_bytes()))
        for words in (["list", "list"], ["list", "--", "--strict"], ["list", "--strict", "--", "list"]):
            self.assertEqual(package(words, cwd=self.folder / "logs").output, run(given.program, ["list", VIN]).output)

    def test_names_as_options(self):
        """A log whose name is that of an option, or of standard input, stays a log."""
        for name in ("--json", "-dash.blf", "-", "--"):
            self.put(name, blf_of(VIN.read_bytes()))
            self.put(f"{name}v.log", VIN.read_bytes())
            for word in (f"./{name}", self.folder / name):
                self.same(["list", word], ["list", VIN])
                for words in ([word, f"./{name}v.log"], [f"./{name}v.log", word]):
                    self.assertEqual(package(["compare", *words], cwd=self.folder), (DONE, b"same\n", b""), words)

    def test_devices_that_fail(self):
        """One line and status 4: no room for what is converted, no folder for it, streams that are closed."""
        content = blf_of(VIN.read_bytes() * 1000)
        self.put("run.blf", content)
        for size in (0, 5000):
            limit = {"preexec_fn": lambda size=size: resource.setrlimit(resource.RLIMIT_FSIZE, (size, size))}
            for words in (["list", "run.blf"], ["convert", "run.blf", "run.log"]):
                found = package(words, cwd=self.folder, **limit)
                self.assertEqual((found.status, found.output, found.error.count(b"\n")), (DEVICE, b"", 1), found.error)
        for stream in (0, 1, 2):
            for words in (["convert", "-"], ["convert", "none"], ["list", "run.blf"], ["list"]):
                found = package(words, cwd=self.folder, preexec_fn=lambda stream=stream: os.close(stream))
                self.assertNotIn(b"Traceback", found.error)
                self.assertIn(found.status, (DONE, REFUSAL, DEVICE), (stream, words, found))
        with open("/dev/full", "wb") as full:
            self.assertEqual(package(["convert", "none.blf"], cwd=self.folder, stderr=full).status, DEVICE)
            self.assertEqual(package(["convert", "--help"], stdout=full).status, DEVICE)

    def test_two_logs(self):
        self.put("a.log", VIN.read_bytes())
        self.put("a.blf", blf_of(VIN.read_bytes()))
        self.put("lost.log", (EXAMPLES / "lost-frame.log").read_bytes())
        self.assertEqual(self.same(["compare", "a.blf", "a.log"], ["compare", "a.log", "a.log"]).status, DONE)
        self.assertEqual(self.same(["compare", "--show", "a.blf", "lost.log"], ["compare", "--show", "a.log", "lost.log"]).status, DIFFERENT)

    def test_paths_that_would_meet(self):
        """A whole path, and the same from this folder on, are two logs."""
        whole = self.put("run.blf", blf_of(VIN.read_bytes()))
        inner = str(whole).lstrip("/")
        self.put(inner, blf_of((EXAMPLES / "lost-frame.log").read_bytes()))
        self.assertEqual(package(["compare", whole, inner], cwd=self.folder).status, DIFFERENT)
        # A file that is named as the folder of the other one.
        first = whole.parts[1]
        self.put(first + ".blf", whole.read_bytes()).rename(self.folder / f"{first}.x")
        shutil.rmtree(self.folder / first)
        (self.folder / f"{first}.x").rename(self.folder / first)
        for words in ([whole, first], [first, whole]):
            self.assertEqual(package(["compare", *words], cwd=self.folder), (DONE, b"same\n", b""))

    def test_folders_behind_links(self):
        """`..` behind a link to a folder is the folder above the one that it leads to, as the program has it."""
        (self.folder / "below" / "sub").mkdir(parents=True)
        (self.folder / "link").symlink_to("below/sub")
        for name, log in (("e", VIN.read_bytes()), ("below/e", (EXAMPLES / "lost-frame.log").read_bytes())):
            self.put(f"{name}.blf", blf_of(log))
            self.put(f"{name}.log", log)
        for other in ("link/../e.blf", "link/../e.log"):
            for one in ("e.blf", self.folder / "e.blf", "below/sub/../../e.blf"):
                for words in ([one, other], [other, one]):
                    self.assertEqual(package(["compare", *words], cwd=self.folder).status, DIFFERENT, words)
            for one in ("below/e.blf", self.folder / "below" / "e.blf", "link/../e.blf"):
                for words in ([one, other], [other, one]):
                    self.assertEqual(package(["compare", *words], cwd=self.folder), (DONE, b"same\n", b""), words)

    def test_names_on_pages(self):
        """The page shows the names that were given: the last part, or the paths where both have one name."""
        for name in ("left/run.blf", "right/run.blf"):
            self.put(name, blf_of(VIN.read_bytes()))
        for place in (self.folder, self.folder / "left"):
            other = os.path.relpath(self.folder / "right" / "run.blf", place)
            found = package(["report", os.path.relpath(self.folder / "left" / "run.blf", place), other], cwd=place)
            self.assertEqual((found.status, found.error), (DONE, b""))
            self.assertIn(b"right/run.blf", found.output)
            self.assertNotIn(b"udsnorm-", found.output)
        self.assertIn(b"run.blf", package(["report", "left/run.blf"], cwd=self.folder).output)

    def test_names_before_a_difference(self):
        """They are those that were given, between quotes where the program sets them so."""
        logs = {"run": VIN.read_bytes(), "below/run": (EXAMPLES / "lost-frame.log").read_bytes(), "a b": b""}
        for place, one, other in (
            ("", f"{self.folder}/run", "below/run"), ("below", "../run", "run"), ("", "./run", "a b"), ("below", "run", "../a b"),
            ("below", f"{self.folder}/below/run", f"{self.folder}/run"),
        ):
            for name, log in logs.items():
                self.put(name, log)
            want = run(given.program, ["diff", one, other], cwd=self.folder / place)
            for name, log in logs.items():
                self.put(name, blf_of(log))
            self.assertEqual(package(["diff", one, other], cwd=self.folder / place), want)
            self.assertEqual(want.status, DIFFERENT)

    def test_names_as_they_are_given(self):
        """Pages, hints and faults name a log as it was named, wherever it is read: what the program tells of the log there."""
        log, other = VIN.read_bytes(), VIN.read_bytes().replace(b"7E0#", b"7E1#").replace(b"7E8#", b"7E9#")
        whole = str(self.folder)
        (self.folder / "below" / "sub").mkdir(parents=True)
        (self.folder / "link").symlink_to("below")
        names = ["run", "sub/run", "below/sub/run", "below/run", "up/run", "-run"]
        for name in names:
            self.put(name, b"")
        for place, words in (
            ("", ["report", f"{whole}/run", "run"]), ("", ["report", "run", f"{whole}/below/run"]), ("", ["report", "./run", "below//sub/run"]),
            ("below/sub", ["report", "../run", "run"]), ("below/sub", ["report", "../../run", f"{whole}/run"]),
            ("below", ["report", "sub/../run", "sub/./run"]), ("", ["report", "link/../run", "link/run"]), ("", ["report", f"{whole}/run"]),
            ("", ["report", "--hints", f"//{whole}/run", "run"]), ("", ["report", "--hints", "--", "-run", f"{whole}/run"]),
            ("", ["list", "--hints", f"{whole}/run"]), ("below", ["list", "--hints", "../run"]), ("", ["compare", "--hints", "link/../run", "run"]),
            ("", ["list", "--hints", f"{whole}/run", "run"]), ("", ["list", "--limit", "9", "--hints", f"{whole}/run"]),
            ("", ["compare", "--hints", f"{whole}/run", f"{whole}/none"]), ("", ["compare", "--hints", f"{whole}/run", "none"]),
            ("", ["compare", "--hints", "run", "below"]), ("below", ["compare", "--hints", "../run", "sub"]), ("", ["compare", "--hints", "run", "link/.."]),
            ("", ["compare", f"{whole}/run", f"{whole}/none"]), ("", ["find", "--hints", "--tester", "7E0", f"{whole}/run"]),
        ):
            for content in (log, other):
                for name in names:
                    self.put(name, content)
                given_words, at = [sys.executable, "-B", "-m", "udsnorm", *words], self.folder / place
                want = run(given.program, words, cwd=at), told_by(given.program, words, at)
                for name in names:
                    self.put(name, blf_of(content))
                found = package(words, cwd=at), told_by(given_words[0], given_words[1:], at, env=environment())
                self.assertEqual(found, want, words)

    def test_a_log_that_is_missing(self):
        """It is no other one, whatever lies around the folder of the logs."""
        self.put("below/run", blf_of(VIN.read_bytes()))
        self.put("rooms/none", VIN.read_bytes())
        more = {"cwd": self.folder / "below", "env": {**environment(), "TMPDIR": str(self.folder / "rooms")}}
        for words in (["compare", "run", "../none"], ["report", "run", "../none"], ["compare", "run", "none"]):
            found = package(words, **more)
            self.assertEqual((found.status, found.output, found.error), (DEVICE, b"", b"right: read failed\n"), words)
        # It lies by two names in a folder that is named from where the command runs.
        more["env"]["TMPDIR"] = "."
        self.assertEqual(package(["compare", "run", "../below/run"], **more), (DONE, b"same\n", b""))

    def test_pages_that_cannot_be_written(self):
        """A page in which names are put right fails as any other one."""
        path = self.put("run.blf", blf_of(VIN.read_bytes()))
        with open("/dev/full", "wb") as full:
            found = package(["report", path], cwd=self.folder, stdout=full)
        self.assertEqual((found.status, found.error), (DEVICE, b"write failed\n"))
        self.put("long.blf", blf_of(VIN.read_bytes() * 5000))
        words = [f"{self.folder}/long.blf", "run.blf"]
        found = run("bash", ["-c", f"{sys.executable} -B -m udsnorm report {words[0]} | head -c 1 > /dev/null; echo ${{PIPESTATUS[0]}}"], env=environment())
        self.assertEqual((found.output, found.error), (b"4\n", b"write failed\n"))

    def test_faults_are_refused_by_the_program(self):
        """The frames before are there, and the program refuses the log at the frame behind them."""
        content = blf_of(VIN.read_bytes())
        self.put("cut.blf", content[:-4])
        self.put("vin.log", VIN.read_bytes())
        found = package(["list", "cut.blf"], cwd=self.folder)
        self.assertEqual((found.status, found.output), (REFUSAL, b""))
        self.assertRegex(found.error.decode(), r"^cut\.blf: byte \d+: the file ends in the middle of an object\nline \d column 2: not a log line\n")
        found = package(["compare", "vin.log", "cut.blf"], cwd=self.folder)
        self.assertEqual((found.status, found.error.splitlines()[-1][:12]), (REFUSAL, b"right: line "))
        self.assertEqual(package(["report", "cut.blf"], cwd=self.folder).status, REFUSAL)
        self.assertEqual(package(["list", "cut.blf", "--hints"], cwd=self.folder), package(["list", "cut.blf"], cwd=self.folder))
        self.assertEqual(package(["list", "--hints"], log=content[:-4]), package(["list"], log=content[:-4]))
        found = told_by(sys.executable, ["-B", "-m", "udsnorm", "list", "cut.blf"], self.folder, env=environment())
        self.assertEqual(found, package(["list", "cut.blf"], cwd=self.folder))
        # A line of the log itself has its hint.
        notice = b"DROPCOUNT: dropped 1 CAN frame on 'can0' socket (total drops 1)\n"
        self.put("cut.log.gz", gzip.compress(VIN.read_bytes() + notice + VIN.read_bytes())[:-4])
        told = b"hint: line 6 of cut.log.gz begins with no stamp; if it is a notice of candump -d, grep -v ^DROPCOUNT leaves it out"
        self.assertEqual(package(["list", "cut.log.gz", "--hints"], cwd=self.folder).error.splitlines()[-1], told)

    def test_what_is_left_out_is_told(self):
        sample = next(one for one in SAMPLES if one.name == "packed.blf")
        self.put(sample.name, sample.content)
        told = b"packed.blf: frames 10; left out: objects of type 65 1, transmit requests 1, error frames 2; noted: frames with fewer bytes than their length says 1\n"
        for words in (["list"], ["convert"]):
            found = package([*words, sample.name], cwd=self.folder)
            self.assertEqual((found.status, sorted(re.split("[;,:] ", found.error.decode()))), (DONE, sorted(re.split("[;,:] ", told.decode()))))
        # One log by two names is read once.
        for other in (sample.name, f"./{sample.name}", self.folder / sample.name):
            found = package(["compare", sample.name, other], cwd=self.folder)
            self.assertEqual((found.status, found.output, found.error.count(b"left out")), (DONE, b"same\n", 1))

    def test_convert(self):
        self.put("run.blf", blf_of(VIN.read_bytes()))
        found = package(["convert", "run.blf"], cwd=self.folder)
        self.assertEqual((found.status, found.output, found.error), (DONE, VIN.read_bytes(), b""))
        self.assertEqual(package(["convert", "run.blf", "run.log"], cwd=self.folder), (DONE, b"", b""))
        self.assertEqual((self.folder / "run.log").read_bytes(), VIN.read_bytes())
        self.assertEqual(package(["convert", "-"], log=blf_of(VIN.read_bytes())).output, VIN.read_bytes())
        self.assertEqual(package(["convert", "run.blf", "-"], cwd=self.folder).output, VIN.read_bytes())
        for words in ([], ["a", "b", "c"], ["--json", "a"], ["run.blf", "run.blf"], ["run.blf", "--help"], ["run.blf", "--limit=3"]):
            self.assertEqual(package(["convert", *words], cwd=self.folder).status, WORDS, words)
        self.assertEqual(sorted(one.name for one in self.folder.iterdir()), ["run.blf", "run.log"])
        self.put("same.log", VIN.read_bytes())
        for name in ("run.blf", "same.log"):
            content = (self.folder / name).read_bytes()
            with open(self.folder / name, "rb") as file:
                self.assertEqual(package(["convert", "-", name], cwd=self.folder, stdin=file).status, WORDS)
            with open(self.folder / name, "ab") as out:
                self.assertEqual(package(["convert", name], cwd=self.folder, stdout=out).status, WORDS)
            with open(self.folder / name, "r+b") as both:
                self.assertEqual(package(["convert", "-"], stdin=both, stdout=both).status, WORDS)
            self.assertEqual((self.folder / name).read_bytes(), content)
        self.assertEqual(package(["convert", "-", "/dev/null"]).status, DONE)
        self.assertEqual(package(["convert", "none.blf"], cwd=self.folder), (DEVICE, b"", b"none.blf: No such file or directory\n"))
        with open("/dev/full", "wb") as full:
            self.assertEqual(package(["convert", "run.blf"], cwd=self.folder, stdout=full).status, DEVICE)

    def test_streams(self):
        """Standard input and pipes that are named are converted where they have to be, and else go to the program as they come."""
        log, blf = VIN.read_bytes(), blf_of(VIN.read_bytes())
        self.put("run.log", log)
        path = self.put("run.blf", blf)
        want = run(given.program, ["list", VIN]).output
        for content in (blf, gzip.compress(log), log, samples.screen_text().encode()):
            found = package(["list", "--limit", "100000"], log=content)
            self.assertEqual((found.status, b"line" in found.error), (DONE, False))
            self.assertEqual(found.output, want if content[:1] != b" " else run(given.program, ["list"], "".join(samples.screen_lines([0] * 9)).encode()).output)
        with open(path, "rb") as file:
            self.assertEqual(package(["list"], stdin=file).output, want)
        with open(path, "rb") as file:
            self.assertEqual(package(["list", "/dev/stdin"], stdin=file).output, want)
        self.assertEqual(package(["list", "/dev/stdin"], log=blf).output, want)
        for content in (log, blf):
            found = package(["compare", "/dev/stdin", "/dev/fd/0"], log=content)
            self.assertEqual(found, (WORDS, b"", b"both logs are the same stream\n"))
        self.assertEqual(package(["list", "/dev/stdin"], log=log).output, want)
        ask = f"{sys.executable} -B -m udsnorm"
        for words in ("<(cat run.blf) run.log", "<(cat run.log) run.blf", "<(cat run.log) <(cat run.blf)", "<(cat run.log) <(cat run.log)"):
            found = run("bash", ["-c", f"{ask} compare {words}"], env=environment(), cwd=self.folder)
            self.assertEqual(found, (DONE, b"same\n", b""), words)
        cut = package(["list"], log=blf[:-4])
        self.assertEqual((cut.status, cut.output), (REFUSAL, b""))
        self.assertRegex(cut.error.decode(), r"^-: byte \d+: the file ends in the middle of an object\nline \d column 2: not a log line\n")
        self.assertEqual(package(["list", "--limit", "50"], log=blf).error.splitlines()[0], b"log longer than the limit")

    def test_named_pipes(self):
        """A pipe that lies in a folder gives each byte once, also where its writer has ended when the program begins."""
        log = VIN.read_bytes()
        for name, content in (("run.log", log), ("run.blf", blf_of(log)), ("long.log", log * 4000)):
            self.put(name, content)
        for name in ("one", "other"):
            os.mkfifo(self.folder / name)

        def ended(words, **contents):
            writing = [start("sh", ["-c", f"exec cat {content} > {pipe}"], cwd=self.folder) for pipe, content in contents.items()]
            found = package(words, cwd=self.folder)
            for writer in writing:
                end(writer)
            return found

        for content in ("run.log", "run.blf"):
            self.assertEqual(ended(["list", "one"], one=content).output, run(given.program, ["list", VIN]).output)
            for words in (["one", "run.blf"], ["run.log", self.folder / "one"]):
                self.assertEqual(ended(["compare", *words], one=content), (DONE, b"same\n", b""))
            self.assertEqual(ended(["compare", "one", "other"], one=content, other="run.log"), (DONE, b"same\n", b""))
        self.assertEqual(ended(["list", "one"], one="long.log"), run(given.program, ["list", "long.log"], cwd=self.folder))
        self.assertEqual(ended(["list", "--limit", "50", "one"], one="long.log"), (REFUSAL, b"", b"log longer than the limit\n"))
        running = start(sys.executable, ["-B", "-m", "udsnorm", "watch", "one"], env=environment(), cwd=self.folder)
        with open(self.folder / "one", "wb", buffering=0) as pipe:
            pipe.write(log)
            self.assertIn(b"exchange", running.stdout.readline())
        self.assertEqual(end(running).status, DONE)

    def test_first_pieces(self):
        """However few bytes of a stream come first, it is what all of them are."""
        log, asc = VIN.read_bytes(), samples.ASC.encode("latin-1")
        for content, size in (
            (blf_of(log), 2), (gzip.compress(log), 1), (bz2.compress(log), 2), (lzma.compress(log), 3), (asc, 1), (asc, 7), (log, 1), (log, 30),
            (samples.screen_text().encode(), 8), (samples.TRC_11.encode(), 5), (samples.SAVVYCAN.encode(), 9), (b"\n\n" + log, 2),
            (log.replace(b"(1700000000.", b"(2023-11-14 22:13:20."), 6), (b"LO", 1),
        ):
            want = package(["list"], log=content)
            running = start(sys.executable, ["-B", "-m", "udsnorm", "list"], env=environment())
            running.stdin.write(content[:size])
            running.stdin.flush()
            time.sleep(0.3)
            self.assertEqual(end(running, content[size:]), want, (content[:20], size))
            self.assertEqual(want.status, REFUSAL if content == b"LO" else DONE, (content[:20], want.error))
        for content in (gzip.compress(log), log, b"("):
            here, there = socket.socketpair()
            with there, here:
                running = start(sys.executable, ["-B", "-m", "udsnorm", "list"], env=environment(), stdin=there)
                there.close()
                here.sendall(content[:1])
                time.sleep(0.3)
                here.sendall(content[1:])
                here.close()
                self.assertEqual(end(running), package(["list"], log=content))

    def test_a_session_that_runs(self):
        """What comes from a pipe goes on as it comes."""
        lines = VIN.read_bytes().splitlines(keepends=True)
        running = start(sys.executable, ["-B", "-m", "udsnorm", "watch"], env=environment())
        for line in lines:
            running.stdin.write(line)
            running.stdin.flush()
            time.sleep(0.02)
        self.assertIn(b"exchange", running.stdout.readline())
        self.assertEqual(end(running).status, DONE)

    def test_ends_at_the_limit(self):
        """What is converted takes no more room than the log may have."""
        line = samples.line(0, "can0", 0x7E0, b"\x01\x3e").encode()
        self.put("run.log.gz", gzip.compress(line * 2000000))
        limit = {"preexec_fn": lambda: resource.setrlimit(resource.RLIMIT_FSIZE, (400000, 400000))}
        for words in (["--limit", "200000"], ["--limit=+0000000200000"]):
            found = package(["list", *words, "run.log.gz"], cwd=self.folder, **limit)
            self.assertEqual(found, (REFUSAL, b"", b"log longer than the limit\n"))
        self.put("short.log", line * 100)
        self.put("short.log.gz", gzip.compress(line * 100))
        for less in (0, 1, len(line), len(line) + 1):
            words = ["list", "--limit", str(100 * len(line) - less)]
            self.same([*words, "short.log.gz"], [*words, "short.log"])
        self.put("logs/--limit=5", gzip.compress(line * 100))
        found = package(["list", "--", "--limit=5"], cwd=self.folder / "logs")
        self.assertEqual((found.status, found.output.count(b"\n"), found.error), (DONE, 100, b""))

    def test_no_end_is_taken_for_the_log(self):
        """Were it converted no further than the program reads, that would refuse it all the same."""
        line = samples.line(0, "can0", 0x7E0, b"\x01\x3e").encode()
        self.put("run.log.gz", gzip.compress(line * 20000))
        program = importlib.import_module("udsnorm._program")
        with tempfile.TemporaryDirectory() as root:
            path = str(self.folder / "run.log.gz")
            word = program.Folder(root, 1000).word_for(path, path, True)
            for words in (["list"], ["compare", VIN]):
                self.assertEqual(run(given.program, [*words, word], cwd=root).status, REFUSAL)

    def test_signals(self):
        """Whatever tells the process to end, the folder goes."""
        self.put("run.blf", blf_of(VIN.read_bytes()))
        program = self.put("bin/udsnorm", b'#!/bin/sh\ncase "$*" in *--help) exit ;; esac\nexec sleep 60\n')
        program.chmod(0o755)
        rooms = self.folder / "rooms"
        rooms.mkdir()
        more = {**environment(), "PATH": f"{program.parent}:{os.environ['PATH']}", "TMPDIR": str(rooms)}
        for number in (signal.SIGHUP, signal.SIGTERM, signal.SIGINT):
            for words in (["list", "run.blf"], ["report", self.folder / "run.blf"]):
                running = start(sys.executable, ["-B", "-m", "udsnorm", *words], env=more, cwd=self.folder)
                while not list(rooms.rglob("run.blf")):
                    time.sleep(0.01)
                time.sleep(0.1)
                running.send_signal(number)
                self.assertEqual((end(running).status, list(rooms.iterdir())), (128 + number, []))

    def test_signals_while_the_folder_goes(self):
        self.put("run.blf", blf_of(VIN.read_bytes()))
        rooms = self.folder / "rooms"
        rooms.mkdir()
        for number in (signal.SIGHUP, signal.SIGTERM, signal.SIGINT):
            more = {"env": {**environment(), "TMPDIR": str(rooms)}, "cwd": self.folder}
            running = start(sys.executable, ["-B", "-c", SLOWLY], **more)
            while running.stdout.readline() not in (b"removing\n", b""):
                pass
            running.send_signal(number)
            self.assertEqual((end(running).status, list(rooms.iterdir())), (DONE, []))

    def test_names_that_are_not_utf_8(self):
        name = os.fsdecode(b"\xe9 run.blf")
        self.put(name, blf_of(VIN.read_bytes()))
        self.put(os.fsdecode(b"\xe9.log"), VIN.read_bytes())
        self.put("run.log", VIN.read_bytes())
        for words in (["compare", name, "run.log"], ["compare", os.fsdecode(b"\xe9.log"), name]):
            self.assertEqual(package(words, cwd=self.folder), (DONE, b"same\n", b""))
        self.assertIn(b"%E9 run.blf", package(["report", name], cwd=self.folder).output)
        self.assertEqual(package(["convert", name], cwd=self.folder).output, VIN.read_bytes())
        # Each byte would be longer by its number than a name may be.
        long, longer = (os.fsdecode(b"\xe9" * size + b".blf") for size in (100, 251))
        self.put(long, blf_of(VIN.read_bytes()))
        self.put(f"{long}/{long}".replace(".blf", "", 1), VIN.read_bytes())
        self.put(longer, blf_of((EXAMPLES / "lost-frame.log").read_bytes()))
        for words, status in (([long, long.replace(".blf", f"/{long}")], DONE), ([long, longer], DIFFERENT), ([longer, self.folder / longer], DONE)):
            self.assertEqual(package(["compare", *words], cwd=self.folder).status, status)
        missing = package(["convert", os.fsdecode(b"\xe9")], cwd=self.folder)
        self.assertEqual((missing.status, missing.error), (DEVICE, b"\\xe9: No such file or directory\n"))

    def test_no_program(self):
        self.put("run.blf", blf_of(VIN.read_bytes()))
        found = package(["list", "run.blf"], cwd=self.folder, env={**environment(), "PATH": "/nowhere"})
        self.assertEqual((found.status, found.output, found.error.count(b"\n")), (WORDS, b"", 1))

    def test_no_shared_library(self):
        """The commands need none. Who imports the package is told at once."""
        self.put("run.blf", blf_of(VIN.read_bytes()))
        broken = self.put("broken/libudsnorm.so.0", b"no library").parent
        more = {"cwd": self.folder, "env": {**environment(), "LD_LIBRARY_PATH": str(broken)}}
        for words in (["compare", "run.blf", VIN], ["convert", "run.blf"], ["list", VIN], ["--help"]):
            self.assertEqual(package(words, **more), package(words, cwd=self.folder))
        found = run(sys.executable, ["-B", "-c", "import udsnorm"], **more)
        self.assertEqual((found.status, b"libudsnorm.so.0: " in found.error.splitlines()[-1]), (1, True))

    def test_missing_library(self):
        """A Python without python-can says what to install."""
        database = self.put("run.db", b"SQLite format 3\0" + bytes(100))
        blocked = self.put("blocked/can.py", b"raise ImportError").parent
        found = package(["convert", database], env={**environment(), "PYTHONPATH": f"{TOP / 'python'}:{blocked}"})
        self.assertEqual((found.status, found.output), (WORDS, b""))
        self.assertIn(b"pip install python-can; apt install python3-can", found.error)
        # What has the name of the library where the command runs is another one.
        self.put("here/can.py", b"")
        found = package(["compare", VIN, database], cwd=self.folder / "here")
        self.assertEqual((found.status, found.output), (WORDS, b""))
        self.assertIn(b"pip install python-can; apt install python3-can", found.error)


class Package(unittest.TestCase):
    """What Python code sees."""

    def test_files_of_any_form(self):
        with tempfile.TemporaryDirectory() as folder:
            path = Path(folder, "vin.blf")
            path.write_bytes(blf_of(VIN.read_bytes()))
            with warnings.catch_warnings():
                warnings.simplefilter("error")
                self.assertIsNone(udsnorm.compare(path, VIN))
            cut = Path(folder, "cut.blf")
            cut.write_bytes(path.read_bytes()[:-4])
            with self.assertRaises(udsnorm.Refused) as caught:
                udsnorm.compare(VIN, cut)
            found = caught.exception
            self.assertEqual((found.reason, found.line, found.side, found.file), ("bad file", None, "right", str(cut)))
            self.assertRegex(str(found), rf"^right: {re.escape(str(cut))}: byte \d+: the file ends")
            sample = Path(folder, "sample.asc")
            sample.write_bytes(samples.ASC.encode("latin-1"))
            with self.assertWarnsRegex(udsnorm.LeftOut, "left out: other events 5") as warned:
                udsnorm.items(sample)
            self.assertEqual(warned.filename, __file__)
            with self.assertRaisesRegex(udsnorm.Refused, "log longer than the limit$"):
                udsnorm.items(path, limit=100)

    def test_messages_of_python_can(self):
        """By objects of the same attributes, with a frame of each kind."""
        message = samples.message
        recorded = [
            message(1700000000.012, 0x7E0, bytearray(b"\x03\x22\xf1\x90"), 4),
            message(1700000000.0123, 0x7E8, LONG, 24, "vcan1", is_fd=True, bitrate_switch=True),
            message(2.0, 0x18DA10F1, b"", 8, None, is_remote_frame=True),
            message(3.0, 0, b"", 0, is_error_frame=True),
            message(float("nan"), 1, b"", 0),
        ]
        want = [
            samples.line(1700000000012000, "can0", 0x7E0, b"\x03\x22\xf1\x90"),
            samples.line(1700000000012300, "vcan1", 0x7E8, LONG, 1),
            samples.line(2000000, "can0", 0x18DA10F1, remote=8),
        ]
        with self.assertWarnsRegex(udsnorm.LeftOut, "^messages: frames 3; left out: error frames 1, stamps that no line can say 1$"):
            self.assertEqual(udsnorm.from_messages(iter(recorded)), "".join(want).encode())

    def test_identifiers_as_texts(self):
        log = (EXAMPLES / "vin.log").read_bytes().replace(b"7E0#", b"18DA10F1#").replace(b"7E8#", b"18DAF110#")
        want = udsnorm.items(VIN)
        self.assertEqual(udsnorm.items(log, tester="18DA10F1", unit="18daf110"), want)
        self.assertEqual(udsnorm.items(VIN, tester="7e0", unit="7E8"), want)
        for wrong in ("", "7E", "07E0", "800", "20000000", "7E0 ", "xyz"):
            with self.assertRaisesRegex(ValueError, "^identifier out of range$"):
                udsnorm.items(VIN, tester=wrong)

    def test_shown_items(self):
        exchange = udsnorm.items(VIN)[0]
        self.assertEqual(repr(exchange), "Exchange(service='ReadDataByIdentifier', request=22F190, outcome='positive', code=None, answer=62F1905742413341354335304546313233343536)")
        self.assertEqual(repr(udsnorm.Stray("tester", b"\x3e\x80")), "Stray(direction='tester', message=3E80)")
        self.assertTrue(repr(udsnorm.messages(VIN)[0]).endswith("begin=1700000000000000, end=1700000000000000, message=22F190)"))

    def test_iterating_forms(self):
        self.assertEqual(list(udsnorm.iter_items(VIN)), udsnorm.items(VIN))
        self.assertEqual(list(udsnorm.iter_messages(VIN)), udsnorm.messages(VIN))
        self.assertIs(iter(found := udsnorm.iter_items(VIN)), found)
        with self.assertRaises(udsnorm.Refused):
            udsnorm.iter_items(b"x")


class Assertions(unittest.TestCase):
    """`udsnorm.testing`."""

    def test_same(self):
        testing.assert_same_session(VIN, EXAMPLES / "vin-fd-crlf.log")
        testing.assert_same_session(VIN, VIN.read_bytes(), page="/nowhere/page.html")

    def test_different(self):
        with tempfile.TemporaryDirectory() as folder, path_with_program():
            page, blf = Path(folder, "page.html"), Path(folder, "vin.blf")
            blf.write_bytes(blf_of(VIN.read_bytes()))
            with self.assertRaises(AssertionError) as caught:
                testing.assert_same_session(blf, EXAMPLES / "lost-frame.log", page=page)
            self.assertEqual(str(caught.exception).splitlines(), [
                "the sessions differ at item 1",
                f"--- {blf}",
                f"+++ {EXAMPLES / 'lost-frame.log'}",
                "@@ -1 +1,2 @@",
                "+exchange ReadDataByIdentifier 22F190 -> unanswered",
                " exchange ReadDataByIdentifier 22F190 -> positive 62F1905742413341354335304546313233343536",
                f"both logs on a page: {page}",
            ])
            shown = page.read_bytes()
            self.assertTrue(b"vin.blf" in shown and b"lost-frame.log" in shown and shown.rstrip().endswith(b"</html>"))

    def test_long_sessions(self):
        """The numbers are those of the whole lists, and however long both are, the message soon comes."""
        log = b"".join(b"(%d.000000) can0 7E0#0322%04X\n" % (at, at % 65536) for at in range(20000))
        other = log.replace(b"#03223A98", b"#0322FFFF")
        with self.assertRaises(AssertionError) as caught:
            testing.assert_same_session(log, other)
        lines = str(caught.exception).splitlines()
        self.assertEqual(lines[:4], ["the sessions differ at item 15001", "--- left", "+++ right", "@@ -14998,7 +14998,7 @@"])
        self.assertEqual(len(lines), 12)

    def test_long_differences(self):
        """The first 1,000 lines are told, and how many more there are."""
        logs = [b"".join(b"(%d.000000) can0 7E0#0322%04X\n" % (at, at + first) for at in range(900)) for first in (0, 900)]
        with self.assertRaises(AssertionError) as caught:
            testing.assert_same_session(*logs)
        lines = str(caught.exception).splitlines()
        self.assertEqual((len(lines), lines[-1]), (1002, "and 803 more lines"))

    def test_refused(self):
        with self.assertRaisesRegex(udsnorm.Refused, "^right: line 1 column 1: not a log line$"):
            testing.assert_same_session(VIN, b"x")


@contextlib.contextmanager
def path_with_program():
    before = os.environ["PATH"]
    os.environ["PATH"] = f"{Path(given.program).parent}:{before}"
    try:
        yield
    finally:
        os.environ["PATH"] = before


class OtherTools(unittest.TestCase):
    """Files that other tools made of the sample logs hold the frames of these. A tool refuses some of the logs."""

    def setUp(self):
        self.refused = []

    def made(self, path, tool, *words, log=None):
        """What a tool writes, None where it refuses the log of this path."""
        if not shutil.which(tool):
            self.skipTest(f"no {tool} is installed")
        found = run(tool, words, log or b"")
        self.refused += [path.name] if found.status else []
        return None if found.status else found.output

    def read(self, path):
        """The frames of a file, of which nothing is left out."""
        found = package(["convert", path])
        self.assertEqual((found.status, b"left out" in found.error), (DONE, False), found.error)
        return frames_of(found.output.decode().splitlines())

    def test_log2asc(self):
        with tempfile.TemporaryDirectory() as folder:
            for path in LOGS:
                interfaces = sorted(set(re.findall(r"\) +(\S+)", path.read_text())))
                for more in ([], ["-f"]):
                    made = Path(folder, f"{path.stem}.asc")
                    if self.made(path, "log2asc", *more, "-I", path, "-O", made, *interfaces) is not None:
                        with self.subTest(path.name):
                            self.assertEqual(self.read(made), source_frames(path))
        self.assertEqual(self.refused, [])

    def test_log2long(self):
        for path in LOGS:
            shown = self.made(path, "log2long", log=path.read_bytes())
            if shown is not None:
                with self.subTest(path.name), tempfile.TemporaryDirectory() as folder:
                    made = Path(folder, "shown.txt")
                    made.write_bytes(shown)
                    self.assertEqual(self.read(made), source_frames(path))
        self.assertEqual(self.refused, ["single-frames.log"])

    def test_tshark(self):
        with tempfile.TemporaryDirectory() as folder:
            for path in LOGS:
                for kind in ("pcap", "nsecpcap", "pcapng"):
                    made = Path(folder, f"made.{kind}")
                    if self.made(path, "tshark", "-r", path, "-F", kind, "-w", made) is not None:
                        with self.subTest(path=path.name, kind=kind):
                            self.assertEqual(self.read(made), source_frames(path))
        self.assertEqual(set(self.refused), {"candump-any.log", "candump-marks.log", "single-frames.log"})

    def test_python_can(self):
        """By the python-can of this Python, or of Debian's."""
        python = next((one for one in ("python3", "/usr/bin/python3") if not run(one, ["-c", "import can"]).status), None)
        if python is None:
            self.skipTest("no python-can is installed")
        with tempfile.TemporaryDirectory() as folder:
            for path in LOGS:
                text = path.read_text()
                if re.search("_[9A-F]", text):
                    # It can't read a raw length code, and its writer of databases then waits for ever.
                    continue
                # Its TRC has classic frames with data alone.
                for suffix in ("asc", "blf", "csv", "db", *(() if "##" in text or "#R" in text else ("trc",))):
                    made = Path(folder, f"{path.stem}.{suffix}")
                    if self.made(path, python, "-c", CONVERT, path, made) is not None:
                        found = run(python, ["-B", "-m", "udsnorm", "convert", made], env=environment())
                        with self.subTest(path=path.name, suffix=suffix):
                            self.assertEqual((found.status, b"left out" in found.error), (DONE, False), found.error)
                            frames, want = frames_of(found.output.decode().splitlines()), source_frames(path)
                            # Its CSV and its databases don't say which frames are of CAN FD.
                            is_told = suffix not in ("csv", "db")
                            self.assertEqual(*([one if is_told else bare(one) for one in each] for each in (frames, want)))
        self.assertEqual(self.refused, [])


def bare(frame):
    """A frame without the sign of CAN FD."""
    return (*frame[:2], frame[2].lstrip("#"))


# How python-can writes a log as another file.
CONVERT = """
import sys, can
writer = can.Logger(sys.argv[2])
for message in can.LogReader(sys.argv[1]):
    writer(message)
writer.stop()
"""
LONG = samples.LONG


def main():
    words = argparse.ArgumentParser(description=__doc__, formatter_class=argparse.RawDescriptionHelpFormatter)
    words.add_argument("program", type=os.path.abspath)
    words.add_argument("library", type=Path)
    words.add_argument("tests", nargs="*")
    words.parse_args(namespace=given)
    # What a shell starts in the background ignores these, and so would each process that is started here.
    signal.signal(signal.SIGINT, signal.default_int_handler)
    signal.signal(signal.SIGHUP, signal.SIG_DFL)
    sys.path.insert(0, str(TOP / "python"))
    # One that is loaded is found by its name.
    ctypes.CDLL(str(given.library.resolve() / "libudsnorm.so"))
    global udsnorm, formats, testing
    udsnorm = importlib.import_module("udsnorm")
    formats = importlib.import_module("udsnorm._formats")
    testing = importlib.import_module("udsnorm.testing")
    run_tests(given.tests)


main()
