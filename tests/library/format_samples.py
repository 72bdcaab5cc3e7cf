"""Logs of each format, built by its specification, with the lines that candump would have written and what is left out.

`SAMPLES` has a sample for each form; `cuts` says at which places a sample may end and be whole."""

import base64
import struct
import zlib
from collections import namedtuple
from types import SimpleNamespace

# The file's name and bytes; the lines; what is left out, and what is noted, by kind; the places at which it may end and be
# whole besides its line feeds (a text has no others).
Sample = namedtuple("Sample", "name content lines left_out noted ends", defaults=({}, {}, ()))

FIRST_BYTES = bytes.fromhex("101462F190574241")
LONG = bytes(range(24))


def line(micros, interface, identifier, data=b"", flags=None, remote=None):
    """A line of a log. An identifier of more than 11 bits is one of 29."""
    digits = f"{identifier:08X}" if identifier > 0x7FF else f"{identifier:03X}"
    body = f"R{remote or ''}" if remote is not None else ("" if flags is None else f"#{flags}") + data.hex().upper()
    return f"({micros // 10**6}.{micros % 10**6:06}) {interface} {digits}#{body}\n"


# ---- ASC

ASC = """date Fri M\xe4r 14 10:13:20.000 pm 2023
base hex  timestamps absolute
internal events logged
// version 9.0.0
Begin Triggerblock Fri M\xe4r 14 10:13:20.000 pm 2023
   0.000000 Start of measurement
   0.015991 CAN 1 Status:chip status error active
   0.0160004 1  7E0             Rx   d 4 03 22 F1 90  Length = 240015 BitCount = 124 ID = 2016
   0.0160005 12  7E8             Tx   d 8 10 14 62 F1 90 57 42 41
   1.000000 1  18DA10F1x       Rx   d 2 01 3e  Length = 0 BitCount = 64 ID = 416944369x
   1.100000 2  Statistic: D 0 R 0 XD 0 XR 0 E 0 O 0 B 0.00%
   1.150000 1  J1939TP FEE3p 6   0   0 - Rx   d 23 A0 0F A6 60 3B D1 40 1F DE 80 25 DF C0 2B E1 00 4B FF FF 3C 0F 00 4B FF FF FF FF FF FF FF FF FF FF FF FF  Length = 0 BitCount = 0 ID = 418119424x
   1.160000 1  FEE3p 6   0   0 - Rx   d 8 A0 0F A6 60 3B D1 40 1F
   1.200000 1  ErrorFrame	ECC: 10100010
   1.300000 1  321             Rx   r
   1.400000 1  321             Rx   r 8  Length = 0 BitCount = 64 ID = 801
   1.500000 1  7E0             TxRq d 1 01
   2.000000 CANFD   1 Rx        7E8  Motor_M\xe4dchen                   1 0 c 24 00 01 02 03 04 05 06 07 08 09 0a 0b 0c 0d 0e 0f 10 11 12 13 14 15 16 17   130000  130     3000 0 0 0 0 0
   2.100000 CANFD  10 Tx   18DAF110x                                  0 1 2  2 AA BB   130000  130     5000 46500250 4b140250 20011736 2001040d
   2.150000 CANFD   4 Rx        4EE                                   0 0 9 12 00 01 02 03 04 05 06 07 08 09 0A 0B  1331984   11  0 46500250 460a0250 20011736 20010205
   2.200000 CANFD   1 Rx        7E0                                   0 0 3  3 02 10 03   130000  130        0 0 0 0 0
   2.300000 CANFD   1 Rx        7E0                                   0 0 8  0   130000  130       10 0 0 0 0
   2.400000 CANFD   1 Tx  ErrorFrame	Not Acknowledge error, dominant error flag    fffe   c7 31ca Arb.    556     44      0
   2.500000 CANXL   1 Rx        7E0 5 0 0
   2.600000 1  7E8             Rx   d 8 02 50
   2.650000 1  7E8             Rx   d 40 {LONG_FRAME}
   2.660000 1  7E8             Rx   d 4 02 50 03 00 32
   2.670000 1  7E8             Rx   d f 10 14 62 F1 90 57 42 41  Length = 240015 BitCount = 124 ID = 2024
   2.700000 SV: 2 0 1 ::Var = 1
   2.800000 1  7E8             Rx   d 8 FE FE FE FE FE FE FE FE
End TriggerBlock
""".replace("{LONG_FRAME}", bytes(range(64)).hex(" ").upper())
ASC_LINES = [
    line(16000, "can1", 0x7E0, bytes.fromhex("0322F190")),
    line(16001, "can12", 0x7E8, FIRST_BYTES),
    line(1000000, "can1", 0x18DA10F1, b"\x01\x3e"),
    line(1300000, "can1", 0x321, remote=0),
    line(1400000, "can1", 0x321, remote=8),
    line(2000000, "can1", 0x7E8, LONG, 1),
    line(2100000, "can10", 0x18DAF110, b"\xaa\xbb", 2),
    line(2150000, "can4", 0x4EE, LONG[:12], 0),
    line(2200000, "can1", 0x7E0, b"\x02\x10\x03"),
    line(2300000, "can1", 0x7E0, remote=8),
    line(2600000, "can1", 0x7E8, b"\x02\x50"),
    line(2670000, "can1", 0x7E8, FIRST_BYTES),
    line(2800000, "can1", 0x7E8, b"\xfe" * 8),
]
ASC_DECIMAL = """date Tue Nov 14 10:13:20 pm 2023
base dec  timestamps relative
no internal events logged
   0.0000004 1  2016             Rx   d 4 3 34 241 144
   0.0000004 1  ErrorFrame
   0.0000004 1  2024             Rx   d 8 16 20 98 241 144 87 66 65
   0.0000004 1  416944369x       Rx   d 2 1 62
   1.0000000 CANFD   1 Rx        2024                                   0 0 2  2 170 187   130000  130     1000 0 0 0 0 0
"""
ASC_DECIMAL_LINES = [
    line(0, "can1", 0x7E0, bytes.fromhex("0322F190")),
    line(1, "can1", 0x7E8, FIRST_BYTES),
    line(2, "can1", 0x18DA10F1, b"\x01\x3e"),
    line(1000002, "can1", 0x7E8, b"\xaa\xbb", 0),
]


# ---- BLF

def blf_object(kind, time, body, flags=2, version=1):
    """An object with a head of either version, without what fills it up."""
    head = 32 if version == 1 else 40
    times = struct.pack("<IHHQ", flags, 0, 0, time) + bytes(head - 32)
    return struct.pack("<4sHHII", b"LOBJ", head, version, head + len(body), kind) + times + body


def blf_classic(channel, identifier, data, flags=0, code=None):
    return struct.pack("<HBBI8s", channel, flags, len(data) if code is None else code, identifier, data)


def blf_fd(channel, identifier, code, data, flags=0, of_fd=1, room=64):
    return struct.pack("<HBBIIBBB5x", channel, flags, code, identifier, 0, 0, of_fd, len(data)) + data.ljust(room, b"\0")


def blf_fd_64(channel, identifier, code, data, flags=0x1000, direction=0, more=b"", stored=None):
    """`more` stands behind the data, and its place in the head, where an object has 32 bytes before its body."""
    behind = 32 + 40 + len(data) if more else 0
    stored = len(data) if stored is None else stored
    head = struct.pack("<BBBBIIIIIIIHBBI", channel, code, stored, 0, identifier, 0, flags, 0, 0, 0, 0, 0, direction, behind, 0xFFFFFFFF)
    return head + data + more


def filled(held):
    """An object, and what fills it up."""
    return held + bytes(len(held) % 4)


def blf_container(held, packing=2, size=None):
    body = struct.pack("<HxxxxxxIxxxx", packing, len(held) if size is None else size) + (zlib.compress(held) if packing == 2 else held)
    return filled(struct.pack("<4sHHII", b"LOBJ", 16, 1, 16 + len(body), 10) + body)


def blf_file(*objects, start=(2023, 11, 2, 14, 22, 13, 20, 5), told=None, head=144):
    held = b"".join(objects)
    size = head + len(held) if told is None else told
    whole = struct.pack("<4sI8BQQII8H8H", b"LOGG", head, *[0] * 8, size, size, 0, 0, *start, *start)
    return whole.ljust(head, b"\0") + held


def blf_objects():
    e = 1 << 31
    return [
        blf_object(1, 12300499, blf_classic(1, 0x7E0, bytes.fromhex("0322F190"))),
        blf_object(86, 2000000, blf_classic(12, 0x7E8, FIRST_BYTES, 1) + bytes(8), version=2),
        blf_object(1, 300, blf_classic(1, e | 0x18DA10F1, b"\x01\x3e"), flags=1),
        blf_object(65, 0, b"a text of 21 bytes..."),
        blf_object(1, 4000000, blf_classic(1, 0x321, b"", 0x80, 8)),
        blf_object(100, 5000000, blf_fd(1, 0x7E8, 12, LONG, 0, 3)),
        blf_object(100, 6000000, blf_fd(1, 0x7E8, 3, b"\x02\x10\x03", 0, 0)),
        blf_object(101, 7000000, blf_fd_64(2, e | 0x18DAF110, 12, LONG, 0x7000)),
        blf_object(101, 7100000, blf_fd_64(2, 0x7E8, 12, LONG[:20], 0x1000, more=b"LOBJECTS", stored=24)),
        blf_object(101, 7200000, blf_fd_64(2, 0x7E8, 8, b"", 0x10)),
        blf_object(73, 8000000, bytes(32)),
        blf_object(2, 8100000, bytes(8)),
        blf_object(1, 8200000, blf_classic(1, 0x7E0, b"\x01", 2)),
        blf_object(1, 9000000, blf_classic(1, 0x7E8, b"\xfe" * 8)),
    ]


# 14 November 2023, 22:13:20.005, as UTC.
BLF_START = 1700000000005000
BLF_LINES = [
    line(BLF_START + 12300, "can1", 0x7E0, bytes.fromhex("0322F190")),
    line(BLF_START + 2000, "can12", 0x7E8, FIRST_BYTES),
    line(BLF_START + 3000, "can1", 0x18DA10F1, b"\x01\x3e"),
    line(BLF_START + 4000, "can1", 0x321, remote=8),
    line(BLF_START + 5000, "can1", 0x7E8, LONG, 1),
    line(BLF_START + 6000, "can1", 0x7E8, b"\x02\x10\x03"),
    line(BLF_START + 7000, "can2", 0x18DAF110, LONG, 3),
    line(BLF_START + 7100, "can2", 0x7E8, LONG[:20], 0),
    line(BLF_START + 7200, "can2", 0x7E8, remote=8),
    line(BLF_START + 9000, "can1", 0x7E8, b"\xfe" * 8),
]
BLF_LEFT_OUT = {"objects of type 65": 1, "error frames": 2, "transmit requests": 1}
BLF_NOTED = {"frames with fewer bytes than their length says": 1}


def blf_samples():
    objects = b"".join(map(filled, blf_objects()))
    parts = [objects[at : at + 100] for at in range(0, len(objects), 100)]
    files = {
        "packed.blf": blf_file(blf_container(objects)),
        "plain.blf": blf_file(blf_container(objects, 0)),
        "bare.blf": blf_file(objects),
        "crossing.blf": blf_file(*(blf_container(part, 2 * (at % 2)) for at, part in enumerate(parts))),
        "longer_head.blf": blf_file(blf_container(objects), head=200),
    }
    return [Sample(name, content, BLF_LINES, BLF_LEFT_OUT, BLF_NOTED) for name, content in files.items()]


# ---- TRC

TRC_10 = """;##########################################################################
;   C:\\test.trc
;---+--   ----+---  ----+--- + -+ -- -- ...
     1)      1841 07E0 4  03 22 F1 90
     2)      1853 07E8 8  10 14 62 F1 90 57 42 41
     3)      1854 00000300 2  00 01
     4)      1855 0321 8  RTR
     5)      1856 FFFFFFFF 4  00 00 00 08
"""
TRC_10_LINES = [
    line(1841000, "can0", 0x7E0, bytes.fromhex("0322F190")),
    line(1853000, "can0", 0x7E8, FIRST_BYTES),
    line(1854000, "can0", 0x300, b"\0\x01").replace("300#", "00000300#"),
    line(1855000, "can0", 0x321, remote=8),
]
TRC_11 = """;$FILEVERSION=1.1
;$STARTTIME=37704.5364870833
;---+--   ----+----  --+--  ----+---  +  -+ -- -- -- -- -- -- --
     1)      1059.9  Rx         07E0  4  03 22 F1 90
     2)      1283.2  Tx     18DA10F1  2  01 3E
     3)      1298.9  Warng  FFFFFFFF  4  00 00 00 08  BUSHEAVY
     4)      1323.0  Error      0008  4  00 19 08 08
     5)      1346.8  Rx         0321  4  RTR
"""
TRC_12 = TRC_11.replace("=1.1", "=1.2").replace(".9  Rx", ".9  3  Rx").replace("  Tx ", "  3  Tx ").replace(
    "  Warng", "  3  Warng").replace("  Error", "  3  Error").replace(".8  Rx", ".8  3  Rx")
TRC_13 = """;$FILEVERSION=1.3
;$STARTTIME=37704.5364870833
     1)      1059.9005 1  Rx        07E0 -  4    03 22 F1 90
     2)      1283.231 16  Tx    18DA10F1 -  2    01 3E
     3)      1298.945 1  Warng  FFFFFFFF -  4    00 00 00 08  BUSHEAVY
     4)      1323.201 1  Error      0008 -  4    00 19 08 08
     5)      1346.834 1  Rx         0321 -  4    RTR
"""


def trc_1_lines(one, other, *micros):
    return [
        line(micros[0], one, 0x7E0, bytes.fromhex("0322F190")),
        line(micros[1], other, 0x18DA10F1, b"\x01\x3e"),
        line(micros[2], one, 0x321, remote=4),
    ]


TRC_20 = """;$FILEVERSION=2.0
;$STARTTIME=43008.920986006946
;$COLUMNS=N,O,T,I,d,l,D
     1      1059.900 DT     07E0 Rx 4  03 22 F1 90
     2      1283.231 DT 18DA10F1 Tx 2  01 3E
     3      1298.945 FD     07E8 Rx 24 00 01 02 03 04 05 06 07 08 09 0A 0B 0C 0D 0E 0F 10 11 12 13 14 15 16 17
     4      1323.201 RR     0321 Rx 8
     5      1334.522 ER          Rx    04 00 02 00 00
     6      1334.531 ST          Rx    00 00 00 08
"""
TRC_21 = """;$FILEVERSION=2.1
;$STARTTIME=43008.920986006946
;$COLUMNS=N,O,T,B,I,d,R,L,D
     1      1059.900 DT 1      07E0 Rx -  4    03 22 F1 90
     2      1283.231 FB 1      07E8 Rx -  12   00 01 02 03 04 05 06 07 08 09 0A 0B 0C 0D 0E 0F 10 11 12 13 14 15 16 17
     3      1283.300 FE 2  18DAF110 Rx -  2    AA BB
     4      1283.400 BI 2  18DAF110 Rx -  1    AA
     5      1334.522 ER 1         - Rx -  5    04 00 02 00 00
     6      1334.531 ST 1         - Rx -  4    00 00 00 08
     7      1334.643 EC 1         - Rx -  2    02 02
     8      1335.156 DT 1      07E8 Tx -  15   01 02 03 04 05 06 07 08
     9      1336.543 RR 1      0321 Rx -  3
    10      1338.000 EV 1 User-defined event for bus 1
    11      1339.000 DT 1      07E8 Rx -  8    01 02 03
    12      1340.000 DT 1      07E8 Rx -  1    FE
"""
TRC_21_LINES = [
    line(1059900, "can1", 0x7E0, bytes.fromhex("0322F190")),
    line(1283231, "can1", 0x7E8, LONG, 1),
    line(1283300, "can2", 0x18DAF110, b"\xaa\xbb", 2),
    line(1283400, "can2", 0x18DAF110, b"\xaa", 3),
    line(1335156, "can1", 0x7E8, bytes(range(1, 9))),
    line(1336543, "can1", 0x321, remote=3),
    line(1339000, "can1", 0x7E8, b"\1\2\3"),
    line(1340000, "can1", 0x7E8, b"\xfe"),
]


# ---- CSV

SAVVYCAN = """Time Stamp,ID,Extended,Dir,Bus,LEN,D1,D2,D3,D4,D5,D6,D7,D8
166064000,000007E0,false,Tx,0,4,03,22,F1,90,00,00,00,00,
166076000,000007E8,false,Rx,0,8,10,14,62,F1,90,57,42,41,
166077000,18DA10F1,true,Rx,1,2,01,3E,00,00,00,00,00,00,
166078000,000007E8,false,Rx,0,12,00,01,02,03,04,05,06,07,08,09,0A,0B,
166078100,000007E8,false,Rx,0,8,00,01,02,03,04,05,06,07,08,09,0A,0B,
166078200,000007E8,false,Rx,0,2,00,01,02,00,00,00,00,00,
166079000,00000800,false,Rx,0,1,FE,00,00,00,00,00,00,00,
"""
SAVVYCAN_LINES = [
    line(166064000, "can0", 0x7E0, bytes.fromhex("0322F190")),
    line(166076000, "can0", 0x7E8, FIRST_BYTES),
    line(166077000, "can1", 0x18DA10F1, b"\x01\x3e"),
    line(166078000, "can0", 0x7E8, LONG[:12], 0),
]
PYTHON_CAN = "timestamp,arbitration_id,extended,remote,error,dlc,data\n" + "".join(
    f"{stamp},{number},{extended},{remote},{error},{size},{base64.b64encode(data).decode()}\n"
    for stamp, number, extended, remote, error, size, data in (
        ("1700000000.012", "0x7e0", 0, 0, 0, 4, bytes.fromhex("0322F190")),
        ("5e-05", "0x18da10f1", 1, 0, 0, 2, b"\x01\x3e"),
        ("1700000000.0125", "0x7e8", 0, 0, 0, 24, LONG),
        ("1700000001.0", "0x321", 0, 1, 0, 8, b""),
        ("1700000002.0", "0x0", 0, 0, 1, 0, b""),
    )
)
PYTHON_CAN_LINES = [
    line(1700000000012000, "can0", 0x7E0, bytes.fromhex("0322F190")),
    line(50, "can0", 0x18DA10F1, b"\x01\x3e"),
    line(1700000000012500, "can0", 0x7E8, LONG, 0),
    line(1700000001000000, "can0", 0x321, remote=8),
]


def message(seconds, identifier, data, dlc, channel=0, **more):
    """A message of python-can: an object of the same attributes."""
    plain = {"is_error_frame": False, "is_remote_frame": False, "is_fd": False, "bitrate_switch": False, "error_state_indicator": False}
    fields = {**plain, "timestamp": seconds, "arbitration_id": identifier, "is_extended_id": identifier > 0x7FF, **more}
    return SimpleNamespace(**fields, data=data, dlc=dlc, channel=channel)


# ---- captures

def can_frame(word, data, order=">", flags=0, room=8, length=None):
    return struct.pack(order + "IBBH", word, len(data) if length is None else length, flags, 0) + data.ljust(room, b"\0")


def exported(kind, frame):
    """A frame as Wireshark exports it: a tag with the name of its kind, and the last tag."""
    name = kind.ljust(-(-len(kind) // 4) * 4, b"\0")
    return struct.pack(">HH", 12, len(name)) + name + bytes(4) + frame


def socketcan_frames(order=">"):
    return [
        can_frame(0x7E0, bytes.fromhex("0322F190"), order),
        can_frame(1 << 31 | 0x18DA10F1, b"\x01\x3e", order),
        can_frame(0x7E8, LONG, order, 5, 64),
        can_frame(0x7E8, b"\xaa", order, 0, 64),
        can_frame(1 << 30 | 0x321, b"", order, 0, 8, 8),
        can_frame(1 << 29 | 4, bytes(8), order),
        can_frame(0x7E8, b"\xfe" * 8, order),
    ]


def capture_lines(*stamps, name="can0", flags=0):
    return [
        line(stamps[0], name, 0x7E0, bytes.fromhex("0322F190")),
        line(stamps[1], name, 0x18DA10F1, b"\x01\x3e"),
        line(stamps[2], name, 0x7E8, LONG, 1),
        line(stamps[3], name, 0x7E8, b"\xaa", 0),
        line(stamps[4], name, 0x321, remote=8),
        line(stamps[6], name, 0x7E8, b"\xfe" * 8),
    ]


def pcap(order, nanos, link, packets):
    magic = 0xA1B23C4D if nanos else 0xA1B2C3D4
    held = [struct.pack(order + "IHHiIII", magic, 2, 4, 0, 0, 262144, link)]
    for second, part, packet in packets:
        held.append(struct.pack(order + "IIII", second, part, len(packet), len(packet)) + packet)
    return held


def block(order, kind, body):
    body += bytes(-len(body) % 4)
    size = struct.pack(order + "I", 12 + len(body))
    return struct.pack(order + "I", kind) + size + body + size


def options(order, *pairs):
    return b"".join(struct.pack(order + "HH", code, len(value)) + value + bytes(-len(value) % 4) for code, value in pairs) + bytes(4)


def section(order):
    return block(order, 0x0A0D0D0A, struct.pack(order + "IHHq", 0x1A2B3C4D, 1, 0, -1))


def interface(order, link, *pairs):
    return block(order, 1, struct.pack(order + "HHI", link, 0, 262144) + (options(order, *pairs) if pairs else b""))


def packet_block(order, face, time, packet):
    head = struct.pack(order + "IIIII", face, time >> 32, time & 0xFFFFFFFF, len(packet), len(packet))
    return block(order, 6, head + packet + bytes(-len(packet) % 4))


def ends_of(parts):
    """The places between the parts of a file."""
    found = [0]
    for part in parts:
        found.append(found[-1] + len(part))
    return tuple(found[1:])


def capture_samples():
    second = 1700000000
    plain = pcap("<", False, 227, [(second, 12 * at, frame) for at, frame in enumerate(socketcan_frames())])
    nanos = pcap(">", True, 227, [(second, 1500 * at, frame) for at, frame in enumerate(socketcan_frames())])
    kinds = [b"canfd" if len(frame) > 16 else b"can-hostendian" for frame in socketcan_frames()]
    other = [(second, at, exported(kind, frame)) for at, (kind, frame) in enumerate(zip(kinds, socketcan_frames("<")))]
    wireshark = pcap("<", False, 252, other + [(second, 9, exported(b"http", b"GET /"))])
    ethernet = pcap("<", False, 1, [(second, 0, bytes(60)), (second, 1, bytes(60))])
    micros = second * 10**6
    error, samples = {"error frames": 1}, []
    for name, parts, lines, left_out in (
        ("plain.pcap", plain, capture_lines(*(micros + 12 * at for at in range(7))), error),
        ("nanos.pcap", nanos, capture_lines(*(micros + (3 * at + 1) // 2 for at in range(7))), error),
        ("exported.pcap", wireshark, capture_lines(*(micros + at for at in range(7))), {**error, "packets of no frame": 1}),
        ("ethernet.pcap", ethernet, [], {"packets of link type 1 (Ethernet, as of DoIP)": 2}),
    ):
        samples.append(Sample(name, b"".join(parts), lines, left_out, {}, ends_of(parts)))
    return [*samples, pcapng_sample("<"), pcapng_sample(">")]


def pcapng_sample(order):
    """Two interfaces, of nanoseconds and of 1/1024 s behind an offset, a second section, blocks that say nothing of frames."""
    frames = socketcan_frames()
    parts = [
        section(order),
        interface(order, 227, (2, b"vcan7"), (9, b"\x09")),
        interface(order, 227, (9, b"\x8a"), (14, struct.pack(order + "q", 1000))),
        block(order, 4, bytes(4)),
        packet_block(order, 0, 1700000000000001500, frames[0]),
        packet_block(order, 1, 512, frames[1]),
        packet_block(order, 0, 1700000000000002500, frames[5]),
        block(order, 3, struct.pack(order + "I", len(frames[6])) + frames[6]),
        section(order),
        interface(order, 227, (2, b"a\nb")),
        packet_block(order, 0, 7, frames[6]),
        block(order, 2, struct.pack(order + "HHIIIII", 0, 0, 0, 8, len(frames[2]), len(frames[2]), 0)[:20] + frames[2]),
    ]
    lines = [
        line(1700000000000002, "vcan7", 0x7E0, bytes.fromhex("0322F190")),
        line(1000500000, "can1", 0x18DA10F1, b"\x01\x3e"),
        line(0, "vcan7", 0x7E8, b"\xfe" * 8),
        line(7, "can0", 0x7E8, b"\xfe" * 8),
        line(8, "can0", 0x7E8, LONG, 1),
    ]
    noted = {"frames without a stamp, at 0.000000": 1, "interfaces of a name that no line can say": 1}
    name = "little.pcapng" if order == "<" else "big.pcapng"
    return Sample(name, b"".join(parts), lines, {"error frames": 1}, noted, ends_of(parts))


# ---- candump for the screen

SHOWN = [
    ("7E0   [4]  03 22 F1 90", (0x7E0, bytes.fromhex("0322F190"))),
    ("7E8   [8]  10 14 62 F1 90 57 42 41", (0x7E8, FIRST_BYTES)),
    ("18DA10F1   [2]  01 3E", (0x18DA10F1, b"\x01\x3e")),
    ("7E8  [24]  " + LONG.hex(" ").upper(), (0x7E8, LONG, 0)),
    ("123  [02]  AA BB", (0x123, b"\xaa\xbb", 0)),
    ("321   [0]  remote request", (0x321, b"", None, 0)),
    ("20000004   [8]  00 04 00 00 00 00 00 00   ERRORFRAME", None),
    ("7E8   [0] ", (0x7E8,)),
    ("7E8   [8]  FE FE FE FE FE FE FE FE", (0x7E8, b"\xfe" * 8)),
]
DIFFERENCES = (0, 12000, 300, 7700, 10000, 500, 2, 2500000, 7)


def screen_text(before=lambda at: "", change=lambda text, at: text):
    """What candump shows, with what stands before each interface, and each text changed."""
    return "".join(f" {before(at)} can1  {change(text, at)}\n" for at, (text, _) in enumerate(SHOWN))


def screen_lines(stamps, flags=0):
    return [
        line(stamp, "can1", frame[0], frame[1] if len(frame) > 1 else b"", frame[2] if len(frame) > 2 else None, *frame[3:]).replace("##0", f"##{flags}")
        for stamp, (_, frame) in zip(stamps, SHOWN)
        if frame
    ]


def sums(values):
    found = [0]
    for value in values:
        found.append(found[-1] + value)
    return found[1:]


def few_digits(micros):
    return f"({micros // 10**6:03}.{micros % 10**6:06}) "


def swapped(text, _):
    """As `-S` shows it: the last byte first."""
    head, gap, data = text.partition("]  ")
    return head + gap + "`".join(reversed(data.split())) if gap and "remote" not in text and "ERROR" not in text else text


def in_ascii(text, _):
    """As `-a` shows it, behind the data of up to eight bytes."""
    size = int(text.split("[")[1].split("]")[0])
    if size > 8 or "remote" in text or "ERROR" in text:
        return text
    data = bytes.fromhex(text.split("]")[1])
    shown = "".join(chr(byte) if 0x20 < byte < 0x7F else "." for byte in data)
    return text.rstrip() + " " * (3 * (8 - size) + 3 + (size == 0)) + f"'{shown}'"


def screen_samples():
    absolute = sums(DIFFERENCES)
    of_day = [1700000000000000 + micros for micros in absolute]
    forms = {
        "stamped": (screen_text(lambda at: f"({of_day[at] // 10**6}.{of_day[at] % 10**6:06}) "), of_day),
        "days": (screen_text(lambda at: f"(2023-11-14 22:13:{20 + absolute[at] // 10**6}.{absolute[at] % 10**6:06}) "), of_day),
        "differences": (screen_text(lambda at: few_digits(DIFFERENCES[at])), absolute),
        "zero": (screen_text(lambda at: few_digits(absolute[at])), absolute),
        "bare": (screen_text(), [0] * 9),
        "swapped": (screen_text(change=swapped), [0] * 9),
        "ascii": (screen_text(change=in_ascii), [0] * 9),
        "directions": (screen_text(change=lambda text, at: ("TX B E  " if "20000004" not in text else "RX - -  ") + text), [0] * 9),
        "colours": ("".join(f"\x1b[31m{shown}\x1b[0m\n" for shown in screen_text().splitlines()), [0] * 9),
        "words": (screen_text().replace("ERRORFRAME\n", "ERRORFRAME\n\tcontroller-problem{tx-error-warning}\n"), [0] * 9),
    }
    for name, (text, stamps) in forms.items():
        noted = {"frames without a stamp, at 0.000000": 9} if stamps == [0] * 9 else {}
        noted = {"stamps since the frame before": 9} if name == "differences" else noted
        noted = {"stamps since the first frame": 9} if name == "zero" else noted
        lines = screen_lines(stamps, 3 if name == "directions" else 0)
        yield Sample(f"{name}.txt", text.encode(), lines, {"error frames": 1}, noted)


def text_samples():
    other = {"other events": 1, "error frames": 1}
    more = "frames with more bytes than their length says"
    asc_left_out = {
        "other events": 5, "error frames": 2, "transmit requests": 1, "CAN XL frames": 1, more: 1,
        "classic frames of more than eight bytes": 1,
    }
    maybe = "frames of up to eight bytes that may be of CAN FD"
    short = {"frames with fewer bytes than their length says": 1}
    return [
        Sample("absolute.asc", ASC.encode("latin-1"), ASC_LINES, asc_left_out, short),
        Sample("absolute_crlf.asc", ASC.replace("\n", "\r\n").encode("latin-1"), ASC_LINES, asc_left_out, short),
        Sample("relative.asc", ASC_DECIMAL.encode(), ASC_DECIMAL_LINES, {"error frames": 1}),
        Sample("of_1_0.trc", TRC_10.encode(), TRC_10_LINES, {"other events": 1}),
        Sample("of_1_1.trc", TRC_11.encode(), trc_1_lines("can0", "can0", 1059900, 1283200, 1346800), other),
        Sample("of_1_2.trc", TRC_12.encode(), trc_1_lines("can3", "can3", 1059900, 1283200, 1346800), other),
        Sample("of_1_3.trc", TRC_13.encode(), trc_1_lines("can1", "can16", 1059901, 1283231, 1346834), other),
        Sample("of_2_0.trc", TRC_20.encode(), [
            line(1059900, "can0", 0x7E0, bytes.fromhex("0322F190")),
            line(1283231, "can0", 0x18DA10F1, b"\x01\x3e"),
            line(1298945, "can0", 0x7E8, LONG, 0),
            line(1323201, "can0", 0x321, remote=8),
        ], other),
        Sample("of_2_1.trc", TRC_21.encode(), TRC_21_LINES, {"error frames": 1, "other events": 3}, short),
        Sample("savvycan.csv", SAVVYCAN.encode(), SAVVYCAN_LINES, {"identifiers that no line can say": 1, more: 2}, {maybe: 4}),
        Sample("python_can.csv", PYTHON_CAN.encode(), PYTHON_CAN_LINES, {"error frames": 1}, {maybe: 2}),
    ]


SAMPLES = [*text_samples(), *blf_samples(), *capture_samples(), *screen_samples()]
