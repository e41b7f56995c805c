"""Writes testdata/captures, field by field as the formats' documents name them. It shares no code with the crates.

    captures              writes the files
    captures --compare    asks tshark for the time, lengths and interface of each frame, and says where it differs from what
                          was written
"""

import os
import struct
import subprocess
import sys

from readings import ROW_DATA, packets

FOLDER = os.path.join(ROW_DATA, "captures")


def pcap(order, magic, link, records):
    """File Header and Packet Records of draft-ietf-opsawg-pcap; a record is (seconds, fraction, original, data)."""
    written = struct.pack(order + "IHHIIII", magic, 2, 4, 0, 0, 262144, link)
    for seconds, fraction, original, data in records:
        written += struct.pack(order + "IIII", seconds, fraction, len(data), original) + data
    return written


def block(order, kind, body):
    """Block Type, Block Total Length, the body padded to 32 bits, and the length once more (draft-ietf-opsawg-pcapng)."""
    body += bytes(-len(body) % 4)
    length = 12 + len(body)
    return struct.pack(order + "II", kind, length) + body + struct.pack(order + "I", length)


def section(order):
    return block(order, 0x0A0D0D0A, struct.pack(order + "IHHq", 0x1A2B3C4D, 1, 0, -1))


def option(order, code, value):
    return struct.pack(order + "HH", code, len(value)) + value + bytes(-len(value) % 4)


def interface(order, link, most=0, options=b""):
    return block(order, 1, struct.pack(order + "HHI", link, 0, most) + options)


def enhanced(order, number, units, original, data):
    return block(order, 6, struct.pack(order + "IIIII", number, units >> 32, units & 0xFFFFFFFF, len(data), original) + data)


def packet(order, number, units, original, data):
    """The obsolete Packet Block, with seven dropped packets."""
    return block(order, 2, struct.pack(order + "HHIIII", number, 7, units >> 32, units & 0xFFFFFFFF, len(data), original) + data)


def simple(order, original, data):
    return block(order, 3, struct.pack(order + "I", original) + data)


def sections():
    """Two sections, little-endian and big-endian; three interfaces of three link types and clocks; each type of packet."""
    clock = option("<", 9, b"\x8a") + option("<", 14, struct.pack("<q", -1)) + option("<", 0, b"")
    return b"".join((
        section("<"), interface("<", 220, 2), interface("<", 249, 0, clock + struct.pack("<HH", 5, 5)),
        enhanced("<", 0, (1 << 32) + 2, 9, b"\xaa\xbb\xcc"), block("<", 0x80000001, b""), simple("<", 5, b"\xdd\xee"),
        packet("<", 1, 0x601, 0, b""),
        section(">"), interface(">", 288), enhanced(">", 0, 5, 1, b"\xd2"),
    ))


def clocks():
    """An interface for each of some resolutions, as powers of ten and of two, with an offset each, and a packet at each."""
    asked = [(0, 0, 1_700_000_000), (3, 0, 1_700_000_000_123), (6, 1_700_000_000, 123_456), (9, 0, 1_700_000_000_123_456_789),
             (0x80, 0, 1_700_000_000), (0x8A, 0, 1_740_800_000_511), (0x94, -1, 1_782_579_200_000_001), (10, 0, 17_000_000_000_123_456_789)]
    described = [interface("<", 288, 0, option("<", 9, bytes((resolution,))) + option("<", 14, struct.pack("<q", offset))) for resolution, offset, _ in asked]
    return section("<") + b"".join(described) + b"".join(enhanced("<", number, units, 1, b"\xd2") for number, (_, _, units) in enumerate(asked))


def token(name, address, endpoint=0):
    return packets.written(name, [address, endpoint])


def sent(name, data):
    return packets.written(name, [data])


ACK, NAK, STALL, PRE, FRAME = (packets.written(name, fields) for name, fields in (("Ack", []), ("Nak", []), ("Stall", []), ("Pre", []), ("StartOfFrame", [1])))


def asked(address, request):
    return [token("Setup", address), sent("Data0", bytes.fromhex(request)), ACK]


def read(address, request, answer, size=8):
    """A control transfer with an answer of the device, in packets of this size (USB 2.0, 8.5.3)."""
    bodies = [answer[at : at + size] for at in range(0, len(answer), size)]
    bodies += [b""] if len(answer) % size == 0 and len(answer) < int(request[14:16] + request[12:14], 16) else []
    stage = [it for place, body in enumerate(bodies) for it in (token("In", address), sent(("Data1", "Data0")[place % 2], body), ACK)]
    return asked(address, request) + stage + [token("Out", address), sent("Data1", b""), ACK]


def ordered(address, request):
    """A control transfer without data."""
    return [*asked(address, request), token("In", address), sent("Data1", b""), ACK]


def refused(address, request):
    return [*asked(address, request), token("In", address), STALL]


DEVICE = bytes.fromhex("120100020000000834127856000101020001")
SET = bytes.fromhex("0902190001010080320904000001030000000705810308000a")
OTHER_SET = SET[:8] + b"\xfa" + SET[9:]
TWO, THREE = DEVICE[:17] + b"\2", [SET[:5] + bytes([value]) + SET[6:] for value in (1, 2, 3)]


def enumerated():
    """A device at full speed whose packets were recorded: NAK, a lost ACK, a packet that comes again, and other endpoints between."""
    again = [token("In", 7), sent("Data1", SET[:8])]
    return [
        FRAME, *read(0, "8006000100004000", DEVICE[:8]), *ordered(0, "0005070000000000"), FRAME,
        *read(7, "8006000100001200", DEVICE), *asked(7, "8006000200000900"), token("In", 7), NAK, *again, *again, ACK,
        token("In", 7), sent("Data0", SET[8:9]), ACK, token("Out", 7), sent("Data1", b""), ACK,
        token("In", 7, 1), NAK, *read(7, "8006000200001900", SET), *read(7, "800600030000ff00", bytes.fromhex("04030904")),
        *read(7, "800602030904ff00", bytes.fromhex("0a034d0066006700")[:8] + b"\x2e\0"), *ordered(7, "0009010000000000"),
        *asked(7, "a101000000000200"),
    ]


def broken():
    """One that is refused what it has, gives other bytes, ends too early, and isn't heard."""
    return [
        *read(3, "8006000100001200", DEVICE), *refused(3, "8006000100001200"), *read(3, "8006000200000900", SET[:9]), *refused(3, "8006000200001900"),
        *read(3, "8006000200001900", OTHER_SET), *refused(3, "800600030000ff00"), *read(3, "800600030000ff00", bytes.fromhex("04030904")),
        *refused(3, "800601030904ff00"), *refused(3, "800603030904ff00"), *refused(3, "8000000000000200"), *refused(3, "8006000600000a00"),
        *read(3, "8006000200001900", DEVICE), *read(3, "8006000200001900", SET[:16]), *read(3, "8006000100000900", DEVICE[:16]),
        *refused(4, "8006000100001200"), *refused(4, "8006000200000900"),
        token("Setup", 3), sent("Data1", bytes(8)), STALL, PRE, token("Setup", 3), packets.changed(sent("Data0", bytes(8)), [9]), *asked(5, "8006000100004000"),
        packets.written("Split", [0]), token("Setup", 5), token("In", 5), sent("Data1", DEVICE[:8]), sent("Data0", DEVICE[8:16]), ACK, token("Ping", 5), sent("Data1", b""),
        *asked(5, "8006000100004000"), token("Out", 5), NAK, b"", b"\x80",
    ]


NAME = bytes.fromhex("1003") + "wrong12".encode("utf-16-le")


def right():
    """An enumeration in which nothing is wrong: a busy device, other endpoints, and a string with an empty packet after whole ones."""
    return [
        FRAME, *read(0, "8006000100004000", DEVICE[:8]), *ordered(0, "0005070000000000"), FRAME, *read(7, "8006000100001200", DEVICE),
        *asked(7, "8006000200000900"), token("In", 7), NAK, token("In", 7), sent("Data1", SET[:8]), ACK, token("In", 7), sent("Data0", SET[8:9]), ACK,
        token("Out", 7), sent("Data1", b""), NAK, token("Out", 7), sent("Data1", b""), ACK, token("In", 7, 1), NAK,
        *read(7, "8006000200001900", SET), *read(7, "800600030000ff00", bytes.fromhex("04030904")), *read(7, "800602030904ff00", NAME),
        *refused(7, "8006000600000a00"), *ordered(7, "0009010000000000"), token("In", 7, 1), sent("Data0", bytes(16)), ACK, FRAME,
    ]


def wrong():
    """What chapter 8 forbids in packets: each kind of damage, of no device that is known but for the last, and each of the others."""
    setup = token("Setup", 7)
    return [
        b"", packets.changed(ACK, [4]), b"\xf0", ACK + b"\0", packets.changed(setup, [20]),
        *read(0, "8006000100004000", DEVICE), *ordered(0, "0005070000000000"), *read(7, "8006000100001200", DEVICE),
        # The second packet has the toggle of the first one, which came before its ACK and after it.
        *asked(7, "8006000200001900"), token("In", 7), sent("Data1", SET[:8]), packets.changed(ACK, [0]), token("In", 7), sent("Data1", SET[:8]), ACK,
        token("In", 7), sent("Data1", SET[:8]), ACK, token("In", 7), sent("Data0", SET[8:16]), ACK, token("In", 7), sent("Data1", SET[16:24]), ACK,
        token("In", 7), sent("Data0", SET[24:]), ACK, token("Out", 7), sent("Data1", b""), ACK,
        # Nine bytes, where bMaxPacketSize0 is eight, and two whole packets without an empty one after them.
        *read(7, "8006000200000900", SET[:9], 9),
        *asked(7, "800602030904ff00"), token("In", 7), sent("Data1", NAME[:8]), ACK, token("In", 7), sent("Data0", NAME[8:]), ACK, token("Out", 7), sent("Data1", b""), ACK,
        # The status stage goes the way of the data, and then the other one: after two packets from the device, and to it without any.
        *read(7, "8006000200000900", SET[:9])[:-3], token("In", 7), sent("Data1", b""), ACK, token("Out", 7), sent("Data1", b""), ACK,
        *asked(7, "0009010000000000"), token("Out", 7), sent("Data1", b""), ACK, token("In", 7), sent("Data1", b""), ACK,
        setup, sent("Data1", bytes(8)), ACK, setup, sent("Data0", bytes(7)), STALL, setup, sent("Data0", bytes(8)), NAK,
        token("In", 8), FRAME, setup, packets.changed(sent("Data0", bytes(8)), [9]), setup, FRAME,
    ]


def in_turn():
    """Two devices that have address 0 in turn, of other sizes and names, each after a reset, and then addresses of their own."""
    other = DEVICE[:7] + b"\x40" + b"\x21\x43" + DEVICE[10:]
    return [
        *read(0, "8006000100001200", DEVICE), *ordered(0, "0005070000000000"), *read(7, "8006000200001900", SET),
        *read(0, "8006000100001200", other, 64), *ordered(0, "0005080000000000"), *read(8, "8006000200001900", OTHER_SET, 64),
        *read(0, "8006000100001200", DEVICE), *ordered(0, "0005090000000000"), *read(7, "8006000100001200", DEVICE), *read(8, "8006000100001200", other, 64), FRAME,
    ]


def monitored(order, letter, device, setup, status, data, length=None):
    """struct usbmon_packet of the kernel's document, 64 bytes, of endpoint zero of bus 1: its id is the device's address."""
    size = len(data) if length is None else length
    head = struct.pack(order + "QBBBBHBBqiiII", 0xFFFF8800 + device, ord(letter), 2, 0x80, device, 1, 0 if setup else ord("-"), 0 if data else ord("<"), 0, 0, status, size, len(data))
    return head + (setup or bytes(8)) + bytes(16) + data


def of_windows(stage, device, back, status, data, number=0x1000):
    """USBPcap's header of a control transfer, 28 bytes, of bus 2."""
    return struct.pack("<HQIHBHHBBIB", 28, number + device, status, 8, back, 2, device, 0x80, 2, len(data), stage) + data


def links():
    """A transfer of each of three link types, each by an interface of its own, one after another and within one another."""
    setup = bytes.fromhex("8006000100001200")
    frames = [
        (0, monitored("<", "S", 5, setup, -115, b"", 18)), (1, of_windows(0, 6, 0, 0, setup)), *((2, body) for body in read(7, setup.hex(), DEVICE)[:6]),
        (1, of_windows(3, 6, 1, 0, DEVICE)), (0, monitored("<", "C", 5, None, 0, DEVICE)), *((2, body) for body in read(7, setup.hex(), DEVICE)[6:]),
        (1, of_windows(0, 6, 0, 0, setup)), (1, of_windows(3, 6, 1, 0xC0000004, b"")), (0, monitored("<", "S", 5, setup, -115, b"", 18)[:63]),
    ]
    return section("<") + b"".join(interface("<", link) for link in (220, 249, 288)) + b"".join(
        enhanced("<", number, 10 * place, len(body), body) for place, (number, body) in enumerate(frames))


SETUP = bytes.fromhex("8006000100001200")


def short_of_linux(order, header):
    """A transfer that usbmon saw with either of its headers, and one that is refused, each a frame that comes and one that goes."""
    events = [("S", SETUP, -115, b""), ("C", None, 0, DEVICE), ("S", SETUP[:3] + b"\2" + SETUP[4:], -115, b""), ("C", None, -32, b"")]
    frames = [monitored(order, letter, 5, setup, status, data, 18) for letter, setup, status, data in events]
    return [frame[:header] + frame[64:] for frame in frames]


def short_of_windows():
    """One by USBPcap, with the frame of each stage; then a header that is a byte short, and one that says so."""
    frames = [of_windows(0, 6, 0, 0, SETUP), of_windows(1, 6, 1, 0, DEVICE), of_windows(2, 6, 0, 0, b""), of_windows(3, 6, 1, 0, b"")]
    return [*frames, of_windows(0, 6, 0, 0, SETUP)[:27], b"\x1a" + of_windows(0, 6, 0, 0, SETUP)[1:]]


def short_of_sections(frames):
    """The same frame type in two sections, one of either order, by interfaces in nanoseconds, where the second is earlier."""
    clock = [option(order, 9, b"\x09") + option(order, 0, b"") for order in "<>"]
    head, tail = (section(order) + interface(order, 288, 0, clock[place]) for place, order in enumerate("<>"))
    return b"".join((head, *(enhanced("<", 0, 2000 + place, len(it), it) for place, it in enumerate(frames[:5])), tail, *(enhanced(">", 0, 1000, len(it), it) for it in frames[5:])))


def moved():
    """A device that is given another address while it has one, and refuses at both what it has."""
    return [
        *read(7, "8006000100001200", DEVICE), *ordered(7, "0005090000000000"), *read(9, "8006000200001900", SET), *refused(9, "8006000100001200"),
        *refused(9, "8006000200001900"), token("In", 7), FRAME,
    ]


def unsettled():
    """A device of two configurations, of values 1 and 2, that refuses an address and values that it has, takes and tells others, and gives a
    third configuration; and before it gave both, and with the high byte of wValue, which is reserved, what is no finding."""
    values = [f"0009{value}00000000" for value in ("0000", "0200", "0300", "0103", "0301")]
    none, second, third, *reserved = values
    current = "8008000000000100"
    return [
        *refused(0, "0005800000000000"), *refused(0, "0005070000000000"), *ordered(0, "0005070000000000"), *refused(7, "0005080000000000"),
        *refused(7, second), *ordered(7, third), *read(7, "8006020200001900", THREE[2]), *read(7, "8006000100001200", TWO), *read(7, "8006000200001900", THREE[0]),
        *refused(7, second), *ordered(7, third), *read(7, current, b"\3"), *read(7, "8006010200000500", THREE[1][:5]), *read(7, current, b"\3"),
        *read(7, "8006010200000600", THREE[1][:6]), *ordered(7, second), *refused(7, second), *refused(7, none), *refused(7, third),
        *(it for value in reserved for it in (*refused(7, value), *ordered(7, value))), *ordered(7, third), *ordered(7, none),
        *read(7, current, b"\2"), *read(7, current, b"\0"), *read(7, current, b"\3"), *refused(7, current), *refused(7, "8008000000000200"),
        *read(7, "8006020200001900", THREE[2]), *refused(0, "0009000000000000"), *refused(0, current), FRAME,
    ]


def misplaced():
    """What wrong devices with packets do: ACK of data whose CRC is wrong, of a token whose CRC is, of a token before its data and of an ACK; and
    the next data packet after an ACK that is damaged."""
    setup, data = token("Setup", 0), sent("Data0", SETUP)
    again = [token("In", 7), sent("Data1", DEVICE[:8]), packets.changed(ACK, [4]), token("In", 7), sent("Data0", DEVICE[8:16]), ACK]
    whole = read(0, SETUP.hex(), DEVICE)
    return [setup, packets.changed(data, [9]), ACK, packets.changed(setup, [20]), data, ACK, setup, ACK, data, *whole[:6], ACK, *whole[6:], *asked(7, SETUP.hex()), *again, FRAME]


def captured(order, link, frames):
    """A record each, of which the second is earlier than the first."""
    times = [8, 7, *range(9, 7 + len(frames))]
    return pcap(order, 0xA1B2C3D4, link, [(9, time, len(it), it) for time, it in zip(times, frames)]), [(f"9.{time:06}000", len(it), len(it), 0) for time, it in zip(times, frames)]


TEXT = b"""ffff8801 2000000 S Ci:1:000:0 s 80 06 0100 0000 0040 64 <
ffff8801 2000250 C Ci:1:000:0 0 18 = 12010002 00000008 34127856 00010102 0001
ffff8801 1999000 S Co:1:000:0 s 00 05 0007 0000 0000 0
ffff8801 1999500 C Co:1:000:0 0 0
ffff8801 2000600 S Ci:1:007:0 s 80 06 0200 0000 0009 9 <
ffff8801 2000700 C Ci:1:007:0 -71 0
"""


def heard(link, bodies):
    """A record every 10 microseconds; the last one is cut."""
    records = [(9, 10 * number, len(data) + (number + 1 == len(bodies)), data) for number, data in enumerate(bodies)]
    times = [(f"9.{10 * number:06}000", len(data), original, 0) for number, (_, _, original, data) in enumerate(records)]
    return pcap("<", 0xA1B2C3D4, link, records), times


# Each file, and of its frames the time, or none, the lengths in the file and on the bus, and the interface, where tshark is asked.
RECORDS = [(3, 7, 3, b"\xaa\xbb\xcc"), (2, 999_999, 65_536, b"")]
MICROSECONDS = [("3.000007000", 3, 3, 0), ("2.999999000", 0, 65_536, 0)]
NANOSECONDS = [("3.000000007", 3, 3, 0), ("2.000999999", 0, 65_536, 0)]
FILES = {
    "little.pcap": (pcap("<", 0xA1B2C3D4, 220, RECORDS), MICROSECONDS),
    "big.pcap": (pcap(">", 0xA1B23C4D, 220, RECORDS), NANOSECONDS),
    "sections.pcapng": (sections(), [("4294.967298000", 3, 9, 0), (None, 2, 5, 0), ("0.500976562", 0, 0, 1), ("0.000005000", 1, 1, 0)]),
    "clocks.pcapng": (clocks(), [
        ("1700000000.000000000", 1, 1, 0), ("1700000000.123000000", 1, 1, 1), ("1700000000.123456000", 1, 1, 2),
        ("1700000000.123456789", 1, 1, 3), ("1700000000.000000000", 1, 1, 4), ("1700000000.499023437", 1, 1, 5),
        ("1699999999.000000953", 1, 1, 6), ("1700000000.012345678", 1, 1, 7)]),
    "packets.pcap": heard(294, enumerated()),
    "broken-packets.pcap": heard(288, broken()),
    "right-packets.pcap": heard(294, right()),
    "wrong-packets.pcap": heard(288, wrong()),
    "in-turn.pcap": heard(288, in_turn()),
    "misplaced-packets.pcap": heard(288, misplaced()),
    "links.pcapng": (links(), None),
    "short.text": (TEXT, None),
    "short-189.pcap": captured(">", 189, short_of_linux(">", 48)),
    "short-220.pcap": captured("<", 220, short_of_linux("<", 64)),
    "short-249.pcap": captured("<", 249, short_of_windows()),
    "short-288.pcapng": (short_of_sections(read(5, "8006000100000800", DEVICE[:8])), None),
    "short-293.pcap": captured(">", 293, read(5, "8006000100000800", DEVICE[:8])),
    "other-address.pcap": heard(294, moved()),
    "other-configurations.pcap": heard(294, unsettled()),
}


def compare():
    """Says where tshark reads other frames."""
    differs = False
    for name, (data, wanted) in FILES.items():
        if wanted is None:
            continue
        fields = ("frame.time_epoch", "frame.cap_len", "frame.len", "frame.interface_id")
        words = ["tshark", "-r", "-", "-T", "fields", *(word for field in fields for word in ("-e", field))]
        ran = subprocess.run(words, input=data, capture_output=True, check=True).stdout.decode()
        came = [line.split("\t") for line in ran.splitlines()]
        told = [[time or "", str(captured), str(original), str(number) if name.endswith("ng") else ""] for time, captured, original, number in wanted]
        if came != told:
            differs = True
            print(f"{name}: tshark has {came}, and not {told}")
    return differs


if __name__ == "__main__":
    if sys.argv[1:] == ["--compare"]:
        sys.exit(compare())
    for name, (data, _) in FILES.items():
        with open(os.path.join(FOLDER, name), "wb") as out:
            out.write(data)
