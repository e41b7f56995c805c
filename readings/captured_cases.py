"""Writes small recordings into testdata/captures: of usbmon's text, of frames of usbmon and USBPcap, and of packets of the bus. Each transfer and
each transaction has beside it what is to be found in it and told of it, by hand from USB 2.0 and the documents of the formats. Where the second
reading (recorded.py) comes to anything else nothing is written. It shares no code with the crates.
"""

import os
import struct
import sys

from readings import captures, packets, recorded
from readings.captured_answers import VALUE, choose, configure, halt, request, setting_of, status_of, wakeup
from readings.captures import ACK, FOLDER, FRAME, NAK, PRE, SETUP, STALL, enhanced, heard, interface, monitored, of_windows, section, sent, token

# A device descriptor that names strings 1 to 3 and counts one configuration, and one that counts two.
NAMED = "120100020000004083044057000201020301"
TWO = NAMED[:-2] + "02"


def descriptor(kind, index=0, length=255, language=0):
    """GET_DESCRIPTOR (9.4.3)."""
    return request(0x80, 6, kind << 8 | index, language, length)


def address(value, index=0):
    """SET_ADDRESS (9.4.6)."""
    return request(0, 5, value, index)


WHOLE, STRING_1, STRING_2 = descriptor(1, length=18), descriptor(3, 1, language=0x409), descriptor(3, 2, language=0x409)


# A row is a control transfer: its device, its setup packet, its status in Linux, the bytes that came, how many there were, and what is to be found in it.
def tells(device, setup, answer, found="", count=None):
    data = bytes.fromhex(answer)
    return device, setup, 0, data, count or len(data), found


def done(device, setup, found=""):
    return device, setup, 0, b"", 0, found


def stalls(device, setup, found=""):
    return device, setup, -32, b"", 0, found


def refusals():
    """A header of a configuration, and a STALL of all of it; of a string that is named in a language that there is, of two that aren't, of a
    configuration that isn't counted, and of GET_STATUS; and the header once more, as it was and with another last byte."""
    header = "090220000101008032"
    return [
        tells(5, WHOLE, NAMED), tells(5, descriptor(2, length=9), header), stalls(5, descriptor(2, length=32), "C4"), tells(5, descriptor(3), "04030904"),
        stalls(5, STRING_2, "C7"), stalls(5, descriptor(3, 4, language=0x409)), stalls(5, descriptor(3, 2, language=0x407)),
        stalls(5, descriptor(2, 1, 9)), stalls(5, status_of(0), "C8"), stalls(6, descriptor(2, length=9), "C5"),
        tells(5, descriptor(2, length=9), header), tells(5, descriptor(2, length=9), header[:-2] + "33", "C3"),
    ]


def answers():
    """A string, and its other bytes; the same with another device between; less than the device descriptor, but at first what a packet has; a
    string in place of a descriptor; a device without an address; the first string once more, and more of it than was asked for."""
    return [
        tells(5, STRING_1, "04034100"), tells(6, STRING_1, "04034200"), tells(5, STRING_1, "04034200", "C3"),
        tells(5, descriptor(1, length=64), "1201000200000008"), tells(5, descriptor(1, length=64), "12010002000000088304405700020102", "C2"),
        tells(5, WHOLE, "04030904", "C1"), done(0, address(7)), tells(5, STRING_1, "04034100"),
        tells(5, descriptor(3, 1, 4, 0x409), "060342004300", "T1 C2 C3"),
    ]


def refused_values():
    """An address that a device without one refuses, and what may be refused: one that there isn't, with wIndex, and by a device that has one.
    The value of the second configuration, before and after it is known, another value, the high byte of wValue, wIndex, 0, and GET_CONFIGURATION
    of one byte and of two; the same at address 0."""
    return [
        stalls(0, address(0x80)), stalls(0, address(7, 1)), stalls(0, address(7), "C9"), stalls(7, address(8)), stalls(7, configure(2)),
        tells(7, WHOLE, TWO), tells(7, descriptor(2, 1, 5), "0902190001"), stalls(7, configure(2)), tells(7, descriptor(2, 1, 6), "090219000102"),
        stalls(7, configure(2), "C10"), stalls(7, configure(3)), stalls(7, configure(0x102)), stalls(7, request(0, 9, 2, 1)), stalls(7, configure(0), "C10"),
        stalls(7, VALUE, "C12"), stalls(7, request(0x80, 8, 0, 0, 2)), stalls(0, configure(0)), stalls(0, VALUE), stalls(7, configure(2)),
    ]


def other_values():
    """A third configuration, before and after the device descriptor counts two, once cut, and once with wIndex. A value that none has, before and
    after both are known, 0, the high byte of wValue, wIndex, and the value of the second. GET_CONFIGURATION tells the other value, before and
    after, that of the second, 0, and that of another device."""
    third = "090219000103008032"
    return [
        tells(7, descriptor(2, 2, 9), third), tells(7, WHOLE, TWO), tells(7, descriptor(2, 0, 6), "090219000101"), done(7, configure(3)),
        tells(7, descriptor(2, 1, 5), "0902190001"), tells(7, VALUE, "03"), tells(7, descriptor(2, 1, 6), "090219000102"), done(7, configure(3), "C11"),
        done(7, configure(0)), done(7, configure(0x103)), done(7, request(0, 9, 3, 1)), done(7, configure(2)), tells(7, VALUE, "02"),
        tells(7, VALUE, "00"), tells(7, descriptor(2, 2, 33), third + "00" * 23, count=33), tells(7, descriptor(2, 2, 9), third, "C13"),
        tells(7, request(0x80, 6, 0x202, 1, 9), third), tells(7, descriptor(2, 1, 9), "090219000102008032"), tells(8, VALUE, "03"),
        tells(7, VALUE, "03", "C12"),
    ]


def other_statuses():
    """A device with remote wakeup and endpoints 1 IN and 2 OUT tells a configuration before one is set, and 0 after. It refuses remote wakeup,
    takes it, and tells its status without it, with it, and in one byte; of its interface a status that isn't 0; of a halted endpoint that it
    isn't, and that it is, which it may also once the halt is cleared. It refuses the halt of an endpoint that it doesn't have, and takes it, so
    that its state isn't known."""
    of_it, of_endpoint = status_of(0), status_of(2, 0x81)
    return [
        done(0, address(7)), tells(7, WHOLE, NAMED), tells(7, descriptor(2, length=32), "09022000010100a032 0904000002ff000000 0705810308000a 07050202400000"),
        tells(7, VALUE, "01", "C14"), done(7, configure(1)), tells(7, VALUE, "00", "C14"), tells(7, VALUE, "01"), stalls(7, wakeup(), "C16"), done(7, wakeup()),
        tells(7, of_it, "0000", "C15"), tells(7, of_it, "0300"), tells(7, of_it, "02", "C15"), tells(7, status_of(1), "0100", "C15"), done(7, halt(0x81)),
        tells(7, of_endpoint, "0000", "C15"), tells(7, of_endpoint, "0100"), done(7, halt(0x81, False)), tells(7, of_endpoint, "0100"), stalls(7, halt(0x82)),
        done(7, halt(0x82), "C16"), tells(7, of_endpoint, "0200"),
    ]


def other_settings():
    """A device with an interface of two settings refuses GET_INTERFACE before it is configured, which is right, and remote wakeup, which it
    doesn't have. It refuses setting 1, takes it, and tells setting 0, then 1; tells the setting of interface 1, which it doesn't have, and
    refuses that; tells setting 1 after SET_CONFIGURATION; refuses setting 2, takes it, and tells another. Then it has a new address, and is
    configured before it says its descriptors."""
    says = [tells(7, WHOLE, NAMED), tells(7, descriptor(2, length=27), "09021b000101008032 0904000000ff000000 0904000100ff000000")]
    of_it = setting_of(0)
    return [
        done(0, address(7)), *says, stalls(7, of_it), done(7, configure(1)), stalls(7, wakeup()), stalls(7, choose(0, 1), "C17"), done(7, choose(0, 1)),
        tells(7, of_it, "00", "C17"), tells(7, of_it, "01"), tells(7, setting_of(1), "00", "C17"), stalls(7, setting_of(1)), done(7, configure(1)),
        tells(7, of_it, "01", "C17"), stalls(7, choose(0, 2)), done(7, choose(0, 2), "C17"), tells(7, of_it, "01"),
        done(0, address(7)), done(7, configure(1)), *says, tells(7, of_it, "05"),
    ]


# A device that names string 2, its configuration, its language list and that string; and the configuration of another device at its address.
NAMES_2 = NAMED[:28] + "00020001"
SET = "0902120001010080320904000000ff000000"
LANGUAGES, STRING = "04030904", "04034200"


def whole_readings():
    """A device's descriptor in part and then whole, a string twice, and of another device the header of a configuration, all of it, another one,
    and the first one again. What is cut, what was answered with STALL and a string of another length than it says are no readings."""
    return [
        tells(5, descriptor(1, length=8), NAMES_2[:16]), tells(5, WHOLE, NAMES_2), tells(5, STRING_2, "04034100"), tells(6, descriptor(2, length=9), SET[:18]),
        tells(6, descriptor(2, length=18), SET), tells(6, descriptor(2, 1, 9), "090209000002008032"), tells(6, descriptor(2, length=18), SET),
        tells(5, descriptor(2), SET), tells(5, descriptor(3), LANGUAGES), tells(5, STRING_2, STRING, "C3"), tells(5, STRING_2, "06034300", "C2 C3"),
        stalls(5, STRING_2, "C4"), tells(5, descriptor(2, 1, 34), "090222000101008032 0904000000ff000000" + "00" * 16, count=34),
    ]


def changing_device():
    """Then another device takes its address: it names no string. At last it may be reset."""
    return [
        tells(5, WHOLE, NAMES_2), tells(5, descriptor(2), SET), tells(5, descriptor(3), LANGUAGES), tells(6, STRING_2, "04034300"), tells(5, STRING_2, STRING),
        tells(5, WHOLE, OTHER[:36], "C3"), tells(5, descriptor(2), OTHER[36:], "C3"), done(0, address(5)),
    ]


OTHER = "120100020000004084044057000200000001" + "0902120001010080330904000000ff000000"
DUMP = NAMES_2 + SET
# What `--file 1.5` makes of whole_readings, what is told of the other device there, and what is made of changing_device after so many lines.
OF_READINGS, OF_OTHER = DUMP + LANGUAGES + STRING, "device 1.6   no device descriptor came, configuration of 9 bytes"
OF_LINES = ["device descriptor"] * 2 + ["configuration 0"] * 2 + [DUMP] * 6 + [OF_READINGS] * 2 + ["configuration 0"] * 2 + [OTHER] * 2 + ["device descriptor"]


def words_of(data):
    """usbmon's text has at most 32 bytes, in words of four."""
    return "".join(f" {data[at : at + 4].hex()}" for at in range(0, min(len(data), 32), 4))


def text_of(rows):
    """Two lines of usbmon for each row, at each microsecond from 1, of bus 1."""
    lines = []
    for device, setup, status, data, count, _ in rows:
        kind, code, value, index, length = struct.unpack("<BBHHH", bytes.fromhex(setup))
        pipe = f"C{'i' if kind & 0x80 else 'o'}:1:{device:03}:0"
        lines.append(f"S {pipe} s {kind:02x} {code:02x} {value:04x} {index:04x} {length:04x} {length}" + " <" * (kind >= 0x80))
        lines.append(f"C {pipe} {status} {count}" + (" =" + words_of(data) if data else ""))
    return "".join(f"aaaa1111 {place} {line}\n" for place, line in enumerate(lines, 1)).encode()


def of_rows(name, rows):
    """A text with what these rows have, if the second reading finds in it what they have."""
    data = text_of(rows)
    over = recorded.Recording(data).order
    hold(name, [" ".join(it["found"]) for it in over], [found for *_, found in rows])
    return data


def hold(name, came, wanted):
    if came != wanted:
        sys.exit(f"{name}: {came}, and not {wanted}")


def cut_value():
    """GET_CONFIGURATION that tells a value of neither configuration, whole and in a frame of which a byte lacks: link type 220."""
    rows = [tells(7, WHOLE, TWO), *(tells(7, descriptor(2, at, 6), f"09021900010{at + 1}") for at in (0, 1)), *[tells(7, VALUE, "03")] * 2]
    frames = []
    for device, setup, status, data, count, _ in rows:
        frames += [monitored("<", "S", device, bytes.fromhex(setup), -115, b"", count), monitored("<", "C", device, None, status, data)]
    records = [(9, place, len(it) + (place + 1 == len(frames)), it) for place, it in enumerate(frames)]
    return captures.pcap("<", 0xA1B2C3D4, 220, records), [f"1.7 18 {TWO}", "1.7 6 090219000101", "1.7 6 090219000102", "1.7 1 03 C12", "1.7 1, cut 03"]


def stages():
    """USBPcap: a read in three stages, another one of the same device in two, and one that is answered with STALL."""
    frames = [
        of_windows(0, 5, 0, 0, SETUP), of_windows(0, 5, 0, 0, SETUP, 0x2000), of_windows(1, 5, 1, 0, bytes.fromhex("12010002")), of_windows(2, 5, 1, 0, b""),
        of_windows(3, 5, 1, 0, bytes.fromhex("1201"), 0x2000), of_windows(0, 5, 0, 0, SETUP), of_windows(2, 5, 1, 0xC0000004, b""),
    ]
    # The descriptor has 18 bytes, so that neither is all of it; and it is there.
    return captures.captured("<", 249, frames)[0], ["2.5 4 12010002 C2", "2.5 2 1201 C2", "2.5 STALL C4"]


def short_headers(link, header, frame, device="1.5"):
    """A frame that is cut at each byte of its header, which tells nothing, and a whole one."""
    return captures.captured("<", link, [*(frame[:length] for length in range(header)), frame])[0], [f"{device} no end"], f"no transfer: {header} frames"


def links_of_packets():
    """Each link type that has packets: SETUP, DATA0 and ACK, so that nothing is found, an ACK with wrong check bits, and one whose bytes are cut. At
    last the link type of usbmon, which has none."""
    described = section("<") + b"".join(interface("<", link) for link in (288, 293, 294, 295, 220))
    bodies = [(number, body) for number in range(4) for body in (token("Setup", 5 + number), sent("Data0", SETUP), ACK, b"\xd3", ACK)]
    frames = [enhanced("<", number, place, len(it) + (place % 5 == 4), it) for place, (number, it) in enumerate([*bodies, (4, ACK)])]
    told = [f"0.{device} no end" for device in (5, 6, 7, 8)]
    return described + b"".join(frames), told, "no transfer: 9 frames", [f"{frame} Pid" for frame in (4, 9, 14, 19)]


IN, OUT, SETS = (token(name, 5) for name in ("In", "Out", "Setup"))
NYET, SPLIT, PING = packets.written("Nyet", []), packets.written("Split", [0]), token("Ping", 5)
MOUSE = bytes.fromhex("120100020000000827060100000001020301")
CUT, DAMAGED = b"", packets.changed(sent("Data0", bytes(8)), [9])


def data0(data=b""):
    return sent("Data0", data)


def data1(data=b""):
    return sent("Data1", data)


# In the following a row has the packets of a transaction, and what is to be found in it: at its token, or at a damaged packet.
def ends_of_transactions():
    """A transaction is over where another packet comes, also one without its bytes. PRE, and a frame of another link type (None), belong to
    none; a token after SPLIT, or to another endpoint, begins none. The last one isn't over."""
    return [
        ([ACK], ""), ([SETS, data0(SETUP), ACK], ""), ([IN, NAK], ""), ([IN, data1(b"\1\2"), FRAME], "NoHandshake"),
        ([token("In", 5, 1), data0(b"\3"), ACK], ""),
        ([SPLIT, OUT, data1(b"\4"), NAK], ""), ([OUT, DAMAGED, ACK], "NoHandshake Crc16"), ([PING, data1(b"\5"), PRE], "NoHandshake"),
        ([OUT, PRE, data1(), None, NAK], ""), ([OUT, data1(), STALL], ""), ([SPLIT, OUT, data1(b"\4"), FRAME], ""),
        ([token("In", 5, 1), data0(b"\3"), FRAME], ""), ([IN, CUT, ACK], "NoHandshake"), ([IN], ""),
    ], ["0.000270 0.5 STALL 0102 C5"]


def toggles():
    """A data stage that begins with DATA0, which is none of it; a packet that comes again after its ACK; and one that comes again without one."""
    first, second, last = MOUSE[:8], MOUSE[8:16], MOUSE[16:]
    return [
        ([SETS, data0(SETUP), ACK], ""), ([IN, data0(b"\xaa"), ACK], "Toggle"), ([IN, data1(first), ACK], ""), ([IN, data1(first), ACK], "Toggle"),
        ([IN, data0(second)], "NoHandshake"), ([IN, data0(second), ACK], ""), ([IN, data1(last), ACK], ""), ([OUT, data1(), ACK], ""),
    ], [f"0.000200 0.5 18 {MOUSE.hex()}"]


def statuses():
    """SET_CONFIGURATION, whose status stage is an IN. SET_LINE_CODING of two packets: the first comes twice, since the device had no room. A read
    that is followed by another request, which is answered with STALL, and one that is left."""
    request_, coding = [SETS, data0(SETUP), ACK], bytes.fromhex("2120000000000300")
    return [
        ([SETS, data0(bytes.fromhex(configure(1))), ACK], ""), ([IN, NAK], ""), ([IN, data1(), ACK], ""), ([SETS, data0(coding), ACK], ""),
        ([OUT, data1(b"\1\2"), NAK], ""), ([OUT, data1(b"\1\2"), ACK], ""), ([OUT, data0(b"\3"), NYET], ""), ([IN, data1(), ACK], ""),
        (request_, ""), (request_, ""), ([IN, STALL], ""), (request_, ""),
    ], ["0.000050 0.5 done", "0.000200 0.5 3 010203", "0.000230 0.5 no end", "0.000290 0.5 STALL C5", "0.000310 0.5 no end"]


def forbidden():
    """What chapter 8 forbids."""
    request_, first, second, last = [SETS, data0(SETUP), ACK], MOUSE[:8], MOUSE[8:16], MOUSE[16:]
    setup, whole = token("Setup", 0), [([IN, data1(first), ACK], ""), ([IN, data0(second), ACK], ""), ([OUT, data1(), ACK], "NoShortPacket")]
    return [
        ([SETS, data0(SETUP), NAK], "SetupRefused"), ([SETS, data1(SETUP), ACK], "NoRequest"), ([SETS, data0(SETUP[:7]), FRAME], "NoHandshake NoRequest"),
        # The first packet isn't DATA1. It comes without an ACK, so that it may come again, and once more after its ACK.
        (request_, ""), ([IN, data0(first), ACK], "Toggle"), ([IN, data1(first), FRAME], "NoHandshake"), ([IN, data1(first), ACK], ""),
        ([IN, data1(first), ACK], "Toggle"), ([IN, data0(second), ACK], ""), ([IN, data1(last), ACK], ""),
        # The status stage isn't DATA1, and then it is.
        ([OUT, data0(), ACK], "Toggle"), ([OUT, data1(), ACK], ""),
        # Nine bytes, where bMaxPacketSize0 is 8.
        (request_, ""), ([IN, data1(MOUSE[:9]), ACK], "Long"), ([IN, DAMAGED], "NoHandshake Crc16"),
        # The status stage comes after two whole packets, and then after a whole packet and an empty one.
        (request_, ""), *whole, (request_, ""), whole[0], ([IN, data0(), ACK], ""), ([OUT, data1(), ACK], ""),
        # SET_ADDRESS: at address 5 is another device, whose size isn't known.
        ([setup, data0(bytes.fromhex(address(5))), ACK], ""), ([token("In", 0), data1(), ACK], ""), (request_, ""), ([IN, data1(MOUSE[:9]), ACK], ""),
    ], [
        "0.000000 0.5 no end", f"0.000330 0.5 18 {MOUSE.hex()}", f"0.000360 0.5 no end {MOUSE[:9].hex()}", f"0.000530 0.5 16 {MOUSE[:16].hex()} C2",
        f"0.000650 0.5 8 {first.hex()}", "0.000710 0.0 done", f"0.000740 0.5 no end {MOUSE[:9].hex()}",
    ]


def wrong_ways():
    """Status stages of the wrong way, packets after the last one of a data stage, and what may come again."""
    request_, first, second, last = [SETS, data0(SETUP), ACK], MOUSE[:8], MOUSE[8:16], MOUSE[16:]
    string, at_0, to_0 = [SETS, data0(bytes.fromhex(STRING_2)), ACK], token("In", 0), token("Setup", 0)
    return [
        # SET_CONFIGURATION: a status stage to the device that it refuses, one with the other toggle, and one that it takes.
        ([SETS, data0(bytes.fromhex(configure(1))), ACK], ""), ([OUT, data1(), NAK], ""), ([OUT, data0(), ACK], "Toggle"),
        ([OUT, data1(), ACK], "StatusDirection"), ([IN, data1(), ACK], ""),
        # SET_LINE_CODING: all bytes come again, since their ACK was lost, and once more. Then comes one more packet.
        ([SETS, data0(bytes.fromhex("2120000000000300")), ACK], ""), ([OUT, data1(b"\1\2\3"), FRAME], "NoHandshake"), ([OUT, data1(b"\1\2\3"), ACK], ""),
        ([OUT, data1(b"\1\2\3"), ACK], "Toggle"), ([OUT, data0(), ACK], "StatusDirection"), ([IN, data1(), ACK], ""),
        # All 18 bytes come, the last two of them again after a lost ACK. Then comes one more packet.
        (request_, ""), ([IN, data1(first), ACK], ""), ([IN, data0(second), ACK], ""), ([IN, data1(last), FRAME], "NoHandshake"), ([IN, data1(last), ACK], ""),
        ([IN, data0(), ACK], "StatusDirection"), ([OUT, data1(), ACK], ""),
        # bMaxPacketSize0 is 8: after ten bytes of 255 no packet may come, and after eight one. After it the device answers STALL.
        (string, ""), ([IN, data1(first), ACK], ""), ([IN, data0(MOUSE[8:10]), ACK], ""), ([IN, data1(), ACK], "StatusDirection"), ([OUT, data1(), ACK], ""),
        (string, ""), ([IN, data1(first), ACK], ""), ([IN, data0(), ACK], ""), ([IN, STALL], ""),
        # At address 0 no size is known.
        ([to_0, data0(bytes.fromhex(descriptor(1, length=64))), ACK], ""), ([at_0, data1(MOUSE[:2]), ACK], ""), ([at_0, data0(MOUSE[2:4]), ACK], ""),
    ], [
        "0.000120 0.5 done", "0.000300 0.5 3 010203", f"0.000510 0.5 18 {MOUSE.hex()}", f"0.000660 0.5 10 {MOUSE[:10].hex()} C1",
        f"0.000780 0.5 STALL {first.hex()}", "0.000800 0.0 no end 12010002",
    ]


def of_transactions(rows):
    """The recording, and what is to be found in it: the number of a frame, and a name."""
    bodies, found = [], []
    for group, names in rows:
        at = len(bodies) + 1
        found += [f"{at + (group.index(DAMAGED) if name == 'Crc16' else 0)} {name}" for name in names.split()]
        bodies += group
    frames = [(int(it is None), 10 * place, ACK if it is None else it) for place, it in enumerate(bodies)]
    return b"".join([section("<"), interface("<", 288), interface("<", 220), *(enhanced("<", *it, max(len(body), 1), body) for *it, body in frames)]), found


# Where each part of a file ends, from its beginning, and how many frames there are then.
ENDS = {
    "little.pcap": [(24, 0), (43, 1), (59, 2)],
    "sections.pcapng": [(28, 0), (48, 0), (96, 0), (132, 1), (144, 1), (164, 2), (196, 3), (224, 3), (244, 3), (280, 4)],
    "document.text": [(60, 1), (108, 2), (221, 3), (261, 4)],
}
# The examples of the kernel's document: a port's status is read, and a command of 31 bytes is sent.
DOCUMENT = b"""d5ea89a0 3575914555 S Ci:1:001:0 s a3 00 0000 0003 0004 4 <
d5ea89a0 3575914560 C Ci:1:001:0 0 4 = 01050000
dd65f0e8 4128379752 S Bo:1:005:2 -115 31 = 55534243 ad000000 00800000 80010a28 20000000 20000040 00000000 000000
dd65f0e8 4128379808 C Bo:1:005:2 0 31 >
"""
TEXTS = {
    "refusals": refusals, "answers": answers, "refused-values": refused_values, "other-values": other_values, "other-statuses": other_statuses,
    "other-settings": other_settings, "whole-readings": whole_readings, "changing-device": changing_device,
}
TRANSACTIONS = {
    "ends-of-transactions": ends_of_transactions, "toggles": toggles, "statuses": statuses, "forbidden": forbidden, "wrong-ways": wrong_ways,
}
FRAMES = {
    "cut-value.pcap": cut_value, "stages.pcap": stages, "links-of-packets.pcapng": links_of_packets,
    "headers-189.pcap": lambda: short_headers(189, 48, monitored("<", "S", 5, SETUP, -115, b"", 18)[:48]),
    "headers-220.pcap": lambda: short_headers(220, 64, monitored("<", "S", 5, SETUP, -115, b"", 18)),
    "headers-249.pcap": lambda: short_headers(249, 28, of_windows(0, 5, 0, 0, SETUP), "2.5"),
}
NAMES = {words: name for name, words in {**recorded.TRANSACTIONS, **recorded.DAMAGES}.items()}


def transfers_of(recording, with_time=False):
    """What is told of each transfer: its time, its device, how it ended, its data, and what is found in it."""
    for it in [*recording.order, *recording.open.values(), *recording.bus.open.values()]:
        if "words" not in it:
            line = next(recorded.lines_of(it, recording.times[0], False))
            yield " ".join(filter(None, [line[:11].strip() * with_time, line[11:17].strip(), line[61:], it["data"].hex(), *it.get("found", [])]))


def packets_of(recording):
    """The number of a frame, and the name of what is found there."""
    return [f"{it['place'][0]} {NAMES[it['words']]}" for it in recording.order if "words" in it]


def of_frames(name, data, told, last="", found=()):
    """A recording, if the second reading finds in it what is to be told and found, and has this line."""
    recording = recorded.Recording(data)
    hold(name, list(transfers_of(recording)), told)
    hold(name, packets_of(recording), list(found))
    hold(name, [it for it in recorded.said(data) if it.startswith("no transfer")], [last] if last else [])
    return data


def of_packets(name, rows, told):
    """A recording of transactions, if the second reading finds in it what they have."""
    data, found = of_transactions(rows)
    recording = recorded.Recording(data)
    hold(name, packets_of(recording), found)
    hold(name, list(transfers_of(recording, with_time=True)), told)
    return data


def hold_ends(name, data):
    """What is whole of each prefix of a file, and how many bytes there are of the rest."""
    start = whole = 0
    for end, count in ENDS[name]:
        for length in range(start, end):
            recording = recorded.Recording(data[:length])
            hold(f"{name}, {length} bytes", (recording.count, recording.cut if length > start else start), (whole, start))
        start, whole = end, count
    hold(name, len(data), start)


def file_of(data):
    """The file of device 5, or what lacks of it."""
    made = recorded.file_of(recorded.Recording(data).over, (1, 5))
    return made if isinstance(made, str) else made.hex()


def main():
    files = {f"{name}.text": of_rows(name, of()) for name, of in TEXTS.items()}
    files |= {f"{name}.pcapng": of_packets(name, *of()) for name, of in TRANSACTIONS.items()}
    files |= {name: of_frames(name, *of()) for name, of in FRAMES.items()}
    files["document.text"] = DOCUMENT
    for name in ENDS:
        hold_ends(name, files.get(name) or captures.FILES[name][0])
    readings, device = files["whole-readings.text"], files["changing-device.text"].splitlines(keepends=True)
    hold("whole-readings", [file_of(readings), [it for it in recorded.said(readings) if it.startswith("device 1.6")]], [OF_READINGS, [OF_OTHER]])
    hold("changing-device", [file_of(b"".join(device[:count])) for count in range(len(device) + 1)], OF_LINES)
    for name, data in files.items():
        with open(os.path.join(FOLDER, name), "wb") as out:
            out.write(data)


if __name__ == "__main__":
    main()
