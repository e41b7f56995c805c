"""What `usbdesc capture` has to say of recordings, read once more from the formats' documents. It shares no code with the crates.

    recorded FILE..    writes FILE's lines to FILE.said, and with bytes to FILE.bytes
"""

import re
import struct
import sys

from readings import device_states, packets
from readings.enumerating import named, word

# The kernel's document "USB Error codes", and USBD_STATUS (Windows, usb.h).
ERRNO = {
    1: "EPERM: nothing may be sent to the device now", 2: "ENOENT: the host took it back before its end",
    11: "EAGAIN: the host can't send it now", 12: "ENOMEM: the host was out of memory",
    18: "EXDEV: a part of an isochronous transfer failed", 19: "ENODEV: the device is gone",
    22: "EINVAL: no such transfer can be made", 28: "ENOSPC: the bus has no bandwidth left",
    32: "EPIPE: the endpoint is halted", 62: "ETIME: no answer within the time of a packet",
    63: "ENOSR: the host's data came too late for the bus", 70: "ECOMM: the bus brought data faster than the host stored them",
    71: "EPROTO: no whole answer; look at wire, clock, the first packet", 75: "EOVERFLOW: more bytes came than were asked for",
    84: "EILSEQ: a wrong CRC, or no answer; look at wire and clock", 90: "EMSGSIZE: a packet is too long for the endpoint",
    104: "ECONNRESET: the host took it back before its end", 108: "ESHUTDOWN: the device or the host controller is gone",
    110: "ETIMEDOUT: no end within the time that the host gave", 113: "EHOSTUNREACH: the device is suspended",
    121: "EREMOTEIO: fewer bytes came than the driver takes",
}
USBD = {
    0xC0000001: "CRC: a packet with a wrong CRC", 0xC0000002: "BTSTUFF: a packet with a wrong stuffed bit",
    0xC0000003: "DATA_TOGGLE_MISMATCH: DATA0 in the place of DATA1, or the reverse", 0xC0000004: "STALL_PID: the endpoint is halted",
    0xC0000005: "DEV_NOT_RESPONDING: no answer; look at wire, clock, power", 0xC0000006: "PID_CHECK_FAILURE: a packet whose PID isn't one",
    0xC0000007: "UNEXPECTED_PID: a packet that has no place here", 0xC0000008: "DATA_OVERRUN: more bytes came than were asked for",
    0xC0000009: "DATA_UNDERRUN: fewer bytes came than were asked for",
    0xC000000C: "BUFFER_OVERRUN: data came faster than the host stored them",
    0xC000000D: "BUFFER_UNDERRUN: the host's data came too late for the bus", 0xC0000010: "FIFO: the host's data came too late for the bus",
    0xC0000011: "XACT_ERROR: no whole answer; look at wire, clock, the first packet",
    0xC0000012: "BABBLE_DETECTED: more bytes came than were asked for",
    0xC0000013: "DATA_BUFFER_ERROR: the host's memory was too slow for the bus", 0xC0000030: "ENDPOINT_HALTED: the endpoint is halted",
    0xC0006000: "TIMEOUT: no end within the time that the host gave", 0xC0007000: "DEVICE_GONE: the device is gone",
    0xC0009000: "HUB_INTERNAL_ERROR: the hub failed", 0xC0010000: "CANCELED: the host took it back before its end",
    0x80000200: "INVALID_URB_FUNCTION: no such transfer can be made", 0x80000300: "INVALID_PARAMETER: no such transfer can be made",
    0x80000700: "NO_BANDWIDTH: the bus has no bandwidth left", 0x80000800: "INTERNAL_HC_ERROR: the host controller failed",
    0x80000900: "ERROR_SHORT_TRANSFER: fewer bytes came than the driver takes",
}
REQUESTS = {0: "GET_STATUS", 1: "CLEAR_FEATURE", 3: "SET_FEATURE", 5: "SET_ADDRESS", 6: "GET_DESCRIPTOR", 7: "SET_DESCRIPTOR",
            8: "GET_CONFIGURATION", 9: "SET_CONFIGURATION", 10: "GET_INTERFACE", 11: "SET_INTERFACE", 12: "SYNCH_FRAME"}
KINDS = {1: "device", 2: "configuration", 3: "string", 6: "qualifier", 7: "other-speed", 15: "BOS"}
LINKS = {189: "usbmon", 220: "usbmon", 249: "USBPcap", 288: "packets of the bus", 293: "packets of the bus, low speed",
         294: "packets of the bus, full speed", 295: "packets of the bus, high speed"}
BUS = (288, 293, 294, 295)
CONTROL = 2
# What USB 2.0 forbids, in the order in which it is told, with its sections.
FINDINGS = {
    "T1": "more bytes than wLength (8.5.3, 9.3.5)", "C1": "a descriptor of another type than was asked for (9.4.3)",
    "C2": "neither all bytes of the descriptor nor wLength bytes (9.4.3)", "C3": "the same descriptor had other bytes before (9.4.3, 9.6)",
    "C4": "the device has it: it gave bytes of it (9.4.3)", "C5": "the device has it: all devices do (9.4.3)",
    "C6": "the device has it: bNumConfigurations counts it (9.6.1, 9.6.2)", "C7": "the device has it: a descriptor names it (9.6.7)",
    "C8": "the device has an address, so it answers (9.4.5)", "C9": "the device has no address yet, so it takes one (9.4.6)",
    "C10": "the device takes 0 and the value of each configuration (9.4.7)", "C11": "no configuration of the device has this value (9.2.7, 9.4.7)",
    "C12": "the device answers 0 or the value of a configuration (9.4.2)", "C13": "bNumConfigurations doesn't count it (9.4.3, 9.6.1)",
    "C14": "the device answers the value that was set (9.4.2)", "C15": "the device answers by its descriptors and what was set (9.4.5)",
    "C16": "the device takes a feature that it has and no other (9.4.1, 9.4.9)", "C17": "the device answers by the settings that it has (9.4.4, 9.4.10)",
}
# In packets: by their damage, and of a transaction with endpoint zero.
DAMAGES = {
    "Empty": "a packet without a byte (8.3.1)", "Pid": "wrong check bits of a PID (8.3.1)", "Reserved": "a reserved PID (8.3.1)",
    "Length": "a length that its PID doesn't have (8.4)", "Crc5": "a wrong 5-bit CRC (8.3.5.1)", "Crc16": "a wrong 16-bit CRC (8.3.5.2)",
}
TRANSACTIONS = {
    "NoHandshake": "no handshake (8.5)", "NoRequest": "SETUP without eight bytes of DATA0 (8.5.3)", "SetupRefused": "NAK, STALL or NYET of SETUP (8.4.6.4)",
    "Toggle": "a wrong data toggle (8.5.3, 8.6)", "Long": "a packet over bMaxPacketSize0 (5.5.3, 9.6.1)", "NoShortPacket": "no short packet at the end (5.5.3, 8.5.3.2)",
    "StatusDirection": "a status stage of the wrong way (8.5.3)",
}


class Broken(Exception):
    """The place where bytes are no capture."""


class Cut(Exception):
    """The place of a part that isn't whole."""


def counted(number, noun):
    return f"{number} {noun}{'' if number == 1 else 's'}"


def frames_of_pcap(data):
    """Time in nanoseconds, link type, byte order, cut or not, and bytes of each record."""
    order = "<" if data[:4] in (b"\xd4\xc3\xb2\xa1", b"\x4d\x3c\xb2\xa1") else ">"
    unit = 1 if b"\x3c" in data[1:3] and data[:4] in (b"\x4d\x3c\xb2\xa1", b"\xa1\xb2\x3c\x4d") else 1000
    if len(data) < 24:
        raise Cut(0)
    link, at = struct.unpack_from(order + "I", data, 20)[0] & 0xFFFF, 24
    while at < len(data):
        if len(data) - at < 16:
            raise Cut(at)
        seconds, fraction, captured, original = struct.unpack_from(order + "IIII", data, at)
        if len(data) - at - 16 < captured:
            raise Cut(at)
        yield seconds * 10**9 + fraction * unit, link, order, captured < original, data[at + 16 : at + 16 + captured]
        at += 16 + captured


def options_of(order, data):
    """The clock of an interface: its options if_tsresol (9) and if_tsoffset (14)."""
    resolution, offset, at = 6, 0, 0
    while len(data) - at >= 4:
        code, length = struct.unpack_from(order + "HH", data, at)
        if code == 0:
            break
        value = data[at + 4 : at + 4 + length]
        if code == 9:
            resolution = value[0]
        if code == 14:
            offset = struct.unpack(order + "q", value)[0]
        at += 4 + (length + 3) // 4 * 4
    return resolution, offset


def time_by(clock, units):
    resolution, offset = clock
    second = 10**resolution if resolution < 128 else 2 ** (resolution - 128)
    time = units * 10**9 // second + offset * 10**9
    return time if 0 <= time < 2**64 else None


def frames_of_pcapng(data):
    order, interfaces, at = "<", [], 0
    while at < len(data):
        if len(data) - at < 12:
            raise Cut(at)
        if data[at : at + 4] == b"\x0a\x0d\x0d\x0a":
            magic = data[at + 8 : at + 12]
            if magic not in (b"\x4d\x3c\x2b\x1a", b"\x1a\x2b\x3c\x4d"):
                raise Broken(at)
            order, interfaces = ("<" if magic == b"\x4d\x3c\x2b\x1a" else ">"), []
        kind, length = struct.unpack_from(order + "II", data, at)
        if len(data) - at < length:
            raise Cut(at)
        body = data[at + 8 : at + length - 4]
        if kind == 1:
            link, _, most = struct.unpack_from(order + "HHI", body)
            interfaces.append((link, most, options_of(order, body[8:])))
        elif kind in (2, 6):
            number = struct.unpack_from(order + ("I" if kind == 6 else "H"), body)[0]
            high, low, captured, original = struct.unpack_from(order + "IIII", body, 4)
            link, _, clock = interfaces[number]
            yield time_by(clock, high << 32 | low), link, order, captured < original, body[20 : 20 + captured]
        elif kind == 3:
            original, (link, most, _) = struct.unpack_from(order + "I", body)[0], interfaces[0]
            captured = min(original, most) if most else original
            yield None, link, order, captured < original, body[4 : 4 + captured]
        at += length


def frames_of_text(data):
    """The kernel's document "usbmon", the form of the files 1u: the frame of link type 220 that says the same as a line."""
    at = 0
    for line in data.split(b"\n")[:-1]:
        words = line.decode().split(" ")
        tag, time, event, address = words[:4]
        kind, bus, device, endpoint = address.split(":")
        rest = words[4:]
        flag, setup, status = "-", bytes(8), 0
        if re.match(r"[-0-9]", rest[0]):
            status, rest = int(rest[0].split(":")[0]), rest[1:]
        else:
            flag = "\0" if rest[0] == "s" else rest[0]
            if rest[0] == "s":
                kinds, *others = (int(word, 16) for word in rest[1:6])
                setup = struct.pack("<BBHHH", kinds, *others)
            rest = rest[6:]
        transfer = "ZICB".index(kind[0])
        length, got, data_tag = (int(rest[0]), b"", "L") if transfer else (0, b"", "L")
        if transfer and rest[1:] and rest[1] == "=":
            data_tag, got = "\0", bytes.fromhex("".join(rest[2:]))
        elif transfer and rest[1:] and rest[1]:
            data_tag = rest[1]
        header = struct.pack("<QcBBBHccqiiII8s16x", int(tag, 16), event.encode(), transfer, (0x80 if kind[1] == "i" else 0) + int(endpoint), int(device), int(bus),
                             flag.encode(), data_tag.encode(), int(time) // 10**6, int(time) % 10**6, status, length, len(got), setup)
        yield int(time) * 1000, 220, "<", data_tag == "\0" and len(got) < length, header + got
        at += len(line) + 1
    if at < len(data):
        raise Cut(at)


def frames_of_front(data):
    """The first four bytes say what a file is."""
    if data:
        raise Cut(0)
    yield from ()


PCAP = (b"\xa1\xb2\xc3\xd4", b"\xd4\xc3\xb2\xa1", b"\xa1\xb2\x3c\x4d", b"\x4d\x3c\xb2\xa1")
PCAPNG = b"\x0a\x0d\x0d\x0a"


def frames_of(data):
    if len(data) < 4:
        return None, frames_of_front(data)
    if data[:4] == PCAPNG:
        return "pcapng", frames_of_pcapng(data)
    if data[:4] in PCAP:
        return "pcap", frames_of_pcap(data)
    return "text", frames_of_text(data)


# A line of usbmon's text: time, type, bus, device, endpoint, a status or a letter and the five words of a setup packet, and the rest.
LINE = re.compile(rb"[0-9a-f]{4,16} (\d+) [SCE] ([ZICB])[io]:(\d+):(\d+):(\d+) (?:-?\d\S*|(?:s|[^-\ds ])((?: \S+){5})) ([^\n]*)\n")


def begins(data):
    """Whether bytes begin as a recording does: with the first four of a format, or a line of usbmon's text."""
    line = LINE.match(data[:512])
    return data[:4] in (*PCAP, PCAPNG) or (line is not None and fits(*line.groups()))


def fits(time, kind, bus, device, endpoint, setup, rest):
    """Whether the parts of a line have room in struct usbmon_packet, and its data are there."""
    words, most = (setup or b"").split(), (2**8, 2**8, 2**16, 2**16, 2**16)
    if int(time) >= 2**32 or int(bus) >= 2**16 or int(device) >= 2**8 or int(endpoint) >= 2**4:
        return False
    if not all(re.fullmatch(b"[0-9a-f]+", it) and int(it, 16) < room for it, room in zip(words, most)):
        return False
    data = re.match(rb"(\d+)(?: (=) ?(.*)| \S|$)", rest)
    if kind == b"Z" or data is None or not data[2]:
        return kind == b"Z" or data is not None
    return all(re.match(b"[0-9a-f]{2}", data[3][9 * (at // 4) + 2 * (at % 4) :]) for at in range(min(int(data[1]), 32)))


def event_of(link, order, data):
    """What a frame says of a transfer: its id, letter, pipe, setup packet, status, length, data; None where it says nothing."""
    if link in (189, 220):
        header = 48 if link == 189 else 64
        if len(data) < header or data[8:9] not in b"SCE" or data[9] > 3:
            return None
        number, letter, transfer, endpoint, device, bus, flag, status, length, captured = struct.unpack_from(order + "QcBBBHc x 8x 4x I I I".replace(" ", ""), data)
        setup = data[40:48] if flag == b"\0" else None
        return number, letter.decode(), letter != b"S", transfer, bus, device, endpoint, setup, status, length, data[header : header + captured], False
    if link == 249:
        if len(data) < 27:
            return None
        header, number, status, _, info, bus, device, endpoint, transfer, length = struct.unpack_from("<HQIHBHHBBI", data)
        if header < 27 or len(data) < header or transfer > 3:
            return None
        stage = data[27] if transfer == CONTROL and header > 27 else None
        got, back = data[header : header + length], info & 1
        setup = got[:8].ljust(8, b"\0") if stage == 0 else None
        if stage == 0:
            got, length = got[8:], max(length - 8, 0)
        return number, "C" if back else "S", bool(back and stage != 1), transfer, bus, device, endpoint, setup, status, length, got, True
    return None


def ending_of(letter, windows, status):
    if letter == "E":
        return "refused", status
    if status == 0:
        return "done", 0
    if status == (0xC0000004 if windows else 0xFFFFFFE0):
        return "stall", 0
    return "failed", status


class Bus:
    """The transactions with endpoint zero of a bus (USB 2.0, 8.5), and the control transfers whose stages they are (8.5.3)."""

    def __init__(self):
        self.current, self.is_split, self.open, self.sizes = None, False, {}, {}

    def take(self, place, name, fields):
        """The transaction that is over with a packet, or with a damaged or cut one, which is named damage; or None."""
        current = self.current
        if name == "Pre":
            return None
        if name in packets.DATA and current and current["token"] != "Ping" and current["data"] is None:
            current["data"] = name, fields[0]
            return None
        self.current = None
        if name in ("Out", "In", "Setup", "Ping") and fields[1] == 0 and not self.is_split:
            self.current = {"token": name, "address": fields[0], "place": place, "data": None}
        if name not in packets.DATA:
            self.is_split = name == "Split"
        return current and {**current, "handshake": name if name in ("Ack", "Nak", "Stall", "Nyet") else None}

    def end_of(self, transaction):
        """The transfer that is over with a transaction."""
        address, token, data, shake = (transaction[it] for it in ("address", "token", "data", "handshake"))
        going, time = self.open.pop(address, None), transaction["place"][1]
        if is_request(transaction):
            self.open[address] = {"device": (0, address), "time": time, "setup": data[1], "data": b"", "length": 0, "cut": False,
                                  "ending": ("unseen", 0), "toggle": "Data1", "unheard": False, "last": 0}
            return going
        if going is None:
            return None
        if shake == "Stall":
            going["ending"] = "stall", 0
        elif is_status(going, transaction):
            going["ending"] = "done", 0
        if going["ending"][0] != "unseen":
            # Where the end has no time, that of the setup packet is left.
            going["time"] = going["time"] if time is None else time
            return going
        if is_next(going, transaction):
            going["toggle"] = {"Data0": "Data1", "Data1": "Data0"}[going["toggle"]]
            going["length"] += len(data[1])
            going["last"] = len(data[1])
            if len(going["data"]) + len(data[1]) <= 65_535:
                going["data"] += data[1]
            else:
                going["cut"] = True
        if data:
            going["unheard"] = shake != "Ack"
        self.open[address] = going
        return None

    def learn(self, transfer):
        """bMaxPacketSize0 of the device of an address. SET_ADDRESS brings another device there."""
        setup = transfer["setup"]
        if is_reading(transfer) and setup[3] == 1:
            self.sizes[transfer["device"][1]] = transfer["data"][7]
        elif setup[:2] == b"\0\5" and transfer["ending"][0] == "done":
            self.sizes.pop(setup[2], None)

    def found_in(self, transaction):
        """What is wrong in a transaction, by name, before it is taken."""
        address, token, data, shake = (transaction[it] for it in ("address", "token", "data", "handshake"))
        going = None if is_request(transaction) else self.open.get(address)
        size = self.sizes.get(address, 0) if address else 0
        tests = {
            "NoHandshake": shake is None,
            "NoRequest": token == "Setup" and not is_request(transaction),
            "SetupRefused": token == "Setup" and shake in ("Nak", "Stall", "Nyet"),
            "Toggle": going and has_wrong_toggle(going, token, data),
            "Long": token in ("In", "Out") and data and 0 < size < len(data[1]),
            "NoShortPacket": going and reads(going) and going["length"] < word(going["setup"], 6) and 0 < size <= going["last"]
            and shake != "Stall" and is_status(going, transaction),
            "StatusDirection": going and is_complete(going, size) and is_next(going, transaction),
        }
        return [name for name in TRANSACTIONS if tests[name]]


def is_request(transaction):
    """Whether a transaction begins a transfer: SETUP with eight bytes of DATA0 (8.5.3)."""
    data = transaction["data"]
    return bool(transaction["token"] == "Setup" and data and data[0] == "Data0" and len(data[1]) == 8)


def reads(transfer):
    """Whether the device sends the data stage (9.3.1)."""
    return transfer["setup"][0] >= 128 and any(transfer["setup"][6:8])


def is_status(transfer, transaction):
    """Whether a transaction is the status stage: the other way than the data, with DATA1, taken by whom it is for (8.5.3)."""
    token, data, shake = (transaction[it] for it in ("token", "data", "handshake"))
    if not data or data[0] != "Data1":
        return False
    return token == "Out" and shake in ("Ack", "Nyet") if reads(transfer) else token == "In"


def is_next(transfer, transaction):
    """Whether a transaction brings the next packet of the data stage, which a device has to take with ACK or NYET (8.5.3, 8.6)."""
    token, data, shake = (transaction[it] for it in ("token", "data", "handshake"))
    if not data or data[0] != transfer["toggle"] or shake == "Stall":
        return False
    return token == "In" if reads(transfer) else token == "Out" and shake in ("Ack", "Nyet")


def is_complete(transfer, size):
    """Whether the data stage is over: with wLength bytes, or after a packet from the device that is shorter than this size (5.5.3)."""
    return transfer["length"] >= word(transfer["setup"], 6) or (reads(transfer) and transfer["length"] > 0 and transfer["last"] < size)


def has_wrong_toggle(transfer, token, data):
    """Whether a data packet is neither the next one nor one from the device that may come again (8.5.3, 8.6.4)."""
    if not data or token not in ("In", "Out"):
        return False
    if token == ("In" if reads(transfer) else "Out"):
        return data[0] != transfer["toggle"] and not (token == "In" and transfer["unheard"])
    return data[0] != "Data1"


class Conversations:
    """What devices said of their descriptors since they may have been reset, the states of those whose SET_ADDRESS and each change since
    were seen, and what USB 2.0 forbids in their next transfers."""

    def __init__(self):
        self.said, self.states = {}, {}

    def take(self, transfer):
        """What is found in a transfer."""
        (bus, device), setup, data = transfer["device"], transfer["setup"], transfer["data"]
        ending, (value, index) = transfer["ending"][0], struct.unpack_from("<HH", setup, 2)
        found = [name for name, holds in zip(FINDINGS, self.tests(transfer, ending, value, index)) if holds]
        resets = device == 0 or (setup[:2] == b"\x23\3" and setup[2:4] == b"\4\0")
        if self.states.get(transfer["device"]) and device_states.changes_state(setup):
            self.states[transfer["device"]] = device_states.state_after(self.configurations(bus, device), self.states[transfer["device"]], transfer)
        for kept in (self.said, self.states):
            for key in [key for key in kept if key[0] == bus and (resets or (key[1] == device and setup[:2] in (b"\0\5", b"\0\7")))]:
                del kept[key]
        if ending == "done" and device == 0 and setup[:2] == b"\0\5" and 0 < value < 0x80 and not any(setup[4:]):
            self.states[bus, value] = device_states.State()
        if gives(transfer) and not resets:
            key = bus, device, value, index
            self.said[key] = data + self.said.get(key, b"")[len(data):]
        return found

    def configuration_parts(self, bus, device):
        """What a device said of each configuration that its device descriptor counts."""
        count = self.said.get((bus, device, 0x100, 0), b"").ljust(18, b"\0")[17]
        return [self.said.get((bus, device, 0x200 + it, 0), b"") for it in range(count)]

    def configurations(self, bus, device):
        return device_states.configurations_of(self.configuration_parts(bus, device))

    def is_answered_otherwise(self, transfer):
        """Whether the device of a transfer, in its state and with its configurations, has another answer to the request; not where one of
        these isn't known."""
        state, configurations = self.states.get(transfer["device"]), self.configurations(*transfer["device"])
        if state is None or configurations is None:
            return False
        return device_states.Asked(configurations, state, transfer["setup"]).is_answered_otherwise(transfer)

    def tests(self, transfer, ending, value, index):
        """Whether each finding holds."""
        (bus, device), setup, data = transfer["device"], transfer["setup"], transfer["data"]
        kind, number, asked = value >> 8, value & 255, int.from_bytes(setup[6:8], "little")

        def of(other):
            return self.said.get((bus, device, other, 0), b"").ljust(18, b"\0")

        before, reads = self.said.get((bus, device, value, index), b""), setup[:2] == b"\x80\6"
        brings = reads and ending == "done" and not transfer["cut"] and kind in (1, 2, 3, 6, 7) and len(data) > 1
        refuses = reads and ending == "stall"
        yield ending in ("done", "stall", "failed") and transfer["length"] > asked
        yield brings and data[1] != kind
        yield (brings and data[1] == kind and (kind not in (2, 7) or len(data) >= 4)
               and transfer["length"] != min(asked, word(data, 2) if kind in (2, 7) else data[0])
               and not (kind == 1 and transfer["length"] == (data + bytes(8))[7]))
        yield gives(transfer) and any(one != other for one, other in zip(data, before))
        yield refuses and before != b""
        unsaid = refuses and before == b""
        yield unsaid and value in (0x100, 0x200) and index == 0
        yield unsaid and index == 0 and (kind == 2 and 0 < number < of(0x100)[17] or kind == 7 and number < of(0x600)[8])
        yield unsaid and (index == 0 and any(of(0x100)[14:17]) if value == 0x300 else kind == 3 and self.is_named(bus, device, number, index))
        has_no_status = ending == "stall" and setup == b"\x80\0\0\0\0\0\2\0" and device > 0
        yield has_no_status
        yield ending == "stall" and device == 0 and setup[:2] == b"\0\5" and value < 0x80 and not any(setup[4:])
        # The value of each configuration that is counted, or None where it isn't known.
        parts = self.configuration_parts(bus, device)
        values = [part[5] if len(part) >= 6 else None for part in parts]
        others = set(range(1, 0x100)) - set(values) if values and None not in values else ()
        sets = device > 0 and setup[:2] == b"\0\x09" and setup[3:] == bytes(5)
        yield sets and ending == "stall" and value in (0, *values)
        yield sets and ending == "done" and value in others
        tells = ending == "done" and not transfer["cut"] and len(data) == 1 and data[0] in others
        has_no_value = device > 0 and setup == b"\x80\x08\0\0\0\0\1\0" and (ending == "stall" or tells)
        yield has_no_value
        yield gives(transfer) and kind == 2 and index == 0 and 0 < of(0x100)[17] <= number
        group = device_states.group_of(setup)
        is_other = group is not None and not has_no_status and not has_no_value and self.is_answered_otherwise(transfer)
        yield from (is_other and group == it for it in ("configuration", "status", "feature", "setting"))

    def is_named(self, bus, device, number, language):
        """Whether a descriptor names this string (9.6.7), in a language of the list."""
        def of(value):
            return self.said.get((bus, device, value, 0), b"")

        languages, descriptor = of(0x300), of(0x100).ljust(18, b"\0")
        if language not in [word(languages, at) for at in range(2, len(languages) - 1, 2)]:
            return False
        return number in descriptor[14:17] or any(number in indices_in(of(0x200 + configuration)) for configuration in range(descriptor[17]))


def indices_in(data):
    """iConfiguration, iInterface and iFunction of the descriptors of a set, and 0 of others."""
    while data and data[0] > 1:
        one = data[: data[0]].ljust(9, b"\0")
        yield {2: one[6], 7: one[6], 4: one[8], 11: one[7]}.get(one[1], 0)
        data = data[data[0] :]


def gives(transfer):
    """Whether bytes of the descriptor came that was asked for."""
    setup, data = transfer["setup"], transfer["data"]
    return setup[:2] == b"\x80\6" and transfer["ending"][0] == "done" and not transfer["cut"] and len(data) > 1 and data[1] == setup[3]


class Recording:
    """The control transfers of a recording, in the order in which they ended, each with what is found in it, what is wrong in
    packets, each with its place, and what is counted."""

    def __init__(self, data):
        self.form, frames = frames_of(data)
        self.data, self.times, self.link, self.told, self.count = data, [], None, 0, 0
        self.over, self.open, self.cut, self.order = [], {}, None, []
        self.bus, self.conversations = Bus(), Conversations()
        try:
            for time, link, order, cut, got in frames:
                self.take(time, link, event_of(link, order, got), cut, got)
        except Cut as cut:
            self.cut = cut.args[0]

    def take(self, time, link, event, cut, got):
        self.count += 1
        self.times.append(time)
        self.link = link if self.link is None else self.link
        if link in BUS:
            self.take_packet((self.count, time), cut, got)
        if event is None:
            return
        self.told += 1
        number, letter, ends, transfer, bus, device, endpoint, setup, status, length, got, windows = event
        if transfer != CONTROL or endpoint & 0x7F:
            return
        earlier = self.open.pop(number, None)
        if setup is not None:
            self.end(earlier)
            self.open[number] = {"device": (bus, device), "time": time, "setup": setup, "data": got, "length": length, "cut": cut, "ending": ("unseen", 0)}
        elif earlier:
            earlier["data"] += got
            earlier["length"] = min(earlier["length"] + length, 0xFFFFFFFF) if windows else length
            earlier["cut"] |= cut
            if ends:
                earlier["ending"] = ending_of(letter, windows, status)
                # Where the end has no time, that of the setup packet is left.
                earlier["time"] = earlier["time"] if time is None else time
                self.end(earlier)
            else:
                self.open[number] = earlier

    def take_packet(self, place, cut, got):
        """Takes a packet: the transfer that is over comes first, then what is wrong in the transaction, and in the packet."""
        name, fields = ("damage", []) if cut else packets.read(got)
        self.told += name != "damage"
        over = self.bus.take(place, name, fields)
        device = over and (0, over["address"])
        if over:
            found = self.bus.found_in(over)
            transfer = self.bus.end_of(over)
            if transfer:
                self.bus.learn(transfer)
            self.end(transfer)
            self.order += [{"place": over["place"], "device": device, "words": TRANSACTIONS[one]} for one in found]
        if name == "damage" and not cut:
            self.order.append({"place": place, "device": device, "words": DAMAGES[packets.damage_of(got)]})

    def end(self, transfer):
        if transfer:
            transfer["found"] = self.conversations.take(transfer)
            self.over.append(transfer)
            self.order.append(transfer)

    def findings(self):
        """How many findings each device has, in the order in which they are first seen; of None are those of no device that is known."""
        counts = {}
        for one in self.order:
            counts[one["device"]] = counts.get(one["device"], 0) + (1 if "words" in one else len(one["found"]))
        return counts


def request_words(setup):
    kind, request, value, index, length = struct.unpack("<BBHHH", setup)
    if kind >> 5 & 3 == 0:
        words = REQUESTS.get(request, "reserved request")
        if request in (6, 7):
            words += f" {KINDS.get(value >> 8, f'0x{value >> 8:02x}')} {value & 255}"
            words += f" 0x{index:04x}" if value >> 8 == 3 and value & 255 else ""
        elif request in (1, 3, 5, 9, 11):
            words += f" {value}"
    else:
        words = f"{('', 'class', 'vendor', 'reserved')[kind >> 5 & 3]} request 0x{request:02x}"
    words += {1: f" of interface {index}", 2: f" of endpoint 0x{index & 255:02x}", 3: f" of other {index}"}.get(kind & 31, "")
    return words + (f", {counted(length, 'byte')}" if length else "")


def code_words(status):
    return str(status - 2**32) if status > 2**32 - 4096 else f"0x{status:08x}"


def meaning(status):
    table, number = (ERRNO, 2**32 - status) if status > 2**32 - 4096 else (USBD, status)
    return table.get(number, "a status without a name here")


def seconds(nanoseconds):
    return f"{nanoseconds // 10**9}.{nanoseconds // 1000 % 10**6:06}"


def column(words, width):
    return words + " " * max(width - len(words), 1)


def time_words(time, origin):
    if time is None:
        return "-"
    return seconds(time - origin) if time >= origin else "-" + seconds(origin - time)


def lines_of(transfer, origin, with_data):
    kind, status = transfer["ending"]
    reply = {"unseen": "no end", "done": str(transfer["length"]) if any(transfer["setup"][6:8]) else "done", "stall": "STALL",
             "failed": f"error {code_words(status)}", "refused": f"refused {code_words(status)}"}[kind]
    yield (column(time_words(transfer["time"], origin), 11) + column("{}.{}".format(*transfer["device"]), 6) + column(request_words(transfer["setup"]), 44)
           + reply + (", cut" if transfer["cut"] else ""))
    if kind in ("failed", "refused"):
        yield " " * 11 + "? " + meaning(status)
    if with_data:
        yield " " * 11 + "setup " + transfer["setup"].hex()
        for at in range(0, len(transfer["data"]), 32):
            yield " " * 11 + transfer["data"][at : at + 32].hex()
    for finding in transfer.get("found", []):
        yield " " * 11 + "! " + FINDINGS[finding]


def finding_line(one, origin):
    """The line of what is wrong in packets."""
    number, time = one["place"]
    device = "{}.{}".format(*one["device"]) if one["device"] else "-"
    return column(time_words(time, origin), 11) + column(device, 6) + f"! {one['words']}, frame {number}"


def is_reading(transfer):
    setup, data = transfer["setup"], transfer["data"]
    if setup[:2] != b"\x80\x06" or transfer["ending"][0] != "done" or transfer["cut"] or len(data) < 2 or data[1] != setup[3]:
        return False
    if setup[3] not in (2, 7):
        return len(data) == data[0]
    # Without all of wTotalLength nothing says that it is whole.
    return len(data) > 3 and len(data) == struct.unpack_from("<H", data, 2)[0]


def forget(kept, device):
    for key in [key for key in kept if key[0] == device]:
        del kept[key]


def readings_of(over):
    """The last whole reading of each descriptor of the devices that have their addresses at the end. SET_ADDRESS makes a
    device the owner of its address (9.4.6); another device descriptor than before is one of another device."""
    kept = {}
    for transfer in over:
        (bus, _), setup, data = transfer["device"], transfer["setup"], transfer["data"]
        if setup[:2] == b"\0\5":
            forget(kept, (bus, struct.unpack("<H", setup[2:4])[0]))
        if is_reading(transfer):
            key = transfer["device"], setup[2:6]
            if setup[2:4] == b"\0\1" and kept.get(key, data) != data:
                forget(kept, transfer["device"])
            kept.pop(key, None)
            kept[key] = data
    return kept


def device_line(device, kept, findings):
    """What came of a device: its device descriptor, that of its configurations which was read longest ago, and its findings."""
    of = {kind: next((data for (owner, words), data in kept.items() if owner == device and words[1] == kind), None) for kind in (1, 2)}
    words = "no device descriptor came" if of[1] is None else "{:04x}:{:04x}".format(*struct.unpack_from("<HH", of[1], 8))
    words += ", no configuration came" if of[2] is None else f", configuration of {counted(len(of[2]), 'byte')}"
    words += f", {counted(findings, 'finding')}" if findings else ""
    return f"device {column('{}.{}'.format(*device), 6)}{words}"


def file_of(over, device):
    """The descriptor file of a device, or the dump where a part of the rest didn't come; else what lacks, in words."""
    kept = {words: data for (owner, words), data in readings_of(over).items() if owner == device}

    def part(kind, index=0, language=0):
        return kept.get(struct.pack("<BBH", index, kind, language))

    def sets(kind, count):
        return [part(kind, index) for index in range(count)]

    descriptor = part(1)
    if descriptor is None or len(descriptor) != 18:
        return "device descriptor"
    main = sets(2, descriptor[17])
    if None in main:
        return f"configuration {main.index(None)}"
    dump, qualifier = b"".join([descriptor, *main]), part(6)
    other = [] if qualifier is None else [qualifier, *sets(7, (qualifier + bytes(9))[8])]
    if None in other:
        return dump
    strings, names = [], named(descriptor, main + other[1:])
    if names:
        languages = part(3)
        if languages is None:
            return dump
        strings = [languages, *(part(3, index, word(languages, at)) for at in range(2, len(languages) - 1, 2) for index in names)]
    return dump if None in strings else b"".join([dump, *other, *strings])


def status_of(recording, device=None):
    """1 where something is found, or of a device, and else 0."""
    return int(any(count for one, count in recording.findings().items() if device in (None, one)))


def is_within(time, origin, times):
    """Whether a time is within these nanoseconds. One that isn't known is."""
    least, greatest = times
    after = None if time is None else max(time - origin, 0)
    return after is None or (least or 0) <= after <= (2**64 if greatest is None else greatest)


def said(data, with_data=True, brief=False, device=None, times=(None, None)):
    """All lines, or those of a device, of these times, or without transfers."""
    recording = Recording(data)
    origin = (recording.times[0] or 0) if recording.times else 0
    if recording.count:
        yield f"capture: {recording.form}, {LINKS.get(recording.link, f'link type {recording.link}, no USB')}"
    for one in [*recording.order, *recording.open.values(), *recording.bus.open.values()]:
        is_packet = "words" in one
        time = one["place"][1] if is_packet else one["time"]
        if not brief and device in (None, one["device"]) and is_within(time, origin, times):
            yield from [finding_line(one, origin)] if is_packet else lines_of(one, origin, with_data)
    last = recording.times[-1] if recording.times else None
    yield counted(recording.count, "frame") + ("" if last is None else f", {seconds(max(last - origin, 0))} seconds")
    if recording.count > recording.told:
        yield f"no transfer: {counted(recording.count - recording.told, 'frame')}"
    replaced = sum(one["ending"][0] == "unseen" for one in recording.over)
    if replaced:
        yield f"another request came before the end: {counted(replaced, 'transfer')}"
    if recording.cut is not None:
        yield f"cut: {counted(len(data) - recording.cut, 'byte')} of what begins at {recording.cut}"
    kept = readings_of(recording.over)
    for one, count in recording.findings().items():
        if device in (None, one):
            yield f"no device    {counted(count, 'finding')}" if one is None else device_line(one, kept, count)


if __name__ == "__main__":
    for name in sys.argv[1:]:
        with open(name, "rb") as read:
            data = read.read()
        for suffix, with_data in (("said", False), ("bytes", True)):
            with open(f"{name}.{suffix}", "w", encoding="ascii") as out:
                out.writelines(f"{line}\n" for line in said(data, with_data))
