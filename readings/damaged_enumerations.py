"""Writes enumerate/damages.txt: rows of enumerations over a bus of bytes on which bits change.

What must come is worked out by the second readings of an enumeration (enumerating.py), of packets (packets.py), of a listing
(descriptors.py) and of a log (long_enumerations.py). The bus and the lines of packets are read here from
docs/control-transfers.md once more: each packet is written, its bits change, and whoever receives it reads it or ignores it.
Where each packet is changed slightly, the bus that loses packets must come to the same, or nothing is written. It shares no code with the crates. The gate compares what it writes
(.ci/readings).
"""

import itertools
import os
import re

from readings import ROW_DATA, descriptors, packets
from readings.long_enumerations import Log, bytes_of, expand, names_of
from readings.enumerating import Device, File, Host, enumerate_device, named, units

NAMES = """let HID = 09022200010100a032+090400000103010200+092110010001223400+0705810304000a
let MOUSE = 120110010000004034127856000100000001+HID
"""
# A comment, the words, the input, and the fates that come to the same, where the damage is slight.
ROWS = [
    ("A bit of the first token: the device hears no SETUP, and the host asks again.", "--damage 1:1:9", "MOUSE", "d"),
    ("A bit of the setup packet, the last one of its CRC, and two of them: the device hears none.", "--damage 1:2:87;2:2:8,23", "MOUSE", "dd"),
    ("A bit of the ACK of a SETUP: the host hears nothing, and the device takes the SETUP anew.", "--damage 1:3:0", "MOUSE", "u"),
    ("A bit of an IN, of its data, of the ACK, and three of the data again.", "--damage 2:1:22;3:2:71;4:3:7;5:2:1,8,80", "MOUSE", ".duau"),
    ("A bit of the OUT of a status stage, of its empty data packet, and of the ACK of that: three strikes, and a second attempt.", "--damage 3:1:0;4:2:8;5:3:4", "MOUSE", "..ddu"),
    ("A bit of each packet of the status stage of SET_ADDRESS but the ACK.", "--damage 5:1:23;6:2:16", "MOUSE", "....du"),
    ("The ACK that ends SET_ADDRESS: the device keeps address 0, and the second attempt succeeds.", "--damage 5:3:2", "MOUSE", "....a"),
    ("Sixteen bits in a row of the data.", "--damage 2:2:20,21,22,23,24,25,26,27,28,29,30,31,32,33,34,35", "MOUSE", ".u"),
    ("Bits past the end of a packet, a bit that is changed back, and bits of a packet and of a transaction that there are not.", "--damage 1:3:8;1:1:24;2:2:9,9;16:3:4000000000;99:1:0", "MOUSE", ""),
    ("Transactions that use up all attempts.", "--attempts 2 --damage 1:1:8;2:1:8;3:1:8;4:1:8;5:1:8;6:1:8", "MOUSE", "dddddd"),
    ("What a fate loses isn't there to change; what it leaves is. A device that isn't ready sends a NAK.", "--fates d.u.n --damage 1:1:8;2:3:5;3:3:1;6:1:0;7:2:12", "MOUSE", None),
    ("Four bits of the setup packet that its CRC misses: the device hears another wLength, and answers more than was asked for.", "--damage 1:2:FOUR", "MOUSE", None),
    ("Bits 3 and 7 of a PID: an ACK of a SETUP becomes a NAK, which cannot follow.", "--damage 1:3:3,7", "MOUSE", None),
    ("A NAK becomes an ACK, which cannot follow after an IN.", "--fates .n --damage 2:2:3,7", "MOUSE", None),
    ("DATA1 becomes DATA0: the host takes it for a packet that came before and acknowledges it, and the device has no other one.", "--damage 2:2:3,7", "MOUSE", None),
    ("The host's ACK becomes a NAK, which acknowledges nothing.",  "--damage 2:3:3,7", "MOUSE", None),
    ("A token that becomes another one: an IN is an OUT, and then a SETUP, with no data after it.", "--damage 2:1:3,7;3:1:2,6", "MOUSE", None),
    ("The DATA1 of a status stage becomes DATA0: the device acknowledges it, as a packet that came before.", "--damage 3:2:3,7", "MOUSE", None),
    ("An address that becomes another one by damage that the CRC misses is that of no device.", "--damage 1:1:ADDRESS", "MOUSE", "d"),
    ("At high speed, by the last two numbers that a list can name.", "--speed high --damage 1:1:008;18446744073709551615:3:4294967295", "MOUSE", None),
]
# The same with a log. Three transactions that fail end an attempt.
LOGS = [
    ("A bit of a token, and two of the host's ACK, which becomes a NAK.", "--brief --damage 1:1:9;3:3:3,7", "MOUSE", None),
    ("A bit of a token, of the data of a SETUP, and of an ACK.", "--attempts 1 --damage 1:1:9;2:2:40;3:3:4", "MOUSE", "ddu"),
    ("The same at a second transfer, of an IN.", "--attempts 1 --damage 2:1:8;3:2:79;4:2:0", "MOUSE", ".duu"),
    ("The same of an OUT, of its empty data packet and of the ACK of that.", "--attempts 1 --damage 3:1:23;4:2:23;5:3:7", "MOUSE", "..ddu"),
    ("One bit of the PID of a token and of data, and two bits of a CRC.", "--attempts 1 --damage 1:1:0;2:2:7;3:1:19,23", "MOUSE", "ddd"),
    ("PIDs that are 0000: of an ACK, of data and of a token.", "--attempts 1 --damage 1:3:1,5;2:2:0,1,4,5;3:1:0,2,3,4,6,7", "MOUSE", None),
    ("PIDs of packets of another length: a token is an ACK, data are an OUT, an ACK is DATA0.", "--attempts 1 --damage 1:1:0,1,2,3,4,5,6,7;2:2:1,5;3:3:0,4", "MOUSE", None),
    ("Each damage of the data of an answer: three bits, sixteen in a row, and one of the PID beside others.",
     "--attempts 1 --damage 2:2:8,50,71;3:2:60,61,62,63,64,65,66,67,68,69,70,71,72,73,74,75;4:2:3,9,10,11,12,13", "MOUSE", ".uuu"),
    ("Bits past the end of a packet, a bit that is changed back, and the same bit three times.", "--attempts 1 --damage 1:1:24;1:2:88;1:3:8,4000000000;2:1:9,9;2:2:10,10,10;3:1:8;4:1:8", "MOUSE", ".udd"),
    ("Packets that there are not.", "--attempts 1 --damage 1:1:9;1:3:0;2:1:9;2:2:64;3:1:9;3:3:2;9:1:1", "MOUSE", "ddd"),
    ("An ACK of a SETUP becomes a NAK, which cannot follow.", "--damage 1:3:3,7", "MOUSE", None),
    ("An ACK becomes a NYET, which is no answer to a SETUP.", "--attempts 1 --damage 1:3:2,6;2:1:8;3:1:8", "MOUSE", None),
    ("Four bits of the setup packet that its CRC misses: the device answers more than was asked for.", "--damage 1:2:FOUR", "MOUSE", None),
    ("Three bits of a token that its CRC misses: no device has this address.", "--attempts 1 --damage 1:1:ADDRESS;2:1:8;3:1:9", "MOUSE", "ddd"),
    ("A token that becomes another one: an IN is an OUT, and then a SETUP, with no data after it.", "--attempts 1 --damage 2:1:3,7;3:1:2,6;4:1:9", "MOUSE", None),
    ("A token that becomes a SOF, a PING, a SPLIT: a device that hears no token of its own is silent.", "--attempts 1 --damage 1:1:3,7;2:1:0,3,4,7;3:1:0,2,4,6", "MOUSE", None),
    ("DATA1 becomes DATA0, which the host has had, and DATA2 and MDATA, which are none for it.", "--attempts 1 --damage 2:2:3,7;3:2:2,3,6,7;4:2:2,6", "MOUSE", None),
    ("The host's ACK becomes a PRE.", "--attempts 1 --brief --damage 5:3:1,2,3,5,6,7", "MOUSE", None),
    ("A NAK becomes an ACK.", "--fates .n --damage 2:2:3,7", "MOUSE", None),
    ("What a fate loses isn't there to change.", "--attempts 1 --fates d.u --damage 1:1:8;2:3:5;3:3:1;4:1:0", "MOUSE", None),
    ("The same with all packets.", "--attempts 1 --packets --fates d.u --damage 1:1:8;2:3:5;3:3:1;4:1:0", "MOUSE", None),
    ("All packets of an enumeration in which nothing is lost.", "--packets", "MOUSE", ""),
    ("The same in a brief log, of packets of 8 bytes; the ACK that ends SET_ADDRESS is lost.", "--packets --brief --fates ........a", "MOUSE 7=08", None),
    ("A device that isn't ready.", "--packets --brief --naks 1 --attempts 1 --fates .nn", "MOUSE", None),
    ("At high speed, with damage of every kind and a second attempt.", "--speed high --brief --damage 1:2:30;2:1:9;2:2:9;3:2:9;4:2:9", "MOUSE", None),
]
BAD = ["", ";", "1:1:1;", "1:1", "1:1:1:1", "0:1:1", "1:0:1", "1:4:1", "1:1:", "1:1:1,", "1:1:-1", "1:1:x", ":1:1", "1::1", "1:1:1,,2", "18446744073709551616:1:1", "1:256:1",
       "1:1:4294967296", "a:1:1", "1:1:1;2", "1,1,1"]


def packet_of_token(address, token):
    return packets.written(token[0].capitalize(), [address, 0])


def packet_of_data(one, data):
    return packets.written("Data1" if one else "Data0", [data])


def packet_of_answer(answer):
    return packet_of_data(*answer) if isinstance(answer, tuple) else packets.written(answer.capitalize(), [])


def heard_by_device(first, second):
    """The address and the token that a device hears, or None."""
    name, fields = first
    after, of_after = second or ("nothing", [])
    if name not in ("Setup", "In", "Out") or fields[1]:
        return None
    if name == "In":
        return fields[0], ("in",)
    if name == "Setup":
        return (fields[0], ("setup", of_after[0])) if after == "Data0" and len(of_after[0]) == 8 else None
    return (fields[0], ("out", after == "Data1", of_after[0])) if after in ("Data0", "Data1") else None


class Bus:
    """A bus of bytes. A fate loses packets, and bits change in others."""

    def __init__(self, fates, damages):
        self.fates, self.damages, self.number = fates, damages, 0

    def arrives(self, place, packet, is_lost):
        """What is read of a packet that is sent, if one is."""
        if packet is None:
            return None
        bits = [bit for number, at, bit in self.damages if (number, at) == (self.number, place)]
        came = b"" if is_lost else packets.changed(packet, [bit for bit in bits if bit < 8 * len(packet)])
        self.seen.append((place, packet, None if is_lost else bits, came))
        return packets.read(came)

    def transaction(self, device, transfer):
        """What the device answers, and what comes of it. `seen` has what happened to each packet."""
        self.number, self.seen = self.number + 1, []
        fate = self.fates[self.number - 1] if self.number <= len(self.fates) else "."
        token = transfer.token()
        data = packet_of_data(False, token[1]) if token[0] == "setup" else packet_of_data(True, b"") if token[0] == "out" else None
        heard = heard_by_device(self.arrives(1, packet_of_token(transfer.address, token), fate == "d"), self.arrives(2, data, fate == "d"))
        at = 3 if data else 2
        reply = "silence" if heard is None else self.served(device, heard, fate != "n")
        name, fields = (None, None) if reply == "silence" else self.arrives(at, packet_of_answer(reply), fate == "u")
        came = (name == "Data1", fields[0]) if name in ("Data0", "Data1") else name.lower() if name in ("Ack", "Nak", "Stall") else "silence"
        is_data = isinstance(came, tuple)
        ack = self.arrives(at + 1, packets.written("Ack", []) if is_data else None, fate == "a")
        if ack and ack[0] == "Ack":
            device.acked()
        return reply, came

    def served(self, device, heard, ready):
        """What the device answers. After a read, data with DATA0 came before, and other data are stalled."""
        address, token = heard
        is_end = token[0] == "out" and address == device.address and device.stage in ("sending", "status_out", "over")
        if ready and is_end and not token[1]:
            device.waits = False
            return "ack"
        if ready and is_end and token[2]:
            device.waits, device.stage = False, "halted"
            return "stall"
        return device.serve(address, token, ready)


class WireLog(Log):
    """A log of that bus, which shows all packets or those alone that are changed."""

    def __init__(self, device, host, bus, words):
        self.bus, self.shows_all = bus, "--packets" in words
        super().__init__(device, host, bus.fates, "--brief" in words)

    def step(self, device, host, transfer, fate):
        reply, came = self.bus.transaction(device, transfer)
        below = [line for it in self.bus.seen if self.shows_all or it[2] for line in self.packet(*it)]
        self.show(device, host, fate, reply, came, below)

    def packet(self, place, sent, bits, came):
        """The lines of a packet: a number for its place, what was sent, the changed bits or None where it was lost, and what came."""
        if not bits:
            return self.packet_lines(f"{place}: ", sent, "lost" if bits is None else "arrives")
        changed = " ".join(["bits", *map(str, bits)])
        if why := packets.damage_of(came):
            return self.packet_lines(f"{place}: ", sent, f"{changed}: refused as {why}")
        return self.packet_lines(f"{place}: ", sent, changed) + self.packet_lines("as ", came, "arrives")

    def packet_lines(self, head, data, words):
        name = packets.NAMES[data[0] & 15]
        short, long = self.bytes(data)
        return [f"{'':8}{head + {'StartOfFrame': 'SOF'}.get(name, name).upper():15}{short:17}{words}", *long]


def asked(file, strings, other_speed):
    """Of a file what a host asks for. Without the other speed those strings are alone there that the rest names."""
    others = [file.qualifier, *file.other_sets] if file.qualifier and other_speed else []
    read = b"".join([file.device, *file.sets, *others])
    indices = named(file.device, [*file.sets, *others[1:]])
    if not indices or strings == "skipped":
        return read
    return read + file.languages + b"".join(file.strings[language, index] for language in units(file.languages) for index in indices)


def listing_of(file, strings, other_speed):
    """Its listing, in which no line is of a string where they are skipped."""
    lines = descriptors.listing("file", asked(file, "needed", other_speed)).splitlines()
    kept = [line for line in lines if strings != "skipped" or line.split()[0] not in ("languages", "string")]
    return "".join(f"{line}\n" for line in kept)


def read_option(name, text):
    return text if name in ("speed", "strings") else text == "yes" if name == "other_speed" else int(text)


def run(words, data, names):
    """The exit status, and what the program writes with these words over these bytes."""
    options = {name.replace("-", "_"): text for name, text in re.findall(r"--([\w-]+) ([^- ]\S*)", words)}
    fates = expand(options.pop("fates", ""), names)
    damages = damages_of(options.pop("damage")) if "damage" in options else []
    device, host = Device(File(data)), Host(**{name: read_option(name, text) for name, text in options.items()})
    lines = WireLog(device, host, Bus(fates, damages), words).lines
    log = "".join(f"{line}\n" for line in lines) if "--log" in words else ""
    if host.outcome:
        return 1, f"{log}{host.result()}\n"
    assert host.read == asked(device.file, host.strings, host.other_speed) and not host.forgiven
    listing = listing_of(device.file, host.strings, host.other_speed)
    return 0, f"{log}{host.result()} address {device.address} value {device.selected}\n{listing}"


def damages_of(text):
    """The changed bits of a list, each a transaction, a packet and a bit, or None where it is none."""
    if not re.fullmatch(r"(\+?\d+:\+?\d+:\+?\d+(,\+?\d+)*)(;\+?\d+:\+?\d+:\+?\d+(,\+?\d+)*)*", text, flags=re.A):
        return None
    damages = []
    for entry in text.split(";"):
        number, at, bits = entry.split(":")
        damages += [(int(number), int(at), int(bit)) for bit in bits.split(",")]
    is_within = all(0 < number < 1 << 64 and 0 < at < 4 and bit < 1 << 32 for number, at, bit in damages)
    return damages if is_within else None


def missed():
    """Four bits of the first setup packet that its CRC misses: one of its wLength, and others of it."""
    sent = packet_of_data(False, bytes.fromhex("8006000100000800"))
    of = packets.LONG
    # The CRC misses what is a multiple of its polynomial, 18005 of 17 bits: x^16 + x^15 + x^2 + 1.
    start = 8 + 32
    bits = [start, start + 1, start + 14, start + 16]
    assert packets.read(packets.changed(sent, bits))[0] == "Data0" and of[1] == 0x8005
    return bits


def missed_in_token():
    """The first three bits of the first token that its CRC misses, of which one is of its address."""
    sent = packet_of_token(0, ("setup",))
    for bits in itertools.combinations(range(8, 24), 3):
        name, fields = packets.read(packets.changed(sent, bits))
        if name == "Setup" and fields[0]:
            return bits
    raise ValueError


def same_under(fates, words, given, names):
    """What comes of the bus that loses packets, under these fates."""
    options = dict(re.findall(r"--(\w+) ([^- ]\S*)", words))
    options.pop("damage", None)
    data = bytes_of(given, names)
    device, host = Device(File(data)), Host(**{name: text if name == "speed" else int(text) for name, text in options.items()})
    enumerate_device(device, host, fates)
    return host.result(), device.address, device.selected


def main():
    names, text = names_of(NAMES), f"# Enumerations over a bus of bytes on which bits change, written by readings/damaged_enumerations.py.\n\n{NAMES}"
    for comment, words, given, fates in [*ROWS, *((comment, f"--log {words}", given, fates) for comment, words, given, fates in LOGS)]:
        words = words.replace("FOUR", ",".join(map(str, missed()))).replace("ADDRESS", ",".join(map(str, missed_in_token())))
        status, output = run(words, bytes_of(given, names), names)
        if fates is not None:
            result, address, selected = same_under(fates, words, given, names)
            wanted = result if status else f"{result} address {address} value {selected}"
            assert wanted in output.splitlines(), (words, output, wanted)
        text += f"\n# {comment}\nusbdesc enumerate {words} < {given} -> {status}\n"
        text += "".join(f"> {line}\n" for line in output.splitlines())
    text += "\n# A list that is none: each is told before the input is read.\n"
    for bad in BAD:
        assert damages_of(bad) is None, bad
        text += f"usbdesc enumerate --damage={bad} < 00 -> 2\n! usbdesc: bad damages\n\n"
    with open(os.path.join(ROW_DATA, "enumerate/damages.txt"), "w", encoding="ascii") as target:
        target.write(text.rstrip("\n") + "\n")


if __name__ == "__main__":
    main()
