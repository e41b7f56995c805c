"""Writes what the rows of rows/packets.txt want: packets of the bus, their damage and their CRCs, read from chapter 8 of
USB 2.0 once more. A CRC is worked out bit by bit as 8.3.5 describes it, highest bit first, and compared with the one that was
received. It shares no code with the crates. Values that others have published must come out, or nothing is written. The gate
compares what it writes (.ci/readings), and .ci/playing/packets/damages.py asks the library for each changed bit.
"""

import itertools
import os
import re

from readings import ROW_DATA, long_enumerations


PATH = os.path.join(ROW_DATA, "rows/packets.txt")
ROW = re.compile(r"(packet|changed_packet|write_packet|crc5|crc16) (.*) -> .*")
# Table 8-1, PID<3:0>. ERR is PRE.
PIDS = {"Out": 0b0001, "In": 0b1001, "StartOfFrame": 0b0101, "Setup": 0b1101, "Data0": 0b0011, "Data1": 0b1011, "Data2": 0b0111, "MData": 0b1111,
        "Ack": 0b0010, "Nak": 0b1010, "Stall": 0b1110, "Nyet": 0b0110, "Pre": 0b1100, "Split": 0b1000, "Ping": 0b0100}
NAMES = {number: name for name, number in PIDS.items()}
# The widths of the fields after the PID, in the order in which they are sent (8.3.2, 8.3.3, 8.4.2).
FIELDS = {**dict.fromkeys(("Out", "In", "Setup", "Ping"), (7, 4)), "StartOfFrame": (11,), "Split": (19,)}
DATA, MOST_DATA = ("Data0", "Data1", "Data2", "MData"), 1024
# The widths of the CRCs, their polynomials without the highest power, and their residuals (8.3.5.1, 8.3.5.2).
TOKEN, LONG = (5, 0b00101, 0b01100), (16, 0b1000000000000101, 0b1000000000001101)


def sent(number, width):
    """The bits of a field in the order in which they are sent, the lowest first (8.1)."""
    return [number >> place & 1 for place in range(width)]


def bits_of(data):
    return [bit for byte in data for bit in sent(byte, 8)]


def number_of(bits):
    return sum(bit << place for place, bit in enumerate(bits))


def remainder(bits, of):
    """What bits leave in the generator, which begins with ones (8.3.5)."""
    width, polynomial, _ = of
    left = (1 << width) - 1
    for bit in bits:
        is_other = left >> (width - 1) != bit
        left = left << 1 & ((1 << width) - 1)
        if is_other:
            left ^= polynomial
    return left


def crc(bits, of):
    """The bits of a CRC in the order in which they are sent: the remainder inverted, the highest bit first."""
    left = remainder(bits, of)
    return [1 - (left >> place & 1) for place in reversed(range(of[0]))]


def damage_of(data):
    """The first damage that bytes have, or None."""
    if not data:
        return "Empty"
    if data[0] & 15 != 15 - (data[0] >> 4):
        return "Pid"
    name = NAMES.get(data[0] & 15)
    if name is None:
        return "Reserved"
    widths, body = FIELDS.get(name), bits_of(data[1:])
    if name in DATA:
        is_long, of, split = 2 <= len(data) - 1 <= MOST_DATA + 2, LONG, len(body) - 16
    else:
        is_long, of, split = len(body) == (sum(widths) + 5 if widths else 0), TOKEN, sum(widths or ())
    if not is_long:
        return "Length"
    if (name in DATA or widths) and crc(body[:split], of) != body[split:]:
        return f"Crc{of[0]}"
    return None


def read(data):
    """The name of the packet that bytes are, and its fields, or the data."""
    if why := damage_of(data):
        return "damage", [why]
    name, body = NAMES[data[0] & 15], bits_of(data[1:])
    if name in DATA:
        return name, [data[1:-2]]
    fields = []
    for width in FIELDS.get(name, ()):
        fields.append(number_of(body[:width]))
        body = body[width:]
    return name, fields


def written(name, fields):
    """The bytes of a packet, or None where a field does not fit."""
    if name in DATA:
        bits, of = bits_of(fields[0]), LONG
        fits = len(fields[0]) <= MOST_DATA
    else:
        widths, of = FIELDS.get(name, ()), TOKEN
        bits = [bit for field, width in zip(fields, widths) for bit in sent(field, width)]
        fits = all(field < 1 << width for field, width in zip(fields, widths))
    bits += crc(bits, of) if name in DATA or name in FIELDS else []
    head = PIDS[name] | (15 - PIDS[name]) << 4
    return bytes([head, *(number_of(bits[at:at + 8]) for at in range(0, len(bits), 8))]) if fits else None


def changed(data, places):
    """Bytes with these bits changed, counted in the order in which they are sent."""
    new = bytearray(data)
    for place in places:
        new[place // 8] ^= 1 << place % 8
    return bytes(new)


def bytes_of(words):
    """The bytes that the words of a row say."""
    return b"" if words == "-" else long_enumerations.bytes_of(words, {})


def digits(data):
    """Bytes as a word of a row, each long run of one byte as a part of it."""
    parts = [""]
    for byte, run in itertools.groupby(data):
        count = len(list(run))
        if count > 16:
            parts += [f"{count}*{byte:02x}", ""]
        else:
            parts[-1] += f"{byte:02x}" * count
    return "+".join(filter(None, parts)) or "-"


def shown(packet):
    name, fields = packet
    return " ".join([name, *(digits(it) if isinstance(it, bytes) else str(it) for it in fields)])


def answer(call, words):
    if call == "packet":
        return shown(read(bytes_of(words)))
    first, _, rest = words.partition(" ")
    if call == "changed_packet":
        return shown(read(changed(bytes_of(rest), map(int, first.split(",")))))
    if call == "write_packet":
        data = written(first, [bytes_of(rest)] if first in DATA else [int(it) for it in rest.split()])
        return "no packet" if data is None else digits(data)
    if call == "crc5":
        return f"{number_of(crc(sent(int(rest), int(first)), TOKEN)):02x}"
    return f"{number_of(crc(bits_of(bytes_of(words)), LONG)):04x}"


def check_known():
    """Values that others have published."""
    # CRC-5/USB and CRC-16/USB of the nine digits. Their 72 bits are more than a token's: they go through the same generator.
    digits_ = bits_of(b"123456789")
    assert (number_of(crc(digits_, TOKEN)), number_of(crc(digits_, LONG))) == (0x19, 0xB4C8)
    # 'Cyclic Redundancy Checks in USB' of the USB Implementers Forum, each CRC as it is sent.
    for address, endpoint, wanted in ((0x15, 0xE, "10111"), (0x3A, 0xA, "11100"), (0x70, 0x4, "01110"), (0x01, 0x0, "10111")):
        assert "".join(map(str, crc(sent(address, 7) + sent(endpoint, 4), TOKEN))) == wanted
    for data, wanted in (("00010203", "1111011101011110"), ("23456789", "0111000000111000")):
        assert "".join(map(str, crc(bits_of(bytes.fromhex(data)), LONG))) == wanted
    # The residuals of 8.3.5.1 and 8.3.5.2.
    for bits in (digits_, sent(0x715, 11), sent(0x12345, 19), []):
        for of in (TOKEN, LONG):
            assert remainder(bits + crc(bits, of), of) == of[2]


def main():
    check_known()
    with open(PATH, encoding="ascii") as source:
        lines = source.read().splitlines()
    with open(PATH, "w", encoding="ascii") as target:
        for line in lines:
            row = ROW.fullmatch(line)
            target.write(f"{line[:line.index('->')]}-> {answer(row[1], row[2])}\n" if row else f"{line}\n")


if __name__ == "__main__":
    main()
