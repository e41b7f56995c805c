#!/usr/bin/env python3
"""Writes the descriptor file of a device with great sets and packets of 8 bytes: descriptors.py KIND SETS.

raws: so many sets of 65,535 bytes, of raw descriptors of 255 bytes.
short-raws: so many of raw descriptors of 2 bytes.
settings: so many of alternate settings, which break no rule.
endpoints: so many of alternate settings with thirty endpoints each, which break no rule.
associations: so many of one interface and associations of it alone.
bindings: so many of 255 interfaces and associations of all of them.
strings, short-strings, empty-strings: 30 strings of 126 units, of one, of none, in 126 languages each.
greatest: the greatest file that a device can have: 510 sets of raw descriptors and 32,130 strings of 126 units.
"""
import struct
import sys

LONGEST = 65535
MOST = 255
LANGUAGES = 126
UNITS = 126


def raws():
    return 0, (b"\xff\x21" + bytes(253)) * 256 + b"\xf6\x21" + bytes(244)


def settings():
    count = (LONGEST - 9) // 9
    body = b"".join(bytes([9, 4, place // 256, place % 256, 0, 3, 1, 2, 0]) for place in range(count))
    return (count + 255) // 256, filled(body)


def filled(body):
    """The body, with raw descriptors behind it to the length of the longest set."""
    while (rest := LONGEST - 9 - len(body)) > 0:
        length = rest if rest <= 255 else min(255, rest - 2)
        body += bytes([length, 0x21]) + bytes(length - 2)
    return body


def short_raws():
    return 0, b"\x02\x21" * ((LONGEST - 9) // 2)


def endpoints():
    addresses = [side | number for side in (0, 0x80) for number in range(1, 16)]
    ends = b"".join(bytes([7, 5, address, 3, 8, 0, 10]) for address in addresses)
    count = 256
    return 1, filled(b"".join(bytes([9, 4, place // 256, place % 256, 30, 3, 1, 2, 0]) + ends for place in range(count)))


def associations(interfaces, bound):
    body = b"".join(bytes([9, 4, number, 0, 0, 3, 1, 2, 0]) for number in range(interfaces))
    count = (LONGEST - 9 - 2 - len(body)) // 8
    return interfaces, filled(body + bytes([8, 11, 0, bound, 3, 1, 2, 0]) * count)


def named_settings(count):
    """One interface, whose alternate settings name so many strings, from 4 on."""
    return 1, b"".join(bytes([9, 4, 0, place, 0, 3, 1, 2, 4 + place]) for place in range(count))


def strings(units, count=30):
    """A device that names so many strings, each of so many units in each language."""
    interfaces, body = named_settings(count - 3)
    write = sys.stdout.buffer.write
    write(struct.pack("<BBHBBBBHHHBBBB", 18, 1, 0x0200, 0, 0, 0, 8, 0, 0, 0, 1, 2, 3, 1))
    write(struct.pack("<BBHBBBBB", 9, 2, 9 + len(body), interfaces, 1, 0, 0x80, 50) + body)
    write(struct.pack(f"<BB{LANGUAGES}H", 2 + 2 * LANGUAGES, 3, *range(1, LANGUAGES + 1)))
    write(struct.pack(f"<BB{units}H", 2 + 2 * units, 3, *[0x4e] * units) * (count * LANGUAGES))


BODIES = {
    "raws": raws,
    "greatest": raws,
    "short-raws": short_raws,
    "settings": settings,
    "endpoints": endpoints,
    "associations": lambda: associations(1, 1),
    "bindings": lambda: associations(255, 255),
}
STRINGS = {"strings": UNITS, "short-strings": 1, "empty-strings": 0}


def sets(kind, count, named, interfaces, body):
    for value in range(1, count + 1):
        text = value if named else 0
        yield struct.pack("<BBHBBBBB", 9, kind, 9 + len(body), interfaces, value, text, 0x80, 50) + body


def main():
    name = sys.argv[1]
    if name in STRINGS:
        strings(STRINGS[name])
        return
    count = 2 * MOST if name == "greatest" else int(sys.argv[2])
    interfaces, body = BODIES[name]()
    assert LONGEST - 10 <= len(body) + 9 <= LONGEST
    write = sys.stdout.buffer.write
    main_count = min(count, MOST)
    write(struct.pack("<BBHBBBBHHHBBBB", 18, 1, 0x0200, 0, 0, 0, 8, 0, 0, 0, 0, 0, 0, main_count))
    for part in sets(2, main_count, name == "greatest", interfaces, body):
        write(part)
    if name == "greatest":
        write(struct.pack("<BBHBBBBBB", 10, 6, 0x0200, 0, 0, 0, 8, count - MOST, 0))
        for part in sets(7, count - MOST, True, interfaces, body):
            write(part)
        write(struct.pack(f"<BB{LANGUAGES}H", 2 + 2 * LANGUAGES, 3, *range(1, LANGUAGES + 1)))
        string = struct.pack(f"<BB{UNITS}H", 2 + 2 * UNITS, 3, *[0x4e] * UNITS)
        write(string * (MOST * LANGUAGES))


main()
