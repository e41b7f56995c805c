"""Compares the calls on packets of the bus with the second reading of chapter 8, readings/packets.py: all changes of up to
three bits in a data packet of eight bytes and its PID and CRC, of up to two in tokens, SOF and SPLIT, of up to four in an empty data
packet, and each first byte; anything else; packets that are written, also of fields that don't fit; and both CRCs.

    .ci/playing/packets/damages.py    with NOZZLEGORSE_LIBRARY and PYTHONPATH=python
"""
import ctypes
import doctest
import itertools
import os
import random
import sys

sys.path.insert(0, os.path.join(os.path.dirname(os.path.abspath(__file__)), "../../.."))
from nozzlegorse import _library as c, packets  # noqa: E402
from readings import packets as second  # noqa: E402

DAMAGES = (None, "Empty", "Pid", "Reserved", "Length", "Crc5", "Crc16")
TOKENS = ("Out", "In", "Setup", "Ping")
FIELDS = [(0, 0), (0x15, 0xE), (127, 15)]
REQUEST = bytes.fromhex("8006000100004000")
BEFORE = bytes(range(0xA0, 0xB0))
FIELDS_OF = c.structs["packet_fields"]
rng = random.Random(1)


def parsed(data):
    """What the library says of bytes: as the second reading does, and that a struct of damaged bytes stays."""
    it = FIELDS_OF.from_buffer_copy(BEFORE)
    if number := c.lib.nzg_packet_parse(data, len(data), it):
        return "damage", [DAMAGES[number]] if bytes(it) == BEFORE else ["the struct changes"]
    name = second.NAMES[it.pid & 15]
    fields = {**dict.fromkeys(TOKENS, [it.address, it.endpoint]), "StartOfFrame": [it.frame], "Split": [it.split],
              **dict.fromkeys(second.DATA, [data[it.place:it.place + it.length]])}.get(name, [])
    others = {**dict.fromkeys(TOKENS, ("address", "endpoint")), "StartOfFrame": ("frame",), "Split": ("split",), **dict.fromkeys(second.DATA, ("place", "length"))}
    if it.pid != data[0] or any(getattr(it, field) for field, _ in FIELDS_OF._fields_ if field not in ("pid", *others.get(name, ()))):
        return name, ["a field that it does not have"]
    return name, fields


def same(data):
    came, wanted = parsed(data), second.read(data)
    if came != wanted:
        sys.exit(f"damages: {data.hex()}: {came}, and not {wanted}")
    return wanted


def all_changed(data, most):
    """Tries all changes of up to so many bits: how many there are, and those that no check finds."""
    tried, missed = 0, []
    for count in range(1, most + 1):
        for places in itertools.combinations(range(8 * len(data)), count):
            tried += 1
            if same(second.changed(data, places))[0] != "damage":
                missed.append(places)
    return tried, missed


def changes():
    """All changes of so few bits, and how many there are. Found are one bit anywhere, two after a PID, and three after that of data."""
    tokens = [second.written(name, fields) for name in TOKENS for fields in FIELDS] + [second.written("StartOfFrame", [it]) for it in (0, 1, 2047)]
    tokens += [second.written("Split", [it]) for it in (0, 0x12345, 0x7FFFF)]
    total = 0
    for data, most in [(second.written("Data0", [REQUEST]), 3), *((it, 2) for it in tokens)]:
        tried, missed = all_changed(data, most)
        total += tried
        if any(len(it) == 1 or it[0] > 7 for it in missed):
            sys.exit(f"damages: {data.hex()}: missed are {missed}")
    # Three bits of a token, two of a PID and four of data may be missed.
    for data, count in ((second.written("Setup", (0, 0)), 3), (second.written("Nak", []), 2), (second.written("Data1", [b"\0\0"]), 4)):
        tried, missed = all_changed(data, count)
        total += tried
        if not any(len(it) == count and (count == 2 or it[0] > 7) for it in missed):
            sys.exit(f"damages: {data.hex()}: no {count} bits are missed")
    return total


def anything(count):
    """Each first byte, before what may follow it, and bytes of any length after a PID that is one."""
    for head, body in itertools.product(range(256), (b"", b"\0", b"\0\x10", b"\0\0", b"\0\0\xe8", bytes(1026), bytes(1027))):
        same(bytes([head]) + body)
    same(b"")
    for _ in range(count):
        number = rng.choice(list(second.PIDS.values()))
        same(bytes([number | (15 - number) << 4]) + rng.randbytes(rng.choice((1, 2, 3, 4, 11, 1026, 1027))))
    return 256 * 7 + 1 + count


def told(packet, data, room):
    """The status, the number and the length of a call that writes, and the buffer after it."""
    out = ctypes.create_string_buffer(b"\x77" * 1100, 1100)
    answer = c.lib.nzg_packet_write(packet, data, len(data), out, room)
    return (c.STATUSES[answer.status], answer.number, answer.length), out.raw


def writes(count):
    """Packets of any fields, with a room that is too short by one and one that is not."""
    for _ in range(count):
        name, data = rng.choice(list(second.PIDS)), rng.randbytes(rng.choice((0, 1, 8, 64, 1023, 1024, 1025)))
        address, endpoint, frame, split = (rng.choice((rng.randrange(most), most - 1, most, 2 * most - 1)) for most in (128, 16, 2048, 1 << 19))
        number = second.PIDS[name] | (15 - second.PIDS[name]) << 4
        packet = FIELDS_OF(split, frame, rng.randrange(1 << 16), rng.randrange(1 << 16), number, address, endpoint)
        fields = {**dict.fromkeys(TOKENS, [address, endpoint]), "StartOfFrame": [frame], "Split": [split], **dict.fromkeys(second.DATA, [data])}.get(name, [])
        wanted = second.written(name, fields)
        for room in (1100, len(wanted or b"x") - 1):
            is_whole = wanted is not None and room >= len(wanted)
            answer = ("bad_argument", 12, 0) if wanted is None else ("done" if is_whole else "no_room", 0, len(wanted))
            if told(packet, data, room) != (answer, (wanted if is_whole else b"").ljust(1100, b"\x77")):
                sys.exit(f"damages: {name} {fields}, room {room}: {told(packet, data, room)[0]}, and not {answer}")
    for number in set(range(256)) - {it | (15 - it) << 4 for it in second.PIDS.values()}:
        if told(FIELDS_OF(pid=number), b"", 1100) != (("bad_argument", 12, 0), b"\x77" * 1100):
            sys.exit(f"damages: PID {number:02x} is written")
    return 2 * count


def crcs(count):
    for width, numbers in ((11, range(2048)), (19, (rng.randrange(1 << 19) for _ in range(count)))):
        for number in numbers:
            if packets.crc5(number, width) != second.number_of(second.crc(second.sent(number, width), second.TOKEN)):
                sys.exit(f"damages: the CRC of {number:x} in {width} bits")
    for width in (0, 1, 31, 32, 33, 1 << 31):
        number = 0xFEDCBA98
        if c.lib.nzg_crc5(number, width) != second.number_of(second.crc(second.sent(number, min(width, 32)), second.TOKEN)):
            sys.exit(f"damages: the CRC of {width} bits")
    for data in (rng.randbytes(rng.randrange(200)) for _ in range(count)):
        if packets.crc16(data) != second.number_of(second.crc(second.bits_of(data), second.LONG)):
            sys.exit(f"damages: the CRC of {data.hex()}")
    return 2048 + 6 + 2 * count


def main():
    second.check_known()
    if doctest.testmod(packets).failed:
        sys.exit("damages: an example of nozzlegorse.packets differs")
    print(f"damages: {changes()} changes and {anything(4000)} other bytes, {writes(4000)} packets written and {crcs(2000)} CRCs as the second reading has them")


main()
