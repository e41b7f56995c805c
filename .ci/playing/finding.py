"""Compares what `find` gives with a second reading, which asks `judge` of each place where a set may begin: of examples behind and before
other bytes, of sets within device descriptors and within sets, and of bytes at random. Hostile bytes take their time alone.

    .ci/playing/finding.py [CASES]    with NOZZLEGORSE_LIBRARY and PYTHONPATH=python
"""
import glob
import os
import random
import struct
import sys
import time

import nozzlegorse as usb

EXAMPLES = os.path.join(os.path.dirname(os.path.abspath(__file__)), "../../testdata")
SET = bytes([9, 2, 25, 0, 1, 1, 0, 0x80, 50, 9, 4, 0, 0, 1, 255, 0, 0, 0, 7, 5, 0x81, 3, 4, 0, 10])
BARE = bytes([9, 2, 9, 0, 0, 1, 0, 0x80, 50])
DEVICE = bytes([18, 1, 0, 2, 0, 0, 0, 64, 0x83, 4, 0x40, 0x57, 0, 1, 1, 2, 3, 1])
VERSIONS = (0x100, 0x101, 0x110, 0x200, 0x201, 0x210, 0x250, 0x300, 0x310, 0x320)
# So many times as long may it take among four times the bytes: 16 where its time grows as the square.
MOST = 8


def fail(why):
    sys.exit(f"finding: {why}")


def set_at(data, at):
    """How long the set is that begins there, by the decoder behind `judge`, or 0."""
    if data[at] != 9 or data[at + 1:at + 2] not in (b"\2", b"\7"):
        return 0
    total = int.from_bytes(data[at + 2:at + 4], "little")
    try:
        return total if len(data) >= at + total >= at + 9 and usb.judge(data[at:at + total]) == "set" else 0
    except usb.Fault:
        return 0


def device_at(data, at):
    if len(data) < at + 18 or data[at:at + 2] != b"\x12\1":
        return False
    version, packet = struct.unpack_from("<HxxxB", data, at + 2)
    return version in VERSIONS and packet in (8, 9, 16, 32, 64) and data[at + 17] > 0


def second(data):
    """The same by going over the places one by one."""
    found, at = [], 0
    while at < len(data):
        length = set_at(data, at)
        if length:
            found.append((at, "set", data[at:at + length]))
        elif device_at(data, at):
            found.append((at, "device", data[at:at + 18]))
        at += length or 1
    return found


def compared(data):
    came = [(it.place, it.kind, it.bytes) for it in usb.find(data)]
    if came != second(data):
        fail(f"{data[:400].hex()}: {came} and not {second(data)}")
    return len(came)


def examples():
    """Each example whole and cut, behind and before other bytes."""
    for name in sorted(it for end in ("bin", "file", "descriptors") for it in glob.glob(f"{EXAMPLES}/*/*.{end}")):
        with open(name, "rb") as it:
            data = it.read(1 << 16)
        yield from (data, b"\x7fELF\t\2\x12\1" + data + b"\t\2", data[:-1], data + data)


def built():
    """Sets within and behind what is nearly one."""
    yield from (b"", b"\t", b"\t\2", b"\x12\1", DEVICE, SET, DEVICE[:17], DEVICE + SET, SET + DEVICE, BARE * 3)
    # A set begins within a device descriptor's bytes, and a device descriptor within another's.
    yield from (DEVICE[:8] + BARE + b"\1" + DEVICE, DEVICE[:9] + SET, DEVICE[:17] + b"\t" + SET[1:], DEVICE[:8] + DEVICE)
    # What is within a set is listed with it; of a broken set also what is within.
    inner = bytes([27, 0x21]) + SET
    yield from (b"\t\2\x24\0" + BARE[4:] + inner, b"\t\2\x25\0" + BARE[4:] + inner, b"\x0a\2\x0a\0" + BARE[4:] + b"\0", b"\t\7" + SET[2:])
    yield from (DEVICE[:2] + struct.pack("<H", it) + DEVICE[4:] for it in range(0x400))
    yield from (DEVICE[:7] + bytes([it]) + DEVICE[8:17] + bytes([it % 2]) for it in range(256))


def at_random(cases):
    chance = random.Random(1)
    pieces = (SET, BARE, DEVICE, SET[:18], DEVICE[:8], b"\t\2", b"\t\4", b"\7\5\x81", b"\x12\1", b"\0", b"\2\xff")
    for _ in range(cases):
        data = bytearray(b"".join(chance.choice(pieces) for _ in range(chance.randrange(12))))
        for _ in range(chance.randrange(3) if data else 0):
            data[chance.randrange(len(data))] = chance.choice((0, 1, 2, 7, 9, 18, 25, chance.randrange(256)))
        yield bytes(data)


def hostile():
    """What looks like the beginnings of sets."""
    header = b"\t\2\xff\xff\1\1\0\x80\x32"
    yield from (header, header + b"\2\x30", b"\t\2\xff\xff", header + b"\x0b\x30" + bytes(9), header + b"\xfd\x30", b"\x12\1\0\2\0\0\0\x40", b"\xff", b"\t")


def seconds(piece, length):
    """The seconds of a processor that a search among so many bytes takes."""
    data = (piece * (length // len(piece) + 1))[:length]
    start = time.process_time()
    sum(1 for _ in usb.find(data))
    return time.process_time() - start


def main():
    counts = [compared(data) for data in (*examples(), *built(), *at_random(int(sys.argv[1]) if len(sys.argv) > 1 else 300))]
    for piece in hostile():
        times = seconds(piece, 2 ** 24) / seconds(piece, 2 ** 22)
        if times > MOST:
            fail(f"{piece.hex()} repeated to 16 MB takes {times:.1f} times as long as to 4 MB")
    print(f"what stands among {len(counts)} runs of bytes: {sum(counts)} found, as a second reading has them")


if __name__ == "__main__":
    main()
