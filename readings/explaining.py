"""A separate reading of what `usbdesc explain` prints, from which the explanations beside the examples come.

It was written from the tables in words (docs/formats.md), in another language and by no function of this repository.
Names of class codes, of descriptors of classes, of terminals and of bits are those of the tables in data/explain. The gate
compares what it writes (.ci/readings).

    explaining set FILE..     writes the explanation of the configuration set to the file of that name that ends in
                              .explain
    explaining file FILE..    the same of a descriptor file
    explaining dump FILE..    the same of a dump of Linux
    explaining --utf8 ..      the same with characters beyond ASCII as UTF-8
    explaining --formats ..   that of --brief --formats, to the file that ends in .formats
"""

import itertools
import os
import re
import sys
import unicodedata

from readings import ROW_DATA, checking


LOW, FULL, HIGH, SUPER = "low speed", "full speed", "high speed", "SuperSpeed"
LOW_OR_FULL, FULL_OR_HIGH = "low or full speed", "full or high speed"
AT = {"low": LOW, "full": FULL, "high": HIGH, "super": SUPER}
OTHER_SPEED = {FULL: HIGH, HIGH: FULL}
TEXT = "\t\n\r" + "".join(map(chr, range(0x20, 0x7F)))
# Two items, each with one byte of data or two: a Usage Page, and a Usage.
REPORT = re.compile(rb"(\x05.|\x06..)(\x09.|\x0a..)", re.DOTALL)
TRANSFERS = ("control", "isochronous", "bulk", "interrupt")
# The speeds that may be meant, where there are two.
OPEN = {LOW_OR_FULL: (LOW, FULL), FULL_OR_HIGH: (FULL, HIGH)}
# The sizes of packets and the intervals of each type at each speed.
SMALL = (8, 16, 32, 64)
SIZES = {
    "control": {LOW: (8,), FULL: SMALL, HIGH: (64,)},
    "isochronous": {LOW: (), FULL: range(1024), HIGH: range(1025)},
    "bulk": {LOW: (), FULL: SMALL, HIGH: (512,)},
    "interrupt": {LOW: range(9), FULL: range(65), HIGH: range(1025)},
}
INTERVALS = {
    "isochronous": dict.fromkeys((FULL, HIGH, SUPER), range(1, 17)),
    "interrupt": {LOW: range(10, 256), FULL: range(1, 256), HIGH: range(1, 17), SUPER: range(1, 17)},
}


# Where the standard has these sizes, and that low speed has no such endpoints.
SIZE_SECTIONS = {"control": "5.5.3", "isochronous": "5.6.3", "interrupt": "5.7.3", "bulk": "5.8.3"}
NO_ENDPOINTS = {"isochronous": "5.6.4", "bulk": "5.8.4"}


def read_classes():
    names = {}
    with open(os.path.join(ROW_DATA, "explain/classes.txt"), encoding="ascii") as table:
        for line in table:
            codes, words = [], line.split()
            while len(words[0]) == 2 and all(c in "0123456789abcdef" for c in words[0]):
                codes.append(int(words.pop(0), 16))
            names[tuple(codes)] = " ".join(words)
    return names


def read_rows():
    rows = []
    with open(os.path.join(ROW_DATA, "explain/descriptors.txt"), encoding="ascii") as table:
        for line in table:
            if line.startswith("#"):
                continue
            head, fields, group = line.rstrip("\n").split("|")
            words = head.split()
            codes = [None if word == "--" else int(word, 16) for word in words[:6]]
            rows.append((codes, " ".join(words[6:]), fields.split(), group.split()))
    return rows


def read_terminals():
    """The names of types of terminals, by class."""
    names = {1: {}, 14: {}}
    with open(os.path.join(ROW_DATA, "explain/terminals.txt"), encoding="ascii") as table:
        for line in table:
            class_, code, name = line.rstrip("\n").split(" ", 2)
            names[int(class_, 16)][int(code, 16)] = name
    return names


def read_bits():
    """The names of bits from bit 0 on, by the name of their field's form."""
    names = {}
    with open(os.path.join(ROW_DATA, "explain/bits.txt"), encoding="ascii") as table:
        for line in table:
            if line.startswith("# "):
                names[line[2:].split(" - ")[0].replace(" ", "_")] = bits = []
            else:
                bits.append(line.rstrip("\n"))
    return names


CLASSES, ROWS, BITS = read_classes(), read_rows(), read_bits()
TERMINALS = {"audio_terminal": read_terminals()[1], "video_terminal": read_terminals()[14]}
FOUR_CHARACTERS = bytes.fromhex("0000 1000 8000 00aa00389b71")


def with_article(noun):
    return f"an {noun}" if noun[0] in "aeiou" else f"a {noun}"


def count(n, noun):
    return f"{n} {noun}" if n == 1 else f"{n} {noun}s"


def byte(n):
    return f"0x{n:02x}"


def word(n):
    return f"0x{n:04x}"


def little(b):
    return int.from_bytes(b, "little")


def bcd(n):
    return f"{n >> 8:x}.{n & 255:02x}"


def with_meaning(number, meaning):
    return f"{number} ({meaning})" if meaning else number


def class_words(codes):
    codes = tuple(codes)
    names = [CLASSES.get(codes[:1], f"class {byte(codes[0])}"), CLASSES.get(codes[:2]), CLASSES.get(codes)]
    return " / ".join(name for name in names if name)


# Class 00 is a device's: for an interface it is reserved, and an association can't have it.
ZERO_CLASS = {"bInterface": "reserved class", "bFunction": "class not allowed"}


def function_class_words(stem, codes):
    return class_words(codes) if codes[0] else ZERO_CLASS[stem]


def class_fields(stem, codes):
    for i, name in enumerate(("Class", "SubClass", "Protocol")):
        meaning = CLASSES.get(tuple(codes[: i + 1]))
        if i == 0 and codes[0] == 0:
            meaning = ZERO_CLASS.get(stem, meaning)
        yield f"{stem}{name}", with_meaning(byte(codes[i]), meaning)


def quoted(units, utf8):
    """Without `utf8` a surrogate pair is two characters of Python, each escaped by itself."""
    text = b"".join(u.to_bytes(2, "little") for u in units).decode("utf-16-le", "surrogatepass") if utf8 else map(chr, units)
    return '"' + "".join(c if is_shown(c, utf8) else escaped(c) for c in text) + '"'


def is_shown(c, utf8):
    """Whether a character is written as it is. Beyond ASCII that is what Unicode 15.0 calls no control, format, surrogate,
    private use or separator, nor leaves unassigned as ignorable by default, nor says to be no character."""
    if " " <= c <= "~":
        return c not in '"\\'
    ignorable = c == "\u2065" or "\ufff0" <= c <= "\ufff8" or "\U000e0000" <= c
    # Format characters since 15.0, which Python may not know as such.
    hieroglyphs = "\U00013430" <= c <= "\U0001343f"
    none = "\ufdd0" <= c <= "\ufdef" or ord(c) % 0x10000 >= 0xFFFE
    hidden = unicodedata.category(c) in ("Cc", "Cf", "Cs", "Co", "Zs", "Zl", "Zp") or hieroglyphs
    return utf8 and not hidden and not ignorable and not none


def escaped(c):
    units = c.encode("utf-16-be", "surrogatepass").hex()
    return "".join(f"\\{units[i : i + 4]}" for i in range(0, len(units), 4))


def end(address, attributes):
    way = "" if attributes % 4 == 0 else " IN" if address >= 128 else " OUT"
    return f"EP {address % 16}{way}"


def attribute_words(a):
    if a % 4 != 1:
        return TRANSFERS[a % 4]
    synchronization = ("no synchronization", "asynchronous", "adaptive", "synchronous")[a >> 2 & 3]
    usage = ("data", "feedback", "implicit feedback data", "reserved usage")[a >> 4 & 3]
    return f"isochronous, {synchronization}, {usage}"


def size_words(attributes, size, speed):
    words, more = count(size % 2048, "byte"), size >> 11 & 3
    counts = speed == HIGH or (speed == FULL_OR_HIGH and has_multiple(size))
    if attributes % 2 == 0 or more == 0 or not counts:
        return words
    return f"{words}, reserved multiple" if more == 3 else f"{more + 1} x {words} a microframe"


def power_of_two(n, unit):
    if not 1 <= n <= 16:
        return "out of range"
    us = 2 ** (n - 1) * unit
    return f"{us} us" if us < 1000 else f"{us // 1000} ms"


def interval_words(attributes, n, speed):
    """The interval of a periodic endpoint; of others there is none."""
    if attributes % 2 == 0:
        return None
    if attributes % 4 == 1:
        slow = power_of_two(n, 1000)
    else:
        slow = f"{n} ms" if n else "out of range"
    fast = power_of_two(n, 125)
    return {HIGH: fast, SUPER: fast, FULL_OR_HIGH: f"{slow}; at high speed {fast}"}.get(speed, slow)


def wrong_at(table, n, speed):
    """The values that are right at a speed, or at one of two, where n is none of them; None where there is nothing wrong."""
    right = [table.get(one) for one in OPEN.get(speed, (speed,))]
    if any(values is None or n in values for values in right):
        return None
    return sorted(set().union(*right))


def interval_remark(transfer, n, speed):
    right = wrong_at(INTERVALS.get(transfer, {}), n, speed)
    return right and f"bInterval is {n}; at {speed} it must be {right[0]} to {right[-1]} (9.6.6)"


def size_remark(transfer, n, speed):
    right = wrong_at(SIZES[transfer], n, speed)
    if right is None:
        return None
    if not right:
        return f"{with_article(transfer)} endpoint; at {speed} there are none ({NO_ENDPOINTS[transfer]})"
    first = ", ".join(map(str, right[:-1]))
    words = f"at most {right[-1]}" if right[0] == 0 else f"{first} or {right[-1]}" if first else right[-1]
    return f"wMaxPacketSize is {count(n, 'byte')}; at {speed} it must be {words} ({SIZE_SECTIONS[transfer]})"


# Table 9-14: the sizes of packets by bits 12 to 11 of wMaxPacketSize. Greater ones have a remark of their own.
COUNTED = {0: range(0x800), 1: range(513, 0x800), 2: range(683, 0x800)}


def multiple_remark(transfer, size, more, speed):
    """Of bits 12 to 11 of wMaxPacketSize."""
    if HIGH in OPEN.get(speed, (speed,)) and transfer in INTERVALS:
        if more not in COUNTED:
            return "3 in bits 12 to 11 of wMaxPacketSize is reserved"
        least = COUNTED[more][0]
        words = f"wMaxPacketSize is {count(size, 'byte')}; with {more + 1} transactions it must be at least {least} (9.6.6)"
        return words if size not in COUNTED[more] else None
    return "bits 12 to 11 of wMaxPacketSize are reserved here" if more else None


def attributes_remark(transfer, a, speed):
    if transfer == "isochronous":
        if a & 0x30 == 0x30:
            return "usage 3 is reserved"
    elif a & (0x2C if (transfer, speed) == ("interrupt", SUPER) else 0x3C):
        return "bits 5 to 2 of bmAttributes are reserved here"
    return "bits 7 to 6 of bmAttributes are reserved" if a & 0xC0 else None


def endpoint_remarks(d, speed):
    transfer, size = TRANSFERS[d[3] % 4], little(d[4:6])
    yield interval_remark(transfer, d[6], speed)
    yield size_remark(transfer, size & 0x7FF, speed)
    yield multiple_remark(transfer, size & 0x7FF, size >> 11 & 3, speed)
    yield attributes_remark(transfer, d[3], speed)


def total_length_at(codes):
    """Where the header of an interface's class descriptors has wTotalLength, or None."""
    if tuple(codes[:2]) == (1, 1):
        return {0x20: 6, 0x30: None}.get(codes[2], 5)
    return 5 if tuple(codes[:2]) == (14, 1) else None


def header_remarks(d, codes, later):
    """Of a class header, with the descriptors of its set after it."""
    if codes is None or d[1] != 0x24 or d[2:3] != b"\x01":
        return
    at, own = total_length_at(codes), itertools.takewhile(lambda x: x[1] == 0x24, later)
    found = len(d) + sum(map(len, own))
    if at and at + 2 <= len(d) and little(d[at : at + 2]) != found:
        yield f"wTotalLength is {little(d[at : at + 2])}, and the class descriptors have {count(found, 'byte')}"


def class_remarks(class_):
    return ["class 0x00 is reserved for future use"] if class_ == 0 else []


# The releases of USB: 2.01 and 2.1 have a BOS, and 2.5 is Wireless USB.
RELEASES = ("1.00", "1.10", "2.00", "2.01", "2.10", "2.50", "3.00", "3.10", "3.20")
# bMaxPacketSize0 by speed: at SuperSpeed it is an exponent.
FIRST_PACKETS = {LOW: "8", FULL: "8, 16, 32 or 64", HIGH: "64", SUPER: "9"}


# Base classes that the list of the USB-IF has for interfaces and not for devices.
OF_INTERFACES = bytes.fromhex("01 03 05 06 07 08 0a 0b 0d 0e 0f 10")


def device_remarks(usb, class_, packet, sets, speed, is_device=True):
    """Of a device or a qualifier, at the speed at which its packets are, if that is known. Of an input that has findings nothing is
    known of the sets."""
    if bcd(usb) not in RELEASES:
        yield "bcdUSB is no release of USB"
    elif not is_device and usb < 0x0200:
        yield f"bcdUSB is {bcd(usb)}; of a qualifier it must be at least 2.00 (9.6.2)"
    if class_ in OF_INTERFACES:
        yield "this class is one of interfaces, and not of devices"
    right = FIRST_PACKETS.get(speed)
    if right and str(packet) not in right.replace(",", "").split():
        section = "USB 3.2, 9.6.1" if speed == SUPER else "5.5.3"
        yield f"bMaxPacketSize0 is {packet}; at {speed} it must be {right} ({section})"
    if sets == 0:
        yield "bNumConfigurations is 0"


def power_remarks(milliamperes, speed):
    most = 1500 if speed == SUPER else 500
    if milliamperes > most:
        yield f"bMaxPower is {milliamperes} mA, and a device draws at most {most} mA"


def association_remarks(d, before):
    """Of an association, with the numbers of the interfaces of its set before it."""
    if before & set(range(d[2], d[2] + d[3])):
        yield "this association comes after its interfaces"


def endpoints_remarks(speed, later):
    """Of a set, with the descriptors after its first one, or None where they aren't all there."""
    addresses = {d[2] for d in later or () if d[1] == 5 and len(d) >= 7 and d[2] & 0x0F}
    if speed == LOW and len(addresses) > 2:
        yield "more than two endpoints; low speed has two beside endpoint 0 (5.3.1.2)"


def interface_numbers(descriptors):
    return {d[2] for d in descriptors if d[1] == 4 and len(d) >= 9}


def interface_remarks(d, own):
    """Of an interface, with the descriptors up to the next one, or None where the set isn't all there."""
    class_, subclass, protocol = d[5:8]
    if own is None:
        return
    if class_ == 3 and all(x[1] != 0x21 for x in own):
        yield "no HID descriptor between interface and endpoints (HID 1.11, 7.1)"
    if class_ == 8 and protocol == 0x50:
        ways = {x[2] >> 7 for x in own if x[1] == 5 and len(x) >= 7 and x[3] % 4 == 2}
        if len(ways) < 2:
            yield "a bulk IN or bulk OUT endpoint is missing (Bulk-Only 1.0, 4.4)"
    if class_ == 2 and subclass in range(1, 15) and subclass != 12 and all(x[1:3] != b"\x24\0" for x in own):
        yield "no header functional descriptor (CDC 1.2, 5.2.3)"
    if class_ == 3 and not any(x[1] == 5 and len(x) >= 7 and x[3] % 4 == 3 and x[2] >= 128 for x in own):
        yield "no interrupt IN endpoint (HID 1.11, 4.4)"


def setting_remarks(d, speed, interface, later):
    """Of an endpoint, with its interface and the descriptors of its set after it, or None where they aren't all there."""
    size = little(d[4:6]) & 0x7FF
    if d[3] % 4 == 1 and size and interface[3] == 0 and speed != SUPER:
        yield f"wMaxPacketSize is {count(size, 'byte')}; in alternate setting 0 it must be 0 (5.6.3)"
    if d[3] % 4 == 3 and size > 64 and interface[3] == 0 and speed == HIGH:
        yield f"wMaxPacketSize is {size} bytes; in alternate setting 0 it must be at most 64 (5.7.3)"
    if size == 0 and interface[3] == 0 and later is not None and not any(x[1] == 4 and x[2] == interface[2] for x in later):
        yield "packets of 0 bytes hold no data, and no other setting follows"


def hid_remarks(d, depth):
    if len(d) < 6:
        yield f"it is too short for bNumDescriptors: bLength is {len(d)} (HID 1.11, 6.2.1)"
    elif len(d) != 6 + 3 * d[5]:
        yield f"by bNumDescriptors it has {count(6 + 3 * d[5], 'byte')}, and bLength is {len(d)}"
    if len(d) >= 9 and d[6] != 0x22:
        yield "it names no report descriptor first (HID 1.11, 6.2.1)"
    elif len(d) >= 9 and d[7:9] == b"\0\0":
        yield "the report descriptor has 0 bytes"
    if depth == 4:
        yield "this HID descriptor comes after an endpoint (HID 1.11, 7.1)"
    if len(d) >= 4:
        yield from release_remarks(d[2:4])


def functional_remarks(d, depth, numbers, later):
    if depth == 4:
        yield "this functional descriptor comes after an endpoint (CDC 1.2, 5.2.3)"
    kind = d[2] if len(d) > 2 else None
    least = {0: 5, 1: 5, 2: 4, 6: 5}.get(kind, 0)
    if len(d) < least:
        yield f"this functional descriptor has at least {least} bytes, and bLength is {len(d)}"
        return
    if kind in (1, 6) and later is not None:
        # The data interface of call management has a meaning only with both of its bits.
        named = d[3:] if kind == 6 else d[4:5] if d[3] & 3 == 3 else b""
        yield from [f"it names interface {n}, which the set hasn't" for n in named if n not in numbers][:1]
    if kind == 0:
        yield from release_remarks(d[3:5])


def release_remarks(b):
    """Of the release of a class, whose digits before the point are one at most."""
    if not 1 <= b[1] <= 0x0F:
        yield "this is no release: its bytes may be swapped"


def raw_remarks(d, codes, depth, numbers, later):
    """Of a descriptor of a class after an interface of these codes, with the numbers of the interfaces of its set, and the
    descriptors after it, or None where they aren't all there."""
    if codes and codes[0] == 3 and d[1] == 0x21:
        yield from hid_remarks(d, depth)
    if codes and codes[0] == 2 and d[1] == 0x24:
        yield from functional_remarks(d, depth, numbers, later)


def has_multiple(max_packet):
    """Whether table 9-14 has the size and bits 12 to 11 of wMaxPacketSize together, of several transactions."""
    size, more = max_packet & 0x7FF, max_packet >> 11 & 3
    return (more == 1 and 513 <= size <= 1024) or (more == 2 and 683 <= size <= 1024)


def proves_high(kind, max_packet):
    size = max_packet & 0x7FF
    return {1: size > 1023 or has_multiple(max_packet), 2: size == 512, 3: size > 64}.get(kind, False)


def is_super_device(d):
    return little(d[2:4]) >= 0x0300 and d[7] == 9


def is_high_hub(d):
    """Of a device or a qualifier."""
    return d[4] == 9 and d[6] in (1, 2)


def side_of(facts, descriptors, is_device):
    """The speed of one side of a device of two speeds, by the device or the qualifier and the descriptors of its sets alone; None
    where they leave it open."""
    if is_device and is_super_device(facts):
        return SUPER
    if is_device and little(facts[2:4]) < 0x0200:
        return FULL
    ends = [(d[3] % 4, little(d[4:6])) for d in descriptors if d[1] == 5 and len(d) >= 7]
    if is_high_hub(facts) or any(proves_high(kind, size) for kind, size in ends):
        return HIGH
    if any(kind == 2 and size % 2048 <= 64 for kind, size in ends) or facts[7] != 64:
        return FULL
    return None


def speed_by(descriptors, known, facts, other):
    """The speed of descriptors of a set: what is known of it, the device or the qualifier before it, and the device's
    other speed if it has one, a speed or None."""
    packet = facts and facts[7]
    ends = [(d[3] % 4, little(d[4:6]), d[6]) for d in descriptors if d[1] == 5 and len(d) >= 7]
    has_other, other = other
    if known:
        speed = known
    elif packet not in (None, 64):
        speed = LOW_OR_FULL
    elif facts is None and any(d[1] == 0x30 for d in descriptors):
        speed = SUPER
    elif any(proves_high(kind, size) for kind, size, _ in ends):
        speed = HIGH
    elif any(kind == 2 and size % 2048 <= 64 for kind, size, _ in ends):
        speed = FULL
    elif other in OTHER_SPEED:
        speed = OTHER_SPEED[other]
    elif facts and facts[1] == 1 and little(facts[2:4]) >= 0x0300:
        speed = HIGH
    elif any(kind == 3 and interval > 16 for kind, _, interval in ends):
        speed = LOW_OR_FULL
    else:
        speed = FULL_OR_HIGH
    is_hub = (facts and facts[4] == 9) or any(d[1] == 4 and len(d) >= 9 and d[5] == 9 for d in descriptors)
    above_low = has_other or is_hub or (packet or 0) > 8 or any(kind in (1, 2) or size % 2048 > 8 for kind, size, _ in ends)
    return FULL if speed == LOW_OR_FULL and above_low else speed


def row_of(d, codes):
    """The first row that holds of a raw descriptor behind an interface of these codes."""
    for (class_, subclass, protocol, kind, first, second), name, fields, group in ROWS:
        wanted = (class_, subclass, protocol)
        mine = codes or (None, None, None)
        if kind == d[1] and all(w is None or w == m for w, m in zip(wanted, mine)):
            zero = zero_place(fields)
            if all(w is None or d[i : i + 1] == bytes([w]) for i, w in ((2, first), (3, second), (zero, zero and 0))):
                return name, fields, group
    return None


def zero_place(fields):
    """Where the field is that the row wants to be 0, or None."""
    at = 2
    for field in fields:
        if field.endswith("=0"):
            return at
        at += size_of(field)
    return None


def milliseconds(n):
    """Units of 100 ns in ms: the digits after the point, without zeros at their end."""
    whole, parts = divmod(n, 10_000)
    after = f".{parts:04d}".rstrip("0") if parts else ""
    return f"{whole}{after} ms"


def guid_name(b):
    characters = b[:4].decode("latin-1")
    is_name = all(c in "0123456789ABCDEFGHIJKLMNOPQRSTUVWXYZ" for c in characters)
    return characters if is_name and b[4:] == FOUR_CHARACTERS else None


def bit_words(names, n):
    return ", ".join(names[i] if i < len(names) else f"bit {i}" for i in range(8) if n >> i & 1)


def field_words(form, b, index):
    if form == "index":
        return index(b[0])
    if form == "interval":
        return f"{little(b)} ({milliseconds(little(b))})"
    if form == "guid":
        return with_meaning(b.hex(), guid_name(b))
    if form in TERMINALS:
        return with_meaning(word(little(b)), TERMINALS[form].get(little(b)))
    if form in BITS:
        return with_meaning(byte(b[0]), bit_words(BITS[form], b[0]))
    if form.startswith("hex"):
        return f"0x{little(b):0{2 * len(b)}x}" if len(b) <= 4 else b.hex()
    if form.startswith("dec"):
        return str(little(b))
    if form == "bcd":
        return f"{word(little(b))} ({bcd(little(b))})"
    return with_meaning(byte(b[0]), {0x22: "report", 0x23: "physical"}.get(b[0]))


def form_of(field):
    """The form of a field, of which the row may ask that it is 0."""
    return field.split(":")[1].removesuffix("=0")


def size_of(field):
    form = form_of(field)
    sizes = {"bcd": 2, "index": 1, "interval": 4, "guid": 16, **dict.fromkeys(TERMINALS, 2), **dict.fromkeys(BITS, 1)}
    return sizes.get(form) or int(form.lstrip("abcdefghijklmnopqrstuvwxyz"))


def raw_fields(d, row, index):
    yield "bDescriptorType", byte(d[1])
    _, fields, group = row or (None, [], [])
    rest = d[2:]
    for field in fields:
        size = size_of(field)
        if size > len(rest):
            break
        yield field.split(":")[0], field_words(form_of(field), rest[:size], index)
        rest = rest[size:]
    else:
        sizes = [size_of(field) for field in group]
        while group and sum(sizes) <= len(rest):
            for field, size in zip(group, sizes):
                name, form = field.split(":")
                yield name, field_words(form, rest[:size], index)
                rest = rest[size:]
    if rest:
        yield "bytes", rest.hex()


# Of a frame, by its subtype, where wWidth and dwDefaultFrameInterval are (UVC 1.5); of a format type, where bSamFreqType is
# (Audio Data Formats 1.0).
FRAMES = {0x05: (5, 21), 0x07: (5, 21), 0x11: (5, 17), 0x14: (4, 39)}
FORMAT_TYPES = {1: 7, 2: 8, 3: 7}


def format_words(d, codes):
    """What tells a video frame or an audio format from others of its kind."""
    if d[1] != 0x24 or len(d) < 4 or codes is None:
        return ""
    if codes[:2] == (0x0E, 2) and d[2] in FRAMES:
        size, interval = FRAMES[d[2]]
        width, height = little(d[size : size + 2]), little(d[size + 2 : size + 4])
        return f", {width} x {height}, {milliseconds(little(d[interval : interval + 4]))}" if interval + 4 <= len(d) else ""
    if codes[:2] == (1, 2) and codes[2] not in (0x20, 0x30) and d[2] == 2 and FORMAT_TYPES.get(d[3], 255) < len(d):
        first = FORMAT_TYPES[d[3]] + 1
        rates = [little(d[i : i + 3]) for i in range(first, len(d) - 2, 3)]
        if d[first - 1] == 0:
            return f", {rates[0]} to {rates[1]} Hz" if len(rates) > 1 else ""
        return "".join(f", {rate} Hz" for rate in rates)
    return ""


# What bytes begin as that holds others, by their first bytes.
CONTAINERS = {
    b"\x7fELF": "an ELF file",
    b"\x1f\x8b": "a gzip file",
}


def container_of(b):
    """What bytes begin as that holds others, in words."""
    for magic, name in CONTAINERS.items():
        if b.startswith(magic):
            return f"{name} ({magic.hex()})"
    record = re.match(rb":((?:[0-9A-Fa-f]{2})+)", b)
    record = bytes.fromhex(record[1].decode()) if record else b""
    record = record[: record[0] + 5] if record else b""
    return "a record of Intel HEX" if record and len(record) == record[0] + 5 and sum(record) % 256 == 0 else ""


class Explanation:
    def __init__(self, kind, data, speed=None, fault=None, brief=False, places=True, utf8=False, decoded=False, formats=False):
        self.kind, self.data, self.asked, self.brief, self.places, self.utf8 = kind, data, speed, brief, places, utf8
        self.fault, self.decoded, self.formats, self.lines = fault, decoded, formats, []
        self.found = set()
        self.names, self.string_places = {}, None
        if not fault:
            lines = checking.findings(kind, data).splitlines()
            self.found = {tuple(line.split()) for line in lines if line != "no findings"}
            if kind == "file":
                self.find_names()
        self.device, self.qualifier, self.languages, self.own, self.other = None, None, None, None, (False, None)
        self.sides = None, None
        self.sets = {"main": 0, "other": 0}
        self.strings = self.remarked = 0

    # Names of strings

    def find_names(self):
        """The strings of the first language, and the index and the language of each string of the file."""
        reader = checking.descriptors.Reader(self.data, True)
        reader.file()
        named = sorted(reader.named)
        if not named:
            return
        at = self.end_of_sets()
        languages = [little(self.data[i : i + 2]) for i in range(at + 2, at + self.data[at], 2)]
        at += self.data[at]
        self.string_places = [(index, language) for language in languages for index in named]
        for index in named:
            d = self.data[at : at + self.data[at]]
            self.names[index] = [little(d[i : i + 2]) for i in range(2, len(d), 2)]
            at += len(d)

    def end_of_sets(self):
        at = 18
        for _ in range(self.data[17]):
            at += little(self.data[at + 2 : at + 4])
        if self.data[at + 1] == 6:
            other, at = self.data[at + 8], at + 10
            for _ in range(other):
                at += little(self.data[at + 2 : at + 4])
        return at

    def index(self, n):
        if n == 0:
            return "0 (none)"
        if self.fault:
            return f"{n} (not read)"
        return f"{n} {quoted(self.names[n], self.utf8)}" if n in self.names else f"{n} (not in the input)"

    # Lines

    def heading(self, depth, text, at, length):
        place = f" @{at}+{length}" if self.places else ""
        self.lines.append(" " * (2 * depth) + text + place)

    def finding(self, depth, rule, text):
        self.lines.append(" " * (2 * depth + 2) + f"! V{rule} {text}")

    def remarks(self, depth, texts):
        for text in texts:
            if text:
                self.remarked += 1
                self.lines.append(" " * (2 * depth + 2) + f"? {text}")

    def fields(self, depth, fields):
        if not self.brief:
            for name, value in fields:
                self.lines.append(" " * (2 * depth + 4) + f"{name:<22} {value}")

    def breaks(self, rule, part, set_=0, setting=0, endpoint=0):
        return (f"V{rule}", part, str(set_), str(setting), str(endpoint)) in self.found

    def findings(self, depth, texts, part, set_=0, setting=0, endpoint=0):
        for rule, text in texts:
            if self.breaks(rule, part, set_, setting, endpoint):
                self.finding(depth, rule, text)

    # Descriptors

    def is_super(self):
        return self.asked == "super" or (self.asked is None and is_super_device(self.device))

    def device_packet(self, n):
        if not self.is_super():
            return str(n)
        return f"{n} ({count(2 ** n, 'byte')})" if n <= 15 else f"{n} (out of range)"

    def packet_fault(self, packet, is_super):
        if is_super and self.kind == "dump":
            return packet != 9, "bMaxPacketSize0 isn't 9"
        if is_super and packet == 9:
            return True, "bMaxPacketSize0 is 9, as SuperSpeed has it; USB 2.0 has 8, 16, 32 or 64"
        return packet not in (8, 16, 32, 64), "bMaxPacketSize0 isn't 8, 16, 32 or 64"

    def subclass_fault(self, codes):
        return codes[0] == 0 and codes[1] != 0, "there is a subclass without a class"

    def of_device(self, d, at):
        self.device = d
        self.find_speeds(self.limit)
        usb, codes = little(d[2:4]), d[4:7]
        text = f"device {little(d[8:10]):04x}:{little(d[10:12]):04x}, USB {bcd(usb)}, {class_words(codes)}"
        self.heading(0, text, at, len(d))
        if d[17] == 0:
            self.findings(0, [(10, "there is no configuration")], "main")
        self.findings(0, [(11, causes(self.packet_fault(d[7], usb >= 0x0300), self.subclass_fault(codes)))], "device")
        speed = SUPER if self.is_super() else AT.get(self.asked) or (HIGH if self.sides[0] == HIGH else None)
        self.remarks(0, device_remarks(usb, d[4], d[7], d[17] or not self.fault, speed))
        self.remarks(0, self.function_remarks(codes, d[17], at + 18))
        fields = [("bcdUSB", f"{word(usb)} ({bcd(usb)})"), *class_fields("bDevice", codes)]
        fields.append(("bMaxPacketSize0", self.device_packet(d[7])))
        fields += [("idVendor", word(little(d[8:10]))), ("idProduct", word(little(d[10:12])))]
        fields.append(("bcdDevice", f"{word(little(d[12:14]))} ({bcd(little(d[12:14]))})"))
        fields += [(name, self.index(d[i])) for name, i in (("iManufacturer", 14), ("iProduct", 15), ("iSerialNumber", 16))]
        self.fields(0, [*fields, ("bNumConfigurations", d[17])])

    def function_remarks(self, codes, sets, at):
        """Of a device or a qualifier by the associations of its sets, which begin here."""
        tells, end, whole = tuple(codes) == (0xEF, 2, 1), at, sets > 0
        for _ in range(sets):
            total = little(self.data[end + 2 : min(end + 4, self.limit)])
            whole, end = whole and total >= 9 and end + total <= self.limit, end + total
        has = any(d[1] == 11 and len(d) >= 8 for _, d in cut(self.data, at, min(end, self.limit)))
        if has and not tells:
            yield "its class isn't 0xef, 0x02, 0x01; with associations it must be (ECN)"
        if tells and whole and not has:
            yield "its class is 0xef, 0x02, 0x01, and it has no association (ECN)"

    def of_qualifier(self, d, at):
        self.qualifier = d
        usb, codes = little(d[2:4]), d[4:7]
        self.heading(0, f"qualifier of the other speed, USB {bcd(usb)}, {class_words(codes)}", at, len(d))
        if d[8] == 0:
            self.findings(0, [(10, "there is no configuration")], "other")
        wrong = causes(self.packet_fault(d[7], False), self.subclass_fault(codes), (d[9] != 0, "bReserved isn't 0"))
        self.findings(0, [(11, wrong)], "other")
        own, other = self.sides
        speed = OTHER_SPEED.get(AT.get(self.asked)) or (HIGH if other == HIGH or own == FULL else None)
        self.remarks(0, device_remarks(usb, d[4], d[7], d[8] or not self.fault, speed, is_device=False))
        self.remarks(0, self.function_remarks(codes, d[8], at + 10))
        if own == other and own in OTHER_SPEED:
            self.remarks(0, [f"its sets are at {own}, as are those before it; they must differ (9.6.2)"])
        fields = [("bcdUSB", f"{word(usb)} ({bcd(usb)})"), *class_fields("bDevice", codes)]
        self.fields(0, [*fields, ("bMaxPacketSize0", d[7]), ("bNumConfigurations", d[8]), ("bReserved", byte(d[9]))])

    def speed_of(self, descriptors):
        if self.device is None:
            return speed_by(descriptors, AT.get(self.asked), None, (False, None))
        if self.qualifier is not None:
            return self.speed_after(self.qualifier, descriptors, OTHER_SPEED.get(AT.get(self.asked)), self.own)
        return self.speed_before(descriptors, self.other)

    def speed_before(self, descriptors, other):
        """Of descriptors before the qualifier, where there is one."""
        given, usb = AT.get(self.asked), little(self.device[2:4])
        if not given and is_super_device(self.device):
            given = SUPER
        elif not given and usb < 0x0200:
            given = LOW_OR_FULL
        elif not given and is_high_hub(self.device):
            given = HIGH
        return speed_by(descriptors, given, self.device, other)

    def speed_after(self, qualifier, descriptors, given, own):
        return speed_by(descriptors, given or (HIGH if is_high_hub(qualifier) else None), qualifier, (True, own))

    def find_speeds(self, limit):
        """The speed of the device's own sets, and whether a qualifier comes after as many sets as it has, with the speed of
        the sets after that; each by what comes on its side alone."""
        at = 18
        for _ in range(self.device[17]):
            at += little(self.data[at + 2 : min(at + 4, limit)])
        sets = [d for _, d in cut(self.data, 18, min(at, limit))]
        self.own = self.speed_before(sets, (True, None))
        self.other, self.sides = (False, None), (side_of(self.device, sets, True), None)
        if at + 10 <= limit and self.data[at : at + 2] == b"\x0a\x06":
            sets = [d for _, d in cut(self.data, at + 10, limit)]
            self.other = True, self.speed_after(self.data[at : at + 10], sets, None, None)
            self.sides = self.sides[0], side_of(self.data[at : at + 10], sets, False)

    def of_set(self, at, limit):
        """The set at this place, as far as it goes; answers where what is left of the input begins."""
        header = self.data[at : at + self.data[at]]
        end_of_set = at + little(header[2:4])
        descriptors = list(cut(self.data, at, min(end_of_set, limit)))
        alone = [d for _, d in descriptors]
        main = header[1] == 2
        part = "main" if main else "other"
        place = (part, self.sets[part])
        self.sets[part] += 1
        speed = self.speed_of(alone)
        associations = [d for d in alone[1:] if d[1] == 11]
        numbers = interface_numbers(alone[1:])
        inner = alone[1:] if end_of_set <= limit else None
        self.of_configuration(header, at, main, place, speed, len(numbers), inner)
        codes, owner, setting, endpoint, association = None, 1, -1, 0, 0
        interface = None
        for i, (p, d) in enumerate(descriptors[1:], 1):
            later = alone[i + 1 :] if end_of_set <= limit else None
            if d[1] == 4:
                owner, setting, endpoint, codes = 2, setting + 1, 0, tuple(d[5:8])
                interface = d
                own = list(itertools.takewhile(lambda x: x[1] != 4, alone[i + 1 :]))
                has = sum(x[1] == 5 for x in own)
                self.of_interface(d, p, place + (setting,), associations, has, None if later is None else own)
            elif d[1] == 5:
                owner = 3
                self.of_endpoint(d, p, place + (setting, endpoint), speed, codes, setting_remarks(d, speed, interface, later))
                endpoint += 1
            elif d[1] == 11:
                before = interface_numbers(alone[1:i])
                self.of_association(d, p, place + (association,), before)
                association += 1
            else:
                self.of_raw(d, p, owner + 1, codes, numbers, later)
        return descriptors[-1][0] + len(descriptors[-1][1])

    def of_configuration(self, d, at, main, place, speed, interfaces, later):
        power = "self-powered" if d[7] & 0x40 else "bus-powered"
        current = f"{d[8] * (8 if speed == SUPER else 2)} mA"
        kind = "configuration" if main else "other-speed configuration"
        self.heading(1, f"{kind} {d[5]}, {speed}, {count(d[4], 'interface')}, {power}, {current}", at, len(d))
        clear, reserved = d[7] < 0x80, d[7] & 0x1F != 0
        wrong = causes((clear, "bit 7 of bmAttributes isn't one"), (reserved, "bits 4 to 0 of bmAttributes aren't zero"))
        texts = [
            (1, f"bNumInterfaces is {d[4]}, and the set has {count(interfaces, 'interface')}"),
            (2, "the interfaces aren't numbered from 0 without a gap"),
            (9, wrong),
            (10, "an earlier set has this bConfigurationValue" if d[5] else "bConfigurationValue is 0"),
        ]
        self.findings(1, texts, *place)
        self.remarks(1, power_remarks(d[8] * (8 if speed == SUPER else 2), speed))
        self.remarks(1, endpoints_remarks(speed, later))
        wakeup = ", remote wakeup" if d[7] & 0x20 else ""
        fields = [
            ("wTotalLength", little(d[2:4])),
            ("bNumInterfaces", d[4]),
            ("bConfigurationValue", d[5]),
            ("iConfiguration", self.index(d[6])),
            ("bmAttributes", f"{byte(d[7])} ({power}{wakeup})"),
            ("bMaxPower", f"{d[8]} ({current})"),
        ]
        self.fields(1, fields + tail(d[9:]))

    def of_association(self, d, at, place, before):
        first, n = d[2], d[3]
        bound = "no interface" if n == 0 else f"interface {first}" if n == 1 else f"interfaces {first} to {first + n - 1}"
        self.heading(2, f"association {place[2]} of {bound}, {function_class_words('bFunction', d[4:7])}", at, len(d))
        wrong = "it binds an interface that the set hasn't" if n else "it binds no interface"
        self.findings(2, [(13, wrong)], *place)
        forbidden = [] if d[4] else ["class 0x00 is not allowed"]
        self.remarks(2, [*forbidden, *association_remarks(d, before)])
        fields = [("bFirstInterface", first), ("bInterfaceCount", n), *class_fields("bFunction", d[4:7])]
        self.fields(2, [*fields, ("iFunction", self.index(d[7])), *tail(d[8:])])

    def of_interface(self, d, at, place, associations, endpoints, own):
        bound = [k for k, a in enumerate(associations) if a[2] <= d[2] < a[2] + a[3]]
        of = f" of association {bound[0]}" if bound else ""
        text = f"interface {d[2]} alternate {d[3]}{of}, {function_class_words('bInterface', d[5:8])}, {count(d[4], 'endpoint')}"
        self.heading(2, text, at, len(d))
        texts = [
            (3, "this interface has this alternate setting already"),
            (4, "this interface has no alternate setting 0"),
            (5, f"bNumEndpoints is {d[4]}, and the setting has {count(endpoints, 'endpoint')}"),
        ]
        self.findings(2, texts, *place)
        self.remarks(2, [*class_remarks(d[5]), *interface_remarks(d, own)])
        fields = [("bInterfaceNumber", d[2]), ("bAlternateSetting", d[3]), ("bNumEndpoints", d[4])]
        self.fields(2, [*fields, *class_fields("bInterface", d[5:8]), ("iInterface", self.index(d[8])), *tail(d[9:])])

    def of_endpoint(self, d, at, place, speed, codes, more):
        size, interval = size_words(d[3], little(d[4:6]), speed), interval_words(d[3], d[6], speed)
        text = f"endpoint {byte(d[2])} ({end(d[2], d[3])}), {attribute_words(d[3])}, {size}"
        self.heading(3, text + (f", {interval}" if interval else ""), at, len(d))
        zero, reserved = d[2] & 0x0F == 0, d[2] & 0x70 != 0
        wrong = causes((zero, "the address names endpoint 0"), (reserved, "bits 6 to 4 of the address aren't zero"))
        texts = [
            (6, wrong),
            (7, "this setting has this address already"),
            (8, "another interface of the set has this address"),
            (12, "bits 15 to 13 of wMaxPacketSize aren't zero"),
        ]
        self.findings(3, texts, *place)
        self.remarks(3, [*endpoint_remarks(d, speed), *more])
        fields = [
            ("bEndpointAddress", f"{byte(d[2])} ({end(d[2], d[3])})"),
            ("bmAttributes", f"{byte(d[3])} ({attribute_words(d[3])})"),
            ("wMaxPacketSize", f"{word(little(d[4:6]))} ({size})"),
            ("bInterval", with_meaning(d[6], interval)),
        ]
        if len(d) == 9 and codes and codes[0] == 1:
            fields += [("bRefresh", d[7]), ("bSynchAddress", byte(d[8]))]
        else:
            fields += tail(d[7:])
        self.fields(3, fields)

    def of_raw(self, d, at, depth, codes, numbers, later):
        row = row_of(d, codes)
        words = format_words(d, codes) if self.formats else ""
        self.heading(depth, (row[0] if row else f"descriptor of type {byte(d[1])}") + words, at, len(d))
        if later is not None:
            self.remarks(depth, header_remarks(d, codes, later))
        self.remarks(depth, raw_remarks(d, codes, depth, numbers, later))
        self.fields(depth, raw_fields(d, row, self.index))

    def of_string(self, d, at):
        units = [little(d[i : i + 2]) for i in range(2, len(d), 2)]
        if self.languages is None and (self.device is not None or names_languages(d)):
            self.languages = units
            self.heading(0, " ".join(["languages", *map(word, units)]), at, len(d))
            if not names_languages(d):
                wrong = next(unit for unit in units if unit & 0x0300 or unit < 0x0400)
                self.remarks(0, [f"{word(wrong)} is not a LANGID: bits 9 to 8 must be 0 and bits 15 to 10 must not all be 0 (9.6.7)"])
            return
        place = ""
        if self.string_places:
            index, language = self.string_places[self.strings]
            place = f" {index} in {word(language)}:"
        self.strings += 1
        self.heading(0, f"string{place} {quoted(units, self.utf8)}", at, len(d))
        if units[-1:] == [0]:
            self.remarks(0, ["the string ends in a NUL, which USB strings don't have (9.6.7)"])

    # The whole

    def stands(self, d, at):
        """Whether a descriptor outside of a set is one that can stand there."""
        return (
            (d[1] == 1 and len(d) == 18 and at == 0)
            or (d[1] == 6 and len(d) == 10 and self.device is not None)
            or (d[1] in (2, 7) and len(d) >= 9)
            or (d[1] == 3 and len(d) % 2 == 0 and (len(d) >= 4 or self.languages is not None or self.device is None))
        )

    # What a broken input looks like

    def likeness(self):
        """What bytes that are no input look like, which are not read as a set: in words, if they look like anything."""
        b, (place, line) = self.data, self.fault
        container = container_of(b)
        if container:
            yield f"the bytes begin as {container}; no descriptors are read out of it"
            return
        if b[1:2] in (b"\x02", b"\x07"):
            yield from self.frame()
            return
        if not b:
            yield "there are no bytes"
        elif len(b) > 1 and all(chr(x) in TEXT for x in b):
            if not self.decoded:
                yield "this is text; explain reads the bytes of descriptors, or their hexadecimal digits"
        elif line.startswith("file fault 4 ") or (
            line.startswith("file fault 5 ") and is_dump(b[:place]) and b[place : place + 2] != b"\x02\x03"
        ):
            follow = len(b) - place
            yield f"the dump ends here, and {count(follow, 'byte')} follow{'s' if follow == 1 else ''}"
        elif any(self.frame()):
            yield from self.frame()
        elif len(b) >= 5 and b[:2] == bytes([5, 15]):
            yield "this looks like a BOS descriptor alone"
        elif b[:2] == bytes([len(b) % 256, 3]) and len(b) < 256 and len(b) % 2 == 0 and not names_languages(b):
            yield "this looks like a string descriptor alone"
        elif REPORT.match(b):
            yield "this looks like a report descriptor"
        elif begins_inside(b) or is_standard_request(b):
            yield "this begins like a fragment of an input, or a setup packet; --loose explains it"

    def frame(self):
        """A frame of usbmon or a packet of the bus, in words, where the bytes look like one."""
        b, follow = self.data, len(self.data) - 64
        if follow >= 0 and chr(b[8]) in "SCE" and b[9] < 4 and int.from_bytes(b[36:40], "little") == follow < 65536:
            yield f"this looks like a frame of usbmon: a header, and {count(follow, 'byte')} at its end"
        elif len(b) > 4 and b[:1] in (b"\xc3", b"\x4b") and b[1] == len(b) - 3:
            yield f"this looks like a packet of the bus: a PID, {count(b[1], 'byte')} and a CRC"

    def put_rest(self, at):
        rest = self.data[at:]
        if rest:
            self.heading(0, "the rest", at, len(rest))
            more = f" and {len(rest) - 32} more" if len(rest) > 32 else ""
            self.fields(0, [("bytes", rest[:32].hex() + more)])

    def text(self):
        names = {"set": "set", "file": "file", "dump": "device and its sets without strings"}
        if self.fault:
            is_set = self.data[1:2] in (b"\x02", b"\x07")
            names = {self.kind: "broken set" if is_set else "broken file"}
        if self.kind == "file" and not self.fault and not self.string_places:
            names["file"] = "file, no strings named"
        self.lines.append(f"{names[self.kind]}, {count(len(self.data), 'byte')}")
        limit = self.limit = self.fault[0] if self.fault else len(self.data)
        at = 0
        while True:
            d = next((d for _, d in cut(self.data, at, limit)), None)
            if d is None or not self.stands(d, at):
                break
            if d[1] in (2, 7):
                at = self.of_set(at, limit)
                continue
            {1: self.of_device, 6: self.of_qualifier, 3: self.of_string}[d[1]](d, at)
            at += len(d)
        if self.fault:
            self.lines.append(f"  ! {self.fault[1]}")
            self.lines += [f"  ? {words}" for words in self.likeness()]
        self.put_rest(at)
        if not self.fault:
            findings = count(len(self.found), "finding") if self.found else "no findings"
            self.lines.append(findings + (f", {count(self.remarked, 'remark')}" if self.remarked else ""))
        return "".join(line + "\n" for line in self.lines)


class Fragment(Explanation):
    """The explanation of descriptors one after another, of which no owner is asked for, or of a setup packet."""

    def __init__(self, data, speed=None, brief=False, places=True, utf8=False, formats=False):
        super().__init__("fragment", data, speed, (0, ""), brief, places, utf8, formats=formats)
        self.speed, self.limit = AT.get(speed, FULL_OR_HIGH), 0

    def index(self, n):
        return f"{n} (not in the input)" if n else "0 (none)"

    def heading(self, depth, text, at, length):
        super().heading(0, text, at, length)

    def remarks(self, depth, texts):
        super().remarks(0, texts)

    def fields(self, depth, fields):
        super().fields(0, fields)

    def find_speeds(self, limit):
        pass

    def is_super(self):
        return self.speed == SUPER

    def of(self, d, at):
        kind, n = d[1], len(d)
        if kind == 1 and n == 18:
            self.of_device(d, at)
        elif kind == 6 and n == 10:
            self.of_qualifier(d, at)
        elif kind in (2, 7) and n >= 9:
            self.of_configuration(d, at, kind == 2, ("main",), self.speed, 0, None)
        elif kind == 3 and n % 2 == 0:
            self.of_string(d, at)
        elif kind == 4 and n >= 9:
            self.of_interface(d, at, ("main",), [], 0, None)
        elif kind == 5 and n >= 7:
            self.of_endpoint(d, at, ("main",), self.speed, self.codes, [])
        elif kind == 11 and n >= 8:
            self.of_association(d, at, ("main", 0, self.associations), set())
            self.associations += 1
        else:
            hid, hub = kind == 0x21 and n == 6 + 3 * sum(d[5:6]), kind == 0x29 and n == 7 + 2 * (sum(d[2:3]) // 8 + 1)
            self.of_raw(d, at, 3, self.codes or ((3, 0, 0) if hid else (9, 0, 0) if hub else None), (), None)

    def of_setup(self, b):
        ways, types = ("OUT", "IN"), ("standard", "class", "vendor", "reserved")
        to = ("device", "interface", "endpoint", "other")[b[0] & 0x1F]
        type_ = types[b[0] >> 5 & 3]
        name = REQUESTS.get(b[1], "reserved request") if type_ == "standard" else f"{type_} request {byte(b[1])}"
        self.heading(0, f"setup packet, {name}", 0, 8)
        fields = [("bmRequestType", f"{byte(b[0])} ({ways[b[0] >> 7]}, {type_}, {to})"), ("bRequest", b[1])]
        fields += [("wValue", word(little(b[2:4]))), ("wIndex", word(little(b[4:6]))), ("wLength", little(b[6:8]))]
        self.fields(0, fields)

    def text(self):
        b = self.data
        self.lines.append(f"fragment, {count(len(b), 'byte')}")
        if len(b) == 8 and b[0] & 0x1F <= 3 and (b[0] & 0x60 or b[1] <= 12):
            self.of_setup(b)
        else:
            self.codes, self.associations, end = None, 0, 0
            for at, d in cut(b, 0, len(b)):
                self.device = self.qualifier = self.languages = None
                self.of(d, at)
                end = at + len(d)
                if d[1] == 4 and len(d) >= 9:
                    self.codes = tuple(d[5:8])
            self.put_rest(end)
        return "".join(line + "\n" for line in self.lines)


# Standard requests (USB 2.0, table 9-4).
REQUESTS = {
    **{0: "GET_STATUS", 1: "CLEAR_FEATURE", 3: "SET_FEATURE", 5: "SET_ADDRESS", 6: "GET_DESCRIPTOR", 7: "SET_DESCRIPTOR"},
    **{8: "GET_CONFIGURATION", 9: "SET_CONFIGURATION", 10: "GET_INTERFACE", 11: "SET_INTERFACE", 12: "SYNCH_FRAME"},
}

# Interface, endpoint, qualifier, association, HID, of a class for an interface or an endpoint, hub.
INNER_TYPES = bytes.fromhex("04 05 06 0b 21 24 25 29")


def begins_inside(b):
    return len(b) >= 3 and 3 <= b[0] <= len(b) and b[1] in INNER_TYPES


def is_standard_request(b):
    """A setup packet, by the direction, type and recipient of its first byte and the request."""
    return len(b) == 8 and b[0] & 0x7F in (0, 1, 2) and b[1] <= 12


def names_languages(d):
    """Whether a string descriptor may be a language list: primary languages are below 256, and sublanguages not 0."""
    uppers = d[3::2]
    return bool(uppers) and all(x & 3 == 0 and x >= 4 for x in uppers)


def is_dump(data):
    """Whether bytes that end where a string descriptor is due are a dump, and none of its strings."""
    reader = checking.descriptors.Reader(data, True)
    reader.dump()
    return reader.at == len(data) and bool(reader.named)


def causes(*causes):
    """The causes that hold, of pairs of what holds and its words."""
    return ", and ".join(words for holds, words in causes if holds)


def tail(b):
    return [("tail", b.hex())] if b else []


def cut(data, at, limit):
    """The descriptors from here on that end at or before the limit."""
    while at < limit and 2 <= data[at] <= limit - at:
        yield at, data[at : at + data[at]]
        at += data[at]


def main(words):
    utf8, formats = words[:1] == ["--utf8"], words[:1] == ["--formats"]
    words = words[utf8 or formats :]
    if len(words) < 2 or words[0] not in ("set", "file", "dump"):
        sys.exit(__doc__)
    for path in words[1:]:
        with open(path, "rb") as source:
            data = source.read()
        # A dump that names no string is a file.
        kind = words[0]
        if kind == "dump":
            reader = checking.descriptors.Reader(data, True)
            reader.dump()
            kind = "dump" if reader.named else "file"
        with open(os.path.splitext(path)[0] + (".formats" if formats else ".explain"), "w", encoding="utf-8") as target:
            target.write(Explanation(kind, data, brief=formats, utf8=utf8, formats=formats).text())


if __name__ == "__main__":
    main(sys.argv[1:])
