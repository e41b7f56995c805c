"""A separate reading of what the program answers to any bytes: the listing, the findings, the bytes of a listing and
what comes of an enumeration, or the line of the fault.

The faults and their places are those of the tables of docs/formats.md, read here over whole bytes and by no function of
this repository. What an input that has no fault comes to is told by the other readings.
"""

from functools import lru_cache

from readings import building, checking, descriptors, enumerations_of_files, explaining, hexadecimal, logs
from readings.enumerating import Device, Host, enumerate_device
from readings.enumerating import File as DeviceFile

DEVICE, TEXT, TRUNCATED, TRAILING = 1, 5, 6, 7
LEAST = {4: 9, 5: 7, 11: 8}
# Where the fields of a descriptor of a set hold an index of a string.
INDEX = {2: 6, 7: 6, 4: 8, 11: 7}


# What breaks a set, and what breaks a file, by the numbers of docs/formats.md.
SET_MESSAGES = [
    "the first bLength is below 9",
    "the first descriptor is no configuration",
    "wTotalLength is below the first bLength",
    "a bLength is below 2",
    "a descriptor ends past wTotalLength",
    "a configuration inside a set",
    "an interface, endpoint or association descriptor is too short",
    "an endpoint before any interface",
    "the bytes end before the set does",
]
FILE_MESSAGES = [
    "no device descriptor",
    "in a set, ",
    "a set of the other kind",
    "no qualifier",
    "no string descriptor",
    "the bytes end before the file does",
    "bytes after the end of the file",
]


class Fault(Exception):
    """A number, a place, and of a set in a file the number of its own fault."""


class Truncated(Exception):
    """The bytes end, and show no fault."""


def item_fault(b, place, total, has_interface):
    """The fault of the descriptor at this place behind the first one of a set."""
    length = b[place]
    if length < 2:
        return 4
    if place + length > total:
        return 5
    if place + 1 == len(b):
        return None
    kind = b[place + 1]
    if kind in (2, 7):
        return 6
    if length < LEAST.get(kind, 2):
        return 7
    return 8 if kind == 5 and not has_interface else None


def set_at(b):
    """The length of the set that the bytes begin with, and the indices that it names."""
    if b[0:1] and b[0] < 9:
        raise Fault(1, 0)
    if b[1:2] and b[1] not in (2, 7):
        raise Fault(2, 1)
    total = b[2] + 256 * b[3] if len(b) > 3 else 0
    if len(b) > 3 and total < b[0]:
        raise Fault(3, 2)
    if len(b) < 4 or len(b) < b[0]:
        raise Truncated
    named, place, has_interface = {b[6]}, b[0], False
    while place < total:
        if place >= len(b):
            raise Truncated
        fault = item_fault(b, place, total, has_interface)
        if fault:
            raise Fault(fault, place)
        if place + b[place] > len(b):
            raise Truncated
        kind = b[place + 1]
        has_interface = has_interface or kind == 4
        if kind in INDEX:
            named.add(b[place + INDEX[kind]])
        place += b[place]
    return total, named


class File:
    """What bytes are as a file, part after part. `is_dump` is whether they are a dump: they end right behind the sets of
    the device, and an index is named."""

    def __init__(self, b):
        self.b, self.at, self.is_dump = b, 0, False

    def read(self):
        if len(self.b) < 18:
            raise Truncated
        if self.b[:2] != b"\x12\x01":
            raise Fault(DEVICE, 0)
        self.at, self.named = 18, set(self.b[14:17])
        self.sets(self.b[17], 2)
        self.is_dump = self.at == len(self.b) and bool(self.named - {0})
        if self.at + 1 == len(self.b):
            raise Truncated
        if self.b[self.at + 1 : self.at + 2] == b"\x06":
            self.qualifier()
        if self.named - {0}:
            self.strings()
        if self.at < len(self.b):
            raise Fault(TRAILING, self.at)

    def sets(self, count, kind):
        for _ in range(count):
            try:
                length, named = set_at(self.b[self.at :])
            except Fault as fault:
                raise Fault(2, self.at + fault.args[1], fault.args[0]) from None
            if self.b[self.at + 1] != kind:
                raise Fault(3, self.at + 1)
            self.named |= named
            self.at += length

    def qualifier(self):
        if self.at + 10 > len(self.b):
            raise Truncated
        if self.b[self.at] != 10:
            raise Fault(4, self.at)
        count = self.b[self.at + 8]
        self.at += 10
        self.sets(count, 7)

    def units(self):
        """How many units the string has that stands next."""
        if self.at + 2 > len(self.b):
            raise Truncated
        length, kind = self.b[self.at], self.b[self.at + 1]
        if length < 2 or length % 2 or kind != 3:
            raise Fault(TEXT, self.at)
        if self.at + length > len(self.b):
            raise Truncated
        self.at += length
        return length // 2 - 1

    def strings(self):
        begin = self.at
        languages = self.units()
        if languages == 0:
            raise Fault(TEXT, begin)
        for _ in range(languages * len(self.named - {0})):
            self.units()


@lru_cache(maxsize=64)
def file_fault(b):
    """The line of the fault of bytes as a file, and whether they are a dump."""
    file = File(b)
    try:
        file.read()
        return None, False
    except Fault as fault:
        number, place = fault.args[:2]
    except Truncated:
        number, place = TRUNCATED, len(b)
    return f"usbdesc: file fault {number} at {place}\n", file.is_dump


def set_fault(b):
    """The line of the fault of bytes as one set."""
    try:
        length, _ = set_at(b)
    except Fault as fault:
        return f"usbdesc: set fault {fault.args[0]} at {fault.args[1]}\n"
    except Truncated:
        return f"usbdesc: set fault 9 at {len(b)}\n"
    return f"usbdesc: trailing bytes at {length}\n" if length < len(b) else None


def form(b):
    """The line of the fault of bytes as an input, and whether they are a set, a file or a dump."""
    if len(b) > 1 and b[1] in (2, 7):
        return set_fault(b), "set"
    fault, dump = file_fault(b)
    return (None, "dump") if dump else (fault, "file")


def set_or_file(b):
    """The line of the fault of bytes as a set or a file, and which of the two they are read as."""
    return (set_fault(b), "set") if len(b) > 1 and b[1] in (2, 7) else (file_fault(b)[0], "file")


# The same is asked of an input by several commands.
listing_of = lru_cache(maxsize=64)(descriptors.listing)
findings_of = lru_cache(maxsize=64)(checking.findings)


def listed(read):
    fault, kind, b = read
    return (3, b"", fault) if fault else (0, listing_of(kind, b).encode(), "")


def checked(read):
    fault, kind, b = read
    if fault:
        return 3, b"", fault
    findings = findings_of(kind, b)
    return int(findings != "no findings\n"), findings.encode(), ""


def show(b):
    return listed((*set_or_file(b), b))


def show_any(b):
    return listed((*form(b), b))


def check(b):
    return checked((file_fault(b)[0], "file", b))


def check_any(b):
    return checked((*form(b), b))


def file_message(b, number):
    """What breaks a file, and of a set in it what breaks that."""
    try:
        File(b).read()
    except (Fault, Truncated) as fault:
        return FILE_MESSAGES[number - 1] + (SET_MESSAGES[fault.args[2] - 1] if number == 2 else "")


def message(b, line):
    """What the fault of this line is, in words."""
    words = line.split(" ")
    if words[0] == "trailing":
        return "bytes after the set"
    number = int(words[2])
    return SET_MESSAGES[number - 1] if words[0] == "set" else file_message(b, number)


def explain(b):
    """Bytes that are no input may be hexadecimal text."""
    if form(b)[0]:
        try:
            data = hexadecimal.read(b)
        except hexadecimal.Fault as stopped:
            status, text, fault = explain_bytes(b)
            return status, hexadecimal.stop(b, stopped).encode() + text, fault
        status, text, fault = explain_bytes(data, decoded=True)
        return status, f"hexadecimal text, {explaining.count(len(data), 'byte')}: ".encode() + text, fault
    return explain_bytes(b)


def explain_bytes(b, decoded=False):
    fault, kind = form(b)
    if not fault:
        return 0, explaining.Explanation(kind, b).text().encode(), ""
    line = fault.strip().removeprefix("usbdesc: ")
    place = int(line.rsplit(" ", 1)[1])
    told = place, f"{line}: {message(b, line)}"
    return 3, explaining.Explanation(kind, b, fault=told, decoded=decoded).text().encode(), fault


def build(b, commented=False):
    built = building.build(b, commented)
    if isinstance(built, bytes):
        return 0, built, ""
    return 3, b"", f"usbdesc: listing fault {built[0]} line {built[1]}\n"


@lru_cache(maxsize=None)
def refused_or_listed(b):
    """The answer where no device is made of the bytes, or None; and their listing."""
    fault, _ = file_fault(b)
    if fault:
        return (3, "", fault), None
    line = enumerations_of_files.refused(b, "full")
    return ((1, line + "\n", ""), None) if line else (None, listing_of("file", b))


def enumeration(b, fates="", naks=16, attempts=3, word="enumerate"):
    """The status, the texts that are written one after another, and the line of the fault."""
    answer, listing = refused_or_listed(b)
    if answer:
        status, text, fault = answer
        return status, [text] if text else [], fault
    device, host = Device(DeviceFile(b)), Host("full", 1, naks, attempts)
    texts = []
    if word != "enumerate":
        texts = list(logs.steps(device, host, fates, word == "brief"))
    else:
        enumerate_device(device, host, fates)
    if host.outcome:
        return 1, [*texts, host.result() + "\n"], ""
    assert host.read == b
    line = f"{host.result()} address {device.address} value {device.selected}\n"
    return 0, [*texts, line, listing], ""


# What is lost where a log fails: the ACK of the address.
LOST = "....a"
COMMANDS = {
    "show": show,
    "show_any": show_any,
    "check": check,
    "check_any": check_any,
    "explain": explain,
    "build": build,
    "build_commented": lambda b: build(b, commented=True),
}


@lru_cache(maxsize=None)
def texts(command, b):
    """The exit status of the command with this input, the texts that it writes to standard output one after another, and
    what it writes to standard error."""
    if command in COMMANDS:
        status, output, errors = COMMANDS[command](b)
        return status, [output], errors
    status, written, errors = enumeration(b, LOST, word="log") if command == "log" else enumeration(b)
    return status, [text.encode() for text in written], errors


def answer(command, b):
    """The exit status, all that is written to standard output, and to standard error."""
    status, written, errors = texts(command, b)
    return status, b"".join(written), errors
