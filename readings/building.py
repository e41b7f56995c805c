"""A separate reading of listings: the bytes of the file that a text lists, or the first line at fault and why.

It was written from the tables of docs/formats.md, in another language and by no function of
this repository. The gate compares what it writes (.ci/readings).

    building FILE..              writes what comes of each listing FILE: its bytes to the file of that name that
                                 ends in .file, or the program's line of its fault to the one that ends in .fault
    building --comments FILE..   writes the same for a text that may have comments, where that is something else, to
                                 files that end in .commented.file and .commented.fault
"""

import os
import re
import sys

LINE, WORD, PLACE, FIELD, TOO_LONG, MISSING = 1, 2, 3, 4, 5, 6
WORDS = "device configuration other_speed interface endpoint association raw qualifier languages string".split()
BYTE, NUMBER, TAIL = "([0-9a-f]{2})", "([0-9a-f]{4})", "(-|(?:[0-9a-f]{2})+)"


def form(*fields):
    return re.compile("".join(" " + field for field in fields))


FORMS = {
    "device": form(NUMBER, *[BYTE] * 4, *[NUMBER] * 3, *[BYTE] * 4),
    "configuration": form(*[BYTE] * 5, TAIL),
    "other_speed": form(*[BYTE] * 5, TAIL),
    "interface": form(*[BYTE] * 7, TAIL),
    "endpoint": form(BYTE, BYTE, NUMBER, BYTE, TAIL),
    "association": form(*[BYTE] * 6, TAIL),
    "raw": form(BYTE, TAIL),
    "qualifier": form(NUMBER, *[BYTE] * 6),
}
TYPES = {"device": 1, "configuration": 2, "other_speed": 7, "interface": 4, "endpoint": 5, "association": 11, "qualifier": 6}
# Where the fields of a descriptor hold an index of a string.
NAMES = {"device": (8, 9, 10), "configuration": (2,), "other_speed": (2,), "interface": (6,), "association": (5,)}


class Fault(Exception):
    pass


def little(digits):
    return bytes.fromhex(digits)[::-1]


def descriptor(word, fields):
    """The bytes of a descriptor without those that belong to it; wTotalLength is left out."""
    if word == "raw":
        kind, body = int(fields[0], 16), b"" if fields[1] == "-" else bytes.fromhex(fields[1])
        if kind in (2, 4, 5, 7, 11) or len(body) > 253:
            raise Fault(FIELD)
        return bytes([len(body) + 2, kind]) + body
    body = b"".join(b"" if field == "-" else bytes.fromhex(field) if i == len(fields) - 1 else little(field) for i, field in enumerate(fields))
    total = 2 if word in ("configuration", "other_speed") else 0
    if len(body) + 2 + total > 255:
        raise Fault(FIELD)
    return bytes([len(body) + 2 + total, TYPES[word]]) + body


def string(line):
    found = re.fullmatch(r'string "((?:[ !#-\[\]-~]|\\[0-9a-f]{4})*)"', line)
    if not found:
        raise Fault(FIELD)
    units = []
    for unit in re.findall(r"\\[0-9a-f]{4}|.", found[1]):
        number = int(unit[1:], 16) if len(unit) > 1 else ord(unit)
        if len(unit) > 1 and 0x20 <= number <= 0x7E and chr(number) not in '"\\':
            raise Fault(FIELD)
        units.append(number)
    return text_bytes(units)


def languages(line):
    found = re.fullmatch("languages((?: [0-9a-f]{4})+)", line)
    if not found:
        raise Fault(FIELD)
    return [int(field, 16) for field in found[1].split()]


def text_bytes(units):
    if len(units) > 126:
        raise Fault(FIELD)
    return bytes([2 + 2 * len(units), 3]) + b"".join(unit.to_bytes(2, "little") for unit in units)


class Builder:
    def __init__(self):
        self.parts = []  # whole parts before the current set
        self.set = None  # the descriptors of the current set
        self.interfaces = 0
        self.due = {"configuration": 0, "other_speed": 0}
        self.word_of_sets = "configuration"
        self.named = set()
        self.languages = 0
        self.strings_due = 0
        self.begun = self.qualified = self.spoken = False

    def may_stand(self, word):
        if not self.begun or word == "device":
            return word == "device" and not self.begun
        all_sets = self.due[self.word_of_sets] == 0
        return {
            "configuration": word == self.word_of_sets and not all_sets and not self.spoken,
            "other_speed": word == self.word_of_sets and not all_sets and not self.spoken,
            "interface": self.set is not None,
            "endpoint": self.set is not None and self.interfaces > 0,
            "association": self.set is not None,
            "raw": self.set is not None,
            "qualifier": all_sets and not self.qualified and not self.spoken,
            "languages": all_sets and not self.spoken and bool(self.named),
            "string": self.strings_due > 0,
        }[word]

    def close_set(self):
        if self.set is not None:
            self.parts.append(self.set_bytes())
            self.set = None

    def set_bytes(self):
        first = self.set[0]
        total = len(b"".join(self.set)) + 2
        if total > 65535:
            raise Fault(TOO_LONG)
        return first[:2] + total.to_bytes(2, "little") + first[2:] + b"".join(self.set[1:])

    def add(self, line):
        if re.search("[^ -~]", line):
            raise Fault(LINE)
        word = line.split(" ")[0]
        if word not in WORDS:
            raise Fault(WORD)
        if not self.may_stand(word):
            raise Fault(PLACE)
        if word == "string":
            self.parts.append(string(line))
            self.strings_due -= 1
        elif word == "languages":
            codes = languages(line)
            written = text_bytes(codes)
            self.close_set()
            self.parts.append(written)
            self.spoken = True
            self.strings_due = len(codes) * len(self.named)
        else:
            self.add_descriptor(word, line)

    def add_descriptor(self, word, line):
        found = FORMS[word].fullmatch(line[len(word) :])
        if not found:
            raise Fault(FIELD)
        fields = found.groups()
        written = descriptor(word, fields)
        if word == "device":
            self.begun = True
            self.parts.append(written)
            self.due["configuration"] = written[17]
        elif word == "qualifier":
            self.close_set()
            self.parts.append(written)
            self.qualified, self.word_of_sets = True, "other_speed"
            self.due["other_speed"] = written[8]
        elif word == self.word_of_sets:
            self.close_set()
            self.set, self.interfaces = [written], 0
            self.due[word] -= 1
        else:
            self.set.append(written)
            self.interfaces += word == "interface"
            self.set_bytes()
        self.named.update(int(fields[place], 16) for place in NAMES.get(word, ()))
        self.named.discard(0)

    def is_whole(self):
        return self.begun and self.due[self.word_of_sets] == 0 and self.strings_due == 0 and self.spoken == bool(self.named)


def build(text, has_comments=False):
    """The bytes, or the number and the line of the fault. Where there may be comments, they are dropped with empty lines
    and with a carriage return at the end of a line."""
    builder = Builder()
    lines = text.split(b"\n")
    for number, line in enumerate(lines[:-1], 1):
        if has_comments:
            line = line.removesuffix(b"\r")
            if not line or line.startswith(b"#"):
                continue
        try:
            builder.add(line.decode("latin-1"))
        except Fault as fault:
            return fault.args[0], number
    if lines[-1]:
        return LINE, len(lines)
    if not builder.is_whole():
        return MISSING, len(lines)
    builder.close_set()
    return b"".join(builder.parts)


def digits(built):
    """The bytes as hexadecimal text, as --hex has them: 16 a line."""
    lines = (built[place : place + 16].hex(" ") for place in range(0, len(built), 16))
    return "".join(f"{line}\n" for line in lines).encode()


def main(paths):
    has_comments = paths[:1] == ["--comments"]
    if not paths[has_comments:]:
        sys.exit(__doc__)
    for path in paths[has_comments:]:
        with open(path, "rb") as source:
            text = source.read()
        built = build(text, has_comments)
        if has_comments and built == build(text):
            continue
        stem = os.path.splitext(path)[0] + ".commented" * has_comments
        if isinstance(built, bytes):
            with open(stem + ".file", "wb") as target:
                target.write(built)
        else:
            with open(stem + ".fault", "w", encoding="ascii") as target:
                target.write(f"usbdesc: listing fault {built[0]} line {built[1]}\n")


if __name__ == "__main__":
    main(sys.argv[1:])
