"""A separate reading of the rules of chapter 9, from which the findings beside the descriptor files come.

It was written from the rules in words, in another language and by no function of this repository. It stands on the listing of
descriptors.py. The gate compares what it writes (.ci/readings).

    checking file FILE..    writes what is wrong with the descriptor file to the file of that name that ends in .check
    checking set FILE..     the same of a configuration set alone
    checking dump FILE..    the same of a dump of Linux
"""

import os
import sys

from readings import descriptors


class Setting:
    def __init__(self, number, alternate, declared):
        self.number, self.alternate, self.declared = number, alternate, declared
        self.endpoints = []  # pairs of bEndpointAddress and wMaxPacketSize


class Set:
    def __init__(self, declared, value, attributes):
        self.declared, self.value, self.attributes = declared, value, attributes
        self.settings = []
        self.associations = []  # pairs of bFirstInterface and bInterfaceCount, in the order of the bytes

    def numbers(self):
        return {s.number for s in self.settings}

    def endpoints(self):
        return [(i, j, a, size) for i, s in enumerate(self.settings) for j, (a, size) in enumerate(s.endpoints)]


class Input:
    def __init__(self, kind, text):
        self.device, self.qualifier, self.is_dump = None, None, kind == "dump"
        self.parts = {} if kind == "set" else {"main": []}
        for line in text.splitlines():
            word, *fields = line.split(" ")
            if word in ("raw", "languages", "string"):
                continue
            values = [int(field, 16) for field in fields if field != "-"]
            self.add(word, values)

    def add(self, word, v):
        if word == "device":
            self.device = v
        elif word == "qualifier":
            self.qualifier = v
            self.parts["other"] = []
        elif word in ("configuration", "other_speed"):
            self.part = self.parts.setdefault("main" if word == "configuration" else "other", [])
            self.part.append(Set(v[0], v[1], v[3]))
        elif word == "interface":
            self.part[-1].settings.append(Setting(v[0], v[1], v[2]))
        elif word == "endpoint":
            self.part[-1].settings[-1].endpoints.append((v[0], v[2]))
        elif word == "association":
            self.part[-1].associations.append((v[0], v[1]))


def wrong_packet_or_class(sizes, packet, class_, subclass):
    return packet not in sizes or (class_ == 0 and subclass != 0)


SIZES = (8, 16, 32, 64)


def repeated(values):
    """The places of values that an earlier one equals."""
    seen = set()
    for i, value in enumerate(values):
        if value in seen:
            yield i
        seen.add(value)


def shared(settings):
    """The endpoints (setting, endpoint) whose address an earlier one of another interface has."""
    owners = {}
    for i, x in enumerate(settings):
        for j, (address, _) in enumerate(x.endpoints):
            if owners.setdefault(address, set()) - {x.number}:
                yield i, j
            owners[address].add(x.number)


def of_set(rule, c):
    """The places (setting, endpoint) of the set's findings of this rule."""
    s, numbers = c.settings, c.numbers()
    pairs = [(x.number, x.alternate) for x in s]
    endpoints = c.endpoints()
    if rule == 1:
        return [(0, 0)] * (c.declared != len(numbers))
    if rule == 2:
        return [(0, 0)] * (sorted(numbers) != list(range(len(numbers))))
    if rule == 3:
        return [(i, 0) for i in repeated(pairs)]
    if rule == 4:
        lacking = numbers - {number for number, alternate in pairs if alternate == 0}
        again = set(repeated(x.number for x in s))
        return [(i, 0) for i, x in enumerate(s) if x.number in lacking and i not in again]
    if rule == 5:
        return [(i, 0) for i, x in enumerate(s) if x.declared != len(x.endpoints)]
    if rule == 6:
        return [(i, j) for i, j, a, _ in endpoints if a % 16 == 0 or a // 16 % 8]
    if rule == 7:
        return [(i, j) for i, x in enumerate(s) for j in repeated(address for address, _ in x.endpoints)]
    if rule == 8:
        return list(shared(s))
    if rule == 9:
        return [(0, 0)] * (c.attributes < 128 or c.attributes % 32 != 0)
    if rule == 12:
        return [(i, j) for i, j, _, size in endpoints if size // 8192]
    if rule == 13:
        return [
            (i, 0)
            for i, (first, count) in enumerate(c.associations)
            if count == 0 or any(n not in numbers for n in range(first, first + count))
        ]


def of_rule(rule, f):
    """The places (part, set, setting, endpoint) of the input's findings of this rule."""
    if rule == 11:
        d, q = f.device, f.qualifier
        sizes = (9,) if f.is_dump and d[0] >= 0x0300 else SIZES
        if d and wrong_packet_or_class(sizes, d[4], d[1], d[2]):
            yield "device", 0, 0, 0
        if q and (wrong_packet_or_class(SIZES, q[4], q[1], q[2]) or q[6] != 0):
            yield "other", 0, 0, 0
        return
    for part, sets in f.parts.items():
        if rule == 10:
            values = [c.value for c in sets]
            if not sets:
                yield part, 0, 0, 0
            for i, value in enumerate(values):
                if value == 0 or value in values[:i]:
                    yield part, i, 0, 0
        else:
            for i, c in enumerate(sets):
                for place in of_set(rule, c):
                    yield (part, i) + place


def read(kind, data):
    """The input that the bytes are. A dump that names no string is a file."""
    reader = descriptors.Reader(data, True)
    {"set": reader.set, "file": reader.file, "dump": reader.dump}[kind]()
    return Input("file" if kind == "dump" and not reader.named else kind, reader.finish())


def findings(kind, data):
    f = read(kind, data)
    lines = [
        " ".join([f"V{rule}"] + [str(word) for word in place]) for rule in range(1, 14) for place in of_rule(rule, f)
    ]
    return "".join(line + "\n" for line in lines or ["no findings"])


def main(words):
    if len(words) < 2 or words[0] not in ("set", "file", "dump"):
        sys.exit(__doc__)
    for path in words[1:]:
        with open(path, "rb") as source:
            text = findings(words[0], source.read())
        with open(os.path.splitext(path)[0] + ".check", "w", encoding="ascii") as target:
            target.write(text)


if __name__ == "__main__":
    main(sys.argv[1:])
