"""A separate reading of sets and descriptor files, from which the listings beside the examples come.

It was written from the tables of USB 2.0, 9.5 and 9.6, and of the engineering change notice on interface
association descriptors, in another language and by no function of this repository. The gate compares what it writes (.ci/readings).

    descriptors set FILE..      writes FILE's listing to the file of that name that ends in .txt
    descriptors file FILE..     the same of a descriptor file
    descriptors dump FILE..     the same of the device descriptor and its sets alone, as Linux gives them
    descriptors --raw ..        keeps interface associations as raw descriptors
"""

import os
import struct
import sys

DEVICE, CONFIGURATION, STRING, INTERFACE, ENDPOINT, QUALIFIER, OTHER_SPEED, ASSOCIATION = 1, 2, 3, 4, 5, 6, 7, 11


class Reader:
    def __init__(self, data, typed_associations):
        self.data = data
        self.at = 0
        self.lines = []
        self.named = set()
        self.typed_associations = typed_associations

    def take(self, count):
        assert self.at + count <= len(self.data), f"the bytes end before {self.at + count}"
        self.at += count
        return self.data[self.at - count : self.at]

    def descriptor(self):
        """The next descriptor, whole."""
        length = self.data[self.at]
        assert length >= 2, f"a length of {length} at {self.at}"
        return self.take(length)

    def say(self, word, *fields):
        self.lines.append(" ".join((word,) + fields))

    def name(self, *indices):
        self.named.update(index for index in indices if index)

    def device(self):
        d = self.take(18)
        assert d[0] == 18 and d[1] == DEVICE, "no device descriptor"
        usb, vendor, product, release = struct.unpack("<2xH4xHHH4x", d)
        self.name(*d[14:17])
        self.say("device", word(usb), *map(byte, d[4:8]), word(vendor), word(product), word(release), *map(byte, d[14:18]))
        return d[17]

    def qualifier(self):
        q = self.take(10)
        assert q[0] == 10 and q[1] == QUALIFIER, "no qualifier"
        self.say("qualifier", word(q[2] + 256 * q[3]), *map(byte, q[4:10]))
        return q[8]

    def set(self, kind=None):
        start = self.at
        c = self.descriptor()
        assert c[1] in (CONFIGURATION, OTHER_SPEED) and len(c) >= 9, f"no configuration at {start}"
        assert kind in (None, c[1]), f"a set of the other kind at {start}"
        end = start + c[2] + 256 * c[3]
        self.name(c[6])
        self.say("configuration" if c[1] == CONFIGURATION else "other_speed", *map(byte, c[4:9]), bytes_(c[9:]))
        interfaces = 0
        while self.at < end:
            at = self.at
            d = self.descriptor()
            assert self.at <= end, f"past the set at {at}"
            assert d[1] not in (CONFIGURATION, OTHER_SPEED), f"nested at {at}"
            if d[1] == INTERFACE:
                assert len(d) >= 9, f"a short interface at {at}"
                interfaces += 1
                self.name(d[8])
                self.say("interface", *map(byte, d[2:9]), bytes_(d[9:]))
            elif d[1] == ENDPOINT:
                assert len(d) >= 7, f"a short endpoint at {at}"
                assert interfaces, f"an endpoint of no interface at {at}"
                self.say("endpoint", byte(d[2]), byte(d[3]), word(d[4] + 256 * d[5]), byte(d[6]), bytes_(d[7:]))
            elif d[1] == ASSOCIATION and self.typed_associations:
                assert len(d) >= 8, f"a short association at {at}"
                self.name(d[7])
                self.say("association", *map(byte, d[2:8]), bytes_(d[8:]))
            else:
                self.say("raw", byte(d[1]), bytes_(d[2:]))

    def units(self):
        d = self.descriptor()
        assert d[1] == STRING and len(d) % 2 == 0, f"no string before {self.at}"
        return struct.unpack(f"<{len(d) // 2 - 1}H", d[2:])

    def strings(self):
        languages = self.units()
        assert languages, "no language"
        self.say("languages", *map(word, languages))
        for _ in languages:
            for _ in self.named:
                self.say("string", '"' + "".join(map(character, self.units())) + '"')

    def file(self):
        for _ in range(self.device()):
            self.set(CONFIGURATION)
        if self.data[self.at + 1 : self.at + 2] == bytes([QUALIFIER]):
            for _ in range(self.qualifier()):
                self.set(OTHER_SPEED)
        if self.named:
            self.strings()

    def dump(self):
        for _ in range(self.device()):
            self.set(CONFIGURATION)

    def finish(self):
        assert self.at == len(self.data), f"bytes after {self.at}"
        return "".join(line + "\n" for line in self.lines)


def byte(value):
    return f"{value:02x}"


def word(value):
    return f"{value:04x}"


def bytes_(data):
    return data.hex() or "-"


def character(unit):
    if 0x20 <= unit <= 0x7E and chr(unit) not in '"\\':
        return chr(unit)
    return f"\\{unit:04x}"


def listing(kind, data, typed_associations=True):
    reader = Reader(data, typed_associations)
    {"set": reader.set, "file": reader.file, "dump": reader.dump}[kind]()
    return reader.finish()


def main(words):
    typed_associations = "--raw" not in words
    words = [word for word in words if word != "--raw"]
    if len(words) < 2 or words[0] not in ("set", "file", "dump"):
        sys.exit(__doc__)
    for path in words[1:]:
        with open(path, "rb") as source:
            text = listing(words[0], source.read(), typed_associations)
        with open(os.path.splitext(path)[0] + ".txt", "w", encoding="ascii") as target:
            target.write(text)


if __name__ == "__main__":
    main(sys.argv[1:])
