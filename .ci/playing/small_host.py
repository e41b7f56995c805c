"""A small host that enumerates, right and in four wrong ways, written from chapters 8 and 9 of the standard and not from the
library."""
from nozzlegorse.ends import Transaction

WRONG = ("the new address is used after SETUP", "a short packet doesn't end the data", "the status stage has DATA0",
         "packets that come again are kept")
# where a descriptor of a set names a string: type, place of the index
NAMES = {2: 6, 7: 6, 4: 8, 11: 7}


class Gone(Exception):
    """The device doesn't answer, or refuses what it may not."""


class SmallHost:
    """`wrong` says what it does wrong."""

    def __init__(self, wrong=""):
        self.wrong = wrong

    def __call__(self, bus):
        for _ in range(3):
            bus.reset()
            self.bus, self.address, self.packet = bus, 0, 8
            try:
                return self.enumerate()
            except Gone:
                continue
        return None

    def send(self, *what):
        """With retries: three silences end it, and so do many NAKs."""
        silences = 0
        for _ in range(40):
            reply = self.bus.send(Transaction(self.address, *what))
            silences += reply.kind == "silence"
            if silences == 3:
                break
            if reply.kind not in ("silence", "nak"):
                return reply
        raise Gone

    def transfer(self, q):
        """The bytes that a request brings, or None where it is refused."""
        length = int.from_bytes(q[6:], "little")
        self.send("setup", q)
        if self.wrong == "the new address is used after SETUP" and q[1] == 5:
            self.address = q[2]
        got = self.data_stage(length) if length else b""
        if got is None:
            return None
        toggle = 0 if self.wrong == "the status stage has DATA0" else 1
        if (self.send("out", bytes(8), toggle) if length else self.send("in")).kind == "stall":
            return None
        if q[1] == 5:
            self.address = q[2]
        return got

    def data_stage(self, length):
        got, toggle, strikes = b"", 1, 0
        while strikes < 3:
            reply = self.send("in")
            if reply.kind == "stall":
                return None
            if reply.toggle != toggle and self.wrong != "packets that come again are kept":
                strikes += 1
                continue
            toggle, strikes, got = toggle ^ 1, 0, got + reply.data
            is_short = len(reply.data) < self.packet and self.wrong != "a short packet doesn't end the data"
            if len(got) >= length or is_short:
                return got
        raise Gone

    def get(self, kind, index, language, length):
        return self.transfer(bytes([0x80, 6, index, kind]) + language.to_bytes(2, "little") + length.to_bytes(2, "little"))

    def enumerate(self):
        first = self.get(1, 0, 0, 8)
        if first is None or len(first) < 8:
            raise Gone
        self.packet = first[7]
        self.transfer(bytes([0, 5, 1, 0, 0, 0, 0, 0]))
        file = self.get(1, 0, 0, 18)
        named = set(file[14:17])
        first_set, is_usb_2 = len(file), file[3] >= 2
        file += self.sets(2, file[17], named)
        if is_usb_2 and (qualifier := self.get(6, 0, 0, 10)):
            file += qualifier + self.sets(7, qualifier[8], named)
        file += self.strings(sorted(named - {0}))
        self.transfer(bytes([0, 9, file[first_set + 5], 0, 0, 0, 0, 0]))
        return file

    def strings(self, named):
        if not named:
            return b""
        all_ = languages = self.get(3, 0, 0, 255)
        for at in range(2, len(languages), 2):
            for index in named:
                all_ += self.get(3, index, int.from_bytes(languages[at:at + 2], "little"), 255)
        return all_

    def sets(self, kind, count, named):
        all_ = b""
        for number in range(count):
            header = self.get(kind, number, 0, 9)
            set_ = self.get(kind, number, 0, int.from_bytes(header[2:4], "little"))
            at = 0
            while at < len(set_):
                if set_[at + 1] in NAMES:
                    named.add(set_[at + NAMES[set_[at + 1]]])
                at += set_[at] or 1
            all_ += set_
        return all_
