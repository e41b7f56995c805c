"""A small device, right and in seven wrong ways, written from chapters 8 and 9 of the standard and not from the library."""
from nozzlegorse import read
from nozzlegorse.ends import ACK, NAK, SILENCE, STALL, Reply

WRONG = ("the toggle doesn't flip", "the address is taken at SETUP", "no empty packet after whole ones",
         "the toggle flips with the packet, not with its ACK", "the address is taken with the status packet",
         "the toggle of the last transfer goes on", "the status stage is answered once")


class SmallDevice:
    """Has the descriptors of a file. `wrong` says what it does wrong."""

    def __init__(self, file, wrong=""):
        self.wrong, all_ = wrong, read(file)
        self.packet, self.sets = file[7], all_.configurations
        self.descriptors = {(1, 0, 0): all_.device.data}
        for kind, sets in ((2, all_.configurations), (7, all_.other_configurations)):
            self.descriptors |= {(kind, n, 0): file[it.place:it.place + it["wTotalLength"]] for n, it in enumerate(sets)}
        if all_.qualifier:
            self.descriptors[6, 0, 0] = all_.qualifier.data
        self.languages = b"".join(it.to_bytes(2, "little") for it in all_.languages)
        self.strings = {(it.index, it.language): it.data for it in all_.strings}
        self.reset()

    def reset(self):
        self.address = self.selected = self.wakes = 0
        self.new_address, self.stage, self.data, self.toggle, self.sent = None, "halted", b"", 1, None
        self.alternates, self.halts = {}, set()

    def transaction(self, it, ready):
        if it.address != self.address:
            return SILENCE
        self.sent = None
        if it.stage == "setup":
            self.setup(it.setup_bytes)
            return ACK
        if not ready:
            return NAK
        return self.input() if it.stage == "in" else self.output(it)

    def setup(self, q):
        if self.wrong != "the toggle of the last transfer goes on":
            self.toggle = 1
        length, answer = int.from_bytes(q[6:], "little"), self.answer(q)
        self.new_address, self.stage = None, "halted"
        if answer is not None and length:
            self.stage, self.data = "data in", answer[:length]
            self.empty_due = len(answer) < length and len(answer) % self.packet == 0 and self.wrong != "no empty packet after whole ones"
        elif answer is not None:
            self.stage, self.todo = "status in", answer
        if self.wrong == "the address is taken at SETUP" and q[:2] == b"\0\x05":
            self.address = q[2]

    def described(self, q, index):
        if q[3] == 3:
            return bytes([2 + len(self.languages), 3]) + self.languages if q[2] == 0 and self.languages else self.strings.get((q[2], index))
        return self.descriptors.get((q[3], q[2], 0))

    def settings(self):
        return [setting for it in self.sets if it.value == self.selected for setting in it.interfaces]

    def answer(self, q):
        """The data of a request to the host, or what a request without data does, or None where it is refused."""
        value, index, length = (int.from_bytes(q[at:at + 2], "little") for at in (2, 4, 6))
        chosen = [it for it in self.settings() if it.alternate == self.alternates.get(it.interface, 0)]
        has_endpoint = index in [it.address for setting in chosen for it in setting.endpoints]
        match q[0], q[1]:
            case 0x80, 6:
                found = self.described(q, index)
                return found if length or found is None else lambda: None
            case 0x80, 0 if self.address and (value, index, length) == (0, 0, 2):
                shown = next((it for it in self.sets if it.value == self.selected), self.sets[0])
                return bytes([shown.data[7] >> 6 & 1 | self.wakes << 1, 0])
            case 0x81, 0 if length == 2 and not value and any(it.interface == index for it in chosen):
                return bytes(2)
            case 0x82, 0 if length == 2 and not value and (has_endpoint or self.address and index in (0, 0x80)):
                return bytes([index in self.halts, 0])
            case 0, (1 | 3) as request if self.address and (value, index, length) == (1, 0, 0) and any(it.data[7] >> 5 & 1 for it in self.sets):
                return lambda: setattr(self, "wakes", request >> 1)
            case 0x80, 8 if self.address and length == 1:
                return bytes([self.selected])
            case 0x81, 10 if length == 1 and any(it.interface == index for it in chosen):
                return bytes([self.alternates.get(index, 0)])
            case 0, 5 if not self.selected and value < 128:
                return lambda: setattr(self, "new_address", value)
            case 0, 9 if self.address and value in [0, *(it.value for it in self.sets)]:
                return lambda: (setattr(self, "selected", value), self.alternates.clear(), self.halts.clear())
            case 1, 11 if any((it.interface, it.alternate) == (index, value) for it in self.settings()):
                return lambda: self.chosen(index, value)
            case 2, 3 if has_endpoint and value == 0:
                return lambda: self.halts.add(index)
            case 2, 1 if has_endpoint and value == 0:
                return lambda: self.halts.discard(index)
        return None

    def chosen(self, interface, alternate):
        """Another setting of an interface: none of its endpoints is halted."""
        self.alternates[interface] = alternate
        self.halts -= {it.address for setting in self.settings() if setting.interface == interface for it in setting.endpoints}

    def input(self):
        if self.stage == "status in":
            if self.todo:
                self.todo()
                self.todo = None
            if self.wrong == "the address is taken with the status packet" and self.new_address is not None:
                self.address, self.new_address = self.new_address, None
            self.sent = b""
            return Reply("data", 1)
        if self.stage != "data in":
            self.stage = "halted"
            return STALL
        self.sent = self.data[:self.packet]
        reply = Reply("data", self.toggle, self.sent)
        if self.wrong == "the toggle flips with the packet, not with its ACK":
            self.toggle ^= 1
        return reply

    def acked(self):
        if self.stage == "status in":
            self.stage = "halted"
            if self.new_address is not None:
                self.address, self.new_address = self.new_address, None
        elif self.sent is not None:
            if self.wrong not in ("the toggle doesn't flip", "the toggle flips with the packet, not with its ACK"):
                self.toggle ^= 1
            self.data = self.data[self.packet:]
            if len(self.sent) < self.packet or not (self.data or self.empty_due):
                self.stage = "status out"
        self.sent = None

    def output(self, it):
        if self.stage not in ("data in", "status out", "over") or it.toggle and it.data:
            self.stage = "halted"
            return STALL
        if it.toggle:
            if self.wrong == "the status stage is answered once" and self.stage == "over":
                return STALL
            self.stage = "over"
        return ACK
