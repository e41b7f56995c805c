"""Small devices that answer otherwise: as the standard leaves it open, and as it doesn't."""
import random

from nozzlegorse.ends import ACK, NAK, Reply

from .small_device import SmallDevice


def fields(q):
    return q[0], q[1], *(int.from_bytes(q[at:at + 2], "little") for at in (2, 4, 6))


class Free(SmallDevice):
    """It refuses SET_INTERFACE of an interface with one setting (9.4.10) and halts of isochronous endpoints, has those of endpoint zero
    (9.4.5), and answers whatever isn't specified in another way."""

    def answer(self, q):
        kind, request, value, index, length = fields(q)
        settings = self.settings()
        if (kind, request) == (1, 11) and len([it for it in settings if it.interface == index]) == 1:
            return None
        isochronous = [it.address for setting in settings for it in setting.endpoints if it.transfer_type == "isochronous"]
        if kind == 2 and request in (1, 3) and index in isochronous:
            return None
        if kind == 2 and request in (1, 3) and index in (0, 0x80) and not value:
            return lambda: None
        if self.is_unspecified(kind, request, value, index, length):
            return bytes(length) if kind & 0x80 else lambda: setattr(self, "new_address", value & 0x7F) if request == 5 else setattr(self, "selected", value & 0xFF)
        return super().answer(q)

    def is_unspecified(self, kind, request, value, index, length):
        """By chapter 9, of what the bench asks."""
        return (not self.address and (request not in (5, 6) or kind & 0x60) or (kind, request) == (0, 5) and (self.selected or value > 127 or index or length)
                or (kind, request) == (0x80, 0) and (value or index or length != 2) or (kind, request) == (0x80, 8) and length != 1 or kind == 0x80 and request == 6 and value >> 8 == 1 and value & 0xFF
                or (kind, request) == (0, 9) and (value > 255 or index))


class Busy(SmallDevice):
    """It answers NAK as often as a host takes it."""

    lot = random.Random(3)

    def transaction(self, it, ready):
        return NAK if it.stage != "setup" and it.address == self.address and ready and self.lot.random() < 0.3 else super().transaction(it, ready)


class Line(SmallDevice):
    """It has a class write of at most 512 bytes, and a read that gives them again. `wrong` names what it does wrong of them."""

    kept, received, expected = b"", b"", 1

    def answer(self, q):
        return self.kept if q[:2] == b"\xa1\x21" else super().answer(q)

    def setup(self, q):
        super().setup(q)
        self.received, self.expected, self.is_own = b"", 1, q[:2] == b"\xa1\x21"
        if q[:2] == b"\x21\x20" and 0 < (length := int.from_bytes(q[6:], "little")) <= 512:
            self.stage, self.length = "receiving", length
        if self.is_own and self.wrong == "a byte more":
            self.data += b"x"

    def output(self, it):
        if self.stage != "receiving":
            return super().output(it)
        if it.toggle == self.expected or self.wrong == "a packet twice":
            self.received, self.expected = self.received + it.data, self.expected ^ 1
        if len(self.received) >= self.length:
            self.kept, self.stage, self.todo = self.received, "status in", lambda: None
        return ACK

    def input(self):
        reply = super().input()
        return Reply("data", 1, reply.data) if reply.kind == "data" and self.wrong == "DATA1 alone" and self.is_own else reply


class AnyConfiguration(SmallDevice):
    """It takes each value."""

    def answer(self, q):
        return (lambda: setattr(self, "selected", q[2])) if q[:2] == b"\0\x09" and self.address and q[4:] == bytes(4) and not q[3] else super().answer(q)


class LosesConfiguration(SmallDevice):
    """It has no configuration after one that it refused."""

    def answer(self, q):
        came = super().answer(q)
        if q[:2] == b"\0\x09" and came is None:
            self.selected = 0
        return came


class OneAddress(SmallDevice):
    """It refuses a second SET_ADDRESS."""

    def answer(self, q):
        return None if q[:2] == b"\0\x05" and self.address else super().answer(q)


class KeepsHalts(SmallDevice):
    """A SET_CONFIGURATION leaves its halts."""

    def answer(self, q):
        came = super().answer(q)
        return (lambda: setattr(self, "selected", q[2])) if q[:2] == b"\0\x09" and came else came


class AnyEndpoint(SmallDevice):
    """It has a status of each endpoint."""

    def answer(self, q):
        return bytes([q[4] in self.halts, 0]) if q[:2] == b"\x82\0" and self.address and q[6] == 2 else super().answer(q)


class Deaf(SmallDevice):
    """It answers nothing after a request that it doesn't know, up to a reset."""

    is_deaf = False

    def reset(self):
        super().reset()
        self.is_deaf = False

    def transaction(self, it, ready):
        if it.stage == "setup" and it.address == self.address and it.setup_bytes[:2] == b"\x80\x0f":
            self.is_deaf = True
        return Reply("silence") if self.is_deaf else super().transaction(it, ready)


class KeepsWakeup(SmallDevice):
    """CLEAR_FEATURE leaves its remote wakeup."""

    def answer(self, q):
        return (lambda: None) if q[:3] == b"\0\x01\x01" and super().answer(q) else super().answer(q)


class WakesAfterReset(SmallDevice):
    """A reset leaves its remote wakeup."""

    def reset(self):
        was = getattr(self, "wakes", 0)
        super().reset()
        self.wakes = was


class NoSecondSetup(SmallDevice):
    """A SETUP in the middle of a data stage leaves what it was to send."""

    def setup(self, q):
        data = self.data if self.stage == "data in" else b""
        super().setup(q)
        if data and self.stage == "data in":
            self.data = data


# What each of these must differ in at the least, as the beginning of the request and its words.
WRONG = {
    AnyConfiguration: ("Address: 0009", "Configured: 0009"), LosesConfiguration: ("Configured: 8008000000000100",), OneAddress: ("Address: 0005010000000000", "Address: 00055d0000000000", "Address: 0005000000000000"),
    KeepsHalts: ("Configured: 8200000081000200",), AnyEndpoint: ("Configured: 820000008f000200", "Configured: 820000000f000200"), Deaf: ("Configured: 800f000000000100", "Address: 800f000000000100"),
    KeepsWakeup: ("Address: 8000000000000200", "Configured: 8000000000000200"), WakesAfterReset: ("Address: 8000000000000200",), NoSecondSetup: ("Configured: 8008000000000100",),
}
