"""Small hosts that are right in another way, and wrong in ways whose reason is to be told."""
from nozzlegorse.ends import Transaction

from .small_host import Gone, SmallHost


class Early(SmallHost):
    """It begins with 64 bytes of the device descriptor, and ends after one packet, as Linux, Windows and U-Boot do (5.5.3)."""

    def enumerate(self):
        self.send("setup", bytes.fromhex("8006000100004000"))
        while (reply := self.send("in")).toggle != 1:
            pass
        if self.send("out", bytes(8), 1).kind != "ack" or len(reply.data) < 8:
            raise Gone
        self.bus.reset()
        self.packet = reply.data[7]
        return super().enumerate()


class EarlyAgain(SmallHost):
    """It ends each read after one packet."""

    def data_stage(self, length):
        return super().data_stage(min(length, self.packet))


class Unread:
    """It gives a file that it was given, and sends nothing."""

    def __init__(self, file):
        self.file = file

    def __call__(self, bus):
        return self.file


class UnreadStrings(Unread):
    """It reads the device, and gives strings that it hasn't read."""

    def __call__(self, bus):
        class Short(SmallHost):
            def strings(self, named):
                return b""

        return None if Short()(bus) is None else self.file


class Device(SmallHost):
    """It reads the device descriptor alone."""

    def enumerate(self):
        return self.get(1, 0, 0, 18)


class OtherByte(SmallHost):
    """It has another byte in its file."""

    def enumerate(self):
        file = super().enumerate()
        return file[:20] + bytes([file[20] ^ 1]) + file[21:]


class More(SmallHost):
    """It has a byte more."""

    def enumerate(self):
        return super().enumerate() + b"\0"


class GivesUp(SmallHost):
    """It gives up."""

    def __call__(self, bus):
        return None


class Swallows(SmallHost):
    """It goes on whatever is raised, and gives what is right."""

    def __init__(self, file):
        super().__init__()
        self.file = file

    def __call__(self, bus):
        bus.reset()
        try:
            bus.send(Transaction(0, "in"))
        except Exception:
            pass
        try:
            return super().__call__(bus)
        except Exception:
            return self.file


class Raises(SmallHost):
    """It has a mistake."""

    def __call__(self, bus):
        bus.reset()
        return [][0]
