"""USB/IP 1.1.1 as a server speaks it, apart from any socket: by the fields of Linux's Documentation/usb/usbip_protocol."""
from __future__ import annotations

import collections
import struct

from ._plug import Pending, Plug

VERSION, LIST, IMPORT = 0x0111, 0x8005, 0x8003
SUBMIT, UNLINK, RETURN_SUBMIT, RETURN_UNLINK = 1, 2, 3, 4
# What the stub drivers of Linux answer to an import: taken by another host, and no such device.
BUSY, NO_DEVICE = 2, 4
EINVAL, EPIPE = -22, -32
SPEEDS = {"low": 1, "full": 2, "high": 3}
# The most bytes of a transfer, the most packets of an isochronous one, the most transfers that wait, and how many messages are not
# done yet when no more are read.
MOST, MOST_PACKETS, MOST_WAITING, MOST_UNDONE = 1 << 20, 1024, 1024, 4


class Refused(Exception):
    """What came is no USB/IP, or more than is taken: its connection ends."""


def described(plug: Plug) -> bytes:
    """What a host is told of a device."""
    d, bus_id = plug.file, plug.bus_id
    vendor, product, release = struct.unpack("<HHH", d[8:14])
    numbers = struct.pack(">IIIHHH", int(bus_id[0]), int(bus_id[2:]) + 1, SPEEDS[plug.speed], vendor, product, release)
    return b"/nozzlegorse".ljust(256, b"\0") + bus_id.encode().ljust(32, b"\0") + numbers + d[4:7] + bytes([d[18 + 5], d[17], d[18 + 4]])


def interfaces(plug: Plug) -> bytes:
    """Class, subclass and protocol of each interface of the first configuration, in its setting 0."""
    d = plug.file[18:]
    d, place, found = d[: d[2] | d[3] << 8], 0, b""
    while place < len(d):
        if d[place + 1] == 4 and d[place + 3] == 0:
            found += d[place + 5 : place + 8] + b"\0"
        place += d[place]
    return found


class Client:
    """A USB/IP client: its bytes come in pieces, and what is sent to it goes to `send`. What it asks of its device is done by that
    one's `run`, after which `changed` is called where the client had asked for as much as is kept."""

    def __init__(self, plugs: list, send, changed=lambda: None):
        self.plugs, self.send, self.plug, self.buffer = plugs, send, None, bytearray()
        self.undone, self._changed = collections.deque(), changed

    @property
    def is_full(self) -> bool:
        """Whether nothing more is to be read of it until something is done."""
        return len(self.undone) >= MOST_UNDONE

    def take(self, data: bytes) -> None:
        """Takes a piece of what it sent, or is `Refused`."""
        self.buffer += data
        while (length := self._length()) is not None and len(self.buffer) >= length:
            message = bytes(self.buffer[:length])
            del self.buffer[:length]
            if self.plug is None:
                self._asked(message)
            elif len(self.plug.pending) + len(self.undone) >= MOST_WAITING:
                raise Refused(f"{MOST_WAITING} transfers wait")
            else:
                self.undone.append(message)
                self.plug.run(self._submitted)

    def close(self) -> None:
        """Its connection has ended: what it imported is free again."""
        if self.plug:
            self.plug.run(self.plug.detach)

    def returned(self, number: int, data: bytes | None, count: int = 0, status: int = 0) -> None:
        """Sends what came of a transfer, None for a STALL; `count` is how many bytes of an OUT were taken."""
        status, count, data = (EPIPE, 0, b"") if data is None else (status, len(data) or count, data)
        self.send(struct.pack(">5IiIIII8x", RETURN_SUBMIT, number, 0, 0, 0, status, count, 0, 0, 0) + data)

    def _length(self) -> int | None:
        """How long the next message is, once so much of it is there that it says so."""
        if not self.plug:
            return None if len(self.buffer) < 8 else 40 if self.buffer[2:4] == struct.pack(">H", IMPORT) else 8
        if len(self.buffer) < 48:
            return None
        command, _, _, direction, _, _, size, _, packets = struct.unpack(">9I", self.buffer[:36])
        packets = 0 if packets >= 1 << 31 else packets
        if command not in (SUBMIT, UNLINK):
            raise Refused(f"no command of USB/IP: {command}")
        if command == SUBMIT and (size > MOST or packets > MOST_PACKETS):
            raise Refused(f"a transfer of {size} bytes in {packets} packets, over {MOST} or {MOST_PACKETS}")
        return 48 if command == UNLINK else 48 + (0 if direction else size) + 16 * packets

    def _asked(self, message: bytes) -> None:
        """A list of devices, or an import of one."""
        version, code = struct.unpack(">HH", message[:4])
        if version != VERSION or code not in (LIST, IMPORT):
            raise Refused("no USB/IP 1.1.1")
        if code == LIST:
            listed = b"".join(described(it) + interfaces(it) for it in self.plugs)
            return self.send(struct.pack(">HHII", VERSION, LIST & 0xFF, 0, len(self.plugs)) + listed)
        found = next((it for it in self.plugs if it.bus_id.encode() == message[8:].rstrip(b"\0")), None)
        status = NO_DEVICE if not found else 0 if found.claim(self) else BUSY
        self.send(struct.pack(">HHI", VERSION, IMPORT & 0xFF, status) + (b"" if status else described(found)))
        if not status:
            self.plug = found
            found.run(found.attach)

    def _submitted(self) -> None:
        """Does what the oldest message asks."""
        message = self.undone.popleft()
        command, number, _, direction, endpoint = struct.unpack(">5I", message[:20])
        if command == UNLINK:
            (unlinked,) = struct.unpack(">I", message[20:24])
            self.send(struct.pack(">5Ii24x", RETURN_UNLINK, number, 0, 0, 0, self.plug.unlink(unlinked)))
        elif number in self.plug.pending or endpoint > 15:
            self.returned(number, b"", status=EINVAL)
        else:
            size, _, packets = struct.unpack(">III", message[24:36])
            it = Pending(number, endpoint and endpoint | bool(direction) << 7, size, message[40:48], message[48:])
            self._transfer(it, 0 < packets < 1 << 31)
        if len(self.undone) == MOST_UNDONE - 1:
            self._changed()

    def _transfer(self, it: Pending, is_isochronous: bool) -> None:
        """A transfer: of an endpoint that isn't halted an OUT is over at once, and nothing comes of an isochronous one."""
        if it.endpoint and self.plug.is_halted(it.endpoint):
            return self.returned(it.number, None)
        if it.endpoint and is_isochronous:
            it.endpoint = None
        if it.endpoint is None or it.endpoint == 0 or it.endpoint > 0x7F:
            return self.plug.submit(it)
        self.plug.tell_transfer(f"endpoint {it.endpoint:02x}:", it.data, "" if it.data else "empty")
        self.returned(it.number, b"", len(it.data))
        self.plug.owner.received(it.endpoint, it.data)
