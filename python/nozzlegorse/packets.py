"""Packets of the bus, from their PID to their CRC (USB 2.0, 8.3 and 8.4), and both CRCs.

>>> from nozzlegorse import packets
>>> packets.parse(bytes.fromhex("2d15ef"))
Packet(kind='setup', address=21, endpoint=14, frame=0, split=0, data=b'')
>>> bytes(packets.Packet("data0", data=bytes(range(4)))).hex()
'c300010203ef7a'
>>> try: packets.parse(bytes.fromhex("2d15ee"))
... except ValueError as fault: print(fault)
damage 5 (Crc5)
"""
from __future__ import annotations

from . import _library as c
from ._value import Value
from .faults import Fault, done

# by the number in the lower four bits of the first byte; PRE and ERR are one
KINDS = (None, "out", "ack", "data0", "ping", "sof", "nyet", "data2", "split", "in", "nak", "data1", "pre", "setup", "stall", "mdata")


class Packet(Value):
    """A packet. `kind` is 'out', 'in', 'setup' or 'ping', with an address and an endpoint; 'sof' with a frame; 'data0', 'data1',
    'data2' or 'mdata' with data; 'split' with its 19 bits; or 'ack', 'nak', 'stall', 'nyet' or 'pre' alone. A field that does not
    fit is a `ValueError`."""

    kind: str
    address: int = 0
    endpoint: int = 0
    frame: int = 0
    split: int = 0
    data: bytes = b""

    def __post_init__(self):
        if self.kind not in KINDS[1:]:
            raise ValueError(f"a packet is one of {', '.join(map(repr, KINDS[1:]))}, not {self.kind!r}")
        for name, most in (("address", 127), ("endpoint", 15), ("frame", 0x7FF), ("split", 0x7FFFF)):
            self.__dict__[name] = c.number(getattr(self, name), 0, most, name)
        self.__dict__["data"], length = c.lend(self.data)
        c.number(length, 0, 1024, "the length of data")

    def __bytes__(self) -> bytes:
        """Its bytes with their CRC, in the order in which they are sent."""
        number = KINDS.index(self.kind)
        numbers = c.structs["packet_fields"](self.split, self.frame, 0, 0, number | (15 - number) << 4, self.address, self.endpoint)
        answer, out = c.into(c.lib.nzg_packet_write, numbers, *c.lend(self.data))
        done(answer)
        return out


def parse(data: bytes) -> Packet:
    """The packet that these bytes are. Of others a `Fault` of kind 'damage' is raised, whose name is the first that holds: Empty, Pid,
    Reserved, Length, Crc5 or Crc16. A receiver ignores such bytes (8.7.1)."""
    (data, length), it = c.lend(data), c.structs["packet_fields"]()
    if number := c.lib.nzg_packet_parse(data, length, it):
        raise Fault("damage", number)
    return Packet(KINDS[it.pid & 15], it.address, it.endpoint, it.frame, it.split, data[it.place:it.place + it.length])


def crc5(fields: int, width: int = 11) -> int:
    """The CRC of the lowest bits of a number: 11 in a token and in SOF, 19 in SPLIT. It stands above them in the packet."""
    return c.lib.nzg_crc5(c.number(fields, 0, 2**32 - 1, "fields"), c.number(width, 0, 32, "a width"))


def crc16(data: bytes) -> int:
    """The CRC of data, after which it is sent, the low byte first."""
    return c.lib.nzg_crc16(*c.lend(data))
