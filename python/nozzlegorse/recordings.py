"""Recordings of a bus: control transfers with their data, what USB 2.0 forbids in them, and the descriptors of their devices."""
from __future__ import annotations

import ctypes

from . import _library as c
from ._handle import Handle
from ._value import Value
from .faults import STATUSES, done

_REQUEST, _OF_REQUEST, _OF_PACKETS, _UNENDED, _SEEN = range(1, 6)
_ENDINGS = ("no end", "done", "stall", "error", "refused")
_ROOM = 1 << 16


class Finding(Value):
    """What USB 2.0 forbids: T1 in a transfer, C1 to C17 in a device's conversation, P1 to P13 in packets, these with the number of
    their frame. The time is in nanoseconds, the device its bus and address, each None where it isn't known."""

    name: str
    message: str
    section: str
    time: int | None
    device: tuple[int, int] | None
    frame: int | None

    def __str__(self) -> str:
        return f"{self.name}: {self.message} ({self.section})"


class Request(Value):
    """A control transfer of endpoint zero, with what is found in it. It ended, or began where no end came, at `time`. The ending is
    'done', 'stall', 'error' or 'refused' with the status of the host's system, or 'no end'. Of the `length` bytes of data that came or
    went, `data` are in the recording."""

    time: int | None
    begun: int | None
    device: tuple[int, int]
    setup: bytes
    data: bytes
    length: int
    ending: str
    status: int
    is_cut: bool
    findings: tuple[Finding, ...]


class Seen(Value):
    """A device of a recording, by bus and address, and how many findings it has; None for packets of which no device is known."""

    device: tuple[int, int] | None
    findings: int


class Capture(Handle):
    """A recording: pcap, pcapng or usbmon's text. Of a file, an iteration gives each request and each finding in packets, and at
    last the requests whose end didn't come:

    >>> with Capture("device.pcap") as capture:
    ...     for it in capture:
    ...         print(it)
    ...     print(capture.devices, capture.cut)

    Without a file, `feed` takes the bytes in any pieces."""

    _of = "capture"

    def __init__(self, path=None):
        self._path, self._out, self._it = path, (ctypes.c_char * 4096)(), c.structs["recorded"]()
        self._open()

    def feed(self, piece: bytes) -> list[Request | Finding]:
        """What is over with the next bytes, in order. A fault of the recording is raised once what came before it was given: by the
        next call, of no bytes at the end of the file."""
        data, length = c.lend(piece)
        first, at, over = ctypes.cast(data, ctypes.c_void_p).value, 0, []
        while True:
            answer = self._call("feed", ctypes.c_char_p(first + at), length - at)
            if STATUSES[answer.status] != "open":
                self._is_open = STATUSES[answer.status] != "no_memory"
                return over if over else done(answer)
            over += self._over()
            at += answer.length
            if at == length:
                return over

    def __iter__(self):
        with open(self._path, "rb") as file:
            while piece := file.read(_ROOM):
                yield from self.feed(piece)
        yield from self.feed(b"") + self.unended

    @property
    def unended(self) -> list[Request]:
        """The requests so far whose end didn't come."""
        return [self._request(it, data, ()) for it, data in self._all(_UNENDED)]

    @property
    def cut(self) -> tuple[int, int] | None:
        """Where the part begins that isn't whole, and how many bytes of it came, if any did: a file that ends here is cut."""
        answer = done(self._call("end"))
        return (answer.place, answer.length) if answer.length else None

    @property
    def devices(self) -> list[Seen]:
        """The devices so far, in the order in which they are first seen."""
        return [Seen(self._device(it), it.count) for it, _ in self._all(_SEEN)]

    def file(self, bus: int, device: int) -> bytes:
        """The descriptors of a device that came, as `usbdesc capture --file` writes them: a descriptor file, or a dump where strings
        are missing. A `Fault` of kind 'lacking' says what didn't come."""
        given = c.number(bus, 0, 65535, "bus"), c.number(device, 0, 65535, "device")
        answer, out = c.into(lambda *rest: self._call("file", *given, *rest))
        done(answer)
        return out

    def _over(self) -> list[Request | Finding]:
        over: list[Request | Finding] = []
        for it, data in self._all(_REQUEST):
            over.append(self._request(it, data, tuple(self._findings(_OF_REQUEST))))
        return over + list(self._findings(_OF_PACKETS))

    def _findings(self, kind: int):
        for it, words in self._all(kind):
            message, _, section = words.decode("ascii")[:-1].rpartition(" (")
            name = f"P{it.finding}" if kind == _OF_PACKETS else f"C{it.finding - 1}" if it.finding > 1 else "T1"
            yield Finding(name, message, section, it.time if it.has_time else None, self._device(it), it.count or None)

    def _request(self, it, data: bytes, findings: tuple) -> Request:
        return Request(it.time if it.has_time else None, it.begun if it.has_begun else None, (it.bus, it.device), bytes(it.setup), data,
                       it.length, _ENDINGS[it.ending], it.status, it.is_cut, findings)

    def _device(self, it) -> tuple[int, int] | None:
        return (it.bus, it.device) if it.has_device else None

    def _all(self, kind: int) -> list:
        """Each thing of a kind, as its numbers and its data."""
        found = []
        while True:
            answer = self._call("get", kind, len(found), self._it, self._out, len(self._out))
            if STATUSES[answer.status] == "no_room":
                self._out = (ctypes.c_char * answer.length)()
            elif STATUSES[answer.status] == "done":
                found.append((type(self._it).from_buffer_copy(self._it), self._out[:answer.length]))
            else:
                return found
