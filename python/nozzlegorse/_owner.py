"""What a device does beside the table of standard requests: its owner, and answers of it that come later."""
from __future__ import annotations

import threading
from collections.abc import Callable


class Later:
    """An answer that comes later. `Owner.request` returns it; any thread then gives it its answer, of which the first counts. Until
    then the host waits, as it does where a device answers NAK."""

    def __init__(self):
        self._lock, self._given, self._take = threading.Lock(), [], None

    def answer(self, data: bytes) -> None:
        """The bytes of a read."""
        self._give(bytes(data))

    def accept(self) -> None:
        """It is done, or its data are taken."""
        self._give(True)

    def refuse(self) -> None:
        """STALL."""
        self._give(None)

    def _give(self, given: bytes | bool | None) -> None:
        with self._lock:
            if self._given:
                return
            self._given.append(given)
            take = self._take
        if take:
            take(given)

    def then(self, take: Callable) -> None:
        """What the bridge does with the answer, which may be there already."""
        with self._lock:
            self._take, given = take, self._given[:]
        if given:
            take(given[0])


class Owner:
    """What a device does beside the table of standard requests. An endpoint is its address: 0x81 is endpoint 1 IN. The bridge calls
    one method at a time; while one takes its time, this device waits, and no other."""

    plug = None

    def request(self, setup: bytes, data: bytes) -> bytes | bool | Later | None:
        """What is answered to a request that the table refuses: the bytes of a read, True where it is done or its data, which
        have all come, are taken, None for a STALL, and a `Later` where the answer comes later."""

    def received(self, endpoint: int, data: bytes) -> None:
        """Bytes came by an OUT of an endpoint."""

    def waiting(self, endpoint: int, size: int) -> None:
        """The host waits for at most so many more bytes of an endpoint, of which nothing is queued."""

    def reset(self) -> None:
        """The device was plugged in, or its bus was reset."""

    def configured(self, value: int) -> None:
        """SET_CONFIGURATION was carried out; 0 is no configuration."""

    def set_interface(self, interface: int, alternate: int) -> None:
        """SET_INTERFACE was carried out."""

    def halted(self, endpoint: int, is_halted: bool) -> None:
        """SET_FEATURE or CLEAR_FEATURE of an endpoint's halt was carried out."""

    def send(self, endpoint: int, data: bytes, ends: bool = False) -> None:
        """Queues bytes of an endpoint, which go in packets of its size. A transfer of the host is over once it has what it asked
        for, or a packet is short (USB 2.0, 5.8.3); so after whole packets it goes on, and an empty one ends it. Where `ends` is
        set, that follows by itself. Any thread may send."""
        if not self.plug.send(endpoint, bytes(data), ends):
            self.tell(f"endpoint {endpoint:02x}: too much is queued, {len(data)} bytes are dropped")

    def tell(self, line: str) -> None:
        """Prints a line, without waiting until it is printed."""
        self.plug.tell(line)
