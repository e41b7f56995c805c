"""An adapter that answers the transactions of a host from the whole control transfers of usbfs, and a proved host that reads by it."""
from __future__ import annotations

import errno
import os
from collections.abc import Callable

from ._usbfs_device import Plugged, Refused
from ._usbfs_words import GET_DESCRIPTOR, SET_ADDRESS, SET_CONFIGURATION, descriptor_words, word
from .ends import ACK, NAK, SILENCE, STALL, Host, Reply, Transaction
from .faults import Fault

_ENDS = {0: ACK, errno.EPIPE: STALL, errno.ETIMEDOUT: NAK}


class Adapter:
    """A SETUP makes the whole transfer, and its packets are given out one by one. SET_ADDRESS, and while drivers may
    have it SET_CONFIGURATION, are answered as done: the kernel has done that. `parts` are the descriptors that were read, and their lengths."""

    def __init__(self, plugged: Plugged):
        self.plugged, self.packet, self.parts = plugged, 0, {}
        self._left, self._toggle = b"", 1

    def answer(self, it: Transaction) -> Reply:
        """What comes back: the packets that came, then how the transfer ended."""
        if it.stage == "setup":
            self._begin(it.setup_bytes)
            return ACK
        error, packet = self.plugged.error, self.packet or 8
        if it.stage == "in" and error == errno.EOVERFLOW:
            return Reply("data", self._toggle, bytes(packet + 1))
        if it.stage == "in" and (self._left or not error):
            reply = Reply("data", self._toggle, self._left[:packet])
            self._left, self._toggle = self._left[packet:], self._toggle ^ 1
            return reply
        return _ENDS.get(error, SILENCE)

    def _begin(self, q: bytes) -> None:
        plugged, self._toggle = self.plugged, 1
        if q[1] == SET_ADDRESS or (q[1] == SET_CONFIGURATION and not plugged.is_detached):
            plugged.error, plugged.kept_back, plugged.data = 0, False, b""
        else:
            plugged.transfer(q)
        self._left = plugged.data
        if q[1] == GET_DESCRIPTOR and not plugged.error:
            self._note(q, plugged.data)

    def _note(self, q: bytes, data: bytes) -> None:
        """Of a descriptor that is read twice, the longer one."""
        part = q[3], q[2], word(q, 4)
        self.parts[part] = max(self.parts.get(part, 0), len(data))
        if not self.packet and q[3] == 1 and len(data) >= 8:
            self.packet = data[7] if data[7] in (16, 32, 64) else 8

    def so_far(self) -> str:
        """What was read."""
        return "read so far: " + ("; ".join(f"{descriptor_words(*part)}, {length} bytes" for part, length in self.parts.items()) or "nothing")


def read_file(adapter: Adapter, is_stopped: Callable[[], bool] = lambda: False) -> bytes:
    """A proved host enumerates the device: its descriptor file. Why there is none is `Refused`. A string that the device refuses, or gives
    wrongly, is told, and empty in the file."""
    plugged = adapter.plugged
    with Host(speed=plugged.speed, strings="wanted") as host:
        while (due := host.next()) != "ended" and not is_stopped():
            if due == "reset":
                adapter.packet = 0
                host.reset_done()
                continue
            step, reply = host.step(), adapter.answer(due)
            if plugged.is_gone or plugged.kept_back:
                raise Refused(f"{'unplugged' if plugged.is_gone else os.strerror(plugged.error)} at {step}; {adapter.so_far()}")
            host.take(reply)
        for it in host.forgiven:
            plugged.tell(f"passed over: trouble {it.number} ({it.name}) in {it.step}")
        try:
            return host.outcome() or b""
        except Fault as trouble:
            late = ": no answer within 5 s (9.2.6)" if plugged.error == errno.ETIMEDOUT else ""
            raise Refused(f"trouble {trouble.number} ({trouble.name}) in {trouble.step}{late}; {adapter.so_far()}") from None
