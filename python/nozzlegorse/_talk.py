"""The requests that a bench makes of a device, and their words."""
from __future__ import annotations

from dataclasses import dataclass

from . import _bench_in_c as c
from ._library import lend
from .descriptors import read

NAMES = {0: "GET_STATUS", 1: "CLEAR_FEATURE", 3: "SET_FEATURE", 5: "SET_ADDRESS", 6: "GET_DESCRIPTOR", 7: "SET_DESCRIPTOR", 8: "GET_CONFIGURATION",
         9: "SET_CONFIGURATION", 10: "GET_INTERFACE", 11: "SET_INTERFACE", 12: "SYNCH_FRAME"}
_CLEAR_FEATURE, _SET_FEATURE, _SET_ADDRESS, _GET_DESCRIPTOR, _SET_CONFIGURATION, _SET_INTERFACE = 1, 3, 5, 6, 9, 11


@dataclass(frozen=True)
class Request:
    """A request of a talk, its eight bytes, and what it is for; without bytes a bus reset. Of a transfer that is `cut` no more than so
    many transactions are made. A write brings wLength bytes, which are counted from 1."""

    setup: bytes
    what: str
    cut: int | None = None

    @property
    def data(self) -> bytes:
        """What a write brings."""
        length = int.from_bytes(self.setup[6:8], "little")
        return bytes(it % 251 + 1 for it in range(length)) if self.setup[0] < 0x80 else b""

    def __str__(self) -> str:
        cut = "" if self.cut is None else f", ended after {self.cut} transactions"
        return f"{self.setup.hex()} {self.what}{cut}" if self.setup else self.what


def words_of(q: bytes) -> str:
    """What a request is for, in words of its fields."""
    kind, request, value, index, length = q[0], q[1], *(int.from_bytes(q[at:at + 2], "little") for at in (2, 4, 6))
    if kind & 0x60:
        return "a vendor's request" if kind & 0x40 else f"a {'read' if kind & 0x80 else 'write'} of {length} bytes"
    words = [NAMES.get(request, f"request {request}")]
    if request == _GET_DESCRIPTOR:
        words.append(f"type {value >> 8:02x} index {value & 0xFF}" + (f" language {index:04x}" if index else "") + f", {length} bytes")
    else:
        words += ["", "interface", "endpoint"][kind & 3 :][:1] + ([f"{index:02x}"] if kind & 3 else [])
        words += [{(2, 0): "halt", (0, 1): "remote wakeup"}.get((kind & 3, value), f"feature {value}")] if request in (_CLEAR_FEATURE, _SET_FEATURE) else []
        words += [str(value)] if request in (_SET_ADDRESS, _SET_CONFIGURATION, _SET_INTERFACE) else []
    return " ".join(filter(None, words))


def request_of(it: c.Request) -> Request:
    """A request as C has it."""
    setup = b"" if it.is_reset else bytes(it.setup)
    return Request(setup, words_of(setup) if setup else "reset", it.cut or None)


def talk_of(file: bytes) -> list[Request]:
    """Every standard request in each state, of what the descriptors have first and last and of what they don't have. What is likeliest
    to differ under losses is first. A file without a set is a `ValueError`."""
    found, room = read(file), (c.Request * c.TALK)()
    if not found.configurations or not found.device:
        raise ValueError("a file has no talk without a device descriptor and a set")
    return [request_of(it) for it in room[:c.library().nzg_bench_talk(*lend(file), room)]]
