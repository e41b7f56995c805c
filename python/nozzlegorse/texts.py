"""What `usbdesc` writes, from bytes, and the bytes that a text lists."""
from __future__ import annotations

from . import _library as c
from ._handle import Handle
from ._value import Value
from .faults import STATUSES, Fault, TextFault, done, fault_of, trouble_of

# that of Python, which a call below hides
_numbered = enumerate


class Explanation(Value):
    """A text as far as the bytes go, and the fault where they are broken."""

    text: str
    fault: Fault | None

    def __str__(self) -> str:
        return self.text


class Enumeration(Value):
    """What came of an enumeration: after success the listing of what was read and no trouble. `str` is the line of `usbdesc`."""

    attempts: int
    transactions: int
    address: int
    selected: int
    trouble: Fault | None
    text: str

    def __str__(self) -> str:
        counts = f"attempts {self.attempts} transactions {self.transactions}"
        if self.trouble:
            return f"trouble {self.trouble.number} {self.trouble.step} {counts}"
        return f"success {counts} address {self.address} value {self.selected}"


def _lend_text(text: str | bytes) -> tuple[bytes, int]:
    return c.lend(text.encode() if isinstance(text, str) else text)


def _whole(call, data: bytes, *rest) -> bytes:
    data, length = _lend_text(data)
    answer, out = c.into(call, data, length, *rest)
    done(answer, data)
    return out


def show(data: bytes) -> str:
    """The listing of a set, a descriptor file or a dump: a line for each descriptor."""
    return _whole(c.lib.nzg_show, data, True).decode("ascii")


def build(text: str | bytes, comments: bool = False) -> bytes:
    """The bytes that a text lists. With `comments` empty lines, lines that begin with # and carriage returns are dropped."""
    return _whole(c.lib.nzg_build, text, bool(comments))


def from_text(text: str | bytes) -> bytes:
    """The bytes of hexadecimal text: digits, a dump with its columns, an array of a program. Of a text that is none, or that two
    readings would take differently, a `TextFault` with its line and column."""
    return _whole(c.lib.nzg_from_text, text)


def with_strings(dump: bytes) -> bytes:
    """A dump as a descriptor file, with the strings that `usbdesc enumerate --with-strings` puts."""
    return _whole(c.lib.nzg_with_strings, dump)


def explain(data: bytes | str, brief: bool = False, places: bool = True, speed: str | None = None, utf8: bool = False,
            formats: bool = False, loose: bool = False, hex: bool = False) -> Explanation:
    """What descriptors mean, in words, also of broken bytes as far as they go. With `formats` headings tell video frames and audio
    formats apart: by size and interval, by rates. With `loose` they are descriptors one after another, or a setup packet; with `hex`
    hexadecimal text."""
    options = sum(bool(it) << bit for bit, it in _numbered((brief, places, utf8, formats, loose, hex)))
    data, length = _lend_text(data)
    answer, out = c.into(c.lib.nzg_explain, data, length, options, c.speed_number(speed, (None, *c.SPEEDS)))
    fault = fault_of(answer, data)
    return Explanation("" if isinstance(fault, TextFault) else out.decode(), fault)


def enumerate(data: bytes, speed: str = "full", naks: int = 16, attempts: int = 3, fates: str | bytes = "") -> Enumeration:
    """A host enumerates a device with these descriptors, over a bus with these fates, a letter a transaction."""
    outcome, given = c.structs["outcome"](), _given(data, speed, naks, attempts, fates)
    answer, out = c.into(c.lib.nzg_enumerate, *given, outcome)
    trouble = trouble_of(answer.number, outcome) if STATUSES[answer.status] == "trouble" else None
    if not trouble:
        done(answer, given[0])
    return Enumeration(outcome.attempts, outcome.transactions, outcome.address, outcome.selected, trouble, out.decode("ascii"))


def enumerate_log(data: bytes, speed: str = "full", naks: int = 16, attempts: int = 3, fates: str | bytes = "") -> str:
    """The log of that enumeration: what `usbdesc enumerate --log` writes before its last lines."""
    given = _given(data, speed, naks, attempts, fates)
    answer, out = c.into(c.lib.nzg_enumerate_log, *given)
    done(answer, given[0])
    return out.decode("ascii")


def _given(data, speed, naks, attempts, fates):
    return (*c.lend(data), c.speed_number(speed), c.number(naks, 0, 65535, "naks"), c.number(attempts, 0, 255, "attempts"),
            *c.lend(fates.encode() if isinstance(fates, str) else fates))


class Decoder(Handle):
    """A set that comes in pieces."""

    _of = "decoder"

    def __init__(self):
        self._open()

    def feed(self, piece: bytes) -> tuple[bool, int]:
        """Whether the set is whole, and how many bytes of the piece it took."""
        answer = done(self._call("feed", *c.lend(piece)))
        return STATUSES[answer.status] == "done", answer.length

    def list(self) -> str:
        """The listing of the set. The decoder is closed then."""
        answer, out = c.into(lambda *rest: self._call("list", *rest), room=1 << 20)
        self._is_open = False
        done(answer)
        return out.decode("ascii")
