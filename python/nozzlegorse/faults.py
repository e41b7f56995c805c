"""What the library refuses, as exceptions."""
from __future__ import annotations

from . import _library as c
from ._library import STATUSES

# by number, from 1: as docs/formats.md and docs/control-transfers.md name them
_NAMES = {
    "set_fault": "HeaderLength HeaderKind Total ItemLength Over Nested ItemShort Stray Truncated",
    "file_fault": "Device Set SetKind Qualifier Text Truncated Trailing",
    "list_fault": "Line Word Place Field TooLong Missing",
    "description_fault": "Finding Texts Speed Memory Unwritable",
    "bad_argument": "address attempts speed fate rule string packet reply request data transfer fields text strings",
    "trouble": "NoAnswer Busy Stalled TooLong Unexpected Malformed Memory",
    "unanswered": "Nothing Closed Shape Room",
    "damage": "Empty Pid Reserved Length Crc5 Crc16",
    "capture_fault": "Magic Order Length Trailer Version Long Interfaces Options Interface Data Line",
    "lacking": "device configuration",
}
_STEPS = ("", "first", "address", "device", "header {i}", "set {i}", "qualifier", "other_header {i}", "other_set {i}", "languages",
          "text {l:04x} {i:02x}", "configure")


class Fault(ValueError):
    """Why the library refused: the kind of fault, its number, its name, its place in bytes or, of a listing, its line, and `message`:
    what is wrong with bytes, or why an enumeration failed, in words; of other faults empty. Where a set in a file is at fault `inner`
    is the number of the set's fault.

    >>> import nozzlegorse as usb
    >>> try: usb.read(bytes([9, 2, 9]))
    ... except usb.Fault as fault: print(fault)
    set fault 9 (Truncated) at 3: the bytes end before the set does
    """

    def __init__(self, kind: str, number: int = 0, place: int = 0, step: str = "", message: str = "", inner: int = 0):
        super().__init__(kind, number, place, step, message, inner)
        self.kind, self.number, self.place, self.step, self.message, self.inner = kind, number, place, step, message, inner

    @property
    def name(self) -> str:
        """What the documents call it; empty where they have no name."""
        names = _NAMES.get(self.kind, "").split()
        return names[self.number - 1] if 0 < self.number <= len(names) else ""

    def __str__(self) -> str:
        words = {"list_fault": "listing fault", "trailing": "trailing bytes"}.get(self.kind, self.kind.replace("_", " "))
        words += f" {self.number} ({self.name})" if self.number else ""
        if self.kind in ("set_fault", "file_fault", "trailing", "capture_fault"):
            words += f" at {self.place}"
        elif self.kind == "list_fault":
            words += f" line {self.place}"
        elif self.step and not self.message:
            words += f" in {self.step}"
        return f"{words}: {self.message}" if self.message else words


class TextFault(Fault):
    """A text isn't hexadecimal from this line and column on, both from 1."""

    def __init__(self, line: int, column: int):
        super().__init__("text_fault", 0, line)
        self.line, self.column = line, column
        self.args = line, column

    def __str__(self) -> str:
        return f"hexadecimal fault line {self.line} column {self.column}"


def step_word(it) -> str:
    """The word that `usbdesc` has for a step of an enumeration; empty where there is none."""
    return _STEPS[it.step].format(i=it.index, l=it.language)


def trouble_of(number: int, it) -> Fault:
    """The trouble of this number, at the step of a struct that has one."""
    numbers = c.structs["trouble"](number, it.step, it.index, it.language)
    answer, text = c.into(c.lib.nzg_trouble_text, numbers)
    done(answer)
    return Fault("trouble", number, step=step_word(it), message=text.decode("ascii"))


def _meant(answer, data: bytes) -> tuple[str, int]:
    """What is wrong with bytes, in words, and the number of the fault of a set in a file, where that is the fault of this answer."""
    meant, text = c.into(c.lib.nzg_fault_text, *c.lend(data))
    kind, inner = STATUSES[answer.status], meant.number
    expected = {"set_fault": inner == answer.number, "file_fault": (answer.number == 2) == bool(inner), "trailing": True}.get(kind)
    if STATUSES[meant.status] != "done" or meant.place != answer.place or not expected:
        return "", 0
    return text.decode("ascii"), inner if kind == "file_fault" else 0


def fault_of(answer, data: bytes | None = None) -> Fault | None:
    """The fault of an answer that has one, with its words where these are the bytes at fault."""
    kind = STATUSES[answer.status]
    if kind == "no_memory":
        raise MemoryError
    if kind == "text_fault":
        return TextFault(answer.place, answer.length)
    if kind in ("done", "open"):
        return None
    message, inner = _meant(answer, data) if data is not None else ("", 0)
    return Fault(kind, answer.number, answer.place, "", message, inner)


def done(answer, data: bytes | None = None):
    """The answer, where nothing was refused."""
    if fault := fault_of(answer, data):
        raise fault
    return answer
