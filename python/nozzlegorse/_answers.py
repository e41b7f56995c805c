"""The owner that a file of answers describes."""
from __future__ import annotations

import re

from ._owner import Owner
from .ends import ROOM, Device, Transaction
from .faults import Fault

# Why a device rejects an answer.
REASONS = {"Closed": "no owner answers it: the device does, or it stalls", "Room": f"a device has room for {ROOM} bytes"}


class Answers(Owner):
    """The owner that a file of answers describes: the first line that fits is the answer.

    A line has the first six bytes of a setup packet, the last four of which may have `*` for any digit, and then bytes in
    hexadecimal or `-` for none, `done`, `taken` for a write, or `kept REQUEST`: the bytes that the write of that request
    brought last. A `ValueError` names the first line that can't be carried out.
    """

    def __init__(self, path: str = ""):
        self.lines, self.kept = [], {}
        if not path:
            return
        with open(path, encoding="utf-8", errors="replace") as file:
            for number, text in enumerate(file, 1):
                if words := text.split("#")[0].split():
                    self.lines.append(Line(words, f"{path}: line {number}: "))
        writes = {line.request for line in self.lines if line.kind == "taken"}
        for line in self.lines:
            if line.kind == "kept" and line.of not in writes:
                raise ValueError(f"{line.where}no line '{line.of} taken'")

    def request(self, setup, data):
        line = next((it for it in self.lines if it.fits(setup)), None)
        if line is None or line.answer is True and (line.kind == "taken") != bool(data):
            return None
        if line.kind == "taken":
            self.kept[line.request] = data
        return self.kept.get(line.of, b"") if line.of else line.answer

    def has(self, request: str) -> bool:
        """Whether a line is for a request, of which these are the first six bytes in hexadecimal."""
        return any(it.fits(bytes.fromhex(request)) for it in self.lines)

    def check(self, device: Device) -> None:
        """That the device refuses each of these requests, and takes its answer."""
        for line in self.lines:
            request = bytes.fromhex(line.request.replace("*", "f"))
            device.serve(Transaction.setup(0, request + {"done": b"\0\0", "taken": b"\x08\0"}.get(line.kind, b"\xff\xff")))
            if device.refused() is None:
                raise ValueError(f"{line.where}the device answers {line.request} itself")
            try:
                device.accept() if line.answer is True else device.answer_with(line.answer)
            except Fault as fault:
                raise ValueError(f"{line.where}{line.request}: {REASONS.get(fault.name, fault)}") from None
        device.reset()


class Line:
    """A line of a file of answers."""

    def __init__(self, words: list, where: str):
        self.where, self.request, self.of = where, words[0].lower(), ""
        if not re.fullmatch(r"[0-9a-f]{4}[0-9a-f*]{8}", self.request):
            raise ValueError(f"{where}{words[0][:40]} isn't the first six bytes of a setup packet")
        self.kind = words[1] if words[1:2] in (["done"], ["taken"], ["kept"]) else "bytes"
        self.answer = self.kind in ("done", "taken") or b""
        if len(words) != (3 if self.kind == "kept" else 2):
            raise ValueError(f"{where}a request and its answer are wanted: bytes or '-', 'done', 'taken', or 'kept' and a request")
        is_read = self.request[0] > "7"
        if is_read != (self.kind in ("bytes", "kept")):
            raise ValueError(f"{where}'{words[1][:40]}' is no answer to a request {'that reads' if is_read else 'that reads nothing'}")
        if self.kind == "kept":
            self.of = words[2].lower()
        elif self.kind == "bytes" and not re.fullmatch(r"-|([0-9a-fA-F]{2})+", words[1]):
            raise ValueError(f"{where}'{words[1][:40]}' is neither '-' nor bytes in hexadecimal")
        elif self.kind == "bytes":
            self.answer = bytes.fromhex(words[1].strip("-"))

    def fits(self, setup: bytes) -> bool:
        return all(want in ("*", digit) for want, digit in zip(self.request, setup.hex()))
