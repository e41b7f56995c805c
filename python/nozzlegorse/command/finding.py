"""`find`: the sets and device descriptors that stand in any bytes, as those of a firmware."""
from __future__ import annotations

import argparse
import errno
import os
import sys
from collections.abc import Iterator
from typing import NamedTuple

from .. import Fault, find, judge
from ..descriptors import Found
from .checking import Problem, problems_of
from .images import Broken, pieces_of
from .terminal import BOLD, RED, Terminal, shown

# As many bytes as are searched.
LONGEST = 1 << 28


class Piece(NamedTuple):
    """Descriptors at an address: what they are, and what breaks a rule first. A device descriptor alone is judged by none."""

    address: int
    data: bytes
    words: str
    finding: Problem | None

    @property
    def line(self) -> str:
        """All of it but the file."""
        return f"0x{self.address:08x}, {len(self.data)} bytes, {self.words}"


def _first(data: bytes) -> Problem | None:
    return next((it for it in problems_of(data, None) if it.is_finding), None)


def _alone(found: Found) -> tuple[str, Problem | None]:
    data = found.bytes
    if found.kind == "device":
        vendor, product = (int.from_bytes(data[at:at + 2], "little") for at in (8, 10))
        return f"device {vendor:04x}:{product:04x}", None
    return f"{'other-speed ' * (data[1] == 7)}configuration {data[5]}", _first(data)


def _together(found: list[Found]) -> list[Found]:
    """A device descriptor with the sets that it declares, where these are the next and follow it without a gap; else nothing."""
    device, *sets = found
    end = device.place + len(device.bytes)
    for it in sets:
        if it.place != end:
            return []
        end += len(it.bytes)
    try:
        judge(b"".join(it.bytes for it in (device, *sets)))
    except Fault:
        return []
    return [device, *sets]


def found_in(data: bytes, address: int = 0) -> Iterator[Piece]:
    """What stands in bytes whose first one has this address."""
    found, at = list(find(data)), 0
    while at < len(found):
        first = found[at]
        whole = _together(found[at:at + 1 + first.bytes[-1]]) if first.kind == "device" else []
        words, finding = _alone(first)
        joined = b"".join(it.bytes for it in whole) or first.bytes
        if whole:
            words, finding = f"{words} and its sets", _first(joined)
        yield Piece(address + first.place, joined, words, finding)
        at += len(whole) or 1


def _read(word: str) -> bytes:
    if word == "-" and not sys.stdin:
        raise OSError(errno.EBADF, "standard input is closed", word)
    with (open(word, "rb") if word != "-" else os.fdopen(os.dup(sys.stdin.fileno()), "rb")) as opened:
        data = opened.read(LONGEST + 1)
    if len(data) > LONGEST:
        raise OSError(errno.EFBIG, "more bytes than are searched", word)
    return data


def _keep(folder: str, name: str, it: Piece) -> None:
    """Writes the bytes into a file of the folder. One that is there stays: with other bytes it is an error."""
    os.makedirs(folder, exist_ok=True)
    stem = os.path.basename(name) if name != "-" else "stdin"
    path = os.path.join(folder, f"{stem}-{it.address:08x}.{'descriptors' if it.data[1] == 1 else 'bin'}")
    try:
        with open(path, "xb") as opened:
            opened.write(it.data)
    except FileExistsError:
        with open(path, "rb") as opened:
            if opened.read() != it.data:
                raise


def _searched(out: Terminal, name: str, folder: str | None) -> bool:
    """A line for each; gives whether anything breaks a rule. Raises `Broken` and what `open` does."""
    breaks, count = False, 0
    for address, data in pieces_of(_read(name)):
        for it in found_in(data, address):
            said = out.coloured(it.finding.line, RED) if it.finding else "no findings"
            more = "" if it.words.startswith("device") and len(it.data) == 18 else f": {said}"
            out.line(f"{shown(name)}: {out.coloured(it.line, BOLD)}{more}")
            breaks, count = breaks or it.finding is not None, count + 1
            if folder:
                _keep(folder, name, it)
    if not count:
        out.line(f"{shown(name)}: no descriptors")
    return breaks


def searched(out: Terminal, words: argparse.Namespace) -> int:
    """`find`."""
    breaks = False
    for name in words.files:
        try:
            breaks |= _searched(out, name, words.extract)
        except Broken as why:
            out.error(f"{name}: {why}")
        except OSError as fault:
            if isinstance(fault, BrokenPipeError):
                raise
            out.error(f"{fault.filename or name}: {fault.strerror}")
    return int(breaks)
