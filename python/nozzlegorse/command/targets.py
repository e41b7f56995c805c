"""What the commands are given: a file, standard input, or a device that is plugged in."""
from __future__ import annotations

import errno
import os
import sys
from collections.abc import Iterator
from typing import NamedTuple

from .. import from_text
from .devices import BUS_ID, CODES, Device, devices, folder_of

# As many bytes as the longest descriptor file has; usbdesc reads no more either.
LONGEST = 41_584_152


class Target(NamedTuple):
    """Bytes, by the name that they have in what is written. A device that is plugged in has its speed."""

    name: str
    data: bytes
    speed: str | None = None
    device: Device | None = None


class Refused(Exception):
    """Why the target of this name can't be read: `str` is a line."""

    def __init__(self, name: str, why: str):
        super().__init__(f"{name}: {why}")
        self.name = name


def targets_of(words: list[str], sysfs: str) -> Iterator[Target | Refused]:
    """Each target in its order, or why there is none."""
    for word in words:
        try:
            yield from _of_word(word, sysfs)
        except OSError as fault:
            yield Refused(word, fault.strerror if fault.filename in (word, None) else f"{fault.filename}: {fault.strerror}")
        except Refused as why:
            yield why


def _of_word(word: str, sysfs: str) -> list[Target]:
    """A word that is a bus id or `0483:5740` is a device; a file of such a name is `./1-1`."""
    if codes := CODES.fullmatch(word):
        found = [it for it in devices(sysfs) if it.codes.lower() == codes[0].lower()]
        if not found:
            raise Refused(word, f"no such device below {folder_of(sysfs)}")
        return [of_device(it) for it in found]
    if BUS_ID.fullmatch(word):
        return [of_device(Device(word, f"{folder_of(sysfs)}/{word}"))]
    if word == "-":
        if not sys.stdin:
            raise Refused(word, "standard input is closed")
        return [Target(word, _bytes_of(_limited(word, sys.stdin.buffer)))]
    with open(word, "rb") as opened:
        return [Target(word, _bytes_of(_limited(word, opened)))]


def of_device(device: Device) -> Target:
    """A device that is plugged in. Raises what `open` does."""
    if not os.path.isdir(device.folder):
        raise Refused(device.bus_id, f"no such device below {os.path.dirname(device.folder)}; a file of this name is ./{device.bus_id}")
    with open(f"{device.folder}/descriptors", "rb") as opened:
        return Target(device.bus_id, _limited(device.bus_id, opened), device.speed, device)


def _limited(name: str, opened) -> bytes:
    """All bytes of what is opened, which has no more than an input can have."""
    data = opened.read(LONGEST + 1)
    if len(data) > LONGEST:
        raise OSError(errno.EFBIG, "more bytes than descriptors can have", name)
    return data


def _bytes_of(data: bytes) -> bytes:
    """The bytes whose hexadecimal text this is, else these: no text is descriptors."""
    try:
        return from_text(data)
    except ValueError:
        return data
