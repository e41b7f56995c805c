"""The devices that are plugged into a Linux machine, as its /sys has them."""
from __future__ import annotations

import os
import re
from typing import NamedTuple

from .terminal import shown

SYSFS = "/sys"
# By the megabits a second that Linux says: the speed as `explain` takes it, and in the standards' words.
_SPEEDS = {"1.5": ("low", "low"), "12": ("full", "full"), "480": ("high", "high"), "5000": ("super", "super"),
           "10000": ("super", "super+"), "20000": ("super", "super+")}
BUS_ID = re.compile(r"usb\d+|\d+-\d+(\.\d+)*")
CODES = re.compile(r"([0-9a-fA-F]{4}):([0-9a-fA-F]{4})")


class Device(NamedTuple):
    """A device: its bus id, and the folder that Linux has of it."""

    bus_id: str
    folder: str

    def said(self, name: str) -> str:
        """What a file of the folder says, or ''."""
        try:
            with open(f"{self.folder}/{name}", encoding="utf-8", errors="replace") as it:
                return shown(it.read().strip())
        except OSError:
            return ""

    @property
    def codes(self) -> str:
        """Vendor and product."""
        return f"{self.said('idVendor') or '????'}:{self.said('idProduct') or '????'}"

    @property
    def speed(self) -> str | None:
        """As `explain` takes it."""
        return _SPEEDS.get(self.said("speed"), (None, ""))[0]

    @property
    def speed_words(self) -> str:
        """In the standards' words, or as Linux says it."""
        said = self.said("speed")
        return _SPEEDS.get(said, (None, f"{said} Mbit/s" if said else "?"))[1]

    @property
    def strings(self) -> dict[str, str]:
        """The strings of the device that Linux has read."""
        said = {name: self.said(name) for name in ("manufacturer", "product", "serial")}
        return {name: text for name, text in said.items() if text}

    @property
    def drivers(self) -> dict[str, str]:
        """Each interface that has a driver, as Linux names it, with that."""
        try:
            below = sorted((it for it in os.listdir(self.folder) if ":" in it), key=_numbers)
        except OSError:
            return {}
        links = {it: os.path.realpath(f"{self.folder}/{it}/driver") for it in below}
        return {it: shown(os.path.basename(link)) for it, link in links.items() if os.path.isdir(link)}

    @property
    def parent(self) -> str:
        """The bus id of the hub that it is plugged into; '' of a root hub."""
        bus, dash, ports = self.bus_id.partition("-")
        above, dot, _ = ports.rpartition(".")
        return f"{bus}-{above}" if dot else f"usb{bus}" if dash else ""


def _numbers(name: str) -> list[int]:
    return [int(it) for it in re.findall(r"\d+", name)]


def _order(it: Device) -> tuple:
    """A root hub comes before what is plugged into it."""
    return (*_numbers(it.bus_id)[:1], not it.bus_id.startswith("usb"), _numbers(it.bus_id))


def folder_of(sysfs: str) -> str:
    """Where Linux lists devices."""
    return f"{sysfs}/bus/usb/devices"


def devices(sysfs: str) -> list[Device]:
    """All devices, by bus and port. Raises what `os.listdir` does."""
    folder = folder_of(sysfs)
    names = (it for it in os.listdir(folder) if BUS_ID.fullmatch(it))
    return sorted((Device(it, f"{folder}/{it}") for it in names), key=_order)
