"""`explain` and `show`: the texts of the library, of each target."""
from __future__ import annotations

import argparse

from .. import Fault, explain, show
from .._headings import headings
from . import faults
from .devices import Device
from .targets import Refused, targets_of
from .terminal import BOLD, RED, YELLOW, Terminal, shown


def _coloured(out: Terminal, text: str) -> str:
    """The text of an explanation: headings are bold, findings red, remarks yellow. A field has four spaces more than its heading, and
    the heading of what is in it two."""
    if not out.has_colours:
        return text
    lines, fields = [], 0
    for line in text.splitlines():
        words = line.lstrip(" ")
        indent = len(line) - len(words)
        colour = {"! ": RED, "? ": YELLOW}.get(words[:2]) or (BOLD if indent < fields or not indent else "")
        if colour == BOLD:
            fields = indent + 4
        lines.append(" " * indent + out.coloured(words, colour))
    return "".join(f"{line}\n" for line in lines)


def _of_device(out: Terminal, device: Device) -> None:
    """What Linux has of a device beside its descriptors."""
    said = "".join(f', {name} "{text}"' for name, text in device.strings.items())
    out.line(f"{device.bus_id} at {device.said('speed') or '?'} Mbit/s{said}", BOLD)
    for interface, driver in device.drivers.items():
        out.line(f"  {interface}, driver {driver}")


def _is_read(text: str) -> bool:
    """Whether an explanation has a descriptor, and not only bytes that are none."""
    return any(it.words != "the rest" for it in headings(text).values())


def explained(out: Terminal, words: argparse.Namespace) -> int:
    """`explain`: after a heading where there are several."""
    separator = ""
    for target in (targets := list(targets_of(words.targets, words.sysfs))):
        if isinstance(target, Refused):
            out.error(str(target))
            continue
        options = {name: getattr(words, name) for name in ("brief", "formats", "loose")} | {"speed": words.speed or target.speed, "utf8": True}
        came = explain(target.data, **options)
        if came.fault:
            out.error(f"{target.name}: {faults.why(target.data, came.fault)}")
        if came.fault and not _is_read(came.text):
            continue
        out.text(separator)
        separator = "\n"
        if target.device:
            _of_device(out, target.device)
        elif len(targets) > 1:
            out.line(f"{shown(target.name)}:", BOLD)
        out.text(_coloured(out, came.text if words.places else explain(target.data, places=False, **options).text))
    return 0


def listed(out: Terminal, words: argparse.Namespace) -> int:
    """`show`: after a comment where there are several, which `build --comments` leaves out."""
    for target in (targets := list(targets_of(words.targets, words.sysfs))):
        try:
            if isinstance(target, Refused):
                raise target
            text = show(target.data)
        except Refused as why:
            out.error(str(why))
        except Fault as fault:
            out.error(f"{target.name}: {faults.why(target.data, fault)}")
        else:
            out.text(f"# {shown(target.name)}\n" * (len(targets) > 1) + text)
    return 0
