"""`list`: a line a device that is plugged in."""
from __future__ import annotations

import argparse

from .. import Fault, check, remarks
from . import faults
from .devices import Device, devices
from .names import names_of
from .targets import Refused, of_device
from .terminal import GREEN, RED, YELLOW, Terminal


def counted(count: int, word: str) -> str:
    """As `1 finding`, `2 findings`."""
    return f"{count} {word}{'s' * (count != 1)}"


def _judged(device: Device) -> tuple[str, str]:
    """What a check finds of its descriptors, and the colour of that."""
    try:
        data = of_device(device).data
        found, remarked = len(check(data)), len(remarks(data, device.speed))
    except Refused:
        return "gone", RED
    except OSError as fault:
        return f"descriptors: {fault.strerror}", RED
    except Fault as fault:
        return faults.why(data, fault).partition(":")[0], RED
    words = counted(found, "finding") if found else "no findings"
    words += f", {counted(remarked, 'remark')}" * bool(remarked)
    return words, RED if found else YELLOW if remarked else GREEN


def _called(device: Device, names: dict) -> str:
    """Maker and product: as the device says, else as usb.ids has them."""
    strings, (vendor, product) = device.strings, names.get(device.codes.lower(), ("", ""))
    maker, called = strings.get("manufacturer", vendor), strings.get("product", product)
    # Many products begin with their maker's name.
    return called if called.startswith(maker) else f"{maker} {called}".strip()


def _depths(found: list[Device], is_tree: bool) -> list[tuple[Device, int]]:
    """Each device with how deep it is below what is listed: in a tree after the hub that it is plugged into."""
    if not is_tree:
        return [(it, 0) for it in found]
    known = {it.bus_id for it in found}
    below: dict[str, list[Device]] = {}
    for it in found:
        below.setdefault(it.parent if it.parent in known else "", []).append(it)

    def walk(parent: str, depth: int):
        for it in below.get(parent, ()):
            yield it, depth
            yield from walk(it.bus_id, depth + 1)

    return list(walk("", 0))


def listed(out: Terminal, words: argparse.Namespace) -> int:
    """`list`."""
    try:
        found = devices(words.sysfs)
        names = names_of({it.codes.lower() for it in found}, words.ids)
    except OSError as fault:
        out.error(f"{fault.filename}: {fault.strerror}")
        return 2
    if not found:
        out.line("no devices")
    rows = [("  " * depth + it.bus_id, it.codes, it.speed_words, _called(it, names), *_judged(it)) for it, depth in _depths(found, words.tree)]
    ids, speeds, called = (max((len(row[at]) for row in rows), default=0) for at in (0, 2, 3))
    if out.width:
        # What is judged stays whole, and the name is cut.
        called = max(min(called, out.width - ids - speeds - 17 - max((len(row[4]) for row in rows), default=0)), 0)
    for bus_id, codes, speed, name, judged, colour in rows:
        name = name if len(name) <= called else name[:max(called - 1, 0)] + "…" * (called > 0)
        out.text(f"{bus_id:{ids}}  {codes:9}  {speed:{speeds}}  {name:{called}}  {out.coloured(judged, colour)}\n")
    return 0
