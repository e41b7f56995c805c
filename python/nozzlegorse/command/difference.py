"""`diff`: what differs of two devices, a line a field."""
from __future__ import annotations

import argparse
from collections.abc import Iterator

from .. import Fault, judge
from ..descriptors import Descriptor
from ..dicts import fields_of
from . import faults
from .places import Places
from .targets import Refused, Target, targets_of
from .terminal import GREEN, RED, Terminal, shown

# What no dump of Linux has, and what no set has.
_BEYOND = {"file": "", "dump": "strings and the other speed", "set": "the device, strings and the other speed"}


class _Device(Places):
    """The descriptors of a device, each by what names it in both: what it belongs to, and how many of that name came before it."""

    def __init__(self, target: Target, speed: str | None):
        self.target, self.kind = target, judge(target.data)
        super().__init__(target.data, speed or target.speed)
        self.keyed: dict[tuple, int] = {}
        counts: dict[tuple, int] = {}
        for place, path in self.paths.items():
            counts[path] = number = counts.get(path, -1) + 1
            self.keyed[path, number] = place

    def fields(self, place: int) -> dict[tuple, dict]:
        """The fields of a descriptor by name, and how many of that name came before; a string is its one field."""
        it = self.descriptors[place]
        if it.role == "string":
            return {("", 0): {"bytes": it.text, "words": f'"{it.text}"'}}
        found, counts = {}, {}
        for row in fields_of(it, self.headings[place]):
            counts[row["name"]] = number = counts.get(row["name"], -1) + 1
            found[row["name"], number] = row
        return found


def _is_in(kind: str, it: Descriptor) -> bool:
    """Whether such an input can have such a descriptor."""
    if kind == "file":
        return True
    return it.part == "main" or (kind == "dump" and it.role == "device")


def _lines(left: _Device, right: _Device) -> Iterator[tuple[str, str]]:
    """Each line, and the colour of it."""
    has_sets = left.sets > 1 or right.sets > 1
    for key in {**left.keyed, **right.keyed}:
        one, other = left.keyed.get(key), right.keyed.get(key)
        only = left if other is None else right
        place = one if other is None else other
        if not all(_is_in(it.kind, only.descriptors[place]) for it in (left, right)):
            continue
        path, again = key[0][len(key[0]) > 1 and not has_sets:], f" ({key[1] + 1})" * bool(key[1])
        if one is None or other is None:
            sign, colour = ("+", GREEN) if one is None else ("-", RED)
            above = f"{', '.join(path[:-1])}: " if len(path) > 1 else ""
            yield f"{sign} {above}{only.headings[place].words}", colour
        else:
            yield from ((f"{', '.join(path)}{again}: {line}", "") for line in _changes(left.fields(one), right.fields(other)))


def _changes(left: dict, right: dict) -> Iterator[str]:
    """Which fields differ."""
    for key in {**left, **right}:
        one, other = left.get(key, {}), right.get(key, {})
        if one.get("bytes") != other.get("bytes"):
            words = " -> ".join(it.get("words", it.get("bytes", "none")) for it in (one, other))
            yield f"{key[0]} {words}".lstrip()


def _devices(out: Terminal, words: argparse.Namespace) -> list[_Device]:
    """Those that can be read."""
    found = []
    for target in targets_of(words.targets, words.sysfs):
        if isinstance(target, Refused):
            out.error(str(target))
            continue
        try:
            found.append(_Device(target, words.speed))
        except Fault as fault:
            out.error(f"{target.name}: {faults.why(target.data, fault)}")
    return found


def differs(out: Terminal, words: argparse.Namespace) -> int:
    """`diff`."""
    found = _devices(out, words)
    if len(found) != 2:
        if len(found) > 2:
            out.error("more than one device has such a vendor and product: name it by its bus id")
        return 2
    lines = list(_lines(*found))
    for line, colour in lines:
        out.line(line, colour)
    least = max(found, key=lambda it: list(_BEYOND).index(it.kind))
    if found[0].kind != found[1].kind:
        out.line(f"not compared, since {shown(least.target.name)} has none: {_BEYOND[least.kind]}")
    return int(bool(lines))
