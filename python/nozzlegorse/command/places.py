"""The descriptors of an input by their places, as lines of the command name them."""
from __future__ import annotations

from .. import explain, walk
from .._headings import Heading, headings
from ..descriptors import Descriptor

_OWNERS = {"interface": "configuration", "endpoint": "interface"}


def _own(it: Descriptor, heading: Heading) -> str:
    """The name of a descriptor among those beside it: what its heading begins with, but for what changes with its contents."""
    if it.role == "configuration":
        return f"{'other-speed ' * (it.part == 'other')}configuration {it.value}"
    if it.role == "interface":
        return f"interface {it.interface}" + f" alternate {it.alternate}" * bool(it.alternate)
    if it.role == "endpoint":
        return f"endpoint 0x{it.address:02x}"
    if it.role == "string":
        return f"string {it.index} in 0x{it.language:04x}"
    return it.role if it.role in ("device", "qualifier", "languages") else heading.words.partition(",")[0]


class Places:
    """Which descriptor is where in these bytes, and what it is called after what it belongs to."""

    def __init__(self, data: bytes, speed: str | None = None, brief: bool = False):
        self.descriptors = {it.place: it for it in walk(data)}
        self.headings = headings(explain(data, brief=brief, speed=speed, utf8=True).text)
        self.paths: dict[int, tuple[str, ...]] = {}
        self.sets = sum(it.role == "configuration" for it in self.descriptors.values())
        last: dict[str | None, tuple[str, ...]] = {}
        for place, it in self.descriptors.items():
            owner = it.owner or _OWNERS.get(it.role)
            self.paths[place] = last[it.role] = (*last.get(owner, ()), _own(it, self.headings[place]))

    def name(self, place: int) -> str:
        """The descriptor at a place. What is in a set has the name of that where there are several."""
        path = self.paths[place]
        return ", ".join(path[len(path) > 1 and self.sets == 1:])

    def length(self, place: int) -> int:
        """How long the descriptor at a place is."""
        return len(self.descriptors[place].data)
