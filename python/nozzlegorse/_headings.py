"""The text of `explain` by descriptor: the heading of each, what is said below it, and its fields in words."""
from __future__ import annotations

from ._value import Value

# The modules re, typing and collections would take half of an import.
TYPE_CHECKING = False
if TYPE_CHECKING:
    from collections.abc import Iterable, Iterator


class Heading(Value):
    """A descriptor in words: its heading without the place, its findings and remarks, and each field that has a line, by name, with what
    the line says."""

    words: str
    findings: list[str]
    remarks: list[str]
    fields: list[tuple[str, str]]


def _parts(line: str) -> tuple[str, int] | None:
    """The words and the place of a line that is a heading: of ` device @0+18`, ` device` and 0."""
    words, at, bounds = line.rpartition(" @")
    place, plus, length = bounds.partition("+")
    return (words, int(place)) if at and plus and place.isdecimal() and length.isdecimal() else None


def headings(text: str) -> dict[int, Heading]:
    """Each heading of an explanation with places, by its place."""
    found, indent, last = {}, 0, Heading("", [], [], [])
    for line in text.splitlines():
        if parts := _parts(line):
            words, place = parts[0].lstrip(" "), parts[1]
            indent, last = len(parts[0]) - len(words) + 4, Heading(words, [], [], [])
            found[place] = last
            continue
        name, _, words = line.strip().partition(" ")
        if name in ("!", "?"):
            (last.findings if name == "!" else last.remarks).append(words)
        elif line.startswith(" " * indent):
            last.fields.append((name, words.lstrip()))
    return found


def messages(found: dict[int, Heading], findings: Iterable, remarks: Iterable) -> Iterator[tuple]:
    """Each finding and each remark with its message. To ask for them one by one reads the bytes as often."""
    for it in findings:
        code = f"V{it.rule} "
        yield it, next(line for line in found[it.place].findings if line.startswith(code)).removeprefix(code)
    # Under a heading they have the order in which they are found.
    rest = {place: iter(it.remarks) for place, it in found.items()}
    for it in remarks:
        yield it, next(rest[it.place])
