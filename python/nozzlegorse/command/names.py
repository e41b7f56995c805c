"""The names that usb.ids has of vendors and products."""
from __future__ import annotations

import os

from .terminal import shown

# Where distributions have it; the first is the one that is updated.
PLACES = ("/var/lib/usbutils/usb.ids", "/usr/share/hwdata/usb.ids", "/usr/share/misc/usb.ids")


def names_of(wanted: set[str], place: str | None = None) -> dict[str, tuple[str, str]]:
    """The names of each of these devices, `0483:5740`, in the file at this place, else in the first of the known ones that is there.
    Raises OSError where the place was named and isn't readable."""
    place = place or next(filter(os.path.isfile, PLACES), None)
    if not place:
        return {}
    with open(place, encoding="utf-8", errors="replace") as lines:
        return _read(lines, wanted)


def _read(lines, wanted: set[str]) -> dict[str, tuple[str, str]]:
    """A vendor's line has its number and its name, and those of its products follow after a tab. The vendors come first."""
    vendors, found, vendor, name = {it[:4] for it in wanted}, {}, "", ""
    for line in lines:
        code, _, words = line.strip().partition("  ")
        if line.startswith("C "):
            break
        if line[:1] not in ("\t", "#", "\n"):
            vendor, name = code, shown(words)
            found.update({it: (name, "") for it in wanted if it[:4] == vendor} if vendor in vendors else {})
        elif line[:1] == "\t" and line[:2] != "\t\t" and f"{vendor}:{code}" in wanted:
            found[f"{vendor}:{code}"] = name, shown(words)
    return found
