"""The crates on their floors, each in layers that use only those below them there, and what each crate uses and is for."""

import os
import re

from . import sources


# The libraries that aren't of the core; what is no library is a test program, but for the program itself.
FLOORS = {"words": ["usb_names", "usb_text", "usb_hex", "usb_explain", "usb_command_line"], "doors": ["usb_tool", "nozzlegorse", "usb_c", "usbdesc"]}
FLOOR_NAMES = ["tests", "doors", "words", "core"]


def floor_of(crate):
    named = next((floor for floor, crates in FLOORS.items() if crate in crates), None)
    return named or ("core" if crate.startswith("usb_") else "tests")


def uses():
    """What each crate uses of this repository."""
    found = re.findall(r"^(\w+)(?: staticlib)?:(.*)$", sources.text_of("crates.txt"), flags=re.M)
    names = {crate for crate, _ in found}
    return {crate: [it for it in words.split() if it in names] for crate, words in found}


def below(crate, used):
    """All crates that this one uses, by others too."""
    return set(used[crate]).union(*(below(it, used) for it in used[crate]))


def printed():
    used = uses()
    drawing = []
    for floor in FLOOR_NAMES:
        height = {}
        for crate in used:  # crates.txt has the lowest first
            if floor_of(crate) == floor:
                height[crate] = 1 + max((height[it] for it in below(crate, used) if it in height), default=0)
        lines = ["  ".join(it for it in height if height[it] == level) for level in range(max(height.values()), 0, -1)]
        drawing += [f"{name:<7}{line}" for name, line in zip([floor] + [""] * len(lines), lines)]
    rows = ["| Crate | Uses | What it is |", "|---|---|---|"]
    for crate in used:
        root = next(it for it in ("lib.rt", "main.rt") if os.path.exists(f"crates/{crate}/src/{it}"))
        direct = [it for it in used[crate] if not any(it in below(other, used) for other in used[crate])]
        rows.append(f"| `{crate}` | {', '.join(direct)} | {sources.first_sentence(f'crates/{crate}/src/{root}')} |")
    return "\n".join(["```", *drawing, "```", "", *rows])
