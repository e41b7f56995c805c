"""Why bytes are no descriptors, in the words of `explain`, and what takes them."""
from __future__ import annotations

from .. import Fault, explain, from_text

# By how the words of `explain` go on after "the bytes begin as": what gets at the descriptors.
_HINTS = {
    "an ELF": "objcopy -O binary -j SECTION writes the bytes of a section",
    "a gzip": "gunzip writes what it holds",
    "a record of Intel HEX": "objcopy -I ihex -O binary writes its bytes",
}
_BEGINS, _TEXT = "the bytes begin as ", "this is text"
# The first bytes of pcap, of either byte order and clock, and of pcapng.
_RECORDINGS = tuple(map(bytes.fromhex, ("a1b2c3d4", "d4c3b2a1", "a1b23c4d", "4d3cb2a1", "0a0d0d0a")))


def lines_of(data: bytes) -> list[str]:
    """What an explanation says of the fault: its line, and maybe one of what the bytes look like."""
    found = [line.strip() for line in explain(data).text.splitlines() if line.startswith(("  ! ", "  ? "))]
    # Broken bytes have no findings, so that this is the first such line.
    at = next((place for place, line in enumerate(found) if line.startswith("! ")), len(found))
    return [line[2:] for line in found[at:]]


def why(data: bytes, fault: Fault) -> str:
    """Why these bytes are none, in one line."""
    if data.startswith(_RECORDINGS):
        return "this is a recording; usbdesc explains it, and Wireshark copies a descriptor as a hex dump, which is taken"
    first, *looks = lines_of(data) or [str(fault)]
    if not looks:
        return first
    look = looks[0]
    if look.startswith(_TEXT):
        return f"{_TEXT}; {_why_no_hexadecimal(data)}"
    if look.startswith(_BEGINS):
        kind = look.removeprefix(_BEGINS)
        return look + next((f"; {words}" for start, words in _HINTS.items() if kind.startswith(start)), "")
    return f"{first}; {look}" if fault.place else look


def _why_no_hexadecimal(data: bytes) -> str:
    """Why a text has no bytes, or of hexadecimal text why these are none."""
    try:
        return f"its bytes: {lines_of(from_text(data))[0]}"
    except ValueError as fault:
        return str(fault)
