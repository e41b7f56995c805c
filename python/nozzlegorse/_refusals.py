"""Why no device has the descriptors of a file."""
from __future__ import annotations

from .descriptors import check
from .faults import Fault


def refusal(file: bytes, fault: Fault) -> str:
    """The fault of a file that was to be a device, and the first rule of chapter 9 that it breaks, where that is why."""
    if fault.name != "Finding":
        return str(fault)
    it = check(file)[0]
    return f"{fault}, V{it.rule} at {it.place}: {it.message}"
