"""The command `nozzlegorse`: descriptors by name, in words, and in the forms that CI reads. All facts and words are the library's.

The status is 0, 1 for findings, differences or what --fail names, 2 where a target can't be read or the words are wrong, and 141 where
nobody reads what is written.
"""
from __future__ import annotations

import importlib
import signal
import sys

__all__ = ["PROGRAMS", "main"]
# The programs of the package that have words of their own.
PROGRAMS = {
    "usbip": "devices for a real Linux host, which plugs them in by USB/IP",
    "bench": "tries other people's devices and hosts beside the proved ones",
    "usbfs": "reads and tests a device that is plugged in",
    "image": "a device's image as a C file, for a microcontroller's flash",
    "page": "shows a file or a plugged device in the browser",
}


def main(words: list[str] | None = None) -> int:
    """The program; gives its status."""
    words = sys.argv[1:] if words is None else words
    if words and words[0] in PROGRAMS:
        return importlib.import_module(f"..{words[0]}", __name__).main(words=words[1:]) or 0
    if signal.getsignal(signal.SIGINT) is signal.default_int_handler:
        # Ctrl-C ends it as other filters, without a word.
        signal.signal(signal.SIGINT, signal.SIG_DFL)
    from .program import run
    return run(words)
