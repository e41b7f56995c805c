"""What the command does, and how it ends."""
from __future__ import annotations

import sys

from . import checking, difference, explaining, finding, listing
from .terminal import Terminal, give_up, say
from .words import parser

_COMMANDS = {"list": listing.listed, "explain": explaining.explained, "check": checking.checked, "show": explaining.listed, "find": finding.searched,
             "diff": difference.differs}
_BAD = 2


def run(words: list[str]) -> int:
    """Does what the words say; gives the status."""
    try:
        return _run(words)
    except OSError as fault:
        return give_up(fault)
    except MemoryError:
        say("out of memory")
        return _BAD


def _run(words: list[str]) -> int:
    try:
        given = parser().parse_args(words)
    except SystemExit as end:
        # Help is written, or why the words are wrong.
        if sys.stdout:
            sys.stdout.flush()
        return int(end.code or 0)
    out = Terminal(given.pages)
    try:
        status = _COMMANDS[given.command](out, given)
    finally:
        out.close()
    return _BAD if out.failed else status
