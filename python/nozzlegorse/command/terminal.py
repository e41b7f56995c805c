"""Standard output and standard error: colours, a pager and the width of a terminal."""
from __future__ import annotations

import contextlib
import os
import shutil
import signal
import subprocess
import sys

NAME = "nozzlegorse"
BOLD, RED, YELLOW, GREEN = "1", "31", "33", "32"
# What less does where nothing else is asked of it, as for git: it ends at once where one screen is enough, and shows colours.
LESS = "FRX"
# The status of a program that SIGPIPE ended.
CLOSED = 141
_WIDTH = 80


def shown(text: str) -> str:
    """The text without what steers a terminal, and in one line: such characters have their number, as in a listing."""
    return "".join(it if it.isprintable() else f"\\{ord(it):04x}" for it in text)


class Terminal:
    """Where the command writes. Lines on standard error come once a pager has ended, so that it doesn't cover them."""

    def __init__(self, pages: bool = True):
        for stream in filter(None, (sys.stdout, sys.stderr)):
            stream.reconfigure(errors="backslashreplace")
        self.is_terminal = bool(sys.stdout) and sys.stdout.isatty()
        self.has_colours = self.is_terminal and not os.environ.get("NO_COLOR") and os.environ.get("TERM") != "dumb"
        self.failed, self._pages = False, pages and self.is_terminal
        self._pager, self._held, self._out = None, [], sys.stdout

    @property
    def width(self) -> int | None:
        """The columns of the terminal, or None where there is none."""
        return shutil.get_terminal_size((_WIDTH, 24)).columns if self.is_terminal else None

    def _page(self) -> None:
        """Starts the pager, where there is one."""
        self._pages = False
        command = os.environ.get("PAGER", "less")
        program = next((word for word in command.split() if "=" not in word), "cat")
        if program == "cat" or not shutil.which(program):
            return
        self._pager = subprocess.Popen(command, shell=True, stdin=subprocess.PIPE, encoding=sys.stdout.encoding, errors="backslashreplace",
                                       env={"LESS": LESS, "LV": "-c", **os.environ})
        self._out = self._pager.stdin
        # Ctrl-C is the pager's.
        signal.signal(signal.SIGINT, signal.SIG_IGN)

    def line(self, text: str = "", colour: str = "") -> None:
        """A line to standard output."""
        self.text(self.coloured(text, colour) + "\n")

    def coloured(self, text: str, colour: str) -> str:
        """The text in a colour, where the terminal has some."""
        return f"\x1b[{colour}m{text}\x1b[m" if colour and text and self.has_colours else text

    def text(self, text: str) -> None:
        """A text to standard output; at a terminal the first one starts the pager."""
        if self._pages:
            self._page()
        if self._out:
            self._out.write(text)

    def error(self, text: str) -> None:
        """A line to standard error. Something couldn't be done."""
        self.failed = True
        if self._pager:
            self._held.append(text)
        else:
            self.flush()
            say(text)

    def flush(self) -> None:
        """What was written is handed on."""
        if self._out:
            self._out.flush()

    def close(self) -> None:
        """Hands on what was written, and waits for the pager. Who leaves it early has seen enough."""
        if not self._pager:
            return self.flush()
        with contextlib.suppress(BrokenPipeError):
            self._pager.stdin.close()
        self._pager.wait()
        self._pager, self._out = None, sys.stdout
        for text in self._held:
            say(text)


def say(text: str) -> None:
    """A line to standard error."""
    if sys.stderr:
        with contextlib.suppress(OSError):
            print(f"{NAME}: {shown(text)}", file=sys.stderr, flush=True)


def give_up(fault: OSError) -> int:
    """The status after standard output failed: nothing is said where nobody reads it."""
    with contextlib.suppress(OSError, ValueError):
        os.dup2(os.open(os.devnull, os.O_WRONLY), sys.stdout.fileno())
    if isinstance(fault, BrokenPipeError):
        return CLOSED
    say(f"{fault.filename or 'standard output'}: {fault.strerror}")
    return 2
