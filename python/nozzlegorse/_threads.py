"""The threads of a bridge: one for each device, and one that prints."""
from __future__ import annotations

import collections
import io
import os
import queue
import sys
import threading
from collections.abc import Callable

# How many lines wait to be printed at most, and how many characters.
MOST_LINES, MOST_CHARACTERS = 10_000, 8 << 20


class Worker:
    """Does one thing after another in a thread of its own. What is raised there goes to `failed`, and ends it."""

    def __init__(self, failed: Callable[[BaseException], None]):
        self._works: queue.SimpleQueue = queue.SimpleQueue()
        self._failed = failed
        threading.Thread(target=self._run, daemon=True).start()

    def __call__(self, work: Callable[[], None]) -> None:
        self._works.put(work)

    def _run(self) -> None:
        try:
            while True:
                self._works.get()()
        except BaseException as fault:
            self._failed(fault)


class Printer:
    """Prints lines in a thread of its own, so that nobody waits for who reads them. What is too much is dropped and counted. Where
    nobody reads, that goes to `failed`."""

    def __init__(self, failed: Callable[[BaseException], None]):
        self._failed, self._out = failed, sys.stdout
        self._lines: collections.deque[str] = collections.deque()
        self._size, self._dropped, self._is_over = 0, 0, False
        self._changed = threading.Condition()
        self._thread = threading.Thread(target=self._run, daemon=True)
        self._thread.start()

    def __call__(self, line: str) -> None:
        """Prints a line, soon."""
        with self._changed:
            if len(self._lines) >= MOST_LINES or self._size + len(line) > MOST_CHARACTERS:
                self._dropped += 1
            else:
                self._lines.append(line)
                self._size += len(line)
            self._changed.notify()

    def close(self) -> None:
        """Prints what is left, if that is read within a second."""
        with self._changed:
            self._is_over = True
            self._changed.notify()
        self._thread.join(1)

    def _run(self) -> None:
        try:
            while text := self._taken():
                self._write(text)
        except (OSError, ValueError) as fault:
            self._failed(fault)

    def _taken(self) -> str:
        """The lines that wait, and how many were dropped after them; none at the end."""
        with self._changed:
            while not (self._lines or self._dropped or self._is_over):
                self._changed.wait()
            if self._dropped:
                self._lines.append(f"{self._dropped} lines were dropped")
            text = "".join(f"{it}\n" for it in self._lines)
            self._lines.clear()
            self._size = self._dropped = 0
            return text

    def _write(self, text: str) -> None:
        """Past the buffer of the standard output, whose lock a thread that waits would hold at the end of the program."""
        try:
            number = self._out.fileno()
        except (AttributeError, io.UnsupportedOperation):
            print(text, end="", file=self._out, flush=True)
            return
        data = memoryview(text.encode(errors="backslashreplace"))
        while data:
            data = data[os.write(number, data) :]
