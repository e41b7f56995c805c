"""The page with the bytes of a file or of a plugged-in device, in the browser.

    python3 -m nozzlegorse.page [FILE | BUS-ID] [--out PAGE]

BUS-ID is a name of /sys/bus/usb/devices, as 1-1, and - is standard input. The page is one file that works without a server and sends
nothing. It is written to a temporary file, which stays for the browser, or to PAGE, and then no browser is opened.
"""
from __future__ import annotations

import argparse
import base64
import html
import os
import re
import sys
import tempfile
import webbrowser

__all__ = ["main", "page_of"]
# In a wheel it is beside this file, in a Debian package with the documents.
_PAGES = [os.path.join(os.path.dirname(__file__), it) for it in ("nozzlegorse.html", "../../../doc/nozzlegorse/nozzlegorse.html")]
_SYS = "/sys/bus/usb/devices"
_GIVEN = '<script type="text/plain" id="given"></script>'
_BUS_ID = re.compile(r"usb\d+|\d+-\d+(\.\d+)*")


def page_of(page: str, data: bytes, name: str = "") -> str:
    """The text of a page that shows these bytes at first, of that of nozzlegorse.html."""
    given = f'<script type="text/plain" id="given" data-name="{html.escape(name)}">{base64.b64encode(data).decode()}</script>'
    return page.replace(_GIVEN, given, 1)


def _bytes_of(target: str) -> bytes:
    if target == "-":
        return sys.stdin.buffer.read()
    is_device = _BUS_ID.fullmatch(target) and not os.path.exists(target)
    with open(f"{_SYS}/{target}/descriptors" if is_device else target, "rb") as it:
        return it.read()


def _written(page: str, out: str | None) -> str:
    if out is None:
        handle, out = tempfile.mkstemp(prefix="nozzlegorse-", suffix=".html")
        os.close(handle)
    with open(out, "w", encoding="utf-8") as it:
        it.write(page)
    return os.path.abspath(out)


def main(words: list[str] | None = None) -> int:
    """Writes the page and opens it; 2 where something can't be read, written or opened."""
    parser = argparse.ArgumentParser(prog="nozzlegorse.page", usage="python3 -m nozzlegorse.page [FILE | BUS-ID] [--out PAGE]")
    parser.add_argument("target", nargs="?", metavar="FILE | BUS-ID")
    parser.add_argument("--out", metavar="PAGE")
    asked = parser.parse_args(words)
    try:
        data = _bytes_of(asked.target) if asked.target else b""
        with open(next(filter(os.path.exists, _PAGES), _PAGES[0]), encoding="utf-8") as it:
            page = page_of(it.read(), data, asked.target or "")
        path = _written(page, asked.out)
    except OSError as error:
        print(f"nozzlegorse.page: {error.filename}: {error.strerror}", file=sys.stderr)
        return 2
    if asked.out is None and not webbrowser.open(f"file://{path}"):
        print(f"nozzlegorse.page: no browser opened {path}", file=sys.stderr)
        return 2
    return 0


if __name__ == "__main__":
    sys.exit(main())
