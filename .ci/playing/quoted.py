"""Whether the explanations that rows and examples want have each text that usb_explain and usb_names put."""

import glob
import json
import re

from playing import examples
from playing.row import rows_of

SOURCES = "../../usb_explain/src/**/*.rt", "../../usb_names/src/*.rt"


def quoted():
    """Each text between quotation marks in the code, but not in comments, attributes and what only proofs read."""
    for path in (path for pattern in SOURCES for path in glob.glob(pattern, recursive=True)):
        for line in examples.bytes_of(path).decode().splitlines():
            if not re.match(r" *(//|#\[|ghost )", line):
                yield from map(json.loads, re.findall(r'"(?:[^"\\]|\\.)+"', line))


def wanted():
    """The lines of explanations that rows and examples want."""
    for kind, name in examples.lines_of_list():
        if kind == "rows":
            rows = rows_of(name, examples.bytes_of(name).decode())
            explained = [row for row in rows if row.given.startswith("explain ") and "--help" not in row.given]
            yield from (line for row in explained for mark, line in row.lines if mark == ">")
        elif kind in ("set", "file", "dump"):
            yield from examples.bytes_of(name, ".explain").decode().splitlines()
        elif " explain" in name:
            yield from examples.bytes_of(name.split()[0]).decode().splitlines()


def one_of(texts):
    """A pattern of the longest of these that is there, and ends with a word."""
    longest_first = sorted(texts, key=len, reverse=True)
    return "|".join(re.escape(it) + "(?![A-Za-z])" * it[-1].isalpha() for it in longest_first)


def unseen():
    """The texts that no wanted line has. A name that is a part of another text isn't seen there, as `microphone` in
    `microphone array`; what joins names is, as ` bytes at `."""
    texts = set(quoted())
    names = {it for it in texts if it[0].isalnum()}
    lines = "\n".join(set(wanted()))
    found = set(re.findall(f"(?<![A-Za-z])(?:{one_of(names)})|{one_of(texts - names)}", lines))
    joins = {it for it in texts if not (it[0].isalnum() and it[-1].isalnum()) and it in lines}
    return sorted(texts - found - joins)
