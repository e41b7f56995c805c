"""The image of a device as a C file: its descriptors are judged here, and then lie in a microcontroller's flash, where the calls of a
device read them.

    python3 -m nozzlegorse.image FILE [--speed S] [--name NAME] [--output FILE]

FILE is a descriptor file, and - is standard input. What is written is for `#include`: the array NAME, and macros for its length and for
the packet size of endpoint zero.

>>> from nozzlegorse import image
>>> len(image.image_of(file))
"""
from __future__ import annotations

import argparse
import re
import sys

from . import _library as c
from ._output import written
from ._refusals import refusal
from .command.targets import Refused, targets_of
from .faults import Fault, done

__all__ = ["c_text", "image_of", "main"]
_NAME = "device_image"
# Where Linux has its devices, of which one may be a FILE too.
_SYSFS = "/sys"
# What C means by itself, and no array is named.
_KEYWORDS = """auto break case char const continue default do double else enum extern float for goto if inline int long register restrict
return short signed sizeof static struct switch typedef union unsigned void volatile while""".split()
_ROW = 16
_TEXT = """\
/* The image of device {vendor:04x}:{product:04x} at {speed} speed, by python3 -m nozzlegorse.image. */
#ifndef {macro}_LENGTH
#include <stdint.h>
#define {macro}_LENGTH {length}
/* bMaxPacketSize0. */
#define {macro}_PACKET {packet}
static const uint8_t {name}[{macro}_LENGTH] = {{
{rows}
}};
#endif
"""


def image_of(file: bytes, speed: str = "full") -> bytes:
    """The image of a device of this speed with the descriptors of a file. What can't be one is a `Fault`."""
    data, length = c.lend(file)
    answer, image = c.into(c.lib.nzg_device_image, data, length, c.speed_number(speed))
    done(answer, data)
    return image


def c_text(file: bytes, speed: str = "full", name: str = _NAME) -> str:
    """The image in C, as an array of this name."""
    if not re.fullmatch(r"[A-Za-z_]\w*", name, re.ASCII) or name in _KEYWORDS:
        raise ValueError(f"{name!r} is no name in C")
    image = image_of(file, speed)
    rows = ("    " + ", ".join(f"0x{it:02x}" for it in image[at:at + _ROW]) + "," for at in range(0, len(image), _ROW))
    vendor, product = (int.from_bytes(file[at:at + 2], "little") for at in (8, 10))
    return _TEXT.format(vendor=vendor, product=product, speed=speed, macro=name.upper(), length=len(image), packet=file[7], name=name,
                        rows="\n".join(rows))


class _Words(argparse.ArgumentParser):
    """What is typed. A mistake is one line."""

    def error(self, message: str):
        self.exit(2, f"{self.prog}: {message}\n")


def _saved(text: str, output: str) -> OSError | None:
    try:
        with open(output, "w", encoding="ascii") as it:
            it.write(text)
    except OSError as fault:
        return fault
    return None


def main(words: list[str] | None = None) -> int:
    """The program: 0, or 2 where the file is refused, or something can't be read or written."""
    parser = _Words(prog="nozzlegorse.image", description=__doc__.split("\n\n", maxsplit=1)[0])
    parser.add_argument("file", metavar="FILE", help="the descriptor file that the device has; - is standard input")
    parser.add_argument("--speed", choices=c.SPEEDS[:3], default="full")
    parser.add_argument("--name", default=_NAME, help="the array, %(default)s where it is left out")
    parser.add_argument("--output", metavar="FILE", help="where it is written, standard output where it is left out")
    given = parser.parse_args(words)
    file = next(targets_of([given.file], _SYSFS))
    if isinstance(file, Refused):
        parser.error(str(file))
    try:
        text = c_text(file.data, given.speed, given.name)
    except Fault as fault:
        parser.error(f"{given.file}: {refusal(file.data, fault)}")
    except ValueError as fault:
        parser.error(f"argument --name: {fault}")
    failed = written([text]) if given.output is None else _saved(text, given.output)
    if failed:
        parser.error(f"{given.output or 'standard output'}: {failed.strerror}")
    return 0


if __name__ == "__main__":
    sys.exit(main())
