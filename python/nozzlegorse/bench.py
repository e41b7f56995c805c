"""Tries other people's ends of endpoint zero beside the proved ones, over a bus that loses packets; docs/bench.md tells how.

>>> report = bench.try_device(MyDevice(), file, losses=2, within=40)
>>> print(report)             # what differs, by request, with the transactions that led there
>>> assert report.passed

    python3 -m nozzlegorse.bench MODULE:NAME FILE [--losses N] [--damages N] [--within N] [--first] [--naks N] [--junit FILE] [--speed S]

A device is an object with `reset()`, `transaction(transaction, ready) -> Reply`, and `acked()`, the host's ACK of the data packet
that was answered right before; in C it is a `Shared` library. With `packet(bytes) -> bytes | None` in place of the last two it has
the packets of the bus, which may also be damaged: t the token, p the data, k the ACK. A host is a function of a `Bus`, which resets (`bus.reset()`) and
sends (`bus.send(transaction) -> Reply`), and gives the bytes of the descriptor file that it read.

Each run has its losses at other transactions: first none, then one at each place, then two, so that what is reported has as few
as can be. The letters are those of `usbdesc enumerate --fates`: d the transaction is lost, u what comes back, a the host's ACK,
n the device is busy. What an end under test raises goes through.
"""
from __future__ import annotations

import argparse
import importlib
import sys

from . import _library as c
from ._fates import LETTERS, fates
from ._report import Difference, Line, Report
from ._shared import Shared
from ._talk import Request, talk_of
from ._trying_devices import DeviceUnderTest, try_device
from ._trying_hosts import Bus, try_host
from .ends import Device
from .texts import with_strings

__all__ = ["Bus", "DeviceUnderTest", "Difference", "LETTERS", "Line", "Report", "Request", "Shared", "fates", "main", "talk_of", "try_device", "try_host"]


# --- the program -----------------------------------------------------------------------------------------------------------


class _Words(argparse.ArgumentParser):
    """What is typed. A mistake is one line."""

    def error(self, message: str):
        self.exit(2, f"{self.prog}: {message}\n")


def _end_of(name: str):
    """The end under test that a word names: an object of a module, made where it is a class, or a device in a shared library."""
    module, _, name = name.rpartition(":")
    if module.endswith(".so"):
        return Shared(module, name)
    if not module:
        raise ValueError("MODULE:NAME is wanted")
    sys.path.insert(0, "")
    it = importlib.import_module(module)
    for part in name.split("."):
        it = getattr(it, part)
    return it() if isinstance(it, type) else it


def main(words: list[str] | None = None) -> int:
    """The program: 0 where nothing differs, 1 where something does, 2 for a mistake. What an end raises goes through."""
    parser = _Words(prog="nozzlegorse.bench", description=__doc__.split("\n\n", maxsplit=1)[0])
    parser.add_argument("name", metavar="MODULE:NAME", help="a device, a class of devices, or a host, which is a function; or LIBRARY.so:PREFIX, a device in C")
    parser.add_argument("file", metavar="FILE", help="the descriptor file that the device has")
    parser.add_argument("--speed", choices=c.SPEEDS[:3], default="full")
    parser.add_argument("--with-strings", action="store_true", help="FILE is a dump, and gets strings")
    parser.add_argument("--losses", type=int, default=1, metavar="N", help="at most so many losses a run: %(default)s where it is left out")
    parser.add_argument("--damages", type=int, default=0, metavar="N", help="and at most so many damaged packets, of a device that has packets: %(default)s where it is left out")
    parser.add_argument("--within", type=int, default=60, metavar="N", help="in the first so many transactions: %(default)s where it is left out")
    parser.add_argument("--naks", type=int, default=16, metavar="N", help="the most NAKs in a row of a device: %(default)s where it is left out")
    parser.add_argument("--first", action="store_true", help="stops at the first difference")
    parser.add_argument("--junit", metavar="FILE", help="writes the report there as JUnit has it")
    given = parser.parse_args(words)
    try:
        with open(given.file, "rb") as opened:
            file = opened.read()
        file = with_strings(file) if given.with_strings else file
        with Device(file, given.speed):
            pass
    except OSError as fault:
        parser.error(f"{fault.filename}: {fault.strerror}")
    except ValueError as fault:
        parser.error(f"{given.file}: {fault}")
    try:
        end = _end_of(given.name)
    except (ImportError, AttributeError, OSError, ValueError) as fault:
        parser.error(f"{given.name}: {fault}")
    more = {"speed": given.speed, "losses": given.losses, "within": given.within, "stop_at_first": given.first}
    if given.damages and hasattr(end, "transaction"):
        parser.error(f"{given.name}: a device that has transactions has no damaged packets")
    is_device = hasattr(end, "transaction") or hasattr(end, "packet")
    report = try_device(end, file, naks=given.naks, damages=given.damages, **more) if is_device else try_host(end, file, **more)
    print(report)
    if given.junit:
        with open(given.junit, "w", encoding="utf-8") as opened:
            opened.write(report.junit())
    return int(not report.passed)


if __name__ == "__main__":
    sys.exit(main())
