"""A device that is plugged into this Linux machine, by usbfs and a proved host, without a driver of its own.

    python3 -m nozzlegorse.usbfs DEVICE [read | test [--disturb] [--junit FILE]]

DEVICE is a name of /sys/bus/usb/devices, as 1-1. `read` writes its descriptor file to standard output. `test` makes the bench's talk,
and says which answers differ from those of the proved device with these descriptors. What disturbs a device at work is asked with
--disturb alone, which detaches the drivers and attaches them again.

usbfs makes whole control transfers. Resets, SET_ADDRESS and, but with --disturb, SET_CONFIGURATION are not sent: the kernel has done
that. No class or vendor request, TEST_MODE or SET_DESCRIPTOR is ever sent.
"""
from __future__ import annotations

import argparse
import errno
import os
import signal
import sys

from ._talk import talk_of
from ._usbfs_adapter import Adapter, read_file
from ._usbfs_device import INTERFACES, Plugged, Refused
from ._usbfs_talk import PluggedTest
from .descriptors import check, read
from .faults import Fault

__all__ = ["Adapter", "Plugged", "PluggedTest", "Refused", "main", "read_file"]
_DIFFERS, _BAD, _STOPPED = 1, 2, 130
_SIGNALS = (signal.SIGINT, signal.SIGTERM, signal.SIGHUP)


class _Stop:
    """Whether a signal came. The transfer that is under way ends first, so that no driver stays detached."""

    def __init__(self):
        self.is_there = False

    def __call__(self) -> bool:
        return self.is_there

    def listen(self) -> None:
        """From here on a signal is noted."""
        for it in _SIGNALS:
            signal.signal(it, self._note)

    def _note(self, *_) -> None:
        self.is_there = True


class _Out:
    """Standard output. Why it fails is kept, since drivers are still to be attached then."""

    def __init__(self):
        self.failed = ""

    def write(self, data: bytes) -> None:
        """Bytes, at once."""
        try:
            sys.stdout.buffer.write(data)
            sys.stdout.buffer.flush()
        except OSError as fault:
            self.failed = fault.strerror
            os.dup2(os.open(os.devnull, os.O_WRONLY), sys.stdout.fileno())

    def say(self, line: str) -> None:
        """A line."""
        self.write(f"{line}\n".encode())


def _findings(plugged: Plugged, file: bytes, out: _Out) -> int:
    """What breaks the rules of chapter 9, where no device has these descriptors."""
    for it in check(file):
        out.say(f"descriptors: V{it.rule} at {it.place}: {it.message}")
    out.say(f"{plugged.name}: no device of this speed has these descriptors, so nothing was asked")
    return _DIFFERS


def _claim(plugged: Plugged, drivers: dict[int, str], claimed: list[int]) -> None:
    """Claims what no driver has, and with --disturb all."""
    for it, driver in drivers.items():
        if driver and not plugged.disturbs:
            continue
        error = plugged.claim(it)
        if not error:
            claimed.append(it)
        elif plugged.disturbs:
            raise Refused(f"interface {it}: {'another program has it' if error == errno.EBUSY else os.strerror(error)}")


def _give_back(plugged: Plugged, drivers: dict[int, str], claimed: list[int]) -> None:
    """What is claimed is released; where the device was disturbed the kernel selects its set again; each driver gets its interface."""
    for it in claimed:
        plugged.release(it)
    if not plugged.disturbs or plugged.is_gone:
        return
    if plugged.is_detached and (error := plugged.select_again()):
        plugged.tell(f"configuration {plugged.selected} is not selected again: {os.strerror(error)}")
    for it in claimed:
        if drivers[it] and (error := plugged.attach(it)) not in (0, errno.EBUSY):
            plugged.tell(f"interface {it}: {drivers[it]} is not attached again: {os.strerror(error)}")


def _end(plugged: Plugged, test: PluggedTest, junit: str | None) -> int:
    report = test.report
    for line in report.ending():
        test.say(line)
    if report.why:
        plugged.tell(f"{report.why}; asked so far: {report.requests}")
    if junit:
        try:
            with open(junit, "w", encoding="utf-8") as opened:
                opened.write(report.junit())
        except OSError as fault:
            plugged.tell(f"{junit}: {fault.strerror}")
            return _STOPPED if test.is_stopped() else _BAD
    return _STOPPED if test.is_stopped() else _BAD if report.why else _DIFFERS if report.differences else 0


def _talk(plugged: Plugged, test: PluggedTest, file: bytes, junit: str | None) -> int:
    settings = [it for set_ in read(file).configurations if set_["bConfigurationValue"] == plugged.selected for it in set_.interfaces]
    drivers = {it: plugged.driver_of(it) for it in sorted({setting.interface for setting in settings}) if it < INTERFACES}
    claimed = []
    try:
        _claim(plugged, drivers, claimed)
        plugged.is_detached = plugged.disturbs
        test.follow_settings(list(drivers))
        test.run(talk_of(file))
        return _end(plugged, test, junit)
    finally:
        plugged.sleep_again()
        _give_back(plugged, drivers, claimed)


def _test(plugged: Plugged, junit: str | None, stop: _Stop, out: _Out) -> int:
    adapter = Adapter(plugged)
    file = read_file(adapter, stop)
    if stop():
        return _STOPPED
    try:
        test = PluggedTest(adapter, file, stop, out.say)
    except Fault:
        return _findings(plugged, file, out)
    with test.proved:
        return _talk(plugged, test, file, junit)


class _Words(argparse.ArgumentParser):
    """What is typed. A mistake is one line."""

    def error(self, message: str):
        self.exit(_BAD, "usbfs: DEVICE [read | test [--disturb] [--junit FILE]]\n")


def _words(words: list[str] | None) -> argparse.Namespace:
    parser = _Words(prog="nozzlegorse.usbfs", description=__doc__.split("\n\n", maxsplit=1)[0], usage="%(prog)s DEVICE [read | test [--disturb] [--junit FILE]]", allow_abbrev=False)
    parser.add_argument("device", metavar="DEVICE", help="a name of /sys/bus/usb/devices, as 1-1")
    parser.add_argument("command", nargs="?", choices=("read", "test"), default="read", help="its descriptor file, which is what comes without a word, or the bench's talk")
    parser.add_argument("--disturb", action="store_true", help="asks what disturbs a device at work too: its drivers are detached, and attached again")
    parser.add_argument("--junit", metavar="FILE", help="writes the report there as JUnit has it")
    given = parser.parse_args(words)
    if len(given.device) > 63 or given.device[:1] in ("", ".", "-") or "/" in given.device or (given.command == "read" and (given.disturb or given.junit is not None)):
        parser.error("")
    return given


def main(words: list[str] | None = None) -> int:
    """The program: 0, or 1 where something differs, 2 where nothing can be said, 130 after Ctrl-C."""
    given, stop, out, status = _words(words), _Stop(), _Out(), _BAD
    try:
        plugged = Plugged(given.device, given.disturb)
    except Refused as why:
        print(f"usbfs: {given.device}: {why}", file=sys.stderr)
        return _BAD
    try:
        if given.command == "test":
            stop.listen()
        unsent = "resets and SET_ADDRESS" if given.disturb else "resets, SET_ADDRESS and SET_CONFIGURATION"
        plugged.tell(f"{unsent} are not sent: the kernel has made them, and selected configuration {plugged.selected}")
        if given.command == "test":
            status = _test(plugged, given.junit, stop, out)
        else:
            out.write(read_file(Adapter(plugged)))
            status = 0
    except Refused as why:
        plugged.tell(str(why))
    finally:
        plugged.close()
    if out.failed:
        plugged.tell(f"standard output: {out.failed}")
    return _STOPPED if stop() else _BAD if out.failed else status


if __name__ == "__main__":
    sys.exit(main())
