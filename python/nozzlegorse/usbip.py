"""Devices for a real Linux host, which plugs them in by `usbip attach`: USB/IP 1.1.1, served on 127.0.0.1.

    python3 -m nozzlegorse.usbip FILE [--speed S] [--answers FILE] [FILE ..] [--with-strings] [--port P] [--feed PORT]

A control transfer becomes the transactions of one at a proved `Device`; what that refuses is asked of its owner. An owner of
one's own is a class, and `main(Mine)` is its program:

    class Mouse(usbip.Owner):
        def request(self, setup, data):
            return REPORT if setup[:4] == bytes.fromhex("81060022") else None

        def waiting(self, endpoint, size):
            self.send(endpoint, bytes([0, 5, 0, 0]))
"""
from __future__ import annotations

import argparse
import itertools
import os
import signal
import sys
import threading
from collections.abc import Iterator
from dataclasses import dataclass

from . import Fault, read, with_strings
from ._answers import Answers
from ._drivers import wanted
from ._links import Bridge, Feeder
from ._owner import Later, Owner
from ._plug import Pending, Plug
from ._refusals import refusal
from ._wire import SPEEDS, Client, Refused

__all__ = ["Answers", "Bridge", "Client", "Later", "Owner", "Pending", "Plug", "Refused", "main"]
# The longest packet of a speed (USB 2.0, 5.5.3, 5.7.3, 5.8.3), and at full speed of an isochronous endpoint (5.6.3).
LONGEST, LONGEST_ISOCHRONOUS = {"low": 8, "full": 64}, 1023


@dataclass
class Named:
    """A file that was named, with its options."""

    name: str
    speed: str | None = None
    answers: str | None = None


class Words(argparse.ArgumentParser):
    """What is typed. A mistake is one line."""

    def error(self, message: str):
        self.exit(2, f"{self.prog}: {message}\n")

    def in_order(self, words: list[str]) -> Iterator[str]:
        """The words, with `--file=` before each that is a file: so files and options keep their order."""
        rest = iter(words)
        for word in rest:
            if word == "--":
                yield from (f"--file={it}" for it in rest)
            elif word.startswith("-"):
                yield word
                action = self._option_string_actions.get(word)
                if action and action.nargs != 0:
                    yield from itertools.islice(rest, 1)
            else:
                yield f"--file={word}"


class OfFile(argparse.Action):
    """A file, or an option of the file before it: one that comes before each file is of the first, or a speed of all."""

    def __call__(self, parser, given, value, option=None):
        if self.dest == "file":
            given.files.append(Named(value))
            return
        it = given.files[-1] if given.files else given.first
        if getattr(it, self.dest) is not None:
            parser.error(f"{option} is there twice, {it.name and 'of ' + it.name or 'before a file'}")
        setattr(it, self.dest, value)


def port(word: str) -> int:
    """The number of a port; 0 is any that is free."""
    if not 0 <= int(word) < 1 << 16:
        raise ValueError
    return int(word)


def _words(owner: type) -> Words:
    options = "[--speed S]" + " [--answers FILE]" * (owner is Answers)
    parser = Words(prog="nozzlegorse.usbip" if owner is Answers else None, description=__doc__.split("\n\n", maxsplit=1)[0], allow_abbrev=False,
                   usage=f"%(prog)s FILE {options} [FILE {options}] .. [OPTIONS]", epilog="Each FILE is a descriptor file. They are at the bus ids 1-1, 1-2 and so on.")
    parser.add_argument("--file", action=OfFile, help=argparse.SUPPRESS)
    parser.add_argument("--speed", action=OfFile, choices=SPEEDS, help="of the file before it, or before the first one of all; else full, or high where a packet is too long for that")
    if owner is Answers:
        parser.add_argument("--answers", action=OfFile, metavar="FILE", help="answers to what the table refuses, of the file before it")
    parser.add_argument("--with-strings", action="store_true", help="the files are dumps, and get strings")
    parser.add_argument("--port", type=port, default=3240, help="the port of USB/IP, %(default)s where it is left out; 0 is a free one")
    parser.add_argument("--feed", type=port, metavar="PORT", help="a port for lines as `feed 81 0105fb00`")
    parser.add_argument("--quiet", action="store_true", help="prints no transfers")
    parser.add_argument("--data", action="store_true", help="prints all bytes that the host sends, and not 64 of a transfer")
    return parser


def main(owner: type = Answers, words: list | None = None) -> None:
    """The program: the devices of these files, each with an owner of this class."""
    parser, bridge = _words(owner), None
    try:
        given = parser.parse_args(list(parser.in_order(sys.argv[1:] if words is None else words)), argparse.Namespace(files=[], first=Named("")))
        if not given.files:
            parser.error("the following arguments are required: FILE")
        bridge = Bridge([])
        if threading.current_thread() is threading.main_thread():
            # A signal may come to any thread, and this one, which waits, takes it.
            signal.set_wakeup_fd(bridge.wakes.fileno(), warn_on_full_buffer=False)
        _open(parser, bridge, given, owner)
        while True:
            bridge.step()
    except BrokenPipeError:
        # Nobody reads what is printed.
        os.dup2(os.open(os.devnull, os.O_WRONLY), sys.stdout.fileno())
    except KeyboardInterrupt:
        pass
    finally:
        if threading.current_thread() is threading.main_thread():
            signal.set_wakeup_fd(-1)
        if bridge:
            bridge.close()


def _open(parser: Words, bridge: Bridge, given: argparse.Namespace, owner: type) -> None:
    """The bridge of what was typed, which listens and says so."""
    bridge.is_quiet = given.quiet
    try:
        if given.first.answers and given.files[0].answers:
            raise ValueError(f"--answers is there twice, before and after {given.files[0].name}")
        given.files[0].answers = given.files[0].answers or given.first.answers
        for number, it in enumerate(given.files, 1):
            _plug_in(bridge, given, it, owner, f"1-{number}")
        at = bridge.listen(Client, given.port)
        if given.feed is not None:
            bridge.tell(f"lines as 'feed 81 0105fb00' are taken at port {bridge.listen(Feeder, given.feed)}")
    except BrokenPipeError:
        raise
    except OSError as fault:
        parser.error(f"{fault.filename}: {fault.strerror}")
    except ValueError as fault:
        parser.error(str(fault))
    option = f" --tcp-port {at}" if at != 3240 else ""
    for plug, it in zip(bridge.plugs, given.files):
        bridge.tell(f"{it.name} at {plug.speed} speed: sudo modprobe vhci_hcd; sudo usbip{option} attach -r 127.0.0.1 -b {plug.bus_id}")


def _plug_in(bridge: Bridge, given: argparse.Namespace, it: Named, owner: type, bus_id: str) -> None:
    """The device of a file, with its owner."""
    with open(it.name, "rb") as opened:
        file = opened.read()
    mine = owner(it.answers) if it.answers else owner()
    try:
        file = with_strings(file) if given.with_strings else file
        plug = Plug(file, mine, _speed(it.speed or given.first.speed, file), bus_id, bridge.tell)
    except Fault as fault:
        raise ValueError(f"{it.name}: {refusal(file, fault)}") from None
    except ValueError as fault:
        raise ValueError(f"{it.name}: {fault}") from None
    plug.run, plug.is_quiet, plug.shows_all = bridge.worker(), given.quiet, given.data
    bridge.plugs.append(plug)
    if isinstance(mine, Answers):
        mine.check(plug.device)
        for request, what in wanted(file).items() if given.with_strings else ():
            if not mine.has(request):
                bridge.tell(f"{it.name}: a driver asks {request}, {what}, which a dump doesn't have: --answers")


def _speed(named: str | None, file: bytes) -> str:
    """The speed of a device: that which was named, else full, or high where a packet is too long for that."""
    speed = named or "full"
    for it in read(file).endpoints if speed in LONGEST else ():
        if it.max_packet_size > (LONGEST_ISOCHRONOUS if (speed, it.transfer_type) == ("full", "isochronous") else LONGEST[speed]):
            if not named:
                return "high"
            raise ValueError(f"endpoint {it.address:02x} has packets of {it.max_packet_size} bytes, too long for {speed} speed")
    return speed


if __name__ == "__main__":
    main()
