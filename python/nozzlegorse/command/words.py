"""What is typed: commands, options and their help."""
from __future__ import annotations

import argparse
import shutil

from .. import __version__
from .._library import SPEEDS
from . import PROGRAMS
from .devices import SYSFS
from .terminal import NAME, shown

SUMMARY = "says what USB descriptors mean, and what is wrong with them"
FORMATS = ("words", "github", "gitlab", "junit", "sarif", "json")
_TARGET = """a file, - for standard input, a bus id as 1-1, or vendor:product as 0483:5740; a configuration set, a descriptor
file, Linux's descriptors of a device, or hexadecimal text of these"""
EXAMPLES = {
    "": ["list --tree", "explain 1-1", "check --format junit firmware/*.bin > report.xml", "diff good.bin bad.bin"],
    "list": ["list", "list --tree"],
    "explain": ["explain 1-1", "explain 0483:5740 | less", "explain --speed high desc.bin", "xclip -o | nozzlegorse explain -"],
    "check": ["check desc.bin", "check --fail remarks 1-1", "check --format sarif firmware/*.bin > report.sarif"],
    "show": ["show 1-1 > device.txt"],
    "find": ["find firmware.elf", "find --extract found firmware.hex firmware.uf2"],
    "diff": ["diff good.bin bad.bin", "diff 1-1 firmware/desc.bin"],
}


class Words(argparse.ArgumentParser):
    """A parser. A mistake is one line, with where help is."""

    def __init__(self, **how):
        how.setdefault("formatter_class", _Help)
        super().__init__(allow_abbrev=False, **how)

    def error(self, message: str):
        self.exit(2, f"{self.prog}: {shown(message)}; see {self.prog} --help\n")

    def _print_message(self, message: str, file=None):
        # That of argparse is silent where nothing can be written.
        if message and file:
            file.write(message)


class _Help(argparse.HelpFormatter):
    """Lines as wide as the terminal; those of examples stay as they are."""

    def __init__(self, prog: str):
        super().__init__(prog, max_help_position=26, width=max(min(shutil.get_terminal_size().columns, 100) - 2, 18))

    def _fill_text(self, text: str, width: int, indent: str) -> str:
        return text if text.startswith("examples:") else super()._fill_text(text, width, indent)


def typed(example: str) -> str:
    """An example as it is typed."""
    return f"$ {example}" if f"| {NAME}" in example else f"$ {NAME} {example}"


def _epilog(command: str) -> str:
    return "\n".join(["examples:", *(f"  {typed(it)}" for it in EXAMPLES[command])])


def _command(commands, name: str, words: str, more: str = "") -> Words:
    it = commands.add_parser(name, help=words, description=f"{words[0].upper()}{words[1:]}.{more}", epilog=_epilog(name))
    it.add_argument("--no-pager", action="store_false", dest="pages", help="writes to the terminal itself")
    it.add_argument("--sysfs", metavar="FOLDER", default=SYSFS, help="in place of %(default)s")
    return it


def _targets(it: Words, *, speed: bool = True) -> None:
    it.add_argument("targets", metavar="TARGET", nargs="+", help=" ".join(_TARGET.split()))
    if speed:
        it.add_argument("--speed", choices=SPEEDS, metavar="SPEED", help="at which the device ran: low, full, high or super")


def parser() -> Words:
    """All of it."""
    whole = Words(prog=NAME, description=f"{SUMMARY[0].upper()}{SUMMARY[1:]}.", epilog=_epilog(""))
    whole.add_argument("--version", action="version", version=f"{NAME} {__version__}")
    commands = whole.add_subparsers(dest="command", metavar="COMMAND", required=True)
    it = _command(commands, "list", "lists the devices that are plugged in, with what a check finds of each")
    it.add_argument("--tree", action="store_true", help="by the hubs and ports that they are plugged into")
    it.add_argument("--ids", metavar="FILE", help="a file as usb.ids, in place of the system's")
    it = _command(commands, "explain", "says in words what each descriptor means, and what is wrong with it")
    _targets(it)
    it.add_argument("--brief", action="store_true", help="leaves the fields out")
    it.add_argument("--no-places", action="store_false", dest="places", help="leaves the places out")
    it.add_argument("--formats", action="store_true", help="heads video frames with size and interval, audio formats with rates")
    it.add_argument("--loose", action="store_true", help="takes a fragment: descriptors one after another, or a setup packet")
    it = _command(commands, "check", "says what breaks a rule of chapter 9, and what else is remarkable",
                  " The status is 1 where something is found that --fail names, and 2 where a TARGET can't be read.")
    _targets(it)
    it.add_argument("--format", choices=FORMATS, metavar="FORMAT", help="words, github, gitlab, junit, sarif or json; without it words, or in a job of GitHub or GitLab its form")
    it.add_argument("--fail", choices=("findings", "remarks", "never"), default="findings", metavar="WHAT", help="for what the status is 1: findings, which is so without it, remarks too, or never")
    _targets(_command(commands, "show", "lists descriptors as text, which 'usbdesc build' makes into the same bytes"), speed=False)
    it = _command(commands, "find", "finds sets and device descriptors in any file, as a firmware image",
                  " Intel HEX and UF2 are put together first, and the places are addresses. The status is 1 where a rule is broken, and 2 where a FILE can't be read.")
    it.add_argument("files", metavar="FILE", nargs="+", help="any file, or - for standard input")
    it.add_argument("--extract", metavar="FOLDER", help="writes what is found into files there")
    it = _command(commands, "diff", "says what differs of two devices, a line a field", " The status is 1 where something does.")
    it.add_argument("targets", metavar="TARGET", nargs=2, help=" ".join(_TARGET.split()))
    it.add_argument("--speed", choices=SPEEDS, metavar="SPEED", help="at which both ran: low, full, high or super")
    for name, words in PROGRAMS.items():
        commands.add_parser(name, help=words, add_help=False)
    return whole
