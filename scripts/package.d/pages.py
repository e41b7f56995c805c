"""The man pages of usbdesc and nozzlegorse, and their completions, made of their own help."""

import os
import re
import subprocess
import sys
import time
from typing import NamedTuple, Optional

from playing.built import ROOT


class Option(NamedTuple):
    name: str
    value: Optional[str]
    words: str

    def values(self):
        """What can follow, where the help lists it."""
        return self.value.split("|") if self.value and "|" in self.value else []


class Help:
    """What the program says of itself."""

    name, others = "usbdesc", []

    def __init__(self, program):
        self.program = program
        whole = self.text()
        self.summary = whole.partition("\n")[0]
        self.commands = [it for it in re.findall(r"^  (\w+) ", whole.partition("\nOptions:")[0], re.M) if it != "help"]
        self.options = {it: self.options_of(it) for it in self.commands}

    def text(self, *command):
        return subprocess.run([self.program, *command, "--help"], capture_output=True, text=True, check=True).stdout

    def options_of(self, command):
        found = re.findall(r"^ +(?:-\w, )?--([\w-]+)(?: <(\S+)>)?  +(.*)$", self.text(command), re.M)
        return [Option(name, value or None, words) for name, value, words in found]

    def sections(self):
        """The sections of the man page, each with its lines."""
        yield "SYNOPSIS", ["usbdesc COMMAND [OPTIONS] < FILE"]
        for command in self.commands:
            yield command.upper(), [".nf", roff(self.text(command)), ".fi"]


# What the help of the command leaves to its man page.
OF_COMMAND = {
    "EXIT STATUS": {
        "0": "done; of check nothing was found that --fail names",
        "1": "check found that, or diff a difference",
        "2": "a TARGET can't be read or has no descriptors, standard output can't be written, or the words are wrong",
        "130, 141": "Ctrl-C; nobody reads what is written",
    },
    "ENVIRONMENT": {
        "PAGER": "what a text at a terminal goes through, less where it isn't set; none with cat or --no-pager",
        "NO_COLOR": "no colours at a terminal",
        "GITHUB_ACTIONS, GITLAB_CI": "true in their jobs, where check writes their form",
        "NOZZLEGORSE_LIBRARY": "another libnozzlegorse.so",
    },
    "FILES": {
        "/sys/bus/usb/devices": "the devices that are plugged in: what a bus id names",
        "/var/lib/usbutils/usb.ids, /usr/share/hwdata/usb.ids, /usr/share/misc/usb.ids": "names of vendors and products: the first that is there",
    },
}


class CommandHelp:
    """What the command `nozzlegorse` says of itself, over a library that is built."""

    name, others = "nozzlegorse", ["'*:target:_files'"]

    def __init__(self, library):
        # So wide are its lines.
        os.environ.update(NOZZLEGORSE_LIBRARY=library, COLUMNS="80")
        sys.path.append(f"{ROOT}/python")
        from nozzlegorse.command import words

        self.words, self.summary = words, words.SUMMARY
        parsers = next(it.choices for it in words.parser()._actions if it.dest == "command")
        self.commands = list(parsers)
        self.parsers = {name: it for name, it in parsers.items() if name not in words.PROGRAMS}
        self.options = {name: self.options_of(it) for name, it in self.parsers.items()}

    def options_of(self, parser):
        named = [(it.option_strings[-1].removeprefix("--"), it) for it in parser._actions if it.option_strings]
        return [Option(name, None if it.nargs == 0 else "|".join(it.choices or [it.metavar]), it.help % {"default": it.default}) for name, it in named]

    def sections(self):
        """The sections of the man page, each with its lines."""
        yield "SYNOPSIS", ["nozzlegorse COMMAND [OPTIONS] [TARGET ..]"]
        for name, parser in self.parsers.items():
            yield name.upper(), [".nf", roff(re.sub(r"\nexamples:.*", "", parser.format_help(), flags=re.S)), ".fi"]
        yield "OTHER PROGRAMS", [line for name, words in self.words.PROGRAMS.items() for line in (".TP", f".B nozzlegorse {name}", f"{roff(words)}; its \\-\\-help has more.")]
        examples = dict.fromkeys(line for lines in self.words.EXAMPLES.values() for line in map(self.words.typed, lines))
        yield "EXAMPLES", [".nf", roff("\n".join(examples)), ".fi"]
        for title, rows in OF_COMMAND.items():
            yield title, [line for term, words in rows.items() for line in (".TP", f".B {roff(term)}", roff(words))]
        yield "SEE ALSO", [".BR usbdesc (1),", ".BR lsusb (8)"]


def roff(text):
    return re.sub(r"^([.'])", r"\\&\1", text.strip().replace("\\", "\\e").replace("-", "\\-"), flags=re.M)


def man(of, version, epoch):
    date = time.strftime("%Y-%m-%d", time.gmtime(epoch))
    page = [f'.TH {of.name.upper()} 1 "{date}" "nozzlegorse {version}" "User Commands"', ".SH NAME", f"{of.name} \\- {roff(of.summary)}"]
    for title, lines in of.sections():
        page += [f".SH {title}", *lines]
    return "\n".join(page) + "\n"


def bash(of):
    commands = " ".join(of.commands)
    words, values = "", ""
    for command, options in of.options.items():
        words += f"    {command}) words='{' '.join('--' + it.name for it in options)}' ;;\n"
        values += "".join(f"    '{command} --{it.name}') words='{' '.join(it.values())}' ;;\n" for it in options if it.values())
    return f"""_{of.name}() {{
    local words='{commands} --help --version'
    [ "$COMP_CWORD" -eq 1 ] || case ${{COMP_WORDS[1]}} in
{words}    esac
    case "${{COMP_WORDS[1]}} $3" in
{values}    esac
    COMPREPLY=($(compgen -W "$words" -- "$2"))
}}
complete -o default -F _{of.name} {of.name}
"""


def zsh(of):
    cases = []
    for command, options in of.options.items():
        rows = []
        for it in options:
            value = (f":{it.name}:({' '.join(it.values())})" if it.values() else f":{it.name}: ") if it.value else ""
            words = re.sub(r"[\[\]':]", " ", it.words)
            rows.append(f"'--{it.name}{'=' * bool(it.value)}[{words}]{value}'")
        cases.append(f"    {command}) _arguments {' '.join(rows + of.others)} ;;\n")
    return f"""#compdef {of.name}
if (( CURRENT == 2 )); then
  compadd -- {' '.join(of.commands)} --help --version
else
  local command=$words[2]
  shift words; (( CURRENT-- ))
  case $command in
{''.join(cases)}  esac
fi
"""


def fish(of):
    lines = [f"complete -c {of.name} -n __fish_use_subcommand -f -a {it}" for it in of.commands]
    for command, options in of.options.items():
        for it in options:
            words = it.words.replace("\\", "\\\\").replace("'", "\\'")
            line = f"complete -c {of.name} -n '__fish_seen_subcommand_from {command}' -l {it.name} -d '{words}'"
            lines.append(line + " -x" * bool(it.value) + (f" -a '{' '.join(it.values())}'" if it.values() else ""))
    return "\n".join(lines) + "\n"
