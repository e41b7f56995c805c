"""The calls of rows that ask something of the program, and the runs that each asks for."""

import os
import sys

from playing.row import Fault, change
from playing.run import Run, ends_with

sys.path.append(os.path.join(os.path.dirname(os.path.abspath(__file__)), "../.."))
from readings.enumerating import named, word  # noqa: E402
from readings.recorded import begins  # noqa: E402

# These are asked of the libraries, by the program test_rows.
OF_LIBRARIES = set(
    "setup device qualifier endpoint units write_units set feed encode file write assemble named failing_reads"
    " failing_writes failing_write failing_flush packet changed_packet write_packet crc5 crc16".split()
)


def usbdesc(row):
    """A run, and of a recording that of `explain`, which writes what `capture` does without options."""
    words = row.words()
    place = words.index("<") if "<" in words else len(words)
    run = Run(words[:place], change(row.text("|"), words[place + 1 :]), int(row.wanted()), row.text(">"), row.text("!"))
    yield run
    if run.words == ["capture"] and begins(run.data):
        yield run._replace(words=["explain"])


def terminal(row):
    yield from (run._replace(terminal=True) for run in usbdesc(row))


def line(row):
    """What words that are no command line end with, or that ask for help."""
    if row.wanted() == "help":
        yield Run(row.words(), b"", 0, None)
    else:
        yield Run(row.words(), b"", 2, begins=b"error: ")


def options_of(words):
    """The words that begin with two dashes, which are a command's, and those behind them, which change its input."""
    options = [word for word in words if word.startswith("--")]
    return options, words[len(options) :]


def build(row):
    options, words = options_of(row.words())
    text, wanted = change(row.text("|"), words), row.wanted()
    if wanted.startswith("0 "):
        yield Run(["build", *options], text, 0, bytes.fromhex(wanted[2:]))
    else:
        yield ends_with(["build", *options], text, wanted)


def cuts(row):
    """Behind whole lines the line after them is missing, and elsewhere the line that is cut is at fault."""
    text, told = row.text("|"), [0, 0]
    for length in range(len(text)):
        front = text[:length]
        is_whole = not front or front.endswith(b"\n")
        told[not is_whole] += 1
        fault = f"3 usbdesc: listing fault {6 if is_whole else 1} line {front.count(10) + 1}"
        yield ends_with(["build"], front, fault)
    compare(row, f"{told[0]} missing, {told[1]} broken")


def parts(data):
    """The device descriptor and its sets, as far as they are there, and where they end."""
    sets, place = [], 18
    for _ in range(data[17]):
        sets.append(data[place : place + word(data, place + 2)])
        place += len(sets[-1])
    return data[:18], sets, place


def names_of_dump(data):
    """The indices of strings that the bytes name, a device descriptor and its sets."""
    device, sets, _ = parts(data)
    return named(device, sets)


def is_dump(data):
    """Whether such bytes lack the strings that they name."""
    return bool(names_of_dump(data))


def fronts(data, commands):
    """The runs of commands over each front: it is truncated at its end. Right behind the sets it is a file where no string
    is named, and where one is a dump, which is an input of a command with --any."""
    end = parts(data)[2]
    for length in range(len(data)):
        for command in commands:
            run = ends_with(command.split(), data[:length], f"3 usbdesc: file fault 6 at {length}")
            if length == end and ("--any" in run.words or not is_dump(data)):
                run = run._replace(status=0 if "show" in run.words else None, output=None, errors=b"")
            yield run


def fronts_of_row(row):
    data = change(b"", row.words())
    end = parts(data)[2]
    yield from fronts(data, ["show", "show --any", "check", "check --any", "enumerate"])
    form = f", a {'dump' if is_dump(data) else 'file'} of {end}" if end < len(data) else ""
    compare(row, f"{len(data)} truncated{form}")


def check(row):
    wanted = row.wanted()
    status = 0 if wanted == "no findings" else 1
    yield Run(["check"], change(b"", row.words()), status, (wanted.replace(", ", "\n") + "\n").encode())


def endless(row):
    command, *words = row.words()
    options, words = options_of(words)
    told, _, read = row.wanted().rpartition(", ")
    run = ends_with([command, *options], change(row.text("|"), words), told)
    yield run._replace(read=int(read.split()[0]))


def compare(row, told):
    if told != row.wanted():
        raise Fault(f"{told}, and not {row.wanted()}")


CALLS = {
    "usbdesc": usbdesc,
    "terminal": terminal,
    "line": line,
    "build": build,
    "cuts": cuts,
    "fronts": fronts_of_row,
    "check": check,
    "endless": endless,
}


def runs_of_row(row):
    """The runs that a row asks for."""
    return CALLS[row.call](row)
