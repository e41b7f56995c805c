"""One run of the program: what it is given, what must come of it, and how it differs from that."""

import difflib
import os
import pty
import subprocess
import tempfile
from typing import NamedTuple, Optional

SECONDS = 60
GIGABYTE = 1_000_000_000
MOST_LINES = 60
# How the version of a program that isn't proved ends.
UNPROVED = "+unproved"


class Run(NamedTuple):
    words: list
    data: bytes
    # None of these two where anything may come.
    status: Optional[int]
    output: Optional[bytes] = b""
    # Of what `clap` says only that it begins so is wanted.
    errors: bytes = b""
    begins: Optional[bytes] = None
    # Where zeros follow the data without end: how many bytes must be read.
    read: Optional[int] = None
    # Whether standard error is a terminal.
    terminal: bool = False


def ends_with(words, data, told):
    """The run that writes nothing and ends so: an exit status and the line of a fault."""
    status, _, fault = told.partition(" ")
    return Run(words, data, int(status), b"", f"{fault}\n".encode() if fault else b"")


def shown(text):
    """The lines of a text; of bytes that are none, sixteen a line as digits."""
    if all(byte == 10 or 32 <= byte < 127 for byte in text):
        return text.decode().split("\n")
    return [f"{place:08x}  {text[place : place + 16].hex(' ')}" for place in range(0, len(text), 16)]


def differs(title, wanted, came):
    if wanted is None or wanted == came:
        return []
    lines = [line[:160] for line in difflib.unified_diff(shown(wanted), shown(came), "wanted", "came", n=1, lineterm="")]
    if len(lines) > MOST_LINES:
        lines[MOST_LINES:] = [f".. and {len(lines) - MOST_LINES} lines more"]
    return [f"{title}:", *(f"  {line}" for line in lines)]


def start(program, run, errors=subprocess.PIPE, **given):
    """Runs the program. Help and usage name it by its first word, whatever the file of the build is called."""
    words = ["usbdesc", *run.words]
    return subprocess.run(words, executable=program, stdout=subprocess.PIPE, stderr=errors, timeout=SECONDS, check=False, **given)


def at_terminal(program, run):
    """What comes of the run where standard error is a terminal, which writes a carriage return before each line feed."""
    ours, its = pty.openpty()
    ended = start(program, run, its, input=run.data)
    os.close(its)
    shown_there = b""
    try:
        while piece := os.read(ours, 4096):
            shown_there += piece
    except OSError:
        pass  # the other end is closed
    os.close(ours)
    ended.stderr = shown_there.replace(b"\r\n", b"\n")
    return ended


def read_by(program, run):
    """What comes of the run over a file of a gigabyte, and how many bytes of it were read: where it stands afterwards."""
    with tempfile.TemporaryFile() as source:
        source.write(run.data)
        source.truncate(GIGABYTE)
        source.seek(0)
        ended = start(program, run, stdin=source)
        return ended, os.lseek(source.fileno(), 0, os.SEEK_CUR)


def play(program, run, mark=""):
    """How the run with this program differs, in lines. The mark may be anywhere in what it writes."""
    try:
        if run.terminal:
            ended, read = at_terminal(program, run), None
        elif run.read is None:
            ended, read = start(program, run, input=run.data), None
        else:
            ended, read = read_by(program, run)
    except subprocess.TimeoutExpired:
        return [f"it has not ended after {SECONDS} seconds"]
    told = [] if run.status in (None, ended.returncode) else [f"status {ended.returncode}, not {run.status}"]
    if read != run.read:
        told.append(f"{read} bytes read, not {run.read}")
    errors = run.errors
    if run.begins is not None:
        errors = ended.stderr if ended.stderr.startswith(run.begins) else run.begins
    return told + differs("standard output", run.output, ended.stdout.replace(mark.encode(), b"")) + differs("standard error", errors, ended.stderr)
