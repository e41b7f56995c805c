"""The examples that the file 'list' names, and the runs that each asks for."""

import glob
import os
import re

from playing.calls import fronts, is_dump, names_of_dump
from playing.row import Fault
from playing.run import Run, ends_with
from readings import recorded

# Each file of these must be named by the list.
LISTED = ["rows/*.txt", "enumerate/*.txt", "sets/*.bin", "files/*.file", "rules/*.file", "dumps/*.descriptors"]
LISTED += ["listings/*.txt", "explain/*.bin", "explain/*.descriptors", "hexadecimal/*", "mistakes/*.bin"]
LISTED += ["captures/*.pcap", "captures/*.pcapng", "captures/*.text"]


def bytes_of(name, ending=""):
    with open(name + ending, "rb") as source:
        return source.read()


def told_of(name, ending, options):
    """The runs that list, check and explain an input."""
    data, findings = bytes_of(name, ending), bytes_of(name, ".check")
    yield Run(["show", *options], data, 0, bytes_of(name, ".txt"))
    yield Run(["check", *options], data, 0 if findings == b"no findings\n" else 1, findings)
    yield Run(["explain"], data, 0, bytes_of(name, ".explain"))


def enumerations(name, options, data, text):
    """The runs that enumerate an input at each speed; after success they list this text."""
    for line in bytes_of(name, ".enumerate").decode().splitlines():
        speed, _, result = line.partition(" ")
        status, listed = (0, text) if result.startswith("success ") else (1, b"")
        yield Run(["enumerate", *options, "--speed", speed], data, status, f"{result}\n".encode() + listed)


def set_(name):
    """A set is no file: its first descriptor is none of a device, or it is shorter than that."""
    yield from told_of(name, ".bin", ["--any"])
    data = bytes_of(name, ".bin")
    yield Run(["show"], data, 0, bytes_of(name, ".txt"))
    yield ends_with(["check"], data, "3 usbdesc: file fault 1 at 0" if len(data) >= 18 else f"3 usbdesc: file fault 6 at {len(data)}")


def file(name):
    yield from told_of(name, ".file", [])
    yield from listing(name)
    data, text = bytes_of(name, ".file"), bytes_of(name, ".txt")
    yield from enumerations(name, [], data, text)
    yield from fronts(data, ["show", "enumerate"])


def dump(name):
    """Where a dump names a string its listing lacks the languages behind its last line; else it is a file."""
    yield from told_of(name, ".descriptors", ["--any"])
    data, text = bytes_of(name, ".descriptors"), bytes_of(name, ".txt")
    if is_dump(data):
        yield ends_with(["build"], text, f"3 usbdesc: listing fault 6 line {text.count(10) + 1}")
        for command in ("show", "check", "enumerate"):
            yield ends_with([command], data, f"3 usbdesc: file fault 6 at {len(data)}")
    else:
        yield Run(["build"], text, 0, data)
    strings = "".join(f'string "string {index}"\n' for index in names_of_dump(data))
    text += f"languages 0409\n{strings}".encode() if strings else b""
    yield from enumerations(name, ["--with-strings"], data, text)
    yield from fronts(data, ["show --any", "enumerate"])


# The speed in a heading by the Mbit/s that Linux recorded beside a dump, and how many dumps have it exactly.
SPEEDS = {"1.5": "low speed", "12": "full speed", "480": "high speed", "5000": "SuperSpeed"}
KNOWN = 42


def wrong_speeds():
    """Dumps whose explanation excludes their recorded speed, and a line where fewer than those have it exactly."""
    rows = re.findall(r"^\| ([\w.-]+) \| [0-9a-f]{4}:.*? \| \d+ \| ([\d.]+) \|", bytes_of("dumps/README", ".md").decode(), flags=re.M)
    known = 0
    for name, rate in rows:
        speed = SPEEDS[rate]
        told = re.findall(r"^  configuration \d+, ([^,]+), ", bytes_of(f"dumps/{name}", ".explain").decode(), flags=re.M)
        known += set(told) == {speed}
        if not told or any(speed.split()[0] not in words.split() for words in told):
            yield f"dumps/{name}: of {speed}, and its explanation says {', '.join(told)}"
    if known < KNOWN:
        yield f"dumps: {known} of {len(rows)} explanations have the recorded speed, and not {KNOWN}"


def builds(name, options, ending):
    """The run that builds a text, to the bytes or to the fault that lies beside it."""
    text = bytes_of(name, ".txt")
    if os.path.exists(f"{name}{ending}.file"):
        yield Run(["build", *options], text, 0, bytes_of(name, f"{ending}.file"))
    else:
        yield Run(["build", *options], text, 3, b"", bytes_of(name, f"{ending}.fault"))


def listing(name):
    """A text as it stands, and where it may have comments: what comes of it then lies beside it where it is something
    else."""
    yield from builds(name, [], "")
    differs = any(os.path.exists(f"{name}.commented{ending}") for ending in (".file", ".fault"))
    yield from builds(name, ["--comments"], ".commented" if differs else "")


def output(line):
    """A run with options. The line of a fault must stand in the text too."""
    name, status, source, *words = line.split()
    text = bytes_of(name)
    faults = re.findall(rb"^  ! ((?:set|file) fault \d+ at \d+|trailing bytes at \d+): ", text, flags=re.M) if status != "0" else []
    yield Run(words, bytes_of(source), int(status), text, b"".join(b"usbdesc: %b\n" % fault for fault in faults))


def told_in(data, words, **options):
    """The run with these words over a recording, whose lines the second reading has."""
    lines = "".join(f"{line}\n" for line in recorded.said(data, **options))
    return Run(["capture", *words], data, recorded.status_of(recorded.Recording(data), options.get("device")), lines.encode())


def file_in(data, recording, device):
    """The run that makes a file of a device."""
    words, made = "{}.{}".format(*device), recorded.file_of(recording.over, device)
    if isinstance(made, str):
        return ends_with(["capture", "--file", words], data, f"3 usbdesc: capture lacks {made} of {words}")
    return Run(["capture", "--file", words], data, 0, made)


def capture(name):
    """A recording, by `explain` too, with each option, and cut: a short one at each byte. Of a cut text the file of its first device is made."""
    data = bytes_of(name)
    recording = recorded.Recording(data)
    status = recorded.status_of(recording)
    for command in ("capture", "explain"):
        yield Run([command], data, status, bytes_of(name, ".said"))
    yield Run(["capture", "--data"], data, status, bytes_of(name, ".bytes"))
    yield told_in(data, ["--brief"], with_data=False, brief=True)
    yield told_in(data, ["--from", "0.001", "--to", "93.5"], with_data=False, times=(10**6, 935 * 10**8))
    devices = [*filter(None, recording.findings()), (9, 9)]
    for device in devices:
        yield told_in(data, ["--device", "{}.{}".format(*device)], with_data=False, device=device)
        yield file_in(data, recording, device)
    for length in range(0, len(data), 1 if len(data) < 500 else len(data) // 40):
        yield told_in(data[:length], [], with_data=False)
        if name.endswith(".text"):
            yield file_in(data[:length], recorded.Recording(data[:length]), devices[0])


KINDS = {"set": set_, "file": file, "dump": dump, "listing": listing, "commented": listing, "broken": listing, "output": output, "capture": capture}


def lines_of_list():
    """The kind and the rest of each line."""
    for line in bytes_of("list").decode().splitlines():
        if line and not line.startswith("#"):
            kind, _, name = line.partition(" ")
            if kind != "rows" and kind not in KINDS:
                raise Fault(f"list: nothing is called {kind}")
            yield kind, name


def unlisted():
    """The files that the list leaves out."""
    listed = {word for _, name in lines_of_list() for word in name.split()}
    for pattern in LISTED:
        for path in sorted(glob.glob(pattern)):
            if path not in listed and os.path.splitext(path)[0] not in listed:
                yield path
