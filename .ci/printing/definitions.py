"""The definitions that a reader must read, in three tables, or those that a call reaches: each file with its lines, its
sections and its first sentence."""

import re

from . import reach, sources

# What is read with USB 2.0 beside it, and what is said of both ends of a pipe. All other files are the project's own.
STANDARD = """
usb_fields/Bytes usb_fields/Setup usb_fields/Fields usb_fields/Device usb_fields/Units usb_fields/Packets
usb_wire/Crc usb_wire/Standard usb_wire/Packets usb_wire/Damages usb_wire/Changes
usb_set/Descriptors usb_set/Owners usb_set/Layout usb_remarks/Remarks usb_file_data/File usb_file_data/Places
usb_file_data/Rules usb_device/Descriptors usb_device/States usb_device/Requests usb_device/Step usb_device/Beside
usb_device/View usb_host/Transfer usb_host/Read usb_host/Order
""".split()
BOTH = ["usb_host/Plan"]
BOTH_CRATES = ["usb_bus"]
# But for the lines of a log, whose text is the project's own.
LOG = ["usb_bus/Exchanges", "usb_bus/Lines", "usb_bus/Log"]
# Cited by contracts, and not to be read: how the code holds a device whose calls say all that is known of it.
LEFT_OUT = ["usb_device/Stages", "usb_device/View"]


def short_name(path):
    return re.sub(r"^crates/(\w+)/specs/(.*)\.antt$", r"\1/\2", path)


def table_of(name):
    if name in LEFT_OUT:
        return None
    if name in STANDARD:
        return "standard"
    return "both" if name in BOTH or name.split("/")[0] in BOTH_CRATES and name not in LOG else "own"


def in_reading_order(paths):
    """A file comes after those of its crate that it imports."""
    left, done = list(paths), []
    while left:
        names = {short_name(path) for path in left}
        for path in left:
            crate = path.split("/")[1]
            imports = re.findall(rf"use Rattle\.{crate}\.specs\.(\w+)", sources.text_of(path))
            if not any(f"{crate}/{it}" in names - {short_name(path)} for it in imports):
                break
        else:
            path = left[0]
        left.remove(path)
        done.append(path)
    return done


def texts_of(table):
    """The files of a table with their texts; of a call, as `usb_bus::enumerate`, what its contract reaches of each."""
    reached = reach.reached(table) if "::" in table else None
    for crate in sources.libraries():
        paths = [path for path in sources.definitions(crate) if "/inside/" not in path or reached]
        for path in in_reading_order(paths):
            if reached and path in reached:
                yield path, reached[path]
            elif not reached and table_of(short_name(path)) == table:
                yield path, sources.text_of(path)


def printed(table):
    texts = list(texts_of(table))
    total = sum(sources.lines_of(text) for _, text in texts)
    rows = [f"{len(texts)} files, {total:,} lines:", "", "| File | Lines | Sections | What it says |", "|---|---|---|---|"]
    for path, text in texts:
        sections = ", ".join(sources.sections_of(text))
        rows.append(f"| `{short_name(path)}` | {sources.lines_of(text)} | {sections} | {sources.first_sentence(path)} |")
    return "\n".join(rows)


def text(table):
    """What is to be read, file after file."""
    return "\n\n".join(f"-- {short_name(path)}\n\n{text.strip()}" for path, text in texts_of(table))
