#!/usr/bin/env python3
"""Writes the tables of class names, of types of terminals, of names of bits and of class descriptors, which the
definitions read, from the files that are read as they are by readings/explaining.py: classes.txt, terminals.txt,
bits.txt and descriptors.txt of the examples. In each source the part between the lines `made by tables.py` and `end` is
written anew; all else is left: a new group of bits or rows gets its function and its definition by hand. The gate
compares what is written (.ci/readings).
"""

import os
import re

HERE = os.path.dirname(os.path.abspath(__file__))
EXPLAIN = os.path.join(HERE, "../test_rows/data/explain")
# The form and the width of each word for one in descriptors.txt that isn't followed by its width.
FORMS = {
    "bcd": ("Release", 2),
    "index": ("Index", 1),
    "interval": ("FrameInterval", 4),
    "guid": ("Guid", 16),
    "audio_terminal": ("AudioTerminal", 2),
    "video_terminal": ("VideoTerminal", 2),
    "abstract_control": ("AbstractControl", 1),
    "call_management": ("CallManagement", 1),
    "firmware_upgrade": ("FirmwareUpgrade", 1),
}
TERMINALS = {"01": "AUDIO_TERMINALS", "0e": "VIDEO_TERMINALS"}


def lines_of(name):
    with open(os.path.join(EXPLAIN, name), encoding="ascii") as table:
        return [line.rstrip("\n") for line in table]


def groups_of(name):
    """The groups of lines that follow a line `# GROUP - COMMENT`: GROUP, COMMENT and the lines."""
    groups = []
    for line in lines_of(name):
        if line.startswith("# "):
            groups.append((*line[2:].split(" - "), []))
        else:
            groups[-1][2].append(line)
    return groups


def table(name, kind, rows, comment=None):
    if comment:
        yield f"/// {comment[0].upper()}{comment[1:]}."
    yield f"static {name}: [{kind}; {len(rows)}] = ["
    yield from (f"    {row}," for row in rows)
    yield "];\n"


def classes():
    """Each class: its code, its name, its subclasses and its protocols, as the macro class! takes them."""
    rows = {}
    for line in lines_of("classes.txt"):
        codes, name = re.fullmatch(r"((?:[0-9a-f]{2} )+)(.*)", line).groups()
        class_, *codes = [f"0x{code}" for code in codes.split()]
        if not codes:
            rows[class_] = (name, [], [])
        else:
            rows[class_][len(codes)].append(f'{" ".join(codes)} "{name}"')
    return rows


def class_table(rows):
    yield f"static CLASSES: [Class; {len(rows)}] = ["
    for code, (name, *lists) in rows.items():
        parts = [f'    class!({code} "{name}"', *(f"[{', '.join(names)}]" for names in lists)]
        short = " ".join(parts) + "),"
        yield short if len(short) <= 120 else "\n        ".join(parts) + "),"
    yield "];"


def terminal_tables():
    rows = {name: [] for name in TERMINALS.values()}
    for line in lines_of("terminals.txt"):
        class_, code, name = line.split(" ", 2)
        rows[TERMINALS[class_]].append(f'(0x{code}, "{name}")')
    for name, types in rows.items():
        yield from table(name, "Named<u16>", types)


def static_name(group, what):
    return re.sub(r"\W+", "_", f"{group} {what}").upper()


def bit_tables():
    for group, comment, names in groups_of("bits.txt"):
        named = f"what the bits are called of {comment}"
        rows = [f'({bit}, "{name}")' for bit, name in enumerate(names)]
        yield from table(static_name(group, "bits"), "Named<u8>", rows, named)


def form_code(form):
    """The form and the width of a field."""
    kind = form.rstrip("0123456789")
    return FORMS.get(kind) or ({"hex": "Hexadecimal", "dec": "Decimal", "type": "ReportType"}[kind], int(form[len(kind) :]))


def field_code(field):
    """A field as the macro row! takes it: its name, its form and its width."""
    name, form = field.removesuffix("=0").split(":")
    kind, width = form_code(form)
    return f'"{name}" {kind} {width}'


def zero_code(fields):
    """The place of the field that is 0 by its row, if there is one: that of its first byte after bDescriptorType."""
    place = 0
    for field in fields.split():
        if field.endswith("=0"):
            return place
        place += form_code(field.split(":")[1])[1]
    return "_"


def row_code(line):
    head, *parts = line.split("|")
    _, *codes = head.split()[:6]
    keys = " ".join("_" if code == "--" else f"0x{code}" for code in codes)
    lists = " ".join(f"[{', '.join(map(field_code, part.split()))}]" for part in parts)
    return f'row!({keys} {zero_code(parts[0])} "{" ".join(head.split()[6:])}" {lists})'


def row_tables():
    for group, comment, lines in groups_of("descriptors.txt"):
        yield from table(static_name(group, "rows"), "ClassDescriptor", [row_code(line) for line in lines], comment)


def write_part(path, lines, part=""):
    """Writes the part of a source anew that it marks."""
    path = os.path.join(HERE, path)
    with open(path, encoding="utf-8") as source:
        text = source.read()
    made = re.compile(rf"(\n *// made by tables.py{part}\n).*?( *// end\n)", re.DOTALL)
    text, count = made.subn(lambda found: found[1] + "\n".join(lines).rstrip("\n") + "\n" + found[2], text)
    if count != 1:
        raise SystemExit(f"tables.py: {path}: {count} parts{part}")
    with open(path, "w", encoding="utf-8") as source:
        source.write(text)


def main():
    rows = classes()
    write_part("src/class.rt", (f"        {code} => {place}," for place, code in enumerate(rows)), ": places")
    write_part("src/class.rt", class_table(rows), ": classes")
    write_part("src/terminal.rt", terminal_tables())
    write_part("src/bits.rt", bit_tables())
    write_part("src/rows.rt", row_tables())


if __name__ == "__main__":
    main()
