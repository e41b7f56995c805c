"""What `.ci/targets --write` measured, in a file of its own: a line for each number or text, `TABLE, ROW, COLUMN: TEXT`, after a line for
each table that says of what code it is, `# TABLE: CODE`."""

import os

PATH = os.path.join(os.path.dirname(os.path.abspath(__file__)), "measured.txt")


def read():
    """Of what code each table is, and what was measured, by table, row and column."""
    codes, found = {}, {}
    with open(PATH, encoding="utf-8") as it:
        for line in it.read().splitlines():
            key, _, text = line.partition(": ")
            if key.startswith("# "):
                codes[key.removeprefix("# ")] = text
            else:
                found[tuple(key.split(", ", 2))] = text
    return codes, found


def write(code, added):
    """Adds lines, or puts them in the place of those with the same key. All of a table is of one code."""
    codes, found = read() if os.path.exists(PATH) else ({}, {})
    tables = {table for table, *_ in added}
    found = {key: text for key, text in found.items() if key[0] not in tables or codes.get(key[0]) == code}
    with open(PATH, "w", encoding="utf-8") as it:
        it.writelines(f"# {table}: {said}\n" for table, said in sorted((codes | dict.fromkeys(tables, code)).items()))
        it.writelines(f"{', '.join(key)}: {text}\n" for key, text in (found | added).items())
