"""The tables of what was measured, from the file of numbers that `.ci/benchmarks` writes."""

import os
import sys

from . import sources

sys.path.insert(0, os.path.join(os.path.dirname(os.path.abspath(__file__)), ".."))
from measuring import tables  # noqa: E402

NUMBERS = "crates/benchmarks/measured.txt"


def key(table, row, column):
    return f"{table.name}, row {row + 1}, column {column + 1}"


def numbers():
    """The two numbers of each cell by its key."""
    found = {}
    if not os.path.exists(NUMBERS):
        return found
    for line in sources.text_of(NUMBERS).splitlines():
        name, _, values = line.partition(": ")
        if values and not line.startswith("#"):
            proved, plain = values.split()
            found[name] = (float(proved), float(plain))
    return found


def shown(number):
    return f"{number:,.0f}" if number >= 99.95 else f"{number:.1f}" if number >= 9.995 else f"{number:.2f}"


def cell_of(pair, bound):
    """The two numbers and their ratio, with heavy figures above its bound."""
    if pair is None:
        return ""
    ratio = f"{pair[0] / pair[1]:.2f}"
    return f"{shown(pair[0])} / {shown(pair[1])} = {f'**{ratio}**' if pair[0] / pair[1] > bound else ratio}"


def said():
    """Of what the numbers are: the first line of their file."""
    return sources.text_of(NUMBERS).partition("\n")[0].removeprefix("# ")


def above():
    """The cells above their bound, each reason of a table once."""
    found, titles = numbers(), {}
    for table in tables.tables():
        for row, (title, cells) in enumerate(table.rows):
            for column, cell in enumerate(cells):
                pair = found.get(key(table, row, column))
                if pair and pair[0] / pair[1] > cell.bound:
                    told = f"{title}, {table.columns[column]}" if len(table.columns) > 1 else title
                    titles.setdefault((table.name, tables.reason_of(f"{table.name}, {title}")), []).append(told)
    return "\n".join(f"- {name} ({'; '.join(told)}): {reason}" for (name, reason), told in titles.items())


def printed(name):
    if name == "said":
        return said()
    if name == "above":
        return above()
    found = numbers()
    table = next(it for it in tables.tables() if it.name == name)
    if not any(it.startswith(f"{table.name}, ") for it in found):
        return "Not counted yet."
    rows = [f"| {' | '.join([table.corner, *table.columns])} |", "|---" * (1 + len(table.columns)) + "|"]
    for number, (title, cells) in enumerate(table.rows):
        texts = [cell_of(found.get(key(table, number, column)), cell.bound) for column, cell in enumerate(cells)]
        rows.append(f"| {' | '.join([title, *texts])} |")
    return "\n".join(rows)
