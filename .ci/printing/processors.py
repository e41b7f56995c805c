"""The tables of what `.ci/targets` measured on other processors."""

import os
import sys

sys.path.insert(0, os.path.join(os.path.dirname(os.path.abspath(__file__)), ".."))
from processors import records  # noqa: E402

NAMES = {"thumbv7em": "Cortex-M4", "thumbv6m": "Cortex-M0", "riscv32imac": "RISC-V"}
CORNERS = {"flash": "Exports", "stack": "Call", "compared": "Target", "wrong": "Wrong edit"}


def printed(table):
    """A table, after a line that says of what code it is."""
    codes, found = records.read()
    rows = {}
    for (name, row, column), text in found.items():
        if name == table:
            rows.setdefault(row, {})[column] = text
    columns = list(dict.fromkeys(column for row in rows.values() for column in row))
    head = [CORNERS[table], *(NAMES.get(it, it) for it in columns)]
    lines = [f"| {' | '.join(head)} |", "|---" * len(head) + "|"]
    for row, cells in rows.items():
        title = f"`{row}`" if row.startswith("nzg_") or table == "compared" else row
        lines.append(f"| {' | '.join([title, *(cells.get(it, '') for it in columns)])} |")
    return "\n".join([f"Of {codes[table]}.", "", *lines])
