"""Writes what the rows of rows/words.txt want: the explanation of each row's bytes by explaining.py. The gate compares
what it writes (.ci/readings).
"""

import itertools
import os
import re

from readings import ROW_DATA, explaining


PATH = os.path.join(ROW_DATA, "rows/words.txt")
ROW = re.compile(r"usbdesc explain ([-a-z ]*)< ([0-9a-f ]+) -> 0")


def explained(options, data):
    """What `explain` with these options writes of a fragment, or of a set."""
    how = {"brief": "--brief" in options, "places": "--no-places" not in options}
    explanation = explaining.Fragment(data, **how) if "--loose" in options else explaining.Explanation("set", data, **how)
    return explanation.text().splitlines()


def written(lines):
    """The lines with what their rows want, anew."""
    for line in itertools.filterfalse(lambda it: it.startswith(">"), lines):
        yield line
        if row := ROW.fullmatch(line):
            yield from (f"> {it}" for it in explained(row[1].split(), bytes.fromhex(row[2])))


def main():
    with open(PATH, encoding="ascii") as source:
        lines = source.read().splitlines()
    with open(PATH, "w", encoding="ascii") as target:
        target.writelines(f"{line}\n" for line in written(lines))


if __name__ == "__main__":
    main()
