"""Runs of the program that are played before its libraries are proved: `rt try` builds it once of the sources as they
stand, and runs it for each input with its words."""

import os
import re
import subprocess
import tempfile


def write_cases(folder, runs):
    """Writes what `rt try --cases` reads: the input of each run, its words, and the output where rt is to compare it."""
    for number, run in enumerate(runs):
        words = "".join(f"{word}\n" for word in run.words).encode()
        # Where rt compares the output, it shows no standard error.
        output = None if run.errors else run.output
        for name, data in ((f"{number:05}", run.data), (f"{number:05}.args", words), (f"{number:05}.stdout", output)):
            if data is not None:
                with open(os.path.join(folder, name), "wb") as target:
                    target.write(data)


def differences(run, status, errors, output, is_expected):
    """How what a run did differs from what it has to do."""
    if run.status not in (None, status):
        yield f"status {status}, not {run.status}"
    if run.output is not None and not (output == run.output if run.errors else is_expected):
        yield "standard output differs"
    if run.errors and errors != run.errors.decode():
        yield f"standard error: {errors.strip()[-300:]}"


def play_all(folder, runs):
    """How the runs differ: of each its number and what to tell of it."""
    runs = list(runs)
    with tempfile.TemporaryDirectory() as cases:
        write_cases(cases, runs)
        line = ["rt", "try", "--steps", "1", "--cases", cases]
        ended = subprocess.run(line, cwd=folder, capture_output=True, check=False)
    parts = re.split(rb"^== (\d{5})\n", ended.stdout, flags=re.M)
    outputs = dict(zip(parts[1::2], parts[2::2]))
    errors, seen = "", set()
    for line in ended.stderr.decode(errors="replace").splitlines(keepends=True):
        found = re.match(r"case=(\d{5}) run=ended status=(\d+)", line)
        if not found:
            errors += "" if line.startswith(("allocations:", "interpreter:")) else line
            continue
        number = int(found[1])
        seen.add(number)
        output = outputs.get(found[1].encode(), b"")
        for told in differences(runs[number], int(found[2]), errors, output, "output=expected" in line):
            yield number, told
        errors = ""
    for number in sorted(set(range(len(runs))) - seen):
        yield number, f"not run: {errors.strip()[-300:]}"
