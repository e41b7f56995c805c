"""Whether plain Rust gives the same texts and bytes: the runs of `.ci/rows` that it takes, and what it reads and writes."""

import glob
import os
import subprocess

from playing import calls, examples
from playing.row import Fault, rows_of
from playing.run import Run, play
from readings.recorded import begins

# The words that it takes, as the program does.
COMMANDS = [["show"], ["check"], ["build"], ["enumerate"], *(["enumerate", "--speed", it] for it in ("low", "full", "high"))]
OWN = [["decode"], ["describe"], ["hexadecimal"]]


def is_taken(run):
    """Whether plain Rust takes a run: it explains whole inputs alone, and no text that has their digits and no recording, and tells of
    recordings without a fault, of which it writes nothing."""
    is_whole = run.status == 0 and run.output and not run.output.startswith(b"hexadecimal text") and not begins(run.data)
    is_explained = run.words == ["explain"] and is_whole
    is_told = run.words == ["capture"] and run.status != 3
    return run.read is None and not run.terminal and (is_explained or is_told or run.words in COMMANDS or run.words[:1] in OWN)


def wanted_runs():
    """What the rows and the examples ask of the program: a name, and a run."""
    for kind, name in examples.lines_of_list():
        if kind == "rows":
            for row in rows_of(name, examples.bytes_of(name).decode()):
                if row.call in calls.CALLS:
                    yield from ((row.name, run) for run in calls.runs_of_row(row))
        else:
            yield from ((name.split()[0], run) for run in examples.KINDS[kind](name))


def other_runs():
    """What it does besides, of inputs that are a set, a file or digits: they come out as they went in."""
    for kind, name in examples.lines_of_list():
        if kind in ("set", "file"):
            data = examples.bytes_of(name, ".bin" if kind == "set" else ".file")
            yield name, Run(["decode"], data, 0, data)
            yield name, Run(["hexadecimal"], data.hex().encode(), 0, data)
            accepted = kind == "file" and b"full success" in examples.bytes_of(name, ".enumerate")
            if accepted:
                yield name, Run(["describe"], data, 0, data)
    # The same device as three dumps of hexadecimal digits, and its bytes.
    keyboard = examples.bytes_of("hexadecimal/keyboard.array")
    data = bytes(int(word, 16) for word in keyboard.decode().replace(",", " ").split())
    for form in ("array", "hexdump", "wireshark", "xxd"):
        yield f"hexadecimal/keyboard.{form}", Run(["hexadecimal"], examples.bytes_of("hexadecimal/keyboard", f".{form}"), 0, data)


def walked():
    """The inputs that are walked over, broken ones too."""
    kinds = ("sets/*.bin", "files/*.file", "dumps/*.descriptors", "rules/*.file", "explain/*.bin", "explain/*.descriptors")
    return [it for kind in kinds for it in sorted(glob.glob(f"testdata/{kind}"))]


def walks_that_differ(walk, plain):
    """The inputs whose descriptors have other numbers by the library than by plain Rust."""
    for name in walked():
        with open(name, "rb") as source:
            data = source.read()
        sums = [subprocess.run(words, input=data, capture_output=True, check=True).stdout for words in ([walk], [plain, "walk"])]
        if sums[0] != sums[1]:
            yield f"{name}: {sums[0].decode().strip()}, and {sums[1].decode().strip()} by plain Rust"


def differences(program, root):
    """How many runs there were, and the lines of those that differ."""
    program = os.path.abspath(program)
    os.chdir(os.path.join(root, "crates/test_rows/data"))
    count, told = 0, []
    try:
        for name, run in [*wanted_runs(), *other_runs()]:
            if is_taken(run):
                count += 1
                lines = play(program, run)
                if lines:
                    told += [f"{name}: {' '.join(run.words)}, {len(run.data)} bytes", *(f"  {line}" for line in lines)]
    except (Fault, OSError, ValueError) as fault:
        told.append(f"{fault or type(fault).__name__}")
    finally:
        os.chdir(root)
    return count, told
