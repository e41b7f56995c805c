"""Counting: instructions of a round by callgrind, of the program's libraries and of plain Rust."""

import functools
import os
import re
import subprocess
import sys
import tempfile

from measuring.programs import FOLDER

# Else the C library fills and copies more than some thousand bytes by one instruction, which counts as one a byte.
REPEATED = 1 << 40
SETTINGS = ":".join(f"glibc.cpu.x86_rep_{kind}_threshold={REPEATED}" for kind in ("stosb", "movsb"))

class Missing(Exception):
    """A program lacks a work."""


class Counter:
    """Counts by these programs; inputs are made once, and so is each count."""

    def __init__(self, ours, plain, walk, room):
        self.ours, self.plain, self.walk, self.room = ours, plain, walk, room
        self.round_of = functools.cache(self.round_of)

    @functools.cache
    def made(self, source):
        """The path of an input. The listing of one that is written comes by plain Rust, which `--same` compares."""
        if not source.startswith("!"):
            return source
        first, *further = source[1:].split("|")
        name, *words = first.split()
        data = subprocess.run([sys.executable, f"{FOLDER}/{name}", *words], capture_output=True, check=True).stdout
        for command in further:
            data = subprocess.run([self.plain, command], input=data, capture_output=True, check=True).stdout
        with tempfile.NamedTemporaryFile(dir=self.room, delete=False) as target:
            target.write(data)
        return target.name

    def count(self, program, rounds, work, path, inside):
        """How many bytes or transactions the work says, and the instructions of the whole run or inside of a function."""
        line = ["valgrind", "--tool=callgrind", "--callgrind-out-file=/dev/null"]
        line += [f"--toggle-collect={inside}"] if inside else []
        with open(path, "rb") as source:
            how = {"env": {**os.environ, "GLIBC_TUNABLES": SETTINGS}, "capture_output": True, "text": True, "check": False}
            ran = subprocess.run([*line, program, str(rounds), work], stdin=source, **how)
        if f"no work is named {work}" in ran.stdout + ran.stderr:
            raise Missing(f"{program} has no work {work}")
        said = re.search(r": (\d+) bytes, ", ran.stdout)
        counted = re.search(r"Collected : (\d+)", ran.stderr)
        if ran.returncode or not said or not counted or counted[1] == "0":
            sys.exit(f"benchmarks: {program} {rounds} {work} < {path}: {ran.stdout}{ran.stderr[-600:]}")
        return int(said[1]), int(counted[1])

    def round_of(self, number, count):
        """What the work says, and the instructions of a round: of ours (0) or plain Rust (1)."""
        ours = self.walk if count.work == "walk" else self.ours
        program, path = [ours, self.plain][number], self.made(count.input)
        inside = count.inside and count.inside[number]
        _, few = self.count(program, count.few, count.work, path, inside)
        said, many = self.count(program, count.many, count.work, path, inside)
        return said, (many - few) / (count.many - count.few)

    def cell(self, number, cell):
        rounds = [(factor, *self.round_of(number, count)) for factor, count in cell.terms]
        total = sum(factor * instructions for factor, _, instructions in rounds)
        return total / (cell.parts or rounds[0][1])
