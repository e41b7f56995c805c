#!/usr/bin/env python3
"""Writes a great listing to standard output: of one set, or of all sets that a file can have, with lines of one kind.
'strings' has all strings besides, and is the greatest listing of any file: a raw descriptor without a body has 2
bytes and 9 of text, and no other line of a set has more text for a byte."""

import sys

LONGEST = 65535
MOST = 255
LINES = {
    "raws": ("raw 21 " + "5a" * 253 + "\n", 255),
    "settings": ("interface 00 00 00 ff 00 00 00 -\n", 9),
    "strings": ("raw 21 -\n", 2),
}


def set_of(word, number, text, line, length):
    return f"{word} 00 {number:02x} {text:02x} 80 32 -\n" + line * ((LONGEST - 9) // length)


def main():
    name, sets = sys.argv[1], int(sys.argv[2])
    line, length = LINES[name]
    named = name == "strings"
    write = sys.stdout.write
    write(f"device 0200 00 00 00 40 0000 0000 0000 00 00 00 {min(sets, MOST):02x}\n")
    for number in range(1, sets + 1):
        if number == MOST + 1:
            write(f"qualifier 0200 00 00 00 40 {sets - MOST:02x} 00\n")
        word = "configuration" if number <= MOST else "other_speed"
        index = (number - 1) % MOST + 1
        write(set_of(word, index, index if named else 0, line, length))
    if named:
        write("languages" + "".join(f" {code:04x}" for code in range(1, 127)) + "\n")
        write(('string "' + "\\0001" * 126 + '"\n') * (min(sets, MOST) * 126))


main()
