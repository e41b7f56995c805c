"""Writes enumerate/choices.txt: rows of enumerations by hosts that ask for less than a file has.

What must come is worked out by the second readings of an enumeration over a bus of bytes (damaged_enumerations.py) and of a
listing. What was read must be what is asked for of the file, worked out from its parts, and no string passed over, or nothing is
written. It shares no code with the crates. The gate compares what it writes (.ci/readings).
"""

import itertools
import os

from readings import ROW_DATA
from readings.damaged_enumerations import run
from readings.enumerations_of_files import completed
from readings.long_enumerations import bytes_of, names_of

NAMES = """let HID = 09022200010100a032+090400000103010200+092110010001223400+0705810304000a
let MOUSE = 120110010000004034127856000100000001+HID
let OTHER = 0a060002000000400100+09072200010102a032+090400000103010200+092110010001223400+0705810304000a
let TWO = 120100020000004034127856000103010001+HID+OTHER+060309040704+060341003100+060341003200+060341003300+060342003100+060342003200+060342003300
let DUMP = 120110010000004034127856000103010001+HID
"""
CHOICES = [f"--strings {strings} --other-speed {other}" for strings, other in itertools.product(["needed", "wanted", "skipped"], ["yes", "no"])]
# A comment, the words and the input.
ROWS = [
    ("Two languages. Index 2 is named by the other speed alone.", "--strings needed --other-speed yes", "TWO"),
    *(("", choice, "TWO") for choice in CHOICES[1:]),
    ("One of the two options.", "--strings skipped", "TWO"),
    ("", "--other-speed no", "TWO"),
    ("Nothing but sets is there to ask for.", "--strings wanted --other-speed no --speed low", "MOUSE 7=08"),
    ("The qualifier of a device with one speed is stalled, if it is asked for.", "--other-speed yes --strings needed", "MOUSE 2=0002"),
    ("", "--other-speed no --strings needed", "MOUSE 2=0002"),
    ("Silence at a string is passed over by no host: three strikes, and another attempt.", "--strings wanted --other-speed no --fates 19*.+ddd", "TWO"),
    ("", "--strings wanted --other-speed no --attempts 1 --fates 19*.+ddd", "TWO"),
    ("So is a busy device.", "--strings wanted --other-speed no --attempts 1 --naks 1 --fates 17*.+nn", "TWO"),
    ("With a log.", "--strings skipped --other-speed no --speed high --log --brief", "TWO"),
    ("With a log of a bus of bytes, a bit of the languages changed, and the next ACK.", "--strings wanted --other-speed no --log --brief --packets --damage 18:2:9;19:3:1", "TWO"),
    ("Damage without a log.", "--strings skipped --damage 2:2:9", "TWO"),
    ("A dump, which is completed first.", "--strings needed --other-speed no --with-strings", "DUMP"),
    ("", "--strings skipped --other-speed no --with-strings", "DUMP"),
]
# Words that choose nothing, and the line for them: a choice is told before other faults.
BAD = [
    ("--strings=", "strings"),
    ("--strings Needed", "strings"),
    ("--strings none", "strings"),
    ("--strings needed,", "strings"),
    ("--other-speed=", "other speed"),
    ("--other-speed Yes", "other speed"),
    ("--other-speed true", "other speed"),
    ("--other-speed nothing --strings all", "strings"),
    ("--other-speed nothing --speed fast --brief --damage 1", "other speed"),
    ("--strings skipped --speed fast", "speed"),
]


def main():
    names, text = names_of(NAMES), f"# Enumerations by hosts that ask for less, written by readings/chosen_enumerations.py.\n\n{NAMES}"
    for comment, words, given in ROWS:
        data = bytes_of(given, names)
        status, output = run(words, completed(data) if "--with-strings" in words else data, names)
        text += f"\n# {comment}" if comment else ""
        text += f"\nusbdesc enumerate {words} < {given} -> {status}\n"
        text += "".join(f"> {line}\n" for line in output.splitlines())
    text += "\n# Choices that are none: each is told before the input is read.\n"
    for words, what in BAD:
        text += f"usbdesc enumerate {words} < 00 -> 2\n! usbdesc: bad {what}\n\n"
    with open(os.path.join(ROW_DATA, "enumerate/choices.txt"), "w", encoding="ascii") as target:
        target.write(text.rstrip("\n") + "\n")


if __name__ == "__main__":
    main()
