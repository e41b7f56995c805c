"""The scripts of devices that crates/test_ends plays, as callers/c/devices.c does: a line is a step with what comes of it. A file stands
there in digits. What has no meaning in C is left out: steps that are none, words that aren't digits, and files of answers."""
import glob

from playing.built import ROOT

PLACE = f"{ROOT}/crates/test_ends/data"
NOT_IN_C = ("no step", "bad hexadecimal", "no such file")


def digits_of(word):
    """The bytes of a file by its name, or as they are given."""
    for place in (f"{PLACE}/files/{word}", f"{ROOT}/testdata/files/{word}"):
        if word.endswith(".file") and glob.glob(place):
            with open(place, "rb") as it:
                return it.read().hex()
    return word


def lines_of(path):
    with open(path, encoding="utf-8") as it:
        for line in it:
            step, _, came = map(str.strip, line.partition("#")[0].partition(" -> "))
            verb, _, rest = step.partition(" ")
            if verb == "answers" and came == "done":
                return  # all that follows is answered by the file
            if verb and came not in NOT_IN_C and verb not in ("answers", "trace"):
                yield f"{verb} {digits_of(rest) if verb == 'file' else rest}".strip() + f" -> {came or 'done'}\n"


def scripts():
    """The scripts, by their names."""
    return {path.rpartition("/")[2]: "".join(lines_of(path)) for path in sorted(glob.glob(f"{PLACE}/scripts/*.script"))}
