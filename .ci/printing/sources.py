"""What the sources say of themselves: crates, files with their first sentence, public calls with their comments."""

import glob
import os
import re


def text_of(path):
    with open(path, encoding="utf-8") as source:
        return source.read()


def crates():
    """The crates of crates.txt, in their order: the lowest first."""
    return re.findall(r"^(\w+)(?: staticlib)?:", text_of("crates.txt"), flags=re.M)


def libraries():
    return [crate for crate in crates() if os.path.exists(f"crates/{crate}/src/lib.rt") and crate.startswith("usb_")]


def definitions(crate):
    """The files of definitions of a crate, without those that only name other files; inner ones come last."""
    found = glob.glob(f"crates/{crate}/specs/**/*.antt", recursive=True)
    named = [path for path in found if os.path.basename(path) not in ("Lib.antt", "inside.antt")]
    return sorted(named, key=lambda path: ("/inside/" in path, path))


def lemmas(crate):
    """The files of lemmas of a crate, without what is answered for single functions."""
    return [path for path in sorted(glob.glob(f"crates/{crate}/proofs/*.antt")) if os.path.basename(path) != "Lib.antt"]


def code(crate):
    """The files of code of a crate, the root first."""
    found = glob.glob(f"crates/{crate}/src/**/*.rt", recursive=True)
    return sorted(found, key=lambda path: (os.path.basename(path) not in ("lib.rt", "main.rt"), path))


def first_sentence(path):
    """The first sentence of a file's first comment."""
    lines = []
    for line in text_of(path).splitlines():
        found = re.match(r"(?://!|--)(?: (.*))?$", line)
        if found is None or not found[1]:
            break
        lines.append(found[1])
    sentence = re.split(r"(?<=[a-z0-9)`'])\. ", " ".join(lines) + " ")[0].strip().rstrip(".")
    return re.sub(r" \((?:USB 2\.0|ECN)[^)]*\)", "", sentence)


def without_imports(text):
    """A text of definitions without its imports, which may go over several lines."""
    return re.sub(r"^\s*(?:pub )?use [^{\n]*(?:\{[^}]*\}[^\n]*)?$", "", text, flags=re.M)


def lines_of(text):
    """How many lines a text has, without blank ones and without imports."""
    return sum(1 for line in without_imports(text).splitlines() if line.strip())


def sections_of(text):
    """The sections, tables and figures of USB 2.0 that the comments of a text of definitions name."""
    comments = " ".join(re.findall(r"--.*", text))
    found = set(re.findall(r"(?<![\w.])(?:[5-9]|1[01])\.\d+(?:\.\d+)*(?![\w.]*\d)", comments))
    return sorted(found, key=lambda section: [int(it) for it in section.split(".")])
