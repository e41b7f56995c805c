"""The printed parts of the documents, which stand between two marks: '<!-- printed: KIND WORDS -->' and '<!-- end -->'."""

import glob
import os
import re

from . import definitions, drawing, fields, files, measured, processors, promises, reach, rules, sources, variants

PART = re.compile(r"(<!-- printed: (\w+)([^>]*?) -->\n)(.*?)(<!-- end -->)", flags=re.S)


def documents():
    return ["README.md", "CONTRIBUTING.md", "CHANGELOG.md", *sorted(glob.glob("docs/*.md"))]


def fenced(lines, language=""):
    return "\n".join([f"```{language}", *lines, "```"])


def of_file(path, most=None):
    """A file, or its first lines."""
    lines = sources.text_of(path).splitlines()
    return fenced(lines[: int(most)] if most else lines, {".rt": "rs", ".c": "c"}.get(os.path.splitext(path)[1], ""))


def of_contract(call):
    """The signature and the contract of a public function."""
    return fenced(reach.contract(call)[1].splitlines(), "rs")


def of_excerpt(name, *definitions_in_it):
    """Some definitions of a file of definitions, each with its comment."""
    lines = reach.File(f"crates/{name.replace('/', '/specs/')}.antt").lines
    return fenced("\n\n".join("\n".join(lines[it]) for it in definitions_in_it).splitlines())


def of_help(command, *names):
    """Paragraphs of a command's help, by their first words, as the rows of the program want them."""
    found = re.search(rf"^usbdesc {command} --help -> 0\n((?:>.*\n)+)", sources.text_of("testdata/rows/program.txt"), flags=re.M)
    paragraphs = re.sub("^> ?", "", found[1], flags=re.M).strip().split("\n\n")
    return fenced("\n\n".join(it for name in names for it in paragraphs if it.startswith(name)).splitlines())


def of_row(path, number, most=None):
    """What a row wants on standard output, or its first lines: of the rows that want some this is so many-th, from 1."""
    blocks = re.findall(r"(?:^> .*\n)+", sources.text_of(path), flags=re.M)
    wanted = [line[2:] for line in blocks[int(number) - 1].splitlines()]
    return fenced(wanted[: int(most)] if most else wanted)


def of_output(name):
    """What the program writes with options, as `testdata/list` says it, with the line that is typed for it."""
    found = re.search(rf"^output {re.escape(name)} 0 (\S+) (.*)$", sources.text_of("testdata/list"), flags=re.M)
    typed = f"$ dist/usbdesc {found[2]} < testdata/{found[1]}"
    return fenced([typed, *sources.text_of(f"testdata/{name}").splitlines()], "console")


def of_counts():
    """How much `testdata/list` names, by its kinds."""
    words = {"rows": "files of rows", "set": "sets", "file": "files", "dump": "dumps", "listing": "listings"}
    words |= {"commented": "listings with comments", "broken": "broken listings", "capture": "recordings"}
    kinds = re.findall(r"^(\w+) ", sources.text_of("testdata/list"), flags=re.M)
    return ", ".join(f"{kinds.count(kind)} {word}" for kind, word in words.items()) + "."


KINDS = {
    "promises": promises.printed,
    "definitions": definitions.printed,
    "text": definitions.text,
    "files": files.printed,
    "file": of_file,
    "contract": of_contract,
    "excerpt": of_excerpt,
    "help": of_help,
    "rules": rules.printed,
    "fields": fields.printed,
    "variants": variants.printed,
    "lines": variants.lines,
    "row": of_row,
    "output": of_output,
    "counts": of_counts,
    "crates": drawing.printed,
    "measured": measured.printed,
    "processors": processors.printed,
}


def printed(kind, words):
    return KINDS[kind](*words)


def renewed(text):
    """The text with all of its parts printed anew."""
    return PART.sub(lambda part: part[1] + printed(part[2], part[3].split()) + "\n" + part[5], text)


def by_hand(text):
    """The text without its printed parts."""
    return PART.sub("", text)
