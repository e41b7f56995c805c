"""The rules of chapter 9: each with its message, its sections, its definition and its code."""

import glob
import re

from . import sources

DEFINITIONS = "crates/usb_file_data/specs/Rules.antt"
CODE = "crates/usb_file_data/src"


def code_of():
    """The file of each rule, by the first line of each, which says as 'V5 to V8 and V12' what is in it."""
    found = {}
    for path in glob.glob(f"{CODE}/*.rt"):
        head = re.match(r"//! (V[^:]*):", sources.text_of(path))
        for first, last in re.findall(r"V(\d+)(?: to V(\d+))?", head[1] if head else ""):
            found.update(dict.fromkeys(range(int(first), int(last or first) + 1), path.split("/")[-1]))
    return found


def definitions_of(number):
    """The names of what breaks a rule, and the sections that their comments name."""
    found = re.findall(rf"^(-- V{number}[.,].*?)^abbrev pub (\w+)", sources.text_of(DEFINITIONS), flags=re.S | re.M)
    comments = "".join(comment for comment, _ in found)
    return [name for _, name in found], sources.sections_of(comments) + ["ECN"] * ("change notice" in comments)


def printed():
    rows = ["| Rule | Message | Section | Definition | Code |", "|---|---|---|---|---|"]
    messages = re.findall(r'^    "(.*)",$', sources.text_of(f"{CODE}/rule.rt"), flags=re.M)
    code = code_of()
    for number, message in enumerate(messages, 1):
        names, sections = definitions_of(number)
        row = [f"V{number}", message, ", ".join(sections), ", ".join(f"`{it}`" for it in names), f"`{code[number]}`"]
        rows.append(f"| {' | '.join(row)} |")
    return "\n".join(rows)
