"""`check`: what breaks a rule of chapter 9 and what else is remarked, of each target, in one of several forms."""
from __future__ import annotations

import argparse
import os
from collections.abc import Iterator
from typing import NamedTuple

from .. import Fault, Finding, check, remarks
from .._headings import messages
from .._sections import SECTIONS
from . import faults, formats, reports
from .places import Places
from .targets import Refused, Target, targets_of
from .terminal import RED, YELLOW, Terminal, shown


class Problem(NamedTuple):
    """A finding or a remark: its code, as V5 or R18, what is said of it with its section, and of which bytes."""

    code: str
    words: str
    where: str
    place: int
    length: int

    @property
    def is_finding(self) -> bool:
        """Whether it breaks a rule of chapter 9."""
        return self.code.startswith("V")

    @property
    def line(self) -> str:
        """All of it but the target."""
        return f"byte {self.place}, {self.where}: {self.code} {self.words}"


class Checked(NamedTuple):
    """What was found of a target, or why nothing could be."""

    name: str
    target: Target | None
    problems: tuple[Problem, ...] = ()
    fault: str = ""

    @property
    def findings(self) -> list[Problem]:
        """What breaks a rule."""
        return [it for it in self.problems if it.is_finding]


def problems_of(data: bytes, speed: str | None) -> Iterator[Problem]:
    """In the order of the bytes, findings before remarks. Raises what `check` does."""
    found, remarked = check(data), remarks(data, speed)
    if not found and not remarked:
        return
    places = Places(data, speed, brief=True)
    for it, words in sorted(messages(places.headings, found, remarked), key=lambda row: row[0].place):
        code, section = (f"V{it.rule}", f" ({SECTIONS[it.rule]})") if isinstance(it, Finding) else (f"R{it.number}", "")
        yield Problem(code, words + section, places.name(it.place), it.place, places.length(it.place))


def _checked(target: Target | Refused, speed: str | None) -> Checked:
    if isinstance(target, Refused):
        return Checked(target.name, None, fault=str(target))
    try:
        return Checked(target.name, target, tuple(problems_of(target.data, speed or target.speed)))
    except Fault as fault:
        return Checked(target.name, target, fault=f"{target.name}: {faults.why(target.data, fault)}")


def _in_words(out: Terminal, all_checked: Iterator[Checked]) -> Iterator[Checked]:
    """A line for each problem, and one for a target without findings."""
    for it in all_checked:
        for problem in it.problems:
            out.line(f"{shown(it.name)}: {out.coloured(problem.line, RED if problem.is_finding else YELLOW)}")
        if not it.fault and not it.findings:
            out.line(f"{shown(it.name)}: no findings")
        yield it


def _form(words: argparse.Namespace) -> str:
    """The form that was asked for, else that of the CI whose job this is."""
    if words.format:
        return words.format
    if os.environ.get("GITHUB_ACTIONS") == "true":
        return "github"
    return "gitlab" if os.environ.get("GITLAB_CI") == "true" else "words"


def checked(out: Terminal, words: argparse.Namespace) -> int:
    """`check`."""
    form = _form(words)
    found = (_checked(it, words.speed) for it in targets_of(words.targets, words.sysfs))
    if form == "words":
        found = _in_words(out, found)
    whole = []
    for it in found:
        whole.append(it)
        if it.fault:
            out.error(it.fault)
    if form != "words":
        out.text({**formats.FORMS, **reports.FORMS}[form](whole, words))
    counted = {"findings": lambda it: it.findings, "remarks": lambda it: it.problems, "never": lambda it: ()}[words.fail]
    return int(any(counted(it) for it in whole))
