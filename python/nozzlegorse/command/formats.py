"""What is checked as lines of GitHub, as a report of GitLab, and as JSON."""
from __future__ import annotations

import argparse
import hashlib
import json

from .. import to_dict
from .terminal import shown


def _escaped(text: str, more: str = "") -> str:
    """As GitHub's commands have it: of a property colons and commas too."""
    for it in f"%\r\n{more}":
        text = text.replace(it, f"%{ord(it):02X}")
    return text


def github(found: list, _words: argparse.Namespace) -> str:
    """A line a problem, which GitHub shows at the file: https://docs.github.com/actions, *workflow commands*."""
    lines = []
    for it in found:
        of = f"file={_escaped(it.name, ':,')}"
        if it.fault:
            lines.append(f"::error {of}::{_escaped(shown(it.fault))}")
        for problem in it.problems:
            level = "error" if problem.is_finding else "warning"
            words = _escaped(shown(f"{it.name}: {problem.line}"))
            lines.append(f"::{level} {of},title={problem.code}::{words}")
    return "".join(f"{line}\n" for line in lines)


def _issue(name: str, code: str, words: str, severity: str, number: int) -> dict:
    """An issue of Code Quality. Its fingerprint stays the same as long as its words do."""
    fingerprint = hashlib.sha256(f"{name}\0{code}\0{words}\0{number}".encode(errors="backslashreplace")).hexdigest()
    return {"description": words, "check_name": code, "fingerprint": fingerprint, "severity": severity, "location": {"path": name, "lines": {"begin": 1}}}


def gitlab(found: list, _words: argparse.Namespace) -> str:
    """A report of Code Quality: https://docs.gitlab.com/ci/testing/code_quality, *report format*."""
    issues, seen = [], {}
    for it in found:
        rows = [("fault", it.fault, "blocker")] * bool(it.fault)
        rows += [(problem.code, problem.line, "major" if problem.is_finding else "minor") for problem in it.problems]
        for row in rows:
            seen[it.name, row] = number = seen.get((it.name, row), -1) + 1
            issues.append(_issue(it.name, *row, number))
    return f"{json.dumps(issues, indent=2)}\n"


def as_json(found: list, words: argparse.Namespace) -> str:
    """A list: of each target all that its descriptors say, as docs/schema.json has it, or why it is none."""
    rows = []
    for it in found:
        more = {"fault": it.fault} if it.fault else to_dict(it.target.data, words.speed or it.target.speed)
        rows.append({"target": it.name} | more)
    return f"{json.dumps(rows, indent=2)}\n"


FORMS = {"github": github, "gitlab": gitlab, "json": as_json}
