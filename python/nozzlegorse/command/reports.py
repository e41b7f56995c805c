"""What is checked as a report of JUnit and of SARIF."""
from __future__ import annotations

import argparse
import json
import re
import urllib.parse
from xml.etree import ElementTree

from .. import __version__, message
from .._sections import SECTIONS
from .terminal import NAME

_RULES = tuple(f"V{number}" for number in SECTIONS)
# What XML 1.0 has no character for.
_UNWRITABLE = re.compile("[^\t\n\r\x20-\ud7ff\ue000-\ufffd\U00010000-\U0010ffff]")


def _text(words: str) -> str:
    return _UNWRITABLE.sub(lambda it: f"\\{ord(it[0]):04x}", words)


def _cases(it, fail: str) -> list[tuple[str, str, list]]:
    """The cases of a target: each rule, each remark that there is, or the fault, with the element and the lines of what fails it."""
    if it.fault:
        return [("descriptors", "error", [it.fault])]
    codes = dict.fromkeys((*_RULES, *sorted((problem.code for problem in it.problems if not problem.is_finding), key=lambda code: int(code[1:]))))
    fails = {"findings": "V", "remarks": "VR", "never": ""}[fail]
    return [(code, "failure" if code[0] in fails else "skipped", [problem.line for problem in it.problems if problem.code == code]) for code in codes]


def junit(found: list, words: argparse.Namespace) -> str:
    """As pytest writes it: a case for each rule of each target. What --fail doesn't name is skipped, with its words."""
    cases = [(it.name, *case) for it in found for case in _cases(it, words.fail)]
    counts = {f"{kind}{'s' * (kind != 'skipped')}": str(sum(bool(lines) for _, _, it, lines in cases if it == kind)) for kind in ("error", "failure", "skipped")}
    root = ElementTree.Element("testsuites", name=NAME)
    suite = ElementTree.SubElement(root, "testsuite", name=NAME, **counts, tests=str(len(cases)), time="0.000")
    for name, code, kind, lines in cases:
        case = ElementTree.SubElement(suite, "testcase", classname=_text(name), name=code, time="0.000")
        if lines:
            ElementTree.SubElement(case, kind, message=_text(lines[0])).text = _text("\n".join(lines))
    ElementTree.indent(root)
    return ElementTree.tostring(root, encoding="unicode", xml_declaration=False).join(('<?xml version="1.0" encoding="utf-8"?>\n', "\n"))


def _rules(codes: list[str]) -> list[dict]:
    """What SARIF says of each rule. A remark has no words but those of its results."""
    return [{"id": code} | ({"shortDescription": {"text": message(int(code[1:]))}} if code[0] == "V" else {}) for code in codes]


def _artifact(name: str) -> dict:
    """Where a target is, as a reference of RFC 3986. What begins as `c:` would be a scheme."""
    return {"uri": urllib.parse.quote(name.encode(errors="surrogateescape"), safe="/")}


def _result(name: str, problem, rules: list[str]) -> dict:
    region = {"byteOffset": problem.place, "byteLength": problem.length}
    location = {"physicalLocation": {"artifactLocation": _artifact(name), "region": region}, "logicalLocations": [{"fullyQualifiedName": problem.where}]}
    return {"ruleId": problem.code, "ruleIndex": rules.index(problem.code), "level": "error" if problem.is_finding else "warning",
            "message": {"text": problem.words}, "locations": [location]}


def _notification(it) -> dict:
    location = {"physicalLocation": {"artifactLocation": _artifact(it.name)}}
    return {"level": "error", "message": {"text": it.fault}, "locations": [location]}


def sarif(found: list, _words: argparse.Namespace) -> str:
    """As SARIF 2.1.0 has it. Bytes have no lines, so regions are of bytes."""
    remarks = sorted({problem.code for it in found for problem in it.problems if not problem.is_finding}, key=lambda code: int(code[1:]))
    rules = [*_RULES, *remarks]
    faults = [_notification(it) for it in found if it.fault]
    run = {
        "tool": {"driver": {"name": NAME, "version": __version__, "rules": _rules(rules)}},
        "invocations": [{"executionSuccessful": not faults, "toolExecutionNotifications": faults}],
        "results": [_result(it.name, problem, rules) for it in found for problem in it.problems],
    }
    return json.dumps({"$schema": "https://json.schemastore.org/sarif-2.1.0.json", "version": "2.1.0", "runs": [run]}, indent=2) + "\n"


FORMS = {"junit": junit, "sarif": sarif}
