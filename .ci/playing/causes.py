"""Why shipped stacks differ behind the bench: the causes of .ci/stacks.d/causes, held against a stack's source and against what a run
found of it."""
import glob
import re
from dataclasses import dataclass, field

from .free import ADDRESS, CONFIGURED, DEFAULT, is_unspecified

# How the reports say why a transaction differs, and the words of the table.
REASONS = {"a SETUP is always": "not-taken", "a device answers": "address", "the toggle is": "toggle", "an empty packet": "not-empty", "the bytes are": "bytes", "the device has": "stalled",
           "STALL is due": "not-stalled", "IN brings data, NAK": "other-packet", "more than 16 NAKs": "busy", "it crashes": "crash", "it ends the program": "crash",
           "it fails": "fails", "another transaction": "other-transaction", "it gives": "gives", "it gave up": "gives-up", "another address": "other-address"}
STATES = {"enumeration": None, "Default": DEFAULT, "Address": ADDRESS, "Configured": CONFIGURED}


@dataclass
class Rule:
    """The requests that differ by a cause, in these states: how, and the sections that ask for something else."""

    line: int
    states: list
    request: re.Pattern
    hows: list
    sections: list

    def has(self, state, request):
        return state in self.states and bool(self.request.fullmatch(request))


@dataclass
class Cause:
    """What a stack does, the places in its source, and the rules of what differs by it."""

    what: str
    places: list = field(default_factory=list)
    rules: list = field(default_factory=list)


@dataclass
class Table:
    """The causes of a stack, and the package that its sources are of."""

    package: str
    version: str
    causes: list = field(default_factory=list)

    def rules(self):
        return [rule for cause in self.causes for rule in cause.rules]


def rule_of(number, line, sections):
    """A rule, as its line has it."""
    states, request, hows, asked = line.split(": ")
    unknown = (set(states.split()) - set(STATES)) | (set(hows.split("|")) - set(REASONS.values())) | (set(asked.split(", ")) - set(sections))
    if unknown:
        raise ValueError(f"line {number}: {' '.join(sorted(unknown))}")
    return Rule(number, states.split(), re.compile(request.replace(" ", "")), hows.split("|"), asked.split(", "))


def tables_of(path):
    """The tables of all stacks by their names."""
    tables, sections, table = {}, {}, None
    with open(path, encoding="utf-8") as it:
        lines = [line.strip() for line in it]
    for number, line in enumerate(lines, 1):
        if not line or line.startswith("#"):
            continue
        if heading := re.fullmatch(r"\[(\w+)\] (\S+) (\S+)", line):
            table = tables[heading[1]] = Table(heading[2], heading[3])
        elif line == "[USB 2.0]":
            table = None
        elif table is None:
            sections[line.partition(": ")[0]] = line.partition(": ")[2]
        elif line.startswith("cause: "):
            table.causes.append(Cause(line.removeprefix("cause: ")))
        elif line.startswith("at: "):
            table.causes[-1].places.append(line.removeprefix("at: "))
        else:
            table.causes[-1].rules.append(rule_of(number, line, sections))
    return tables


# --- in the source -------------------------------------------------------------------------------------------------------------


def function_of(lines, number):
    """The head of the function that a line is in: the last line before it that begins as one does."""
    return next((it for it in reversed(lines[:number]) if re.match(r"[A-Za-z_][^;]*\(", it) and not it.rstrip().endswith(";")), "")


def faults_of_places(cause, folder):
    """Each place of a cause that is not there."""
    if not cause.places:
        yield f"no place: {cause.what}"
    for place in cause.places:
        file, number, function, words = re.fullmatch(r"(\S+):(\d+) (\S+): (.*)", place).groups()
        found = glob.glob(f"{glob.escape(folder)}/**/{file}", recursive=True)
        if len(found) != 1:
            yield f"{len(found)} files {file}"
            continue
        with open(found[0], encoding="utf-8", errors="replace") as it:
            lines = it.read().split("\n")
        if int(number) > len(lines) or words not in lines[int(number) - 1]:
            yield f"not there: {place}"
        elif function != "-" and not re.search(rf"\b{function}\b", function_of(lines, int(number))):
            yield f"not in {function}: {place}"


# --- in what was found -----------------------------------------------------------------------------------------------------------


def found_in(report):
    """The differences of a report, where and how, in the words of the table."""
    reasons = re.findall(r"(?m)^\n(.+?): ((?:[a-zA-Z]+ ){2}.*)$", report)
    return {(where, next((word for begin, word in REASONS.items() if why.startswith(begin)), why)) for where, why in reasons}


def faults_of_causes(table, found):
    """Each difference that has no cause or two, and each rule that has no difference."""
    met = set()
    for where, how in sorted(found):
        rules = [it for it in table.rules() if it.has(*where.split(": ")) and how in it.hows]
        met |= {it.line for it in rules}
        if len(rules) != 1:
            yield f"{'causes of lines ' + ' and '.join(str(it.line) for it in rules) if rules else 'no cause'}: {where}: {how}"
    yield from (f"no difference by line {it.line}" for it in table.rules() if it.line not in met)


def faults_of_talk(table, found, asked):
    """Each request of a device's talk that a rule has, and that doesn't differ so."""
    for where in sorted(asked):
        hows = {how for place, how in found if place == where}
        yield from (f"not found: {where}: {'|'.join(it.hows)}" for it in table.rules() if it.has(*where.split(": ")) and not hows & set(it.hows))


def faults_of_unspecified(found, asked, undefined):
    """Each request that is not specified and told as if it were, or the other way round; of these none may differ."""
    differing = {where for where, _ in found}
    for where in sorted(asked | undefined | differing):
        state, request = where.split(": ")
        is_open = STATES[state] is not None and is_unspecified(STATES[state], bytes.fromhex(request[:16]))
        if is_open != (where in undefined) or (is_open and where in differing):
            yield f"{'not ' if is_open else ''}specified: {where}"
