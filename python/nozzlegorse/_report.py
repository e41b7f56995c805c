"""What a bench found: the differences of an end under test, by request, those of the fewest losses first."""
from __future__ import annotations

from dataclasses import dataclass, field
from xml.etree import ElementTree

from ._talk import Request
from .ends import Reply, Transaction

# How many lines are shown up to a difference, with losses and without.
LINES, LINES_WITHOUT = 14, 6
HEAD = f"{'':4}  {'in work':18} {'sent':28} f  {'under test':30} due"


@dataclass
class Line:
    """A bus reset, or a transaction: what was in work, what was sent, its fate, and the answers."""

    work: str
    sent: Transaction | None
    fate: str = "."
    came: Reply | None = None
    due: Reply | Transaction | str | None = None

    def row(self, number: int) -> str:
        """The line of a report."""
        came, due = ("" if it is None else str(it) for it in (self.came, self.due))
        sent, fate = (str(self.sent), self.fate) if self.sent else ("reset", "")
        return f"{number:4}  {self.work:18.18} {sent:28} {fate:1}  {came:30} {'' if came == due else due}".rstrip()


@dataclass
class Difference:
    """Why an end differs in the transfer of a request, in this state of the device: the fewest losses under which it does, the run and
    what led there; and in how many runs."""

    state: str
    request: Request
    why: str
    fates: dict[int, str]
    run: int
    first_line: int
    lines: list[Line] = field(repr=False)
    count: int = 1

    @property
    def where(self) -> str:
        """The state and the request."""
        return f"{self.state}: {self.request}"

    def __str__(self) -> str:
        losses = ", ".join(f"{letter} at {place}" for place, letter in self.fates.items()) or "none"
        rows = [line.row(number) for number, line in enumerate(self.lines, self.first_line)]
        return "\n".join([f"{self.where}: {self.why}", f"in {self.count} run{'s' * (self.count > 1)}, first in run {self.run}, losses: {losses}", HEAD, *rows])


@dataclass
class Report:
    """What all runs found: how many there were, each difference, what the standard leaves open and the device did, and what no run
    could try."""

    end: str
    runs: int = 0
    transactions: int = 0
    differences: list[Difference] = field(default_factory=list)
    undefined: dict[str, str] = field(default_factory=dict)
    unmet: list[str] = field(default_factory=list)
    asked: dict[str, None] = field(default_factory=dict, repr=False)

    @property
    def passed(self) -> bool:
        """Whether nothing differs."""
        return not self.differences

    def note(self, state: str, request: Request, why: str, fates: dict[int, str], lines: list[Line]) -> None:
        """A difference in this run, which may have been there in an earlier one."""
        for it in self.differences:
            if (it.state, it.request, it.why) == (state, request, why):
                it.count += 1
                return
        first = max(0, len(lines) - (LINES if fates else LINES_WITHOUT))
        self.differences.append(Difference(state, request, why, fates, self.runs, first, lines[first:]))

    def __str__(self) -> str:
        of = f"in {self.runs} runs of {self.transactions} transactions"
        unmet = [f"not tried: {it}" for it in self.unmet]
        undefined = ["undefined, so that any answer is right:"] * bool(self.undefined) + [f"  {it}: {came}" for it, came in self.undefined.items()]
        if self.passed:
            return "\n".join([f"{self.end}: as the proved end {of}", *undefined, *unmet])
        count = f"{len(self.differences)} difference{'s' * (len(self.differences) > 1)}"
        return "\n".join([f"{self.end}: {count} {of}", *(f"\n{it}" for it in self.differences), *([""] if undefined + unmet else []), *undefined, *unmet])

    def junit(self) -> str:
        """The report as JUnit has it: a case for each request, which fails where it differs and is skipped where any answer is right."""
        cases = {name: [] for name in self.asked} | {it.where: [] for it in self.differences}
        for it in self.differences:
            cases[it.where].append(it)
        suite = ElementTree.Element("testsuite", name=f"nozzlegorse.bench {self.end}", tests=str(len(cases) + len(self.undefined)),
                                    failures=str(sum(map(bool, cases.values()))), skipped=str(len(self.undefined)), errors="0")
        for name, found in cases.items():
            case = ElementTree.SubElement(suite, "testcase", classname=f"nozzlegorse.bench.{self.end}", name=name)
            if found:
                ElementTree.SubElement(case, "failure", message=found[0].why).text = "\n\n".join(map(str, found))
        for name, came in self.undefined.items():
            case = ElementTree.SubElement(suite, "testcase", classname=f"nozzlegorse.bench.{self.end}", name=name)
            ElementTree.SubElement(case, "skipped", message=came)
        ElementTree.SubElement(suite, "system-out").text = str(self)
        return ElementTree.tostring(suite, encoding="unicode", xml_declaration=True) + "\n"
