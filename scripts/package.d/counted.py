"""What a lowering had to rewrite, counted in the module before, and what it wrote, counted in the module after: by patterns of their
own, which know nothing of its rules."""

import collections
import re

POINTERS = re.compile(r"\bptr\b")
READ = re.compile(r"= load (?:volatile )?(ptr|\{[^{}]*\}|\S+),? ")
# Where an export takes a slice, and the one whose slice stays as it is: of a walk the code for a Cortex-M0 is larger otherwise.
SLICE = re.compile(r" = icmp eq ptr %a\d+, null$")
AS_IT_IS = re.compile(r"define [^@]*@nzg_next\(")
WRITTEN = re.compile(r"^  store (ptr|\{[^{}]*\})")


class Miscounted(Exception):
    """A module has not as many of something as it was to have."""


def before(text):
    """What the module for x86-64 has."""
    found, takes_slices = collections.Counter(), False
    for line in text.splitlines():
        if line.startswith("@"):
            kinds = re.search(r"<\{ (.*?) \}> <\{", line)
            found["pointers in constants"] += len(POINTERS.findall(kinds[1])) if kinds else 0
        elif line.startswith("define "):
            is_export = not line.startswith("define internal")
            found["functions"] += 1
            found["exports"] += is_export
            takes_slices = is_export and not AS_IT_IS.match(line)
        elif line.startswith("  "):
            found["slices"] += takes_slices and bool(SLICE.search(line))
            count_before(line, found)
    return found


def count_before(line, found):
    if "call " in line:
        found["calls"] += 1
        found["computed lengths"] += "@llvm.mem" in line and bool(re.search(r", i64 %\S+, i1", line))
        return
    for what, pattern in (("pointers read", READ), ("pointers written", WRITTEN)):
        if it := pattern.search(line):
            found[what] += len(POINTERS.findall(it[1]))
            found["fields read"] += it[1].count(",") + 1 if it[1][0] == "{" and pattern is READ else 0
            found["fields written"] += it[1].count(",") + 1 if it[1][0] == "{" and pattern is WRITTEN else 0
    found["places of pointers"] += " = alloca ptr," in line
    found["other places"] += " = alloca " in line and " = alloca ptr," not in line
    found["addresses"] += " = ptrtoaddr " in line
    found["computed indexes"] += " = getelementptr " in line and bool(re.search(r", i64 %\S+$", line))


def after(text):
    """What the lowered module has, each with what belongs to it."""
    found, lines = collections.Counter(), text.splitlines()
    for at, line in enumerate(lines):
        if line.startswith("@"):
            found["pointers in constants"] += len(re.findall(r"\bptr (?:@[\w.]+|null|getelementptr [^()]*\([^()]*\)), i32 0\b", line))
            kinds = re.search(r"<\{ (.*?) \}> <\{", line)
            found["pointers without a word"] += len(re.findall(r"\bptr\b(?!, i32\b)", kinds[1])) if kinds else 0
        elif line.startswith("define "):
            found["functions"] += 1
            found["exports"] += not line.startswith("define internal")
        elif line.startswith("  "):
            count_after(line, lines[at + 1 : at + 3], found)
    return found


def count_after(line, following, found):
    if "call " in line:
        is_guard = "@lowered.word(" in line or "@lowered.index(" in line
        found["guards" if is_guard else "calls"] += 1
        return
    found["pointers read"] += " = load ptr, " in line
    found["fields read"] += bool(re.search(r"= insertvalue .*%lowered\.\d+, \d+$", line))
    found["fields written"] += bool(re.search(r"^  %lowered\.\d+ = extractvalue ", line))
    found["structs read or written whole"] += bool(re.search(r"load \{|store \{", line))
    if it := re.match(r"  store ptr .*, ptr (\S+|getelementptr .*), align", line):
        upper = re.fullmatch(rf"  (%lowered\.\d+) = getelementptr i8, ptr {re.escape(it[1])}, i32 4", following[0])
        found["pointers written"] += bool(upper) and following[1] == f"  store i32 0, ptr {upper[1]}, align 4"
    found["places of four bytes"] += " = alloca ptr" in line
    found["places"] += " = alloca " in line
    if it := re.match(r"  (%lowered\.\d+) = zext i1 %r\d+ to i32$", line):
        found["slices"] += bool(re.fullmatch(rf"  %r\d+ = getelementptr i8, ptr %a\d+, i32 {re.escape(it[1])}", following[0]))
    if it := re.match(r"  (%lowered\.\d+) = ptrtoaddr ptr .* to i32$", line):
        found["addresses"] += following[0].endswith(f" = zext i32 {it[1]} to i64")


def compare(old, new, guard):
    """That each load, store, call, place, address and constant with a pointer came out as it was to."""
    was, came = before(old), after(new)
    was["places"] = was.pop("places of pointers", 0) + was.pop("other places", 0)
    # That a slice's pointer isn't null is no computed index any more.
    guards = was.pop("computed indexes", 0) - was["slices"] + was.pop("computed lengths", 0) + was["pointers read"]
    was["guards"] = guards if guard else 0
    for what in sorted({*was, *came}):
        if was[what] != came[what]:
            raise Miscounted(f"{what}: {came[what]} in place of {was[what]}")
