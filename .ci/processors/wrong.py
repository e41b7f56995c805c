"""Wrong edits of the lowering, and what tells each: the counts of counted.py or a rule that refuses, the answers of the program, or
the guards. They are played on i386 with guards, whose program lies above 2^31, so that an address is a negative number there too. One is
known that nothing tells, and docs/trust.md names it."""

import shutil
import subprocess
import sys
import tempfile
from typing import NamedTuple

import targets
from processors import machines
from playing.built import CLANG, run


class Edit(NamedTuple):
    """What is wrong, the file, and pairs of what stands there and what is to stand there."""

    what: str
    file: str
    pairs: tuple


LOWERED, MEMORY = "lowered.py", "lowered_memory.c"
EDITS = [
    Edit("a place is written as four bytes", LOWERED, (('        if kind == "ptr":\n            upper', '        if kind == "none":\n            upper'),)),
    Edit("a constant has no word over a pointer", LOWERED, (('[kind, "i32"] if kind == "ptr" else [kind]', "[kind]"), ('[value, "i32 0"] if kind == "ptr" else [value]', "[value]"))),
    Edit("a place for a pointer has four bytes", LOWERED, (("'i64' if kind == 'ptr' else kind", "kind"),)),
    Edit("a struct is read whole", LOWERED, (('        lines, whole, known = [], "poison", fields(kind)', '        return [line]\n        lines, whole, known = [], "poison", fields(kind)'),)),
    Edit("fields lie where 32 bits have them", LOWERED, (('"ptr": 8}', '"ptr": 4}'),)),
    Edit("an address is a signed number", LOWERED, (("= zext i32 {part} to i64", "= sext i32 {part} to i64"),)),
    Edit("the address of a block is extended by its sign", LOWERED, (("  %address = ptrtoint ptr %at to i64\n", "  %half = ptrtoint ptr %at to i32\n  %address = sext i32 %half to i64\n"),)),
    Edit("refused memory counts as given", LOWERED, (("ret { i64, i64 } { i64 0, i64 16 }", "ret { i64, i64 } { i64 1, i64 16 }"),)),
    Edit("what is kept and what is wanted change places", LOWERED, (("ptr %old, i64 %kept, i64 %length, i64 %align)\n  %given", "ptr %old, i64 %length, i64 %kept, i64 %align)\n  %given"),)),
    Edit("a length for memory is cut to 32 bits", MEMORY, (("    if (length > LONGEST) return 0;\n    struct nzg_block block = rattle_alloc(length,", "    struct nzg_block block = rattle_alloc((uint32_t)length,"),)),
    Edit("an index is cut to 16 bits", LOWERED, (('return [*self.watched("index", by), line]', 'cut = self.fresh()\n        return [*self.watched("index", by), *([f"{cut} = and i64 {by}, 65535", line.replace(f"i64 {by}", f"i64 {cut}")] if by.startswith("%") else [line])]'),)),
]
# What nothing tells: a field of four bytes lies at a multiple of four, and no processor here asks for more.
UNTOLD = "a field is said to be aligned as its struct"
EDITS.append(Edit(UNTOLD, LOWERED, (("align {min(int(align), width)}", "align {align}"), ("part, where[0], min(int(align), width))", "part, where[0], align)"))))
LOWER = "import sys; sys.path[:0] = [sys.argv[1]]; import lowered; text = open(sys.argv[2]).read(); open(sys.argv[3], 'w').write(lowered.Lowering('i386', True, 's').module(text))"


def edited(edit, room):
    """A copy of the lowering with the edit."""
    folder = shutil.copytree(targets.HERE, f"{room}/edited")
    with open(f"{folder}/{edit.file}", encoding="utf-8") as it:
        text = it.read()
    for old, new in edit.pairs:
        if text.count(old) < 1:
            sys.exit(f"targets: {edit.what}: {edit.file} has no such text")
        text = text.replace(old, new, 1)
    with open(f"{folder}/{edit.file}", "w", encoding="utf-8") as it:
        it.write(text)
    return folder


def lowered_by(folder, module, room):
    """An object of the module by an edited lowering, and what its counts tell."""
    code, made = f"{room}/wrong.ll", f"{room}/wrong.o"
    ended = subprocess.run([sys.executable, "-B", "-c", LOWER, folder, module, code], capture_output=True, text=True, check=False)
    if ended.returncode:
        return None, f"the counts: {ended.stderr.strip().splitlines()[-1].partition(': ')[2][:120]}"
    run(CLANG, "--no-default-config", *targets.OPTIONS["i386"], *targets.SECTIONS, "-O0", "-Wno-override-module", "-c", "-x", "ir", code, "-o", made)
    return made, None


def told_by(edit, module, right, wanted, room, inputs):
    """What tells that the lowering is wrong, or nothing. Where the module isn't lowered otherwise, its right object is taken."""
    folder = edited(edit, room)
    made, told = (right, None) if edit.file == MEMORY else lowered_by(folder, module, room)
    if told:
        return told
    program = machines.program("i386", [made], room, between=f"{folder}/lowered_memory.c")
    output, status = machines.ran("i386", program, inputs, 600)
    lines = [it for it in output.decode(errors="replace").splitlines() if not it.startswith("%")]
    if status == -4:
        return f"a guard, after {len(lines):,} lines"
    if status:
        return f"the answers: it ended in {status} after {len(lines):,} lines"
    return "the answers" if lines != wanted else None


def play(room, right, wanted, inputs, said):
    """Plays each edit: what finds it."""
    found = {}
    for edit in EDITS:
        with tempfile.TemporaryDirectory(dir=room) as inside:
            found[edit.what] = told_by(edit, f"{room}/module.ll", right, wanted, inside, inputs)
        said(f"wrong: {edit.what}: found by {found[edit.what] or 'NOTHING'}")
    return found


def is_as_known(found):
    """Whether each edit was found, but for the one that nothing tells."""
    return all(bool(by) != (what == UNTOLD) for what, by in found.items())
