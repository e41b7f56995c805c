"""A module of LLVM that the kit made of usb_c for x86-64, lowered to a processor of 32 bits.

Integers stay as wide as they are: a `usize` has 64 bits, as was proved. A pointer in a register has 32. A place in memory for
one keeps its eight bytes, the pointer and a word of 0 over it, so that each offset stays. What isn't known here is refused. What
was rewritten is counted in both texts, by rules of their own in counted.py."""

import re
from typing import NamedTuple

import counted


class Refused(Exception):
    """A form that no rule here knows."""


class Machine(NamedTuple):
    """What LLVM calls a processor, and how it lays out data there. Both are LLVM's own words."""

    triple: str
    layout: str


ARM = "e-m:e-p:32:32-Fi8-i64:64-v128:64:128-a:0:32-n32-S64"
MACHINES = {
    "thumbv7em": Machine("thumbv7em-unknown-none-eabi", ARM),
    "thumbv7emhf": Machine("thumbv7em-unknown-none-eabihf", ARM),
    "thumbv6m": Machine("thumbv6m-unknown-none-eabi", ARM),
    "riscv32imac": Machine("riscv32-unknown-none-elf", "e-m:e-p:32:32-i64:64-n32-S128"),
    "i386": Machine("i386-unknown-none-elf", "e-m:e-p:32:32-p270:32:32-p271:32:32-p272:64:64-i128:128-f64:32:64-f80:32-n8:16:32-S128"),
    "wasm32": Machine("wasm32-unknown-unknown", "e-m:e-p:32:32-p10:8:8-p20:8:8-i64:64-i128:128-n32:64-S128"),
}
# An index moves a 32-bit pointer by less than this, so no object may be as long.
LONGEST = 1 << 31
WIDTHS = {"i1": 1, "i8": 1, "i16": 2, "i32": 4, "i64": 8, "i128": 16, "ptr": 8}
NAME = r'%(?:"[^"]*"|[\w.$-]+)'
VALUE = r'(?:[%@](?:"[^"]*"|[\w.$-]+)|null|-?\d+|getelementptr [^()]*\((?:[^()]|\([^()]*\))*\))'
# A parameter of an export, and what may follow the last one.
ATTRIBUTE = r"(?:noundef|zeroext|signext|noalias|nonnull|readonly|writeonly|nocapture|captures\(none\)|align \d+|dereferenceable\(\d+\)|sret\(\[24 x i8\]\))"
PARAMETERS = re.compile(rf"(?:(?:ptr|i\d+)(?: {ATTRIBUTE})* %[\w.]+(?:, )?)*\)(?: (?:local_)?unnamed_addr)?(?: #\d+)? ")
# Words of a function whose meaning has to do with a layout, or with an environment that isn't there.
REFUSED = re.compile(r"\b(?:byval|byref|inalloca|preallocated|inreg|nest|swift\w+|personality|prologue|prefix|section|comdat|gc)\b")
SIZES = {"": "", "s": "optsize ", "z": "minsize optsize "}

# Instructions over numbers alone, which mean the same on every processor.
OVER_NUMBERS = set("""add sub mul udiv urem sdiv srem shl lshr ashr and or xor icmp zext sext trunc bitcast freeze extractelement
insertelement shufflevector switch br unreachable""".split())
# Instructions that may name a pointer and take no place in memory: a pointer in a register has the width of the processor.
OVER_POINTERS = set("extractvalue insertvalue ret phi select".split())
# What a module may leave to others: memory, and functions of LLVM for bytes and bits. The last is the start of an unproved module.
DECLARED = re.compile(r"rattle_(?:re|de)?alloc|llvm\.(?:mem(?:set|move|cpy)|trap|assume|ct(?:pop|tz|lz)|bswap|[us](?:min|max|(?:add|sub|mul)\.with\.overflow)|lifetime\.\w+)[\w.]*|__sysv_signal")
# Where an export takes a slice: a place gets a pointer that isn't null, and behind it the length.
SLICE = re.compile(
    rf"""  ({NAME}) = icmp eq ptr (%a\d+), null
  ({NAME}) = zext i1 \1 to i64
  ({NAME}) = mul i64 \3, 4096
  ({NAME}) = getelementptr i8, ptr \2, i64 \4
  store ptr \5, ptr ({NAME}), align 8
  ({NAME}) = getelementptr i8, ptr \6, i64 8
  store i64 (%a\d+), ptr \7, align 8
"""
)
# Attributes that say something of x86-64, or ask for what isn't there elsewhere.
OF_X86 = r'"(?:target-cpu|target-features|tune-cpu|probe-stack|stack-probe-size|frame-pointer)"="[^"]*"|\b(?:sanitize_address|uwtable(?:\(\w+\))?)\b'
# What the sources say is inlined, for speed. In the smallest code none of it is. In small code what writes and reads texts isn't, by which
# that is half as large again, nor is a search for a piece; a device and a host keep it, without which they take half as many instructions again.
INLINED = r"\b(?:alwaysinline|inlinehint)\b"
OF_TEXTS = re.compile(r'define internal [^@]*@"(?:(?:usb_(?:explain|hex|listing|names|remarks|text)|itoa|memchr)::|usb_device::piece::find_inlined").* (#\d+) \{\n')
# Nor is what decides about a request, and what a device does in several calls: each is there once then, with a small frame.
OF_DEVICES = re.compile(
    r'define internal [^@]*@"(?:usb_device::(?:endpoint_zero::EndpointZero::(?:begin_data|decision|packet|stall|wait)|image::Image::sets'
    r"|request::Request::(?:change_feature|[gs]et_\w+|shown_attributes)|sets::Set(?:ting)?sIterator::next|string_table::number_at)|usb_fields::bytes::after"
    r'|core::slice::edits::copy_over::<i8,[^"]*)"\(.* (#\d+) \{\n'
)
# What is smaller where it is called than a call of it.
OF_CALLS = re.compile(
    r'define internal [^@]*@"(?:usb_device::(?:endpoint_zero::EndpointZero::(?:begin_other|found|is_left|sends_status)'
    r')|usb_c::transaction::(?:sent|tell)|usb_fields::setup::Setup::(?:class|direction|from_bytes|recipient))"\(.* (#\d+) \{\n'
)
# What is smaller in some of the places where it is called.
OF_FEW = re.compile(r'define internal [^@]*@"usb_device::(?:beside::is_open|sets::Settings::has_alternate)"\(.* (#\d+) \{\n')

# On ARM what a device runs shares no code with what others run: a device alone would have to keep that, too.
OF_DEVICES_ALONE = re.compile(r'define [^@]*@(?:"usb_device::|nzg_(?:device|transaction))')

# How many functions each of these lists names in a module with a device's calls: one that lost its name is told by it.
NAMED = {"OF_DEVICES": (OF_DEVICES, 20), "OF_CALLS": (OF_CALLS, 10), "OF_FEW": (OF_FEW, 2)}


def misnamed(text):
    """The first of the lists that doesn't name as many functions of a module as it is to, or nothing."""
    heads = [line for line in text.splitlines(keepends=True) if line.startswith("define internal ")]
    for name, (forms, wanted) in NAMED.items():
        if (found := sum(bool(forms.fullmatch(it)) for it in heads)) != wanted:
            return f"{name} names {found} functions in place of {wanted}"
    return None


# Two kinds of a function's attributes more: those without what is inlined, and those that don't say either.
APART, JOINED = 7, 8

# The functions for memory. What they get and give on x86-64 is a pair of words; nzg_lowered_alloc and nzg_lowered_realloc are C, in
# lowered_memory.c, and say no by a null pointer.
MEMORY = """
declare ptr @nzg_lowered_alloc(i64, i64)
declare ptr @nzg_lowered_realloc(ptr, i64, i64, i64)
declare void @rattle_dealloc(ptr)
define internal { i64, i64 } @lowered.given(ptr %at) nounwind {
  %refused = icmp eq ptr %at, null
  br i1 %refused, label %no, label %yes
yes:
  %address = ptrtoint ptr %at to i64
  %given = insertvalue { i64, i64 } { i64 1, i64 0 }, i64 %address, 1
  ret { i64, i64 } %given
no:
  ret { i64, i64 } { i64 0, i64 16 }
}
define internal { i64, i64 } @lowered.alloc(i64 %length, i64 %align) nounwind {
  %at = call ptr @nzg_lowered_alloc(i64 %length, i64 %align)
  %given = call { i64, i64 } @lowered.given(ptr %at)
  ret { i64, i64 } %given
}
define internal { i64, i64 } @lowered.realloc(ptr %old, i64 %kept, i64 %length, i64 %align) nounwind {
  %at = call ptr @nzg_lowered_realloc(ptr %old, i64 %kept, i64 %length, i64 %align)
  %given = call { i64, i64 } @lowered.given(ptr %at)
  ret { i64, i64 } %given
}
"""
# Of a guarded module: a trap where a word over a pointer isn't 0, a length has more than 32 bits, or an index leaves 31.
GUARDS = """
define internal void @lowered.word(i64 %it) nounwind {
  %upper = lshr i64 %it, 32
  %bad = icmp ne i64 %upper, 0
  br i1 %bad, label %no, label %yes
no:
  call void @llvm.trap()
  unreachable
yes:
  ret void
}
define internal void @lowered.index(i64 %it) nounwind {
  %moved = add i64 %it, 2147483648
  %bad = icmp ugt i64 %moved, 4294967295
  br i1 %bad, label %no, label %yes
no:
  call void @llvm.trap()
  unreachable
yes:
  ret void
}
"""


def refuse(why, line):
    raise Refused(f"{why}: {line.strip()[:200]}")


def fields(kind):
    """The fields of a type { .. }, each with its place and width on x86-64, which they keep."""
    place, found = 0, []
    for field in kind.strip("{ }").split(", "):
        if field not in WIDTHS:
            refuse("a field of this type isn't known", kind)
        width = WIDTHS[field]
        place = -(-place // width) * width
        found.append((field, place, width))
        place += width
    return found


def parts(text):
    """A text cut at its commas, but for those inside of brackets and strings."""
    depth, quoted, begun, found = 0, False, 0, []
    for at, letter in enumerate(text):
        if letter == '"':
            quoted = not quoted
        elif quoted:
            continue
        elif letter in "([{<":
            depth += 1
        elif letter in ")]}>":
            depth -= 1
        elif letter == "," and not depth:
            found.append(text[begun:at].strip())
            begun = at + 1
    return [*found, text[begun:].strip()]


def constant(line):
    """A constant: behind each pointer in it is a word of 0."""
    if not re.search(r"\bptr\b", re.sub(r'c"[^"]*"', "", line)):
        if not re.match(r"@\S+ = (?:private |internal )?(?:unnamed_addr )?constant (?:\[\d+ x i8\]|<\{ (?:\[\d+ x i8\](?:, )?)+ \}>) ", line):
            refuse("a constant of this form isn't known", line)
        return line
    cut = re.fullmatch(r"(@\S+ = (?:private |internal )?(?:unnamed_addr )?constant )<\{ (.*) \}> <\{ (.*) \}>(, align \d+)\n", line)
    if not cut or re.search(r"getelementptr (?!(?:inbounds )?(?:nuw )?\(i8, )", line):
        refuse("a constant of this form isn't known", line)
    kinds, values = [], []
    for kind, value in zip(parts(cut[2]), parts(cut[3]), strict=True):
        if kind != "ptr" and not re.fullmatch(r"\[\d+ x i8\]", kind):
            refuse("a field of this type isn't known", line)
        kinds += [kind, "i32"] if kind == "ptr" else [kind]
        values += [value, "i32 0"] if kind == "ptr" else [value]
    return f"{cut[1]}<{{ {', '.join(kinds)} }}> <{{ {', '.join(values)} }}>{cut[4]}\n"


def marked(found):
    """The lines of a slice as one, for which there is a rule, but for the exports that are left as they are."""
    head = found.string.rfind("define ", 0, found.start())
    return found[0] if counted.AS_IT_IS.match(found.string, head) else f"  slice {' '.join(found.groups())}\n"


def numbered(number, kind):
    """The number of a kind of attributes, which no other has."""
    return f"#{kind}{number[1:]:0>4}"


RULES = {}
OPCODE = re.compile(rf"(?:{NAME} = )?(?:tail )?([a-z]+)")


def rule(opcode, pattern):
    """A rule for the instructions of a form: its method gives the lines that take an instruction's place. Of those of an opcode the
    first that fits holds."""

    def added(method):
        RULES.setdefault(opcode, []).append((re.compile(pattern), method))
        return method

    return added


class Lowering:
    """One module for one processor. With `guard` what the lowering takes for granted is looked at as the code runs; `size` says
    that the functions are to be small, which -Os alone doesn't say of a module of LLVM."""

    def __init__(self, machine, guard=False, size=""):
        self.machine, self.guard, self.size = MACHINES[machine], guard, SIZES[size]
        self.is_small_arm = machine.startswith("thumb") and self.size == SIZES["s"]
        self.names, self.gives_its_place, self.own = 0, False, set()

    def fresh(self):
        self.names += 1
        return f"%lowered.{self.names}"

    def moved(self, pointer, place):
        """The pointer to a place after another, with the lines that make it."""
        if place == 0:
            return pointer, []
        name = self.fresh()
        return name, [f"{name} = getelementptr i8, ptr {pointer}, i32 {place}"]

    def put(self, kind, value, pointer, align):
        """A value goes into its place. Over a pointer goes a word of 0: the place is read as 64 bits too, and is copied whole."""
        lines = [f"store {kind} {value}, ptr {pointer}, align {align}"]
        if kind == "ptr":
            upper, more = self.moved(pointer, 4)
            lines += [*more, f"store i32 0, ptr {upper}, align 4"]
        return lines

    def watched(self, what, value):
        return [f"call void @lowered.{what}(i64 {value})"] if self.guard and value.startswith("%") else []

    def watched_place(self, pointer):
        """The guard reads a place as a number. LLVM knows that the word over a pointer is 0, so the read is volatile."""
        if not self.guard:
            return []
        word = self.fresh()
        return [f"{word} = load volatile i64, ptr {pointer}, align 4", *self.watched("word", word)]

    # --- places in memory ------------------------------------------------------------------------------------------------

    @rule("alloca", rf"({NAME}) = alloca (\w+|\[\d+ x i8\]|<\d+ x i\d+>), (align \d+)")
    def place(self, line, name, kind, align):
        """A place for a pointer has eight bytes. Others hold numbers, or bytes in which x86-64 has counted the places."""
        if kind != "ptr" and kind not in WIDTHS and kind[0] not in "[<":
            refuse("a place of this type isn't known", line)
        return [f"{name} = alloca {'i64' if kind == 'ptr' else kind}, {align}"]

    @rule("load", rf"({NAME}) = load ptr, ptr ({VALUE}), (align \d+)((?:, !\w+ !\d+)*)")
    def pointer_read(self, line, name, pointer, align, more):
        """The lower half of a place."""
        return [*self.watched_place(pointer), f"{name} = load ptr, ptr {pointer}, {align}{more}"]

    @rule("store", rf"store ptr ({VALUE}), ptr ({VALUE}), align (\d+)")
    def pointer_written(self, line, value, pointer, align):
        return self.put("ptr", value, pointer, int(align))

    @rule("load", rf"({NAME}) = load (\{{ [^{{}}]* \}}), ptr ({VALUE}), align (\d+)(?:, !noundef !\d+)?")
    def fields_read(self, line, name, kind, pointer, align):
        """Field by field, each where x86-64 has it: read whole it would have a layout of this processor."""
        lines, whole, known = [], "poison", fields(kind)
        for number, (field, place, width) in enumerate(known):
            part, where = self.fresh(), self.moved(pointer, place)
            more = name if number == len(known) - 1 else self.fresh()
            lines += [*where[1], *(self.watched_place(where[0]) if field == "ptr" else ())]
            lines.append(f"{part} = load {field}, ptr {where[0]}, align {min(int(align), width)}")
            lines.append(f"{more} = insertvalue {kind} {whole}, {field} {part}, {number}")
            whole = more
        return lines

    @rule("store", rf"store (\{{ [^{{}}]* \}}) ({VALUE}), ptr ({VALUE}), align (\d+)")
    def fields_written(self, line, kind, value, pointer, align):
        """As they are read."""
        lines = []
        for number, (field, place, width) in enumerate(fields(kind)):
            part, where = self.fresh(), self.moved(pointer, place)
            lines += [f"{part} = extractvalue {kind} {value}, {number}", *where[1]]
            lines += self.put(field, part, where[0], min(int(align), width))
        return lines

    @rule("load", rf"{NAME} = load (?:i\d+|<\d+ x i\d+>), ptr {VALUE}, align \d+(?:, !\w+ !\d+)*")
    @rule("store", rf"store (?:i\d+|<\d+ x i\d+>) [^{{}}]*, ptr {VALUE}, align \d+")
    def number_moved(self, line):
        """A number has its width everywhere."""
        return [line]

    # --- addresses -------------------------------------------------------------------------------------------------------

    @rule("ptrtoaddr", rf"({NAME}) = ptrtoaddr ptr ({VALUE}) to i64")
    def address_read(self, line, name, pointer):
        """An address is below 2^32 and no signed number: differences of addresses then are what they are with 64 bits."""
        part = self.fresh()
        return [f"{part} = ptrtoaddr ptr {pointer} to i32", f"{name} = zext i32 {part} to i64"]

    @rule("getelementptr", rf"{NAME} = getelementptr (?:inbounds )?(?:nuw )?i8, ptr {VALUE}, i64 ({VALUE})")
    def index(self, line, by):
        """LLVM cuts an index to the width of a pointer. No object has LONGEST bytes, so that nothing is lost."""
        if not by.startswith("%") and not 0 <= int(by) < LONGEST:
            refuse("an index of this size isn't known", line)
        return [*self.watched("index", by), line]

    @rule("icmp", rf"{NAME} = icmp (?:eq|ne) ptr {VALUE}, null")
    def compared_with_null(self, line):
        return [line]

    @rule("slice", rf"slice ({NAME}) (%a\d+) {NAME} {NAME} ({NAME}) ({NAME}) ({NAME}) (%a\d+)")
    def slice_taken(self, line, is_null, pointer, held, place, behind, length):
        """Where an export takes a slice. Null goes to 1 in place of 4096, in fewer bytes: neither is read."""
        by = self.fresh()
        return [
            f"{is_null} = icmp eq ptr {pointer}, null",
            f"{by} = zext i1 {is_null} to i32",
            f"{held} = getelementptr i8, ptr {pointer}, i32 {by}",
            *self.put("ptr", held, place, 8),
            f"{behind} = getelementptr i8, ptr {place}, i64 8",
            f"store i64 {length}, ptr {behind}, align 8",
        ]

    # --- calls -----------------------------------------------------------------------------------------------------------

    @rule("call", rf"(?:tail )?call void @llvm\.mem(?:set|move|cpy)\.[\w.]+\(ptr {VALUE}, (?:ptr {VALUE}|i8 -?\d+|i8 {NAME}), i64 ({VALUE}), i1 false\)")
    def bytes_moved(self, line, length):
        """LLVM cuts a length as it does an index."""
        return [*self.watched("word", length), line]

    @rule("call", r"((?:%\S+ = )?(?:tail )?call .*)@rattle_(re)?alloc(\(.*)")
    def memory_asked_for(self, line, head, again, rest):
        return [f"{head}@lowered.{again or ''}alloc{rest}"]

    @rule("call", rf"(?:{NAME} = )?(?:tail )?call [^@%(]*@.*")
    def called(self, line):
        """A call by a name: both ends have the same module, or the header. One by a pointer is refused."""
        if REFUSED.search(re.sub(r'@"[^"]*"', "", line)):
            refuse("a call of this form isn't known", line)
        return [line]

    def instruction(self, line):
        text = line.strip()
        opcode = OPCODE.match(text)[1]
        for pattern, method in RULES.get(opcode, ()):
            if found := pattern.fullmatch(text):
                return [f"  {it}\n" for it in method(self, text, *found.groups())]
        if opcode not in OVER_POINTERS and (opcode not in OVER_NUMBERS or re.search(r"\bptr\b", text)) or re.search(r"x ptr\b", text):
            refuse("this instruction isn't known", line)
        return [line]

    # --- functions -------------------------------------------------------------------------------------------------------

    def definition(self, line):
        """The first line of a function. On ARM nothing is taken out of what a device runs."""
        head = self.head(line)
        return f'{head[:-2]}"nooutline" {{\n' if self.is_small_arm and OF_DEVICES_ALONE.match(head) else head

    def head(self, line):
        """The same, before that. An export is called as C calls it on this processor. On x86-64 the place of a struct comes
        back, and the bits over a byte that comes back are anybody's: elsewhere neither."""
        self.gives_its_place = False
        if REFUSED.search(re.sub(r'@"[^"]*"', "", line)):
            refuse("a function of this form isn't known", line)
        if line.startswith("define internal "):
            return self.inlined(line) if self.size == SIZES["s"] else line
        head = re.fullmatch(r"define (?:noundef )?(zeroext )?(void|ptr|i1|i8|i16|i32|i64) @(\w+)\(([^{}]*)\{\n", line)
        if not head or not PARAMETERS.fullmatch(head[4]):
            refuse("an export of this type isn't known", line)
        is_widened, kind, name, rest = head.groups()
        if kind == "ptr":
            self.gives_its_place = True
            return f"define void @{name}({rest.replace('ptr ', 'ptr sret([24 x i8]) ', 1)}{{\n"
        if kind in ("i1", "i8", "i16") and not is_widened:
            return line.replace(f"{kind} @", f"zeroext {kind} @", 1)
        return line

    def inlined(self, line):
        """The first line of a function of small code, which is inlined or not as makes it smaller."""
        for forms, word, kind in ((OF_TEXTS, "", APART), (OF_DEVICES, "noinline ", APART), (OF_CALLS, "alwaysinline ", JOINED), (OF_FEW, "inlinehint ", JOINED)):
            if found := forms.fullmatch(line):
                return f"{line[: found.start(1)]}{word}{numbered(found[1], kind)} {{\n"
        return line

    def ended(self, line):
        """Where an export gave back its place, which is its first parameter, it gives nothing."""
        if line != "  ret ptr %a0\n":
            refuse("what an export gives back isn't known", line)
        return "  ret void\n"

    def attributes(self, line):
        """Of the module's own functions: none of x86-64, and what is to be small."""
        if line.split()[1] not in self.own:
            return line
        kept = re.sub(f"{OF_X86}|{INLINED}" if self.size == SIZES["z"] else OF_X86, "", line)
        if '"' in kept:
            refuse("an attribute isn't known", line)
        unwinding = "" if "nounwind" in kept else "nounwind "
        made = kept.replace("{ ", f"{{ {unwinding}{self.size}", 1)
        number = line.split()[1]
        if self.size != SIZES["s"]:
            return made
        plain = re.sub(INLINED, "", made)
        return made + plain.replace(number, numbered(number, APART), 1) + re.sub(r"\bnoinline\b", "", plain).replace(number, numbered(number, JOINED), 1)

    def outside(self, line):
        """A line outside of functions."""
        if line.startswith("target datalayout"):
            return f'target datalayout = "{self.machine.layout}"\n'
        if line.startswith("target triple"):
            return f'target triple = "{self.machine.triple}"\n'
        if line.startswith("attributes "):
            return self.attributes(line)
        if line.startswith("@"):
            return constant(line)
        if line.startswith("declare "):
            name = re.search(r"@([\w.]+)\(", line)
            if not name or not DECLARED.fullmatch(name[1]):
                refuse("this function of others isn't known", line)
            return "" if name[1].startswith("rattle_") else line
        if not re.match(r"[;!]|source_filename|\n", line):
            refuse("this isn't known", line)
        return line

    def module(self, text):
        """The whole module. What was rewritten is there as often as it was to be."""
        lines = SLICE.sub(marked, text).splitlines(keepends=True)
        self.own = {found[1] for line in lines if line.startswith("define ") and (found := re.search(r" (#\d+) \{$", line))}
        out, inside = [], False
        for line in lines:
            if line.startswith("define "):
                inside = True
                out.append(self.definition(line))
            elif not inside:
                out.append(self.outside(line))
            elif line == "}\n":
                inside = False
                out.append(line)
            elif self.gives_its_place and line.startswith("  ret "):
                out.append(self.ended(line))
            elif line.startswith("  ") and line.strip() != "]" and not line.startswith("    "):
                out += self.instruction(line)
            else:
                out.append(line)
        made = "".join(out)
        counted.compare(text, made, self.guard)
        return made + MEMORY + (GUARDS if self.guard else "")
