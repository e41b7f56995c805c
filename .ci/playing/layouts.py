"""Whether the source of usb_c, nozzlegorse.h, Rust and Python declare the same structs and calls: each field's name and type in
order, each result and parameter, and by two compilers each size and offset. A slice is a pointer and a length, a Global is
nothing, a reference to a struct a pointer to it."""

import ctypes
import glob
import re

WIDTHS = {"u8": "uint8_t", "u16": "uint16_t", "u32": "uint32_t", "u64": "uint64_t", "usize": "size_t", "bool": "bool"}
# The names in C of fields that the source calls otherwise.
NAMES = {"at": "held", "WalkedDescriptor.kind": "type", "Position.interface": "interface_", "Position.class": "class_",
         "NzgPacket.bytes": "data", "Position.at": "next"}
# The structs in C that the source calls otherwise.
STRUCTS = {"EndpointZero": "device", "WalkedDescriptor": "descriptor"}


# What the program in Rust begins with: `offset_of` of the standard library is younger than the oldest Rust that is served.
RUST = """#![allow(dead_code)]
mod sys;
use std::{mem::size_of, ptr::addr_of};
macro_rules! offset_of {
    ($name:ty, $field:ident) => {{
        let it = <$name>::default();
        addr_of!(it.$field) as usize - addr_of!(it) as usize
    }};
}
fn main() {
"""


def text_of(path):
    with open(path, encoding="utf-8") as it:
        return it.read()


def of_c(text):
    """What a text of C declares: the fields of structs, and the types of calls."""
    text = re.sub(r"/\*.*?\*/|^\s*#.*?$", "", text, flags=re.S | re.M)
    # What lengths and handles are where a pointer has 64 bits.
    text = text.replace("nzg_size", "size_t").replace("NZG_HELD", "void *held")
    found = {}
    for name, body in re.findall(r"struct (nzg_(?!block)\w+) \{(.*?)\};", text, re.S):
        found[f"struct {name}"] = []
        for kind, declared in re.findall(r"((?:struct )?\w+) ([^;]+);", body):
            found[f"struct {name}"] += [(field, f"{kind}{' *' * bool(star)}{count}") for star, field, count in re.findall(r"(\*?)(\w+)(\[\d+\])?", declared)]
    for result, name, parameters in re.findall(r"((?:struct )?\w+) (nzg_\w+)\(([^)]*)\);", text):
        types = [" ".join(re.findall(r"const|struct|\*|\b(?:nzg_|u?int\d|size_t|bool)\w*", it)) for it in parameters.split(",")]
        found[name] = [result, *types]
    return found


def struct(name):
    name = STRUCTS.get(name, name)
    return "struct nzg_" + re.sub(r"(?<!^)(?=[A-Z])", "_", re.sub(r"^(Nzg|nzg_)", "", name)).lower()


def type_of(kind):
    """The types in C of one of Rust or Rattle."""
    kind = kind.strip()
    if kind == "Global":
        return []
    if found := re.fullmatch(r"\[(\w+); (\d+)\]", kind):
        return [f"{WIDTHS[found[1]]}[{found[2]}]"]
    if kind in WIDTHS or kind == "*mut c_void":
        return [WIDTHS.get(kind, "void *")]
    if found := re.fullmatch(r"(?:&|\*)(mut |const )?(\[)?(\w+)\]?", kind):
        const = "" if found[1] == "mut " else "const "
        return [f"{const}{WIDTHS.get(found[3]) or struct(found[3])} *", *["size_t"] * bool(found[2])]
    return [struct(kind)]


def of_calls(text, head):
    """The types of the calls of Rust or Rattle that begin so."""
    for name, parameters, result in re.findall(head + r"fn (nzg_\w+)\((.*?)\)(?:\s*->\s*(\w+))?", text, re.S):
        yield name, [*(type_of(result) if result else ["void"]), *(it for kind in re.findall(r"\w+: ([^,]+)", parameters) for it in type_of(kind))]


def of_rust(text):
    found = dict(of_calls(text, "pub "))
    for name, body in re.findall(r"^    (nzg_\w+) \{(.*?)\}$", text, re.S | re.M):
        fields = re.findall(r"(\*mut \w+|\[\w+; \d+\]|\w+): ([^;]+);", body)
        found[f"struct {name}"] = [(field.removeprefix("r#"), *type_of(kind)) for kind, names in fields for field in names.split()]
    return found


def of_source():
    folders = [path for crate in ("usb_c", "usb_device", "usb_walk") for path in glob.glob(f"crates/{crate}/src/*.rt")]
    text = "".join(map(text_of, [*sorted(folders), "crates/usb_find/src/search.rt"]))
    found = dict(of_calls(text, r'#\[unsafe\(no_mangle\)\]\s*(?:#\[[^\n]*\]\s*)?pub extern "C" '))
    for name, body in re.findall(r"#\[repr\(C\)\]\s*(?:#\[derive\([^)]*\)\]\s*)?pub struct (\w+) \{(.*?)\n\}", text, re.S):
        fields = re.findall(r"^    (?:pub )?(\w+): ([^,]+),", body.replace("*mut u8", "*mut c_void"), re.M)
        found[struct(name)] = [(NAMES.get(f"{name}.{it}") or NAMES.get(it, it), *type_of(kind)) for it, kind in fields if kind != "Global"]
    # A descriptor ends in its position.
    found["struct nzg_descriptor"][-1:] = found.pop("struct nzg_position")
    return found


def differences(header, other, is_whole=True):
    """The names that are declared otherwise; of what isn't whole, names that it lacks are none."""
    return sorted(name for name in {*(header if is_whole else ()), *other} if header.get(name) != other.get(name))


def asserts(structs, form, size, place):
    """An assertion for each size and offset as Python has them."""
    for name, it in structs.items():
        yield form.format(what=size.format(name=name), number=ctypes.sizeof(it))
        for field, *_ in it._fields_:
            yield form.format(what=place.format(name=name, field=field), number=getattr(it, field).offset)


def of_compilers(structs):
    """A text of C that compiles, and one of Rust that ends in 0, where each size and offset is that of Python."""
    c = asserts(structs, "_Static_assert({what} == {number}, \"\");", "sizeof(struct nzg_{name})", "offsetof(struct nzg_{name}, {field})")
    rust = asserts(structs, "    assert_eq!({what}, {number});", "size_of::<sys::nzg_{name}>()", "offset_of!(sys::nzg_{name}, {field})")
    return ("#include <nozzlegorse.h>\n#define offsetof(type, field) __builtin_offsetof(type, field)\n" + "\n".join(c) + "\n",
            RUST + "\n".join(rust).replace(", type)", ", r#type)") + "\n}\n")
