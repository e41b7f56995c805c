"""What include/nozzlegorse.h declares, as values: its structs with the place of each field, its calls and its enumerations. The same
on every processor, as the assertions at the header's end say. From it are made what JavaScript and its types know of the library."""

import json
import re
from typing import NamedTuple

from playing.built import ROOT

WIDTHS = {"bool": 1, "uint8_t": 1, "uint16_t": 2, "uint32_t": 4, "uint64_t": 8, "nzg_size": 8}
# A handle's pointer has a place of eight bytes.
HELD = ("held", "held", 0)
# How the length of the pointer before it is called.
LENGTH = re.compile(r"(\w+_)?len|room")
# How the names of calls for recordings begin. For npm they have a module and a type of their own.
OF_RECORDINGS = "nzg_capture_"


class Field(NamedTuple):
    name: str
    kind: str  # a type of C, `held`, or the name of a struct
    count: int  # of an array; else 0
    at: int


class Struct(NamedTuple):
    fields: list
    size: int
    align: int


class Parameter(NamedTuple):
    name: str
    kind: str
    is_pointer: bool
    is_const: bool


class Call(NamedTuple):
    result: str
    parameters: list


def text_of_header():
    with open(f"{ROOT}/include/nozzlegorse.h", encoding="utf-8") as it:
        return it.read()


def plain(text):
    """Without comments and lines of the preprocessor."""
    return re.sub(r"/\*.*?\*/|^\s*#.*?$", "", text, flags=re.S | re.M)


def members(body):
    """The fields that a struct declares: name, type and count."""
    for line in filter(None, map(str.strip, body.split(";"))):
        if line == "NZG_HELD":
            yield HELD
            continue
        kind, names = re.fullmatch(r"(?:struct )?(\w+) (.*)", line, re.S).groups()
        for name, count in re.findall(r"(\w+)(?:\[(\d+)\])?", names):
            yield name, kind, int(count or 0)


def laid_out(body, known):
    at, widest, found = 0, 1, []
    for name, kind, count in members(body):
        size, align = (known[kind].size, known[kind].align) if kind in known else (8, 8) if kind == "held" else (WIDTHS[kind],) * 2
        at = -(-at // align) * align
        found.append(Field(name, kind, count, at))
        at += size * (count or 1)
        widest = max(widest, align)
    return Struct(found, -(-at // widest) * widest, widest)


def structs(text):
    """The structs in their order, but for that of the functions for memory, which has the layout of its processor."""
    found = {}
    for name, body in re.findall(r"struct (nzg_\w+) \{(.*?)\};", plain(text), re.S):
        if name != "nzg_block":
            found[name] = laid_out(body, found)
    return found


def parameter(text):
    is_const, kind, star, name = re.fullmatch(r"(const )?(?:struct )?(\w+) (\*?)(\w+)", text.strip()).groups()
    return Parameter(name, kind, bool(star), bool(is_const))


def calls(text):
    found = re.findall(r"^(?:struct )?(\w+) (nzg_\w+)\(([^)]*)\);", plain(text), re.M)
    return {name: Call(result, [parameter(it) for it in parameters.split(",")]) for result, name, parameters in found}


def enumerations(text):
    found = {}
    for name, body in re.findall(r"enum (nzg_\w+) \{(.*?)\};", plain(text), re.S):
        found[name] = {key: int(value, 0) for key, value in re.findall(r"(\w+) = (\w+)", body)}
    return found


def assertions(text):
    """A text of C that compiles where each struct has these places and sizes."""
    yield "#include <nozzlegorse.h>\n"
    for name, it in structs(text).items():
        yield f'_Static_assert(sizeof(struct {name}) == {it.size}, "{name}");\n'
        for field in it.fields:
            yield f'_Static_assert(__builtin_offsetof(struct {name}, {field.name}) == {field.at}, "{name}.{field.name}");\n'


# --- JavaScript -------------------------------------------------------------------------------------------------------------


def short(name):
    return name.removeprefix("nzg_")


def roles(call):
    """What each parameter is to a caller in JavaScript: bytes that it lends, bytes that are kept from call to call and change in place,
    room that the call fills, a struct, or a number. A length that belongs to the pointer before it is none of its own."""
    rest = list(call.parameters)
    while rest:
        it = rest.pop(0)
        if it.is_pointer and rest and LENGTH.fullmatch(rest[0].name):
            is_room = rest.pop(0).name == "room"
            yield ("bytes" if it.is_const else "room" if is_room else "kept"), it.name, it.kind
        elif it.is_pointer:
            yield ("lent" if it.is_const else "struct"), it.name, it.kind
        else:
            yield "number", it.name, it.kind


def javascript(text, names=None):
    """The module of what is declared, or of these calls alone."""
    shapes = {short(name): {"size": it.size, "fields": [[field.name, short(field.kind), field.count, field.at] for field in it.fields]}
              for name, it in structs(text).items()}
    declared = {name: {"result": short(it.result), "parameters": [[role, name, short(kind)] for role, name, kind in roles(it)]}
                for name, it in calls(text).items() if names is None or name in names}
    parts = {"structs": shapes, "calls": declared, "enumerations": {short(name): it for name, it in enumerations(text).items()}}
    return "// Made of nozzlegorse.h.\n" + "".join(f"export const {name} = {json.dumps(it)};\n" for name, it in parts.items())


NUMBERS = {"bool": "boolean", "uint64_t": "bigint", "held": "number"}


def camel(name):
    return "".join(it.capitalize() for it in short(name).split("_"))


def type_of(kind, count, known):
    if kind in known or f"nzg_{kind}" in known:
        return camel(kind)
    if count:
        return "bigint[]" if kind == "uint64_t" else "Uint8Array"
    return NUMBERS.get(kind, "number")


def parameters_of(call, known):
    for role, name, kind in roles(call):
        if role in ("bytes", "kept"):
            yield f"{name}: Uint8Array"
        elif role != "room":
            yield f"{name}: {camel(kind) if role in ('struct', 'lent') else 'number | bigint' if kind == 'uint64_t' else type_of(kind, 0, known)}"


def result_of(call, known):
    """What comes back: an answer has what was written into room."""
    filled = [f"{name}: {'Uint8Array' if kind == 'uint8_t' else camel(kind) + '[]'}" for role, name, kind in roles(call) if role == "room"]
    result = "void" if call.result == "void" else type_of(call.result, 0, known)
    return f"{result} & {{ {'; '.join(filled)} }}" if filled else result


def types(text):
    """The types of the calls."""
    known, lines = structs(text), ["// Made of nozzlegorse.h."]
    for name, it in known.items():
        lines.append(f"export interface {camel(name)} {{ {' '.join(f'{field.name}: {type_of(field.kind, field.count, known)};' for field in it.fields)} }}")
    for of_recordings, name in enumerate(("Calls", "RecordingCalls")):
        declared = {name: it for name, it in calls(text).items() if name.startswith(OF_RECORDINGS) == of_recordings}
        lines.append(f"export interface {name} {{")
        lines += [f"    {name}({', '.join(parameters_of(it, known))}): {result_of(it, known)};" for name, it in declared.items()]
        lines.append("}")
    return "\n".join(lines) + "\n"
