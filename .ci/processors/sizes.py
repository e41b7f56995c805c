"""How much flash each group of exports takes for a processor: code and constants that a linker keeps for them, without what the
compiler's run-time library and the functions for memory add. Of a device also its struct, and the longest frame of its functions."""

import gzip
import re
import struct

import declared
from playing.built import LLD, fail, run

NOT_THERE = 8  # SHT_NOBITS
WRITABLE = 1  # SHF_WRITE
ALLOCATED = 2  # SHF_ALLOC
# The groups, by what the names of their exports have after nzg_.
GROUPS = {
    "a device": r"device_(?!image)\w+",
    "the image of a device": r"device_image",
    "a device with its image and a judge": r"device_\w+|judge_device",
    "a host": r"host_\w+",
    "both ends": r"(?:device|host)_\w+",
    "a transfer": r"transfer_\w+",
    "a write": r"write_\w+",
    "a walk": r"next",
    "a walk with fields": r"next|field",
    "findings": r"findings|judge",
    "remarks": r"remarks",
    "texts": r"show|check|explain|build|text|rule|with_strings",
    "packets": r"packet_\w+|crc\d+",
    "recordings": r"capture_\w+",
    "all but recordings": r"(?!capture_)\w+",
}
# What none may be over, of proved code and of code near to that: of thumbv7em, thumbv6m and riscv32imac.
BOUNDED = ("thumbv7em", "thumbv6m", "riscv32imac")
BOUNDS = {
    "a device": (5_000, 6_400, 8_000),
    "the image of a device": (33_000, 39_000, 52_000),
    "a device with its image and a judge": (46_000, 58_000, 74_000),
    "a host": (32_000, 40_000, 51_000),
    "both ends": (59_000, 75_000, 96_000),
    "a transfer": (3_000, 3_750, 5_250),
    "a write": (3_500, 4_000, 5_500),
    "a walk": (3_250, 2_750, 3_750),
    "a walk with fields": (36_000, 37_000, 39_000),
    "findings": (34_000, 42_000, 55_000),
    "remarks": (41_000, 50_000, 64_000),
    "texts": (206_000, 214_000, 260_000),
    "packets": (3_300, 3_650, 4_400),
    "recordings": (50_500, 61_000, 71_000),
    "all but recordings": (256_000, 275_000, 337_000),
}
# Of a device: all that a program keeps but the room that it lends, and each frame of the calls.
STRUCT, STRUCT_BOUND, FRAME_BOUND = "nzg_device", 330, 200


# The modules for npm, as they are and packed by gzip: the library, and what it loads where a recording is read.
OF_NPM = {"nozzlegorse.wasm": (320_000, 110_000), "recordings.wasm": (59_000, 26_000)}


def of_npm(files):
    """The sizes of the modules among the files for npm, each with its bounds."""
    for name, module in files.items():
        if name.endswith(".wasm"):
            yield name, (len(module), len(gzip.compress(module, 9, mtime=0))), OF_NPM[name]


def bound_of(target, group):
    return BOUNDS[group][BOUNDED.index(target)] if target in BOUNDED and group in BOUNDS else None


def sections(path):
    """The sections of an ELF of 32 bits that lie in memory: type, flags and length."""
    with open(path, "rb") as it:
        data = it.read()
    at, = struct.unpack_from("<I", data, 32)
    size, count = struct.unpack_from("<HH", data, 46)
    rows = (struct.unpack_from("<10I", data, at + i * size) for i in range(count))
    return [(row[1], row[2], row[5]) for row in rows if row[2] & ALLOCATED]


def in_flash(path):
    """Bytes of the sections that have content."""
    return sum(length for kind, _, length in sections(path) if kind != NOT_THERE)


def in_ram(path):
    """Bytes of those that are written."""
    return sum(length for _, flags, length in sections(path) if flags & WRITABLE)


def linked(group, made, script, room):
    """What a linker keeps for a group, and the map of it; nothing where it has no exports."""
    names = [it for it in declared.calls(declared.text_of_header()) if re.fullmatch(GROUPS[group], it.removeprefix("nzg_"))]
    if not names:
        return None
    out = f"{room}/group"
    run(LLD, "-T", script, "--gc-sections", "--unresolved-symbols=ignore-all", "-e", names[0], *(f"--undefined={it}" for it in names), *made, "-o", out, f"-Map={out}.map")
    return out


def measured(made, script, room):
    """The size of each group that has exports."""
    for group in GROUPS:
        if out := linked(group, made, script, room):
            yield group, in_flash(out)


def struct_of_device():
    """Bytes of what a device keeps."""
    return declared.structs(declared.text_of_header())[STRUCT].size


def longest_frame(made, frames, script, room):
    """The function of a device's calls with the longest frame, and that, as LLVM says of the object."""
    with open(f"{linked('a device', [made], script, room)}.map", encoding="utf-8") as it:
        kept = {found[1] for line in it if (found := re.search(r":\(\.text\.(.*)\)$", line.rstrip()))}
    with open(frames, encoding="utf-8") as it:
        rows = (line.rstrip().split("\t") for line in it)
        known = {place.split(".ll:", 1)[-1]: (int(size), kind) for place, size, kind in rows}
    if others := [it for it in kept if it not in known]:
        fail(f"no frame is said of {others[0]}")
    if moving := [it for it in kept if known[it][1] != "static"]:
        fail(f"the frame of {moving[0]} is {known[moving[0]][1]}")
    return max((known[it][0], it) for it in kept)
