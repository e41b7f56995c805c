"""The library for processors of 32 bits: its module, lowered and compiled by the kit's LLVM, with the functions for memory."""

import json
import os
import shutil

import archives
import declared
import lowered
import unproved
from playing.built import AR, CLANG, LLD, ROOT, build, run

HERE = os.path.dirname(os.path.abspath(__file__))
# How C is compiled for each. Of thumbv7em there are two, for the two ways of calling with floats, of which the library has none.
OPTIONS = {
    "thumbv7em": ["--target=thumbv7em-none-eabi", "-mcpu=cortex-m4", "-mfloat-abi=soft"],
    "thumbv7emhf": ["--target=thumbv7em-none-eabihf", "-mcpu=cortex-m4", "-mfloat-abi=hard"],
    "thumbv6m": ["--target=thumbv6m-none-eabi", "-mcpu=cortex-m0"],
    "riscv32imac": ["--target=riscv32-unknown-none-elf", "-march=rv32imac", "-mabi=ilp32"],
    "i386": ["--target=i386-unknown-none-elf", "-march=i586"],
    "wasm32": ["--target=wasm32-unknown-unknown", "-mcpu=lime1"],
}
# Small where flash is, and smallest what is fetched from a network.
SIZES = dict.fromkeys(OPTIONS, "s") | {"wasm32": "z"}
# Of small code functions that are the same are one.
SMALL = ["-Xclang", "-fmerge-functions"]
# Once what is inlined is chosen, each function is as small as it can be, but for i386, which has no flash: a shift of 64 bits would be a
# call there.
SMALLEST = ["-mllvm", "-force-attribute=minsize"]
SECTIONS = ["-ffunction-sections", "-fdata-sections"]
# What makes WebAssembly smaller, and what of it the processor `lime1` has.
OPTIMIZER = shutil.which("wasm-opt")
FEATURES = ["--enable-bulk-memory", "--enable-multivalue", "--enable-mutable-globals", "--enable-nontrapping-float-to-int", "--enable-sign-ext"]
HEADERS = ["-I", f"{ROOT}/callers/c/plain", "-I", f"{ROOT}/include"]
# The compiler for rattle: what it is given is kept.
KEEPING = """#!/bin/sh
[ ! -f module.bc ] || cp module.bc "{module}"
exec "{clang}" "$@"
"""


def module(is_unproved, room):
    """The text of the module that the kit made of usb_c, proved or of the sources as they are."""
    if is_unproved:
        root = unproved.copied(room)
        return unproved.exported(unproved.readable(unproved.lowered(root, "usb_c", room)), root)
    kept, tools = f"{room}/module.bc", f"{room}/tools"
    unproved.toolchain(tools, KEEPING.format(module=kept, clang=CLANG), ("ld.lld", "llvm-ar", "rattle-x64"))
    build("usb_c", f"{room}/usb_c.a", toolchain=tools)
    return unproved.readable(kept)


def compiled(source, target, out, *more):
    """An object of a source of C."""
    run(CLANG, "--no-default-config", *OPTIONS[target], "-ffreestanding", "-Os", *SECTIONS, "-Wall", "-Wextra", "-Werror", *HEADERS, *more, "-c", source, "-o", out)
    return out


def object_of(text, target, room, guard=False, size=None, *more):
    """An object of the module's exports, made with these more options. Small code goes through LLVM's passes twice: the second time finds what the first left."""
    size = SIZES[target] if size is None else size
    code, once, made = (f"{room}/{target}.{it}" for it in ("ll", "bc", "o"))
    unproved.write(code, lowered.Lowering(target, guard, size).module(text))
    words = [CLANG, "--no-default-config", *OPTIONS[target], *SECTIONS, f"-O{size or 2}", *(SMALL if size else ()), "-Wno-override-module", "-c", "-x", "ir"]
    if size:
        run(*words, "-emit-llvm", code, "-o", once)
        os.replace(once, code)
    run(*words, *(SMALLEST if size == "s" and target != "i386" else ()), *more, code, "-o", made)
    os.remove(code)
    return made


def library(made, target, room):
    """The archive: the exports, what is between them and the functions for memory, and these over malloc. The last two are
    linked by who needs them alone."""
    parts = [made, *(compiled(f"{HERE}/{name}.c", target, f"{room}/{name}.o") for name in ("lowered_memory", "memory"))]
    archive = f"{room}/libnozzlegorse.a"
    if os.path.exists(archive):
        os.remove(archive)
    run(AR, "rcsD", archive, *parts)
    return archive


def linker(room, name):
    """The kit's linker under the name by which it links for a format."""
    tool = f"{room}/{name}"
    if not os.path.islink(tool):
        os.symlink(LLD, tool)
    return tool



# --- packages -----------------------------------------------------------------------------------------------------------------


def plain_package(made, target, version, room, epoch):
    """Header, archive, bench and examples, as a folder for a cross compiler."""
    top = f"nozzlegorse-{version}-{target}"
    files = {"include/nozzlegorse.h": f"{room}/nozzlegorse.h", "lib/libnozzlegorse.a": library(made, target, room), "share/doc/copyright": f"{ROOT}/LICENSE"}
    whole = {path: (archives.read(it), 0o644) for path, it in files.items()} | archives.shared()
    return f"{top}.tar.gz", archives.packed({f"{top}/{path}": it for path, it in whole.items()}, epoch)


def exports_of_modules():
    """The exports of each module for npm. Those for recordings have one of their own, which is loaded where the first one is read."""
    names = declared.calls(declared.text_of_header())
    of_recordings = [it for it in names if it.startswith(declared.OF_RECORDINGS)]
    return {"nozzlegorse.wasm": [it for it in names if it not in of_recordings], "recordings.wasm": of_recordings}


def wasm(made, room, names):
    """A module with these exports, and the two for memory. The stack lies first, so that one too deep is a trap."""
    parts = [made, *(compiled(f"{HERE}/{name}.c", "wasm32", f"{room}/{name}.o") for name in ("lowered_memory", "wasm_memory", "wasm_wide"))]
    names = [*names, "nzg_lowered_alloc", "rattle_dealloc"]
    run(linker(room, "wasm-ld"), "--no-entry", "--gc-sections", "--stack-first", "-z", "stack-size=1048576", "-O2", "--strip-all", "--compress-relocations",
        *(f"--export={it}" for it in names), *parts, "-o", f"{room}/module.wasm")
    return f"{room}/module.wasm"


def shrunk(module):
    """A module of WebAssembly made smaller by Debian's binaryen, where that is installed."""
    if OPTIMIZER:
        run(OPTIMIZER, *FEATURES, "-Oz", "--converge", module, "-o", module)
    return module


def javascript(made, version, room):
    """The files of the package for npm, by their names."""
    header = declared.text_of_header()
    files = {name: archives.read(f"{ROOT}/javascript/{name}") for name in ("index.mjs", "index.d.ts", "calls.mjs", "faults.mjs", "recordings.mjs")}
    files |= {name: archives.read(shrunk(wasm(made, room, calls))) for name, calls in exports_of_modules().items()}
    files |= {"declared.mjs": declared.javascript(header).encode(), "declared.d.mts": declared.types(header).encode(), "LICENSE": archives.read(f"{ROOT}/LICENSE")}
    about = json.loads(archives.read(f"{ROOT}/javascript/package.json")) | {"version": version, "files": sorted(files)}
    return files | {"package.json": json.dumps(about, indent=4).encode() + b"\n"}


def package(made, target, version, room, epoch):
    """The name and the bytes of a target's package."""
    if target != "wasm32":
        return plain_package(made, target, version, room, epoch)
    files = javascript(made, version, room)
    return f"nozzlegorse-{version}.tgz", archives.packed({f"package/{path}": (data, 0o644) for path, data in files.items()}, epoch)
