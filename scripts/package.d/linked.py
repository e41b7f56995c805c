"""The libraries and the program, linked so that they ask for nothing newer than glibc 2.14. The linker is the kit's."""

import glob
import os
import re

from playing.built import AR, CLANG, LLD, ROOT, fail, run
from systems import NATIVE

HERE = os.path.dirname(os.path.abspath(__file__))
HEADER = f"{ROOT}/include/nozzlegorse.h"
OLDEST = (2, 14)
# What the bench of Python has in C.
OF_BENCH = ("nozzlegorse_bench", "nozzlegorse_bench_packets", "nozzlegorse_talk", "nozzlegorse_report")
HARDENED = ["--gc-sections", "-z", "relro", "-z", "now", "-z", "noexecstack", "-s", "--build-id=sha1"]


def glibc(path, system=NATIVE):
    """The newest version of glibc that a file asks for. One past the bound, which another processor has from its first on, ends the
    script."""
    with open(path, "rb") as it:
        newest = max(((int(a), int(b)) for a, b in re.findall(rb"GLIBC_(\d+)\.(\d+)", it.read())), default=(2, 2))
    if system is NATIVE and newest > OLDEST:
        fail(f"{os.path.basename(path)} asks for glibc {newest[0]}.{newest[1]}, and not at most {OLDEST[0]}.{OLDEST[1]}")
    return newest


def objects_of(made, room):
    """The members of an archive, or the object that it is."""
    if not made.endswith(".a"):
        return [made]
    os.makedirs(f"{room}/objects")
    run(AR, "x", made, cwd=f"{room}/objects")
    return sorted(glob.glob(f"{room}/objects/*.o"))


def compiled(source, out, system, *words):
    """An object of a file of C, for a shared library too."""
    run(CLANG, *system.compiler(), "-O2", "-fPIC", "-Wall", "-Wextra", "-Werror", "-I", f"{ROOT}/callers/c/plain", "-I", os.path.dirname(HEADER), *words, "-c", source, "-o", out)
    return out


def shared(name, major, exports, inputs, system, out):
    """A shared library that exports these names alone."""
    with open(f"{out}/exports", "w", encoding="ascii") as it:
        it.write(f"{{ global: {exports}; local: *; }};\n")
    run(LLD, *system.linked_as, "-shared", *HARDENED, "-soname", f"{name}.so.{major}", "--version-script", f"{out}/exports", *inputs,
        system.c_library_in(out), "-o", f"{out}/{name}.so")
    os.remove(f"{out}/exports")


def libraries(made, version, out, system=NATIVE):
    """libnozzlegorse.a, with the functions for memory as a member of their own; libnozzlegorse.so with the exports alone; and
    libnozzlegorse_bench.so over it."""
    objects = objects_of(made, out)
    name, major = f"{out}/libnozzlegorse", version.split(".")[0]
    memory = compiled(f"{HERE}/memory.c", f"{out}/memory.o", system)
    run(AR, "rcsD", f"{name}.a", *objects, memory)
    shared("libnozzlegorse", major, "nzg_*", [*objects, memory], system, out)
    of_bench = [compiled(f"{ROOT}/callers/c/{it}.c", f"{out}/{it}.o", system, "-I", f"{ROOT}/callers/c") for it in OF_BENCH]
    shared("libnozzlegorse_bench", major, "nzg_bench_try; nzg_bench_try_packets; nzg_bench_talk; nzg_bench_unspecified", [*of_bench, f"{name}.so"], system, out)
    for it in (memory, *of_bench):
        os.remove(it)


def program(made, out, system=NATIVE):
    """usbdesc of its object, with a start of its own: that of the kit asks for glibc 2.34."""
    if system is NATIVE:
        run(CLANG, *system.compiler(), "-c", f"{HERE}/start.S", "-o", f"{out}/start.o")
    else:
        compiled(f"{HERE}/start.c", f"{out}/start.o", system)
        compiled(f"{HERE}/memory.c", f"{out}/memory.o", system)
    own = [f"{out}/start.o", compiled(f"{HERE}/divide.c", f"{out}/divide.o", system)] + [f"{out}/memory.o"] * (system is not NATIVE)
    run(LLD, *system.linked_as, "-pie", *HARDENED, "-dynamic-linker", system.loader, *own, made, *system.libraries_of_kit(), system.c_library_in(out), "-o", f"{out}/usbdesc")
    for it in own:
        os.remove(it)
