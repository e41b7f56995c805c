"""The Linux systems that packages are made for: a processor, a C library, and what installers call them. Of another system nothing
has to be installed: a library is linked for its C library that has the names alone."""

import os
import re
from typing import NamedTuple

import unproved
from playing.built import CLANG, KIT, LLD, build, run

HERE = os.path.dirname(os.path.abspath(__file__))
# What the program, the library and the bench ask of a C library.
ASKED = """__errno_location __libc_start_main __xpg_strerror_r bcmp free isatty lseek malloc memcmp memcpy memmove memset read realloc signal strlen
strcmp write""".split()
# How a processor lays out data, in LLVM's own words; the other is that of the module that is made without a proof.
LAYOUT = "e-m:e-p270:32:32-p271:32:32-p272:64:64-i8:8:32-i16:16:32-i64:64-i128:128-n32:64-S128-Fn32"
OF_X86 = re.compile(r'"(?:target-cpu|target-features|tune-cpu)"="[^"]*" ?')


class System(NamedTuple):
    """How it is compiled and linked for, and what it is called by Rust, in file names, by pip and by dpkg, where that has it."""

    target: str
    name: str
    processor: tuple
    linked_as: tuple
    loader: str
    c_library: str
    version: str
    wheel: str
    debian: str
    needs: str

    def library_folder(self):
        """Where Debian has its libraries."""
        return f"lib/{self.target.replace('-unknown', '')}"

    def c_library_in(self, room):
        """What is linked for the C library."""
        if self is NATIVE:
            return f"{KIT}/toolchain/lib/libc.so.6"
        names, made = f"{room}/names", f"{room}/{self.c_library}"
        unproved.write(f"{names}.c", "".join(f"void {it}(void) {{}}\n" for it in ASKED))
        unproved.write(f"{names}.map", f"{self.version} {{ global: *; }};\n")
        run(CLANG, *self.compiler(), "-w", "-ffreestanding", "-fno-builtin", "-fPIC", "-c", f"{names}.c", "-o", f"{names}.o")
        run(LLD, *self.linked_as, "-shared", "-soname", self.c_library, "--version-script", f"{names}.map", f"{names}.o", "-o", made)
        return made

    def compiler(self):
        return ["--no-default-config", f"--target={self.target}", *self.processor]

    def libraries_of_kit(self):
        """What the program has below it. The kit has it for one system alone, so of others start.c has what the program calls."""
        return [f"{KIT}/c/libos_c.a", f"{KIT}/c/liblibc_c.a"] if self is NATIVE else []


NATIVE = System("x86_64-unknown-linux-gnu", "linux-x86_64", ("-march=x86-64",), (), "/lib64/ld-linux-x86-64.so.2", "libc.so.6",
                "GLIBC_2.14", "py3-none-manylinux_2_17_x86_64", "amd64", "libc6 (>= 2.14)")
SYSTEMS = {
    "aarch64": System("aarch64-unknown-linux-gnu", "linux-aarch64", (), ("-m", "aarch64linux"), "/lib/ld-linux-aarch64.so.1", "libc.so.6",
                      "GLIBC_2.17", "py3-none-manylinux_2_17_aarch64", "arm64", "libc6 (>= 2.17)"),
    "musl": System("x86_64-unknown-linux-musl", "linux-musl-x86_64", ("-march=x86-64",), ("-m", "elf_x86_64"), "/lib/ld-musl-x86_64.so.1", "libc.so",
                   "", "py3-none-musllinux_1_1_x86_64", "", ""),
}


def for_processor(code, system):
    """The code of a module of x86-64 for another processor of 64 bits, on which all has the same width and place."""
    code = re.sub(r'^target datalayout = ".*"$', f'target datalayout = "{LAYOUT}"', code, count=1, flags=re.M)
    code = re.sub(r'^target triple = ".*"$', f'target triple = "{system.target}"', code, count=1, flags=re.M)
    return re.sub(r"^attributes .*$", lambda it: OF_X86.sub("", it[0]), code, flags=re.M)


def compiled(name, kind, system, room):
    """The object of a module that was made without a proof."""
    code, made = f"{room}/{system.name}-{name}.ll", f"{room}/{system.name}-{name}.o"
    unproved.write(code, for_processor(unproved.text_of(f"{room}/{name}.ll"), system))
    run(CLANG, *system.compiler(), "-ffunction-sections", "-fdata-sections", "-O3", "-Wno-override-module", "-c", "-x", "ir", kind, code, "-o", made)
    return made


def objects_of(system, native, is_unproved, room):
    """The library and the program for a system, where those are for this one: another C library takes the same code."""
    if system.processor == NATIVE.processor:
        return native
    if is_unproved:
        return [compiled("nozzlegorse", "-fPIC", system, room), compiled("usbdesc", "-fPIE", system, room)]
    return [build(name, f"{room}/{system.name}-{out}", cpu="generic", target=system.target) for name, out in (("usb_c", "usb_c.a"), ("usbdesc", "usbdesc.o"))]
