"""Programs in C over the library for another processor: how they are linked there, and on what they run."""

import os
import platform
import shutil
import subprocess

import declared
import targets
from playing.built import CLANG, LLD, ROOT, fail, run

PLACE = f"{ROOT}/callers/targets"
PARTS = ("platform", "steps", "ends", "scripts", "facts", "words", "recordings")
SEMIHOSTING = ["-nographic", "-monitor", "none", "-serial", "none", "-semihosting-config", "enable=on,target=native"]
ARM = ["qemu-system-arm", "-M", "mps2-an386", "-cpu", "cortex-m4", *SEMIHOSTING]
RISCV = ["qemu-system-riscv32", "-M", "virt", "-bios", "none", *SEMIHOSTING]
# What runs the programs of each, and what that is called. QEMU has no board with a Cortex-M0: an M4 has its instructions.
RUN_BY = {
    "thumbv7em": ([*ARM, "-kernel"], "QEMU, Cortex-M4"),
    "thumbv7emhf": ([*ARM, "-kernel"], "QEMU, Cortex-M4"),
    "thumbv6m": ([*ARM, "-kernel"], "QEMU, Cortex-M4"),
    "riscv32imac": ([*RISCV, "-kernel"], "QEMU, RISC-V virt"),
    "i386": ([], "this machine"),
    "wasm32": (["node", f"{PLACE}/run.mjs"], "node"),
    "x86_64": ([], "this machine"),
}
SCRIPTS = {"thumbv7em": "arm", "thumbv7emhf": "arm", "thumbv6m": "arm", "riscv32imac": "riscv"}
# On i386 above 2^31, so that an address is a negative number too.
OF_LINUX = {"i386": ["-m", "elf_i386", "--image-base=0x90000000"], "x86_64": ["-m", "elf_x86_64"]}
OF_X86 = ["--target=x86_64-unknown-linux-gnu", "-march=x86-64"]


def lacking(target):
    """What this machine lacks to run programs of a target, or nothing."""
    emulator, _ = RUN_BY[target]
    if emulator:
        return None if shutil.which(emulator[0]) else emulator[0]
    return None if platform.machine() == "x86_64" else "an x86-64 processor"


def compiled(target, name, room, *more):
    """An object of a source beside the others, for x86-64 too."""
    options = OF_X86 if target == "x86_64" else targets.OPTIONS[target]
    out = f"{room}/{name}.o"
    run(CLANG, "--no-default-config", *options, "-ffreestanding", "-fno-builtin", "-O2", *targets.SECTIONS, "-Wall", "-Wextra", "-Werror",
        *targets.HEADERS, "-I", f"{ROOT}/callers/c", "-I", PLACE, *more, "-c", f"{PLACE}/{name}.c", "-o", out)
    return out


def fits(target, room):
    """That the header's structs have the same places on a target as in JavaScript and on x86-64."""
    source = f"{room}/fits.c"
    with open(source, "w", encoding="ascii") as it:
        it.writelines(declared.assertions(declared.text_of_header()))
    options = OF_X86 if target == "x86_64" else targets.OPTIONS[target]
    run(CLANG, "--no-default-config", *options, "-ffreestanding", "-Wall", "-Wextra", "-Werror", *targets.HEADERS, "-fsyntax-only", source)


def linked(target, objects, room, out):
    if target == "wasm32":
        run(targets.linker(room, "wasm-ld"), "--no-entry", "--gc-sections", "--stack-first", "-z", "stack-size=1048576", "--export=start",
            "--allow-undefined", *objects, "-o", out)
        targets.shrunk(out)
    elif target in SCRIPTS:
        run(LLD, "-T", f"{PLACE}/{SCRIPTS[target]}.ld", "--gc-sections", *objects, "-o", out)
    else:
        run(LLD, *OF_LINUX[target], "-static", "-e", "start", "--gc-sections", *objects, "-o", out)
    return out


def program(target, made, room, parts=PARTS, between=f"{targets.HERE}/lowered_memory.c"):
    """The program of these parts over a library's objects."""
    more = [] if target == "x86_64" else [targets.compiled(between, target, f"{room}/lowered_memory.o")]
    if target == "wasm32":
        more.append(targets.compiled(f"{targets.HERE}/wasm_wide.c", target, f"{room}/wasm_wide.o"))
    fits(target, room)
    objects = [compiled(target, name, room) for name in (*parts, "runtime")]
    return linked(target, [*objects, *more, *made], room, f"{room}/{parts[1]}")


def ran(target, made, folder, seconds=3600):
    """What a program prints there, over the files of a folder."""
    emulator, _ = RUN_BY[target]
    try:
        ended = subprocess.run([*emulator, os.path.abspath(made)], cwd=folder, stdin=subprocess.DEVNULL, capture_output=True, timeout=seconds, check=False)
    except OSError as fault:
        fail(f"{target}: {fault}")
    except subprocess.TimeoutExpired as late:
        return late.stdout or b"", "no end"
    return ended.stdout, ended.returncode


def in_node(package, program, said):
    """Whether all texts of testdata are the same by the package for npm and by the program."""
    words = ["node", f"{ROOT}/.ci/processors/wasm.mjs", package, program, f"{ROOT}/testdata"]
    ended = subprocess.run(words, capture_output=True, text=True, check=False)
    for line in (ended.stdout + ended.stderr).splitlines():
        said(f"npm: {line}")
    return ended.returncode == 0
