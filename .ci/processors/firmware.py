"""The firmware of examples/firmware: the bench plays hosts to it in QEMU, and over a model of a real controller's registers on this
machine, and its reports move a pointer."""

import os
import subprocess
import sys
import time

import targets
from playing.built import LLD, ROOT, run
from processors import sizes

PLACE = f"{ROOT}/examples/firmware"
FILE = f"{PLACE}/mouse.file"
SOURCES = (f"{PLACE}/main.c", f"{PLACE}/semihosting.c", f"{PLACE}/start.c", f"{ROOT}/callers/targets/runtime.c")
SCRIPTS = {"thumbv7em": "mps2", "thumbv6m": "mps2", "riscv32imac": "virt"}
# Sixteen reports to the right, then down.
REPORTS = "reports:" + 16 * " 000400" + " 000004"


def environment(library, **more):
    """That of the library's Python."""
    return {**os.environ, "PYTHONPATH": f"{PLACE}:{ROOT}/python", "PYTHONDONTWRITEBYTECODE": "1",
            "NOZZLEGORSE_LIBRARY": f"{os.path.abspath(library)}/libnozzlegorse.so", **more}


def with_image(room, library):
    """The option for sources that have the image of the mouse."""
    run(sys.executable, "-m", "nozzlegorse.image", FILE, "--name", "mouse", "--output", f"{room}/mouse.h", env=environment(library))
    return "-I", room


def built(target, made, room, library):
    """The firmware, with nothing of the library but what it calls."""
    image = with_image(room, library)
    objects = [targets.compiled(it, target, f"{room}/{os.path.basename(it)}.o", "-fno-builtin", *image) for it in SOURCES]
    run(LLD, "-T", f"{PLACE}/{SCRIPTS[target]}.ld", "--gc-sections", *objects, made, "-o", f"{room}/mouse.elf")
    return f"{room}/mouse.elf"


def modelled(room, library):
    """The firmware for this machine, over the model of STM32's registers."""
    out = f"{room}/mouse-stm32"
    sources = [f"{PLACE}/{it}.c" for it in ("main", "stm32", "stm32_model")]
    run("cc", "-O2", "-fsanitize=address,undefined", "-DSTM32_MODEL", "-Wall", "-Wextra", "-Werror", *with_image(room, library), "-I", f"{ROOT}/include", *sources,
        f"{os.path.abspath(library)}/libnozzlegorse.a", "-o", out)
    return out


def is_right(name, firmware, library, losses, said):
    """Whether a firmware is as the proved device under each loss, and moves the pointer."""
    its = environment(library, FIRMWARE=firmware)
    moved = subprocess.run([sys.executable, f"{PLACE}/in_qemu.py"], env=its, capture_output=True, text=True, check=False).stdout
    said(f"firmware: {name}: {moved.splitlines()[0] if moved else 'not enumerated'}")
    if REPORTS not in moved:
        said(f"firmware: {name}: the pointer does not go to the right and down: {moved}")
        return False
    words = ["-m", "nozzlegorse.bench", "in_qemu:Firmware", FILE, "--losses", str(losses), "--within", "40"]
    begun = time.monotonic()
    ended = subprocess.run([sys.executable, *words], env=its, capture_output=True, text=True, check=False)
    said(f"firmware: {name}: {(ended.stdout or ended.stderr).splitlines()[0 if ended.stdout else -1]}, in {(time.monotonic() - begun) / 60:.1f} minutes")
    return ended.returncode == 0


def play(target, made, room, library, losses, said):
    firmware = built(target, made, room, library)
    said(f"firmware: {target}: {sizes.in_flash(firmware):,} bytes of flash and {sizes.in_ram(firmware):,} of RAM, all of the program but its stack")
    return is_right(target, firmware, library, losses, said)


def play_over_registers(room, library, losses, said):
    return is_right("STM32's registers", modelled(room, library), library, losses, said)
