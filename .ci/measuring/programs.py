"""The programs whose instructions are counted: ours, proved or of the sources as they are, and plain Rust."""

import glob
import os
import shutil
import subprocess
import sys

from playing import built

sys.path.append(f"{built.ROOT}/scripts/package.d")
import unproved  # noqa: E402
from measuring import lowering  # noqa: E402

FOLDER = "crates/benchmarks"
LINE = "benchmarks: usb_capture_lines usb_explain usb_hex usb_bus usb_host usb_device usb_fields usb_wire usb_file usb_set anyhow"
# As the proved program is built: one module for all, and for the same processor.
FLAGS = ["--edition", "2024", "-O", "-C", "codegen-units=1", "-C", f"target-cpu={lowering.CPU}"]


def plain(room):
    """Builds plain Rust, and answers the program."""
    program = os.path.join(room, "plain")
    subprocess.run(["rustc", *FLAGS, "--crate-name", "plain", "-o", program, f"{FOLDER}/plain/main.rs"], check=True)
    return program


def linked(program, *objects):
    linker = [f"{built.KIT}/bin/rattle-link", "--target", built.TARGET, "--toolchain", f"{built.KIT}/toolchain"]
    built.run(*linker, "-o", program, *objects, f"{built.KIT}/c/libos_c.a", f"{built.KIT}/c/liblibc_c.a")
    return program


def with_works(root):
    """Adds the program of the works to a copy of the crates. It is no crate of this repository, since the gate would prove it."""
    shutil.rmtree(f"{root}/{FOLDER}", ignore_errors=True)
    os.makedirs(f"{root}/{FOLDER}/src")
    for path in glob.glob(f"{FOLDER}/works/*.rt.in"):
        shutil.copy(path, f"{root}/{FOLDER}/src/{os.path.basename(path).removesuffix('.in')}")
    rows = [row for row in unproved.text_of(f"{root}/crates.txt").splitlines() if not row.startswith("benchmarks:")]
    unproved.write(f"{root}/crates.txt", "\n".join([*rows, LINE, ""]))
    return root


class Unproved:
    """Of the sources of a checkout as they are."""

    said = "of the sources before a proof, as near to the proved program as they can be built"

    def __init__(self, room, sources):
        self.room, self.root = room, with_works(unproved.copied(room, sources))

    def compiled(self, name, code):
        unproved.write(f"{self.room}/{name}.ll", code)
        target = f"--target={built.TARGET}"
        built.run(built.CLANG, target, *lowering.OPTIONS, f"{self.room}/{name}.ll", "-o", f"{self.room}/{name}.o")
        return f"{self.room}/{name}.o"

    def lowered(self, name):
        return lowering.as_proved(unproved.readable(unproved.lowered(self.root, name, self.room)), self.root)

    def program(self):
        return linked(f"{self.room}/ours", self.compiled("ours", self.lowered("benchmarks")))

    def library(self):
        return self.compiled("exports", unproved.exported(self.lowered("usb_c"), self.root))


class Proved:
    """Of the libraries that `rt ci` left, with the works proved over them."""

    said = "of the proved program"

    def __init__(self, room):
        self.room = room

    def program(self):
        root = f"{self.room}/sources"
        for folder in glob.glob(f"{built.ROOT}/crates/usb_*"):
            for part in ("src", "out/rlib"):
                if os.path.isdir(f"{folder}/{part}"):
                    shutil.copytree(f"{folder}/{part}", f"{root}/crates/{os.path.basename(folder)}/{part}", copy_function=os.symlink)
        rows = [row for row in unproved.text_of("crates.txt").splitlines() if row.startswith("usb_")]
        unproved.write(f"{root}/crates.txt", "\n".join([*rows, ""]))
        made = built.build("benchmarks", f"{self.room}/ours.o", with_works(root), lowering.CPU)
        return linked(f"{self.room}/ours", made)

    def library(self):
        return built.build("usb_c", f"{self.room}/usb_c.a", cpu=lowering.CPU)


def walk(room, library):
    """Builds the walk in C over the library, and answers the program."""
    program = os.path.join(room, "walk")
    headers = [word for folder in ("include", "callers/c", "callers/c/plain") for word in ("-I", folder)]
    built.run(built.CLANG, "--no-default-config", "-O2", "-fPIC", *headers, "-c", f"{FOLDER}/walk.c", "-o", f"{program}.o")
    return linked(program, f"{program}.o", library)
