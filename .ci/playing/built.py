"""What the kit's compilers make of the libraries that `rt ci` built: the archive for C, and its tools."""

import os
import subprocess
import sys

ROOT = os.path.abspath(os.path.join(os.path.dirname(os.path.abspath(__file__)), "../.."))
KIT = os.path.dirname(subprocess.run(["rt", "doc"], capture_output=True, text=True, check=True).stdout.strip())
CLANG, LLD, AR = (f"{KIT}/toolchain/bin/{it}" for it in ("clang", "ld.lld", "llvm-ar"))
TARGET = f"{os.uname().machine}-unknown-linux-gnu"
NAME = os.path.basename(sys.argv[0])


def fail(why):
    sys.exit(f"{NAME}: {why}")


def run(*words, **how):
    """Runs a command to its end. Where it fails, so does this script, with what it wrote."""
    ran = subprocess.run(words, capture_output=True, **how)
    if ran.returncode:
        sys.stderr.buffer.write(ran.stdout[-3000:] + ran.stderr[-3000:])
        fail(f"{os.path.basename(words[0])} ended in {ran.returncode}")
    return ran


def crate_of(name, root=ROOT):
    """A crate as rt knows it."""
    sys.path.insert(0, f"{KIT}/bin")
    import rtlib

    return rtlib.Crate(f"{root}/crates/{name}", root, {})


def build(name, out, root=ROOT, cpu="x86-64", toolchain=f"{KIT}/toolchain", target=None):
    """Builds a crate's archive or object over the libraries that `rt ci` built, for any processor of x86-64: a program for a
    newer one asks for glibc 2.33. The other words are rt's, since rt lib would prove all libraries once more. Gives `out`."""
    crate = crate_of(name, root)
    lacking = [it.name for it in crate.below() if not os.path.isdir(it.rlib)]
    if lacking:
        fail(f"rt ci has not built {' '.join(lacking)}")
    os.makedirs(f"{crate.folder}/out", exist_ok=True)
    words = [*crate.words(["--cpu", cpu, *(["--target", target] if target else ())]), "--toolchain", toolchain, "--incremental", "out/incremental"]
    run(f"{KIT}/bin/rattle", "build", *words, "-o", out, cwd=crate.folder)
    return out


def library(folder):
    """Builds usb_c as an archive and as a shared library in a folder."""
    archive = build("usb_c", f"{folder}/libnozzlegorse.a")
    run(LLD, "-shared", "--whole-archive", archive, "--no-whole-archive", f"{KIT}/c/liblibc_c.a", f"{KIT}/toolchain/lib/libc.so.6", "-o", f"{folder}/libnozzlegorse.so")
