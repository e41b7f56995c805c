"""The packages: what lies where in each, and their bytes. Files are given by their paths, each with its content, or the
target of a link as text, and its mode."""

import base64
import email.utils
import glob
import gzip
import hashlib
import io
import os
import re
import tarfile
import textwrap
import time
import zipfile
from typing import NamedTuple

import pages
import systems
from playing.built import ROOT

SUMMARY = "USB 2.0 descriptors, and both ends of the control pipe, by a proved library"
# What is tried on the bench of C, and what of examples is in no package: the first has lines for the top of the repository.
ON_BENCH = ("tiny.c", "tiny_host.c", "tiny_stack.c", "hosted.h")
UNPACKED = ("README.md", "rust/firmware/Cargo.lock", "rust/firmware/.gitignore")
CONFIG = """prefix={prefix}
libdir=${{prefix}}/{libdir}
includedir=${{prefix}}/include
benchdir=${{prefix}}/share/nozzlegorse/bench

Name: nozzlegorse
Description: {summary}
Version: {version}
Libs: -L${{libdir}} -lnozzlegorse
Cflags: -I${{includedir}}
"""
MAINTAINER = "Nozzlegorse maintainers <maintainers@users.noreply.nozzlegorse.example>"
CONTROL = """Package: nozzlegorse
Version: {version}
Architecture: {architecture}
Maintainer: {maintainer}
Installed-Size: {size}
Depends: {needs}
Recommends: python3 (>= 3.10)
Section: utils
Priority: optional
{homepage}Description: {summary}
 The program usbdesc explains, checks, lists and builds the descriptors of a
 USB device, and reads them as a host does over a bus that loses packets. The
 command nozzlegorse does so of files and of devices that are plugged in, and
 compares them, in the forms that CI reads. It is written in Python.
 .
 The library has the same calls for C, and both ends of the control pipe,
 transaction by transaction. Its header, archive and pkg-config file are in
 this package, and so is the bench, which tries the control pipe of another
 device or host beside the proved one.
"""
# Which package has a library of this name and number.
SHLIBS = """libnozzlegorse {number} nozzlegorse (>= {version})
libnozzlegorse_bench {number} nozzlegorse (>= {version})
"""
# The command of the Python package, beside which its library is.
STARTS = """#!/bin/sh
here=$(dirname "$(realpath "$0")")/..
: "${{NOZZLEGORSE_LIBRARY:=$here/{library}}}"
export NOZZLEGORSE_LIBRARY
exec python3 -B "$here/share/nozzlegorse/python" "$@"
"""
MAIN = """import sys

from nozzlegorse.command import main

sys.exit(main())
"""
METADATA = """Metadata-Version: 2.1
Name: nozzlegorse
Version: {version}
Summary: {summary}
Author: the Nozzlegorse authors
{homepage}License: MIT
Keywords: usb,descriptor,firmware,driver,verified
Classifier: Development Status :: 4 - Beta
Classifier: Intended Audience :: Developers
Classifier: License :: OSI Approved :: MIT License
Classifier: Operating System :: POSIX :: Linux
Classifier: Programming Language :: Python :: 3
Classifier: Topic :: Software Development :: Embedded Systems
Classifier: Topic :: Software Development :: Testing
Classifier: Topic :: System :: Hardware :: Universal Serial Bus (USB)
Classifier: Typing :: Typed
Requires-Python: >=3.10
Description-Content-Type: text/markdown

{description}"""


class Made(NamedTuple):
    """What is packed: its version, the folder that it was built in, the program's help, the time that files get, and the address of
    the sources, where one was named."""

    version: str
    room: str
    help: pages.Help
    command: pages.CommandHelp
    epoch: int
    repository: str = ""
    system: systems.System = systems.NATIVE

    def for_python(self):
        """The version as Python's installers have it, by which what precedes a release is older than that."""
        return self.version.replace("-dev", ".dev0")

    def for_debian(self):
        """And as dpkg has it."""
        return self.version.replace("-dev", "~dev")


def read(path):
    with open(path, "rb") as it:
        return it.read()


def pages_of(made):
    """The man pages and completions of both programs, by their places."""
    files = {}
    for it in (made.help, made.command):
        files[f"share/man/man1/{it.name}.1.gz"] = gzip.compress(pages.man(it, made.version, made.epoch).encode(), 9, mtime=0), 0o644
        files[f"share/bash-completion/completions/{it.name}"] = pages.bash(it).encode(), 0o644
        files[f"share/zsh/vendor-completions/_{it.name}"] = pages.zsh(it).encode(), 0o644
        files[f"share/fish/vendor_completions.d/{it.name}.fish"] = pages.fish(it).encode(), 0o644
    return files


def with_version(path, made):
    """A source that says the version says that of the package."""
    mark = rb'^((?:__version__|version) = ").*"$'
    return re.sub(mark, rb'\g<1>' + made.version.encode() + b'"', read(path), count=1, flags=re.M)


def python_module():
    """The files of the package by their names in it."""
    found = (it for kind in ("**/*.py", "py.typed") for it in glob.glob(f"{ROOT}/python/nozzlegorse/{kind}", recursive=True))
    return {os.path.relpath(it, f"{ROOT}/python"): it for it in sorted(found)}


def bench():
    """The sources of the bench for C, without the programs that try it."""
    return [it for kind in "ch" for it in sorted(glob.glob(f"{ROOT}/callers/c/nozzlegorse_*.{kind}"))]


def examples():
    """Each example by its path: those of C, Python, Rust and USB/IP, the firmwares, and what is tried on the bench of C."""
    for folder, _, names in sorted(os.walk(f"{ROOT}/examples")):
        if not {"target", "__pycache__"} & set(folder.split("/")):
            yield from ((os.path.relpath(f"{folder}/{it}", f"{ROOT}/examples"), f"{folder}/{it}") for it in sorted(names))
    yield from ((f"rust/{os.path.basename(it)}", it) for it in sorted(glob.glob(f"{ROOT}/rust/examples/*.rs")))
    yield from ((f"bench/{it}", f"{ROOT}/callers/c/{it}") for it in ON_BENCH)


def unlinked(name, content):
    """A file of an example as it is outside of the repository: without links into that, or a path to the crate."""
    if name.endswith("README.md"):
        return re.sub(rb"\[([^]]*)\]\([^)]*\)", rb"\1", content)
    return re.sub(rb"^nozzlegorse = .*\n", b"", content, flags=re.M) if name.endswith("Cargo.toml") else content


def shared():
    """What each package has at the same places: the bench for C, all examples, and the schema of JSON."""
    files = {f"share/nozzlegorse/bench/{os.path.basename(it)}": (read(it), 0o644) for it in bench()}
    for name, path in examples():
        if name not in UNPACKED:
            mode = 0o755 if os.access(path, os.X_OK) else 0o644
            files[f"share/doc/nozzlegorse/examples/{name}"] = unlinked(name, read(path)), mode
    files["share/doc/nozzlegorse/schema.json"] = read(f"{ROOT}/docs/schema.json"), 0o644
    return files


def rust_crate():
    kinds = ("Cargo.toml", "build.rs", "README.md", "src/*.rs", "examples/*.rs")
    return [it for kind in kinds for it in sorted(glob.glob(f"{ROOT}/rust/{kind}"))]


def installed(made, libdir, prefix):
    """The program and the library as a system has them, below its prefix."""
    plain, release = f"{libdir}/libnozzlegorse", made.version.partition("+")[0]
    number = release.partition(".")[0]
    major, of_bench = f"libnozzlegorse.so.{number}", f"libnozzlegorse_bench.so.{number}"
    config = CONFIG.format(prefix=prefix, libdir=libdir, summary=SUMMARY, version=made.version)
    return {
        "bin/usbdesc": (read(f"{made.room}/usbdesc"), 0o755),
        f"{plain}.a": (read(f"{made.room}/libnozzlegorse.a"), 0o644),
        f"{plain}.so.{release}": (read(f"{made.room}/libnozzlegorse.so"), 0o644),
        f"{libdir}/{major}": (f"libnozzlegorse.so.{release}", 0o777),
        f"{plain}.so": (major, 0o777),
        f"{libdir}/{of_bench}": (read(f"{made.room}/libnozzlegorse_bench.so"), 0o644),
        f"{plain}_bench.so": (of_bench, 0o777),
        f"{libdir}/pkgconfig/nozzlegorse.pc": (config.encode(), 0o644),
        "include/nozzlegorse.h": (read(f"{made.room}/nozzlegorse.h"), 0o644),
        "share/doc/nozzlegorse/copyright": (read(f"{ROOT}/LICENSE"), 0o644),
        "share/doc/nozzlegorse/nozzlegorse.html": (read(f"{made.room}/nozzlegorse.html"), 0o644),
        "bin/nozzlegorse": (STARTS.format(library=f"{libdir}/{major}").encode(), 0o755),
        **{f"share/nozzlegorse/python/{name}": (with_version(path, made), 0o644) for name, path in python_module().items()},
        "share/nozzlegorse/python/__main__.py": (MAIN.encode(), 0o644),
        **pages_of(made),
        **shared(),
    }


def packed(files, epoch):
    """A tar.gz of the files, after the folders that they lie in."""
    whole = io.BytesIO()
    folders = {path[:at] for path in files for at in range(len(path)) if path[at] == "/"}
    with tarfile.open(fileobj=whole, mode="w", format=tarfile.USTAR_FORMAT) as archive:
        for path in sorted(folders | set(files)):
            content, mode = files.get(path, (b"", 0o755))
            row = tarfile.TarInfo(path)
            row.mode, row.mtime, row.uname, row.gname = mode, epoch, "root", "root"
            row.type = tarfile.DIRTYPE if path in folders else tarfile.SYMTYPE if isinstance(content, str) else tarfile.REGTYPE
            row.linkname, content = (content, b"") if isinstance(content, str) else ("", content)
            row.size = len(content)
            archive.addfile(row, io.BytesIO(content))
    return gzip.compress(whole.getvalue(), 9, mtime=epoch)


def plain(made):
    top = f"nozzlegorse-{made.version}-{made.system.name}"
    files = installed(made, "lib", "${pcfiledir}/../..")
    return f"{top}.tar.gz", packed({f"{top}/{path}": it for path, it in files.items()}, made.epoch)


def crate(made):
    top = f"nozzlegorse-{made.version}"
    files = {os.path.relpath(it, f"{ROOT}/rust"): (with_version(it, made), 0o644) for it in rust_crate()}
    if made.repository:
        manifest = files["Cargo.toml"][0].replace(b'\nreadme = ', f'\nrepository = "{made.repository}"\nreadme = '.encode())
        files["Cargo.toml"] = manifest, 0o644
    files |= shared() | {"include/nozzlegorse.h": (read(f"{made.room}/nozzlegorse.h"), 0o644)}
    files[f"lib/{made.system.target}/libnozzlegorse.a"] = read(f"{made.room}/libnozzlegorse.a"), 0o644
    files["LICENSE"] = read(f"{ROOT}/LICENSE"), 0o644
    return f"{top}.crate", packed({f"{top}/{path}": it for path, it in files.items()}, made.epoch)


def changelog(made):
    """What CHANGELOG.md says of this version, as Debian has it: its headings between brackets, and lines of at most 79 columns."""
    newest = re.split(r"^## .*$", read(f"{ROOT}/CHANGELOG.md").decode(), flags=re.M)[1]
    lines = [f"nozzlegorse ({made.for_debian()}) unstable; urgency=medium"]
    for line in re.findall(r"^(?:### .*|- .*)$", newest, re.M):
        plain_text = re.sub(r"\[([^]]*)\]\([^)]*\)|[`*]", r"\1", line)
        if line.startswith("#"):
            lines += ["", f"  [ {plain_text.lstrip('# ')} ]"]
        else:
            lines += textwrap.wrap(plain_text[2:], 79, initial_indent="  * ", subsequent_indent="    ", break_on_hyphens=False)
    date = email.utils.formatdate(made.epoch)
    return "\n".join([*lines, "", f" -- {MAINTAINER}  {date.replace('-0000', '+0000')}", ""]).encode()


def debian(made):
    """An archive of ar with three members, each at an even place."""
    files = {f"./usr/{path}": it for path, it in installed(made, made.system.library_folder(), "/usr").items()}
    files["./usr/share/doc/nozzlegorse/changelog.gz"] = gzip.compress(changelog(made), 9, mtime=0), 0o644
    regular = {path: content for path, (content, _) in sorted(files.items()) if isinstance(content, bytes)}
    homepage = f"Homepage: {made.repository}\n" * bool(made.repository)
    of_package = {"version": made.for_debian(), "maintainer": MAINTAINER, "homepage": homepage, "summary": SUMMARY,
                  "architecture": made.system.debian, "needs": made.system.needs}
    texts = {
        "control": CONTROL.format(**of_package, size=sum(map(len, regular.values())) // 1024),
        "md5sums": "".join(f"{hashlib.md5(content).hexdigest()}  {path[2:]}\n" for path, content in regular.items()),
        "shlibs": SHLIBS.format(version=made.for_debian(), number=made.version.partition(".")[0]),
        "triggers": "activate-noawait ldconfig\n",
    }
    about = {f"./{name}": (text.encode(), 0o644) for name, text in texts.items()}
    whole = b"!<arch>\n"
    for name, data in (("debian-binary", b"2.0\n"), ("control.tar.gz", packed(about, made.epoch)), ("data.tar.gz", packed(files, made.epoch))):
        whole += f"{name:<16}{made.epoch:<12}{0:<6}{0:<6}{'100644':<8}{len(data):<10}`\n".encode() + data + b"\n" * (len(data) % 2)
    return f"nozzlegorse_{made.for_debian()}_{made.system.debian}.deb", whole


def metadata(made):
    homepage = f"Project-URL: Source, {made.repository}\n" * bool(made.repository)
    description = read(f"{ROOT}/python/README.md").decode()
    return METADATA.format(version=made.for_python(), summary=SUMMARY, homepage=homepage, description=description)


def wheel(made):
    name = f"nozzlegorse-{made.for_python()}"
    info = f"{name}.dist-info"
    files = {name: (with_version(path, made), 0o644) for name, path in python_module().items()}
    for library in ("libnozzlegorse.so", "libnozzlegorse_bench.so"):
        files[f"nozzlegorse/{library}"] = read(f"{made.room}/{library}"), 0o644
    files[f"{name}.data/scripts/usbdesc"] = read(f"{made.room}/usbdesc"), 0o755
    # In the package's folder, which pip removes whole.
    files |= {f"nozzlegorse/{path}": it for path, it in (shared() | pages_of(made)).items()}
    files[f"{info}/entry_points.txt"] = b"[console_scripts]\nnozzlegorse = nozzlegorse.command:main\n", 0o644
    files["nozzlegorse/nozzlegorse.html"] = read(f"{made.room}/nozzlegorse.html"), 0o644
    files["nozzlegorse/include/nozzlegorse.h"] = read(f"{made.room}/nozzlegorse.h"), 0o644
    files[f"{info}/METADATA"] = metadata(made).encode(), 0o644
    files[f"{info}/WHEEL"] = f"Wheel-Version: 1.0\nGenerator: nozzlegorse\nRoot-Is-Purelib: false\nTag: {made.system.wheel}\n".encode(), 0o644
    files[f"{info}/LICENSE"] = read(f"{ROOT}/LICENSE"), 0o644
    digests = {path: base64.urlsafe_b64encode(hashlib.sha256(data).digest()).rstrip(b"=").decode() for path, (data, _) in files.items()}
    record = "".join(f"{path},sha256={digest},{len(files[path][0])}\n" for path, digest in digests.items())
    files[f"{info}/RECORD"] = f"{record}{info}/RECORD,,\n".encode(), 0o644
    whole = io.BytesIO()
    with zipfile.ZipFile(whole, "w", zipfile.ZIP_DEFLATED) as archive:
        for path, (data, mode) in files.items():
            row = zipfile.ZipInfo(path, time.gmtime(made.epoch)[:6])
            row.external_attr, row.compress_type = (0o100000 | mode) << 16, zipfile.ZIP_DEFLATED
            archive.writestr(row, data)
    return f"{name}-{made.system.wheel}.whl", whole.getvalue()
