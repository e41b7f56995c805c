"""The package for npm in Chromium, beside the program: it is served from this machine, as a page has it, and each input of testdata is
explained, listed and checked, and each recording read."""

import base64
import contextlib
import functools
import glob
import http.server
import json
import shutil
import subprocess
import threading

from in_browser import chromium
from playing.built import ROOT
from processors import recordings

SPEEDS = ("", "low", "full", "high", "super")
# The options of explain, by a bit each.
BITS = (("brief", "--brief", 1), ("places", "--no-places", 0), ("utf8", "--utf8", 1), ("formats", "--formats", 1))
LOAD = "import('/index.mjs').then(async it => { window.Fault = it.Fault; window.usb = await it.load(); return true })"
# A text for each manner, nothing where it is refused: the program writes nothing then.
TEXTS = """(() => {
    const bytes = Uint8Array.from(atob('%s'), it => it.charCodeAt(0));
    const given = call => { try { return call() } catch (fault) { if (!(fault instanceof Fault)) throw fault; return '' } };
    return [...%s.map(it => usb.explain(bytes, it).text),
            ...[false, true].flatMap(any => [given(() => usb.show(bytes, { any })), given(() => usb.report(bytes, { any }))])];
})()"""


class Quiet(http.server.SimpleHTTPRequestHandler):
    """A server that says nothing, knows what a module is, and notes what it is asked for."""

    extensions_map = {".mjs": "text/javascript", ".wasm": "application/wasm", "": "text/html"}
    requests = []

    def log_message(self, *_):
        self.requests.append(self.path)


@contextlib.contextmanager
def served(folder):
    """The address at which a folder is served."""
    server = http.server.ThreadingHTTPServer(("127.0.0.1", 0), functools.partial(Quiet, directory=folder))
    threading.Thread(target=server.serve_forever, daemon=True).start()
    try:
        yield f"http://127.0.0.1:{server.server_port}/"
    finally:
        server.shutdown()
        server.server_close()


def manners():
    """Options of explain in JavaScript, and its words."""
    for number in range(16):
        options, words = {"speed": SPEEDS[number % 5]}, ["explain"]
        for bit, (name, word, when) in enumerate(BITS):
            options[name] = bool(number >> bit & 1)
            words += [word] if options[name] == when else []
        yield options, words + (["--speed", options["speed"]] if options["speed"] else [])


def differing(page, program, path):
    """How many texts of an input there are, and the words of those that the program writes otherwise."""
    known = list(manners())
    words = [it for _, it in known] + [[command, *more] for more in ([], ["--any"]) for command in ("show", "check")]
    with open(path, "rb") as it:
        data = it.read()
    came = page.value(TEXTS % (base64.b64encode(data).decode(), json.dumps([it for it, _ in known])))
    wanted = [subprocess.run([program, *it], input=data, capture_output=True, check=False).stdout.decode() for it in words]
    return len(words), [" ".join(it) for it, one, other in zip(words, came, wanted, strict=True) if one != other]


def is_right(package, program, said):
    """Whether all texts of testdata are the same by the package in Chromium and by the program."""
    if not chromium.PROGRAM:
        said("npm: not tried in Chromium, there is none here")
        return True
    inputs = sorted(it for end in ("file", "bin", "descriptors") for it in glob.glob(f"{ROOT}/testdata/**/*.{end}", recursive=True))
    count, faults = 0, []
    shutil.copy(f"{recordings.PLACE}/recordings.mjs", f"{package}/recordings_as_told.mjs")
    with served(package) as address, chromium.opened() as page:
        page.open(f"{address}empty")
        page.value(LOAD)
        for path in inputs:
            number, found = differing(page, program, path)
            count += number
            faults += [f"{path}: {it}" for it in found]
        are_read = recordings.in_chromium(page, Quiet.requests, program, said)
    for it in faults[:10]:
        said(f"npm: in Chromium: {it}")
    said(f"npm: {chromium.version()}: {len(inputs)} inputs: {count - len(faults)} texts as of usbdesc, {len(faults)} others")
    return not faults and are_read
