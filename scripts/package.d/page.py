"""The page as one HTML file: what lies in page/, joined, with the library as WebAssembly in it, of which only what the page calls is
linked. The file loads nothing, and its policy (Content-Security-Policy) forbids it."""

import base64
import glob
import gzip
import hashlib
import json
import re

import declared
import targets
from playing.built import ROOT, fail

FOLDER = f"{ROOT}/page"
IMPORT = re.compile(r"^import \{ (.*) \} from '\.{1,2}/(?:javascript/)?([\w.]+)';\n", re.M)
EXPORT = re.compile(r"^export (?=(?:async )?(?:function|class|const) (\w+))", re.M)
# Nothing is loaded from anywhere: styles and scripts are those with these digests, and the worker is made of a text in the file.
POLICY = "default-src 'none'; script-src 'sha256-{script}' 'wasm-unsafe-eval'; style-src 'sha256-{style}'; worker-src blob:; base-uri 'none'; form-action 'none'"


def text_of(path):
    with open(path, encoding="utf-8") as it:
        return it.read()


def calls():
    """The calls that the page makes, each of which the header has to declare."""
    sources = "".join(text_of(it) for it in glob.glob(f"{FOLDER}/*.js"))
    known = declared.calls(declared.text_of_header())
    named = set(re.findall(r"\bnzg_\w+", sources))
    if lacking := sorted(named - set(known)):
        fail(f"page: the header has no {' '.join(lacking)}")
    return [it for it in known if it in named]


def source(name):
    """A module's text. What the header declares is made of it, and that of JavaScript's package is the page's too."""
    if name == "declared.mjs":
        return declared.javascript(declared.text_of_header(), calls())
    return text_of(f"{ROOT}/javascript/{name}" if name.endswith(".mjs") else f"{FOLDER}/{name}")


def variable(name):
    return re.sub(r"\W", "_", name)


def wrapped(name):
    """A module as a value that has what it exports. Two modules may have the same names inside."""
    text = IMPORT.sub(lambda it: f"const {{ {it[1].replace(' as ', ': ')} }} = {variable(it[2])};\n", source(name))
    body = EXPORT.sub("", text)
    if re.search(r"^(import|export)\b|</script", body, re.M):
        fail(f"page: {name} imports or exports in a form that isn't known")
    return f"const {variable(name)} = (() => {{\n{body}return {{ {', '.join(EXPORT.findall(text))} }};\n}})();\n"


def needed(name, found):
    """The modules that one imports, each behind those that it imports itself."""
    for _, other in IMPORT.findall(source(name)):
        needed(other, found)
    if name not in found:
        found.append(name)
    return found


def joined(name):
    return "'use strict';\n" + "".join(map(wrapped, needed(name, [])))


def encoded(data):
    return base64.b64encode(data).decode()


def digest(text):
    return encoded(hashlib.sha256(text.encode()).digest())


def examples(page):
    """The bytes of the examples that the page names."""
    names = re.findall(r'<option value="([\w/.-]+\.\w+)">', page)
    found = {}
    for name in names:
        with open(f"{ROOT}/testdata/{name}", "rb") as it:
            found[name] = encoded(it.read())
    return json.dumps(found)


def put(page, name, text):
    """The page with a text in the element of this id, which is empty."""
    made, count = re.subn(rf'(<(script|style)\b[^>]*\bid="{name}"[^>]*>)(</\2>)', lambda it: it[1] + text + it[3], page)
    if count != 1:
        fail(f"page: index.html has {count} elements with the id {name}")
    return made


def html(made, version, room):
    """The file's text, over an object of the library of this version."""
    with open(targets.wasm(made, room, calls()), "rb") as it:
        module = gzip.compress(it.read(), 9, mtime=0)
    page, style, script = text_of(f"{FOLDER}/index.html"), text_of(f"{FOLDER}/style.css"), joined("page.js")
    policy = POLICY.format(script=digest(script), style=digest(style))
    page = page.replace("VERSION", version)
    parts = {"style": style, "examples": examples(page), "module": encoded(module), "worker": joined("worker.js"), "script": script}
    for name, text in parts.items():
        page = put(page, name, text)
    return page.replace('http-equiv="Content-Security-Policy" content=""', f'http-equiv="Content-Security-Policy" content="{policy}"')


def write(made, version, room, out):
    """Writes nozzlegorse.html; gives its length."""
    text = html(made, version, room)
    with open(f"{out}/nozzlegorse.html", "w", encoding="utf-8") as it:
        it.write(text)
    return len(text.encode())
