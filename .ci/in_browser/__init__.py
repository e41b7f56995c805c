"""The page in a real browser, beside the program."""

import glob
import json
import os
import subprocess

from playing.built import ROOT, fail


# What was said, for the documents.
SAID = []


def said(*words):
    print("page:", *words, flush=True)
    SAID.append(" ".join(map(str, words)))


def write(name, lines):
    """What the documents print, beside this file."""
    with open(os.path.join(os.path.dirname(os.path.abspath(__file__)), name), "w", encoding="utf-8") as it:
        it.write("".join(f"{line}\n" for line in lines))


def held(what, is_so, *more):
    """A fact that must hold."""
    if not is_so:
        fail(f"{what}: {' '.join(map(str, more))[:1500]}")


def data_of(path):
    with open(path, "rb") as it:
        return it.read()


def inputs():
    """Files, dumps and mistakes of testdata, each with its bytes."""
    for kind in ("files/*.file", "rules/*.file", "dumps/*.descriptors", "mistakes/*.bin", "sets/*.bin"):
        for path in sorted(glob.glob(f"{ROOT}/testdata/{kind}")):
            yield os.path.relpath(path, f"{ROOT}/testdata"), data_of(path)


def program(usbdesc, *words, given=b""):
    """What the program writes and how it ends."""
    ran = subprocess.run([usbdesc, *words], input=given, capture_output=True)
    return ran.stdout.decode(), ran.stderr.decode(), ran.returncode


def array(data):
    """Bytes as JavaScript has them."""
    return f"new Uint8Array({json.dumps(list(data))})"


# What a person does, as functions of the page's tests.
HELPERS = """
globalThis.at = id => document.getElementById(id);
globalThis.sleep = ms => new Promise(go => setTimeout(go, ms));
globalThis.until = async holds => {
    for (let i = 0; i < 20000; i++) {
        const found = holds();
        if (found) return found;
        await sleep(i < 50 ? 1 : 5);
    }
    throw new Error(`it never holds: ${holds}`);
};
// The panels are filled anew after each input: this one is gone then.
globalThis.stale = () => {
    document.querySelectorAll('#tree .rows').forEach(it => it.replaceChildren());
    at('told').textContent = '...';
};
globalThis.isNew = () => !at('told').textContent.startsWith('...');
globalThis.drop = async (bytes, name) => {
    stale();
    const given = new DataTransfer();
    given.items.add(new File([bytes], name));
    dispatchEvent(new DragEvent('drop', { dataTransfer: given, cancelable: true }));
    await until(isNew);
};
globalThis.paste = async text => {
    stale();
    at('box').value = text;
    at('box').dispatchEvent(new Event('input'));
    await until(isNew);
};
globalThis.textShown = () => at('found').hidden ? '' : [...document.querySelectorAll('#text .row')].map(it => it.textContent).join('');
globalThis.marked = kind => [...document.querySelectorAll(`#bytes .${kind}`)].map(it => Number(it.dataset.place));
// Rows that say a finding, a remark or a field are filled once they are drawn.
globalThis.said = () => until(() => !document.querySelector('#tree [aria-busy]'));
globalThis.rows = () => [...document.querySelectorAll('#tree .row')].map(it =>
    [Number(it.dataset.line), it.classList[1], ...[...it.querySelectorAll('span:not(.fold)')].map(part => part.textContent)]);
globalThis.tab = name => at(`tab-${name}`).click();
"""


def ready(page, file):
    """Opens a file in the page's browser, with the helpers in it."""
    page.open(f"file://{file}")
    page.wait("document.body.dataset.state")
    page.value(HELPERS + "0")
