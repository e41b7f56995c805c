"""What the page says where it can't do a thing, and a device that WebUSB gives."""

import json
import re

from . import array, data_of, held, program, ready, said
from .chromium import opened
from playing.built import ROOT

# A device of WebUSB made of descriptors: it answers GET_DESCRIPTOR, and stalls what it lacks.
DEVICE = """
(() => {
    const held = %s;
    const device = {
        open: async () => { device.isOpen = true; },
        close: async () => { device.isOpen = false; },
        controlTransferIn: async ({ requestType, recipient, request, value, index }, length) => {
            if (!device.isOpen || requestType !== 'standard' || recipient !== 'device' || request !== 6) throw new Error('no such request');
            const bytes = held[`${value >> 8} ${value & 255} ${index}`];
            if (!bytes) return { status: 'stall', data: undefined };
            return { status: 'ok', data: new DataView(Uint8Array.from(bytes).slice(0, length).buffer) };
        },
    };
    Object.defineProperty(Navigator.prototype, 'usb', { get: () => ({ requestDevice: async () => device }) });
})()
"""


def told_after(file, before="", act="0"):
    """What the page says after this, in a browser of its own."""
    with opened() as page:
        if before:
            page.before(before)
        ready(page, file)
        page.value(act)
        return page.value("(async () => { await until(() => isNew() && at('told').textContent); return at('told').textContent })()")


def sentences(file, room):
    """A sentence each, and nothing else happens."""
    with open(file, encoding="utf-8") as it:
        text = it.read()
    broken, count = re.subn(r'(id="module">.{2000}).{40}', r"\1" + "A" * 40, text)
    held("the module is in the file", count == 1)
    with open(f"{room}/broken.html", "w", encoding="utf-8") as it:
        it.write(broken)
    told = {
        "without WebAssembly": told_after(file, "delete globalThis.WebAssembly"),
        "with a broken module": told_after(f"{room}/broken.html"),
        "with 41 MB": told_after(file, act="drop(new Uint8Array(41e6), 'large')"),
        "without WebUSB": told_after(file, "delete Navigator.prototype.usb", "at('ask').click()"),
    }
    for case, words in (("without WebAssembly", "WebAssembly"), ("with a broken module", "broken"), ("with 41 MB", "41,000,000 bytes"), ("without WebUSB", "WebUSB")):
        held(case, words in told[case] and told[case].endswith("."), told[case])
        said(f"{case}: {told[case]}")


def descriptors_of(data):
    """A file's descriptors as a device gives them: by type, index and language."""
    found, place, counts, languages, indices = {}, 0, {}, [], []
    while place < len(data):
        kind, length = data[place + 1], data[place]
        if kind in (2, 7):
            length = int.from_bytes(data[place + 2 : place + 4], "little")
        key = f"{kind} {counts.get(kind, 0)} 0"
        if kind == 3 and languages:
            number = counts[3] - 1
            key = f"3 {indices[number % len(indices)]} {languages[number // len(indices)]}"
        elif kind == 3:
            languages = [int.from_bytes(data[at : at + 2], "little") for at in range(place + 2, place + length, 2)]
            indices = sorted(indices_of(data))
        counts[kind] = counts.get(kind, 0) + 1
        found[key] = list(data[place : place + length])
        place += length
    return found


def indices_of(data):
    """The strings that the mouse names."""
    return {it for it in (*data[14:17], data[18 + 6], data[18 + 9 + 8]) if it}


def devices(file):
    """A plugged-in device is read as its file has it; where one stalls, what came is shown, and which request was refused."""
    mouse = data_of(f"{ROOT}/testdata/files/qemu-usb-mouse.file")
    whole = descriptors_of(mouse)
    without = lambda *keys: {key: it for key, it in whole.items() if key not in keys}  # noqa: E731
    cases = {
        "whole": (whole, mouse, ""),
        "without a string": (without("3 2 1033"), mouse[:52], "GET_DESCRIPTOR string 2, 255 bytes: stall"),
        "without a configuration": (without("2 0 0"), mouse[:18], "GET_DESCRIPTOR configuration 0, 9 bytes: stall"),
        "without anything": ({}, b"", "GET_DESCRIPTOR device 0, 18 bytes: stall"),
    }
    for name, (held_by, bytes_read, words) in cases.items():
        with opened() as page:
            page.before(DEVICE % json.dumps(held_by))
            ready(page, file)
            told = page.value("(async () => { stale(); at('ask').click(); await until(isNew); return at('told').textContent })()")
            held(f"a device {name} tells what was refused", told == words, told)
            shown = bytes.fromhex(page.value("at('box').value"))
            held(f"a device {name} is shown", shown == bytes_read, shown.hex(" "))
    said(f"{len(cases)} devices of WebUSB are read, one whole")
