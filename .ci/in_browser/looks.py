"""How the page looks: contrast, a phone's width, saved pictures; and how long it takes."""

import base64
import re
import time
import xml.dom.minidom

from . import array, data_of, held, program, ready, said
from playing.built import ROOT

# The ratio of contrast of each text that is seen, by WCAG 2.1, with the least of 4.5 that AA asks for.
CONTRAST = """(() => {
    const parts = color => (color.match(/[\\d.]+/g) ?? []).map(Number);
    const light = ([r, g, b]) => [r, g, b].map(it => it / 255).map(it => it <= 0.04045 ? it / 12.92 : ((it + 0.055) / 1.055) ** 2.4)
        .reduce((sum, it, i) => sum + it * [0.2126, 0.7152, 0.0722][i], 0);
    const behind = it => {
        for (; it; it = it.parentElement) {
            const color = parts(getComputedStyle(it).backgroundColor);
            if (color.length === 3 || color[3] === 1) return color;
        }
        return [255, 255, 255];
    };
    const low = [];
    for (const it of document.querySelectorAll('body *')) {
        const hasText = [...it.childNodes].some(node => node.nodeType === 3 && node.textContent.trim());
        if (!hasText || !it.getClientRects().length || it.closest('#behind, script, noscript')) continue;
        const style = getComputedStyle(it), ink = parts(it.closest('svg') ? style.fill : style.color);
        const [a, b] = [light(ink), light(behind(it))].sort((x, y) => y - x), ratio = (a + 0.05) / (b + 0.05);
        if (ratio < 4.5) low.push(`${it.textContent.slice(0, 30)} ${ratio.toFixed(2)}`);
    }
    return low;
})()"""
HEADINGS = re.compile(r"^ *(.*) @(\d+)\+(\d+)$", re.M)
DRAWN = re.compile(r"device |qualifier |configuration |other-speed configuration |association |interface |endpoint ")
TRIES = 4
TABS = ("tree", "text", "picture", "ladder")
# Six devices, for the documents.
PICTURED = {
    "mouse": "files/qemu-usb-mouse.file", "keyboard": "dumps/matias-keyboard.descriptors", "serial-port": "files/gadget-acm.file",
    "webcam": "files/gadget-webcam.file", "hub": "files/qemu-usb-hub.file", "network": "files/qemu-rndis-usb-network-device.file",
}
SAVED = """(async () => {
    const made = [], was = URL.createObjectURL;
    URL.createObjectURL = blob => (made.push(blob), was(blob));
    HTMLAnchorElement.prototype.click = () => {};
    at('%s').click();
    URL.createObjectURL = was;
    return made[0].text();
})()"""


def show(page, name):
    data = data_of(f"{ROOT}/testdata/{name}")
    page.value(f"drop({array(data)}, '{name}')")


def picture_by_keys(page, usbdesc):
    """Each box and arrow of the picture is a button by the name of its heading, reached by keys, which mark its bytes; each packet of
    the ladder an option."""
    count = 0
    for path in PICTURED.values():
        show(page, path)
        page.value("tab('picture'); sleep(100)")
        wanted = [it for it in HEADINGS.findall(program(usbdesc, "explain", "--utf8", "--formats", "--brief", given=data_of(f"{ROOT}/testdata/{path}"))[0]) if DRAWN.match(it[0])]
        held(f"{path}: each box and arrow has role and name", sorted(names(page, "button", "#picture")) == sorted(it[0] for it in wanted), names(page, "button", "#picture"), wanted)
        page.value("at('tab-picture').focus()")
        while page.value("document.activeElement.closest('#picture') === null"):
            page.key("Tab", 9)
        page.key("Home", 36)
        for number, (words, place, length) in enumerate(sorted(wanted, key=lambda it: int(it[1]))):
            at = page.value("(() => { const it = document.activeElement, part = it.querySelector('.frame, .hit'); return [it.getAttribute('aria-label'), it.matches(':focus-visible'), getComputedStyle(part).strokeWidth] })()")
            held(f"{path}: part {number} is reached and seen", at == [words, True, "3px"], at, words)
            page.key(*((" ", 32, " "), ("Enter", 13, "\r"))[number % 2])
            page.wait(f"marked('in-descriptor').join() === Array.from({{ length: {length} }}, (_, i) => {place} + i).join()")
            page.key("ArrowDown", 40)
            count += 1
    page.value("(async () => { tab('ladder'); await until(() => document.querySelector('.packet')) })()")
    packets = names(page, "option", "#ladder")
    held("each packet has role and name", len(packets) == page.value("document.querySelectorAll('.packet').length") and all(packets), packets)
    page.value("tab('tree')")
    said(f"{count} boxes and arrows of the picture are buttons with a name, reached, seen and picked by keys alone")


def names(page, role, place):
    """The names of what has this role there, as a reader of the screen is given them."""
    root = page.ask("Runtime.evaluate", expression=f"document.querySelector('{place}')")["result"]["objectId"]
    nodes = page.ask("Accessibility.queryAXTree", objectId=root, role=role)["nodes"]
    return [it["name"]["value"] for it in nodes if not it["ignored"]]


def contrasts(page):
    """In the light and in the dark, on a desk and on a phone, each text can be read, and nothing is wider than the screen."""
    for width, height, is_phone in ((1280, 900, False), (390, 844, True), (320, 640, True)):
        for is_dark in (False, True):
            page.look(width, height, is_dark, is_phone)
            show(page, "files/every-rule-broken.file")
            page.value("document.querySelectorAll('#tree .field')[2].click(); sleep(100)")
            for name in TABS:
                if name == "ladder":
                    show(page, "files/qemu-usb-mouse.file")
                page.value(f"tab('{name}'); sleep(150)")
                low = page.value(CONTRAST)
                held(f"contrast on {name} at {width}, dark {is_dark}", not low, low)
                widest = page.value("document.scrollingElement.scrollWidth")
                held(f"{name} fits in {width}", widest <= width, widest)
            page.value("tab('tree')")
    page.look(1280, 900)
    said("contrast of 4.5 and more in light and dark, at 1280, 390 and 320 pixels, which nothing is wider than")


def saved(page):
    """What is saved is a picture by itself."""
    show(page, "files/qemu-usb-mouse.file")
    for name, words in (("picture", "interface 0 alternate 0"), ("ladder", "SETUP")):
        page.value(f"tab('{name}'); sleep(300)")
        text = page.value(SAVED % f"save-{name}")
        document = xml.dom.minidom.parseString(text)
        held(f"the saved {name}", document.documentElement.tagName == "svg" and words in text and "fill=" in text and "var(" not in text)
    page.value("tab('tree')")
    said("picture and ladder are saved as .svg")


def pictures(page, folder):
    """Writes six devices and a ladder."""
    page.look(760, 600)
    for name, path in PICTURED.items():
        show(page, path)
        page.value("tab('picture'); sleep(300)")
        clip(page, f"{folder}/{name}.png", "#picture svg")
    show(page, PICTURED["mouse"])
    page.value("(async () => { tab('ladder'); await sleep(300); at('fates').value = '....au'; at('fates').dispatchEvent(new Event('change')); await sleep(500); })()")
    clip(page, f"{folder}/ladder.png", "#ladder svg", 900)
    page.look(1280, 900)


def clip(page, path, selector, most=1400):
    """A picture of an element, from its top."""
    page.look(760, 4000)
    page.value("sleep(300)")
    box = page.value(f"(() => {{ const it = document.querySelector('{selector}').getBoundingClientRect(); return [it.x, it.y, it.width, it.height] }})()")
    page.picture(path, clip={"x": box[0], "y": box[1], "width": box[2], "height": min(box[3], most), "scale": 1})


def set_of(length, item):
    """One set of so many bytes."""
    head = bytes([9, 2]) + length.to_bytes(2, "little") + bytes([1, 1, 0, 0x80, 50, 9, 4, 0, 0, 0, 255, 0, 0, 0])
    body = bytearray(item * ((length - len(head)) // len(item)))
    rest = length - len(head) - len(body)
    return head + bytes(body) + (bytes([rest, 0x24]) + bytes(rest - 2) if rest > 1 else b"")


def times(page, file):
    """Milliseconds until the first text, and of 64 KiB and 1 MiB, each with and without a finding at each descriptor: the least of a
    few tries, since other work on the machine makes each longer."""
    begun = time.monotonic()
    ready(page, file)
    show(page, "files/qemu-usb-mouse.file")
    found = {"first text, from the opening on": (time.monotonic() - begun) * 1000}
    device = bytes([18, 1, 0, 2, 0, 0, 0, 64, 1, 0, 2, 0, 0, 1, 0, 0, 0, 16])
    items = {"": bytes([7, 0x24, 1, 0, 0, 0, 0]), " with a finding at each descriptor": bytes([7, 5, 0x81, 3, 8, 0, 10])}
    for what, item in items.items():
        for size, data in (("64 KiB", set_of(65535, item)), ("1 MiB", device + set_of(65535, item) * 16)):
            tries = [taken(page, data) for _ in range(TRIES)]
            found[f"{size}{what}"] = min(drawn for drawn, _ in tries)
            if what:
                found[f"{size}{what}, until the rows in view say it"] = min(said for _, said in tries)
    for what, most in (("64 KiB", 1000), ("1 MiB", 10000)):
        held(f"{what} in {most} ms", all(it <= most for name, it in found.items() if name.startswith(what) and "," not in name), found)
    said("64 KiB are read within a second, 1 MiB within ten")
    return [f"{what}: {it:.0f} ms" for what, it in found.items()]


def taken(page, data):
    """Milliseconds from the drop to the tree's first rows, and until those in view have their words. The bytes are in the page before."""
    page.value(f"globalThis.given = Uint8Array.fromBase64?.('{base64.b64encode(data).decode()}'); 0")
    return page.value(f"""(async () => {{
        const begun = performance.now();
        await drop(given, 'large');
        await until(() => document.querySelector('#tree .row')?.textContent.includes('{len(data)} bytes'));
        const drawn = performance.now() - begun, tree = at('tree').getBoundingClientRect();
        await until(() => ![...document.querySelectorAll('#tree [aria-busy]')].some(it => it.getBoundingClientRect().top < tree.bottom));
        return [drawn, performance.now() - begun];
    }})()""")
