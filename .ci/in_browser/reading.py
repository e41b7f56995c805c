"""Texts, marks, and the ways by which bytes come in."""

import glob
import importlib.util
import json
import os
import random
import re

from . import array, data_of, held, inputs, program, ready, said
from .chromium import opened
from playing.built import ROOT

OPTIONS = ("explain", "--utf8", "--formats")
HEADING = re.compile(r" @(\d+)\+(\d+)$", re.M)
IN_HEXADECIMAL = re.compile(r"^hexadecimal text, \d+ bytes: ")
# The module of the wheel by itself, since its package wants the library.
SPEC = importlib.util.spec_from_file_location("of_wheel", f"{ROOT}/python/nozzlegorse/page.py")
OF_WHEEL = importlib.util.module_from_spec(SPEC)
SPEC.loader.exec_module(OF_WHEEL)
HOSTILE = '<img src=x onerror="document.title=1"></script><b>&amp;'


def texts_and_marks(page, usbdesc):
    """Of each example the text is the program's, and each heading marks the bytes of its place."""
    count = headings = 0
    for name, data in inputs():
        wanted, _, _ = program(usbdesc, *OPTIONS, given=data)
        came = page.value(f"(async () => {{ await drop({array(data)}, {json.dumps(name)}); return textShown() }})()")
        held(f"{name}: the text is the program's", came == wanted, difference(came, wanted))
        places = [[int(it[0]), int(it[1])] for it in HEADING.findall(wanted)]
        marks = page.value("""(() => [...document.querySelectorAll('#tree .heading')].map(it => it.id).map(id => {
            at(id).querySelector('.words').click();
            const marks = marked('in-descriptor');
            return [marks[0] ?? -1, marks.length];
        }))()""")
        visible = [[it[0] if it[1] else -1, it[1]] for it in places]
        held(f"{name}: each heading marks its bytes", marks == visible, marks, visible)
        page.value("(async () => { at('all-fields').checked || at('all-fields').click(); await said() })()")
        rows_are_lines(name, page.value("rows()"), wanted)
        count, headings = count + 1, headings + len(marks)
    said(f"{count} texts are the program's, and {headings} headings mark their bytes")


def rows_are_lines(name, rows, wanted):
    """Each row of the tree says what its line of the program's text does, and so is below the same heading."""
    lines = wanted.split("\n")
    for number, kind, *parts in rows:
        words = f"{parts[0]:<22} {parts[1]}" if kind == "field" and len(parts) > 1 else " ".join(parts)
        line = lines[number].strip().replace("! trailing bytes at", "! trailing at")
        held(f"{name}: row {number} is the program's line", words == line, repr(words), repr(line))


# The worker's answers without what their text says of findings, remarks and faults, and without the names of fields.
HIDDEN = """
globalThis.Worker = class extends Worker {
    set onmessage(answered) {
        super.onmessage = event => {
            const text = event.data.value?.lines && event.data.value.text;
            if (text) {
                const hidden = new TextDecoder().decode(text).split('\\n').map(hide).join('\\n');
                text.set(new TextEncoder().encode(hidden));
            }
            answered(event);
        };
    }
};
const hide = line => /^ *[!?] /.test(line) ? line.replace(/[^ ]/g, 'x') : / @\\d+\\+\\d+$/.test(line) ? line : line.replace(/^ +\\w+/, it => it.replace(/\\w/g, 'x'));
"""


def by_calls(file, usbdesc):
    """The tree's findings, remarks and fields are the calls' and not lines of the explanation. Each marks what it is about."""
    notes = 0
    with opened() as page:
        page.before(HIDDEN)
        page.look(1400, 2600)
        ready(page, file)
        for name in ("files/every-rule-broken.file", "files/qemu-usb-mouse.file", "mistakes/03-total-swapped.bin", "mistakes/31-iso-alt0.bin"):
            data = data_of(f"{ROOT}/testdata/{name}")
            wanted, _, _ = program(usbdesc, *OPTIONS, given=data)
            rows, marks = page.value(f"""(async () => {{
                await drop({array(data)}, 'hidden');
                at('all-fields').checked || at('all-fields').click();
                await said();
                return [rows(), [...document.querySelectorAll('#tree :is(.finding, .remark)')].map(it => (it.click(), [it.dataset.line, marked('in-descriptor')]))];
            }})()""")
            rows_are_lines(f"{name} without its text", [it for it in rows if it[1] != "plain"], wanted)
            for line, places in marks:
                above = HEADING.findall("\n".join(wanted.split("\n")[: int(line)]))[-1]
                fault = re.match(r" *! \w+ fault \d+ at (\d+)", wanted.split("\n")[int(line)])
                first, length = (int(fault[1]), 1) if fault else map(int, above)
                held(f"{name}: line {line} marks its descriptor", places == [it for it in range(first, first + length) if it < len(data)], places)
                notes += 1
        held("no error in the page", not page.errors, page.errors)
    said(f"the tree has its fields and {notes} findings, remarks and faults by calls of the library, each of which marks its bytes")


def difference(came, wanted):
    for one, other in zip(came.split("\n"), wanted.split("\n")):
        if one != other:
            return f"{one!r} in place of {other!r}"
    return f"{len(came)} characters in place of {len(wanted)}"


def mutations(page, usbdesc, count):
    """Of broken bytes too the text is the program's, and every tab draws what there is of them."""
    chance, all_inputs = random.Random(75), list(inputs())
    for number in range(count):
        name, data = chance.choice(all_inputs)
        data = bytearray(data)
        for _ in range(chance.randint(1, 4)):
            data[chance.randrange(len(data))] = chance.choice((0, 1, 2, 4, 5, 9, 11, 255, chance.randrange(256)))
        data = data[: chance.choice((len(data), chance.randrange(len(data) + 1)))]
        wanted = program(usbdesc, *OPTIONS, given=data)[0]
        came = page.value(f"""(async () => {{
            tab('{("tree", "picture", "ladder")[number % 3]}');
            await drop({array(data)}, 'mutation');
            await sleep(20);
            return textShown();
        }})()""")
        if not number % 3:
            rows_are_lines(f"mutation {number} of {name}", page.value("said().then(rows)"), came)
        held(f"mutation {number} of {name}: the text is the program's", came == IN_HEXADECIMAL.sub("", wanted), difference(came, wanted), data.hex(" "))
        told = page.value("at('told').textContent + at('ladder-told').textContent")
        held(f"mutation {number} of {name}: no error", not page.errors and not re.search("undefined|null|not a function", told), told, page.errors, data.hex(" "))
    page.value("tab('tree')")
    said(f"{count} mutations have the program's texts, and are drawn")


def fields(page):
    """A field marks its bytes, and each byte of a descriptor its field."""
    name, data = "files/gadget-webcam.file", data_of(f"{ROOT}/testdata/files/gadget-webcam.file")
    page.value(f"drop({array(data)}, {json.dumps(name)})")
    told = page.value("""(async () => {
        const found = [];
        for (let place = 0; place < 320; place++) {
            const picked = () => document.querySelector('#tree [aria-selected=true]');
            picked()?.setAttribute('aria-selected', false);
            at(`byte-${place}`).click();
            await until(picked);
            await said();
            const line = picked();
            const part = name => line.querySelector(`.${name}`)?.textContent;
            found.push([place, part('name'), part('value'), marked('in-field')]);
        }
        return found;
    })()""")
    numbers = 0
    for place, name, value, marks in told:
        held(f"byte {place} marks its field", place in marks if name else not marks, name, value, marks)
        number = re.match(r"0x[0-9a-f]+|\d+", value or "")
        if number and name != "bytes" and len(marks) <= 4:
            numbers += 1
            held(f"{name} at {place} is {value}", int(number[0], 0) == int.from_bytes(data[marks[0] : marks[-1] + 1], "little"), marks)
    said(f"320 bytes mark their fields, {numbers} of them in a field with the value of its bytes")


def keys(page):
    """By keys alone a descriptor is found, folded and marked, and a byte finds its field."""
    data = data_of(f"{ROOT}/testdata/files/qemu-usb-mouse.file")
    page.value(f"(async () => {{ await drop({array(data)}, 'mouse'); at('tree').focus() }})()")

    def after(*names):
        for name in names:
            page.key(name)
        return page.value("[document.querySelector('#tree [aria-selected=true] .words, #tree [aria-selected=true] .name')?.textContent, marked('in-field')]")

    def count():
        return page.value("document.querySelectorAll('#tree .row').length")

    all_rows = count()
    held("down", after("ArrowDown", "ArrowDown")[0].startswith("device 0627"))
    held("a field", after("ArrowDown") == ["bcdUSB", []] or page.wait("marked('in-field').join() === '2,3'") >= 0)
    after("ArrowLeft", "ArrowLeft")
    held("the fields are gone", count() == all_rows - 12, count())
    after("ArrowLeft")
    held("folded", count() < all_rows - 12 and page.value("document.querySelector('#tree [aria-selected=true]').getAttribute('aria-expanded')") == "false", count())
    after("ArrowRight", "ArrowRight")
    held("unfolded", count() == all_rows, count())
    held("the last line", after("End")[0] == "no findings, 3 remarks")
    page.value("(async () => { at('bytes').focus(); at('byte-18').click(); await sleep(50) })()")
    for name in ("ArrowRight", "ArrowRight"):
        page.key(name)
    page.wait("marked('in-field').join() === '20,21' && document.querySelector('#tree [aria-selected=true] .name').textContent === 'wTotalLength'")
    page.key("ArrowDown")
    page.wait("marked('cursor')[0] === 36 && document.querySelector('#tree [aria-selected=true] .words')?.textContent === 'HID'")
    page.value("at('tab-tree').focus()")
    page.key("ArrowRight")
    held("tabs by keys", page.value("!at('text-view').hidden && at('tree-view').hidden && document.activeElement.id === 'tab-text'"))
    page.value("at('text').focus()")
    for name in ("ArrowDown", "ArrowDown"):
        page.key(name)
    held("a line of the text by keys", page.value("[document.querySelector('#text [aria-selected=true]').textContent.slice(0, 16), marked('in-descriptor').length]") == ["device 0627:0001", 18])
    page.value("tab('tree')")
    said("tree, text, bytes, tabs and packets by keys alone")


def pastes(page, usbdesc):
    """Each form of hexadecimal text, and what stops others."""
    forms = [it for it in sorted(glob.glob(f"{ROOT}/testdata/hexadecimal/keyboard.*")) if not it.endswith(".explain")]
    for path in forms:
        data = data_of(path)
        wanted = IN_HEXADECIMAL.sub("", program(usbdesc, *OPTIONS, given=data)[0])
        came = page.value(f"(async () => {{ await paste({json.dumps(data.decode())}); return textShown() }})()")
        held(f"{os.path.basename(path)} is read", came == wanted, difference(came, wanted), page.value("at('told').textContent"))
    for text in ("hello", "12 01 0g", "09 02\n09 00 0", "12 01 é 00", "/* é */ 0x12, zz", "[9, 80]", "/* 09 02"):
        line, column = map(int, re.findall(r"\d+", program(usbdesc, *OPTIONS, "--hex", given=text.encode())[1]))
        told, mark, before = page.value(f"""(async () => {{
            await paste({json.dumps(text)});
            return [at('told').textContent, document.querySelector('#behind mark')?.textContent, at('behind').firstChild?.textContent];
        }})()""")
        held(f"{text!r} stops at line {line}, column {column}", f"ine {line}, column {column}" in told, told)
        held(f"{text!r}: that is marked in the box", mark is not None and len(before.split("\n")[-1].encode()) == column - 1, mark, before)
    said(f"{len(forms)} forms of hexadecimal text are read, and of 7 others the box shows what stops them")


def hostile(page):
    """A device's string, a file's name and a pasted text are no markup."""
    data = bytearray(data_of(f"{ROOT}/testdata/files/qemu-usb-mouse.file"))
    place = data.index("QEMU USB Mouse".encode("utf-16-le")) - 2
    text = HOSTILE.encode("utf-16-le")
    data[place : place + data[place]] = bytes([len(text) + 2, 3]) + text
    count = page.value("document.querySelectorAll('*').length && document.querySelectorAll('img, b').length")
    page.value(f"drop({array(data)}, {json.dumps(HOSTILE)})")
    for name in ("tree", "text", "picture", "ladder"):
        page.value(f"tab('{name}'); sleep(200)")
        held(f"a hostile string on the tab {name} is no markup", page.value("document.querySelectorAll('img, b').length") == count)
    held("a hostile string is shown", HOSTILE in page.value("textShown()").replace("\\0022", '"'), page.value("textShown()"))
    held("a hostile name is shown", page.value("at('told').textContent") == HOSTILE)
    page.value(f"paste({json.dumps(HOSTILE)})")
    held("a hostile text is no markup", page.value("document.querySelectorAll('img, b').length") == count and page.value("document.title") != "1")
    page.value("tab('tree')")
    said("a hostile string, name and text are shown and are no markup")


def links(page, file, usbdesc, room):
    """Bytes behind the # of the address are read; a copied link has those that are shown."""
    data = data_of(f"{ROOT}/testdata/dumps/matias-keyboard.descriptors")
    ready(page, f"{file}#{data.hex()}")
    wanted = program(usbdesc, *OPTIONS, given=data)[0]
    held("the address's bytes are read", page.value("until(() => textShown())") == wanted)
    page.value("history.replaceState(null, '', '#'); at('link').click(); sleep(200)")
    held("a link has the bytes", page.value("location.hash") == f"#{data.hex()}")
    with open(file, encoding="utf-8") as it:
        given = OF_WHEEL.page_of(it.read(), data, HOSTILE)
    with open(f"{room}/given.html", "w", encoding="utf-8") as it:
        it.write(given)
    ready(page, f"{room}/given.html")
    held("bytes that were put into the file are read", page.value("until(textShown)") == wanted and page.value("at('told').textContent") == HOSTILE)
    said("an address has the bytes, both ways, and so has a file into which nozzlegorse.page put them")
