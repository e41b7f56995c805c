"""The ladder: a click on each packet, and what the program writes under the same fates."""

import json

from . import array, data_of, held, program, said
from playing.built import ROOT

# Which fate loses a packet: the first, the second, the third of a transaction.
LOSSES = "dua"
ENTER, DOWN = 13, 40


def log_of(usbdesc, data, fates, *words):
    """The program's log without the result that follows it."""
    text = program(usbdesc, "enumerate", "--log", f"--fates={fates}", *words, given=data)[0]
    lines = text.split("\n")
    end = next(i for i, line in enumerate(lines) if line.startswith("fates: "))
    return "\n".join(lines[: end + 1]) + "\n"


def shown(page):
    return page.value("[at('fates').value, at('log').textContent]")


def clicks(page, usbdesc):
    """A click on each arrow of the mouse's ladder loses it: the log is the program's."""
    data = data_of(f"{ROOT}/testdata/files/qemu-usb-mouse.file")
    page.value(f"(async () => {{ await drop({array(data)}, 'mouse'); tab('ladder'); await until(() => document.querySelector('.packet')) }})()")
    whole = log_of(usbdesc, data, "")
    held("the mouse's log is the program's", shown(page) == ["", whole], shown(page))
    packets = page.value("""[...document.querySelectorAll('.packet')].map(it =>
        [it.id, Number(it.parentNode.querySelector('.of-host').textContent.split(' ')[0]), Number(it.dataset.packet)])""")
    held("as many packets as the log has", len(packets) == sum(len(line[8:23].split()) for line in whole.split("\n") if line[:1].isdigit()))
    for name, number, packet in packets:
        fates = "." * (number - 1) + LOSSES[packet]
        came = page.value(f"""(async () => {{
            at('clear-fates').click();
            await until(() => at('fates').value === '' && at('log').textContent.includes('losses 0'));
            at('{name}').querySelector('.hit').dispatchEvent(new MouseEvent('click', {{ bubbles: true }}));
            await until(() => at('fates').value);
            return [at('fates').value, at('log').textContent];
        }})()""")
        held(f"a click on packet {packet} of transaction {number}", came == [fates, log_of(usbdesc, data, fates)], came)
    said(f"clicks on {len(packets)} packets of the mouse give the program's logs")
    again(page, usbdesc, data)
    return data


def again(page, usbdesc, data):
    """A second click makes the device busy, a third lets the packet pass. By keys too, and as text, and by chance."""
    click = "document.querySelectorAll('.packet')[3].querySelector('.hit').dispatchEvent(new MouseEvent('click', { bubbles: true }))"
    page.value("(async () => { at('clear-fates').click(); await until(() => at('fates').value === '') })()")
    for wanted in (".u", ".n", ""):
        page.value(f"(async () => {{ {click}; await until(() => at('fates').value === '{wanted}') }})()")
        held(f"the log under {wanted!r}", shown(page) == [wanted, log_of(usbdesc, data, wanted)])
    page.value("at('ladder').focus(); 0")
    for _ in range(2):
        page.key("ArrowDown", DOWN)
    page.key("Enter", ENTER, "\r")
    page.wait("at('fates').value === '..d'")
    for wanted in ("....a", "n.d.u", "." * 30 + "ddd"):
        page.value(f"(async () => {{ at('fates').value = '{wanted}'; at('fates').dispatchEvent(new Event('change')); await until(() => at('log').textContent.includes('losses') && at('fates').value === '{wanted}') ; await sleep(100) }})()")
        held(f"the log under {wanted!r}", shown(page) == [wanted, log_of(usbdesc, data, wanted)])
    for seed in (1, 2, 77):
        page.value(f"(async () => {{ at('seed').value = {seed}; at('loss').value = 20; at('loss').dispatchEvent(new Event('input')); await sleep(300) }})()")
        fates, log = shown(page)
        held(f"the log under chance {seed}", log == log_of(usbdesc, data, fates) and sum(map(fates.count, "dua")), fates)
    page.value("at('clear-fates').click(); sleep(200)")
    said("second and third clicks, keys, fates as text and by chance give the program's logs")


def speeds(page, usbdesc):
    """The speed that the device can have is found, and a dump gets its strings."""
    for name, words in (("files/gadget-webcam.file", ("--speed", "high")), ("dumps/matias-keyboard.descriptors", ("--with-strings",))):
        data = data_of(f"{ROOT}/testdata/{name}")
        page.value(f"(async () => {{ await drop({array(data)}, {json.dumps(name)}); await sleep(400) }})()")
        held(f"the log of {name}", shown(page) == ["", log_of(usbdesc, data, "", *words)], shown(page)[1][:300])
    data = data_of(f"{ROOT}/testdata/rules/v4-no-default-setting.file")
    page.value(f"(async () => {{ await drop({array(data)}, 'refused'); await sleep(400) }})()")
    told, wanted = page.value("at('ladder-told').textContent"), program(usbdesc, "enumerate", given=data)[0]
    held("a device that is refused is told so", told[:9] == wanted[:9] and "this interface has no alternate setting 0" in told, told)
    page.value("tab('tree')")
    said("speeds, a dump and a refused device give what the program writes")
