"""Compares descriptors, their fields, findings and remarks as values, by the Python package, with the texts of the library: `show`,
`check` and `explain`, of each example and of mutations of them. Faults are the same; of broken bytes the walk goes at least as
far as the explanation does. The owner of what has one is the nearest configuration, interface or endpoint before it, and a
raw descriptor is one deeper than that.

    .ci/playing/typed.py MUTATIONS    with NOZZLEGORSE_LIBRARY and PYTHONPATH=python
"""
import glob
import os
import random
import re
import sys

import nozzlegorse as usb
from nozzlegorse import _library as c
from nozzlegorse.faults import done

EXAMPLES = os.path.join(os.path.dirname(os.path.abspath(__file__)), "../../testdata")
INPUTS = [it for kind in ("sets/*.bin", "files/*.file", "dumps/*.descriptors", "rules/*.file", "explain/*.bin", "explain/*.descriptors", "mistakes/*.bin")
          for it in sorted(glob.glob(f"{EXAMPLES}/{kind}"))]
OWNERS = ("configuration", "interface", "endpoint")
TYPED = {"device": 18, "qualifier": 10, "configuration": 9, "interface": 9, "endpoint": 7, "association": 8}


def line_of(it):
    """The line of a listing; of a string nothing, since a listing has escapes of its own."""
    if it.role == "string":
        return None
    if it.role == "languages":
        return " ".join(["languages", *(f"{language:04x}" for language in it.languages)])
    if it.role == "raw":
        return f"raw {it.type:02x} {it.data[2:].hex() or '-'}"
    length = TYPED[it.role]
    parts = [it.data[f.place - it.place:][:len(f.data)][::-1].hex() for f in it.fields if f.place < it.place + length and f.name != "wTotalLength"]
    tail = [it.data[length:].hex() or "-"] if it.role not in ("device", "qualifier") else []
    return " ".join(["other_speed" if it.type == 7 else it.role, *parts, *tail])


def headings(text):
    """Of each heading of an explanation the place, the length and the depth; its words; its fields; the rules that it breaks, with what
    is said of them; and what is remarked."""
    found = []
    for line in text.splitlines():
        indent = len(line) - len(line.lstrip(" "))
        if it := re.fullmatch(r" *(.*) @(\d+)\+(\d+)", line):
            found.append(((int(it[2]), int(it[3]), indent // 2), it[1], [], [], []))
        elif it := re.fullmatch(r" +! V(\d+) (.*)", line):
            found[-1][3].append((int(it[1]), it[2]))
        elif found and line.lstrip(" ").startswith("? "):
            found[-1][4].append(line.lstrip(" ")[2:])
        elif (it := re.match(r" +(\w+) +(\S+)", line)) and found and indent == 2 * found[-1][0][2] + 4:
            found[-1][2].append((it[1], it[2]))
    return found[:-1] if found and found[-1][1] == "the rest" else found


def is_shown(field, name, shown):
    forms = (f"0x{field.data[::-1].hex()}", str(field.value), field.data.hex() or "-")
    return field.name == name and shown in forms


def fault_of(call, data):
    try:
        call(data)
    except usb.Fault as fault:
        return fault.args
    return None


def check_lines(data):
    answer, out = c.into(c.lib.nzg_check, *c.lend(data), True)
    done(answer)
    return out.decode().replace("no findings\n", "").splitlines()


def endpoint_numbers(data):
    """bmAttributes, the bytes of a packet, its transactions in a microframe, 0 where they are reserved, and bInterval (USB 2.0, 9.6.6)."""
    size = int.from_bytes(data[4:6], "little")
    return data[3], size & 0x7FF, (1, 2, 3, 0)[size >> 11 & 3], data[6]


def walk_differs(walked, told, fault):
    """How the walk differs from the headings, or None. Of broken bytes it may go on over the place of the fault."""
    if fault and all(it.place + len(it.data) > fault[2] for it in walked[len(told):]):
        walked = walked[:len(told)]
    if [(it.place, len(it.data), it.depth) for it in walked] != [numbers for numbers, *_ in told]:
        return f"descriptors {[(it.place, len(it.data), it.depth) for it in walked]} against {[numbers for numbers, *_ in told]}"
    owner, place = None, 0
    for it, (_, words, fields, *_) in zip(walked, told):
        mine = it.fields
        if len(mine) != len(fields) or not all(map(is_shown, mine, *zip(*fields))) if mine or fields else False:
            return f"fields {mine} against {fields}"
        if it.role == "string" and words not in (f'string {it.index} in 0x{it.language:04x}: "{it.text}"', f'string "{it.text}"' * bool(fault)):
            return f"{it} against {words}"
        if it.owner != (owner if it.role in ("association", "raw") else None) or it.place != place:
            return f"owner of {it}: {it.owner}, not {owner}; or a gap at {place}"
        if it.role == "endpoint" and (it.attributes, it.max_packet_size, it.transactions, it.interval) != endpoint_numbers(it.data):
            return f"numbers of {it}: {it.attributes}, {it.max_packet_size}, {it.transactions}, {it.interval}"
        if it.role == "raw" and it.depth != OWNERS.index(owner) + 2:
            return f"depth of {it}: {it.depth}, in a {owner}"
        owner, place = it.role if it.role in OWNERS else owner, place + len(it.data)
    return None


def differs(data):
    """How the values of an input differ from its texts, or None; and whether it is whole."""
    explained, fault = usb.explain(data, utf8=True), fault_of(usb.judge, data)
    others = [explained.fault and explained.fault.args, *(fault_of(it, data) for it in (usb.show, usb.read, usb.check, usb.remarks))]
    if any(it != fault for it in others):
        return f"faults {fault} and {others}"
    walked, told = list(usb.walk(data)), headings(explained.text)
    if why := walk_differs(walked, told, fault):
        return why
    if fault and "  ! " + re.sub(r" \(\w+\)", "", str(explained.fault)) not in explained.text.splitlines():
        return f"{explained.fault} against {explained.text}"
    if fault:
        return None
    if sum(len(it.data) for it in walked) != len(data):
        return "the walk ends before the bytes do"
    lines, mine = usb.show(data).splitlines(), [line_of(it) for it in walked]
    if len(lines) != len(mine) or any(m not in (None, line) for m, line in zip(mine, lines)):
        return f"listing {lines} against {mine}"
    found = usb.check(data)
    if sorted(f"V{it.rule} {it.part} {it.set} {it.setting} {it.endpoint}" for it in found) != sorted(check_lines(data)):
        return f"findings {found} against {check_lines(data)}"
    if [(it.place, (it.rule, it.message)) for it in found] != [(numbers[0], rule) for numbers, _, _, rules, _ in told for rule in rules]:
        return f"places and words of {found} against {told}"
    if [(it.place, it.message) for it in usb.remarks(data)] != [(numbers[0], words) for numbers, *_, lines in told for words in lines]:
        return f"remarks {usb.remarks(data)} against {told}"
    return None


def mutated(rng, inputs):
    """One to three bytes changed, left out or put in; the total of every second set made right."""
    data = bytearray(rng.choice(inputs))
    for _ in range(rng.randrange(1, 4)):
        what, at = rng.randrange(4), rng.randrange(len(data)) if data else 0
        if what < 2 and data:
            data[at] = rng.choice((0, 1, 2, 3, 4, 5, 6, 7, 9, 11, 0x24, 255, rng.randrange(256)))
        elif what == 2:
            del data[at:at + rng.randrange(1, 9)]
        else:
            data[at:at] = rng.choice((b"\x07\x05\x81\x03\x08\x00\x0a", b"\x03\xff\x00", b"\x02\x40", b"\x08\x0b\x00\x01\x03\x00\x00\x00", rng.randbytes(3)))
    if rng.random() < .5 and len(data) > 4 and data[1] in (2, 7):
        data[2:4] = (len(data) & 0xFFFF).to_bytes(2, "little")
    return bytes(data)


def main(count):
    rng, inputs, whole = random.Random(1), [open(name, "rb").read() for name in INPUTS], 0
    small = [it for it in inputs if len(it) < 600]
    for data in [*inputs, *(mutated(rng, small) for _ in range(count))]:
        if why := differs(data):
            sys.exit(f"typed: {data.hex()}: {why}")
        whole += fault_of(usb.judge, data) is None
    print(f"typed: {len(inputs)} inputs and {count} mutations as the texts, {whole} of them whole")


if __name__ == "__main__":
    main(int(sys.argv[1]))
