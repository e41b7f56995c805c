"""Writes what test_generated changes, its data/examples, and what it must print, its stdout.

    write_stdout TITLE      prints the answers to the inputs of one line of stdout, whose title this is
"""

import glob
import hashlib
import os
import sys
from collections import Counter

from readings import GENERATED, ROW_DATA, answering, asking, changing, failing, lists, refusing, talks


EXAMPLES = f"{ROW_DATA}/"
CHANGED = 300
SET = bytes.fromhex("09022200010100a032 090400000103010200 092110010001223400 0705810304000a")
MOUSE = bytes.fromhex("12 01 10 01 00 00 00 40 34 12 78 56 00 01 00 00 00 01") + SET
QUALIFIER = bytes.fromhex("0a 06 00 02 00 00 00 40 01 00")
STRINGS = bytes.fromhex("04 03 09 04 0c 03 4d 00 6f 00 75 00 73 00 65 00")
EVERYTHING = MOUSE[:2] + b"\x00\x02" + MOUSE[4:15] + b"\x01" + MOUSE[16:] + QUALIFIER + SET[:1] + b"\x07" + SET[2:] + STRINGS


def files(pattern, beside=None):
    """The names of the examples of this pattern, beside which lies this other file, and their bytes."""
    for path in sorted(glob.glob(EXAMPLES + pattern)):
        stem = os.path.splitext(path)[0]
        if beside is None or os.path.exists(stem + beside):
            with open(path, "rb") as source:
                yield stem.removeprefix(EXAMPLES), source.read()


# Which commands read an example of a kind, over readers and writers that fail.
COMMANDS = {
    "set": ["show", "show_any", "check_any", "explain"],
    "dump": ["show_any", "check_any", "explain"],
    "file": ["show", "check", "explain", "enumerate"],
    "listing": ["build", "build_commented"],
}
# The mouse, its set, the real mouse and the file with everything, and inputs at fault: a set whose last descriptor goes
# over its end, a set with bytes behind it, and a file that is cut.
STREAMED = ["mouse", "over", "goes-on", "cut-short", "sets/hid-one-endpoint", "files/with-everything", "files/qemu-usb-mouse", "files/every-rule-broken"]


# Of these an explanation is short enough to be written anew for each of its bytes.
EXPLAINED = ["mouse", "over", "goes-on", "cut-short"]


# What is done with each device: a talk or an enumeration names its lists, the limit of NAKs and the attempts.
TALKS = [f"{word}-{name}-{naks}-1" for word in ("talk", "written") for naks in (0, 2) for name in ("six", "long")] + ["answered-six-1-1"]
SHORT = ["enumerate-losses-16-3", "enumerate-busy-16-3", "enumerate-five-0-2", "enumerate-five-2-1", "enumerate-long-0-8", "enumerate-long-2-3"]
DEVICES = {
    "board": ["asked"],
    "mouse-64": ["anything", "lies", *TALKS, "enumerate-five-0-1", "enumerate-five-2-2", "enumerate-long-2-2", "enumerate-far-65535-1", "log-far-65535-1"],
    "mouse-8": ["lies", *TALKS, *SHORT],
    "everything": ["lies", "long", "enumerate-long-1-3", "log-long-1-3"],
    "real-mouse": ["choices", "enumerate-given-16-3", "log-given-16-3", "brief-given-16-3"],
}


def ways(kind, name):
    """What is done to an example."""
    if kind == "device":
        return DEVICES[name]
    found = [] if name in AT_FAULT else ["changed"]
    if kind == "file" and name in ("mouse", "files/qemu-usb-mouse", "files/with-everything"):
        found.append("set")
    if kind in ("set", "listing") and name not in AT_FAULT:
        found.append("cut")
    if name in STREAMED:
        commands = [command for command in COMMANDS[kind] if command != "explain" or name in EXPLAINED]
        found += [f"{command}-{streams}" for command in commands for streams in ("readers", "writers")]
    if kind == "file" and name == "mouse":
        found.append("log-writers")
    return found


AT_FAULT = {"over": ("set", SET[:2] + b"\x21" + SET[3:]), "goes-on": ("set", SET + bytes(3)), "cut-short": ("file", MOUSE[:40])}


def examples():
    """The kind of each example, its name and its bytes."""
    yield "file", "mouse", MOUSE
    for pattern in ("files/*.file", "rules/*.file"):
        for name, b in files(pattern):
            yield "file", name, b
    for name, b in files("sets/*.bin"):
        yield "set", name, b
    for name, b in files("dumps/*.descriptors"):
        yield "dump", name, b
    yield "listing", "mouse", refusing.show(MOUSE)[1]
    for pattern, beside in (("files/*.txt", ".file"), ("listings/*.txt", ".file"), ("listings/*.txt", ".commented.file")):
        for name, b in files(pattern, beside):
            yield "listing", name, b
    for name, (kind, b) in AT_FAULT.items():
        yield kind, name, b
    yield "device", "board", asking.DEVICE
    yield "device", "mouse-64", MOUSE
    yield "device", "mouse-8", MOUSE[:7] + b"\x08" + MOUSE[8:]
    yield "device", "everything", EVERYTHING
    yield from (("device", "real-mouse", b) for _, b in files("files/qemu-usb-mouse.file"))


def answers_to(b):
    """The answers to one input. What is listed of an input in any form is built again."""
    for command in ("show", "show_any", "check", "check_any", "explain", "build", "build_commented", "enumerate"):
        yield command, *refusing.answer(command, refusing.answer("show_any", b)[1] or b if command.startswith("build") else b)


def told(*answers, title=""):
    """The text of a case, and the kinds of its answers."""
    text = title.encode()
    for command, status, output, errors in answers:
        text += f"{command} {status}\n{errors.strip()}\n".encode() + output
    return text, [kind_of(*answer) for answer in answers]


def runs(word, rest, b):
    """Talks, or enumerations by the command of this word."""
    name, naks, attempts = rest.split("-")
    for fates in lists.named(name, 4 if word in ("enumerate", "log", "brief") else 3):
        if word == "answered":
            yield from ((line.encode(), [kind]) for line, kind in talks.answered(b, fates, int(naks)))
        elif word in ("talk", "written"):
            line, kind = {"talk": talks.case, "written": talks.written}[word](b, fates, int(naks))
            yield line.encode(), [kind]
        else:
            status, texts, errors = refusing.enumeration(b, fates, int(naks), int(attempts), word)
            yield told((word, status, "".join(texts).encode(), errors))


def devices(way, b, number):
    """What comes of a device, or of a host that it answers: the text of each case, and its kinds."""
    if way == "asked":
        for lines, state in asking.hosts(changing.Numbers(number)):
            yield ("".join(line + "\n" for line in lines) + state).encode(), [f"device, {line.split(' ')[0]}" for line in lines]
        return
    for line, kind in {"anything": answering.anything, "lies": answering.lies, "long": answering.long, "choices": answering.choosing}[way](b):
        yield line.encode(), [kind]


def cases(way, kind, b, number):
    """For each case its text, and the kinds of its answers."""
    word, _, rest = way.partition("-")
    if rest in ("readers", "writers"):
        for title, *answer in {"readers": failing.readers, "writers": failing.writers}[rest](word, b):
            yield told((word, *answer), title=title)
    elif rest:
        yield from runs(word, rest, b)
    elif kind == "device":
        yield from devices(way, b, number)
    else:
        inputs = {"changed": lambda: changing.changed(kind, b, number, CHANGED), "set": lambda: changing.bytes_set(b), "cut": lambda: changing.cuts(b)}
        for changed in inputs[way]():
            yield told(*answers_to(changed))


def blocks():
    """The title of each line, and its cases."""
    for number, (kind, name, b) in enumerate(examples(), 1):
        for way in ways(kind, name):
            yield f"{way} {kind} {name}", cases(way, kind, b, number)


def kind_of(command, status, output, errors):
    """What an answer is counted as: the command and its status. Then the line of its fault up to the place, or of
    status 1 the first word that is written."""
    if status == 0:
        return f"{command}, status 0"
    if status == 1:
        return f"{command}, status 1, {output.split(b' ')[0].decode()}"
    words = errors.removeprefix("usbdesc: ").split(" at ")[0].split(" line ")[0]
    return f"{command}, status {status}, {words}"


def line(title, cases, kinds):
    digest, count = hashlib.md5(), 0
    for text, told in cases:
        count += 1
        digest.update(text)
        kinds.update(told)
    return f"{title}: {count} cases, {digest.hexdigest()}"


def write():
    with open(f"{GENERATED}/data/examples", "w", encoding="ascii") as target:
        for kind, name, b in examples():
            more = {"board": asking.PACKETS.hex(), "real-mouse": ",".join(lists.GIVEN)}.get(name, "")
            print(kind, name, ",".join(ways(kind, name)), b.hex(), *([more] if more else []), file=target)
    kinds = Counter()
    with open(f"{GENERATED}/stdout", "w", encoding="ascii") as target:
        for title, cases in blocks():
            print(line(title, cases, kinds), file=target)
        for kind, count in sorted(kinds.items()):
            print(f"{kind}: {count}", file=target)


def show(wanted):
    for title, cases in blocks():
        if title == wanted:
            for text, _ in cases:
                sys.stdout.buffer.write(text)


if __name__ == "__main__":
    if sys.argv[1:]:
        show(" ".join(sys.argv[1:]))
    else:
        os.makedirs(f"{GENERATED}/data", exist_ok=True)
        write()
