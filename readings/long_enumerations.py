"""Writes enumerate/long.txt: rows of enumerations with many transactions and many fates, one of them with its log.

What must come is worked out by the second readings of an enumeration (enumerating.py) and of a listing
(descriptors.py); a log is read here from docs/control-transfers.md once more. The rows of enumerate/log.txt, which were worked
by hand, must come to the same, or nothing is written. It shares no code with the crates. The gate compares what it
writes (.ci/readings).
"""

import os
import re

from readings import ROW_DATA, descriptors
from readings.enumerating import BUSY, NO_ANSWER, STALLED, TOO_LONG, UNEXPECTED
from readings.enumerating import Device, File, Host, enumerate_device, word

KINDS = {1: "device", 2: "configuration", 3: "string", 6: "qualifier", 7: "other-speed configuration"}
END_DATA = {0: "complete", NO_ANSWER: "strike 3: no answer", STALLED: "stalled", TOO_LONG: "too long", UNEXPECTED: "unexpected"}
CAUSES = [
    "no answer, three times in a row",
    "busy for longer than the limit",
    "the device stalled the request",
    "more bytes than were asked for",
    "an answer that cannot follow",
    "not what was asked for",
]
WIDTHS = [6, 2, 15, 17, 20, 19]
HEADINGS = ["no.", "f", "packets (lost)", "data", "host", "device"]
NAMES = """let HID = 09022200010100a032+090400000103010200+092110010001223400+0705810304000a
let MOUSE = 120110010000004034127856000100000001+HID
let STEP = d+64*n+.
"""
ROWS = [
    (
        "Losses and NAKs between all steps: a log of more than 1,000 transactions.",
        "--log --naks 65 --fates 26*STEP",
        "MOUSE 7=08",
    ),
    (
        "Behind 65,536 fates one more is a loss: the ACK of SET_ADDRESS.",
        "--naks 65535 --fates .+65535*n+...a",
        "MOUSE",
    ),
    (
        "More than 100,000 transactions: 65,536 NAKs use up the first attempt, and the second one bears 50,000.",
        "--naks 65535 --fates .+65536*n+.+50000*n",
        "MOUSE",
    ),
]


def expand(word, names):
    """A word of a row, written out."""
    parts = [re.fullmatch(r"(?:(\d+)\*)?(.*)", part).groups() for part in word.split("+")]
    return "".join(names.get(atom, atom) * int(count or 1) for count, atom in parts)


def bytes_of(words, names):
    """The bytes that the words of a row say."""
    data = bytearray()
    for given in words.split():
        place, _, digits = given.rpartition("=")
        at = int(place) if place else len(data)
        new = bytes.fromhex(expand(digits, names))
        data[at : at + len(new)] = new
    return bytes(data)


def request_words(setup):
    if setup[1] != 6:
        return f"SET_{'ADDRESS' if setup[1] == 5 else 'CONFIGURATION'} {setup[2]}"
    language = f" language 0x{word(setup, 4):04x}" if setup[3] == 3 and setup[2] else ""
    return f"GET_DESCRIPTOR {KINDS[setup[3]]} {setup[2]}{language}, {word(setup, 6)} bytes"


class Log:
    """The lines of a log. It hears of each transaction from the bus, and what the transfer makes of it."""

    def __init__(self, device, host, fates, is_brief=False):
        self.is_brief, self.lines, used = is_brief, [], []
        fates = iter(fates)
        while host.due != "ended":
            if host.due == "reset":
                device.reset()
                host.reset_done()
                self.lines += [self.row(HEADINGS)] * (host.resets == 1)
                self.lines.append(f"attempt {host.resets}: bus reset")
            transfer, fate = host.transfer, next(fates, ".")
            if (transfer.stage, transfer.strikes, transfer.naks) == ("setup", 0, 0):
                words = request_words(transfer.setup)
                self.lines.append(f"{host.step}: {words}, to {transfer.address}")
            used.append(fate)
            self.step(device, host, transfer, fate)
        lost = sum(used.count(fate) for fate in "dua")
        self.lines.append(f"fates: losses {lost}, busy {used.count('n')}")

    def step(self, device, host, transfer, fate):
        reply = "silence" if fate == "d" else device.serve(transfer.address, transfer.token(), fate != "n")
        if isinstance(reply, tuple) and fate in ".n":
            device.acked()
        self.show(device, host, fate, reply, "silence" if fate == "u" else reply)

    def show(self, device, host, fate, reply, heard, below=()):
        """The host hears what came of a reply. `below` are lines below that of the transaction and its data."""
        transfer, ends = host.transfer, []
        token, before = transfer.token(), (len(transfer.got), transfer.strikes, transfer.naks)
        transfer.take = lambda answer: ends.append(type(transfer).take(transfer, answer)) or ends[0]
        host.take(heard)
        sent, data = self.name(token[0].upper(), fate == "d"), self.data(token, reply)
        has = self.host(transfer, before, heard, ends[0])
        short, long = self.bytes(data)
        columns = [str(host.transactions), fate, sent + self.answer(reply, heard, fate), short, has, self.device(device)]
        self.lines += [self.row(columns), *([] if self.is_brief else long), *below]
        number = ends[0] if host.due == "reset" else host.outcome
        if number:
            self.lines.append(f"attempt {host.resets} given up: {CAUSES[number - 1]}")

    def row(self, columns):
        return "".join(f"{it:<{width}}" for it, width in zip(columns, WIDTHS)).rstrip()

    def name(self, packet, is_lost):
        return f"({packet})" if is_lost else packet

    def bytes(self, data):
        """Bytes in their column, and lines below it of more than 8."""
        if 0 < len(data or b"") < 9:
            return data.hex(), []
        return "" if data is None else f"{len(data)} bytes", [" " * 23 + line for line in re.findall(".{1,32}", (data or b"").hex())]

    def answer(self, reply, heard, fate):
        if reply == "silence":
            return ""
        if not isinstance(reply, tuple):
            return " " + self.name(reply.upper(), fate == "u")
        ack = " " + self.name("ACK", fate == "a") if isinstance(heard, tuple) else ""
        return " " + self.name(f"DATA{int(reply[0])}", fate == "u") + ack

    def data(self, token, reply):
        return token[1] if token[0] == "setup" else reply[1] if isinstance(reply, tuple) else None

    def host(self, transfer, before, heard, end):
        got, strikes, naks = before
        if end is not None:
            return f"NAK {naks + 1}: busy" if end == BUSY else END_DATA[end]
        if transfer.naks > naks:
            return f"NAK {transfer.naks}"
        if transfer.strikes > strikes:
            return "duplicate, " * isinstance(heard, tuple) + f"strike {transfer.strikes}"
        return f"has {len(transfer.got)} of {transfer.length}" if isinstance(heard, tuple) else "accepted"

    def device(self, device):
        stage = f"sending {device.sent}" if device.stage == "sending" else device.stage.replace("_", " ")
        return f"{device.address}/{device.selected} {stage}"


def run(words, given, names):
    """The exit status, and what the program writes with these words over these bytes."""
    options = dict(re.findall(r"--(\w+) ([^- ]\S*)", words))
    fates, data = expand(options.pop("fates", ""), names), bytes_of(given, names)
    device, host = Device(File(data)), Host(**{name: int(text) for name, text in options.items()})
    if "--log" in words:
        lines = Log(device, host, fates, "--brief" in words).lines
    else:
        lines = enumerate_device(device, host, fates) and []
    if host.outcome:
        return 1, "\n".join([*lines, host.result(), ""])
    assert host.read == data
    result = f"{host.result()} address {device.address} value {device.selected}"
    return 0, "\n".join([*lines, result, descriptors.listing("file", data)])


def names_of(text):
    names = {}
    for name, given in re.findall(r"^let (\w+) = (.*)$", text, flags=re.M):
        names[name] = expand(given, names)
    return names


def compare_by_hand():
    """Stops where a row that was worked by hand comes to something else. That of a refused file has no log."""
    with open(os.path.join(ROW_DATA, "enumerate/log.txt"), encoding="ascii") as source:
        text = source.read()
    rows = re.findall(r"^usbdesc enumerate (.*)< (.*) -> (\d)\n((?:>.*\n)+)", text, flags=re.M)
    for words, given, status, lines in rows:
        if "--speed" not in words:
            wanted = int(status), re.sub(r"^> ?", "", lines, flags=re.M)
            assert run(words, given, names_of(text)) == wanted, words


def main():
    compare_by_hand()
    text = f"# Enumerations of many transactions and fates, written by readings/long_enumerations.py.\n\n{NAMES}"
    for comment, words, given in ROWS:
        status, output = run(words, given, names_of(NAMES))
        text += f"\n# {comment}\nusbdesc enumerate {words} < {given} -> {status}\n"
        text += "".join(f"> {line}\n" for line in output.splitlines())
    with open(os.path.join(ROW_DATA, "enumerate/long.txt"), "w", encoding="ascii") as target:
        target.write(text)


if __name__ == "__main__":
    main()
