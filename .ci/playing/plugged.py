"""The bridge to a Linux host, `nozzlegorse.usbip`, without a socket: messages in pieces, what a Linux host asked of devices,
files of answers, resets and addresses, and the owners of the examples. `.ci/callers` runs it."""
import contextlib
import glob
import os
import random
import re
import runpy
import struct
import tempfile

from nozzlegorse import usbip
from usbip_client import FIRST, IMPORT, LIST, MOUSE, MOUSE_ANSWERS, bytes_of, end, same

EXAMPLES = {"keyboard": "qemu-usb-keyboard", "serial_line": "gadget-acm", "rndis": "gadget-rndis", "disk": "gadget-storage"}


def quiet(line):
    pass


def answers_of(lines):
    """The owner that these lines describe."""
    with tempfile.NamedTemporaryFile("wb", suffix=".txt") as file:
        file.write(lines.encode() if isinstance(lines, str) else lines)
        file.flush()
        return usbip.Answers(file.name)


def file_of(name):
    """The descriptor file of a device that was recorded."""
    return bytes_of(*(it for folder in ("files", "binding") for it in glob.glob(f"testdata/{folder}/{name}.file")))


def messages(length):
    """Those of examples/usbip/messages.txt, in pieces of so many bytes."""
    plug, sent = usbip.Plug(bytes_of(MOUSE), usbip.Answers(MOUSE_ANSWERS), "high", tell=quiet), []
    client = usbip.Client([plug], sent.append)
    for line in open("examples/usbip/messages.txt", encoding="ascii"):
        verb, *words = line.split("#")[0].split() or [""]
        if verb == ">":
            message = bytes.fromhex(words[0])
            for at in range(0, len(message), length):
                client.take(message[at : at + length])
        elif verb == "feed":
            plug.send(int(words[0], 16), bytes.fromhex(words[1]))
        elif verb == "<":
            same("messages", b"".join(sent).hex(), words[0])
            sent.clear()
    same("messages", sent, [])


def recorded(path, owner=None):
    """What Linux asked of a device, answered as its file of answers says, or an owner. The bridge puts bus resets and SET_ADDRESS
    where they were."""
    name, speed, _ = os.path.basename(path).split(".")
    plug = usbip.Plug(file_of(name), owner or usbip.Answers(f"testdata/answers/{name}.{speed}.txt"), speed, tell=quiet)
    for line in open(path, encoding="ascii"):
        setup, _, answer = line.split("#")[0].strip().partition(" -> ")
        if answer and not setup.startswith("0005"):
            is_write, digits = answer.startswith("taken "), answer.removeprefix("taken ")
            came = plug.control(bytes.fromhex(setup), bytes.fromhex(digits) if is_write else bytes(int(setup[14:] + setup[12:14], 16)))
            wanted = None if answer == "stall" else b"" if is_write or answer == "done" else bytes.fromhex(answer)
            if is_write and not owner:
                same("data of writes", plug.owner.kept[setup[:12]].hex(), digits)
            # Of its first read a host takes one packet on a bus; USB/IP carries whole transfers.
            same("transfers of owners" if owner else "recorded transfers", came[: len(wanted)] if setup == FIRST else came, wanted)


WRONG = "8006002200", "810600220000", "810600220000 050", "810600220000 05 01", "810600220000 done 00", "810600220000 kept", "810600220000 kept 2101******** 1", "6101**xx**** done"
# Lines, and what is said of them; of those that are right the empty text.
FILES = [
    ("810600220000 0501\n210a00000000 done # SET_IDLE\n\n# nothing\n810600210000 -", ""), ("a1010000**** kept 2101********\n2101******** taken", ""),
    ("0105******** taken", "it: line 1: 0105********: no owner answers it"), ("a1010000**** kept 2102********", "it: line 1: no line '2102******** taken'"),
    ("\n# one\n8006002200 01", "it: line 3: 8006002200 isn't the first six bytes of a setup packet"), ("0\u00e4 01".encode("latin-1"), "it: line 1: 0\ufffd isn't"),
    ("210900020000 0501", "it: line 1: '0501' is no answer to a request that reads nothing"), ("210900020000 kept 210900020000", "it: line 1: 'kept' is no answer"),
    ("a10100000000 taken", "it: line 1: 'taken' is no answer to a request that reads"), ("a10100000000 done", "it: line 1: 'done' is no answer"),
    ("a10100000000 " + "00" * 512, ""), ("210a00000000 done\na10100000000 " + "00" * 513, "it: line 2: a10100000000: a device has room for 512 bytes"),
    ("810600220000 none", "it: line 1: 'none' is neither"),
    # What the table answers, what only the file has, and what no owner may answer.
    ("800600030000 00", "it: line 1: the device answers 800600030000 itself"), ("800601030904 00", "it: line 1: the device answers"), ("8006**030904 00", ""),
    ("80060003**** 00", "it: line 1: the device answers"), ("800600010000 01", "it: line 1: the device answers"), ("000500000000 done", "it: line 1: the device answers"),
    ("800605020000 00", "it: line 1: 800605020000: no owner"), ("800000000000 0100", "it: line 1: 800000000000: no owner"), ("000900010000 done", "it: line 1: 000900010000: no owner"),
    ("000700010000 taken", "it: line 1: 000700010000: no owner"), ("610100000000 done", "it: line 1: 610100000000: no owner"), ("6101******** done", "it: line 1: 6101********: no owner"),
    *((line, "it: line 1: ") for line in WRONG),
]


def answers(lines, wanted):
    """What is said of a file of answers, before anything is served."""
    try:
        plug = usbip.Plug(bytes_of(MOUSE), owner := answers_of(lines))
        owner.check(plug.device)
        came = ""
    except ValueError as fault:
        came = re.sub(r"^\S+\.txt", "it", str(fault))
    same("files of answers", (came[: len(wanted)] if wanted else came, "\n" in came), (wanted, False))


def writes():
    """A write whose bytes a read gives again, and those that are refused."""
    owner = answers_of("2120******** taken # SET_LINE_CODING\na121******** kept 2120********\n")
    plug = usbip.Plug(bytes_of("testdata/files/gadget-acm.file"), owner, "high", tell=quiet)
    whole = bytes(range(256)) * 2
    for setup, data, wanted in (("a121000000000700", b"", b""), ("2120000000000700", b"\x80\x25\0\0\0\0\x08", b""), ("a121000000000700", b"", b"\x80\x25\0\0\0\0\x08"),
                                ("a121000000000300", b"", b"\x80\x25\0"), ("2122000000000700", bytes(7), None), ("2120000000000000", b"", None),
                                ("2120000000000102", bytes(513), None), ("2120000000000002", whole, b""), ("a121000000000002", b"", whole),
                                ("2120000000000700", bytes(6), None), ("2120000000000700", bytes(8), None), ("0009010000000700", bytes(7), None),
                                ("a121000000000100", b"", b"\0")):
        same("writes", plug.control(bytes.fromhex(setup), data), wanted)


class Asked(usbip.Owner):
    """It counts the resets of its bus, and answers what it was named."""

    answer, resets = None, 0

    def request(self, setup, data):
        return self.answer

    def reset(self):
        self.resets += 1


def wrong_owners():
    """An owner whose answer is none to a request: a STALL, a line that says so, and the next request is answered."""
    lines = []
    plug = usbip.Plug(bytes_of(MOUSE), owner := Asked(), "high", tell=lines.append)
    for answer, setup, data, wanted, told in (
            (b"12", "a101000000000800", b"", b"12", False), (b"12", "a101000000000100", b"", b"1", False), (True, "2101000000000000", b"", b"", False), (True, "2101000000000200", b"ab", b"", False),
            (bytearray(b"3"), "a101000000000800", b"", b"3", False), (None, "a101000000000800", b"", None, False), (False, "2101000000000200", b"ab", None, False),
            (True, "a101000000000800", b"", None, True), (b"12", "2101000000000000", b"", None, True), (b"12", "2101000000000200", b"ab", None, True),
            ("12", "a101000000000800", b"", None, True), (bytes(513), "a101000000000004", b"", None, True), (b"12", "8008000000000100", b"", b"\0", False)):
        owner.answer = answer
        same("answers of owners", (plug.control(bytes.fromhex(setup), data), bool(lines)), (wanted, told))
        lines.clear()


def addresses():
    """Hosts of each scheme: what they ask first, and where the device is then; 0 where the next request is still to reset it."""
    device = bytes_of(MOUSE)[:18]
    for asked, at in ((((FIRST, device),), 0), (((FIRST, device), ("8006000100001200", device)), 2), ((("8006000100000800", device[:8]), ("8006000100001200", device)), 2),
                      ((("0005050000000000", b""), ("8006000100000800", device[:8]), ("8006000100001200", device)), 5),
                      (((FIRST, device), ("0005070000000000", b""), ("8006000100001200", device)), 7), ((("8006000100000800", device[:8]), ("0005090000000000", b""), ("8006000100001200", device)), 9)):
        plug = usbip.Plug(bytes_of(MOUSE), owner := Asked(), "high", tell=quiet)
        for setup, wanted in asked:
            same("schemes of enumeration", plug.control(bytes.fromhex(setup), b""), wanted)
        same("addresses", (plug.device.state().address, owner.resets > 0), (at, True))
        for setup, wanted in (("0009010000000000", b""), ("8008000000000100", b"\1")):
            same("schemes of enumeration", plug.control(bytes.fromhex(setup), b""), wanted)


def owner_of(name):
    """The owner of an example."""
    return runpy.run_path(f"examples/usbip/{name}.py")[name.title().replace("_", "")]()


def anything(name, cases):
    """An owner of the examples takes whatever a host sends: no exception, and the device goes on."""
    lot = random.Random(1)
    plug = usbip.Plug(file_of(EXAMPLES[name]), owner_of(name), "high", tell=quiet)
    starts = (b"", b"USBC\1\0\0\0\0\2\0\0", b"\1\0\0\0", b"\2\0\0\0\x18\0\0\0\1\0\0\0", b"\1\0\0\0" + bytes(52) + b"\x08\0\x45", b"\1\0\0\0" + bytes(52) + b"\x08\x06\0\1\x08\0\6\4\0\1")
    for _ in range(cases):
        data = lot.choice(starts) + lot.randbytes(lot.choice((0, 1, 8, 19, 40, 512, 600)))
        plug.owner.received(2, data[:31] if lot.random() < 0.5 else data)
        setup = lot.choice((b"\x21\0", b"\xa1\x01", b"\x21\x20", b"\x21\x09\0\2", b"\x81\x06\0\x22", lot.randbytes(2))) + lot.randbytes(4)
        plug.control(setup[:6] + len(data).to_bytes(2, "little"), data)
    same("owners that are asked anything", plug.control(bytes.fromhex(FIRST), b"")[:2], b"\x12\1")


def garbage(cases):
    """Clients whose messages have any fields: each is answered or refused, with no other exception."""
    lot, refusals = random.Random(2), 0
    few = (0, 1, 2, 8, 9, 64, 1 << 20, (1 << 20) + 1, 1 << 31, (1 << 32) - 1)
    plug = usbip.Plug(bytes_of(MOUSE), usbip.Answers(MOUSE_ANSWERS), "high", tell=quiet)
    for _ in range(cases):
        client = usbip.Client([plug], quiet)
        try:
            client.take(lot.choice((IMPORT + b"1-1".ljust(32, b"\0"), LIST, IMPORT + lot.randbytes(32), LIST[:4], lot.randbytes(8))))
            for _ in range(lot.randrange(8)):
                header = [lot.choice((1, 1, 1, 2, 3)), *(lot.choice(few) for _ in range(9))]
                client.take(struct.pack(">10I", *header) + lot.choice((lot.randbytes(8), bytes.fromhex(FIRST), bytes.fromhex("0009010000000000"))) + lot.randbytes(lot.choice((0, 8, 64))))
        except usbip.Refused:
            refusals += 1
        client.close()
    same("clients that send garbage", (plug.client, 0 < refusals < cases), (None, True))


for length in (1, 7, 4096):
    messages(length)
found = sorted(glob.glob("testdata/binding/*.txt"))
same("devices", len(found), 13)
for path in found:
    recorded(path)
for lines, wanted in FILES:
    answers(lines, wanted)
writes()
wrong_owners()
addresses()
with contextlib.redirect_stdout(None):
    for name, device in EXAMPLES.items():
        recorded(f"testdata/binding/{device}.high.txt", owner_of(name))
        anything(name, 2000)
garbage(20_000)
end()
