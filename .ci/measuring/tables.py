"""What is measured: tables of cells, each of the proved program and of the same work in plain Rust, and bounds of ratios."""

from typing import NamedTuple

EXAMPLES = "crates/test_rows/data"
LONGEST = "crates/benchmarks/sets/longest.bin"
HID = f"{EXAMPLES}/sets/hid-one-endpoint.bin"
WEBCAM = f"{EXAMPLES}/sets/linux-gadget-webcam.bin"
# The indices of strings that it names.
STRINGS = 9
AUDIO = f"{EXAMPLES}/sets/ugreen-15765a.bin"
KEYBOARD = f"{EXAMPLES}/hexadecimal/keyboard"
EVERYTHING = "crates/test_rows/data/files/with-everything"
CAMERA = "crates/test_rows/data/files/gadget-webcam"

# Where a run counts, without the loop: the host's transactions.
TRANSFER = ("benchmarks::host::transact", "*works*transact_transfer*")
HOST = ("benchmarks::enumerating::transact", "*works*transact_host*")


class Count(NamedTuple):
    """A round of a work on an input: the difference of a run of many rounds and one of few. An input that begins with an
    exclamation mark is written by the commands after it, of crates/benchmarks."""

    work: str
    input: str
    few: int
    many: int
    inside: tuple = None


class Cell(NamedTuple):
    """Sums of rounds, each times a number, for each of so many parts; of none, for each byte that the work says."""

    terms: list
    parts: int
    bound: float


class Table(NamedTuple):
    name: str
    corner: str
    columns: list
    rows: list  # of a title and its cells


def a_byte(work, source, few, many, bound=1.3):
    return Cell([(1, Count(work, source, few, many))], None, bound)


def made(kind, *more, sets=20):
    return "!" + "|".join([f"descriptors.py {kind} {sets}", *more])


def shape(kind, count):
    return f"!shapes.py {kind} {count}"


SETS = [
    ("34 bytes", HID, 100, 1100),
    ("webcam, 586", WEBCAM, 100, 1100),
    ("audio, 314", AUDIO, 100, 1100),
    ("65,535 bytes", LONGEST, 20, 40),
]
# Where it is less than 1.3.
SET_BOUNDS = {("encode", LONGEST): 1.2}
SET_WORKS = [
    ("decode, one piece", "decode-whole"),
    ("decode, pieces of 64 bytes", "decode-pieces"),
    ("decode, byte by byte", "decode-bytes"),
    ("encode", "encode"),
    ("list", "list"),
]
FILES = [
    ("raw descriptors of 255 bytes", "raws"),
    ("raw descriptors of 2 bytes", "short-raws"),
    ("alternate settings", "settings"),
    ("thirty endpoints a setting", "endpoints"),
    ("associations", "associations"),
    ("strings of 126 units", "strings"),
    ("strings of one unit", "short-strings"),
    ("empty strings", "empty-strings"),
]
# Work on shapes that no device has.
SHAPES = {("describe", "short-raws"), ("describe", "associations"), ("list-given", "empty-strings"), ("write-given", "empty-strings")}


def of_set(work, path, few, many):
    return a_byte(work, path, few, many, SET_BOUNDS.get((work, path), 1.3))


def of_file(path, few, many, listing, bound, kind=None):
    works = ("write-given", "describe", "list-given")
    cells = [a_byte(work, path, few, many, 1.4 if (work, kind) in SHAPES else 1.3) for work in works]
    return [*cells, a_byte("assemble", listing, few, many, bound)]


def files():
    yield "with everything", of_file(f"{EVERYTHING}.file", 100, 600, f"{EVERYTHING}.txt", 1.15)
    yield "webcam", of_file(f"{CAMERA}.file", 100, 600, f"{CAMERA}.txt", 1.15)
    for title, kind in FILES:
        yield title, of_file(made(kind), 2, 4, made(kind, "show"), 1.5, kind)


def checks():
    def of_files(path, few, many, bound=1.3):
        return [a_byte("check-file", path, few, many, bound)]

    def of_sets(path, bound=1.3):
        return [a_byte("check-sets", path, 20, 40, bound)]

    yield "with everything", of_files(f"{EVERYTHING}.file", 100, 1100, 1.2)
    yield "webcam", of_files(f"{CAMERA}.file", 100, 1100, 1.2)
    yield "every rule broken", of_files(f"{EXAMPLES}/files/every-rule-broken.file", 100, 1100, 1.2)
    yield "raw descriptors of 255 bytes", of_files(made("raws"), 20, 40, 1.25)
    yield "alternate settings", of_files(made("settings"), 2, 4, 1.2)
    yield "thirty endpoints a setting", of_files(made("endpoints"), 2, 4)
    yield "associations of one interface", of_files(made("associations"), 2, 4)
    yield "associations of all 255 interfaces", of_files(made("bindings"), 2, 4)
    yield "a set of 7,280 settings", of_sets(shape("interfaces", 7280), 1.2)
    yield "9,330 findings", of_sets(shape("endpoints", 9359), 1.2)
    yield "17,354 findings", of_sets(shape("bytes", 9359))


def a_round(terms, parts=1, bound=1.3):
    return [Cell(terms, parts, bound)]


def transactions():
    def device(work):
        return Count(work, LONGEST, 2, 102)

    def transfer(work):
        return Count(work, HID, 100, 1000, TRANSFER)

    def host(work, source=HID, few=100, many=1000):
        return Count(work, source, few, many, HOST)

    setup, one = device("setup"), device("one-packet")
    yield "device: SETUP, GET_DESCRIPTOR of a set", a_round([(1, setup)])
    yield "IN and ACK, first", a_round([(1, one), (-1, setup)])
    yield "IN and ACK, further", a_round([(1, device("ten-packets")), (-1, one)], 9)
    yield "IN with NAK", a_round([(1, device("nak"))])
    yield "OUT of the status stage", a_round([(1, device("status")), (-1, one)])
    yield "a read that an owner answers", a_round([(1, device("answered"))])
    find = Count("find-last", made("strings"), 10, 1010)
    yield "finding the last of 3,780 strings", a_round([(1, find)])
    data = transfer("host-data")
    yield "`Transfer`: SETUP", a_round([(1, transfer("host-setup"))])
    yield "IN, 64 bytes", a_round([(1, transfer("host-packets"))])
    yield "IN with NAK", a_round([(1, transfer("host-naks"))])
    yield "OUT of the status stage", a_round([(1, transfer("host-status")), (-1, data)])
    yield "host, packets of 8: SETUP", a_round([(1, host("enumeration-setup"))])
    yield "IN with NAK", a_round([(1, host("enumeration-naks"))])
    yield "IN of the longest set", a_round([(1, host("enumeration-packets", LONGEST, 2, 12))], 8192)
    yield "IN of the webcam's set", a_round([(1, host("enumeration-packets", WEBCAM, 10, 110))], 74)
    yield "status stage of a header", a_round([(1, host("enumeration-header"))])
    yield "a write of 64 bytes in packets of 8, both ends", a_round([(1, device("written"))], bound=1.2)
    yield "host: STALL of a string that may be missing", a_round([(1, host("enumeration-strings", WEBCAM, 10, 110))], STRINGS, 1.2)


def enumerations():
    yield "with everything", [a_byte("enumerate", f"{EVERYTHING}.file", 100, 1100)]
    yield "webcam", [a_byte("enumerate", f"{CAMERA}.file", 100, 1100, 1.2)]
    yield "20 longest sets of raw descriptors", [a_byte("enumerate", made("raws"), 1, 3, 1.15)]
    yield "20 such sets of settings", [a_byte("enumerate", made("settings"), 1, 3)]


def walks():
    yield "mouse", [a_byte("walk", f"{EXAMPLES}/files/qemu-usb-mouse.file", 100, 1100, 1.2)]
    yield "webcam", [a_byte("walk", f"{CAMERA}.file", 100, 600, 1.2)]
    yield "webcam, its set", [a_byte("walk", WEBCAM, 100, 1100, 1.2)]
    yield "with everything", [a_byte("walk", f"{EVERYTHING}.file", 100, 1100, 1.2)]
    yield "the longest set, of raw descriptors", [a_byte("walk", LONGEST, 20, 120, 1.2)]
    yield "a set of 7,280 settings", [a_byte("walk", shape("interfaces", 7280), 2, 4, 1.2)]


def explanations():
    def explained(path, few=100, many=600, bound=1.3):
        return [a_byte("explain", path, few, many, bound)]

    yield "keyboard, a dump", explained(f"{EXAMPLES}/dumps/matias-keyboard.descriptors")
    yield "webcam, a dump", explained(f"{EXAMPLES}/dumps/sunplus-camera.descriptors")
    yield "with everything", explained(f"{EVERYTHING}.file")
    yield "webcam, a file", explained(f"{CAMERA}.file")
    yield "a set of 34 bytes", explained(HID)
    yield "the longest set, of raw descriptors", explained(LONGEST, 5, 10)
    yield "a set of 7,280 settings", explained(shape("interfaces", 7280), 2, 4)
    yield "raw descriptors of 2 bytes", explained(made("short-raws", sets=1), 2, 4)
    yield "associations of all 255 interfaces", explained(made("bindings", sets=1), 2, 4)
    yield "strings of 126 units", explained(made("strings"), 2, 4)
    yield "9,330 findings", explained(shape("endpoints", 9359), 2, 4)


def packets():
    yield "`crc16`", [a_byte("crc", LONGEST, 100, 1100, 1.2)]
    yield "`write`, then `parse`", [a_byte("packet-read", LONGEST, 100, 1100, 1.2)]


def recordings():
    def told(name):
        return [a_byte("capture", f"{EXAMPLES}/captures/{name}", 20, 120)]

    yield "enumeration, usbmon by tcpdump", told("linux-gadget-acm.pcap")
    yield "the same, usbmon's text", told("linux-gadget-acm.text")
    yield "a disk, usbmon by QEMU", told("qemu-usb-storage.pcap")
    yield "enumeration, packets", told("right-packets.pcap")
    yield "packets with findings", told("wrong-packets.pcap")


def hexadecimal():
    for form in ("array", "hexdump", "wireshark", "xxd"):
        yield f"keyboard, {form}", [a_byte("hexadecimal", f"{KEYBOARD}.{form}", 100, 1100)]


def tables():
    columns = [title for title, *_ in SETS]
    rows = [(title, [of_set(work, *source) for _, *source in SETS]) for title, work in SET_WORKS]
    yield Table("sets", "Work", columns, rows)
    yield Table("files", "File", ["`write_file`", "`describe`", "`list`", "`assemble`"], list(files()))
    yield Table("checks", "File", ["`check`"], list(checks()))
    yield Table("transactions", "Transaction", ["Instructions"], list(transactions()))
    yield Table("enumerations", "Whole enumeration", ["Each transaction"], list(enumerations()))
    yield Table("walk", "Input", ["`nzg_next`"], list(walks()))
    yield Table("explanations", "Input", ["`explain`"], list(explanations()))
    yield Table("packets", "Work", ["1,024 bytes of data"], list(packets()))
    yield Table("recordings", "Recording", ["`capture`"], list(recordings()))
    yield Table("hexadecimal", "Text", ["`parse`"], list(hexadecimal()))


# Why cells are above their bound, by what their titles begin with, and what was tried.
REASONS = [
    (
        "files, strings of 126 units",
        "Units are put together among 252 zeros and copied from there. Pushed into the list itself they took 0.76, in the list lengthened by zeros 0.90.",
    ),
    (
        "checks",
        "A pass over the settings enters all interfaces before the rules are checked in the order of the bytes: 29 of 58 instructions a setting. A small file takes 105 to fill its tables with zeros. A table of 256 bytes less gains nothing. At each descriptor a test tells whether it is to be counted: 3 instructions, before which these rows had 1.32, 1.19, 1.31 and 1.31.",
    ),
    ("walk", "The step is inlined into the call, which then saves more registers."),
    (
        "recordings",
        "A frame's bytes are a list of its own: to ask for it, fill and free it takes some 230 instructions of 853 to 1,539. Through the list that holds a part these rows took 23.8, 12.8, 74.2 and 81.6, usbmon's text 406. Read where it lies they took 20.1, 9.65, 59.3, 67.0 and 87.0. That a record's head isn't handed on as what any part may say brought the rest.",
    ),
    ("transactions, status stage of a header", "The next set's decoder is filled with 380 zeros, and what was read is moved through memory."),
]


def reason_of(title):
    """Why the cell of this title is above its bound, as far as it is known."""
    return next((reason for begin, reason in REASONS if title.startswith(begin)), "Not known why.")
