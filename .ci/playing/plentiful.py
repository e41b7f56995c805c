"""Files, fates and texts past every round number at which a body might give up for want of memory."""

FATES = 5000 * "."

# A device in packets of 8 bytes, but for how many sets it has; an interface without endpoints.
DEVICE = bytes.fromhex("1201100100000008341278560001000000")
INTERFACE = bytes.fromhex("090400000003000000")


def one_set(front, each, count, value=1):
    body = front + each * count
    return bytes([9, 2, *(len(body) + 9).to_bytes(2, "little"), 1, value, 0, 0x80, 0x32]) + body


def sets_and_strings():
    """A file of 255 sets, each of which names a string, and these strings of 0 to 126 units."""
    sets = b"".join(bytes([9, 2, 9, 0, 0, value, value, 0x80, 0x32]) for value in range(1, 256))
    strings = b"".join(bytes([2 + 2 * (value % 127), 3]) + b"\xac\x20" * (value % 127) for value in range(1, 256))
    return DEVICE + b"\xff" + sets + b"\x04\x03\x09\x04" + strings


SETTINGS = one_set(b"", INTERFACE, 7280)
ENDPOINTS = one_set(INTERFACE, bytes.fromhex("0705810308000a"), 9359)
FILES = {
    "two sets": DEVICE + b"\x02" + SETTINGS + ENDPOINTS,
    "endpoints": DEVICE + b"\x01" + ENDPOINTS,
    "settings": DEVICE + b"\x01" + SETTINGS,
    "associations": DEVICE + b"\x01" + one_set(INTERFACE, bytes.fromhex("080b000103000000"), 8189),
    "class descriptors": DEVICE + b"\x01" + one_set(b"", b"\x02\x21", 32763),
    "sets and strings": sets_and_strings(),
}

# Four sets of as many endpoints as one can have. Each endpoint breaks V6 and V12, and all but the first of a set V7.
OWNER, COUNT = bytes.fromhex("0904000000ff000000"), 9359
FINDINGS = DEVICE + b"\x04" + b"".join(one_set(OWNER, bytes.fromhex("0705800308e00a"), COUNT, value) for value in range(1, 5))
# 1,048,578 bytes: sixteen sets of 65,535.
RAW = b"\xff\x21" + bytes(range(253))
MEGABYTE = DEVICE + b"\x10" + b"".join(one_set(b"\xf6" + RAW[1:246], RAW, 256, value) for value in range(1, 17))


def long_fields(digits):
    """Broken listings, each with a field or a word that is longer than any that there is."""
    device, set_ = "device 0110 00 00 00 08 1234 5678 0100 00 00 00 01\n", "configuration 00 01 00 80 32 -\n"
    yield f"device 0110 00 00 00 08 1234 5678 {digits} 00 00 00 00\n"
    yield f"{device}configuration 00 01 00 80 32 {digits}\n"
    yield f"{device}{set_}raw 21 {digits}\n"
    yield f"{device}{set_}interface 00 00 00 ff 00 00 {digits} -\n"
    yield device.replace(" 00 00 00 01", " 01 00 00 00") + f'languages 0409\nstring "{digits}"\n'
    yield f"{device}{set_}{digits}\n"
    yield f"{device}{set_}raw 21 00{digits}"


LONG_FIELDS = [text.encode() for length in (4_096, 5_000, 200_000) for text in long_fields("0" * length)]


def in_lines(data, line):
    """Sixteen bytes a line, each line made of its place and its bytes."""
    return "".join(line(at, data[at : at + 16]) + "\n" for at in range(0, len(data), 16))


def shown(b):
    return "".join(chr(c) if 32 <= c < 127 else "." for c in b)


# The forms of hexadecimal text: digits alone, with marks and commas, in an array and a string of C, and as `xxd`, `hexdump -C`
# and Wireshark write it.
HEXADECIMAL = {
    "digits": lambda data: data.hex(),
    "marks": lambda data: in_lines(data, lambda at, b: " ".join(f"0x{byte:02x}," for byte in b)),
    "array": lambda data: "const uint8_t bytes[] = {\n" + in_lines(data, lambda at, b: "".join(f" 0x{byte:02x}," for byte in b)) + "};\n",
    "string": lambda data: "const char bytes[] =\n" + in_lines(data, lambda at, b: '"' + "".join(f"\\x{byte:02x}" for byte in b) + '"') + ";\n",
    "xxd": lambda data: in_lines(data, lambda at, b: f"{at:08x}: {b.hex(' ', -2):39}  {shown(b)}"),
    "hexdump": lambda data: in_lines(data, lambda at, b: f"{at:08x}  {b[:8].hex(' '):23}  {b[8:].hex(' '):23}  |{shown(b)}|")
    + f"{len(data):08x}\n",
    "Wireshark": lambda data: in_lines(data, lambda at, b: f"{at:04x}   {b.hex(' '):47}   {shown(b)}"),
}

# Long texts that are no hexadecimal ones up to their last character.
LONG = 40_000_000


def in_vain(line):
    """Such a text of about this many characters, of these lines."""
    return lambda length: length // len(line) * line + b"z"


NO_TEXTS = {
    "line feeds": in_vain(b"\n"),
    "blanks": in_vain(b" "),
    "tabs": in_vain(b"\t"),
    "braces": in_vain(b"{"),
    "lines of slashes": in_vain(b"//\n"),
    "slashes": in_vain(b"/"),
}
