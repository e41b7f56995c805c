"""An image of a memory in the forms that `nozzlegorse find` puts together, and such forms broken."""
import struct


def record(kind, place, data):
    """A line of Intel HEX."""
    body = struct.pack(">BHB", len(data), place, kind) + data
    return ":" + (body + bytes([-sum(body) % 256])).hex().upper() + "\r\n"


def in_hex(data, base, kind=4):
    """Records of 16 bytes, the last ones first, where 2 and 4 are the types that say the upper part of an address."""
    upper = base >> (4 if kind == 2 else 16)
    lines = [record(0, (base & (0xF if kind == 2 else 0xFFFF)) + at, data[at:at + 16]) for at in range(0, len(data), 16)]
    return (record(kind, 0, struct.pack(">H", upper)) + "".join(reversed(lines)) + record(5, 0, bytes(4)) + record(1, 0, b"")).encode()


def in_uf2(data, base):
    """Blocks of 256 bytes for one chip, and one block that is not for the flash."""
    count = -(-len(data) // 256)
    block = lambda flags, number: struct.pack("<8I", 0x0A324655, 0x9E5D5157, flags, base + 256 * number, len(data[256 * number:256 * number + 256]), number, count, 0xE48BFF56) \
        + data[256 * number:256 * number + 256].ljust(476, b"\0") + struct.pack("<I", 0x0AB16F30)
    return b"".join(block(0x2000, number) for number in range(count)) + block(0x2001, 0)


def forms(data):
    """The file of each form, and the address of the image's first byte."""
    return {"image.elf": (8, b"\x7fELF\2\1\1\0" + data), "image.hex": (0x08004000, in_hex(data, 0x08004000)), "segments.hex": (0x12340, in_hex(data, 0x12340, 2)),
            "image.uf2": (0x10000000, in_uf2(data, 0x10000000))}


def broken(data):
    """A file of each mistake, and the line that says it."""
    lines, uf2 = in_hex(data, 0), in_uf2(data, 0)
    wrong = lines.replace(b"00000001FF", b"00000001FE")
    return {"sum.hex": (wrong, f"line {wrong.count(bytes([10]))} is no record of Intel HEX, or its checksum is wrong"),
            "twice.hex": (lines[:17] + record(0, 8, bytes(16)).encode() + record(0, 0, bytes(16)).encode(), "the byte at 0x8 comes twice"),
            "type.hex": ((record(0, 0, b"a") + record(6, 0, b"")).encode(), "line 2 is a record of type 6, which Intel HEX hasn't"),
            "cut.uf2": (uf2[:-1], f"block {len(uf2) // 512 - 1} of UF2 is cut off, or its last number is wrong"),
            "head.uf2": (uf2[:512] + b"x" + uf2[513:], "block 1 of UF2 has a wrong head")}
