"""Images of memories: the bytes that a file has, at their addresses. Intel HEX and UF2 say these, other bytes begin at 0."""
from __future__ import annotations

import re
import struct
from collections.abc import Iterable, Iterator

Piece = tuple[int, bytes]
_RECORD = re.compile(rb":((?:[0-9A-Fa-f]{2}){5,})")
_LINE = re.compile(_RECORD.pattern + rb"\s*(?:\n|\Z)")
_DATA, _END, _SEGMENT, _LINEAR = 0, 1, 2, 4
_STARTS = (3, 5)
# A block of UF2 (https://github.com/microsoft/uf2): 512 bytes between these numbers, with a head of 32 and at most 476 of data.
_BLOCK, _HEAD, _FIRST, _LAST = 512, struct.Struct("<8I"), (0x0A324655, 0x9E5D5157), 0x0AB16F30
_MOST, _NOT_FLASH, _HAS_FAMILY = 476, 1, 0x2000


class Broken(ValueError):
    """Why an image can't be put together."""


def pieces_of(data: bytes) -> list[Piece]:
    """The bytes of a file in runs, each with the address of its first. Raises `Broken`."""
    if _LINE.match(data):
        return _joined(_of_hex(data))
    if data[:8] == struct.pack("<2I", *_FIRST) and data[_BLOCK - 4:_BLOCK] == struct.pack("<I", _LAST):
        families: dict[int, list[Piece]] = {}
        for family, piece in _of_uf2(data):
            families.setdefault(family, []).append(piece)
        return [piece for pieces in families.values() for piece in _joined(pieces)]
    return [(0, data)]


def _of_hex(data: bytes) -> Iterator[Piece]:
    """The bytes of each record of data (Intel, Hexadecimal Object File Format Specification, Revision A)."""
    base = 0
    for number, line in enumerate(data.split(b"\n"), 1):
        if not line.strip():
            continue
        found = _RECORD.fullmatch(line.strip())
        record = bytes.fromhex(found[1].decode()) if found else b""
        if not record or len(record) != record[0] + 5 or sum(record) % 256:
            raise Broken(f"line {number} is no record of Intel HEX, or its checksum is wrong")
        (place, kind), body = struct.unpack_from(">HB", record, 1), record[4:-1]
        if kind == _DATA:
            yield base + place, body
        elif kind == _END:
            return
        elif kind in (_SEGMENT, _LINEAR) and len(body) == 2:
            base = int.from_bytes(body, "big") << (4 if kind == _SEGMENT else 16)
        elif kind not in _STARTS:
            raise Broken(f"line {number} is a record of type {kind}, which Intel HEX hasn't")


def _of_uf2(data: bytes) -> Iterator[tuple[int, Piece]]:
    """The bytes of each block that is for the flash, after the number of the chips that it is for."""
    for at in range(0, len(data), _BLOCK):
        block = data[at:at + _BLOCK]
        if len(block) < _BLOCK or block[-4:] != struct.pack("<I", _LAST):
            raise Broken(f"block {at // _BLOCK} of UF2 is cut off, or its last number is wrong")
        *first, flags, address, size, _, _, family = _HEAD.unpack_from(block)
        if tuple(first) != _FIRST or size > _MOST:
            raise Broken(f"block {at // _BLOCK} of UF2 has a wrong head")
        if not flags & _NOT_FLASH:
            yield family if flags & _HAS_FAMILY else 0, (address, block[_HEAD.size:_HEAD.size + size])


def _joined(pieces: Iterable[Piece]) -> list[Piece]:
    """Pieces in the order of their addresses, those that follow each other as one."""
    runs: list[tuple[int, bytearray]] = []
    for address, data in sorted(pieces):
        end = runs[-1][0] + len(runs[-1][1]) if runs else -1
        if address < end:
            raise Broken(f"the byte at {address:#x} comes twice")
        if address == end:
            runs[-1][1].extend(data)
        elif data:
            runs.append((address, bytearray(data)))
    return [(address, bytes(data)) for address, data in runs]
