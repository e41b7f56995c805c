"""Requests, descriptors and answers of a plugged device in words, as `GET_STATUS of endpoint 0x81` and `STALL; due is 00 00 (9.4.5)`."""
from __future__ import annotations

import errno

GET_DESCRIPTOR, SET_ADDRESS, SET_DESCRIPTOR, CLEAR_FEATURE, SET_FEATURE, SET_CONFIGURATION, SET_INTERFACE = 6, 5, 7, 1, 3, 9, 11
HALT, WAKEUP, TEST_MODE = 0, 1, 2
# The names of table 9-4, and the section of each.
REQUESTS = {0: ("GET_STATUS", "9.4.5"), 1: ("CLEAR_FEATURE", "9.4.1"), 3: ("SET_FEATURE", "9.4.9"), 5: ("SET_ADDRESS", "9.4.6"), 6: ("GET_DESCRIPTOR", "9.4.3"), 7: ("SET_DESCRIPTOR", "9.4.8"), 8: ("GET_CONFIGURATION", "9.4.2"),
            9: ("SET_CONFIGURATION", "9.4.7"), 10: ("GET_INTERFACE", "9.4.4"), 11: ("SET_INTERFACE", "9.4.10"), 12: ("SYNCH_FRAME", "9.4.11")}
_TYPES = {1: "device", 2: "configuration", 3: "string", 6: "qualifier", 7: "other-speed configuration"}
# At most so many bytes are written, of more those from the first that is another one.
_SHORT = 18


def word(data: bytes, at: int) -> int:
    """Two bytes, the low one first."""
    return int.from_bytes(data[at:at + 2], "little")


def descriptor_words(type_: int, index: int, language: int) -> str:
    """A descriptor that is asked for."""
    known = _TYPES.get(type_)
    return (f"{known} {index}" if known else f"type 0x{type_:02x} index {index}") + (f" in {language:04x}" if language else "")


def request_words(q: bytes, is_in_address: bool) -> str:
    """A request, and whether it is made in the Address state."""
    kind, code, value, index = q[0] & 0x1F, q[1], word(q, 2), word(q, 4)
    whom = {0: "the device", 1: f"interface {index}", 2: f"endpoint 0x{index:02x}"}.get(kind, f"recipient {kind}")
    if code == GET_DESCRIPTOR:
        whom = descriptor_words(value >> 8, value & 0xFF, index)
    what = ""
    if code in (CLEAR_FEATURE, SET_FEATURE):
        what = {(2, HALT): " halt", (0, WAKEUP): " remote wakeup"}.get((kind, value), f" {value}")
    if code in (SET_CONFIGURATION, SET_INTERFACE):
        what = f" {value}"
    text = f"{REQUESTS[code][0]}{what} of {whom}" if code in REQUESTS else f"request {code} of {whom}"
    if code == GET_DESCRIPTOR or code not in REQUESTS:
        text += f", {word(q, 6)} byte{'s' * (word(q, 6) != 1)}"
    return text + ", in Address" * is_in_address


def section_of(q: bytes) -> str:
    """Where the standard says what is due."""
    return REQUESTS.get(q[1], ("", "9.2.7"))[1]


def bytes_words(data: bytes, other: bytes) -> str:
    """Bytes, or of many how many and the first that are others, where others are known."""
    if len(data) <= _SHORT and len(other) <= _SHORT:
        return data.hex(" ") or "0 bytes"
    first = next((at for at, (one, two) in enumerate(zip(data, other)) if one != two), min(len(data), len(other)))
    return f"{len(data)} bytes" + (f", at {first} {data[first:first + _SHORT].hex(' ')}" if other and first < len(data) else "")


def ending_words(error: int, count: int) -> str:
    """How a transfer ended, after so many bytes."""
    known = {0: "done", errno.EPIPE: "STALL", errno.ETIMEDOUT: "no answer within 5 s", errno.EOVERFLOW: "too many bytes"}
    return known.get(error, "no answer") + (f" after {count} bytes" if error and count else "")
