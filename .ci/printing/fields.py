"""The standard descriptors: type, length, section and fields of each, by the lists that definitions and code go by."""

import re

from . import sources

SOURCE = "crates/usb_fields/src"
# The list of a descriptor's fields, and those of its bytes that no list has.
LISTS = {
    "DEVICE": ("usb_fields/specs/Device", "device", ""),
    "DEVICE_QUALIFIER": ("usb_fields/specs/Device", "qualifier", ""),
    "CONFIGURATION": ("usb_set/specs/Descriptors", "configuration", "wTotalLength (2), "),
    "INTERFACE": ("usb_set/specs/Descriptors", "interface", ""),
    "ENDPOINT": ("usb_set/specs/Descriptors", "endpoint", ""),
    "INTERFACE_ASSOCIATION": ("usb_set/specs/Descriptors", "association", ""),
}


def constants(name):
    """The comment and the value of each constant of a file."""
    text = sources.text_of(f"{SOURCE}/{name}.rt")
    return {constant: (comment, value.strip('"')) for comment, constant, value in re.findall(r"(?:/// (.*)\n)?pub const (\w+): \S+ = (.*);", text)}


def printed():
    types, lengths, names = constants("descriptor_type"), constants("descriptor_length"), constants("field_name")
    rows = ["| Type | Descriptor | bLength | Fields after the first two bytes | Section |", "|---|---|---|---|---|"]
    for name, (path, described, before) in LISTS.items():
        body = re.search(rf"^{described}_fields =\n(.*?)\[\]", sources.text_of(f"crates/{path}.antt"), flags=re.S | re.M)[1]
        fields = [names[field][1] + " (2)" * (width == "word") for width, field in re.findall(r"(byte|word) (\w+)\.now", body)]
        section = re.search(r"\((9[\d.]+\d|ECN)", types[name][0])[1]
        row = [types[name][1], name.replace("_", " ").lower(), lengths[name][1], before + ", ".join(fields), section]
        rows.append(f"| {' | '.join(row)} |")
    return "\n".join(rows)
