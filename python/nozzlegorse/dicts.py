"""All that descriptors say as dictionaries and lists, for `json.dumps`; docs/schema.json is their schema."""
from __future__ import annotations

import itertools

from . import _library as c
from ._headings import Heading, headings, messages
from ._sections import SECTIONS
from .descriptors import Descriptor, Finding, Interface, Remark, check, read, remarks
from .texts import explain

# JSON's numbers are exact up to 53 bits.
_EXACT = 6


def to_dict(data: bytes, speed: str | None = None) -> dict:
    """A set, a descriptor file or a dump: descriptors with their fields, strings, findings and remarks, each with its place, and in
    the words of `explain`. The device ran at this speed: 'low', 'full', 'high', 'super', or None where it isn't known. Raises what
    `judge` raises."""
    data, length = c.lend(data)
    whole, words = read(data), _Words(explain(data, speed=speed, utf8=True).text)
    return {
        "kind": whole.kind,
        "length": length,
        "device": whole.device and words.descriptor(whole.device),
        "configurations": [words.configuration(it) for it in whole.configurations],
        "qualifier": whole.qualifier and words.descriptor(whole.qualifier),
        "other_configurations": [words.configuration(it) for it in whole.other_configurations],
        "languages": whole.languages,
        "strings": [{"language": it.language, "index": it.index, "text": it.text, "place": it.place} for it in whole.strings],
        **words.said(check(data), remarks(data, speed)),
    }


def _placed(it: Finding | Remark, words: str) -> dict:
    return {"message": words} | {name: getattr(it, name) for name in ("place", "role", "part", "set", "setting", "endpoint")}


class _Words:
    """Descriptors as dictionaries, in the words of an explanation."""

    def __init__(self, text: str):
        self.headings = headings(text)

    def said(self, findings: list[Finding], remarked: list[Remark]) -> dict:
        """The rules that are broken, and what is remarked."""
        return {"findings": [{"rule": f"V{it.rule}", "section": SECTIONS[it.rule]} | _placed(it, words) for it, words in messages(self.headings, findings, ())],
                "remarks": [{"remark": f"R{it.number}"} | _placed(it, words) for it, words in messages(self.headings, (), remarked)]}

    def descriptor(self, it: Descriptor) -> dict:
        """A descriptor alone."""
        heading = self.headings[it.place]
        return {"type": it.type, "place": it.place, "length": len(it.data), "words": heading.words, "fields": fields_of(it, heading)}

    def extras(self, it: Descriptor) -> dict:
        """A descriptor and the extras that belong to it."""
        return self.descriptor(it) | {"extras": [self.descriptor(extra) for extra in it.extras]}

    def setting(self, it: Interface) -> dict:
        """An interface at one of its settings."""
        return self.extras(it) | {"alternate": it.alternate, "endpoints": [self.extras(endpoint) for endpoint in it.endpoints]}

    def configuration(self, it) -> dict:
        """A set: each interface with all its settings, by number."""
        by_number = sorted(it.interfaces, key=lambda setting: setting.interface)
        interfaces = [{"number": number, "settings": [self.setting(setting) for setting in settings]}
                      for number, settings in itertools.groupby(by_number, lambda setting: setting.interface)]
        return self.extras(it) | {"value": it.value, "interfaces": interfaces}


def fields_of(it: Descriptor, heading: Heading) -> list[dict]:
    """The fields of a descriptor. The explanation has a line for each, in their order, but for a type that it leaves out."""
    lines, found = list(heading.fields), []
    for field in it.fields:
        row = {"name": field.name, "place": field.place, "bytes": field.data.hex()}
        if len(field.data) <= _EXACT:
            row["value"] = field.value
        if lines and lines[0][0] == field.name:
            row["words"] = lines.pop(0)[1]
        found.append(row)
    return found
