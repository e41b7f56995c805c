"""Descriptors as values: what `read` and `walk` give, and the rules that `check` finds broken."""
from __future__ import annotations

from . import _library as c
from ._value import Value, new
from .faults import done

TYPE_CHECKING = False  # The module collections takes a tenth of an import.
if TYPE_CHECKING:
    from collections.abc import Iterator

ROLES = (None, "device", "configuration", "interface", "endpoint", "association", "raw", "qualifier", "languages", "string")
PARTS = ("device", "main", "other")


class Field(Value):
    """A field of a descriptor: its name in the standard, its place in the input, and its bytes."""

    name: str
    place: int
    data: bytes

    @property
    def value(self) -> int:
        """The number that the bytes are, little-endian."""
        return int.from_bytes(self.data, "little")

    def __repr__(self) -> str:
        return f"<{self.name} {self.data[::-1].hex()}, at {self.place}>"


class Descriptor(Value):
    """A descriptor where it is in its input; `it["bInterval"]` is a field by its name in the standard. What doesn't apply is 0.

    `owner` is the role of what an association or raw descriptor belongs to. `part` is 'device', 'main' or 'other', the set a
    number in it, the setting a number in the set and the endpoint one in the setting, as findings count. Interface, alternate
    and codes (class, subclass, protocol) are of the setting that it belongs to, codes of a device its own.
    """

    role: str
    place: int
    data: bytes
    depth: int
    owner: str | None
    part: str
    set: int
    setting: int
    endpoint_number: int
    interface: int
    alternate: int
    codes: tuple[int, int, int]
    _input: bytes
    _at: bytes
    _free = ("_input", "_at", "extras", "endpoints", "interfaces")

    @property
    def type(self) -> int:
        """bDescriptorType."""
        return self.data[1]

    @property
    def fields(self) -> list[Field]:
        """Each field in the order of the bytes, of descriptors of classes too."""
        _, found = c.into(c.lib.nzg_fields, self._input, len(self._input), self._numbers(), of=c.structs["field"], room=32)
        return [Field(bytes(it.name)[:it.name_length].decode("ascii"), it.place, self._bytes_of(it)) for it in found]

    def __getitem__(self, name: str) -> int:
        it, word = c.structs["field"](), name.encode(errors="replace") if isinstance(name, str) else b""
        if not c.lib.nzg_field_named(self._input, len(self._input), self._numbers(), word, len(word), it):
            raise KeyError(name)
        return int.from_bytes(self._bytes_of(it), "little")

    def _bytes_of(self, it):
        return self._input[it.place:it.place + it.width]

    def _numbers(self):
        return c.structs["descriptor"].from_buffer_copy(self._at)

    def _words(self) -> str:
        return ""

    def __repr__(self) -> str:
        return f"<{self.role}{self._words()}, at {self.place}>"


class Raw(Descriptor):
    """A descriptor of a class or a vendor, or of a type that has no meaning in a set."""

    def _words(self):
        return f" {self.type:02x} {self.data[2:].hex() or '-'}"


class Association(Descriptor):
    """Interfaces that make one function."""


class Qualifier(Descriptor):
    """What the device is at its other speed."""


class Device(Descriptor):
    """A device descriptor."""

    @property
    def vendor(self) -> int:
        """idVendor."""
        return int.from_bytes(self.data[8:10], "little")

    @property
    def product(self) -> int:
        """idProduct."""
        return int.from_bytes(self.data[10:12], "little")

    @property
    def max_packet_size(self) -> int:
        """bMaxPacketSize0."""
        return self.data[7]

    def _words(self):
        return f" {self.vendor:04x}:{self.product:04x}"


class Languages(Descriptor):
    """The list of languages."""

    @property
    def languages(self) -> list[int]:
        """Their codes, in its order."""
        return [int.from_bytes(self.data[at:at + 2], "little") for at in range(2, len(self.data), 2)]


class String(Descriptor):
    """A string."""

    @property
    def language(self) -> int:
        """Its language's code."""
        return self._numbers().language

    @property
    def index(self) -> int:
        """Its index."""
        return self._numbers().index

    @property
    def text(self) -> str:
        """Its characters, with escapes for what is none."""
        answer, out = c.into(c.lib.nzg_text, *c.lend(self._input), self._numbers())
        done(answer)
        return out.decode()

    def _words(self):
        return f" {self.index} in {self.language:04x} {self.text!r}"


class Endpoint(Descriptor):
    """An endpoint, and the descriptors that belong to it."""

    extras: list[Descriptor] = new(list)

    @property
    def address(self) -> int:
        """bEndpointAddress."""
        return self.data[2]

    @property
    def number(self) -> int:
        """Bits 3 to 0 of the address."""
        return self.address & 15

    @property
    def direction(self) -> str:
        """'in' or 'out'."""
        return "in" if self.address & 0x80 else "out"

    @property
    def attributes(self) -> int:
        """bmAttributes."""
        return self._numbers().attributes

    @property
    def transfer_type(self) -> str:
        """'control', 'isochronous', 'bulk' or 'interrupt': bits 1 and 0 of bmAttributes."""
        return ("control", "isochronous", "bulk", "interrupt")[self.attributes & 3]

    @property
    def max_packet_size(self) -> int:
        """Bytes in a packet: bits 10 to 0 of wMaxPacketSize."""
        return self._numbers().packet

    @property
    def transactions(self) -> int:
        """In a microframe, by bits 12 and 11 of wMaxPacketSize: 1 to 3, and 0 where those are reserved. They count for isochronous
        and interrupt endpoints at high speed."""
        return self._numbers().transactions

    @property
    def interval(self) -> int:
        """bInterval."""
        return self._numbers().interval

    def _words(self):
        return f" {self.address:02x}: {self.transfer_type} {self.direction} {self.number}, {self.max_packet_size} bytes"


class Interface(Descriptor):
    """An interface at one of its settings, with its endpoints and the other descriptors that belong to it."""

    endpoints: list[Endpoint] = new(list)
    extras: list[Descriptor] = new(list)

    def _words(self):
        return f" {self.interface}.{self.alternate}, class {bytes(self.codes).hex(' ')}, {len(self.endpoints)} endpoints"


class Configuration(Descriptor):
    """A configuration set: its interfaces at each of their settings, and the other descriptors that belong to it."""

    interfaces: list[Interface] = new(list)
    extras: list[Descriptor] = new(list)

    @property
    def value(self) -> int:
        """bConfigurationValue."""
        return self.data[5]

    def _words(self):
        return f" {self.value}, {len(self.interfaces)} settings"


class Found(Value):
    """What stands among other bytes: a whole 'set', or a 'device' descriptor alone, which may stand there by chance."""

    place: int
    kind: str
    bytes: bytes

    def __str__(self) -> str:
        return f"at {self.place}: {self.kind}, {len(self.bytes)} bytes"


class Finding(Value):
    """A rule of chapter 9 that is broken, by which descriptor. Sets, settings and endpoints are numbers from 0, each in what it belongs
    to. `str` has its place, its rule and its message."""

    rule: int
    part: str
    set: int
    setting: int
    endpoint: int
    place: int
    role: str
    _input: bytes
    _free = ("_input",)

    @property
    def message(self) -> str:
        """What breaks the rule, in the words of `usbdesc explain`: counts that differ too. The bytes are read anew for it."""
        return text_of(c.lib.nzg_finding_text, *c.lend(self._input), c.structs["finding"](place=self.place, rule=self.rule))

    def __str__(self) -> str:
        return f"at {self.place}: V{self.rule}: {self.message}"


class Remark(Value):
    """What is remarked of a descriptor, which breaks no rule. The number is that of the table of remarks in docs/formats.md; the
    others are as in a `Finding`. `str` has its place, its number and its message."""

    number: int
    part: str
    set: int
    setting: int
    endpoint: int
    place: int
    role: str
    _input: bytes
    _speed: int
    _free = ("_input", "_speed")

    @property
    def message(self) -> str:
        """What is remarked, in the words of `usbdesc explain`. The bytes are read anew for it."""
        return text_of(c.lib.nzg_remark_text, *c.lend(self._input), self._speed, c.structs["remark"](place=self.place, number=self.number))

    def __str__(self) -> str:
        return f"at {self.place}: R{self.number}: {self.message}"


class Descriptors(Value):
    """All that a set, a descriptor file or a dump says. `kind` is 'set', 'file' or 'dump'."""

    kind: str
    device: Device | None = None
    configurations: list[Configuration] = new(list)
    qualifier: Qualifier | None = None
    other_configurations: list[Configuration] = new(list)
    languages: list[int] = new(list)
    strings: list[String] = new(list)

    @property
    def interfaces(self) -> list[Interface]:
        """All settings of all configurations of the device's own speed."""
        return [it for set_ in self.configurations for it in set_.interfaces]

    @property
    def endpoints(self) -> list[Endpoint]:
        """All endpoints of these settings."""
        return [it for setting in self.interfaces for it in setting.endpoints]

    def string(self, index: int, language: int | None = None) -> str | None:
        """The string of an index, in a language or in the first."""
        return next((it.text for it in self.strings if it.index == index and language in (None, it.language)), None)

    def __repr__(self) -> str:
        return f"<{self.kind}: {self.device}, {len(self.configurations)} configurations, {len(self.strings)} strings>"


_CLASSES = dict(zip(ROLES[1:], (Device, Configuration, Interface, Endpoint, Association, Raw, Qualifier, Languages, String)))


def walk(data: bytes) -> Iterator[Descriptor]:
    """Each descriptor in the order of the bytes, also of broken bytes as far as they can be read."""
    (data, length), at = c.lend(data), c.structs["descriptor"]()
    return iter(_walk(data, length, at))


def _walk(data, length, at):
    while c.lib.nzg_next(data, length, at):
        yield _CLASSES[ROLES[at.role]](
            ROLES[at.role], at.place, data[at.place:at.place + at.length], at.depth, ROLES[at.owner], PARTS[at.part], at.set,
            at.setting, at.endpoint_number, at.interface_, at.alternate, (at.class_, at.subclass, at.protocol), data,
            bytes(at))


def find(data: bytes) -> Iterator[Found]:
    """Each whole set and each device descriptor in any bytes, as a firmware image, in their order. What is within a set is listed with
    it alone."""
    return iter(_find(*c.lend(data)))


def _find(data, length):
    some, start, count = (c.structs["found"] * 4096)(), 0, 4096
    while count == len(some):
        count = c.lib.nzg_find_all(data, length, start, some, len(some))
        for it in some[:count]:
            start = it.next
            yield Found(it.place, "set" if it.kind == 1 else "device", data[it.place:it.place + it.length])


def judge(data: bytes) -> str:
    """What the bytes are: 'set', 'file' or 'dump'. Raises a `Fault` with its number and place where they are none."""
    data, length = c.lend(data)
    return ("set", "file", "dump")[done(c.lib.nzg_judge(data, length), data).number - 1]


def read(data: bytes) -> Descriptors:
    """What a set, a descriptor file or a dump of Linux says. Raises what `judge` raises."""
    found: dict[str, list] = {role: [] for role in _CLASSES}
    last: dict[str | None, Descriptor] = {}
    kind = judge(data)
    for it in walk(data):
        found[it.role].append(it)
        last[it.role] = it
        if it.role == "interface":
            last["configuration"].interfaces.append(it)
        elif it.role == "endpoint":
            last["interface"].endpoints.append(it)
        elif it.owner:
            last[it.owner].extras.append(it)
    main, other = ([it for it in found["configuration"] if it.part == part] for part in PARTS[1:])
    return Descriptors(kind, last.get("device"), main, last.get("qualifier"), other,
                       [it for list_ in found["languages"] for it in list_.languages], found["string"])


def check(data: bytes) -> list[Finding]:
    """Each rule of chapter 9 that a set, a descriptor file or a dump breaks, in the order of the bytes."""
    data, length = c.lend(data)
    answer, found = c.into(c.lib.nzg_findings, data, length, of=c.structs["finding"], room=64)
    done(answer, data)
    return [Finding(it.rule, PARTS[it.part], it.set, it.setting, it.endpoint, it.place, ROLES[it.role], data) for it in found]


def remarks(data: bytes, speed: str | None = None) -> list[Remark]:
    """What is remarked of a set, a descriptor file or a dump, in the order of the bytes. The device ran at this speed: 'low', 'full',
    'high', 'super', or None where it isn't known."""
    (data, length), running = c.lend(data), c.speed_number(speed, (None, *c.SPEEDS))
    answer, found = c.into(c.lib.nzg_remarks, data, length, running, of=c.structs["remark"], room=64)
    done(answer, data)
    return [Remark(it.number, PARTS[it.part], it.set, it.setting, it.endpoint, it.place, ROLES[it.role], data, running) for it in found]


def message(rule: int) -> str:
    """What breaks a rule, in words."""
    return text_of(c.lib.nzg_rule, c.number(rule, 0, 255, "rule"))


def text_of(call, *before) -> str:
    """The text that a call puts."""
    answer, text = c.into(call, *before)
    done(answer)
    return text.decode("ascii")
