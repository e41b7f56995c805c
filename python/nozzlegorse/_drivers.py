"""What drivers ask of a device that a dump of its descriptors can't answer."""
from __future__ import annotations

from collections.abc import Iterator

from .descriptors import Interface, read

# The type of class descriptors, and subtypes of them: an Ethernet networking functional descriptor (CDC ECM 1.2, 5.4) and a clock
# source (Audio 2.0, 4.7.2.1).
CLASS_DESCRIPTOR, ETHERNET, CLOCK = 0x24, 0x0F, 0x0A


def wanted(file: bytes) -> dict[str, str]:
    """The first six bytes of each request without whose answer a driver of Linux gives a device or an interface up, and what it asks
    for."""
    found = read(file)
    hub = {"a00600290000": "the hub descriptor"} if found.device.data[4] == 9 else {}
    return hub | dict(asked for setting in found.interfaces if setting.alternate == 0 for asked in _of_interface(setting))


def _of_interface(setting: Interface) -> Iterator[tuple[str, str]]:
    at, classes = f"{setting.interface:02x}", bytes(setting.codes)
    if classes[0] == 3:
        yield f"81060022{at}00", f"the report descriptor of interface {setting.interface}"
    elif classes[:2] == b"\x0e\x02":
        yield f"a1870001{at}00", f"GET_DEF of PROBE at interface {setting.interface}"
        yield f"21010001{at}00", f"SET_CUR of PROBE at interface {setting.interface}"
        yield f"a1810001{at}00", f"GET_CUR of PROBE at interface {setting.interface}"
    elif classes[:2] == b"\x02\x0d":
        yield f"a1800000{at}00", f"the NTB parameters of interface {setting.interface}"
    elif classes in (b"\x02\x02\xff", b"\xe0\x01\x03", b"\xef\x04\x01"):
        yield f"21000000{at}00", f"a message of RNDIS to interface {setting.interface}"
        yield f"a1010000{at}00", f"a message of RNDIS of interface {setting.interface}"
    for it in setting.extras:
        kind, subtype = it.data[1], it.data[2] if len(it.data) > 3 else 0
        if (kind, subtype, classes[0]) == (CLASS_DESCRIPTOR, ETHERNET, 2):
            yield f"8006{it.data[3]:02x}030904", f"string {it.data[3]}, the MAC address"
        elif (kind, subtype, classes[0], classes[2]) == (CLASS_DESCRIPTOR, CLOCK, 1, 0x20):
            yield f"a1020001{at}{it.data[3]:02x}", f"the rates of clock {it.data[3]}"
