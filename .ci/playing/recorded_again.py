"""What recordings have by readings/recorded.py, as calls give it: those of testdata/captures, and some that are none."""
import glob
import os

from readings import recorded

PLACE = os.path.relpath(f"{os.path.dirname(os.path.abspath(__file__))}/../../testdata/captures")
FILES = sorted(it for it in glob.glob(f"{PLACE}/*") if it.endswith((".pcap", ".pcapng", ".text")))
ENDINGS = {"unseen": "no end", "failed": "error"}


def data_of(path):
    with open(path, "rb") as it:
        return it.read()


def read_again(data):
    """What a recording has by the second reading: what is over, at last what has no end, the devices, and the cut."""
    recording = recorded.Recording(data)
    all_ = [*recording.order, *recording.open.values(), *recording.bus.open.values()]
    cut = recording.cut is not None and (recording.cut, len(data) - recording.cut)
    return [of_reading(it) for it in all_], list(recording.findings().items()), cut or None


def of_reading(it):
    if "words" in it:
        return it["place"][1], it["device"], it["place"][0], it["words"]
    kind, status = it["ending"]
    return (it["time"], it["device"], it["setup"], it["data"], it["length"], ENDINGS.get(kind, kind), status if kind in ("failed", "refused") else 0,
            it["cut"], tuple(recorded.FINDINGS[name] for name in it.get("found", [])))


def bad():
    """Recordings that are none, or none from some place on."""
    pcap, pcapng = (data_of(f"{PLACE}/{name}") for name in ("qemu-usb-serial.pcap", "clocks.pcapng"))
    text = data_of(f"{PLACE}/linux-gadget-acm.text")
    yield from (b"\0\0\0\0", pcapng[:8] + b"\0\0\0\0" + pcapng[12:], pcapng[:40] + b"\x11" + pcapng[41:], text + b"no line\n" + text, text[:300] + text[305:])
    yield from (pcapng[:at] + bytes([pcapng[at] ^ 0x55]) + pcapng[at + 1:] for at in range(0, len(pcapng), 37))
    yield pcap[1:]
