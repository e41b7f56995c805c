"""Whether testdata/captures has what goes over the bus while each wrong end of the bench in Python enumerates or is enumerated, as recordings
of packets (link type 288) that have each packet which arrives; and whether the second reading finds each by what the standard forbids.

    .ci/playing/packets/wrong_ends.py [--write]    with NOZZLEGORSE_LIBRARY and PYTHONPATH=python
"""
import contextlib
import os
import sys

ROOT = os.path.join(os.path.dirname(os.path.abspath(__file__)), "../../..")
sys.path[:0] = [ROOT, os.path.join(ROOT, ".ci")]
from nozzlegorse import build  # noqa: E402
from nozzlegorse.ends import SILENCE  # noqa: E402
from playing import own_ends, small_device, small_host  # noqa: E402
from readings import captures, recorded  # noqa: E402

# Packets of 8 bytes, a string of 16 and one of 12.
FILE = build("""device 0110 00 00 00 08 1234 5678 0100 01 02 00 01
configuration 01 01 00 a0 32 -
interface 00 00 01 03 01 02 00 -
endpoint 81 03 0004 0a -
languages 0409
string "Mouse12"
string "12345"
""")

# Of each wrong end what the bus loses, and by what it is found. The reader has no model of the device, so of silence at another address it
# says what it says of a loss.
DEVICES = ("", "Toggle C5"), ("", "NoHandshake"), ("", "C7"), ("1u", "NoHandshake Toggle C5"), ("4u", "NoHandshake"), ("", "Toggle C1"), ("2u", "NoHandshake C5")
HOSTS = ("", "NoHandshake"), ("", "C7"), ("", "Toggle"), ("6a", "NoHandshake C2")


class Bus:
    """A bus to a device. `packets` are those that arrive."""

    def __init__(self, device, fates):
        self.device, self.fates, self.count, self.packets = device, fates, 0, []
        self.reset = device.reset

    def send(self, sent):
        """Makes a transaction: what comes back."""
        fate, self.count = self.fates.get(self.count, "."), self.count + 1
        if fate == "d":
            return SILENCE
        self.packets.append(captures.token(sent.stage.capitalize(), sent.address))
        if sent.stage != "in":
            self.packets.append(captures.sent("Data0", sent.setup_bytes) if sent.stage == "setup" else captures.sent(f"Data{sent.toggle}", sent.data))
        reply = self.device.transaction(sent, fate != "n")
        if reply.kind == "silence" or fate == "u":
            return SILENCE
        if reply.kind != "data":
            self.packets.append({"ack": captures.ACK, "nak": captures.NAK, "stall": captures.STALL}[reply.kind])
            return reply
        self.packets.append(captures.sent(f"Data{reply.toggle}", reply.data))
        if fate != "a":
            self.packets.append(captures.ACK)
            self.device.acked()
        return reply


def heard(host, device, loss):
    """The recording of an enumeration over a bus with a loss."""
    bus = Bus(device, {int(loss[:-1]): loss[-1]} if loss else {})
    # A wrong host may fail at what it reads.
    with contextlib.suppress(TypeError):
        host(bus)
    return captures.pcap("<", 0xA1B2C3D4, 288, [(9, 10 * number, len(it), it) for number, it in enumerate(bus.packets)])


def recordings():
    """The name of each, its bytes, and the names of what is to be found."""
    for number, (wrong, (loss, wanted)) in enumerate(zip(small_device.WRONG, DEVICES, strict=True), 1):
        yield f"wrong-device-{number}", heard(own_ends.host, small_device.SmallDevice(FILE, wrong), loss), wanted.split()
    for number, (wrong, (loss, wanted)) in enumerate(zip(small_host.WRONG, HOSTS, strict=True), 1):
        yield f"wrong-host-{number}", heard(small_host.SmallHost(wrong), small_device.SmallDevice(FILE), loss), wanted.split()


def found_in(data):
    """The names of what the second reading finds."""
    words = {words: name for name, words in recorded.TRANSACTIONS.items()}
    return {name for one in recorded.Recording(data).order for name in ([words[one["words"]]] if "words" in one else one["found"])}


def main():
    count = 0
    for count, (name, data, wanted) in enumerate(recordings(), 1):
        path = os.path.join(captures.FOLDER, f"{name}.pcap")
        if sys.argv[1:] == ["--write"]:
            with open(path, "wb") as it:
                it.write(data)
        with open(path, "rb") as it:
            if it.read() != data:
                sys.exit(f"wrong ends: {name}: another recording than testdata has")
        if found_in(data) != set(wanted):
            sys.exit(f"wrong ends: {name}: found are {found_in(data)}, and not {wanted}")
    print(f"wrong ends: each of {count} recordings is as testdata has it, and something is found in it")


if __name__ == "__main__":
    main()
