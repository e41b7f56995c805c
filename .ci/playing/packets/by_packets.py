"""A device that has the packets of the bus as bytes, over the small device and by the second reading of packets: right, and wrong in what it
takes of damaged packets or sends. The bench must pass the first and find each of the others, with so many damages.

    .ci/playing/packets/by_packets.py    with NOZZLEGORSE_LIBRARY and PYTHONPATH=python
"""
import os
import sys

sys.path[:0] = [os.path.join(os.path.dirname(os.path.abspath(__file__)), it) for it in ("../../..", "../..")]
from nozzlegorse import bench  # noqa: E402
from nozzlegorse.ends import Transaction  # noqa: E402
from playing.small_device import SmallDevice  # noqa: E402
from readings import packets as second  # noqa: E402

FILE = os.path.join(os.path.dirname(os.path.abspath(__file__)), "../../../testdata/files/qemu-usb-mouse.file")
# How many damages each takes, and with what it is found.
WRONG = {"takes data whatever their CRC": (1, "answers a damaged packet"), "takes a token whatever its CRC": (1, "answers a damaged packet"),
         "looks at half of a PID": (1, ""), "counts a damaged ACK": (1, "a new one holds once the status stage is over"), "sends a CRC that is not inverted": (0, "its packet is none: damage 6 (Crc16)"),
         "answers a token": (0, "answers a token before its data"), "answers an ACK": (0, "answers an ACK")}


class PacketDevice:
    """Takes a packet as the second reading has it, and answers by the small device."""

    def __init__(self, file, wrong=""):
        self.device, self.wrong, self.token = SmallDevice(file), wrong, None
        self.reset()

    def reset(self):
        self.device.reset()
        self.token, self.is_waiting = None, False

    def read(self, data):
        """The packet, where it is one or is taken for one."""
        why = second.damage_of(data)
        if why == "Pid" and self.wrong == "looks at half of a PID":
            data = bytes([data[0] & 15 | (15 - (data[0] & 15)) << 4]) + data[1:]
            why = second.damage_of(data)
        ignored = {"takes data whatever their CRC": "Crc16", "takes a token whatever its CRC": "Crc5"}.get(self.wrong)
        if why and why == ignored:
            name = second.NAMES[data[0] & 15]
            return (name, [data[1:-2]]) if why == "Crc16" else (name, [data[1] & 127, data[1] >> 7 | (data[2] & 7) << 1])
        if why == "Pid" and self.wrong == "counts a damaged ACK" and len(data) == 1:
            return "Ack", []
        return ("damage", []) if why else second.read(data)

    def packet(self, data):
        name, fields = self.read(data)
        token, self.token = self.token, None
        is_waiting, self.is_waiting = self.is_waiting, False
        if name in ("Out", "Setup") and fields[1] == 0:
            self.token = name, fields[0]
            return b"\xd2" if self.wrong == "answers a token" else None
        if name == "In" and fields[1] == 0:
            return self.answered(Transaction(fields[0], "in"))
        if name == "Ack" and is_waiting:
            self.device.acked()
            return b"\xd2" if self.wrong == "answers an ACK" else None
        if token and token[0] == "Setup" and name == "Data0" and len(fields[0]) == 8:
            return self.answered(Transaction.setup(token[1], fields[0]))
        if token and token[0] == "Out" and name in ("Data0", "Data1"):
            return self.answered(Transaction(token[1], "out", toggle=int(name[-1]), data=fields[0]))
        return None

    def answered(self, it):
        reply = self.device.transaction(it, True)
        if reply.kind != "data":
            return {"ack": b"\xd2", "nak": b"\x5a", "stall": b"\x1e"}.get(reply.kind)
        self.is_waiting = True
        data = second.written(f"Data{reply.toggle}", [reply.data])
        return data[:-2] + bytes(255 - it for it in data[-2:]) if self.wrong == "sends a CRC that is not inverted" else data


def main():
    with open(FILE, "rb") as it:
        file = it.read()
    right = bench.try_device(PacketDevice(file), file, losses=1, within=30, damages=1)
    if not right.passed:
        sys.exit(f"by packets: {right}")
    for wrong, (damages, words) in WRONG.items():
        none, some = (bench.try_device(PacketDevice(file, wrong), file, losses=0, within=30, damages=count) for count in (0, damages))
        if bool(damages) != none.passed or not any(words in str(it) for it in some.differences):
            sys.exit(f"by packets: a device that {wrong} is not found: {some}")
    print(f"by packets: {right.runs} runs of a right device, and {len(WRONG)} wrong ones are found")


if __name__ == "__main__":
    main()
