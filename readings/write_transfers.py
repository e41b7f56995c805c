"""Writes the lines of control transfers whose data go to the device, as a host sends them (USB 2.0, 8.5.3 and 8.6.4). It
writes transfers/writes.transfer."""

from readings import END_DATA

LENGTHS = [1, 7, 8, 9, 16, 64, 65, 512]
PACKETS = [8, 64]
lines = [
    "# Control transfers with data to the device (USB 2.0, 8.5.3): what came back, and what is due then.",
    "# Written by write_transfers.py, a second reading of docs/control-transfers.md.",
]


def setup(length):
    """SET_REPORT of this length."""
    return bytes([0x21, 9, 0, 2, 0, 0]) + length.to_bytes(2, "little")


class Write:
    """The packets of one transfer, cut beforehand. The next one due is `due`: SETUP, then the packets, then IN."""

    def __init__(self, length, packet, naks=2):
        data = bytes(n % 251 + 1 for n in range(length))
        cut = [data[n : n + packet] for n in range(0, length, packet)]
        outs = [f"send 5 out data{(n + 1) % 2} {b.hex()}" for n, b in enumerate(cut)]
        self.dues = [f"send 5 setup {setup(length).hex()}", *outs, "send 5 in"]
        self.due, self.losses, self.waits, self.naks, self.end = 0, 0, 0, naks, None
        lines.append(f"transfer 5 {packet} {naks} {setup(length).hex()} {data.hex()} -> {self.dues[0]}")

    def say(self, answer):
        """An answer, and what follows from it."""
        self.end = self.end or self.after(answer)
        lines.append(f"{answer} -> {self.end or self.dues[self.due]}")
        return self

    def go_on(self):
        self.due, self.losses, self.waits = self.due + 1, 0, 0

    def after(self, answer):
        first, last = self.due == 0, self.due == len(self.dues) - 1
        if answer == "silence" or (last and answer == "data0 -"):
            self.losses += 1
            return "failed 1" if self.losses == 3 else None
        if answer == "nak" and not first:
            self.waits += 1
            return "failed 2" if self.waits > self.naks else None
        if answer == "stall" and not first:
            return "failed 3"
        if last and answer.startswith("data"):
            return "complete" if answer == "data1 -" else "failed 4"
        if last or answer != "ack":
            return "failed 5"
        return self.go_on()


def acked(length, packet, count):
    """A transfer of which so many transactions were acknowledged."""
    write = Write(length, packet)
    for _ in range(count):
        write.say("ack")
    return write


lines.append("\n# every packet is acknowledged at once: no empty packet ends the data")
for packet in PACKETS:
    for length in LENGTHS:
        acked(length, packet, 1 + -(-length // packet)).say("data1 -").say("ack")

lines.append("\n# each reply in each stage, the middle and the last packet")
for count in range(4):
    for answer in ["silence", "nak", "stall", "ack", "data0 -", "data1 -", "data0 01", "data1 01"]:
        if count != 0 or answer != "ack":
            acked(9, 8, count).say(answer)

lines.append("\n# a packet whose ACK was lost comes again; three losses end it, and a NAK between does not count")
acked(9, 8, 1).say("silence").say("ack").say("silence").say("nak").say("silence").say("ack").say("silence").say("data1 -")
for count in range(4):
    acked(9, 8, count).say("silence").say("silence").say("silence").say("ack")

lines.append("\n# more NAKs than the limit; progress begins the count anew")
acked(9, 8, 1).say("nak").say("nak").say("ack").say("nak").say("nak").say("ack").say("nak").say("nak").say("data1 -")
for count in range(1, 4):
    acked(9, 8, count).say("nak").say("nak").say("silence").say("nak").say("nak")

lines.append("\n# without data the packet is empty, whatever wLength is, and no device's ACK is due for it")
for answer, end in ("ack", "failed 5"), ("stall", "failed 3"), ("data1 -", "failed 5"):
    lines.append(f"transfer 5 8 2 {setup(9).hex()} -> send 5 setup {setup(9).hex()}")
    lines += [f"{it} -> send 5 out data1 -" for it in ("ack", "nak", "silence", "nak", "silence")]
    lines += [f"{answer} -> {end}", f"ack -> {end}"]

lines.append("\n# data of another length than wLength, and data of a read")
lines.append("transfer 5 8 2 2109000200000100 0102 -> no step")
lines.append("transfer 5 8 2 2109000200000200 01 -> no step")
lines.append("transfer 5 8 2 8006000100000100 12 -> no step")

with open(f"{END_DATA}/transfers/writes.transfer", "w", encoding="utf-8") as out:
    out.write("\n".join(lines) + "\n")
