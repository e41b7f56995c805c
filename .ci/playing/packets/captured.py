"""Whether tshark, where it is installed, reads 1,000 packets of the library as they were written: PID, fields, data and CRC; and finds
the CRC wrong of as many in which one bit after the PID is changed. They are given as a capture of link type 288, USB 2.0.

    .ci/playing/packets/captured.py    with NOZZLEGORSE_LIBRARY and PYTHONPATH=python
"""
import random
import shutil
import struct
import subprocess
import sys
import tempfile

from nozzlegorse import Fault, packets

LINK_TYPE = 288
COLUMNS = ("pid", "device_addr", "endp", "frame_num", "data", "crc5.status", "crc16.status", "split_crc5.status", "split_hub_addr", "split_port",
           "invalid_pid", "undecoded")
GOOD, BAD = "1", "0"
rng = random.Random(1)


def packet_of(kind):
    data = rng.randbytes(rng.choice((0, 1, 7, 8, 64, 512, 1023, 1024))) if kind.endswith(("data", "data0", "data1", "data2")) else b""
    split = {"split": rng.randrange(1 << 19) & ~(1 << 16)}.get(kind, 0)
    return packets.Packet(kind, rng.randrange(128), rng.randrange(16), rng.randrange(2048), split, data)


def damaged(data):
    """One bit after the PID changed. The library doesn't take it."""
    new, place = bytearray(data), rng.randrange(8, 8 * len(data))
    new[place // 8] ^= 1 << place % 8
    try:
        packets.parse(new)
    except Fault:
        return bytes(new)
    sys.exit(f"captured: {new.hex()} is taken")


def by_tshark(all_):
    """The columns of each packet, as tshark has them."""
    with tempfile.NamedTemporaryFile(suffix=".pcap") as it:
        it.write(struct.pack("<IHHIIII", 0xA1B2C3D4, 2, 4, 0, 0, 65535, LINK_TYPE))
        for number, data in enumerate(all_):
            it.write(struct.pack("<IIII", number, 0, len(data), len(data)) + data)
        it.flush()
        words = [word for column in COLUMNS for word in ("-e", f"usbll.{column}")]
        ran = subprocess.run(["tshark", "-r", it.name, "-T", "fields", *words], capture_output=True, text=True, check=True)
    return [dict(zip(COLUMNS, line.split("\t"))) for line in ran.stdout.splitlines()]


def wanted(packet, data, is_good):
    """What the columns must be, of those that a packet of this kind has."""
    status, kind = GOOD if is_good else BAD, packet.kind
    columns = {"pid": f"0x{data[0]:02x}", "invalid_pid": "", "undecoded": ""}
    if kind in ("out", "in", "setup", "ping"):
        columns |= {"crc5.status": status} | ({"device_addr": str(packet.address), "endp": str(packet.endpoint)} if is_good else {})
    elif kind == "sof":
        columns |= {"crc5.status": status} | ({"frame_num": str(packet.frame)} if is_good else {})
    elif kind == "split":
        columns |= {"split_crc5.status": status} | ({"split_hub_addr": str(packet.split & 127), "split_port": str(packet.split >> 8 & 127)} if is_good else {})
    elif "data" in kind:
        columns |= {"crc16.status": status} | ({"data": packet.data.hex()} if is_good else {})
    return columns


def main():
    if not shutil.which("tshark"):
        print("captured: not tried, there is no tshark here")
        return
    written = [packet_of(rng.choice(packets.KINDS[1:])) for _ in range(1000)]
    good = [bytes(it) for it in written]
    changed = [(it, damaged(data)) for it, data in zip(written, good) if len(data) > 1]
    for is_good, sent in ((True, list(zip(written, good))), (False, changed)):
        for (packet, data), found in zip(sent, by_tshark([data for _, data in sent]), strict=True):
            columns = wanted(packet, data, is_good)
            if any(found[name] != it for name, it in columns.items()):
                sys.exit(f"captured: {data.hex()}: tshark has {found}, and not {columns}")
    print(f"captured: tshark reads {len(good)} packets as they were written, and finds {len(changed)} damaged ones")


main()
