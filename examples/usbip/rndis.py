"""A network device that answers each ping: `python3 rndis.py gadget-rndis.file --speed high`, then `ip addr add 10.0.0.1/24 dev usb0`."""
import struct

from nozzlegorse import usbip

HOST, OURS = bytes.fromhex("02aabbccdd01"), bytes.fromhex("02aabbccdd02")
INITIALIZED = struct.pack("<9I", 1, 0, 1, 0, 1, 1558, 0, 0, 0)  # version 1.0, connectionless, 802.3, one packet of 1558 bytes
# What queries of objects give: the host's address, twice, the longest frame, and of others the number 0.
OBJECTS = {0x01010101: HOST, 0x01010102: HOST, 0x00010106: struct.pack("<I", 1500)}


class Rndis(usbip.Owner):
    answer = b""

    def request(self, setup, data):
        if setup[:2] == b"\x21\0" and len(data) >= 12:  # SEND_ENCAPSULATED_COMMAND
            kind, number = struct.unpack("<I4xI", data[:12])
            found = OBJECTS.get(int.from_bytes(data[12:16], "little"), bytes(4))
            rest = {2: INITIALIZED, 4: struct.pack("<II", len(found), 16) + found}.get(kind, b"")
            self.answer = struct.pack("<IIII", kind & 0xFF | 1 << 31, 16 + len(rest), number, 0) + rest
            self.send(0x85, struct.pack("<II", 1, 0))
            return True
        return self.answer if setup[:2] == b"\xa1\x01" else None  # GET_ENCAPSULATED_RESPONSE

    def received(self, endpoint, data):
        if data[:4] == b"\1\0\0\0" and (frame := answered(data[44:])):  # a packet; Linux puts its frame after 44 bytes
            self.send(0x81, struct.pack("<4I28x", 1, 44 + len(frame), 36, len(frame)) + frame, ends=True)


def answered(frame):
    """What answers an ARP request, whatever address it asks for, and an ICMP echo request without options of IP."""
    if frame[12:22] == bytes.fromhex("08060001080006040001") and frame[28:32] not in (bytes(4), frame[38:42]):
        return (HOST + OURS + frame[12:20] + b"\0\2" + OURS + frame[38:42] + frame[22:32]).ljust(60, b"\0")
    if frame[12:15] + frame[23:24] + frame[34:36] == b"\x08\0\x45\1\x08\0":
        checksum = int.from_bytes(frame[36:38], "big") + 0x0800  # the type is less by 8
        return HOST + OURS + frame[12:26] + frame[30:34] + frame[26:30] + struct.pack(">HH", 0, (checksum & 0xFFFF) + (checksum >> 16)) + frame[38:]


if __name__ == "__main__":
    usbip.main(Rndis)
