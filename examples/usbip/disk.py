"""A disk of 64 blocks: `python3 disk.py gadget-storage.file --speed high`. What is written stays until the program ends."""
import struct

from nozzlegorse import usbip

BLOCK, COUNT, INPUT, GOOD, FAILED = 512, 64, 0x81, 0, 1


class Disk(usbip.Owner):
    def __init__(self):
        self.blocks, self.write = bytearray(BLOCK * COUNT), None

    def reset(self):
        self.write = None

    def request(self, setup, data):
        if setup[:2] == b"\xa1\xfe":  # GET_MAX_LUN
            return b"\0"
        return True if setup[:2] == b"\x21\xff" else None  # Bulk-Only Mass Storage Reset

    def received(self, endpoint, data):
        if self.write:
            tag, place, left = self.write
            data = data[:left]
            self.blocks[place : place + len(data)] = data
            self.write = (tag, place + len(data), left - len(data)) if len(data) < left else self.end(tag, 0, GOOD)
        elif len(data) == 31 and data[:4] == b"USBC":
            tag, wanted = struct.unpack("<II", data[4:12])
            self.command(tag, wanted, data[12] > 0x7F, data[15:31])

    def command(self, tag, wanted, is_in, command):
        """A command of SCSI: what it reads is sent, and then how it ended."""
        place, count = struct.unpack(">IxH", command[2:9])
        if command[0] == 0x2A and 0 < count <= COUNT - place and wanted == count * BLOCK:  # WRITE(10)
            self.write = tag, place * BLOCK, wanted
            return
        found = self.found(command, place, count)
        data = (found or b"")[:wanted]
        if is_in and wanted:
            self.send(INPUT, data, ends=len(data) < wanted)
        self.end(tag, wanted - len(data), FAILED if found is None else GOOD)

    def found(self, command, place, count):
        match command[0]:
            case 0x00 | 0x1B | 0x1E | 0x35:  # TEST UNIT READY, START STOP, PREVENT REMOVAL, SYNCHRONIZE CACHE
                return b""
            case 0x03:  # REQUEST SENSE: illegal request, invalid command
                return bytes.fromhex("70000500000000000a00000000200000000000")[:18]
            case 0x12 if not command[1] & 1:  # INQUIRY
                return bytes.fromhex("00800402 1f000000") + b"USB     " + b"Disk            " + b"1.00"
            case 0x1A:  # MODE SENSE(6)
                return bytes.fromhex("03000000")
            case 0x25:  # READ CAPACITY(10)
                return struct.pack(">II", COUNT - 1, BLOCK)
            case 0x28 if place + count <= COUNT:  # READ(10)
                return bytes(self.blocks[place * BLOCK : (place + count) * BLOCK])
        return None

    def end(self, tag, left, status):
        self.send(INPUT, b"USBS" + struct.pack("<IIB", tag, left, status))


if __name__ == "__main__":
    usbip.main(Disk)
