"""The programs of examples/usbip, owners of one's own, and a dump, each asked by a host what a Linux driver asks. `.ci/callers`
runs it.

    plugged_owners.py USBDESC
"""
import collections
import re
import struct
import subprocess
import sys
import tempfile

from nozzlegorse import usbip
from usbip_client import FIRST, MOUSE, MOUSE_ANSWERS, Host, bytes_of, end, same, served

DUMP = "testdata/dumps/matias-keyboard.descriptors"
HOST, OTHER = bytes.fromhex("02aabbccdd01"), bytes([10, 0, 0, 9])


def example(name, file):
    return served(file, "--speed", "high", program=(f"examples/usbip/{name}.py",))


def begun(host, file):
    """What a host asks of each device, and its configuration selected."""
    same("a device", host.control(FIRST), bytes_of(file)[:18])
    same("a configuration", host.control("0009" + bytes_of(file)[18 + 5 :][:1].hex() + "0000000000"), b"")


def keyboard():
    file = "testdata/binding/qemu-usb-keyboard.file"
    with example("keyboard", file) as it:
        host = Host(it)
        begun(host, file)
        report = re.search("810600220000 (.*)", bytes_of("testdata/answers/qemu-usb-keyboard.high.txt").decode())[1]
        same("the keyboard", [host.control("8106002200003f00"), host.control("210a000000000000")], [bytes.fromhex(report), b""])
        for lamps, wanted in ((2, "caps lock"), (5, "num lock, scroll lock"), (0, "none")):
            same("lamps", host.control("2109000200000100", bytes([lamps])), b"")
            it.printed(f"\nlamps: {wanted}\n")
        same("lamps", host.control("2109000200000200", b"\2\2"), None)
        same("lamps", it.text().count("lamps: "), 3)


def serial_line():
    file = "testdata/files/gadget-acm.file"
    with example("serial_line", file) as it:
        host = Host(it)
        begun(host, file)
        coding = bytes.fromhex("00c20100000008")
        same("a serial line", [host.control("2120000000000700", coding), host.control("a121000000000700"), host.control("2122030000000000")], [b"", coding, b""])
        host.write(2, b"hello")
        host.write(2, bytes(range(256)) * 4)
        same("an echo", [host.read(1, 2048), host.read(1, 2048)], [b"hello", bytes(range(256)) * 4])
        waits = host.submit(1, 512)
        host.write(2, b"again")
        same("an echo", host.returned(), (waits, 0, b"again"))
        # As Linux has it for `cat`: writes of 10,240 bytes at most, and sixteen INs of two packets that wait.
        data = bytes(place * 7 % 251 for place in range(20_000))
        waits = collections.deque(host.submit(1, 1024) for _ in range(16))
        host.outs = [host.submit(2, len(piece), data=piece) for piece in (data[:10_240], data[10_240:])]
        came, outs = b"", 0
        while len(came) < len(data) or outs < 2:
            number, status, piece = host.returned()
            if number in host.outs:
                outs += 1
                continue
            same("20,000 bytes in order", (number, status, len(piece) <= 1024), (waits.popleft(), 0, True))
            came += piece
            waits.append(host.submit(1, 1024))
        same("an echo of 20,000 bytes", came, data)


def checksum(data):
    """The checksum of IP and ICMP (RFC 1071)."""
    total = sum(struct.unpack(f">{len(data) // 2}H", data))
    while total >> 16:
        total = (total & 0xFFFF) + (total >> 16)
    return 0xFFFF - total


def ping(source, destination, ours, theirs, kind, data):
    """A frame with an ICMP echo request (8) or reply (0)."""
    icmp = struct.pack(">BBHHH", kind, 0, 0, 7, 1) + data
    icmp = icmp[:2] + struct.pack(">H", checksum(icmp)) + icmp[4:]
    ip = struct.pack(">BBHHHBBH", 0x45, 0, 20 + len(icmp), 1, 0, 64, 1, 0) + source + destination
    return theirs + ours + b"\x08\0" + ip[:10] + struct.pack(">H", checksum(ip)) + ip[12:] + icmp


def packet(frame):
    """A packet message of RNDIS."""
    return struct.pack("<11I", 1, 44 + len(frame), 36, len(frame), *[0] * 7) + frame


def rndis():
    file = "testdata/binding/gadget-rndis.file"
    with example("rndis", file) as it:
        host = Host(it)
        begun(host, file)
        same("RNDIS", host.control("2100000000001800", struct.pack("<6I", 2, 24, 1, 1, 0, 2048)), b"")
        same("RNDIS", (host.read(5, 8), host.control("a101000000000104")[:16]), (struct.pack("<II", 1, 0), struct.pack("<4I", 0x80000002, 52, 1, 0)))
        ours = bytes([10, 0, 0, 1])
        arp = bytes.fromhex("0806000108000604")
        host.write(2, packet(b"\xff" * 6 + HOST + arp + b"\0\1" + HOST + ours + bytes(6) + OTHER))
        came = host.read(1, 2048)[44:]
        theirs = came[6:12]
        same("ARP", came[:42], HOST + theirs + arp + b"\0\2" + theirs + OTHER + HOST + ours)
        # Nobody answers a host that asks for its own address.
        host.write(2, packet(b"\xff" * 6 + HOST + arp + b"\0\1" + HOST + ours + bytes(6) + ours))
        for length in (0, 56, 470, 1400):
            data = bytes(place % 251 for place in range(length))
            host.write(2, packet(ping(ours, OTHER, HOST, theirs, 8, data)))
            same("pings", host.read(1, 2048), packet(ping(OTHER, ours, theirs, HOST, 0, data)))


def disk():
    file, ended = "testdata/binding/gadget-storage.file", []

    def command(words, wanted, is_in, *data, in_reads=1):
        """A command: what it reads, and how it ended, which is how many bytes are left and the status."""
        ended.append(0)
        host.write(2, b"USBC" + struct.pack("<IIBBB", len(ended), wanted, is_in << 7, 0, len(words) // 2) + bytes.fromhex(words).ljust(16, b"\0"))
        for piece in data:
            host.write(2, piece)
        came = b"".join(host.read(1, wanted // in_reads) for _ in range(in_reads)) if is_in and wanted else b""
        signature, tag, left, status = struct.unpack("<4sIIB", host.read(1, 13))
        same("the disk", (signature, tag), (b"USBS", len(ended)))
        return came, left, status

    with example("disk", file) as it:
        host = Host(it)
        begun(host, file)
        same("the disk", host.control("a1fe000000000100"), b"\0")
        same("the disk", command("120000002400", 36, True)[0][8:16], b"USB     ")
        same("the disk", command("25" + "00" * 9, 8, True), (struct.pack(">II", 63, 512), 0, 0))
        blocks = [bytes([number]) * 512 for number in range(64)]
        same("the disk", command("2a000000000000004000", 64 * 512, False, b"".join(blocks)), (b"", 0, 0))
        same("the disk", command("2a000000003f00000100", 512, False, *(b"last"[at : at + 1] * 128 for at in range(4))), (b"", 0, 0))
        blocks[63] = b"".join(b"last"[at : at + 1] * 128 for at in range(4))
        same("64 blocks", [command(f"280000{number:06x}00000100", 512, True) for number in range(64)], [(block, 0, 0) for block in blocks])
        same("64 blocks", command("28000000000000004000", 64 * 512, True), (b"".join(blocks), 0, 0))
        for count in (1, 2, 8):
            same("reads of 4 KB", command("28000000000000000800", 4096, True, in_reads=count), (b"".join(blocks[:8]), 0, 0))
        # Fewer blocks than the host has room for: an empty packet ends them.
        same("less than is wanted", command("28000000000000000100", 1024, True), (blocks[0], 512, 0))
        same("past the end", [command("28000000004000000100", 512, True), command("030000001200", 18, True)[0][2]], [(b"", 512, 1), 5])


def own(text, *words):
    """A program with an owner of one's own."""
    file = tempfile.NamedTemporaryFile("w", suffix=".py")
    file.write(f"from nozzlegorse import usbip\n{text}\nusbip.main(Mine)\n")
    file.flush()
    return file, served(MOUSE, *words, program=(file.name,))


THREADED = """import sys, threading
sys.setswitchinterval(0.000001)

class Mine(usbip.Owner):
    def received(self, endpoint, data):
        threading.Thread(target=self.run).start()

    def run(self):
        for number in range(200):
            self.send(0x81, b"%04d" % number * 4096)
"""


def owners():
    """The mouse of the module's own text, and an owner with a mistake, which ends its program as in any other."""
    report = re.search("810600220000 (.*)", bytes_of(MOUSE_ANSWERS).decode())[1]
    mouse = usbip.__doc__[usbip.__doc__.index("    class Mouse") :].replace("\n    ", "\n").strip()
    file, program = own(f"REPORT = bytes.fromhex('{report}')\n{mouse}\nMine = Mouse")
    with file, program as it:
        host = Host(it)
        begun(host, MOUSE)
        same("an owner of one's own", (host.control("8106002200003400"), host.control("210a000000000000")), (bytes.fromhex(report), None))
        same("an owner of one's own", [host.read(1, 4), host.read(1, 4)], [bytes([0, 5, 0, 0])] * 2)
        same("the report descriptor of the mouse", len(bytes.fromhex(report)), 52)
    file, program = own(THREADED)
    with file, program as it:
        host = Host(it)
        host.control("0009010000000000")
        for _ in range(800):
            host.submit(1, 16_384)
        host.outs = [host.submit(2, 2, data=b"go") for _ in range(4)]
        came = [host.returned() for _ in range(804)]
        same("sends of threads", sorted(data for _, status, data in came if not status and data != 2), sorted(4 * [b"%04d" % number * 4096 for number in range(200)]))
    file, program = own("class Mine(usbip.Owner):\n    def received(self, endpoint, data):\n        raise ValueError('mine')")
    it = program.__enter__()
    with file:
        Host(it).submit(2, 1, data=b"1")
        _, err = it.program.communicate(timeout=60)
        same("an owner's mistake", (it.program.returncode, err.splitlines()[-1]), (1, b"ValueError: mine"))


def text_of(descriptor):
    return descriptor[2:].decode("utf-16-le")


def dump(usbdesc):
    """A dump is served: its descriptors, and strings that have their index, as usbdesc lists them."""
    data = bytes_of(DUMP)
    with served(DUMP, "--with-strings") as it:
        host = Host(it)
        same("a dump", (host.control(FIRST), host.control("8006000100001200")), (data[:18], data[:18]))
        total = host.control("8006000200000900")[2:4]
        sets = host.control("800600020000" + total.hex())
        same("a dump", sets, data[18:])
        languages = host.control("800600030000ff00")
        same("a dump", languages, bytes.fromhex("04030904"))
        strings = [host.control(f"8006{index:02x}030904ff00") for index in (1, 2)]
        same("strings of a dump", [text_of(it) for it in strings], ["string 1", "string 2"])
        same("strings of a dump", host.control("800603030904ff00"), None)
    read = data[:18] + sets + languages + b"".join(strings)
    listed = subprocess.run([usbdesc, "enumerate", "--with-strings"], input=data, capture_output=True, check=True).stdout
    same("what usbdesc enumerates", subprocess.run([usbdesc, "show"], input=read, capture_output=True).stdout, listed.partition(b"\n")[2])
    same("--help", subprocess.run([sys.executable, "-m", "nozzlegorse.usbip", "--help"], capture_output=True, check=True).stderr, b"")


keyboard()
serial_line()
rndis()
disk()
owners()
dump(sys.argv[1])
end()
