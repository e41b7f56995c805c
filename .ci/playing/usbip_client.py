"""A USB/IP client without a Linux, and the program `nozzlegorse.usbip` that it plays with. What is compared is counted."""
import contextlib
import os
import re
import signal
import socket
import struct
import subprocess
import sys
import tempfile
import time

ROOT = os.path.join(os.path.dirname(os.path.abspath(__file__)), "../..")
os.chdir(ROOT)
# Else it would not show that a line isn't flushed.
os.environ.pop("PYTHONUNBUFFERED", None)
# In the background of a shell Ctrl-C is ignored, and so it would be by the programs that are begun here.
signal.signal(signal.SIGINT, signal.default_int_handler)
MOUSE, MOUSE_ANSWERS = "testdata/files/qemu-usb-mouse.file", "testdata/answers/qemu-usb-mouse.high.txt"
LIST, IMPORT = bytes.fromhex("01118005 00000000"), bytes.fromhex("01118003 00000000")
FIRST = "8006000100004000"
SECONDS = 60
counts = {}


def same(what, came, wanted):
    counts[what] = counts.get(what, 0) + 1
    if came != wanted:
        sys.exit(f"{os.path.basename(sys.argv[0])}: {what}: {str(came)[:400]} and not {str(wanted)[:400]}")


def end():
    name = os.path.basename(sys.argv[0]).removesuffix(".py")
    print(f"{name}: all as it must be:", ", ".join(f"{count} {what}" if count > 1 else what for what, count in counts.items()))


def bytes_of(path):
    with open(path, "rb") as file:
        return file.read()


class Served:
    """A program that serves devices, its ports, and what it has printed so far. It is ended by Ctrl-C, which must be quiet."""

    def __init__(self, words, program=("-m", "nozzlegorse.usbip")):
        self.out = tempfile.NamedTemporaryFile()
        self.program = subprocess.Popen([sys.executable, *program, *words, "--port", "0", "--feed", "0"], stdout=self.out, stderr=subprocess.PIPE)
        attach = self.printed(r"sudo usbip --tcp-port (\d+) attach -r ([\d.]+) -b [\d-]+\n")
        self.port, self.address = int(attach[1]), attach[2]
        self.feed = int(self.printed(r"taken at port (\d+)\n")[1])

    def text(self):
        return bytes_of(self.out.name).decode()

    def settled(self):
        """What is printed, once nothing more has come for a while."""
        text = None
        while text != (text := self.text()):
            time.sleep(0.3)
        return text

    def printed(self, pattern):
        """What fits a pattern in what is printed, once it is."""
        until = time.monotonic() + SECONDS
        while (found := re.search(pattern, self.text())) is None:
            if time.monotonic() > until or self.program.poll() is not None:
                self.program.kill()
                same("what is printed", self.text() + self.program.stderr.read().decode(), pattern)
            time.sleep(0.01)
        return found

    def memory(self):
        """The most memory that it ever had, in megabytes."""
        with open(f"/proc/{self.program.pid}/status", encoding="ascii") as file:
            return int(re.search(r"VmHWM:\s+(\d+) kB", file.read())[1]) >> 10

    def close(self):
        self.program.send_signal(signal.SIGINT)
        _, err = self.program.communicate(timeout=SECONDS)
        same("Ctrl-C", (self.program.returncode, err), (0, b""))


@contextlib.contextmanager
def served(*words, **more):
    it = Served(words, **more)
    try:
        yield it
        it.close()
    finally:
        it.program.kill()


def connected(port):
    it = socket.create_connection(("127.0.0.1", port))
    it.settimeout(SECONDS)
    return it


def taken(link, length):
    """So many bytes, or those until the end."""
    data = b""
    while len(data) < length and (piece := link.recv(length - len(data))):
        data += piece
    return data


def ended(link):
    """Whether the other side has ended a connection."""
    try:
        return link.recv(1) == b""
    except ConnectionResetError:
        return True


def reset_by_peer(link):
    link.setsockopt(socket.SOL_SOCKET, socket.SO_LINGER, struct.pack("ii", 1, 0))
    link.close()


class Host:
    """A host that imports a device, where `status` is 0."""

    def __init__(self, it, bus_id="1-1"):
        self.link, self.number = connected(it.port), 0
        self.link.sendall(IMPORT + bus_id.encode().ljust(32, b"\0"))
        version, code, self.status = struct.unpack(">HHI", taken(self.link, 8))
        same("an import", (version, code), (0x0111, 3))
        self.described = b"" if self.status else taken(self.link, 312)

    def submit(self, endpoint, size, setup=bytes(8), data=None):
        """A transfer of an endpoint, IN where no data are named; its number."""
        self.number += 1
        self.link.sendall(struct.pack(">10I", 1, self.number, 1, data is None, endpoint & 15, 0, size, 0, 0, 0) + setup + (data or b""))
        return self.number

    def unlink(self, number):
        self.number += 1
        self.link.sendall(struct.pack(">6I24x", 2, self.number, 1, 0, 0, number))
        return self.number

    def returned(self):
        """Number, status and bytes of what comes back; of an OUT the count in place of bytes."""
        command, number, _, _, _, status, length = struct.unpack(">5IiI", taken(self.link, 48)[:28])
        if command == 4:
            return number, status, b""
        return number, status, length if number in self.outs else taken(self.link, length)

    outs = ()

    def control(self, setup, data=b""):
        """A control transfer: the bytes of a read, b"" or None for a STALL."""
        setup = bytes.fromhex(setup)
        size = int.from_bytes(setup[6:8], "little")
        number = self.submit(0, size, setup, None if setup[0] > 0x7F else data)
        self.outs = () if setup[0] > 0x7F else (number,)
        came = self.returned()
        same("numbers of transfers", (came[0], came[1] in (0, -32)), (number, True))
        return None if came[1] else came[2] if setup[0] > 0x7F else b""

    def read(self, endpoint, size):
        """An IN of an endpoint: what comes."""
        number = self.submit(endpoint, size)
        came = self.returned()
        same("numbers of transfers", came[:2], (number, 0))
        return came[2]

    def write(self, endpoint, data):
        number = self.submit(endpoint, len(data), data=data)
        self.outs = (number,)
        same("an OUT", self.returned(), (number, 0, len(data)))

    def close(self):
        self.link.close()


class Feed:
    """A connection to the feed port."""

    def __init__(self, it):
        self.link = connected(it.feed)
        self.lines = self.link.makefile()

    def say(self, *pieces):
        for piece in pieces:
            self.link.sendall(piece.encode())

    def hears(self, *wanted):
        """The next lines; those of what waits only where one is wanted."""
        for line in wanted:
            while (came := self.lines.readline().strip()).startswith("waits ") and not line.startswith("waits "):
                pass
            same("the feed port", came, line)

    def close(self):
        self.lines.close()
        self.link.close()
