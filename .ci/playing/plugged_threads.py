"""That no device of `nozzlegorse.usbip` waits for the owner of another one, for who reads what is printed, or for files that the
program may not open. `.ci/callers` runs it."""
import os
import re
import resource
import socket
import struct
import subprocess
import sys
import tempfile
import time

from nozzlegorse import usbip
from usbip_client import FIRST, IMPORT, LIST, MOUSE, MOUSE_ANSWERS, SECONDS, Feed, Host, bytes_of, connected, end, ended, same, served

DEVICE = bytes_of(MOUSE)[:18]
SLOW = """import threading, time
from nozzlegorse import usbip

class Mine(usbip.Owner):
    def request(self, setup, data):
        if setup[1] == 1:  # in its own time
            time.sleep(3)
            return b"slow"
        if setup[1] == 2:
            it = usbip.Later()
            threading.Timer(1, it.answer, [b"late"]).start()
            return it
        return b"fast"

    def received(self, endpoint, data):
        time.sleep(3)
        self.send(0x81, data[:4])

usbip.main(Mine)
"""


def soon(what, call, *words, within=1.0):
    """What a call gives, which takes less than so many seconds."""
    start = time.monotonic()
    came = call(*words)
    same(f"{what}: soon", time.monotonic() - start < within, True)
    return came


def slow_owners():
    """While the owner of one device takes three seconds, the other device answers, and so do lists, feeds and imports."""
    with tempfile.NamedTemporaryFile("w", suffix=".py") as file:
        file.write(SLOW)
        file.flush()
        with served(MOUSE, MOUSE, "--speed", "high", program=(file.name,)) as it:
            slow, other = Host(it, "1-1"), Host(it, "1-2")
            for host in (slow, other):
                host.control(FIRST)
                host.control("0009010000000000")
            for ask in (lambda: slow.submit(0, 4, bytes.fromhex("c001000000000400")), lambda: slow.submit(2, 4, data=b"data")):
                number, start = ask(), time.monotonic()
                for _ in range(10):
                    same("beside a slow owner", soon("beside a slow owner", other.control, "c003000000000400"), b"fast")
                feed = Feed(it)
                feed.say("feed 1-2 81 01020304\n")
                soon("a feed beside a slow owner", feed.hears, "fed 4")
                feed.say("feed 81 01020304\n")
                soon("a feed of a slow device", feed.hears, "fed 4")
                same("a feed beside a slow owner", soon("a feed beside a slow owner", other.read, 1, 4), bytes([1, 2, 3, 4]))
                link = connected(it.port)
                link.sendall(LIST)
                same("a list beside a slow owner", len(soon("a list beside a slow owner", link.recv, 12)), 12)
                slow.outs = (number,)
                same("a slow owner", (slow.returned()[:2], time.monotonic() - start < 1 + 3), ((number, 0), True))
                if number in slow.outs and time.monotonic() - start > 2:
                    same("a slow owner", slow.link.recv(4), b"slow")
            same("what a slow owner got", [slow.read(1, 4), slow.read(1, 4), slow.read(1, 4)], [bytes([1, 2, 3, 4])] * 2 + [b"data"])
            # An answer that comes later: the device's endpoints go on meanwhile.
            number = slow.submit(0, 4, bytes.fromhex("c002000000000400"))
            waits = slow.submit(1, 4)
            feed.say("feed 81 05060708\n")
            same("beside an answer that comes later", slow.returned(), (waits, 0, bytes([5, 6, 7, 8])))
            same("an answer that comes later", slow.returned(), (number, 0, b"late"))
            # As much as is taken of a host whose device is slow: then its connection isn't read.
            start = it.memory()
            slow.link.settimeout(0.5)
            sent = 0
            try:
                for _ in range(40):
                    slow.submit(2, 1 << 20, data=bytes(1 << 20))
                    sent += 1
            except TimeoutError:
                pass
            taken = len(re.findall(r"^endpoint 02: .*1048576 bytes$", it.settled(), re.M))
            same("OUTs that a slow device doesn't take", (sent - taken < 24, it.memory() - start < 40), (True, True))
            same("beside a slow owner", soon("beside a slow owner", other.control, "c003000000000400"), b"fast")


def nobody_reads():
    """A device goes on while nobody reads what is printed. Once it is read, what was dropped has been counted."""
    read, write = os.pipe()
    it = subprocess.Popen([sys.executable, "-m", "nozzlegorse.usbip", MOUSE, "--speed", "high", "--port", "0"], stdout=write, stderr=subprocess.PIPE)
    os.close(write)
    lines = open(read, encoding="ascii")
    it.port = int(re.search(r"--tcp-port (\d+)", lines.readline())[1])
    host, count = Host(it), 20_000
    for _ in range(count):
        same("beside nobody who reads", host.control("8006000100001200"), DEVICE)
    with open(f"/proc/{it.pid}/status", encoding="ascii") as file:
        same("memory beside nobody who reads", int(re.search(r"VmHWM:\s+(\d+) kB", file.read())[1]) >> 10 < 128, True)
    printed = dropped = 0
    while printed + dropped < count:
        line = lines.readline().strip()
        printed += line.startswith("8006000100001200 -> ")
        dropped += int(line.removesuffix(" lines were dropped")) if line.endswith(" lines were dropped") else 0
    same("lines that were dropped", (printed + dropped, printed > 10_000, dropped > 0), (count, True, True))
    # Ctrl-C ends it, though once more nobody reads.
    for _ in range(2000):
        host.control("8006000100001200")
    it.send_signal(2)
    _, err = it.communicate(timeout=SECONDS)
    same("Ctrl-C while nobody reads", (it.returncode, err), (0, b""))


def quiet_and_data():
    """What --quiet and --data print."""
    data = bytes(range(256))
    for words, wanted in (([], [f"endpoint 02: {data[:64].hex()}.. 256 bytes", "endpoint 02: 6162", "endpoint 02: empty"]), (["--data"], [f"endpoint 02: {data.hex()}", "endpoint 02: 6162", "endpoint 02: empty"]), (["--quiet"], [])):
        with served(MOUSE, "--speed", "high", "--answers", MOUSE_ANSWERS, *words) as it:
            host, feed = Host(it), Feed(it)
            host.control("0009010000000000")
            for piece in (data, b"ab", b""):
                host.write(2, piece)
            host.submit(1, 4)
            feed.hears("waits 81 4")
            host.close()
            it.printed("1-1 detached\n")
            same("lines of OUTs", re.findall("endpoint 02.*", it.text()), wanted)
            same("other lines", ["-> done" in it.text(), "waits 81 4" in it.text(), "1-1 attached" in it.text()], [not words or words[0] != "--quiet"] * 2 + [True])


def seconds_of(pid):
    """The processor seconds of a program."""
    with open(f"/proc/{pid}/stat", encoding="ascii") as file:
        return sum(map(int, file.read().rpartition(")")[2].split()[11:13])) / os.sysconf("SC_CLK_TCK")


def without_files():
    """Where no file is left for a connection, nothing spins, and connections are taken once there is one again."""
    with served(MOUSE, "--speed", "high") as it:
        host = Host(it)
        resource.prlimit(it.program.pid, resource.RLIMIT_NOFILE, (24, 4096))
        idle = [connected(it.port) for _ in range(40)]
        time.sleep(0.5)
        start = seconds_of(it.program.pid)
        time.sleep(3)
        same("processor time where no file is left", seconds_of(it.program.pid) - start < 0.3, True)
        same("where no file is left", soon("where no file is left", host.control, "8006000100001200"), DEVICE)
        for link in idle:
            link.close()
        link = connected(it.port)
        link.sendall(LIST)
        same("a file again", len(link.recv(12)), 12)


def connections():
    """Keepalive; the feed port's first byte; a number that is used again while it waits."""
    bridge = usbip.Bridge([])
    port = bridge.listen(usbip.Client, 0)
    link = connected(port)
    while not bridge.links:
        bridge.step()
    it = next(iter(bridge.links)).socket
    same("keepalive", [it.getsockopt(level, option) for level, option in ((socket.SOL_SOCKET, socket.SO_KEEPALIVE), (socket.IPPROTO_TCP, socket.TCP_KEEPIDLE), (socket.IPPROTO_TCP, socket.TCP_KEEPINTVL), (socket.IPPROTO_TCP, socket.TCP_KEEPCNT))], [1, 30, 10, 3])
    link.close()
    with served(MOUSE, "--speed", "high") as it:
        host = Host(it)
        for first in (IMPORT, b"\x16\x03\x01", b"\n", b"1", b" feed 81 00\n", b"\xff"):
            link = connected(it.feed)
            link.sendall(first)
            same("a first byte that is no letter", ended(link), True)
        link = connected(it.feed)
        link.sendall(b"GET / HTTP/1.1\r\n")
        same("a first byte that is a letter", link.recv(100), b"no feed: GET / HTTP/1.1\n")
        same("what is said of it", it.settled().count("a connection is ended: what feeds begins with a letter\n"), 6)
        host.control("0009010000000000")
        waits = host.submit(1, 4)
        for endpoint, size, setup in ((1, 4, bytes(8)), (0, 18, bytes.fromhex("8006000100001200"))):
            host.number = waits - 1
            host.submit(endpoint, size, setup)
            same("a number that is used again", host.returned(), (waits, -22, b""))
        host.number += 1
        Feed(it).say("feed 81 01020304\n")
        same("what waited", host.returned(), (waits, 0, bytes([1, 2, 3, 4])))
        host.number = waits - 1
        same("a number that is free again", host.control("8006000100001200"), DEVICE)
        same("an endpoint past 15", struct.unpack(">i", unanswered(host, 16)), (-22,))


def unanswered(host, endpoint):
    """The status of a transfer of an endpoint that there can't be."""
    host.link.sendall(struct.pack(">10I", 1, 99, 1, 1, endpoint, 0, 4, 0, 0, 0) + bytes(8))
    return host.link.recv(48)[20:24]


slow_owners()
nobody_reads()
quiet_and_data()
without_files()
connections()
end()
