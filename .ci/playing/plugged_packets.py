"""What `nozzlegorse.usbip` makes of packets, of answers that come later and of standard requests that its owner is told of, without a
socket. `.ci/callers` runs it."""
import threading

import nozzlegorse as usb
from nozzlegorse import usbip
from usbip_client import MOUSE, bytes_of, end, same

ACM = "testdata/files/gadget-acm.file"
OVERFLOW, UNLINKED, BAD = -75, -104, -22
CONFIGURE = "0009010000000000"
# An interface whose bulk endpoint has packets of 8 bytes at setting 0, and of 32 at setting 1.
ALTERNATES = b"""device 0110 00 00 00 08 1234 5678 0100 00 00 00 01
configuration 01 01 00 80 32 -
interface 00 00 01 ff 00 00 00 -
endpoint 81 02 0008 00 -
interface 00 01 01 ff 00 00 00 -
endpoint 81 02 0020 00 -
"""


class Client:
    """Stands for the host: what is returned to it, by the numbers of its transfers."""

    def __init__(self, file, owner, speed="high"):
        self.sent, self.lines = [], []
        self.plug = usbip.Plug(file, owner, speed, tell=self.lines.append)
        self.plug.claim(self)
        self.plug.attach()
        self.number = 0

    def returned(self, number, data, count=0, status=0):
        self.sent.append((number, data, status))

    def submit(self, endpoint, size=0, setup="", data=b""):
        """A transfer: its number."""
        self.number += 1
        setup = bytes.fromhex(setup)
        self.plug.submit(usbip.Pending(self.number, endpoint, size, setup, data))
        return self.number

    def control(self, setup, data=b""):
        self.submit(0, setup=setup, data=data)
        return self.came()[-1][1]

    def came(self):
        """What has come since it was asked last."""
        sent, self.sent = self.sent, []
        return sent


class Plain(usbip.Owner):
    """An owner that takes what is asked."""

    def request(self, setup, data):
        return True


def begun(file=bytes_of(ACM), owner=None, speed="high"):
    client = Client(file, owner or Plain(), speed)
    client.control(CONFIGURE)
    return client


def sent_to(sizes, *sends):
    """What INs of these sizes get of what is sent at an endpoint with packets of 512 bytes: bytes and statuses; then what still waits."""
    client = begun()
    numbers = [client.submit(0x81, size) for size in sizes]
    for it in sends:
        client.plug.owner.send(0x81, *it) if isinstance(it, tuple) else client.plug.owner.send(0x81, it)
    came = client.came()
    same("numbers of transfers", [number for number, _, _ in came], numbers[: len(came)])
    return [it if not status else (it, status) for _, it, status in came]


def packets():
    """A transfer is over once it has what it asks for, or a packet is short; a packet that doesn't fit is cut (5.8.3)."""
    data = bytes(range(256)) * 79
    whole = [data[at : at + 512] for at in range(0, 8192, 512)]
    some = data[:20_000]
    for what, sizes, sends, wanted in (
            ("20,000 bytes", [1024] * 20, [some], [some[at : at + 1024] for at in range(0, 20_000, 1024)]), ("20,000 bytes in pieces", [1024] * 20, [some[:7168], some[7168:14_336], some[14_336:]], [some[at : at + 1024] for at in range(0, 20_000, 1024)]),
            ("reads of a disk", [4096] * 2, [data[:8192]], [data[:4096], data[4096:8192]]), ("a read of whole packets", [4096], whole[:8], [data[:4096]]),
            ("whole packets end nothing", [1024], [whole[0]], []), ("a short packet ends", [1024], [whole[0], b"end"], [whole[0] + b"end"]), ("an empty packet ends", [1024], [whole[0], b""], [whole[0]]),
            ("an end of its own", [1024, 1024], [(whole[0], True), (b"short", True)], [whole[0], b"short"]), ("an end after what is full", [512, 512], [(whole[0], True)], [whole[0], b""]),
            ("short packets", [1024] * 3, [b"a", b"", b"b"], [b"a", b"", b"b"]), ("the rest", [512] * 3, [data[:1030]], [data[:512], data[512:1024], data[1024:1030]]),
            ("a packet that doesn't fit", [700, 1024], [data[:1024], b"next"], [(data[:700], OVERFLOW), b"next"]), ("its rest", [700, 1024], [data[:1500]], [(data[:700], OVERFLOW), data[1024:1500]]),
            ("less than a packet", [100, 512], [data[:512] + b"x"], [(data[:100], OVERFLOW), b"x"]), ("no room", [0, 512], [b"abc"], [(b"", OVERFLOW)]), ("an empty one where there is no room", [0], [b""], [b""]),
            ("a short one that is cut", [2], [b"abc"], [(b"ab", OVERFLOW)]), ("the last of whole packets is cut", [512 + 2], [whole[0], b"abc"], [(whole[0] + b"ab", OVERFLOW)])):
        same("packets", (what, sent_to(sizes, *sends)), (what, wanted))
        # What is queued before the host asks goes the same way.
        client = begun()
        for it in sends:
            client.plug.owner.send(0x81, *it) if isinstance(it, tuple) else client.plug.owner.send(0x81, it)
        for size in sizes:
            client.submit(0x81, size)
        same("packets that are queued", (what, [it if not status else (it, status) for _, it, status in client.came()]), (what, wanted))


def settings():
    """The packets are those of the setting that is selected."""
    client = begun(usb.build(ALTERNATES.decode()), speed="full")
    for setup, size, data in (("", 8, bytes(16)), ("010b010000000000", 32, bytes(64)), ("010b000000000000", 8, bytes(16)), (CONFIGURE, 8, bytes(16))):
        if setup:
            same("a setting", client.control(setup), b"")
        number = client.submit(0x81, size // 2)
        client.plug.owner.send(0x81, data)
        same("packets of a setting", client.came(), [(number, data[: size // 2], OVERFLOW)])
        number = client.submit(0x81, len(data))
        same("packets of a setting", client.came(), [])
        client.plug.owner.send(0x81, bytes(size))
        same("packets of a setting", client.came(), [(number, data, 0)])


class Asked(Plain):
    """It sends whole packets as long as the host waits."""

    def __init__(self):
        self.sizes = []

    def waiting(self, endpoint, size):
        self.sizes.append(size)
        self.send(endpoint, bytes(512))


def asked_again():
    """An owner that is asked sends a packet each time, until the host has what it asked for: 2,048 times, without an end of the stack."""
    client = begun(owner=(owner := Asked()))
    number = client.submit(0x81, 1 << 20)
    same("an owner that is asked again", client.came(), [(number, bytes(1 << 20), 0)])
    same("what is still wanted", owner.sizes, list(range(1 << 20, 0, -512)))


def unlinked():
    """A transfer that has a part is unlinked: its part is gone, and what comes goes to the next. Then the device holds as much as before."""
    client = begun()
    for _ in range(40):
        number = client.submit(0x81, 1 << 20)
        same("a part that is unlinked", (client.plug.send(0x81, bytes((1 << 20) - 512)), client.plug.unlink(number), client.plug.unlink(number), client.came()), (True, UNLINKED, 0, []))
    number = client.submit(0x81, 8)
    client.plug.owner.send(0x81, b"next")
    same("after what was unlinked", client.came(), [(number, b"next", 0)])
    same("what a device holds", ([client.plug.send(endpoint, bytes(1 << 20)) for endpoint in (0x81, 0x82, 0x83) for _ in range(6)]), [True] * 16 + [False] * 2)


class Told(Plain):
    """It notes what it is told."""

    def __init__(self):
        self.told = []

    def configured(self, value):
        self.told.append(("configured", value))

    def set_interface(self, interface, alternate):
        self.told.append(("interface", interface, alternate))

    def halted(self, endpoint, is_halted):
        self.told.append(("halted", endpoint, is_halted))

    def reset(self):
        self.told.append("reset")


def told():
    """What an owner is told: what was carried out, and nothing of what was refused."""
    client = Client(usb.build(ALTERNATES.decode()), owner := Told(), "full")
    for setup, wanted in (("8006000100004000", ["reset", "reset"]), ("8006000100001200", ["reset"]), (CONFIGURE, [("configured", 1)]), ("010b010000000000", [("interface", 0, 1)]), ("010b020000000000", []), ("0203000081000000", [("halted", 0x81, True)]),
                          ("8200000081000200", []), ("0201000081000000", [("halted", 0x81, False)]), ("0203000082000000", []), (CONFIGURE, [("configured", 1)]), ("0009050000000000", []), ("0009000000000000", [("configured", 0)]),
                          ("2101000000000000", []), ("8006000100004000", ["reset"])):
        client.control(setup)
        same("what an owner is told", (setup, owner.told), (setup, wanted))
        owner.told.clear()


class Late(usbip.Owner):
    """It answers each request later."""

    def __init__(self):
        self.laters = []

    def request(self, setup, data):
        self.laters.append(usbip.Later())
        return self.laters[-1]


def in_thread(call, *words):
    it = threading.Thread(target=call, args=words)
    it.start()
    it.join()


def later():
    """Answers that come later, from another thread: nothing comes before, and each once, in the order of the requests."""
    client = begun(owner=(owner := Late()))
    for setup, answer, data, wanted in (("a121000000000700", "answer", b"1234567", b"1234567"), ("a121000000000300", "answer", b"1234567", b"123"), ("2122000000000000", "accept", None, b""), ("2120000000000700", "accept", None, b""),
                                        ("2120000000000700", "refuse", None, None), ("a121000000000700", "refuse", None, None), ("a121000000000700", "accept", None, None), ("2122000000000000", "answer", b"1", None)):
        number = client.submit(0, setup=setup, data=b"7654321" if setup.startswith("2120") else b"")
        same("nothing before the answer", client.came(), [])
        call, words = getattr(owner.laters[-1], answer), () if data is None else (data,)
        in_thread(call, *words)
        in_thread(call, *words)
        same("answers that come later", client.came(), [(number, wanted, 0)])
    # Requests wait for the one before them; the table's own too.
    numbers = [client.submit(0, setup=setup) for setup in ("a121000000000200", "8008000000000100", "a121000000000200")]
    same("requests that wait", (client.came(), len(owner.laters)), ([], 9))
    owner.laters[-1].answer(b"ab")
    same("requests that wait", client.came(), [(numbers[0], b"ab", 0), (numbers[1], b"\1", 0)])
    # One that is unlinked waits no longer, and its answer is of no use to the next.
    waits = client.submit(0, setup="a121000000000200")
    same("an unlinked request", [client.plug.unlink(numbers[2]), client.plug.unlink(numbers[2])], [UNLINKED, 0])
    owner.laters[-2].answer(b"xx")
    same("an unlinked request", client.came(), [])
    owner.laters[-1].answer(b"cd")
    same("an unlinked request", client.came(), [(waits, b"cd", 0)])
    first, second = client.submit(0, setup="a121000000000200"), client.submit(0, setup="a121000000000200")
    same("a request that is unlinked before it is made", client.plug.unlink(second), UNLINKED)
    owner.laters[-1].answer(b"ef")
    same("a request that is unlinked before it is made", (client.came(), len(owner.laters)), ([(first, b"ef", 0)], 12))
    try:
        owner.laters[-1].answer("text")
        same("an answer of no bytes", "taken", "a TypeError")
    except TypeError:
        pass
    # A host that is gone.
    client.submit(0, setup="a121000000000200")
    client.plug.detach()
    owner.laters[-1].answer(b"gh")
    same("the answer for a host that is gone", client.came(), [])


class Early(usbip.Owner):
    """It answers before it says that the answer comes later."""

    def request(self, setup, data):
        it = usbip.Later()
        in_thread(it.answer, b"ab")
        return it


def early():
    client = begun(owner=Early())
    number = client.submit(0, setup="a121000000000200")
    same("an answer that is there already", client.came(), [(number, b"ab", 0)])


def all_of_a_write():
    """How much is printed of what a host sends."""
    for shows_all, is_quiet, wanted in ((False, False, [f"2120000000000002 {bytes(range(64)).hex()}.. 512 bytes -> done"]), (True, False, [f"2120000000000002 {(bytes(range(256)) * 2).hex()} -> done"]), (True, True, [])):
        client = begun()
        client.plug.shows_all, client.plug.is_quiet = shows_all, is_quiet
        client.lines.clear()
        client.control("2120000000000002", bytes(range(256)) * 2)
        same("lines of a transfer", client.lines, wanted)


packets()
settings()
asked_again()
unlinked()
told()
later()
early()
all_of_a_write()
same("a mouse", begun(bytes_of(MOUSE)).came(), [])
end()
