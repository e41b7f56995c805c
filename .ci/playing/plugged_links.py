"""Hosts, feeders and strays at the sockets of `nozzlegorse.usbip`, clumsy and malicious ones too: none ends anything but itself,
and nothing of it is written to standard error. `.ci/callers` runs it."""
import contextlib
import re
import resource
import struct
import threading
import time

from usbip_client import FIRST, IMPORT, LIST, MOUSE, MOUSE_ANSWERS, SECONDS, Feed, Host, bytes_of, connected, end, ended, reset_by_peer, same, served, taken

DEVICE, OVERFLOW, STALL, UNLINKED = bytes_of(MOUSE)[:18], -75, -32, -104
SERVED = MOUSE, "--speed", "high", "--answers", MOUSE_ANSWERS
LONGEST = 1 << 20
# More memory than that is held for no client, in megabytes beside what a bridge has when it starts.
MOST = 64


def goes_on(what, host):
    """The host that has attached the device still has it, and soon gets what it asks for."""
    start = time.monotonic()
    same(what, host.control("8006000100001200"), DEVICE)
    same(f"{what}: soon", time.monotonic() - start < 3, True)


def free(it):
    """A host of the device, once it is free again."""
    for _ in range(200):
        with contextlib.suppress(struct.error, ConnectionResetError):
            if not (host := Host(it)).status:
                return host
            host.close()
        time.sleep(0.02)
    return same("a device that is free again", False, True)


def others_beside_a_host():
    """A list, a second import, strays that say anything, and ends of connections."""
    with served(*SERVED) as it:
        host = Host(it)
        goes_on("a host", host)
        for message, length, wanted in ((LIST, 12, "011100050000000000000001"), (IMPORT + b"1-1".ljust(32, b"\0"), 8, "0111000300000002"), (IMPORT + b"1-2".ljust(32, b"\0"), 8, "0111000300000004"),
                                        (b"GET / HTTP/1.1\r\n\r\n", 1, ""), (bytes(100_000), 1, ""), (b"\x01\x11\x80\x04\0\0\0\0", 1, ""), (b"\x01\x06\x80\x05\0\0\0\0", 1, "")):
            stray, came = connected(it.port), b""
            with contextlib.suppress(ConnectionResetError, BrokenPipeError):
                stray.sendall(message)
                came = taken(stray, length)
            same("strays", came.hex(), wanted)
            goes_on("a host beside strays", host)
            reset_by_peer(stray)
        reset_by_peer(connected(it.feed))
        reset_by_peer(connected(it.port))
        goes_on("a host beside strays", host)
        # It is reset, and another one may import the device.
        host.submit(1, 4)
        it.printed("waits 81 4\n")
        reset_by_peer(host.link)
        again = free(it)
        it.printed("1-1 attached\n(.*\n)+1-1 detached\n(.*\n)*1-1 attached\n")
        goes_on("after a reset", again)
        again.close()


def at_one_moment():
    """Two hosts import a device before either is answered."""
    with served(*SERVED) as it:
        links = [connected(it.port) for _ in range(2)]
        for link in links:
            link.sendall(IMPORT + b"1-1".ljust(32, b"\0"))
        same("two imports", sorted(taken(link, 8)[7] for link in links), [0, 2])


def imports_reset():
    """A halt, a configuration and what was queued are gone for the next host, also before its first request."""
    with served(*SERVED) as it:
        host, feed = Host(it), Feed(it)
        for setup in (FIRST, "0009010000000000", "0203000081000000"):
            host.control(setup)
        host.submit(1, 4)
        same("a halt", host.returned()[1:], (STALL, b""))
        feed.say("feed 81 01020304\n")
        feed.hears("fed 4")
        host.submit(2, 7)
        feed.hears("waits 82 7")
        host.close()
        it.printed("detached\n")
        again, later = Host(it), Feed(it)
        waits = again.submit(1, 4)
        for one in (feed, later):
            one.hears("waits 81 4")
        feed.say("feed 81 05060708\n")
        same("an import is a reset", again.returned(), (waits, 0, bytes([5, 6, 7, 8])))
        same("an import is a reset", again.control("8008000000000100"), b"\0")
        again.close()


def feeds():
    """Their order per endpoint, their pieces, the longest, what waits, and what is no feed."""
    with served(*SERVED) as it:
        feed = Feed(it)
        feed.say("feed 81 01000000\n")
        feed.hears("nobody has attached 1-1")
        host = Host(it)
        feed.say("feed 81 0100", "0000\nfeed 8", "1 0200\r\n\nfeed 82 030000\nfeed 81 -\n")
        feed.hears("fed 4", "fed 2", "fed 3", "fed 0")
        same("feeds", [host.read(*asked).hex() for asked in ((1, 4), (2, 4), (1, 4), (1, 4))], ["01000000", "030000", "0200", ""])
        # Three wait: the one of another endpoint is passed over. It is told to who is there, and to who comes later.
        numbers = [host.submit(1, 4), host.submit(2, 8), host.submit(1, 2)]
        feed.hears("waits 81 4", "waits 82 8", "waits 81 2")
        later = Feed(it)
        later.hears("waits 81 4", "waits 82 8", "waits 81 2")
        later.say("feed 81 0a\nfeed 81 0b0c0d\n")
        same("feeds", [host.returned(), host.returned()], [(numbers[0], 0, b"\x0a"), (numbers[2], OVERFLOW, b"\x0b\x0c")])
        feed.hears("overflow 81 3 2")
        later.hears("fed 1", "overflow 81 3 2", "fed 3")
        number = host.unlink(numbers[1])
        same("an unlink", host.returned(), (number, UNLINKED, b""))
        for unlinked in (numbers[1], 77):
            number = host.unlink(unlinked)
            same("an unlink of what doesn't wait", host.returned(), (number, 0, b""))
        after = Feed(it)
        host.submit(3, 5)
        after.hears("waits 83 5")
        # The longest transfer, in any pieces, and one byte more.
        data = bytes(range(256)) * (LONGEST // 256)
        line = f"feed 81 {data.hex()}\n"
        feed.say(*(line[at : at + 99_991] for at in range(0, len(line), 99_991)))
        feed.hears(f"fed {LONGEST}")
        same("the longest feed", host.read(1, LONGEST), data)
        # An IN takes packets until it is full, and leaves the rest to the next one.
        number = host.submit(1, LONGEST)
        feed.say(f"feed 81 {data.hex()}00\n")
        same("a feed longer than what is asked", [host.returned(), host.read(1, 4)], [(number, 0, data), b"\0"])
        feed.hears(f"fed {LONGEST + 1}")
        for line in ("feed 01 00", "feed 80 00", "feed 90 00", "feed 81 0", "feed 81", "feed", "fed 81 00", "feed 1-2 81 00", "feed 81 00 00", "feed xx 00"):
            feed.say(line + "\n")
            feed.hears(f"no feed: {line}")
        # One who is reset in the middle of a line loses that line alone.
        later.say("feed 81 0102")
        reset_by_peer(after.link)
        later.lines.close()
        reset_by_peer(later.link)
        feed.say("feed 81 0304\n")
        feed.hears("fed 2")
        same("a feeder that is reset", host.read(1, 8), b"\3\4")
        host.close()


def several():
    """Two devices at one port: each with its host, and its name in what is told."""
    with served(MOUSE, "testdata/files/qemu-usb-hub.file") as it:
        link = connected(it.port)
        link.sendall(LIST)
        same("several devices", struct.unpack(">I", taken(link, 12)[8:]), (2,))
        listed = taken(link, 2 * (312 + 4))
        same("several devices", [listed[at + 256 : at + 260] for at in (0, 316)], [b"1-1\0", b"1-2\0"])
        hosts = [Host(it, "1-1"), Host(it, "1-2")]
        same("several devices", [(host.status, host.described[256:260]) for host in hosts], [(0, b"1-1\0"), (0, b"1-2\0")])
        same("several devices", [struct.unpack(">II", host.described[288:296]) for host in hosts], [(1, 2), (1, 3)])
        same("several devices", [host.control("8006000100001200") for host in hosts], [DEVICE, bytes_of("testdata/files/qemu-usb-hub.file")[:18]])
        it.printed(r"\n8006000100001200 -> 1201.*\n(.*\n)*1-2 8006000100001200 -> 1201")
        feed = Feed(it)
        for host, wanted in zip(hosts, ("waits 81 4", "waits 1-2 81 4")):
            host.submit(1, 4)
            feed.hears(wanted)
        feed.say("feed 1-2 81 07\nfeed 1-1 81 08\n")
        same("several devices", [host.returned()[2] for host in hosts], [b"\x08", b"\x07"])
        hosts[0].close()
        it.printed("1-1 detached\n")
        same("several devices", hosts[1].control("8006000100000800"), bytes_of("testdata/files/qemu-usb-hub.file")[:8])


def submitted(size, packets=0, direction=0, command=1, number=1):
    return struct.pack(">10I", command, number, 1, direction, 2, 0, size, 0, packets, 0) + bytes(8)


def broken_hosts():
    """Hosts that send what is no USB/IP, too much or too little: each ends alone, nothing of a part is taken, and the device is free."""
    with served(*SERVED) as it:
        start = it.memory()
        for message, is_ended in ((submitted(1 << 31), True), (submitted(0xFFFF_FFFF), True), (submitted(LONGEST + 1, direction=1), True), (submitted(4, 2000), True), (submitted(4, 0x7FFF_FFFF), True),
                                  (submitted(0, command=9), True), (b"\xff" * 48, True), (b"".join(submitted(4, 0, 1, 1, number) for number in range(3000)), True),
                                  (submitted(1000)[:47], False), (submitted(1000) + b"part of it", False), (submitted(LONGEST) + bytes(LONGEST - 1), False)):
            host = free(it)
            with contextlib.suppress(ConnectionResetError, BrokenPipeError):
                host.link.sendall(message)
            if is_ended:
                with contextlib.suppress(ConnectionResetError):
                    while host.link.recv(1 << 16):
                        pass
            else:
                # Silence ends nothing, and keeps nobody from another connection.
                link = connected(it.port)
                link.sendall(LIST)
                same("a list beside half a message", len(taken(link, 12)), 12)
            reset_by_peer(host.link)
            goes_on("after a broken host", after := free(it))
            after.close()
        text = it.settled()
        same("parts of an OUT", re.findall("endpoint 02.*", text), [])
        same("ends that are told", len(re.findall("\na connection is ended: ", text)), 8)
        same("memory", it.memory() - start < MOST, True)


def many():
    """200 connections that say nothing, then as many as there may be, and more."""
    with served(*SERVED) as it:
        host = Host(it)
        idle = [connected(it.port if number % 2 else it.feed) for number in range(200)]
        goes_on("beside 200 connections", host)
        idle += [connected(it.port) for _ in range(200)]
        same("one connection too many", ended(idle[-1]), True)
        goes_on("beside 400 connections", host)
        for link in idle:
            reset_by_peer(link)
        host.close()
        host = free(it)
        # Where no file is left for another connection, those that there are go on.
        resource.prlimit(it.program.pid, resource.RLIMIT_NOFILE, (32, 32))
        idle = [connected(it.port) for _ in range(40)]
        goes_on("beside connections that can't be taken", host)
        for link in [*idle, host.link]:
            link.close()
        free(it).close()


def read_late():
    """A lister that reads after it has asked 100,000 times has every answer; meanwhile nothing of it is in the way."""
    with served(*SERVED) as it:
        host, start = Host(it), it.memory()
        late = connected(it.port)
        asks = threading.Thread(target=late.sendall, args=(LIST * 100_000,))
        asks.start()
        time.sleep(1)
        goes_on("beside one who reads late", host)
        same("memory", it.memory() - start < MOST, True)
        one = taken(late, 12 + 312 + 4)
        same("who reads late", taken(late, 99_999 * len(one)) == one * 99_999, True)
        asks.join()


def never_read():
    """Feeders that never read, and a line without an end: the others go on."""
    with served(*SERVED) as it:
        host, start = Host(it), it.memory()
        deaf = [(connected(it.feed), b"fee\n" * 16_000), (connected(it.feed), b"feed 81 " + b"0" * 60_000)]
        for link, message in deaf:
            link.settimeout(1)
            with contextlib.suppress(OSError):
                for _ in range(400):
                    link.sendall(message)
            goes_on("beside those who never read", host)
        deaf[1][0].settimeout(SECONDS)
        same("a line without an end", ended(deaf[1][0]), True)
        same("memory", it.memory() - start < MOST, True)


def too_much():
    """What is queued has its bounds, which are told; a host that asks for it all and reads nothing is ended."""
    with served(*SERVED) as it:
        host, feed, start = Host(it), Feed(it), it.memory()
        feed.say("feed 81 01\n" * 5000)
        full = [feed.lines.readline().strip() for _ in range(5000)]
        same("what is queued at most", (full.count("fed 1"), full[-1]), (4096, "no feed: too much is queued for 1-1"))
        same("what was queued before", {host.read(1, 4) for _ in range(4096)}, {b"\1"})
        # 16 MB of all endpoints.
        for endpoint in ("82", "83"):
            for _ in range(9):
                feed.say(f"feed {endpoint} {'00' * LONGEST}\n")
        full = [feed.lines.readline().strip() for _ in range(18)]
        same("what is queued at most", (full.count(f"fed {LONGEST}"), full[-2:]), (16, ["no feed: too much is queued for 1-1"] * 2))
        for endpoint, count in ((2, 9), (3, 15)):
            for _ in range(count):
                host.submit(endpoint, LONGEST)
        # It reads none of them, nor the others that come as soon as there is room.
        for _ in range(8):
            feed.say(f"feed 83 {'00' * LONGEST}\n")
        it.printed("1-1 detached\n")
        same("memory", it.memory() - start < 2 * MOST, True)
        free(it).close()


others_beside_a_host()
at_one_moment()
imports_reset()
feeds()
several()
broken_hosts()
many()
read_late()
never_read()
too_much()
end()
