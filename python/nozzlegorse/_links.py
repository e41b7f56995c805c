"""The sockets of a bridge: clients of USB/IP and feeders, each of which can end nothing but itself."""
from __future__ import annotations

import contextlib
import errno
import os
import selectors
import socket
import threading
import time
from collections.abc import Callable

from ._threads import Printer, Worker
from ._wire import MOST, Refused

# The most connections, and the most bytes that wait until one is ready for them.
MOST_LINKS, MOST_UNSENT = 256, 16 << 20
# Why a connection can't be taken: each ends by itself, so another try is made after so many seconds.
WANTING, SECONDS = (errno.EMFILE, errno.ENFILE, errno.ENOBUFS, errno.ENOMEM), 0.5
# A connection that says nothing is asked after so many seconds whether it is there, so often, and so many times.
KEEPALIVE = {socket.TCP_KEEPIDLE: 30, socket.TCP_KEEPINTVL: 10, socket.TCP_KEEPCNT: 3}


class Feeder:
    """A connection to the feed port: lines in any pieces, and what waits, in lines as `waits 81 4`."""

    def __init__(self, plugs: list, send: Callable[[bytes], None], _changed=None):
        self.plugs, self._send, self.buffer, self._has_begun, self.is_full = plugs, send, bytearray(), False, False
        for plug in plugs:
            for line in plug.all_waits():
                self.say(line)

    def say(self, line: str) -> None:
        self._send(line.encode() + b"\n")

    def take(self, data: bytes) -> None:
        """Takes a piece of what came: lines `feed 81 HEX`, of the first device, or with its bus id `feed 1-2 81 HEX`."""
        if data and not self._has_begun and not data[:1].isalpha():
            raise Refused("what feeds begins with a letter")
        self._has_begun |= bool(data)
        self.buffer += data
        if b"\n" in data:
            *lines, self.buffer = self.buffer.split(b"\n")
            for line in lines:
                if words := line.decode(errors="replace").split():
                    self.say(self._fed(words))
        if len(self.buffer) > 2 * MOST + 64:
            raise Refused("a line of too many bytes")

    def _fed(self, words: list) -> str:
        plug = next((it for it in self.plugs if it.bus_id in words[1:2]), None)
        verb, *rest = words[:1] + words[2:] if plug else words
        plug = plug or self.plugs[0]
        try:
            endpoint, digits = rest
            endpoint, data = int(endpoint, 16), bytes.fromhex(digits.strip("-"))
        except ValueError:
            verb = ""
        if verb != "feed" or not 0x80 < endpoint < 0x90:
            return f"no feed: {' '.join(words)[:60]}"
        if not plug.client:
            return f"nobody has attached {plug.bus_id}"
        return f"fed {len(data)}" if plug.send(endpoint, data) else f"no feed: too much is queued for {plug.bus_id}"

    def close(self) -> None:
        """Nothing is held."""


class Link:
    """A connection. What comes goes to its end, a client or a feeder. Nothing is read while what that sends still waits, nor while its
    end is full. Any thread may send."""

    def __init__(self, bridge: Bridge, it: socket.socket, kind: type):
        it.setblocking(False)
        it.setsockopt(socket.IPPROTO_TCP, socket.TCP_NODELAY, 1)
        it.setsockopt(socket.SOL_SOCKET, socket.SO_KEEPALIVE, 1)
        for option, value in KEEPALIVE.items():
            it.setsockopt(socket.IPPROTO_TCP, option, value)
        self.bridge, self.socket, self.unsent, self._lock, self.events = bridge, it, bytearray(), threading.Lock(), 0
        self.end = kind(bridge.plugs, self.send, self.changed)
        self.changed()

    def changed(self) -> None:
        """What it waits for is to be found anew."""
        self.bridge.wake(self)

    def send(self, data: bytes) -> None:
        with self._lock:
            self.unsent += data
            self._flush()
            waits = bool(self.unsent)
        if waits:
            self.changed()

    def _flush(self) -> None:
        try:
            while self.unsent:
                del self.unsent[: self.socket.send(self.unsent)]
        except BlockingIOError:
            if len(self.unsent) > MOST_UNSENT:
                self._give_up()
        except OSError:
            self._give_up()

    def _give_up(self) -> None:
        """Sends no more: the next read ends it."""
        self.unsent.clear()
        with contextlib.suppress(OSError):
            self.socket.shutdown(socket.SHUT_RDWR)

    def wanted(self) -> int:
        """What it waits for."""
        return selectors.EVENT_WRITE if self.unsent else 0 if self.end.is_full else selectors.EVENT_READ

    def go_on(self) -> bool:
        """Sends or reads, as it is ready for; False where it has ended."""
        if self.unsent:
            with self._lock:
                self._flush()
            return True
        try:
            data = self.socket.recv(1 << 16)
        except BlockingIOError:
            return True
        except OSError:
            return False
        try:
            self.end.take(data)
        except Refused as fault:
            self.bridge.tell(f"a connection is ended: {fault}")
            return False
        return bool(data)

    def close(self) -> None:
        self.socket.close()
        self.end.close()


class Bridge:
    """Any number of clients and feeders, in one thread, the devices, each in its own, and what is printed, in another."""

    def __init__(self, plugs: list):
        self.plugs, self.waits, self.links, self.is_quiet = plugs, selectors.DefaultSelector(), set(), False
        self._full: dict[socket.socket, type] = {}
        self._full_until = 0.0
        self._changed: set[Link] = set()
        self._failed: list[BaseException] = []
        self._woken, self.wakes = socket.socketpair()
        for it in (self._woken, self.wakes):
            it.setblocking(False)
        self.waits.register(self._woken, selectors.EVENT_READ, None)
        self._print = Printer(self.fail)

    def listen(self, kind: type, port: int) -> int:
        """Takes connections at a port, which is found where it is 0."""
        try:
            server = socket.create_server(("127.0.0.1", port))
        except OSError as fault:
            raise ValueError(f"port {port}: {os.strerror(fault.errno)}") from None
        server.setblocking(False)
        self.waits.register(server, selectors.EVENT_READ, kind)
        return server.getsockname()[1]

    def worker(self) -> Worker:
        """What does one thing after another for a device."""
        return Worker(self.fail)

    def tell(self, line: str) -> None:
        """Prints a line. What waits, and what was too long for that, goes to each feeder too. Any thread may."""
        is_heard = line.startswith(("waits ", "overflow "))
        if not (is_heard and self.is_quiet):
            self._print(line)
        for link in list(self.links) if is_heard else ():
            if isinstance(link.end, Feeder):
                link.end.say(line)

    def fail(self, fault: BaseException) -> None:
        """A thread has ended by this, and so does the bridge. Any thread may."""
        self._failed.append(fault)
        self.wake()

    def wake(self, link: Link | None = None) -> None:
        """Looks at a connection anew. Any thread may."""
        if link:
            self._changed.add(link)
        with contextlib.suppress(OSError):
            self.wakes.send(b"\0")

    def close(self) -> None:
        """Prints what is left."""
        self._print.close()

    def step(self) -> None:
        """Does what is to be done, once there is something."""
        while self._changed:
            self._look_at(self._changed.pop())
        for key, _ in self.waits.select(max(0, self._full_until - time.monotonic()) if self._full else None):
            if key.data is None:
                self._woken.recv(4096)
            elif isinstance(key.data, type):
                self._accept(key.fileobj, key.data)
            elif key.data.go_on():
                self._look_at(key.data)
            else:
                self._end(key.data)
        if self._failed:
            raise self._failed[0]
        if self._full and time.monotonic() >= self._full_until:
            for server, kind in self._full.items():
                self.waits.register(server, selectors.EVENT_READ, kind)
            self._full.clear()

    def _look_at(self, link: Link) -> None:
        """Waits for what a connection is ready for now."""
        if link not in self.links or (wanted := link.wanted()) == link.events:
            return
        if link.events:
            self.waits.unregister(link.socket)
        if wanted:
            self.waits.register(link.socket, wanted, link)
        link.events = wanted

    def _end(self, link: Link) -> None:
        self.links.discard(link)
        self.waits.unregister(link.socket)
        link.close()

    def _accept(self, server: socket.socket, kind: type) -> None:
        try:
            it, _ = server.accept()
        except OSError as fault:
            if fault.errno in WANTING:
                self._full[server], self._full_until = kind, time.monotonic() + SECONDS
                self.waits.unregister(server)
            return
        if len(self.links) < MOST_LINKS:
            self.links.add(Link(self, it, kind))
        else:
            it.close()
