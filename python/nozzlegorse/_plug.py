"""A device at its bus id: control transfers at a proved `Device`, and the bytes of other endpoints."""
from __future__ import annotations

import collections
import functools
import threading
from collections.abc import Callable
from dataclasses import dataclass, field

from ._owner import Later, Owner
from .descriptors import read
from .ends import Device, Transaction
from .faults import Fault

# The first request of a Linux host. USB/IP carries neither port resets nor SET_ADDRESS; Linux has them around it.
FIRST, SET_ADDRESS = bytes.fromhex("8006000100004000"), bytes.fromhex("0005020000000000")
# How much is queued for a device at most, in bytes and in pieces that were sent.
MOST_BYTES, MOST_QUEUED = 16 << 20, 4096
# How many bytes of an OUT are printed, where not all are.
MOST_SHOWN = 64
EOVERFLOW, ECONNRESET = -75, -104


class Turns:
    """Does one thing after another: at once, or, where another one is being done, right after it."""

    def __init__(self):
        self._lock, self._works, self._is_busy = threading.Lock(), collections.deque(), False

    def __call__(self, work: Callable[[], None]) -> None:
        with self._lock:
            self._works.append(work)
            if self._is_busy:
                return
            self._is_busy = True
        try:
            while work := self._next():
                work()
        except BaseException:
            self._is_busy = False
            raise

    def _next(self) -> Callable[[], None] | None:
        with self._lock:
            self._is_busy = bool(self._works)
            return self._works.popleft() if self._works else None


@dataclass(eq=False)
class Pending:
    """A transfer of the host that isn't over: at endpoint zero a request and the data of a write, of another endpoint what came so
    far. An isochronous one has no endpoint: nothing comes of it until it is unlinked."""

    number: int
    endpoint: int | None
    size: int
    setup: bytes = b""
    data: bytes = b""
    parts: list[bytes] = field(default_factory=list)
    count: int = 0

    def add(self, part: bytes) -> None:
        self.parts.append(part)
        self.count += len(part)


class Plug:
    """A device at its bus id: its owner, the transfers for which the host waits, and the bytes that are queued.

    `run` does what is asked of the device, one thing after another, and is all that calls the owner; `lock` guards what any thread
    may change, and is never held while the owner is called."""

    def __init__(self, file: bytes, owner: Owner, speed: str = "full", bus_id: str = "1-1", tell=print):
        self.device, self.file, self.owner, self.speed, self.bus_id = Device(file, speed), file, owner, speed, bus_id
        self.name, self._tell, self.sets = "" if bus_id == "1-1" else f"{bus_id} ", tell, read(file).configurations
        self.run: Callable = Turns()
        self.lock, self.client, self.is_fresh = threading.RLock(), None, True
        self.pending: dict[int, Pending] = {}
        self._controls: collections.deque[Pending] = collections.deque()
        self._answering: Pending | None = None
        self._queued, self._held = collections.defaultdict(collections.deque), 0
        self._settings, self._sizes = None, {}
        self.is_quiet = self.shows_all = False
        owner.plug = self

    def tell(self, line: str) -> None:
        """Prints a line; of another device than the first with its bus id."""
        self._tell(self.name + line)

    def tell_transfer(self, what: str, data: bytes, end: str = "") -> None:
        """Prints the line of a transfer, unless it is to be quiet, with the data that the host sent."""
        if not self.is_quiet:
            cut = data if self.shows_all else data[:MOST_SHOWN]
            self.tell(" ".join(filter(None, (what, cut.hex() + (f".. {len(data)} bytes" if len(cut) < len(data) else ""), end))))

    # --- its host

    def claim(self, client) -> bool:
        """Whether a host may import it, which is then its host. Nothing is queued for it."""
        with self.lock:
            if self.client is not None:
                return False
            self.client, self._held = client, 0
            self._queued.clear()
            return True

    def attach(self) -> None:
        """Its host has imported it, which resets it."""
        self.is_fresh = True
        self.reset()
        self._tell(f"{self.bus_id} attached")

    def detach(self) -> None:
        """Its host is gone."""
        with self.lock:
            self.client, self._answering = None, None
            self.pending.clear()
            self._controls.clear()
        self._tell(f"{self.bus_id} detached")

    def reset(self) -> None:
        self.device.reset()
        self.owner.reset()

    def submit(self, it: Pending) -> None:
        """The host wants a control transfer, or waits for bytes of an endpoint."""
        with self.lock:
            self.pending[it.number] = it
        if it.endpoint == 0:
            self._controls.append(it)
            self._go_on()
        elif it.endpoint is not None:
            with self.lock:
                self._give(it.endpoint)
            self._ask(it)

    def unlink(self, number: int) -> int:
        """The host no longer wants a transfer: the status of that, which is 0 where the transfer is over."""
        with self.lock:
            it = self.pending.pop(number, None)
            if it is None:
                return 0
            self._held -= it.count
        if it is self._answering:
            self._answering = None
            self._go_on()
        elif it in self._controls:
            self._controls.remove(it)
        return ECONNRESET

    def _over(self, it: Pending, data: bytes | None, status: int = 0) -> None:
        """A transfer is over, which the host still waits for."""
        with self.lock:
            if it.endpoint == 0:
                self.tell_transfer(it.setup.hex(), it.data, f"-> {'stall' if data is None else data.hex() or 'done'}")
            if self.pending.pop(it.number, None) and self.client:
                self.client.returned(it.number, data, len(it.data), status)

    # --- control transfers

    def _go_on(self) -> None:
        """The control transfers that the host wants, one after another; none while the owner is to answer one."""
        while self._controls and self._answering is None:
            it = self._controls.popleft()
            came = self.control(it.setup, it.data)
            if isinstance(came, Later):
                self._answering = it
                came.then(lambda given, it=it: self.run(functools.partial(self._answered, it, given)))
            else:
                self._over(it, came)

    def _answered(self, it: Pending, given: bytes | bool | None) -> None:
        """The owner has answered later, which is of no use where the host no longer waits."""
        if it is self._answering:
            self._answering = None
            self._over(it, self._finish(it.setup, given, True))
            self._go_on()

    def control(self, setup: bytes, data: bytes) -> bytes | Later | None:
        """A control transfer: the bytes that it brought, None for a STALL, or the answer that comes later. The reset and the address
        are put back where Linux has them: before its first request, and after it or before any other one."""
        if setup == FIRST or self.is_fresh:
            self.reset()
        if self.is_fresh and setup != FIRST:
            self.transfer(SET_ADDRESS, b"")
        self.is_fresh = setup == FIRST
        return self.transfer(setup, data)

    def _serve(self, stage: str, **more):
        return self.device.serve(Transaction(self.device.state().address, stage, **more))

    def transfer(self, setup: bytes, data: bytes) -> bytes | Later | None:
        """A control transfer at the device. A device of another kind has this call of its own."""
        self._serve("setup", setup_bytes=setup)
        if setup[6:8] != b"\0\0" and setup[0] < 0x80:
            if not self._write(setup, data):
                return None
            asked = self.device.written()
        else:
            asked = (setup, data) if self.device.refused() else None
        given = self.owner.request(*asked) if asked else None
        return given if isinstance(given, Later) else self._finish(setup, given, asked is not None)

    def _write(self, setup: bytes, data: bytes) -> bool:
        """The data of a write, in packets. Its owner is asked when all of them have come to the device."""
        packet = self.file[7]
        if self.device.refused():
            self._answer(setup, True)
        packets = [data[place : place + packet] for place in range(0, len(data), packet)]
        return all(self._serve("out", toggle=1 - place % 2, data=it).kind == "ack" for place, it in enumerate(packets))

    def _finish(self, setup: bytes, given: bytes | bool | None, is_asked: bool) -> bytes | None:
        """The rest of a transfer, after the answer of the owner where it was asked."""
        if is_asked:
            self._answer(setup, given)
        length = int.from_bytes(setup[6:8], "little")
        return self._read(length) if length and setup[0] > 0x7F else self._status()

    def _answer(self, setup: bytes, given: bytes | bool | None) -> None:
        """The answer of its owner. What is none to this request leaves a STALL, and is told."""
        if given is None or given is False:
            return self.device.refuse()
        try:
            self.device.accept() if given is True else self.device.answer_with(given)
        except (Fault, TypeError) as fault:
            self.tell(f"{setup.hex()} can't be answered so: {fault}")

    def _status(self) -> bytes | None:
        """The status stage of a transfer without data from the device, and what its owner is told of it."""
        if self._serve("in").kind != "data":
            return None
        done = self.device.carried_out()
        self.device.acked()
        if done:
            self._tell_owner(done)
        return b""

    def _tell_owner(self, setup: bytes) -> None:
        value, index = (int.from_bytes(setup[at : at + 2], "little") for at in (2, 4))
        match setup[0], setup[1]:
            case 0, 9:
                self.owner.configured(value & 0xFF)
            case 1, 11:
                self.owner.set_interface(index, value)
            case 2, (1 | 3) as request:
                self.owner.halted(index, request == 3)

    def _read(self, length: int) -> bytes | None:
        data = b""
        while (reply := self._serve("in")).kind == "data":
            self.device.acked()
            data += reply.data
            if len(reply.data) < self.file[7] or len(data) >= length:
                self._serve("out", toggle=1)
                return data
        return None

    # --- other endpoints

    def is_halted(self, endpoint: int) -> bool:
        return bool(self.device.state().halts >> (endpoint & 15) + 16 * (endpoint >> 7) & 1)

    def _packet_size(self, endpoint: int) -> int:
        """How long a packet of an endpoint is: at the settings that are selected, else at the first that has it. One that no setting
        has takes all that is sent at once as one short packet."""
        state = self.device.state()
        if self._settings != (state.selected, state.alternates):
            self._settings = state.selected, state.alternates
            every = [(set_.value == state.selected and it.alternate == state.alternates[it.interface], it) for set_ in self.sets for it in set_.interfaces]
            self._sizes = {it.address: it.max_packet_size for is_selected in (False, True) for chosen, setting in reversed(every) if chosen >= is_selected
                           for it in setting.endpoints}
        return self._sizes.get(endpoint) or MOST_BYTES + 1

    def send(self, endpoint: int, data: bytes, ends: bool = False) -> bool:
        """Queues bytes of an endpoint, for the INs that wait there or come next. False where that would be too much."""
        with self.lock:
            if sum(map(len, self._queued.values())) >= MOST_QUEUED or self._held + len(data) > MOST_BYTES:
                return False
            queue = self._queued[endpoint]
            queue.append(memoryview(data))
            self._held += len(data)
            if ends and data and not len(data) % self._packet_size(endpoint):
                queue.append(memoryview(b""))
            self._give(endpoint)
            waits = next((it for it in self.pending.values() if it.endpoint == endpoint and it.count), None)
        if waits:
            self.run(functools.partial(self._ask, waits))
        return True

    def _ask(self, it: Pending) -> None:
        """What nothing is queued for is asked of the owner."""
        with self.lock:
            waits = it.number in self.pending and not self._queued[it.endpoint]
        if waits:
            self._tell(self.waits(it))
            self.owner.waiting(it.endpoint, it.size - it.count)

    def waits(self, it: Pending) -> str:
        """What is said of an IN that waits."""
        return f"waits {self.name}{it.endpoint:02x} {it.size - it.count}"

    def all_waits(self) -> list[str]:
        """What is said of each IN that waits."""
        with self.lock:
            return [self.waits(it) for it in self.pending.values() if it.endpoint]

    def _give(self, endpoint: int) -> None:
        """Gives what is queued to what waits."""
        queue, packet = self._queued[endpoint], self._packet_size(endpoint)
        for it in [it for it in self.pending.values() if it.endpoint == endpoint]:
            if not queue or not self._fill(it, queue, packet):
                return

    def _fill(self, it: Pending, queue: collections.deque, packet: int) -> bool:
        """Gives packets to a transfer; whether it is over. A packet that doesn't fit is cut, and its rest is lost."""
        while queue:
            data, room = queue.popleft(), it.size - it.count
            it.add(data[:room])
            if len(data) <= room:
                if len(data) == room or len(data) % packet or not data:
                    return self._filled(it, 0)
                continue
            is_cut = not room or bool(room % packet)
            left = data[room - room % packet + packet if is_cut else room :]
            if left:
                queue.appendleft(left)
            if is_cut:
                self._tell(f"overflow {self.name}{it.endpoint:02x} {min(packet, len(data) - room + room % packet)} {room % packet}")
            self._held -= len(data) - room - len(left)
            return self._filled(it, EOVERFLOW if is_cut else 0)
        return False

    def _filled(self, it: Pending, status: int) -> bool:
        self._held -= it.count
        self._over(it, b"".join(it.parts), status)
        return True
