"""Both ends of endpoint zero, transaction by transaction.

>>> from nozzlegorse.ends import Device, Transaction
>>> with Device(file) as device:
...     device.serve(Transaction.setup(0, bytes.fromhex("8006000100001200")))
Reply(kind='ack', toggle=0, data=b'')
"""
from __future__ import annotations

import ctypes

from . import _library as c
from ._handle import Handle
from ._value import Value
from .faults import STATUSES, Fault, done, step_word, trouble_of

# The most bytes of an answer or a write, which a device keeps.
ROOM = 512
STAGES, KINDS = ("setup", "in", "out"), ("ack", "nak", "stall", "data", "silence")
_STRINGS = ("needed", "wanted", "skipped")


def _word(value: str, known: tuple, name: str) -> int:
    if value not in known:
        raise ValueError(f"{name} is one of {', '.join(map(repr, known))}, not {value!r}")
    return known.index(value)


def _request(data: bytes):
    data, length = c.lend(data)
    if length != 8:
        raise ValueError(f"a request has 8 bytes, not {length}")
    return c.structs["setup"].from_buffer_copy(data)


class Transaction(Value):
    """What a host sends: SETUP with its eight bytes, IN, or OUT with a toggle and data."""

    address: int
    stage: str
    setup_bytes: bytes = bytes(8)
    toggle: int = 0
    data: bytes = b""

    def __post_init__(self):
        for name in ("setup_bytes", "data"):
            self.__dict__[name] = c.lend(getattr(self, name))[0]
        self._numbers()

    @staticmethod
    def setup(address: int, request: bytes) -> Transaction:
        """SETUP with the eight bytes of a request."""
        return Transaction(address, "setup", request)

    def __str__(self) -> str:
        data = (self.setup_bytes if self.stage == "setup" else self.data).hex() or "empty"
        return f"{self.address} " + {"setup": f"SETUP {data}", "in": "IN", "out": f"OUT DATA{self.toggle} {data}"}[self.stage]

    def _numbers(self):
        return c.structs["transaction"](c.number(self.address, 0, 255, "address"), _word(self.stage, STAGES, "a stage"),
                                        c.number(self.toggle, 0, 1, "a toggle"), _request(self.setup_bytes).bytes)


class Reply(Value):
    """What comes back: 'ack', 'nak', 'stall', 'data' with a toggle and bytes, or 'silence'."""

    kind: str
    toggle: int = 0
    data: bytes = b""

    def __post_init__(self):
        self.__dict__["data"] = c.lend(self.data)[0]
        self._numbers()

    def __str__(self) -> str:
        return f"DATA{self.toggle} {self.data.hex() or 'empty'}" if self.kind == "data" else self.kind.upper()

    def _numbers(self):
        return _word(self.kind, KINDS, "a reply"), c.number(self.toggle, 0, 1, "a toggle"), *c.lend(self.data)


ACK, NAK, STALL, SILENCE = (Reply(it) for it in ("ack", "nak", "stall", "silence"))


def _is_a(value, kind: type):
    if not isinstance(value, kind):
        raise TypeError(f"a {kind.__name__} is wanted, not {value!r}")
    return value


def _due(it) -> Transaction:
    return Transaction(it.address, STAGES[it.stage], bytes(it.setup), it.toggle)


class State(Value):
    """What a device keeps: bit i of `halts` is endpoint i OUT, bit 16 + i endpoint i IN; `alternates` by interface number."""

    address: int
    selected: int
    wakeup: bool
    halts: int
    alternates: bytes


class Device(Handle):
    """A device with the descriptors of a file. It has an image of them, and a room for what an owner answers and for writes."""

    _of = "device"

    def __init__(self, file: bytes, speed: str = "full"):
        self.close()
        answer, image = c.into(c.lib.nzg_device_image, *c.lend(file), c.speed_number(speed))
        done(answer)
        self._image, self._room, self._is_open = (image, len(image)), ((ctypes.c_char * ROOM)(), ROOM), True
        self.reset()

    def close(self) -> None:
        """The image is let go."""
        self._image, self._is_open = (b"", 0), False

    def reset(self) -> None:
        """The bus is reset."""
        self._call("reset")

    def serve(self, transaction: Transaction, ready: bool = True) -> Reply:
        """What comes back of a transaction; NAK to IN and OUT where the device isn't ready."""
        it, packet = _is_a(transaction, Transaction), c.structs["packet"]()
        self._call("serve", *self._image, *self._room, it._numbers(), *c.lend(it.data), bool(ready), packet)
        return Reply(KINDS[packet.reply], packet.toggle, bytes(packet.data)[:packet.length])

    def acked(self) -> None:
        """The host acknowledged the data that was answered right before."""
        self._call("acked", *self._image)

    def refused(self) -> bytes | None:
        """The request that is refused, before the host is told, or None."""
        return self._setup("refused")

    def carried_out(self) -> bytes | None:
        """The request that was carried out just now, or None."""
        return self._setup("carried_out")

    def _setup(self, name: str) -> bytes | None:
        it = c.structs["setup"]()
        return bytes(it.bytes) if self._call(name, it) else None

    def answer_with(self, data: bytes) -> None:
        """Answers the refused request with these bytes."""
        done(self._call("answer_with", *self._room, *c.lend(data)))

    def accept(self) -> None:
        """Accepts the refused request, which has no data stage or sends data to the device; or the write of `written`."""
        done(self._call("accept", ROOM))

    def written(self) -> tuple[bytes, bytes] | None:
        """The request of a write whose data have all come and that wasn't answered yet, and those data, or None."""
        it = c.structs["setup"]()
        answer = done(self._call("written", *self._room, it))
        return (bytes(it.bytes), self._room[0][:answer.length]) if STATUSES[answer.status] == "done" else None

    def refuse(self) -> None:
        """STALL until the next SETUP, where the device itself rejects the request, and its status stage wasn't answered yet."""
        self._call("refuse", *self._image)

    def state(self) -> State:
        """What the device keeps."""
        it = self._open_handle().state
        return State(it.address, it.selected, it.wakeup, it.halts, bytes(it.alternates))

    def _judge(self, *rest) -> int:
        return c.lib.nzg_judge_device(self._open_handle(), *self._image, *self._room, *rest)


class _Transfer:
    """One control transfer at the host's end. `ended` is None while it goes on, and then 'complete' or why it failed, as 'NoAnswer'.
    It holds nothing of the library's, so a copy is a place to come back to."""

    _of = ""

    def __init__(self, request: bytes, address: int = 0, packet: int = 64, naks: int = 16):
        self.data, self.ended, self._state = b"", None, bytes(c.structs[self._of]())
        done(self._call("open", c.number(address, 0, 255, "address"), c.number(packet, 0, 255, "packet"), c.number(naks, 0, 65535, "naks"),
                        _request(request)))

    def _call(self, name: str, *rest):
        numbers = c.structs[self._of].from_buffer_copy(self._state)
        answer = getattr(c.lib, f"nzg_{self._of}_{name}")(numbers, *rest)
        self._state = bytes(numbers)
        return answer

    def take(self, reply: Reply) -> None:
        """Takes what the transaction brought."""
        answer = self._call("take", *_is_a(reply, Reply)._numbers())
        kind = STATUSES[answer.status]
        if kind == "trouble":
            self.ended = Fault(kind, answer.number).name
        else:
            done(answer)
            self.data += reply.data[:answer.length]
            self.ended = "complete" if kind == "done" else None


class Transfer(_Transfer):
    """One control transfer at the host's end, without data for the device: `Write` has them.

    `data` are the bytes that came; `ended` is None while it goes on, and then 'complete' or why it failed, as 'NoAnswer'.
    """

    _of = "transfer"

    def next(self) -> Transaction | None:
        """The next transaction; None once it has ended."""
        due = c.structs["transaction"]()
        return _due(due) if self._call("next", due) else None


class Write(_Transfer):
    """One control transfer with data to the device, at the host's end; `ended` is as of a `Transfer`."""

    _of = "write"

    def next(self, data: bytes) -> Transaction | None:
        """The next transaction, where these are the wLength bytes of data; None once it has ended."""
        (data, length), due = c.lend(data), c.structs["transaction"]()
        answer = done(self._call("next", data, length, due))
        if STATUSES[answer.status] == "open":
            return None
        packet = data[answer.place:answer.place + answer.length]
        return Transaction(due.address, STAGES[due.stage], bytes(due.setup), due.toggle, packet)


class Host(Handle):
    """A host that enumerates one device.

    Each string that descriptors name is 'needed'; or 'wanted', so that it may be missing; or it is 'skipped'. The qualifier and the sets of
    the other speed are asked for where there may be some, or not. In a file that was read, a language list that is missing is 0x0409
    alone, and a string that is missing is empty: `forgiven` says which these are.
    """

    _of = "host"

    def __init__(self, address: int = 1, naks: int = 16, attempts: int = 3, speed: str = "full", strings: str = "needed", other_speed: bool = True):
        self._open(c.number(address, 0, 255, "address"), c.number(naks, 0, 65535, "naks"), c.number(attempts, 0, 255, "attempts"),
                   c.speed_number(speed), _word(strings, _STRINGS, "strings"), bool(other_speed), by="open_with")

    def next(self) -> Transaction | str:
        """The next transaction, or 'reset' or 'ended'."""
        due = c.structs["transaction"]()
        action = ("reset", "send", "ended", "ended")[self._call("next", due)]
        return _due(due) if action == "send" else action

    def reset_done(self) -> None:
        """The bus was reset."""
        self._call("reset_done")

    def take(self, reply: Reply) -> None:
        """Takes what the transaction brought."""
        self._call("take", *_is_a(reply, Reply)._numbers())

    def step(self) -> str | None:
        """What is in work, in the words of `usbdesc`; None where nothing is."""
        it = c.structs["step"]()
        return step_word(it) if self._call("step", it) else None

    @property
    def attempts(self) -> int:
        """How often it began."""
        return self._call("attempts")

    @property
    def forgiven(self) -> list[Fault]:
        """What is missing of the strings in this attempt, and why, in order: each as the trouble that it was."""
        troubles, it = [], c.structs["trouble"]()
        while self._call("forgiven", len(troubles), it):
            troubles.append(trouble_of(it.why, it))
        return troubles

    def outcome(self) -> bytes | None:
        """The bytes of the file that was read, or None before the end. Trouble is raised as a `Fault`."""
        trouble = c.structs["trouble"]()
        answer, out = c.into(lambda *rest: self._call("outcome", trouble, *rest))
        if STATUSES[answer.status] == "trouble":
            raise trouble_of(answer.number, trouble)
        return out if STATUSES[done(answer).status] == "done" else None
