"""The bench of a host: it enumerates a proved device, and is held to the stages of proved transfers."""
from __future__ import annotations

from collections.abc import Callable

from . import _library as c
from ._fates import LETTERS, WHOLE, Different, fates, unmet_by
from ._report import Line, Report
from ._talk import NAMES, Request
from .descriptors import read
from .ends import SILENCE, Device, Reply, Transaction, Transfer, _is_a


class _StatusStage:
    """The status stage of a read that its host has ended after one packet."""

    def __init__(self, address: int, data: bytes):
        self.address, self.data, self.ended, self._strikes = address, data, None, 0

    def next(self) -> Transaction | None:
        return None if self.ended else Transaction(self.address, "out", toggle=1)

    def take(self, reply: Reply) -> None:
        self._strikes += reply.kind == "silence"
        self.ended = "NoAnswer" if self._strikes == 3 else {"ack": "complete", "stall": "Stalled"}.get(reply.kind)


class Bus:
    """The proved device behind a bus that loses packets. It holds a host to the stages of a control transfer (8.5.3)."""

    def __init__(self, device: Device, packet: int, fates: dict[int, str]):
        self.device, self.packet, self.fates, self.count, self.lines = device, packet, fates, 0, []
        self.why, self.reads = "", {}
        self._transfer, self._request, self._address, self._is_first = None, b"", 0, True

    @property
    def request(self) -> Request:
        """The current request."""
        return Request(self._request, NAMES.get(self._request[1], "") if self._request[0] & 0x60 == 0 else "") if self._request else WHOLE

    def reset(self) -> None:
        """Resets the bus."""
        self.device.reset()
        self._transfer, self._address, self._is_first = None, 0, True
        self.lines.append(Line("", None))

    def send(self, sent: Transaction) -> Reply:
        """Makes a transaction: what comes back."""
        if _is_a(sent, Transaction).stage == "setup":
            self._request = sent.setup_bytes
        line = Line(self._request.hex(), sent, self.fates.get(self.count, "."))
        self.count += 1
        self.lines.append(line)
        self.why = self.why or self._judge(sent, line)
        if self.why:
            raise Different(self.why)
        reply = SILENCE if line.fate == "d" else self.device.serve(sent, line.fate != "n")
        if reply.kind == "data" and line.fate not in "ua":
            self.device.acked()
        line.came = SILENCE if line.fate == "u" else reply
        if self._transfer and not self._transfer.ended:
            self._transfer.take(line.came)
            if self._transfer.ended:
                self._over(self._transfer)
        return line.came

    def _over(self, transfer: Transfer | _StatusStage) -> None:
        self._is_first = False
        if transfer.ended == "complete":
            self._address = self._request[2] if self._request[:2] == b"\0\x05" else self._address
            self._read(transfer.data)

    def _read(self, data: bytes) -> None:
        if self._request[:2] == b"\x80\x06":
            self.reads.setdefault(self._request[2:6], []).append(data)

    def _judge(self, sent: Transaction, line: Line) -> str:
        """Why a host may not send this. It may begin a new transfer at any time. Else it sends what is due, or, after three losses, the
        same again."""
        is_given_up = self._transfer is not None and self._transfer.ended == "NoAnswer"
        if is_given_up and self._request[:2] == b"\0\x05" and sent.address == self._request[2]:
            self._address = sent.address
        if sent.address != self._address:
            line.due = f"to address {self._address}"
            return "another address is due: a new one holds once the status stage is over (9.4.6)"
        due = self._transfer.next() if self._transfer else None
        if sent.stage == "setup":
            if sent != due:
                self._transfer = Transfer(sent.setup_bytes, sent.address, self.packet, 0xFFFF)
            return ""
        if sent == due:
            return ""
        if is_given_up:
            self._read(bytes(0xFFFF))  # what comes now isn't followed
            return ""
        if self._ends_early(sent, due):
            self._transfer = _StatusStage(sent.address, self._transfer.data)
            return ""
        line.due = due or "a SETUP"
        return ("another transaction is due: the data stage ends with wLength bytes or a short packet, and the status stage goes the other "
                "way, with DATA1 (8.5.3)")

    def _ends_early(self, sent: Transaction, due: Transaction | None) -> bool:
        """A host that doesn't know bMaxPacketSize0 yet may take its first packet, which has it, for a short one (5.5.3)."""
        return (self._is_first and due is not None and due.stage == "in" and self._request[:4] == b"\x80\x06\0\x01" and len(self._transfer.data) == 8
                and sent == Transaction(self._address, "out", toggle=1))


def try_host(host: Callable[[Bus], bytes | None], file: bytes, speed: str = "full", losses: int = 1, within: int = 60, letters: str = LETTERS,
             stop_at_first: bool = False) -> Report:
    """A host enumerates the proved device under each list of fates. It gives the file that it read, or None where it gave up,
    which is allowed after a loss alone."""
    file = c.lend(file)[0]
    report = Report("host", unmet=unmet_by(file))
    with Device(file, speed) as device:
        for chosen in fates(losses, within, letters):
            device.reset()
            bus = Bus(device, file[7], chosen)
            report.runs += 1
            request, why = _run_of(host, file, bus)
            report.transactions += bus.count
            if why:
                report.note("enumeration", request, why, chosen, bus.lines)
                if stop_at_first:
                    break
    return report


def _run_of(host: Callable[[Bus], bytes | None], file: bytes, bus: Bus) -> tuple[Request, str]:
    """The request of what differs, and why; an empty text where nothing does."""
    try:
        got = host(bus)
    except Different:
        got = None
    if bus.why:
        return bus.request, bus.why
    if got is None:
        is_lost = any(it.fate != "." for it in bus.lines)
        return WHOLE, "" if is_lost else "it gave up, and nothing was lost"
    return WHOLE, _why_of(c.lend(got)[0], file, bus)


def _why_of(got: bytes, file: bytes, bus: Bus) -> str:
    """Why this is no file that a host has read."""
    names = _parts(file)
    if got != file:
        at = next((place for place, (one, other) in enumerate(zip(got, file)) if one != other), min(len(got), len(file)))
        name = next((name for name, place, length, _ in names if place <= at < place + length), "the end")
        if at == len(got):
            return f"it gives {len(got)} bytes and the device has {len(file)}: {name} is not whole"
        if at == len(file):
            return f"it gives {len(got)} bytes and the device has {len(file)}"
        is_again = any(it.sent and it.sent.stage == "in" and it.fate in "ua" for it in bus.lines)
        return f"byte {at}, in {name}, is another one" + (": a packet that comes again is dropped by its toggle (8.6.4)" if is_again else "")
    unread = [name for name, place, length, key in names if not any(len(it) >= length for it in bus.reads.get(key, ()))]
    return f"it gives {', '.join(unread)} and has not read {'it' if len(unread) == 1 else 'them'}" if unread else ""


def _parts(file: bytes) -> list[tuple[str, int, int, bytes]]:
    """The descriptors of a file that are read by a request each: their names, places and lengths, and wValue and wIndex of the request."""
    all_, parts = read(file), []

    def add(name: str, place: int, length: int, kind: int, index: int = 0, language: int = 0) -> None:
        parts.append((name, place, length, bytes([index, kind]) + language.to_bytes(2, "little")))

    add("the device descriptor", 0, 18, 1)
    for number, it in enumerate(all_.configurations):
        add(f"set {number}", it.place, it["wTotalLength"], 2, number)
    if all_.qualifier:
        add("the qualifier", all_.qualifier.place, 10, 6)
    for number, it in enumerate(all_.other_configurations):
        add(f"set {number} of the other speed", it.place, it["wTotalLength"], 7, number)
    if all_.languages:
        at = min((it.place for it in all_.strings), default=len(file))
        add("the languages", at - 2 - 2 * len(all_.languages), 2 + 2 * len(all_.languages), 3)
    for it in all_.strings:
        add(f"string {it.index} in {it.language:04x}", it.place, len(it.data), 3, it.index, it.language)
    return sorted(parts, key=lambda it: it[1])
