"""The bench of a device: a proved host enumerates it and makes a talk, beside a proved device that judges each of its answers. The runs
are made in C."""
from __future__ import annotations

import ctypes
from typing import Protocol

from . import _bench_in_c as c
from ._fates import LETTERS, WHOLE, unmet_by
from ._library import lend, number, speed_number
from ._report import Difference, Line, Report
from ._shared import Shared
from ._talk import Request, request_of, talk_of
from .descriptors import read
from .ends import KINDS, STAGES, Device, Reply, Transaction, _is_a
from .faults import Fault, step_word

# How C has a reply: its number, and of data the toggle and the length, where 65 is more than a packet has.
_CODES = {kind: bytes([it]) for it, kind in enumerate(KINDS)}
_HEADS = [[bytes([KINDS.index("data"), toggle, length]) for length in range(66)] for toggle in (0, 1)]
# The words for how a request ended that isn't specified, by the number of nzg_trouble.
_ENDS = {1: "no answer", 2: "NAK", 3: "STALL"}


class DeviceUnderTest(Protocol):
    """What `try_device` asks of a device. It may have the packets of the bus as bytes in place of transactions: with
    `packet(data: bytes) -> bytes | None`, `transaction` and `acked` are not called."""

    def reset(self) -> None:
        """The bus is reset."""

    def transaction(self, transaction: Transaction, ready: bool) -> Reply:
        """What it answers. Where it isn't ready it may answer NAK to IN and OUT."""

    def acked(self) -> None:
        """The host acknowledged the data packet that was answered right before."""


def _unmet_by_sets(file: bytes) -> list[str]:
    """Of what configurations have, what these descriptors give no run to try."""
    all_, unmet = read(file), []
    settings = all_.configurations[0].interfaces if all_.configurations else []
    if not any(it.transfer_type != "isochronous" for setting in settings if setting.alternate == 0 for it in setting.endpoints):
        unmet.append("halts; no setting 0 of the first configuration has an interrupt or bulk endpoint")
    if not any(it.alternate for it in settings):
        unmet.append("another setting; no interface of the first configuration has one")
    unmet += [f"halts of interface {it.interface}; its setting {it.alternate} has no endpoints" for it in settings if not it.endpoints]
    if len(all_.configurations) == 1:
        unmet.append("another configuration; there is one")
    return unmet


class _InPython:
    """A device in Python, as C calls it. What it raises is kept, and ends the trial; ctypes would drop it."""

    def __init__(self, device: DeviceUnderTest, bench: c.Bench):
        self.device, self.bench, self.raised = device, bench, None
        # C's transactions and packets by their places, of which there are few, and transactions by their bytes
        self._heads, self._packets, self._known = {}, {}, {}

    def in_c(self) -> c.Device:
        """Its calls."""
        return c.Device(None, c.RESET(self._reset), c.TRANSACTION(self._transaction), c.RESET(self._acked))

    def _end(self, why: BaseException) -> None:
        self.raised, self.bench.is_over = why, True

    def _reset(self, _) -> None:
        try:
            self.device.reset()
        except BaseException as why:
            self._end(why)

    def _acked(self, _) -> None:
        try:
            self.device.acked()
        except BaseException as why:
            self._end(why)

    def _transaction(self, _, head: int, data: int, length: int, ready: bool, packet: int) -> None:
        try:
            place = self._heads.get(head) or self._heads.setdefault(head, _place(head, 11))
            key = place.raw if not length else place.raw + ctypes.string_at(data, length)
            came = self.device.transaction(self._known.get(key) or self._transaction_of(key), ready)
            if type(came) is not Reply:
                _is_a(came, Reply)
            place = self._packets.get(packet) or self._packets.setdefault(packet, _place(packet, 67))
            place.raw = _HEADS[came.toggle][len(came.data[:65])] + came.data[:64] if came.kind == "data" else _CODES[came.kind]
        except BaseException as why:
            self._end(why)

    def _transaction_of(self, key: bytes) -> Transaction:
        return self._known.setdefault(key, Transaction(key[0], STAGES[key[1]], key[3:11], key[2], key[11:]))


class _PacketsInPython(_InPython):
    """The same of a device that has packets."""

    def in_c(self) -> c.Packets:
        return c.Packets(None, c.RESET(self._reset), c.PACKET(self._packet))

    def _packet(self, _, data: int, length: int, answer: int) -> int:
        try:
            came = self.device.packet(ctypes.string_at(data, length))
            came, length = lend(b"" if came is None else came)
            ctypes.memmove(answer, came, min(length, c.PACKET_BYTES))
            return length
        except BaseException as why:
            self._end(why)
            return 0


def _place(address: int, length: int) -> ctypes.Array:
    """Bytes of C's."""
    return (ctypes.c_char * length).from_address(address)


class _Collected:
    """What C reports, as a `Report`. A request that the caller has words for keeps them."""

    def __init__(self, report: Report, bench: c.Bench, talk: list[Request]):
        self.report, self.bench, self.words = report, bench, {(it.setup, it.cut): it for it in talk}

    def in_c(self) -> c.Report:
        """Its calls."""
        return c.Report(None, c.ASKS(self._asks), c.DIFFERS(self._differs), c.UNDEFINED(self._undefined))

    def _request(self, it: c.Request) -> Request:
        request = request_of(it)
        return self.words.get((request.setup, request.cut), request)

    def _worked(self, it: c.Work) -> Request:
        return Request(bytes(it.request.setup), step_word(it)) if it.step else self._request(it.request)

    def _asks(self, _, state: int, work) -> None:
        self.report.asked.setdefault(f"{c.STATES[state]}: {self._worked(work.contents)}")

    def _differs(self, _, number_: int, difference) -> None:
        it = difference.contents
        if number_ < len(self.report.differences):
            self.report.differences[number_].count += 1
            return
        request = WHOLE if it.is_whole else self._worked(it.work)
        fates = {it.at[i]: it.fates[i].decode() for i in range(it.losses)}
        lines = [self._line(line) for line in it.lines[:it.line_count]]
        self.report.differences.append(Difference(c.STATES[it.state], request, it.why.decode(), fates, self.bench.runs, it.first_line, lines))

    def _line(self, it: c.Line) -> Line:
        if it.is_reset:
            return Line("", None)
        sent = Transaction(it.sent.address, STAGES[it.sent.stage], bytes(it.sent.setup), it.sent.toggle, ctypes.string_at(it.data, it.len) if it.len else b"")
        came, due = (None if it.fate in b"dtp" else _reply_of(packet) for packet in (it.came, it.due))
        return Line(self._worked(it.work).what, sent, it.fate.decode(), came, due)

    def _undefined(self, _, what) -> None:
        it = what.contents
        ended = _ENDS.get(it.trouble) or f"{Fault('trouble', it.trouble).name}: {_reply_of(it.last)}" if it.trouble else ctypes.string_at(it.bytes, it.len).hex() or "done"
        self.report.undefined[f"{c.STATES[it.state]}: {self._request(it.request)} ({it.section.decode()})"] = ended


def _reply_of(it) -> Reply | None:
    """A packet of C's; None where a number in it has no meaning."""
    return Reply(KINDS[it.reply], it.toggle, bytes(it.data)[:it.length]) if it.reply < len(KINDS) and it.toggle < 2 else None


def _asked(talk: list[Request | tuple[bytes, str]] | None, file: bytes) -> list[Request]:
    """The talk of a file, or what leads a device to a configuration and the requests that were given."""
    usual = talk_of(file)
    return usual if talk is None else usual[:3] + [it if isinstance(it, Request) else Request(*it) for it in talk]


def try_device(device: DeviceUnderTest, file: bytes, speed: str = "full", losses: int = 1, within: int = 60, naks: int = 16, attempts: int = 3,
               letters: str = LETTERS, talk: list[Request | tuple[bytes, str]] | None = None, stop_at_first: bool = False, damages: int = 0) -> Report:
    """A proved host enumerates a device that should have these descriptors, and makes the requests of a talk, under each list of
    at most so many losses within the first transactions, and then of at most so many damaged packets of the host."""
    file, length = lend(file)
    has_packets = not hasattr(device, "transaction")
    if damages and not has_packets:
        raise ValueError("a device that has transactions has no damaged packets")
    report, asked = Report("device", unmet=unmet_by(file) + _unmet_by_sets(file)), _asked(talk, file)
    if set(letters) - set(LETTERS):
        raise ValueError(f"the letters are of {LETTERS!r}, not {letters!r}")
    requests = (c.Request * len(asked))(*(c.Request((ctypes.c_uint8 * 8)(*it.setup), number(it.cut or 0, 0, 255, "cut"), not it.setup) for it in asked))
    bench = c.Bench(file, length, speed_number(speed), number(min(losses, within), 0, c.LOSSES, "losses"), number(within, 0, 0xFFFF, "within"), number(min(damages, within), 0, c.LOSSES, "damages"), stop_at_first, requests, number(len(asked), 0, c.TALK, "the length of a talk"),
                    number(naks, 1, 0xFFFF, "naks"), number(attempts, 1, 255, "attempts"), letters.encode())
    called = device if type(device) is Shared else (_PacketsInPython if has_packets else _InPython)(device, bench)
    tries = c.library().nzg_bench_try_packets if has_packets else c.library().nzg_bench_try
    with Device(file, speed):
        tries(bench, called.in_c(), _Collected(report, bench, asked).in_c())
    if called is not device and called.raised is not None:
        raise called.raised
    report.runs, report.transactions = bench.runs, bench.transactions
    return report
