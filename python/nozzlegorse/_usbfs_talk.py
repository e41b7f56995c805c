"""The bench's talk at a plugged device: each answer beside the proved device with these descriptors, judged on whole transfers."""
from __future__ import annotations

import errno
from collections.abc import Callable, Iterator
from dataclasses import dataclass, field
from xml.etree import ElementTree

from . import _library as c
from ._bench_in_c import unspecified
from ._talk import Request
from ._usbfs_adapter import Adapter
from ._usbfs_device import halts_zero
from ._usbfs_words import SET_ADDRESS, SET_CONFIGURATION, SET_INTERFACE, bytes_words, ending_words, request_words, section_of, word
from .ends import KINDS, Device, Reply, Transaction, Transfer, _request

AT = 1
# Why requests of the talk are not asked, in the order of a report.
WHY = {"class": "of a class or a vendor", "kernel": "resets and SET_ADDRESS, which the kernel makes", "reset": "whose end is sure by a reset alone", "cut": "that end early: usbfs makes whole transfers",
       "unspecified": "that chapter 9 leaves open", "disturbing": "that disturb a device at work: --disturb", "driven": "of interfaces that a driver has: --disturb",
       "unknown": "that the kernel keeps back, of interfaces and endpoints that aren't there", "unreached": "in a state that the device refuses"}


def _count(number: int, what: str) -> str:
    return f"{number} {what}{'s' * (number != 1)}"


@dataclass
class PluggedReport:
    """Each request that was asked, in the Address state or not, with how its answer differs, if it does; why others weren't, and why no
    more were."""

    name: str
    asked: dict[tuple[bytes, bool], str] = field(default_factory=dict)
    requests: int = 0
    left_out: dict[str, int] = field(default_factory=lambda: dict.fromkeys(WHY, 0))
    why: str = ""

    @property
    def differences(self) -> int:
        """How many requests were answered otherwise."""
        return sum(map(bool, self.asked.values()))

    def ending(self) -> Iterator[str]:
        """The last lines of the report."""
        yield from (f"not asked: {count} {WHY[why]}" for why, count in self.left_out.items() if count)
        found = _count(self.differences, "difference") if self.differences else "as the proved device"
        yield f"{self.name}: {found} in {_count(self.requests, 'request')}"

    def junit(self) -> str:
        """The report as JUnit has it: a case for each request."""
        suite = ElementTree.Element("testsuite", name=f"nozzlegorse.usbfs {self.name}", tests=str(len(self.asked) + bool(self.why)), failures=str(self.differences), errors=str(int(bool(self.why))), skipped="0")
        of = f"nozzlegorse.usbfs.{self.name}"
        for (q, is_in_address), text in self.asked.items():
            case = ElementTree.SubElement(suite, "testcase", classname=of, name=request_words(q, is_in_address))
            if text:
                ElementTree.SubElement(case, "failure", message=text)
        if self.why:
            ElementTree.SubElement(ElementTree.SubElement(suite, "testcase", classname=of, name="the rest"), "error", message=self.why)
        ElementTree.indent(suite)
        return '<?xml version="1.0" encoding="UTF-8"?>\n' + ElementTree.tostring(suite, encoding="unicode", short_empty_elements=True).replace(" />", "/>") + "\n"


class PluggedTest:
    """A test of the device of an adapter, whose file was read by it. `wanted` is the set that is selected where both are led."""

    def __init__(self, adapter: Adapter, file: bytes, is_stopped: Callable[[], bool], say: Callable[[str], None]):
        self.adapter, self.plugged, self.is_stopped, self.say = adapter, adapter.plugged, is_stopped, say
        self.proved, self._packet, self._open = Device(file, self.plugged.speed), file[7], c.structs["open_transfer"]()
        self.wanted, self.report = self.plugged.selected, PluggedReport(self.plugged.name)
        self._lead_proved()
        self._is_apart = self.plugged.disturbs

    # --- the proved device

    def ask_proved(self, q: bytes) -> bytes | None:
        """A transfer at the proved device alone: the bytes that come, or None where it refuses."""
        transfer = Transfer(q, self.proved.state().address, self._packet)
        while due := transfer.next():
            reply = self.proved.serve(due)
            if reply.kind == "data":
                self.proved.acked()
            transfer.take(reply)
        return transfer.data if transfer.ended == "complete" else None

    def _lead_proved(self) -> None:
        self.proved.reset()
        self.ask_proved(bytes([0, SET_ADDRESS, AT, 0, 0, 0, 0, 0]))
        if self.wanted:
            self.ask_proved(bytes([0, SET_CONFIGURATION, self.wanted, 0, 0, 0, 0, 0]))
        self._is_apart = False

    def follow_settings(self, interfaces: list[int]) -> None:
        """The settings that drivers have selected, in the proved device."""
        for it in interfaces:
            if setting := self.plugged.said_number("bAlternateSetting", f":{self.plugged.selected}.{it}"):
                self.ask_proved(bytes([1, SET_INTERFACE, setting, 0, it, 0, 0, 0]))

    def _lead(self) -> bool:
        """Leads both to a state: with an address, this set selected and nothing else. False where the plugged one refuses that."""
        self.plugged.sleep_again()
        self.plugged.transfer(bytes([0, SET_CONFIGURATION, self.wanted, 0, 0, 0, 0, 0]))
        if not self.plugged.error:
            self._lead_proved()
        return not self.plugged.error

    # --- a request

    def _judge(self, q: bytes) -> int:
        """Plays the transfer at the proved device, which judges each packet of the adapter: the number of a difference, or 0;
        no answer within 5 s is one. Where one device does what the other may refuse, they are apart."""
        transfer = Transfer(q, AT, self._packet)
        while due := transfer.next():
            reply = self.adapter.answer(due)
            if self.is_stopped() or self.plugged.is_gone or self.plugged.kept_back:
                return 0
            difference, has = self._judged(q, due, reply)
            self._is_apart = KINDS[has] != reply.kind
            if difference:
                return difference
            if reply.kind == "data":
                self.proved.acked()
                c.lib.nzg_judge_acked(self._open)
            transfer.take(reply)
        return int(self.plugged.error == errno.ETIMEDOUT)

    def _judged(self, q: bytes, due: Transaction, reply: Reply) -> tuple[int, int]:
        """The number of a difference, or 0, and the reply of the proved device."""
        came, has = c.structs["packet"](KINDS.index(reply.kind), reply.toggle, len(reply.data)), c.structs["packet"]()
        came.data[:len(reply.data[:64])] = reply.data[:64]
        return self.proved._judge(self._open, _request(q), due._numbers(), b"", 0, came, has), has.reply

    def _difference(self, q: bytes) -> str:
        """How the answer differs from what is due. What is read changes nothing, so that it is asked of the proved device again."""
        plugged = self.plugged
        came, due = ending_words(plugged.error, len(plugged.data)), "done" if plugged.error else "STALL"
        if q[0] & 0x80 and word(q, 6):
            data = self.ask_proved(q)
            came = came if plugged.error else bytes_words(plugged.data, data or b"")
            due = "STALL" if data is None else bytes_words(data, b"" if plugged.error else plugged.data)
        return f"{came}; due is {due} ({section_of(q)})"

    def _why_not(self, it: Request, is_in_address: bool) -> str:
        q = it.setup
        if q[0] & 0x60:
            return "class"
        if q[1] == SET_ADDRESS:
            return "kernel"
        if it.cut is not None:
            return "cut"
        if unspecified("Address" if is_in_address else "Configured", q):
            return "unspecified"
        if self.plugged.may_be_sent(q):
            return ""
        return "reset" if self.plugged.disturbs or halts_zero(q) else "disturbing"

    def _ask(self, it: Request) -> None:
        """Asks both devices, and says where they differ."""
        q, plugged, report, is_in_address = it.setup, self.plugged, self.report, not self.wanted
        why = self._why_not(it, is_in_address)
        if not why and self._is_apart and not self._lead():
            why = "unreached"
            # SET_CONFIGURATION may lead both there again.
            self.wanted = q[2] if q[1] == SET_CONFIGURATION else self.wanted
        if self.is_stopped() or plugged.is_gone:
            return
        if not why and not plugged.disturbs and any(q == asked for asked, _ in report.asked):
            return
        difference = 0 if why else self._judge(q)
        if not why and (self.is_stopped() or plugged.is_gone):
            return
        if not why and plugged.kept_back:
            why = "driven" if plugged.error == errno.EBUSY else "unknown"
        if why:
            report.left_out[why] += 1
            return
        report.requests += 1
        if not report.asked.setdefault((q, is_in_address), "") and difference:
            report.asked[q, is_in_address] = text = self._difference(q)
            self.say(f"{request_words(q, is_in_address)}: {text}")
        if not self._is_apart and q[1] == SET_CONFIGURATION:
            self.wanted = self.proved.state().selected
        self._is_apart = self._is_apart and q[0] < 0x80

    def run(self, talk: list[Request]) -> PluggedReport:
        """The talk."""
        for it in talk:
            if self.is_stopped() or self.plugged.is_gone or self.plugged.error == errno.ETIMEDOUT:
                break
            if it.setup:
                self._ask(it)
                continue
            self.report.left_out["kernel"] += 1
            if self.plugged.disturbs:
                self.wanted, self._is_apart = 0, True
        hangs = "it hangs: no answer within 5 s (9.2.6)" if self.plugged.error == errno.ETIMEDOUT else ""
        self.report.why = "stopped" if self.is_stopped() else "unplugged" if self.plugged.is_gone else hangs
        return self.report
