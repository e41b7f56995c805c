"""What tshark, the program and the second reading say of a recording: how many frames it has, and of each request the device, the
bytes of the setup packet and how it ended.

tshark takes a setup packet where there is none by the documents: of a header of usbmon that is a byte short, in a frame that it calls
malformed; of one of USBPcap that is said to have less than 27 bytes, which it doesn't look at; and after a SETUP whose CRC it calls
wrong (USB 2.0, 8.7.1). Of packets it says which device each is of, but not which transfer is over: compared is where STALL came.
"""

import re
import subprocess
from collections import Counter
from xml.etree import ElementTree

from readings.recorded import Recording, code_words

# Statuses of usbmon and USBPcap, and how a request ended by them.
ENDS = {"0": "done", "0x00000000": "done", "-32": "STALL", "0xc0000004": "STALL"}
SUBMISSION, ERROR, CONTROL, STALL = "53", "45", "02", "1e"
# In the text of `capture --data`: the line of a transfer, and that of its setup packet.
TRANSFER, SETUP = re.compile(r"\S+ +(\d+\.\d+) +\S.*?  +(\S.*)"), re.compile(r" {11}setup ([0-9a-f]{16})")


class Frame:
    """A frame by tshark: of each field what it shows and its bytes, by the first place where it stands."""

    def __init__(self, packet):
        self.fields = {}
        for it in packet.iter("field"):
            self.fields.setdefault(it.get("name") or it.get("show"), (it.get("show"), it.get("value")))
        is_short = any(it.get("name") == "_ws.malformed" for it in packet.iter("proto")) or int(self.shown("usb.usbpcap_header_len") or 27) < 27
        self.setup = None if is_short else self.value("Setup Data")

    def shown(self, name):
        return self.fields.get(name, ("", ""))[0]

    def value(self, name):
        return self.fields.get(name, ("", ""))[1]

    def end(self):
        """How a transfer of usbmon or USBPcap ended by it, or None where it goes on."""
        kind = self.value("usb.urb_type")
        status = self.shown("usb.urb_status") or self.shown("usb.usbd_status")
        if kind == SUBMISSION or not kind and (self.value("usb.irp_info.direction") == "0" or self.shown("usb.control_stage") == "1"):
            return None
        return f"refused {status}" if kind == ERROR else ENDS.get(status, f"error {status}")


class Requests:
    """The requests of frames that come one after another."""

    def __init__(self):
        self.count, self.over, self.waiting, self.is_damaged = 0, [], {}, False

    def take(self, frame):
        self.count += 1
        if "usbll.pid" in frame.fields:
            self.take_packet(frame)
        elif frame.value("usb.transfer_type") == CONTROL and frame.shown("usb.endpoint_address.number") == "0":
            self.take_event(frame)

    def take_event(self, frame):
        number = frame.shown("usb.urb_id") or frame.shown("usb.irp_id")
        if frame.setup:
            self.begin(number, f"{frame.shown('usb.bus_id')}.{frame.shown('usb.device_address')}", frame.setup)
        elif end := frame.end():
            self.finish(number, end)

    def take_packet(self, frame):
        was_damaged, self.is_damaged = self.is_damaged, frame.shown("usbll.crc5.status") == "0"
        if frame.setup and not was_damaged:
            address = frame.shown("usbll.dst").partition(".")[0]
            self.begin(address, f"0.{address}", frame.setup)
        elif frame.value("usbll.pid") == STALL:
            self.finish(frame.shown("usbll.src").removesuffix(".0"), "STALL")

    def begin(self, key, device, setup):
        self.finish(key, "no end")
        self.waiting[key] = device, setup

    def finish(self, key, end):
        if key in self.waiting:
            self.over.append((*self.waiting.pop(key), end))


def by_tshark(path):
    """How many frames there are, and the requests."""
    ran = subprocess.run(["tshark", "-r", path, "-T", "pdml"], capture_output=True, check=False)
    requests = Requests()
    for packet in ElementTree.fromstring(ran.stdout).iter("packet"):
        requests.take(Frame(packet))
    for key in list(requests.waiting):
        requests.finish(key, "no end")
    return requests.count, requests.over


def by_program(program, data):
    """The same, of the lines of the program."""
    lines = subprocess.run([program, "capture", "--data"], input=data, capture_output=True, check=False).stdout.decode().splitlines()
    over, device, end = [], "", ""
    for line in lines:
        if found := SETUP.fullmatch(line):
            over.append((device, found[1], end))
        elif found := TRANSFER.fullmatch(line):
            device, end = found[1], "done" if found[2][0].isdigit() else found[2].removesuffix(", cut")
    return int(next(it.split()[0] for it in lines if re.match(r"\d+ frame", it))), over


def by_reading(data):
    """The same, of the second reading."""
    recording = Recording(data)
    words = {"done": "done", "stall": "STALL", "unseen": "no end", "failed": "error {}", "refused": "refused {}"}
    return recording.count, [("{}.{}".format(*one["device"]), one["setup"].hex(), words[one["ending"][0]].format(code_words(one["ending"][1])))
                             for one in [*recording.over, *recording.open.values(), *recording.bus.open.values()]]


def is_of_packets(request):
    return request[0].startswith("0.")


def differences(path, program):
    """How many requests a recording has, and where the three differ, in lines."""
    with open(path, "rb") as it:
        data = it.read()
    told = {"tshark": by_tshark(path), "the program": by_program(program, data), "the second reading": by_reading(data)}
    wanted_count, wanted = told["the second reading"]
    lines = []
    for name, (count, requests) in told.items():
        # Of packets tshark knows no end but STALL.
        seen, due = (Counter((*it[:2], it[2] if it[2] == "STALL" or not (name == "tshark" and is_of_packets(it)) else "") for it in all_) for all_ in (requests, wanted))
        lines += [f"{name} has {count} frames, and not {wanted_count}"] if count != wanted_count else []
        lines += [f"{name} has {' '.join(it)}" for it in seen - due] + [f"{name} lacks {' '.join(it)}" for it in due - seen]
    return len(wanted), lines
