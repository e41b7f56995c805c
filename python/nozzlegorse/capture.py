"""A recording of a bus as lines of JSON: each request, finding and device.

    python3 -m nozzlegorse.capture FILE

Their `kind` and members, with times in nanoseconds and bytes as hexadecimal digits:

    request     bus, device, time, begun, setup, data, length, ending, status, is_cut, findings
    finding     in packets: bus, device, time, frame, name, message, section
    device      bus, device, the number of findings, and descriptors: those that `usbdesc capture --file` writes
    end         cut: place and length of a part that isn't whole; fault

Findings are T1 of a transfer, C1 to C17 of a device's conversation, P1 to P13 of packets. It ends in 1 where something is found, in 2
where the lines can't be written, and in 3 where the file isn't read to its end."""
from __future__ import annotations

import json
import sys

from ._output import written
from .faults import Fault
from .recordings import Capture


def _members(it) -> dict:
    """What the line of a request, a finding or a device has."""
    kind = type(it).__name__.lower().replace("seen", "device")
    bus, device = it.device or (None, None)
    members = {name: getattr(it, name) for name in it.__match_args__ if name != "device"}
    for name in members.keys() & {"setup", "data"}:
        members[name] = members[name].hex()
    if kind == "request":
        members["findings"] = [{"name": one.name, "message": one.message, "section": one.section} for one in it.findings]
    return {"kind": kind, "bus": bus, "device": device, **members}


def _objects(capture: Capture, faults: list[Exception]):
    """What the lines have: first what is over, then the devices, each with its descriptors, and the end. What stops the reading is
    among the faults then."""
    try:
        for it in capture:
            yield _members(it)
    except (Fault, OSError) as fault:
        faults.append(fault)
    for seen in capture.devices:
        try:
            descriptors = capture.file(*seen.device).hex() if seen.device else None
        except Fault:
            descriptors = None
        yield {**_members(seen), "descriptors": descriptors}
    yield {"kind": "end", "cut": None if faults else capture.cut, "fault": str(faults[0]) if faults else None}


def main(words: list[str]) -> int:
    if len(words) != 1 or words[0].startswith("-"):
        print(__doc__, file=sys.stderr)
        return 2
    faults: list[Exception] = []
    with Capture(words[0]) as capture:
        failed = written(f"{json.dumps(it)}\n" for it in _objects(capture, faults))
        if failed:
            print(f"nozzlegorse.capture: standard output: {failed.strerror}", file=sys.stderr)
            return 2
        for fault in faults:
            print(f"nozzlegorse.capture: {fault}", file=sys.stderr)
        return 3 if faults else int(any(seen.findings for seen in capture.devices))


if __name__ == "__main__":
    sys.exit(main(sys.argv[1:]))
