"""recording.py < FILE: the control transfers of a recording of a bus, and what USB 2.0 forbids in them. It ends in 1 where something
is found, and in 2 where the file is no recording to its end."""
import sys

import nozzlegorse as usb
from nozzlegorse.recordings import Request


def show(it) -> int:
    found = [it]
    if isinstance(it, Request):
        found = it.findings
        print(f"{it.device[0]}.{it.device[1]} {it.setup.hex(' ')}: {it.length} bytes, {it.ending}")
    for one in found:
        print(f"  ! {one.message} ({one.section})")
    return len(found)


count, fault = 0, None
with usb.Capture() as capture:
    try:
        piece = b" "
        while piece:
            piece = sys.stdin.buffer.read(4096)
            count += sum(map(show, capture.feed(piece)))
    except usb.Fault as it:
        fault = it
    for it in capture.unended:
        show(it)
    if fault:
        print(f"fault {fault.number} at {fault.place}")
    elif cut := capture.cut:
        print(f"cut: {cut[1]} bytes at {cut[0]}")
sys.exit(2 if fault else count > 0)
