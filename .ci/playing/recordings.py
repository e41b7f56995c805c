"""Whether Python has of each recording in testdata/captures what readings/recorded.py reads there, whole and in pieces of one byte, of
seven and of 64, of those that are cut and of those that are none; whether the descriptors of each device are those that the program
writes; and whether the lines of `python3 -m nozzlegorse.capture` are of the same.

    .ci/playing/recordings.py PROGRAM    with NOZZLEGORSE_LIBRARY and PYTHONPATH=python
"""
import json
import os
import re
import subprocess
import sys
import tempfile

sys.path.append(os.path.abspath(f"{os.path.dirname(os.path.abspath(__file__))}/../.."))
import nozzlegorse as usb  # noqa: E402
from nozzlegorse.recordings import Request  # noqa: E402
from recorded_again import FILES, bad, read_again  # noqa: E402

PROGRAM = sys.argv[1]


def told(capture, data, size):
    """What comes of pieces of this size, what has no end, the devices, and the cut; or the fault after all that came before it."""
    shown = []
    try:
        for at in range(0, len(data) + 1, size):
            shown += map(numbers, capture.feed(data[at:at + size]))
        shown += map(numbers, capture.feed(b""))
    except usb.Fault as fault:
        return shown, str(fault)
    return shown + [numbers(it) for it in capture.unended], [(it.device, it.findings) for it in capture.devices], capture.cut


def numbers(it):
    if isinstance(it, Request):
        return it.time, it.device, it.setup, it.data, it.length, it.ending, it.status, it.is_cut, tuple(f"{one.message} ({one.section})" for one in it.findings)
    return it.time, it.device, it.frame, f"{it.message} ({it.section})"


def differ(what, came, wanted):
    if came != wanted:
        sys.exit(f"recordings: {what}: {str(came)[-800:]} and not {str(wanted)[-800:]}")


def files_are_those_of(program, data, name, capture):
    """The descriptors of each device, or what lacks."""
    for seen in capture.devices:
        if not seen.device:
            continue
        ran = subprocess.run([program, "capture", "--file", "{}.{}".format(*seen.device)], input=data, capture_output=True)
        try:
            came = capture.file(*seen.device), 0
        except usb.Fault as fault:
            came = b"", 3 if fault.kind == "lacking" else fault
        differ(f"device {seen.device} of {name}", came, (ran.stdout, ran.returncode))


def command(data):
    """What the command writes of a file, as JSON, its status, and its fault."""
    with tempfile.NamedTemporaryFile() as it:
        it.write(data)
        it.flush()
        ran = subprocess.run([sys.executable, "-m", "nozzlegorse.capture", it.name], capture_output=True, text=True)
    return [json.loads(line) for line in ran.stdout.splitlines()], ran.returncode, ran.stderr


def lines_are_of(data):
    shown, devices, cut = read_again(data)
    lines, status, said = command(data)
    differ("status", (status, said), (int(any(count for _, count in devices)), ""))
    differ("kinds", [it["kind"] for it in lines], [*("request" if len(it) > 4 else "finding" for it in shown), *("device" for _ in devices), "end"])
    requests = [(it["time"], (it["bus"], it["device"]), bytes.fromhex(it["setup"]), bytes.fromhex(it["data"]), it["length"]) for it in lines if it["kind"] == "request"]
    differ("requests", requests, [it[:5] for it in shown if len(it) > 4])
    differ("findings", [len(it["findings"]) for it in lines if it["kind"] == "request"], [len(it[8]) for it in shown if len(it) > 4])
    differ("cut", lines[-1]["cut"], cut and list(cut))


def main():
    count = 0
    for name in FILES:
        with open(name, "rb") as it:
            data = it.read()
        for part in (data, data[:len(data) // 2], data[:-1], data[:20]):
            wanted = read_again(part)
            for size in (len(part) + 1, 1, 7, 64):
                with usb.Capture() as capture:
                    differ(f"{len(part)} bytes of {name} by {size}", told(capture, part, size), wanted)
                    count += 1
        with usb.Capture(name) as capture:
            differ(name, [numbers(it) for it in capture], read_again(data)[0])
            files_are_those_of(PROGRAM, data, name, capture)
        lines_are_of(data)
    faults = 0
    for data in bad():
        ran = subprocess.run([PROGRAM, "capture"], input=data, capture_output=True)
        said = re.sub(r"[:\n].*", "", ran.stderr.decode().removeprefix("usbdesc: "), flags=re.S)
        for size in (len(data) + 1, 1, 64):
            with usb.Capture() as capture:
                came = told(capture, data, size)
            differ(f"fault of {data[:40].hex()}.. by {size}", re.sub(r" \(\w+\)", "", came[1]) if len(came) == 2 else "", said)
        status = command(data)[1]
        differ("status", status, ran.returncode)
        faults += bool(said)
    print(f"recordings: {count} readings of {len(FILES)} files are the same, and {faults} faults")


main()
