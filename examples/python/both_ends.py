"""both_ends.py SPEED FATES < FILE: a host reads a device over a bus that loses, a letter of FATES a transaction: d it is lost, u
its reply, a the host's ACK; n the device is busy. Prints the line of `usbdesc enumerate`."""
import sys

import nozzlegorse as usb
from nozzlegorse.ends import SILENCE, Device, Host

speed, fates, file = sys.argv[1], sys.argv[2], sys.stdin.buffer.read()
device, host, count = Device(file, speed), Host(speed=speed), 0
while (due := host.next()) != "ended":
    if due == "reset":
        device.reset()
        host.reset_done()
        continue
    fate = fates[count:count + 1]
    count += 1
    reply = SILENCE if fate == "d" else device.serve(due, ready=fate != "n")
    if reply.kind == "data" and fate not in ("u", "a"):
        device.acked()
    host.take(SILENCE if fate == "u" else reply)
try:
    assert host.outcome() == file
except usb.Fault as trouble:
    print(f"trouble {trouble.number} {trouble.step} attempts {host.attempts} transactions {count}")
    sys.exit(1)
state = device.state()
print(f"success attempts {host.attempts} transactions {count} address {state.address} value {state.selected}")
