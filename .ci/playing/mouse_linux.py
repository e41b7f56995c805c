"""Plugs firmware into this Linux by examples/firmware/plugged.py, and looks where its pointer goes. `.ci/mouse` starts it.

    mouse_linux.py FOLDER FIRMWARE..    FOLDER has the library
"""
import glob
import os
import re
import socket
import struct
import subprocess
import sys
import time

FOLDER, *FIRMWARE = sys.argv[1:]
ROOT = os.path.abspath(os.path.join(os.path.dirname(os.path.abspath(__file__)), "../.."))
ENVIRONMENT = {**os.environ, "NOZZLEGORSE_LIBRARY": f"{FOLDER}/libnozzlegorse.so", "PYTHONPATH": f"{ROOT}/examples/firmware:{ROOT}/python",
               "PYTHONDONTWRITEBYTECODE": "1", "TMPDIR": "/run", "PATH": "/usr/bin:/bin"}
# Linux 6.1 takes a device of USB/IP by this file: the port, a socket, the device's number and its speed, here full.
ATTACH, FULL = "/sys/devices/platform/vhci_hcd.0/attach", 2
IMPORT = bytes.fromhex("0111800300000000")
# struct input_event, and of it the kinds that a mouse has.
EVENT, SYNC, MOVED = struct.Struct("qqHHi"), 0, 2
# The square of examples/firmware/main.c, twice.
SQUARE = [it for it in ((4, 0), (0, 4), (-4, 0), (0, -4)) for _ in range(16)]
REPORTS, SECONDS = 2 * len(SQUARE), 300


def plugged(firmware):
    """The bridge over the firmware, and the socket that Linux has it by."""
    bridge = subprocess.Popen([sys.executable, "-m", "plugged", "0"], stdout=subprocess.PIPE, env={**ENVIRONMENT, "FIRMWARE": firmware}, text=True)
    it = socket.create_connection(("127.0.0.1", int(re.search(r"--tcp-port (\d+)", bridge.stdout.readline())[1])))
    it.sendall(IMPORT + b"1-1".ljust(32, b"\0"))
    reply = b""
    while len(reply) < 320:
        reply += it.recv(320 - len(reply))
    with open(ATTACH, "w", encoding="ascii") as attach:
        attach.write(f"0 {it.fileno()} {int.from_bytes(reply[296:300], 'big') << 16 | int.from_bytes(reply[300:304], 'big')} {FULL}")
    return bridge, it


def drivers():
    """The driver of each interface of what is plugged in."""
    return {os.path.basename(it): os.path.basename(os.path.realpath(f"{it}/driver")) for it in glob.glob("/sys/bus/usb/devices/*:*")
            if os.path.exists(f"{it}/driver") and "vhci" in os.path.realpath(it) and not os.path.basename(it).endswith("-0:1.0")}


def pointer():
    """The file of its events, once it is there."""
    until = time.monotonic() + SECONDS
    while time.monotonic() < until:
        for it in glob.glob("/sys/class/input/event*"):
            if "vhci" in os.path.realpath(it):
                return f"/dev/input/{os.path.basename(it)}"
        time.sleep(0.2)
    return None


def moves(name):
    """How far each report moves the pointer."""
    found, way = [], [0, 0]
    with open(name, "rb", buffering=0) as events:
        while len(found) < REPORTS:
            _, _, kind, code, value = EVENT.unpack(events.read(EVENT.size))
            if kind == MOVED:
                way[code] = value
            elif kind == SYNC:
                found.append(tuple(way))
                way = [0, 0]
    return found


def try_firmware(firmware):
    bridge, it = plugged(firmware)
    name = pointer()
    came = moves(name) if name else []
    begins = next((at for at in range(len(SQUARE)) if came == (3 * SQUARE)[at : at + REPORTS]), None)
    what = f"{len(came)} reports move the pointer round the square" if begins is not None else f"FAULT: {came[:40]}"
    print(f"mouse: {os.path.basename(firmware)}: {' '.join(f'{key} {value}' for key, value in drivers().items())}: {what}", flush=True)
    bridge.kill()
    it.close()
    time.sleep(2)
    return begins is not None


def main():
    # The kernel's words would come between.
    with open("/proc/sys/kernel/printk", "w", encoding="ascii") as it:
        it.write("1")
    if all([try_firmware(it) for it in FIRMWARE]):
        print("mouse: all were plugged in", flush=True)


main()
