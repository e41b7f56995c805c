"""Reads and tests each device that is plugged into this Linux, by examples/c/usbfs.c and nozzlegorse.usbfs. `.ci/usbfs` starts it.

    usbfs_linux.py USBFS FOLDER FILE..    USBFS is the program in C, FOLDER the library's; the files are devices of nozzlegorse.usbip
"""
import glob
import os
import re
import socket
import subprocess
import sys
import time

PROGRAM, FOLDER, *FILES = sys.argv[1:]
ROOT = os.path.abspath(os.path.join(os.path.dirname(os.path.abspath(__file__)), "../.."))
ENVIRONMENT = {**os.environ, "NOZZLEGORSE_LIBRARY": f"{FOLDER}/libnozzlegorse.so", "PYTHONPATH": f"{ROOT}/python", "PYTHONDONTWRITEBYTECODE": "1", "LC_ALL": "C"}
PROGRAMS = [PROGRAM], [sys.executable, "-m", "nozzlegorse.usbfs"]
# Linux 6.1 takes a device of USB/IP by this file: the port, a socket, the device's number and its speed.
ATTACH = "/sys/devices/platform/vhci_hcd.0/attach"
IMPORT = bytes.fromhex("0111800300000000")


def bytes_of(name):
    with open(name, "rb") as it:
        return it.read()


def said(device, name):
    return bytes_of(f"/sys/bus/usb/devices/{device}/{name}").decode().strip()


def plugged():
    """The devices, but for root hubs."""
    return {it for it in map(os.path.basename, glob.glob("/sys/bus/usb/devices/*")) if re.fullmatch(r"\d+-[\d.]+", it)}


def drivers(device):
    """The driver of each interface of a device."""
    return {os.path.basename(it): os.path.basename(os.path.realpath(f"{it}/driver")) for it in glob.glob(f"/sys/bus/usb/devices/{device}:*") if os.path.exists(f"{it}/driver")}


def settled(look):
    """What is seen once it has been the same for a second."""
    was, since = look(), time.monotonic()
    while time.monotonic() < since + 1:
        time.sleep(0.1)
        if (now := look()) != was:
            was, since = now, time.monotonic()
    return was


def ran(program, *words):
    it = subprocess.run([*program, *words], capture_output=True, env=ENVIRONMENT, timeout=100, check=False)
    return it.returncode, it.stdout, it.stderr.decode()


def told(what, device, *rest):
    print(f"usbfs: {device} {said(device, 'idVendor')}:{said(device, 'idProduct')} at {said(device, 'speed')} Mbit/s: {what}", *rest, flush=True)


def read(device, file=None):
    """Both programs read the same file, in which the kernel's descriptors are."""
    came = [ran(it, device, "read") for it in PROGRAMS]
    data, kernels = came[0][1], bytes_of(f"/sys/bus/usb/devices/{device}/descriptors")
    if came[0] != came[1] or came[0][0] or not data.startswith(kernels) or file not in (None, data):
        return told("FAULT: read", device, came)
    return told(f"{len(data)} bytes are read", device)


def test(device):
    """Both programs test a device alike, and each driver is there again."""
    before = drivers(device)
    for words in (("test",), ("test", "--disturb")):
        status, out, errors = ran(PROGRAMS[0], device, *words)
        after = settled(lambda: drivers(device))
        by_python = ran(PROGRAMS[1], device, *words)
        is_right = status in (0, 1) and (status, out, errors) == by_python and after == before == settled(lambda: drivers(device))
        told(" ".join(words), device, *([] if is_right else ["FAULT:", status, errors, by_python, before, after]))
        print(out.decode(), end="", flush=True)


def test_of_bridge(device):
    """USB/IP carries no port reset, and the bridge takes GET_DESCRIPTOR with wLength 64 for one. Its device differs from then on in what a
    reset ends, and in nothing else."""
    status, out, errors = ran(PROGRAMS[0], device, "test")
    lines = [it for it in out.decode().splitlines() if "; due is " in it]
    is_right = status in (0, 1) and not errors.count("\n", errors.find("\n") + 1) and all(re.match("GET_(CONFIGURATION|STATUS|INTERFACE) of ", it) for it in lines)
    told("test", device, *([] if is_right else ["FAULT:", status, errors]))
    print(out.decode(), end="", flush=True)


def served(name):
    """A device of the bridge is plugged in: its process, and its name here."""
    was = plugged()
    bridge = subprocess.Popen([sys.executable, "-m", "nozzlegorse.usbip", name, "--speed", "high", "--port", "0", "--quiet"], stdout=subprocess.PIPE, env=ENVIRONMENT, text=True)
    port = int(re.search(r"--tcp-port (\d+)", bridge.stdout.readline())[1])
    it = socket.create_connection(("127.0.0.1", port))
    it.sendall(IMPORT + b"1-1".ljust(32, b"\0"))
    reply = b""
    while len(reply) < 320:
        reply += it.recv(320 - len(reply))
    with open(ATTACH, "w", encoding="ascii") as attach:
        attach.write(f"0 {it.fileno()} {int.from_bytes(reply[296 + 4:296 + 8], 'big') << 16 | int.from_bytes(reply[300 + 4:300 + 8], 'big')} 3")
    return bridge, settled(lambda: plugged() - was)


def main():
    # The kernel's words would come between.
    with open("/proc/sys/kernel/printk", "w", encoding="ascii") as it:
        it.write("1")
    for device in sorted(settled(plugged)):
        read(device)
        test(device)
    for name in FILES:
        bridge, names = served(name)
        for device in names:
            read(device, bytes_of(name))
            test_of_bridge(device)
        bridge.kill()
        settled(plugged)
    print("usbfs: all were tried", flush=True)


main()
