"""Records what this Linux asks of devices that are plugged in one after another, by usbmon's text and by tcpdump. `.ci/recordings` starts it.

    recordings_linux.py FOLDER FILE..    FOLDER has the library; the files are devices of nozzlegorse.usbip
"""
import os
import re
import signal
import socket
import subprocess
import sys
import time

FOLDER, *FILES = sys.argv[1:]
ROOT = os.path.abspath(os.path.join(os.path.dirname(os.path.abspath(__file__)), "../.."))
ENVIRONMENT = {**os.environ, "NOZZLEGORSE_LIBRARY": f"{FOLDER}/libnozzlegorse.so", "PYTHONPATH": f"{ROOT}/python", "PYTHONDONTWRITEBYTECODE": "1"}
# Linux 6.1 takes a device of USB/IP by this file: the port, a socket, the device's number and its speed.
ATTACH = "/sys/devices/platform/vhci_hcd.0/attach"
IMPORT = bytes.fromhex("0111800300000000")
OUT, TEXT = "/run/out", "/sys/kernel/debug/usb/usbmon/0u"
# For a driver to bind, and for URBs to be given back.
SECONDS = 8


def mounted(kind, where, *options):
    os.makedirs(where, exist_ok=True)
    subprocess.run(["mount", "-t", kind, *options, "out" if kind == "9p" else kind, where], check=True)


def attached(name):
    """A device of the bridge is plugged in: its process and its socket."""
    bridge = subprocess.Popen([sys.executable, "-m", "nozzlegorse.usbip", name, "--speed", "high", "--port", "0", "--quiet"], stdout=subprocess.PIPE, env=ENVIRONMENT, text=True)
    port = int(re.search(r"--tcp-port (\d+)", bridge.stdout.readline())[1])
    it = socket.create_connection(("127.0.0.1", port))
    it.sendall(IMPORT + b"1-1".ljust(32, b"\0"))
    reply = b""
    while len(reply) < 320:
        reply += it.recv(320 - len(reply))
    with open(ATTACH, "w", encoding="ascii") as attach:
        attach.write(f"0 {it.fileno()} {int.from_bytes(reply[300:304], 'big') << 16 | int.from_bytes(reply[304:308], 'big')} 3")
    return bridge, it


def recorded(name):
    """One run of the device, as text and as packets."""
    stem = f"{OUT}/linux-{os.path.basename(name).rsplit('.', 1)[0]}"
    with open(f"{stem}.text", "wb") as text:
        monitors = [subprocess.Popen(["cat", TEXT], stdout=text),
                    subprocess.Popen(["tcpdump", "-Z", "root", "-U", "-i", "usbmon0", "-w", f"{stem}.pcap"], stderr=subprocess.DEVNULL)]
        time.sleep(3)
        bridge, it = attached(name)
        time.sleep(SECONDS)
        bridge.kill()
        it.close()
        time.sleep(2)
        for monitor in monitors:
            monitor.send_signal(signal.SIGTERM)
            monitor.wait()
    print(f"recordings: {stem}: {os.path.getsize(f'{stem}.text')} bytes of text, {os.path.getsize(f'{stem}.pcap')} of packets", flush=True)


def main():
    with open("/proc/sys/kernel/printk", "w", encoding="ascii") as it:
        it.write("1")
    mounted("debugfs", "/sys/kernel/debug")
    mounted("9p", OUT, "-o", "trans=virtio,version=9p2000.L")
    # QEMU's devices are enumerated, and asked for a while.
    time.sleep(SECONDS)
    for name in FILES:
        recorded(name)
    print("recordings: all were made", flush=True)


main()
