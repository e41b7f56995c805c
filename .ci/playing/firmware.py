"""What is found in the firmware images of Debian's packages, where these are installed, beside a second reading. Not in the gate.

    .ci/playing/firmware.py [FOLDER]    with NOZZLEGORSE_LIBRARY and PYTHONPATH=python

FOLDER has the packages unpacked, as `apt-get download` and `dpkg -x` leave them; without it they are looked for in the system.
"""
import glob
import os
import sys

from finding import compared
from nozzlegorse.command.finding import found_in
from nozzlegorse.command.images import pieces_of

IMAGES = {"sigrok-firmware-fx2lafw": "usr/share/sigrok-firmware/*.fw", "hdmi2usb-fx2-firmware": "lib/firmware/opsis-fx2/*.ihx",
          "ixo-usb-jtag": "lib/firmware/ixo-usb-jtag/*.hex"}
# The rules that their sets break: seen in the bytes by hand.
BROKEN = {"fx2lafw-hantek-6022be.fw": {"V1"}, "fx2lafw-hantek-6022bl.fw": {"V1"}, "fx2lafw-sainsmart-dds120.fw": {"V1"},
          "fx2lafw-yixingdianzi-mdso.fw": {"V1"}, "usb-uart.ihx": {"V5"}}
root, count, sets = sys.argv[1] if len(sys.argv) > 1 else "/", 0, 0
for package, pattern in IMAGES.items():
    for path in sorted(glob.glob(os.path.join(root, pattern))):
        with open(path, "rb") as it:
            pieces = pieces_of(it.read())
        sets += sum(compared(data) for _, data in pieces)
        broken = {it.finding.code for address, data in pieces for it in found_in(data, address) if it.finding}
        if broken != BROKEN.get(os.path.basename(path), set()):
            sys.exit(f"firmware: {path}: {broken}")
        count += 1
print(f"firmware: {count} images, {sets} sets and device descriptors as a second reading has them" if count else "firmware: none of the packages is here")
