"""What `python3 -m nozzlegorse.image` writes: C has the bytes of the image, whatever it is named and at each speed, and a device over these
answers what an independent one does over the file. `.ci/callers` runs it."""
import glob
import os
import re
import shutil
import subprocess
import sys
import tempfile

sys.path[:0] = [os.path.dirname(os.path.abspath(__file__))]
from nozzlegorse import Fault, image
from nozzlegorse.ends import Device, Transaction
from small_device import SmallDevice

SPEEDS = ("low", "full", "high")
# What a host asks of a device that it has not configured: descriptors of each type, and strings.
ASKED = ["8006000100001200", "8006000200000900", "800600020000ffff", "8006000300 00ff00", "8006010309 04ff00", "8006020309 04ff00", "8006000600000a00",
         "800600070000ffff", "8006010200000900", "8006ff0309 04ff00", "80060001000008 00"]
PRINTS = """#include <stdio.h>
#include "one.h"
#include "one.h"
int main(void) {
    printf("%d", THE_ONE_PACKET);
    for (int i = 0; i < THE_ONE_LENGTH; i++) printf(" %d", the_One[i]);
    return sizeof the_One != THE_ONE_LENGTH;
}
"""
counts = {"texts": 0, "refused": 0, "answers": 0, "compiled": 0}


def same(what, came, wanted):
    if came != wanted:
        sys.exit(f"imaged: {what}: {str(came)[:300]} and not {str(wanted)[:300]}")


def bytes_of(text):
    """The bytes of the array in a text."""
    return bytes(int(it, 16) for it in re.findall(r"0x(..),", text))


def by_cc(file, speed, made, room):
    """A compiler has the macros and the bytes, also where the text is included twice."""
    if not shutil.which("cc"):
        return
    with open(f"{room}/one.h", "w", encoding="ascii") as it:
        it.write(image.c_text(file, speed, "the_One"))
    with open(f"{room}/one.c", "w", encoding="ascii") as it:
        it.write(PRINTS)
    subprocess.run(["cc", "-std=c99", "-pedantic", "-Wall", "-Wextra", "-Werror", f"{room}/one.c", "-o", f"{room}/one"], check=True)
    packet, *came = map(int, subprocess.run([f"{room}/one"], capture_output=True, check=True).stdout.split())
    same("what cc has", (packet, bytes(came)), (file[7], made))
    counts["compiled"] += 1


def answered(device, address, setup):
    """All data that a device has for a request, or None where it stalls."""
    data, packet = b"", None
    device.transaction(Transaction.setup(address, setup), True)
    for _ in range(10000):
        packet = device.transaction(Transaction(address, "in"), True)
        if packet.kind != "data":
            return None
        device.acked()
        data += packet.data
        if len(packet.data) < device.packet or len(data) == int.from_bytes(setup[6:], "little"):
            return data
    return data


class Lent(Device):
    """A device over the image of a text."""

    def __init__(self, file, speed, made):
        super().__init__(file, speed)
        self._image, self.packet = (made, len(made)), file[7]

    def transaction(self, it, ready):
        return self.serve(it, ready)


def answers(name, file, speed, made):
    """The device over the image answers as the small one over the file."""
    lent, small = Lent(file, speed, made), SmallDevice(file)
    for it in ASKED:
        setup = bytes.fromhex(it)
        same(f"{name}: {it}", answered(lent, 0, setup), answered(small, 0, setup))
        counts["answers"] += 1


def looked(name, room):
    with open(name, "rb") as it:
        file = it.read()
    for speed in SPEEDS:
        try:
            text = image.c_text(file, speed)
        except Fault as fault:
            same(f"{name} at {speed} speed", fault.kind, "description_fault")
            counts["refused"] += 1
            continue
        made = image.image_of(file, speed)
        counts["texts"] += 1
        same(name, bytes_of(text), made)
        answers(name, file, speed, made)
        by_cc(file, speed, made, room)


with tempfile.TemporaryDirectory() as place:
    for path in sorted(glob.glob("testdata/files/*.file")) + sorted(glob.glob("testdata/binding/*.file")):
        looked(path, place)
    for wrong in ("", "2nd", "a-b", "int", "é", "a b", "a;"):
        try:
            image.c_text(b"", name=wrong)
        except ValueError as why:
            same("a name", isinstance(why, Fault), False)
print("images in C:", ", ".join(f"{count} {what}" for what, count in counts.items()))
