"""What comes of an enumeration of each example file, at each speed, by the second readings of the rules (checking.py)
and of an enumeration (enumerating.py).

It shares no code with the crates. The gate compares what it writes (.ci/readings).

    enumerations_of_files FILE..    writes what comes of FILE to the file of that name that ends in .enumerate: a
                                    line for each speed, with the result line of the program. A FILE that ends in
                                    .descriptors is a dump, which is completed first (--with-strings)
"""

import os
import sys

from readings import checking
from readings.enumerating import Device, File, Host, enumerate_device, named, units, word


def string(units_written):
    return bytes([2 + len(units_written), 3]) + units_written


def completed(data):
    """The file that is made of a dump: for each index N that it names the text 'string N', in language 0409 alone."""
    sets, place = [], 18
    for _ in range(data[17]):
        sets.append(data[place : place + word(data, place + 2)])
        place += len(sets[-1])
    indices = named(data[:18], sets)
    if not indices:
        return data
    return data + string(b"\x09\x04") + b"".join(string(f"string {index}".encode("utf-16-le")) for index in indices)


def refused(data, speed):
    """Why no device of this speed is made of a file, or None."""
    findings = checking.findings("file", data).splitlines()
    if findings != ["no findings"]:
        return f"refused 1 {findings[0]}"
    file = File(data)
    languages = units(file.languages) if file.languages else []
    if len(set(languages)) != len(languages):
        return "refused 2"
    packet, second = file.device[7], file.qualifier is not None
    wrong = {"low": packet != 8 or second, "full": False, "high": packet != 64}[speed]
    if wrong or (second and word(file.device, 2) < 0x0200):
        return "refused 3"
    return None


def result(data, speed):
    refusal = refused(data, speed)
    if refusal:
        return refusal
    device, host = Device(File(data)), Host(speed)
    enumerate_device(device, host)
    assert host.outcome == 0 and host.read == data
    return f"{host.result()} address {device.address} value {device.selected}"


def main(paths):
    if not paths:
        sys.exit(__doc__)
    for path in paths:
        with open(path, "rb") as source:
            data = source.read()
        if path.endswith(".descriptors"):
            data = completed(data)
        with open(os.path.splitext(path)[0] + ".enumerate", "w", encoding="ascii") as target:
            for speed in ("low", "full", "high"):
                print(speed, result(data, speed), file=target)


if __name__ == "__main__":
    main(sys.argv[1:])
