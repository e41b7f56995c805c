"""Writes hosts/enumerations.script: whole enumerations under lists of fates, by the second reading of enumerating.py."""

from readings import END_DATA, enumerating, lists



DEVICES = [("qemu-usb-mouse", "full"), ("with-everything", "high"), ("gadget-webcam", "high")]

with open(f"{END_DATA}/hosts/enumerations.script", "w", encoding="ascii") as out:
    print("# Whole enumerations over a bus that loses packets.\n# Written by write_enumerations.py, a second reading of docs/control-transfers.md.", file=out)
    for name, speed in DEVICES:
        print(f"\nfile {name}.file -> read\nspeed {speed} -> accepted", file=out)
        for naks in (16, 0):
            print(f"naks {naks} -> done", file=out)
            for fates in lists.GIVEN:
                with open(f"{END_DATA}/files/{name}.file", "rb") as source:
                    device = enumerating.Device(enumerating.File(source.read()))
                host = enumerating.Host(speed, 1, naks, 3)
                enumerating.enumerate_device(device, host, fates)
                print(f"enumerate {fates or '-'} -> {host.result()}", file=out)
    print("enumerate .x -> no step", file=out)
