"""A folder as Linux's /sys, with devices of testdata plugged into three buses."""

import os

# Of each device: its bytes, its speed in Mbit/s, its strings, the drivers of its first interfaces.
DEVICES = {
    "usb1": ("dumps/roothub-ehci-5.10.descriptors", "480", {"product": "EHCI Host Controller", "serial": "0000:00:1a.0"}, ["hub"]),
    "1-1": ("dumps/genesys-hub-0608.descriptors", "480", {"product": "USB2.0 Hub"}, ["hub"]),
    "1-1.1": ("dumps/matias-keyboard.descriptors", "12", {"manufacturer": "Matias", "product": "Ergo Pro Keyboard"}, ["usbhid", "usbhid"]),
    "1-1.4": ("dumps/yubico-security-key.descriptors", "12", {"manufacturer": "Yubico", "product": "Security Key by Yubico"}, ["usbhid"]),
    "1-2": ("dumps/sunplus-camera.descriptors", "480", {"product": "Integrated Camera"}, ["uvcvideo", "uvcvideo"]),
    "1-10": ("dumps/canon-sx200.descriptors", "480", {"manufacturer": "Canon Inc.", "product": "Canon Digital Camera"}, [""]),
    "usb2": ("dumps/superspeed-root-hub.descriptors", "5000", {}, ["hub"]),
    "3-1": ("dumps/realtek-5816.descriptors", "480", {"manufacturer": "Generic", "product": "Realtek USB2.0 Finger Print Bridge"}, []),
    "3-2": ("dumps/upektc-img.descriptors", "12", {"manufacturer": "UPEK", "product": "Biometric Coprocessor"}, []),
    "3-3": ("dumps/kensington-trackball.descriptors", "1.5", {"product": "Kensington Eagle Trackball"}, ["usbhid"]),
    # What steers a terminal, and is none of a line.
    "3-4": ("mistakes/05-nep.bin", "12", {"manufacturer": "\x1b[31mRed", "product": "two\nlines\u202e"}, ["usbhid"]),
    "3-5": ("mistakes/01-total-high.bin", "12", {}, []),
}
# A file as usb.ids.
IDS = """# A comment

0483  STMicroelectronics
\t5740  Virtual COM Port
\t\t00  An interface
1d6b  Linux Foundation
\t0002  2.0 root hub
\t0003  3.0 root hub
C 00  (Defined at Interface level)
\t5740  A subclass
"""


def write(path, data):
    os.makedirs(os.path.dirname(path), exist_ok=True)
    with open(path, "wb") as it:
        it.write(data if isinstance(data, bytes) else data.encode())


def made(room, testdata):
    """The folder, and beside it the file of names; gives both paths."""
    below = f"{room}/sys/bus/usb/devices"
    for bus_id, (name, speed, strings, drivers) in DEVICES.items():
        with open(f"{testdata}/{name}", "rb") as it:
            data = it.read()
        codes = {"idVendor": data[9:7:-1].hex(), "idProduct": data[11:9:-1].hex(), "speed": speed}
        for file, text in {**codes, **strings}.items():
            write(f"{below}/{bus_id}/{file}", f"{text}\n")
        write(f"{below}/{bus_id}/descriptors", data)
        for number, driver in enumerate(drivers):
            at = f"{below}/{bus_id}/{bus_id.replace('usb', '') + '-0' * bus_id.startswith('usb')}:1.{number}"
            os.makedirs(at)
            if driver:
                os.makedirs(f"{room}/sys/bus/usb/drivers/{driver}", exist_ok=True)
                os.symlink(f"../../../drivers/{driver}", f"{at}/driver")
    # As of the interfaces of a device.
    os.symlink("1-1.1/1-1.1:1.0", f"{below}/1-1.1:1.0")
    write(f"{room}/usb.ids", IDS)
    return f"{room}/sys", f"{room}/usb.ids"
