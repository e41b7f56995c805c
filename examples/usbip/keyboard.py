"""A keyboard whose lamps are lit: `python3 keyboard.py qemu-usb-keyboard.file --speed high`."""
from nozzlegorse import usbip

REPORT = bytes.fromhex("05010906a10175019508050719e029e715002501810295017508810195057501050819012905910295017503910195067508150025ff0507190029ff8100c0")
LAMPS = ("num lock", "caps lock", "scroll lock", "compose", "kana")


class Keyboard(usbip.Owner):
    def request(self, setup, data):
        if setup[:4] == b"\x81\x06\0\x22":  # GET_DESCRIPTOR of the report descriptor
            return REPORT
        if setup[:2] == b"\x21\x0a":  # SET_IDLE
            return True
        if setup[:4] == b"\x21\x09\0\x02" and len(data) == 1:  # SET_REPORT of the output report
            self.tell("lamps: " + (", ".join(it for bit, it in enumerate(LAMPS) if data[0] >> bit & 1) or "none"))
            return True
        return None


if __name__ == "__main__":
    usbip.main(Keyboard)
