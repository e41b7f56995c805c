"""A serial line that echoes: `python3 serial_line.py gadget-acm.file --speed high`, then read and write /dev/ttyACM0."""
from nozzlegorse import usbip


class SerialLine(usbip.Owner):
    coding = bytes.fromhex("80250000000008")  # 9,600 baud, 8 bits, no parity, one stop bit

    def request(self, setup, data):
        if setup[:2] == b"\x21\x20" and len(data) == 7:  # SET_LINE_CODING
            self.coding = data
            return True
        if setup[:2] == b"\xa1\x21":  # GET_LINE_CODING
            return self.coding
        return True if setup[:2] in (b"\x21\x22", b"\x21\x23") else None  # SET_CONTROL_LINE_STATE, SEND_BREAK

    def received(self, endpoint, data):
        self.send(0x81, data, ends=True)


if __name__ == "__main__":
    usbip.main(SerialLine)
