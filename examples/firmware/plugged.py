"""The firmware as a mouse of this Linux, by USB/IP:

    PYTHONPATH=examples/firmware:python FIRMWARE=mouse.elf python3 -m plugged [PORT]

It prints what attaches it. Its descriptors are those that a host of the library reads first.
"""

import sys
import threading

from in_qemu import Firmware, enumerated
from nozzlegorse import ends, usbip

# How often a host asks endpoint 1: bInterval, in seconds.
INTERVAL = 0.01
ADDRESS = 5


class Mouse(usbip.Owner):
    """Endpoint 1, which the firmware is asked for as long as Linux waits for a report."""

    def waiting(self, endpoint, size):
        threading.Timer(INTERVAL, self.plug.run, [lambda: self.ask(endpoint, size)]).start()

    def ask(self, endpoint, size):
        report = self.plug.firmware.report(self.plug.address)
        if report:
            self.send(endpoint, report)
        elif self.plug.client:
            self.waiting(endpoint, size)


class Plugged(usbip.Plug):
    """The firmware at its bus: control transfers by the library's end of a host, whose ACK of each packet it is given."""

    def __init__(self, firmware, tell):
        super().__init__(enumerated(firmware), Mouse(), tell=tell)
        self.firmware, self.address = firmware, 0

    def reset(self):
        super().reset()
        self.firmware.reset()
        self.address = 0

    def transfer(self, setup, data):
        is_write = setup[0] < 0x80 and any(setup[6:8])
        it, more = (ends.Write, [data]) if is_write else (ends.Transfer, [])
        transfer = it(setup, self.address, self.file[7])
        while due := transfer.next(*more):
            reply = self.firmware.transaction(due, True)
            if reply.kind == "data":
                self.firmware.acked()
            transfer.take(reply)
        if transfer.ended != "complete":
            return None
        if setup[:2] == bytes([0, ADDRESS]):
            self.address = setup[2]
        return transfer.data


def main():
    bridge, firmware = usbip.Bridge([]), Firmware()
    plug = Plugged(firmware, bridge.tell)
    plug.run = bridge.worker()
    bridge.plugs.append(plug)
    port = bridge.listen(usbip.Client, int(sys.argv[1]) if sys.argv[1:] else 3240)
    bridge.tell(f"sudo modprobe vhci_hcd; sudo usbip --tcp-port {port} attach -r 127.0.0.1 -b 1-1")
    try:
        while True:
            bridge.step()
    except KeyboardInterrupt:
        pass
    finally:
        bridge.close()


if __name__ == "__main__":
    main()
