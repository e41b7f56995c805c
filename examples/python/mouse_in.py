"""mouse_in.py < FILE: the interrupt IN endpoint of the mouse."""
import sys

import nozzlegorse as usb

for it in usb.read(sys.stdin.buffer.read()).endpoints:
    if it.codes[::2] == (3, 2) and it.transfer_type == "interrupt" and it.direction == "in":
        print(f"interface {it.interface} endpoint {it.address:02x}, {it.max_packet_size} bytes, interval {it.interval}")
        break
else:
    sys.exit(1)
