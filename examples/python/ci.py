"""ci.py < FILE: ends in 1 where a rule is broken, and in 2 where the bytes are no descriptors."""
import sys

import nozzlegorse as usb

try:
    found = usb.check(sys.stdin.buffer.read())
except usb.Fault as fault:
    print(fault)
    sys.exit(2)
for it in found:
    print(it)
sys.exit(bool(found))
