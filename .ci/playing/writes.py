"""A write by the Python package, packet by packet, and a transfer of the same request, which has no data.

    .ci/playing/writes.py    with NOZZLEGORSE_LIBRARY and PYTHONPATH=python
"""
from nozzlegorse.ends import Device, Reply, Transfer, Write
from nozzlegorse import build
from nozzlegorse.faults import Fault

FILE = build("device 0110 00 00 00 08 1234 5678 0100 00 00 00 01\nconfiguration 01 01 00 80 32 -\ninterface 00 00 00 ff 00 00 00 -\n")
# SET_LINE_CODING of a device at address 5, and of nine bytes, in packets of eight
CODING, LONGER = bytes.fromhex("2120000000000700"), bytes.fromhex("2120000000000900")
DATA = bytes(range(1, 10))


def sent(write, data):
    """What a write sends, where each packet is acknowledged."""
    lines = []
    while due := write.next(data):
        lines.append(str(due))
        write.take(Reply("data", 1) if due.stage == "in" else Reply("ack"))
    return lines


def refused(call):
    try:
        call()
    except Fault as fault:
        return fault.kind, fault.name
    return None


write = Write(LONGER, 5, 8)
assert sent(write, DATA) == ["5 SETUP 2120000000000900", "5 OUT DATA1 0102030405060708", "5 OUT DATA0 09", "5 IN"] and write.ended == "complete"
write = Write(CODING, 5)
assert refused(lambda: write.next(DATA)) == ("bad_argument", "data") and write.ended is None
assert refused(lambda: Write(bytes.fromhex("8006000100001200"))) == ("bad_argument", "request")
assert refused(lambda: Write(bytes.fromhex("0009010000000000"))) == ("bad_argument", "request")

transfer = Transfer(CODING, 5)
transfer.take(Reply("ack"))
assert str(transfer.next()) == "5 OUT DATA1 empty"
transfer.take(Reply("ack"))
assert transfer.ended == "Unexpected"
transfer.take(Reply("data", 1, b""))
assert transfer.ended == "Unexpected" and transfer.next() is None

write = Write(LONGER, 0, 8)
with Device(FILE) as device:
    while due := write.next(DATA):
        reply = device.serve(due)
        if reply.kind == "data":
            device.acked()
        write.take(reply)
        if device.refused() or device.written() == (LONGER, DATA):
            device.accept()
    assert write.ended == "complete"
print("writes: a write of Python sends its data, a transfer none")
