"""The library's own ends on the bench: what judges other ends must find nothing in them."""
from nozzlegorse import Fault
from nozzlegorse.ends import Device, Host, Reply

# of a class and of a vendor, with data and without; descriptors that are not in the file
TALK = [(bytes.fromhex(it), "of the owner") for it in (
    "8106002200003400", "810600210000ff00", "2101000000000000", "210a000000000000", "a101000100000800", "c0ee000000000100",
    "4001000000000000", "80060003ff0900ff", "8006000a00000a00", "8000000000000200")]


def host(bus):
    """The proved host, as someone's."""
    with Host() as it:
        while (due := it.next()) != "ended":
            if due == "reset":
                bus.reset()
                it.reset_done()
            else:
                it.take(bus.send(due))
        try:
            return it.outcome()
        except Fault:
            return None


class Owned:
    """The proved device, with an owner who answers what it refuses; it is powered by itself at every second status."""

    def __init__(self, file):
        self.device, self.count = Device(file), 0

    def reset(self):
        self.device.reset()

    def transaction(self, it, ready):
        reply = self.device.serve(it, ready)
        if it.stage == "setup" and (request := self.device.refused()):
            self.answer(request)
        if it.stage == "setup":
            self.is_status, self.count = it.setup_bytes[:2] == b"\x80\0", self.count + 1
        if self.is_status and reply.kind == "data" and len(reply.data) == 2:
            return Reply("data", reply.toggle, bytes([reply.data[0] ^ self.count % 2, 0]))
        return reply

    def answer(self, request):
        try:
            if request[6] | request[7]:
                self.device.answer_with(bytes(range(20)))
            else:
                self.device.accept()
        except Fault as fault:
            if fault.name not in ("Closed", "Shape"):
                raise

    def acked(self):
        self.device.acked()
