"""Three requests over a bus that loses packets.

A reading of the rules of USB 2.0, chapters 8 and 9, that shares no code with the crates: a device with a stage, a host
with a stage, and a bus between them. The talk gives address 5 to a boot mouse with packets of 64 or of eight bytes,
asks it for its device descriptor, and configures it.
"""

REQUESTS = ["0005050000000000", "8006000100001200", "0009010000000000"]


def descriptor(packet):
    """The mouse's device descriptor, with this packet size."""
    return bytes.fromhex(f"12011001000000{packet:02x}34127856000100000001")


class Device:
    """Endpoint zero of the mouse. `stage` is idle, halted, sending, status_out, over or status_in."""

    def __init__(self, packet):
        self.packet = packet
        self.address, self.selected, self.stage, self.waits = 0, 0, "idle", False

    def begin(self, setup):
        kind, code = setup[0], setup[1]
        value, length = setup[2] | setup[3] << 8, setup[6] | setup[7] << 8
        if (kind, code) == (0x80, 6) and value == 0x0100:
            self.data, self.sent, self.one, self.limit = descriptor(self.packet)[:length], 0, True, length
            self.stage = "sending"
        elif (kind, code) == (0, 5) or (kind, code) == (0, 9) and self.address != 0:
            self.code, self.value, self.stage = code, value, "status_in"
        else:
            self.stage = "halted"

    def serve(self, address, token, ready):
        self.waits = False
        if address != self.address:
            return None
        if token[0] == "setup":
            self.begin(token[1])
            return "ack"
        if not ready:
            return "nak"
        if token == ("in",):
            if self.stage == "sending":
                self.waits = True
                return (self.one, self.data[self.sent:self.sent + self.packet])
            if self.stage == "status_in":
                self.waits = True
                if self.code == 9:
                    self.selected = self.value
                return (True, b"")
        elif self.stage in ("sending", "status_out", "over"):
            self.stage = "over"
            return "ack"
        self.stage = "halted"
        return "stall"

    def acked(self):
        if not self.waits:
            return
        self.waits = False
        if self.stage == "status_in":
            self.stage = "idle"
            if self.code == 5:
                self.address = self.value
            return
        packet = self.data[self.sent:self.sent + self.packet]
        self.sent += len(packet)
        self.one = not self.one
        if len(packet) < self.packet or self.sent == self.limit:
            self.stage = "status_out"


def transfer(device, address, setup, naks, fates, data=b""):
    """The transactions of one transfer, with these data to the device, and what came of it."""
    length = setup[6] | setup[7] << 8
    stage, one, got, strikes, busy, count = "setup", True, b"", 0, 0, 0
    while True:
        fate = next(fates, ".")
        out = data[:device.packet]
        token = {"setup": ("setup", setup), "data_out": ("out", one, out), "status_out": ("out", True, b"")}.get(stage, ("in",))
        answer = None
        if fate != "d":
            answer = device.serve(address, token, fate != "n")
            if isinstance(answer, tuple) and fate in ".n":
                device.acked()
        if fate == "u":
            answer = None
        count += 1
        if answer is None or (isinstance(answer, tuple) and stage != "setup" and answer[0] != (one if stage == "data" else True)):
            strikes += 1
            if strikes == 3:
                return count, "no answer"
        elif answer == "nak":
            busy += 1
            if busy > naks:
                return count, "busy"
        elif answer == "stall":
            return count, "stall"
        elif stage in ("status_in", "status_out"):
            return count, got
        else:
            strikes = busy = 0
            if stage == "setup":
                stage = "status_in" if not length else "data" if setup[0] & 0x80 else "data_out"
            elif stage == "data_out":
                data, one = data[len(out):], not one
                if not data:
                    stage = "status_in"
            else:
                got, one = got + answer[1], not one
                if len(answer[1]) < device.packet or len(got) == length:
                    stage = "status_out"


def talk(packet, requests, naks, fates, kind=Device):
    """How the talk ended, its transactions, what each transfer that completed brought, and the device. Those of a write have
    the data behind it."""
    device, address, fates, transactions, results = kind(packet), 0, iter(fates), 0, []
    for text in requests:
        setup, data = bytes.fromhex(text)[:8], bytes.fromhex(text)[8:]
        count, result = transfer(device, address, setup, naks, fates, data)
        transactions += count
        if result in ("no answer", "busy"):
            return result, transactions, results, device
        results.append(result)
        if setup[:2] == b"\x00\x05" and result == b"":
            address = setup[2]
        elif setup[:2] == b"\x80\x06" and result != descriptor(packet):
            raise SystemExit(f"{text} gives {result}")
    return "ended", transactions, results, device


TROUBLES = {"ended": 0, "no answer": 1, "busy": 2, "stall": 3}

# Vendor requests, which the device refuses and its owner answers: reads of so many bytes, and one without data.
ANSWERED = ["c001000000000100", "c001000000000800", "c001000000000900", "c001000000003f00", "4001000000000000"]
OWNERS = b"The owner of a device answers what its table of requests refuses"


class AnsweredDevice(Device):
    """The mouse with an owner who answers vendor requests."""

    def begin(self, setup):
        super().begin(setup)
        if self.stage == "halted" and setup[6]:
            self.data, self.sent, self.one, self.limit, self.stage = OWNERS[: setup[6]], 0, True, setup[6], "sending"
        elif self.stage == "halted":
            self.code, self.stage = setup[1], "status_in"


# SET_ADDRESS, SET_REPORT of nine bytes, and GET_REPORT, by which the device's owner gives them again.
WRITES = ["0005050000000000", "2109000200000900" + b"nine here".hex(), "a101000200000900"]


class WritingDevice(Device):
    """The mouse with an owner who takes the data of a write, once all have come, and gives them again."""

    def __init__(self, packet):
        super().__init__(packet)
        self.kept, self.times, self.is_write = b"", 0, False

    def begin(self, setup):
        super().begin(setup)
        self.is_write = self.stage == "halted" and setup[0] < 0x80 and setup[6] > 0
        if self.is_write:
            self.got, self.one, self.limit, self.stage = b"", True, setup[6], "receiving"
        elif self.stage == "halted" and setup[6]:
            self.data, self.sent, self.one, self.limit, self.stage = self.kept[: setup[6]], 0, True, setup[6], "sending"

    def serve(self, address, token, ready):
        takes = self.is_write and self.stage in ("receiving", "status_in")
        if address != self.address or token[0] != "out" or not ready or not takes:
            return super().serve(address, token, ready)
        self.waits = False
        _, one, data = token
        if self.stage == "status_in" or one != self.one:
            return "ack"
        if len(data) != min(self.packet, self.limit - len(self.got)):
            self.stage = "halted"
            return "stall"
        self.got, self.one = self.got + data, not self.one
        if len(self.got) == self.limit:
            self.kept, self.times, self.code, self.stage = self.got, self.times + 1, None, "status_in"
        return "ack"


def written(b, fates, naks):
    """What comes of three requests with a write among them: how often the owner was given its data, these, and what was read."""
    end, transactions, results, device = talk(b[7], WRITES, naks, fates, WritingDevice)
    kind = f"write, trouble {TROUBLES[end]}"
    read = results[2].hex() if len(results) == 3 and isinstance(results[2], bytes) else "none"
    told = f"transactions {transactions} replies {len(results)} address {device.address} writes {device.times}"
    return f"{kind} {told} bytes {device.kept.hex()} read {read}\n", kind


def answered(b, fates, naks):
    """What comes of each of these requests to a new device, and the kind of that."""
    for text in ANSWERED:
        count, result = transfer(AnsweredDevice(b[7]), 0, bytes.fromhex(text), naks, iter(fates))
        trouble = TROUBLES[result] if isinstance(result, str) else 0
        kind = f"answered, trouble {trouble}"
        yield f"{kind} transactions {count} bytes {'' if trouble else result.hex()}\n", kind


def case(b, fates, naks):
    """What comes of the three requests to a mouse, and the kind of that."""
    end, transactions, results, device = talk(b[7], REQUESTS, naks, fates)
    kind = f"talk, trouble {TROUBLES[end]}"
    return f"{kind} transactions {transactions} replies {len(results)} address {device.address} value {device.selected}\n", kind
