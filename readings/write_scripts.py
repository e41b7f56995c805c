"""Writes the scripts that are too long to be written by hand.

What must come of each step is worked out here from the tables of USB 2.0, chapter 9 and 8.5.3, over the bytes of
the descriptors, and not by the program that plays the scripts. It writes scripts/*.script.
"""

from readings import END_DATA

DEVICE = bytes.fromhex("12 01 00 02 00 00 00 08 34 12 78 56 00 01 01 02 00 02")


def configuration(kind, value, attributes, settings, text=0):
    body = b"".join(settings)
    interfaces = len({s[2] for s in settings})
    return bytes([9, kind]) + (9 + len(body)).to_bytes(2, "little") + bytes([interfaces, value, text, attributes, 50]) + body


def setting(number, alternate, *addresses):
    endpoints = b"".join(bytes([7, 5, a, 3, 8, 0, 10]) for a in addresses)
    return bytes([9, 4, number, alternate, len(addresses), 3, 0, 0, 0]) + endpoints


def string(text):
    return bytes([2 + 2 * len(text), 3]) + text.encode("utf-16-le")


# Two configurations. The first has remote wakeup and is self-powered; its interface 0 has two alternate settings with
# endpoint 81 in both, 82 in one and 02 in the other, its interface 1 has one. The second has neither.
FIRST = [setting(0, 0, 0x81, 0x82), setting(0, 1, 0x81, 0x02), setting(1, 0, 0x83)]
SECOND = [setting(0, 0)]
SETS = [configuration(2, 1, 0xE0, FIRST), configuration(2, 7, 0x80, SECOND)]
QUALIFIER = bytes.fromhex("0a 06 00 02 00 00 00 40 01 00")
OTHER_SETS = [configuration(7, 1, 0xE0, FIRST)]
LANGUAGES = [0x0409, 0x0407]
NAMED = [1, 2]
TEXTS = {(0x0409, 1): "Maker", (0x0409, 2): "Board", (0x0407, 1): "Werk", (0x0407, 2): "Brett 16"}
LANGUAGE_LIST = bytes([2 + 2 * len(LANGUAGES), 3]) + b"".join(l.to_bytes(2, "little") for l in LANGUAGES)
FILE = b"".join(
    [DEVICE, *SETS, QUALIFIER, *OTHER_SETS, LANGUAGE_LIST]
    + [string(TEXTS[(l, i)]) for l in LANGUAGES for i in NAMED]
)
PACKET = DEVICE[7]


def items(bytes_of_set):
    place = 0
    while place < len(bytes_of_set):
        length = bytes_of_set[place]
        yield bytes_of_set[place : place + length]
        place += length


class State:
    def __init__(self):
        self.address, self.selected, self.alternates, self.halts, self.wakeup = 0, 0, {}, set(), False

    def copy(self):
        other = State()
        other.address, other.selected, other.wakeup = self.address, self.selected, self.wakeup
        other.alternates, other.halts = dict(self.alternates), set(self.halts)
        return other

    def text(self):
        alternates = ",".join(f"{i}:{a}" for i, a in sorted(self.alternates.items()) if a) or "-"
        halts = sorted(self.halts, key=lambda e: (e >= 0x80, e & 15))
        halts = ",".join(f"{e:02x}" for e in halts) or "-"
        wakeup = "on" if self.wakeup else "off"
        return f"address={self.address} selected={self.selected} alternates={alternates} halts={halts} wakeup={wakeup}"

    def selected_set(self):
        return next((s for s in SETS if s[5] == self.selected), None)

    def settings(self):
        """The settings of the selected configuration: number, alternate, endpoint addresses."""
        found = []
        for item in items(self.selected_set() or b""):
            if item[1] == 4:
                found.append((item[2], item[3], []))
            if item[1] == 5:
                found[-1][2].append(item[2])
        return found

    def endpoints(self):
        return {e for n, a, es in self.settings() if self.alternates.get(n, 0) == a for e in es}


REFUSED = None


def descriptor(kind, index, language):
    if kind == 1 and index == 0:
        return DEVICE
    if kind == 2 and index < len(SETS):
        return SETS[index]
    if kind == 3 and index == 0:
        return LANGUAGE_LIST
    if kind == 3 and (language, index) in TEXTS:
        return string(TEXTS[(language, index)])
    if kind == 6 and index == 0:
        return QUALIFIER
    if kind == 7 and index < len(OTHER_SETS):
        return OTHER_SETS[index]
    return None


def answer(state, setup):
    """Bytes for the data stage, the next state, or a refusal."""
    kind, request = setup[0], setup[1]
    value, index, length = (int.from_bytes(setup[i : i + 2], "little") for i in (2, 4, 6))
    recipient = {0: "device", 1: "interface", 2: "endpoint"}.get(kind & 0x1F, "other")
    to_host = kind & 0x80 != 0
    if kind & 0x60:
        return REFUSED
    where = "D" if state.address == 0 else "A" if state.selected == 0 else "C"
    next_state = state.copy()

    def tells(*data):
        return bytes(data) if length == len(data) and to_host else REFUSED

    def does():
        return next_state if length == 0 else REFUSED

    if request == 6 and recipient == "device":
        found = descriptor(value >> 8, value & 255, index)
        if found is None:
            return REFUSED
        if length == 0:
            return state
        return found[:length] if to_host else REFUSED
    if request == 5 and recipient == "device" and where in "DA" and value < 128 and index == 0:
        next_state.address = value
        return does()
    if request == 8 and recipient == "device" and where in "AC" and value == 0 and index == 0:
        return tells(state.selected)
    if request == 9 and recipient == "device" and where in "AC" and index == 0 and value in [0] + [s[5] for s in SETS]:
        next_state.selected, next_state.alternates, next_state.halts = value, {}, set()
        return does()
    if request == 0 and value == 0:
        if recipient == "device" and where in "AC" and index == 0:
            shown = SETS[0] if where == "A" else state.selected_set()
            return tells((shown[7] >> 6 & 1) | (2 if state.wakeup else 0), 0)
        if recipient == "interface" and where == "C" and index in {n for n, _, _ in state.settings()}:
            return tells(0, 0)
        if recipient == "endpoint" and where in "AC" and index in (0, 0x80):
            return tells(0, 0)
        if recipient == "endpoint" and where == "C" and index in state.endpoints():
            return tells(1 if index in state.halts else 0, 0)
        return REFUSED
    if request in (1, 3):
        if recipient == "device" and where in "AC" and value == 1 and index == 0 and any(s[7] & 0x20 for s in SETS):
            next_state.wakeup = request == 3
            return does()
        if recipient == "endpoint" and where == "C" and value == 0 and index in state.endpoints():
            (next_state.halts.add if request == 3 else next_state.halts.discard)(index)
            return does()
        return REFUSED
    if request == 10 and recipient == "interface" and where == "C" and value == 0:
        if index in {n for n, _, _ in state.settings()}:
            return tells(state.alternates.get(index, 0))
    if request == 11 and recipient == "interface" and where == "C":
        if (index, value) in {(n, a) for n, a, _ in state.settings()}:
            next_state.alternates[index] = value
            next_state.halts -= {e for n, _, es in state.settings() if n == index for e in es}
            return does()
    return REFUSED


def packets(data, length):
    """The packets of a data stage of at most `length` bytes (8.5.3)."""
    cut = []
    while length > 0:
        cut.append(data[:PACKET])
        if len(data) < PACKET:
            return cut
        data, length = data[PACKET:], length - PACKET
    return cut


class Script:
    def __init__(self, name, title):
        self.name, self.lines = name, [f"# {title}", "# Written by readings/write_scripts.py.", ""]
        self.lines += [f"file {FILE.hex()} -> read", "speed full -> accepted"]
        self.begin()

    def begin(self):
        self.state, self.stage, self.waits, self.to = State(), ("idle",), False, 0

    def note(self, text):
        self.lines += ["", f"# {text}"]

    def say(self, step, outcome):
        self.lines.append(f"{step} -> {outcome}")

    def here(self, busy, outcome):
        """What comes of a transaction that isn't for this device, or for which it has no time."""
        if self.to != self.state.address:
            self.waits = False
            return "silence"
        if busy:
            self.waits = False
            return "nak"
        return outcome()

    def setup(self, setup, busy=False):
        setup = bytes.fromhex(setup) if isinstance(setup, str) else setup
        step = f"setup {setup.hex()}" + (" busy" if busy else "")
        if self.to != self.state.address:
            self.waits = False
            return self.say(step, "silence")
        found = answer(self.state, setup)
        self.waits = False
        if found is REFUSED:
            self.stage = ("halted",)
        elif isinstance(found, bytes):
            self.stage = ("sending", packets(found, int.from_bytes(setup[6:8], "little")), 0)
        else:
            self.stage = ("status in", setup, False)
        self.say(step, "ack")

    def stall(self):
        self.stage, self.waits = ("halted",), False
        return "stall"

    def token_in(self, busy=False):
        def outcome():
            if self.stage[0] == "sending":
                _, left, count = self.stage
                self.waits = True
                return f"data{1 - count % 2} " + (left[0].hex() or "-")
            if self.stage[0] == "status in":
                _, setup, done = self.stage
                if not done and setup[1] != 5:
                    self.state = answer(self.state, setup)
                self.stage, self.waits = ("status in", setup, True), True
                return "data1 -"
            return self.stall()

        self.say("in" + (" busy" if busy else ""), self.here(busy, outcome))

    def out(self, toggle, data="-", busy=False):
        def outcome():
            self.waits = False
            if self.stage[0] not in ("sending", "status out", "over"):
                return self.stall()
            if toggle == 0:
                return "ack"
            if data != "-":
                return self.stall()
            self.stage = ("over",)
            return "ack"

        self.say(f"out data{toggle} {data}" + (" busy" if busy else ""), self.here(busy, outcome))

    def acked(self):
        self.say("acked", "done")
        if not self.waits:
            return
        self.waits = False
        if self.stage[0] == "sending":
            _, left, count = self.stage
            self.stage = ("sending", left[1:], count + 1) if left[1:] else ("status out",)
        elif self.stage[0] == "status in":
            if self.stage[1][1] == 5:
                self.state = answer(self.state, self.stage[1])
            self.stage = ("idle",)

    def reset(self):
        self.begin()
        self.say("reset", "done")
        self.address(0)

    def address(self, to):
        self.to = to
        self.say(f"address {to}", "done")

    def tell(self):
        self.say("state", self.state.text())

    def transfer(self, setup):
        """A whole control transfer, nothing lost, and the state after it."""
        self.setup(setup)
        while self.stage[0] == "sending":
            self.token_in()
            self.acked()
        if self.stage[0] == "status out":
            self.out(1)
        else:
            self.token_in()
            self.acked()
        self.tell()

    def bring(self, state):
        """Into the Default, Address or Configured state."""
        self.reset()
        if state in "AC":
            self.transfer("00 05 05 00 00 00 00 00")
            self.address(5)
        if state == "C":
            self.transfer("00 09 01 00 00 00 00 00")

    def write(self):
        with open(f"{END_DATA}/scripts/{self.name}.script", "w") as out:
            out.write("\n".join(self.lines) + "\n")


def request(kind, code, value=0, index=0, length=0):
    return bytes([kind, code]) + b"".join(n.to_bytes(2, "little") for n in (value, index, length))


# Each request with right values, and then with each kind of wrong one.
REQUESTS = {
    "GET_STATUS of the device": [request(0x80, 0, 0, 0, 2), request(0x80, 0, 1, 0, 2), request(0x80, 0, 0, 1, 2),
        request(0x80, 0, 0, 0, 1), request(0x80, 0, 0, 0, 3), request(0x80, 0, 0, 0, 0), request(0x00, 0, 0, 0, 2)],
    "GET_STATUS of an interface": [request(0x81, 0, 0, 0, 2), request(0x81, 0, 0, 1, 2), request(0x81, 0, 0, 2, 2),
        request(0x81, 0, 0, 256, 2), request(0x81, 0, 1, 0, 2), request(0x81, 0, 0, 0, 1), request(0x81, 0, 0, 0, 3),
        request(0x81, 0, 0, 0, 0), request(0x01, 0, 0, 0, 2)],
    "GET_STATUS of an endpoint": [request(0x82, 0, 0, 0, 2), request(0x82, 0, 0, 0x80, 2), request(0x82, 0, 0, 0x81, 2),
        request(0x82, 0, 0, 0x82, 2), request(0x82, 0, 0, 0x02, 2), request(0x82, 0, 0, 0x83, 2),
        request(0x82, 0, 0, 0x01, 2), request(0x82, 0, 0, 0x181, 2), request(0x82, 0, 1, 0x81, 2),
        request(0x82, 0, 0, 0x81, 1), request(0x82, 0, 0, 0x81, 3), request(0x82, 0, 0, 0x81, 0), request(0x02, 0, 0, 0x81, 2)],
    "GET_STATUS of other recipients": [request(0x83, 0, 0, 0, 2), request(0x9F, 0, 0, 0, 2)],
    "CLEAR_FEATURE and SET_FEATURE of the device": [request(0, 3, 1), request(0, 1, 1), request(0x80, 3, 1), request(0, 3, 0),
        request(0, 3, 2), request(0, 3, 1, 1), request(0, 3, 1, 0, 1), request(0, 1, 0), request(0, 1, 2), request(0, 1, 1, 1),
        request(0, 1, 1, 0, 1)],
    "CLEAR_FEATURE and SET_FEATURE of an interface": [request(1, 3, 0), request(1, 1, 0)],
    "CLEAR_FEATURE and SET_FEATURE of an endpoint": [request(2, 3, 0, 0x81), request(2, 1, 0, 0x81), request(2, 3, 0, 0x02),
        request(2, 3, 0, 0), request(2, 3, 0, 0x80), request(2, 1, 0, 0), request(2, 3, 1, 0x81), request(2, 3, 0, 0x181),
        request(2, 3, 0, 0x01), request(2, 3, 0, 0x81, 1), request(0x82, 3, 0, 0x81), request(2, 1, 0, 0x80), request(2, 1, 1, 0x81),
        request(2, 1, 0, 0x181), request(2, 1, 0, 0x01), request(2, 1, 0, 0x81, 2)],
    "SET_ADDRESS": [request(0, 5, 9), request(0, 5, 127), request(0, 5, 0), request(0x80, 5, 9), request(0, 5, 128), request(0, 5, 256),
        request(0, 5, 9, 1), request(0, 5, 9, 0, 1), request(1, 5, 9), request(2, 5, 9)],
    "GET_DESCRIPTOR": [request(0x80, 6, 0x100, 0, 18), request(0x80, 6, 0x100, 0, 8), request(0x80, 6, 0x100, 0, 255),
        request(0x80, 6, 0x100, 7, 18), request(0x80, 6, 0x100, 0, 0), request(0x00, 6, 0x100, 0, 0),
        request(0x00, 6, 0x100, 0, 18), request(0x81, 6, 0x100, 0, 18), request(0x80, 6, 0x101, 0, 18),
        request(0x80, 6, 0x200, 0, 9), request(0x80, 6, 0x200, 0, 65535), request(0x80, 6, 0x201, 0, 255),
        request(0x80, 6, 0x202, 0, 255), request(0x80, 6, 0x300, 0, 255), request(0x80, 6, 0x301, 0x409, 255),
        request(0x80, 6, 0x302, 0x409, 255), request(0x80, 6, 0x301, 0x407, 255), request(0x80, 6, 0x302, 0x407, 255),
        request(0x80, 6, 0x301, 0x408, 255), request(0x80, 6, 0x301, 0, 255), request(0x80, 6, 0x303, 0x409, 255),
        request(0x80, 6, 0x600, 0, 10), request(0x80, 6, 0x601, 0, 10), request(0x80, 6, 0x700, 0, 255),
        request(0x80, 6, 0x701, 0, 255), request(0x80, 6, 0x400, 0, 9), request(0x80, 6, 0x000, 0, 9)],
    "SET_DESCRIPTOR": [request(0, 7, 0x100, 0, 18), request(0, 7, 0x100, 0, 0)],
    "GET_CONFIGURATION": [request(0x80, 8, 0, 0, 1), request(0x80, 8, 1, 0, 1), request(0x80, 8, 0, 1, 1),
        request(0x80, 8, 0, 0, 2), request(0x80, 8, 0, 0, 0), request(0, 8, 0, 0, 1), request(0x81, 8, 0, 0, 1)],
    "SET_CONFIGURATION": [request(0, 9, 1), request(0, 9, 7), request(0, 9, 0), request(0, 9, 2), request(0, 9, 257),
        request(0, 9, 1, 1), request(0, 9, 1, 0, 1), request(0x80, 9, 1), request(1, 9, 1)],
    "GET_INTERFACE": [request(0x81, 10, 0, 0, 1), request(0x81, 10, 0, 1, 1), request(0x81, 10, 0, 2, 1), request(0x81, 10, 0, 256, 1),
        request(0x81, 10, 1, 0, 1), request(0x81, 10, 0, 0, 2), request(0x81, 10, 0, 0, 0), request(0x80, 10, 0, 0, 1), request(1, 10, 0, 0, 1)],
    "SET_INTERFACE": [request(1, 11, 1, 0), request(1, 11, 0, 1), request(1, 11, 2, 0), request(1, 11, 1, 1), request(1, 11, 0, 2),
        request(1, 11, 256, 0), request(1, 11, 0, 256), request(1, 11, 1, 0, 1), request(0x81, 11, 1, 0), request(0, 11, 1, 0)],
    "SYNCH_FRAME, and requests that the standard doesn't define": [request(0x82, 12, 0, 0x81, 2), request(0, 2), request(0x80, 4, 0, 0, 1),
        request(0, 13)],
    "class and vendor requests": [request(0x21, 9, 0x200, 0, 1), request(0xA1, 1, 0x100, 0, 8), request(0x40, 5, 9), request(0xC0, 6, 0x100, 0, 18),
        request(0x60, 9, 1)],
}


def write_requests():
    for letter, name in (("D", "default"), ("A", "address"), ("C", "configured")):
        script = Script(f"requests-{name}", f"Every request in the {name.capitalize()} state (USB 2.0, 9.4).")
        for title, requests in REQUESTS.items():
            script.note(title)
            script.bring(letter)
            base = script.state.text()
            for setup in requests:
                script.transfer(setup)
                if script.state.text() != base:
                    script.bring(letter)
        script.write()


def write_features():
    script = Script("halts-and-alternates", "Halts, remote wakeup and alternate settings (USB 2.0, 9.4.1, 9.4.5, 9.4.9 and 9.4.10).")
    script.bring("C")
    script.note("remote wakeup shows in the status, and stays where a configuration is selected")
    for setup in (request(0, 3, 1), request(0x80, 0, 0, 0, 2), request(0, 9, 7), request(0x80, 0, 0, 0, 2), request(0, 9, 1), request(0, 1, 1),
        request(0x80, 0, 0, 0, 2)):
        script.transfer(setup)
    script.note("halts are those of single endpoints")
    for setup in (request(2, 3, 0, 0x81), request(2, 3, 0, 0x82), request(2, 3, 0, 0x83), request(0x82, 0, 0, 0x81, 2),
        request(2, 1, 0, 0x82), request(0x82, 0, 0, 0x82, 2), request(0x82, 0, 0, 0x83, 2)):
        script.transfer(setup)
    script.note("an alternate setting has its own endpoints; choosing one ends the halts of the interface alone")
    for setup in (request(2, 3, 0, 0x82), request(1, 11, 1, 0), request(0x81, 10, 0, 0, 1), request(0x82, 0, 0, 0x82, 2),
        request(0x82, 0, 0, 0x02, 2), request(0x82, 0, 0, 0x81, 2), request(0x82, 0, 0, 0x83, 2), request(2, 3, 0, 0x02),
        request(1, 11, 0, 0), request(0x81, 10, 0, 0, 1), request(0x82, 0, 0, 0x82, 2)):
        script.transfer(setup)
    script.note("selecting a configuration ends all halts and goes back to alternate setting 0")
    for setup in (request(1, 11, 1, 0), request(2, 3, 0, 0x02), request(2, 3, 0, 0x83), request(0, 9, 1), request(0x81, 10, 0, 0, 1),
        request(0x82, 0, 0, 0x83, 2)):
        script.transfer(setup)
    script.note("so does a bus reset, which ends everything else too")
    script.transfer(request(0, 3, 1))
    script.transfer(request(2, 3, 0, 0x81))
    script.reset()
    script.tell()
    script.write()


# Into each stage at the Configured state: the request, and how many packets are acknowledged.
STAGES = {
    "no transfer": None,
    "a refused request": (request(0x80, 6, 0x400, 0, 9), 0),
    "the first packet of a data stage": (request(0x80, 6, 0x100, 0, 18), 0),
    "the second packet of a data stage": (request(0x80, 6, 0x100, 0, 18), 1),
    "the empty packet that ends a data stage": (request(0x80, 6, 0x301, 0x407, 255), -1),
    "the status stage after a data stage": (request(0x80, 6, 0x100, 0, 18), 3),
    "the status stage of a request without data": (request(0, 3, 1), 0),
    "the status stage of SET_INTERFACE": (request(1, 11, 1, 0), 0),
}


def enter(script, stage):
    script.bring("C")
    if STAGES[stage] is None:
        return
    setup, count = STAGES[stage]
    script.setup(setup)
    if count < 0:
        count = 1
        setup = request(0x80, 6, 0x302, 0x407, 255)
    for _ in range(count):
        script.token_in()
        script.acked()


def write_stages():
    script = Script("stages", "Every stage of a control transfer against everything that a host can send (USB 2.0, 8.5.3).")
    sends = {
        "IN": lambda s: s.token_in(), "a busy IN": lambda s: s.token_in(busy=True), "OUT of DATA0": lambda s: s.out(0),
        "OUT of DATA0 with bytes": lambda s: s.out(0, "0102"), "an empty OUT of DATA1": lambda s: s.out(1),
        "OUT of DATA1 with a byte": lambda s: s.out(1, "00"), "a busy OUT": lambda s: s.out(1, busy=True),
        "SETUP": lambda s: s.setup("80 08 00 00 00 00 01 00"), "a busy SETUP": lambda s: s.setup("80 08 00 00 00 00 01 00", busy=True),
    }
    for stage in STAGES:
        for name, send in sends.items():
            script.note(f"{stage}: {name}")
            enter(script, stage)
            send(script)
            script.acked()
            script.token_in()
            script.acked()
            script.acked()
            script.out(1)
            script.token_in()
            script.tell()
    script.write()


def write_acks():
    script = Script("handshakes", "ACKs that count and ACKs that don't, lost packets and another address (USB 2.0, 8.6).")
    script.note("a packet is sent again until its ACK comes, and each ACK counts once")
    script.setup("80 06 00 01 00 00 12 00")
    for _ in range(2):
        script.token_in()
    script.acked()
    script.acked()
    script.token_in()
    script.note("an ACK after a NAK doesn't count, nor one after a transaction to another address")
    script.token_in(busy=True)
    script.acked()
    script.token_in()
    script.address(3)
    script.token_in()
    script.acked()
    script.setup("00 05 05 00 00 00 00 00")
    script.out(1)
    script.address(0)
    script.token_in()
    script.acked()
    script.token_in()
    script.note("the status stage says that the last packet came, where its ACK was lost")
    script.out(1)
    script.out(1)
    script.token_in()
    script.note("a SETUP in the midst of a transfer begins another one")
    script.setup("80 06 00 01 00 00 12 00")
    script.token_in()
    script.setup("80 06 00 03 00 00 ff 00")
    script.acked()
    script.token_in()
    script.acked()
    script.out(1)
    script.note("where the ACK of SET_ADDRESS is lost the device keeps its address, and the status stage can be had again")
    script.setup("00 05 05 00 00 00 00 00", busy=True)
    script.token_in(busy=True)
    script.token_in()
    script.tell()
    script.token_in()
    script.acked()
    script.tell()
    script.token_in()
    script.address(5)
    script.token_in()
    script.note("SET_CONFIGURATION is carried out before its ACK comes")
    script.setup("00 09 01 00 00 00 00 00")
    script.tell()
    script.token_in()
    script.tell()
    script.acked()
    script.tell()
    script.write()


if __name__ == "__main__":
    write_requests()
    write_features()
    write_stages()
    write_acks()
