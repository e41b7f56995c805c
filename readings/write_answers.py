"""Writes the scripts of answers beside a device's table (docs/control-transfers.md, "Requests beside the table").

What must come of each step is worked out here, over the table of write_scripts.py, and not by the program that plays
the scripts. It writes scripts/answers-*.script.
"""

from readings import END_DATA
from readings import write_scripts as table
from readings.write_scripts import REFUSED, State, request

ROOM = 512
LENGTHS = [0, 1, 8, 9, 63, 64, 512, 513]


def is_open(setup):
    """Class and vendor requests, and GET_DESCRIPTOR of what the file doesn't tell, with no data to the device."""
    kind = setup[0] >> 5 & 3
    if kind:
        return kind < 3
    recipient, descriptor = setup[0] & 31, setup[3]
    if length_of(setup) and not setup[0] & 0x80:
        return False
    return setup[1] == 6 and (recipient in (1, 2) or recipient == 0 and descriptor not in (1, 2, 6, 7))


def length_of(setup):
    return int.from_bytes(setup[6:8], "little")


def pattern(count):
    return bytes((7 * place + 1) % 251 for place in range(count))


def read_answers(name):
    """The lines of a file of answers that is right: the request's digits, and the words of its answer."""
    with open(f"{END_DATA}/answers/{name}", encoding="ascii") as file:
        lines = [line.split("#")[0].split() for line in file]
    return [(words[0], words[1:]) for words in lines if words]


class Script(table.Script):
    """A device whose owner answers. A halted stage has the request that is refused and not told, or None."""

    answers = ()

    def __init__(self, name, title, packet=8):
        self.packet, self.kept = packet, {}
        self.name, self.lines = name, [f"# {title}", "# Written by readings/write_answers.py.", ""]
        device = table.FILE[:7] + bytes([packet]) + table.FILE[8:]
        self.lines += [f"file {device.hex()} -> read", "speed full -> accepted"]
        self.begin()

    def packets(self, data, length):
        cut = [data[place : place + self.packet] for place in range(0, len(data), self.packet)]
        return cut + [b""] if len(data) < length and len(data) % self.packet == 0 else cut

    def setup(self, setup, busy=False):
        super().setup(setup, busy)
        if self.to != self.state.address:
            return
        if self.stage[0] == "halted":
            self.stage = ("halted", setup)
            self.ask_answers(setup)
        elif self.stage[0] == "sending":
            self.stage = ("sending", self.packets(table.answer(self.state, setup), length_of(setup)), 0)

    def ask_answers(self, setup):
        """An owner by a file, asked after each SETUP and after the packet that was the last one of a write: the first line that
        fits is its answer."""
        for digits, words in self.answers:
            if all(want in ("*", digit) for want, digit in zip(digits, setup.hex())):
                if words[0] in ("done", "taken"):
                    if (words[0] == "done") == (length_of(setup) == 0):
                        if self.stage[0] == "written":
                            self.kept[digits] = self.stage[2]
                        self.respond("done")
                else:
                    self.respond(self.kept.get(words[1], b"") if words[0] == "kept" else bytes.fromhex(words[0].strip("-")))
                return

    def stall(self):
        super().stall()
        self.stage = ("halted", None)
        return "stall"

    def waiting(self):
        return self.stage[1] if self.stage[0] == "halted" else None

    def respond(self, answer):
        """The number of the first reason why an answer isn't taken, or None: the stage is then what it makes of it."""
        if self.stage[0] == "written" and answer == "done":
            self.stage = ("status in", self.stage[1], False)
            return None
        setup = self.waiting()
        if setup is None:
            return 1
        if not is_open(setup):
            return 2
        length, gives = length_of(setup), answer != "done"
        if gives != (length > 0 and setup[0] >= 0x80):
            return 3
        if length > ROOM if setup[0] < 0x80 else gives and len(answer[:length]) > ROOM:
            return 4
        self.waits = False
        if gives:
            self.stage = ("sending", self.packets(answer[:length], length), 0)
        else:
            self.stage = ("receiving", setup, b"") if length else ("status in", setup, False)
        return None

    def toggle(self):
        """The toggle of the packet that is awaited: DATA1 first, and then the other one after each that was kept (8.5.3)."""
        return 1 - -(-len(self.stage[2]) // self.packet) % 2

    def out(self, toggle, data="-", busy=False):
        """OUT, by the table of the stages of a write; in other stages as before."""
        if self.stage[0] not in ("receiving", "written") and not self.is_accepted_write():
            return super().out(toggle, data, busy)

        def outcome():
            self.waits = False
            if self.stage[0] == "status in" or toggle != self.toggle():
                return "ack"
            if self.stage[0] == "written":
                return self.stall()
            _, setup, got = self.stage
            left, count = length_of(setup) - len(got), len(bytes.fromhex(data.strip("-")))
            if not (count == self.packet < left or count == left <= self.packet):
                return self.stall()
            got += bytes.fromhex(data)
            self.stage = ("written" if count == left else "receiving", setup, got)
            if count == left:
                self.ask_answers(setup)
            return "ack"

        self.say(f"out data{toggle} {data}" + (" busy" if busy else ""), self.here(busy, outcome))

    def is_accepted_write(self):
        return self.stage[0] == "status in" and length_of(self.stage[1]) > 0 and self.stage[1][0] < 0x80

    def refused(self):
        self.say("refused", self.waiting().hex() if self.waiting() else "none")

    def carried(self):
        done = self.stage[0] == "status in" and self.stage[2]
        self.say("carried", self.stage[1].hex() if done else "none")

    def give(self, data):
        number = self.respond(data)
        self.say(f"answer {data.hex() or '-'}", f"unanswered {number}" if number else "done")

    def accept(self):
        number = self.respond("done")
        self.say("accept", f"unanswered {number}" if number else "done")

    def token_in(self, busy=False):
        if self.stage[0] == "status in" and not self.stage[2] and table.answer(self.state, self.stage[1]) is REFUSED:
            # What an owner accepted changes nothing.
            def outcome():
                self.stage, self.waits = ("status in", self.stage[1], True), True
                return "data1 -"

            return self.say("in" + (" busy" if busy else ""), self.here(busy, outcome))
        return super().token_in(busy)

    def acked(self):
        if self.waits and self.stage[0] == "status in" and self.stage[1][0] & 0x7F:
            self.say("acked", "done")
            self.stage, self.waits = ("idle",), False
            return
        super().acked()

    def drain(self):
        """The rest of a transfer, nothing lost."""
        while self.stage[0] == "sending":
            self.token_in()
            self.acked()
        if self.stage[0] == "status out":
            self.out(1)
        else:
            self.token_in()
            self.carried()
            self.acked()
        self.refused()
        self.carried()


HID = bytes([0x81, 6, 0, 0x22, 0, 0, 12, 0])
IDLE = bytes([0x21, 10, 0, 0, 0, 0, 0, 0])


def write_stages():
    script = Script("answers-stages", "Which request stands refused, in each stage and state, and what an owner may do there.")
    for state in "DAC":
        script.note(f"no transfer, in state {state}")
        script.bring(state)
        script.refused()
        script.give(b"\x01")
        script.accept()
        for name, sends in {
            "a refused SETUP": [],
            "a NAK": [lambda: script.token_in(busy=True)],
            "a NAK of an OUT": [lambda: script.out(1, busy=True)],
            "an ACK that counts for nothing": [script.acked],
            "the STALL of an IN": [script.token_in],
            "the STALL of an OUT": [lambda: script.out(1)],
            "answers that aren't taken": [script.accept, script.accept],
            "an answer": [lambda: script.give(pattern(9))],
            "an answer, and a second one": [lambda: script.give(pattern(9)), lambda: script.give(pattern(3))],
            "the SETUP again after an answer": [lambda: script.give(pattern(9)), script.token_in, lambda: script.setup(HID)],
            "a SETUP of the table": [lambda: script.setup(request(0x80, 6, 0x100, 0, 18))],
            "a SETUP of the table without data": [lambda: script.setup(request(0, 5, 5 if state != "D" else 0))],
            "another refused SETUP": [lambda: script.setup(IDLE), script.refused, script.accept],
            "a bus reset": [script.reset],
        }.items():
            script.note(f"{name}, in state {state}")
            script.bring(state)
            script.setup(HID)
            for send in sends:
                send()
            script.refused()
            script.drain()
            script.tell()
        script.note(f"silence, in state {state}")
        script.bring(state)
        script.setup(HID)
        here = script.to
        script.address(9)
        script.token_in()
        script.setup(IDLE)
        script.refused()
        script.address(here)
        script.give(pattern(12))
        script.drain()
    script.note("a class request 5 that is accepted keeps the address; SET_ADDRESS itself does not")
    script.bring("D")
    script.setup(bytes([0x21, 5, 9, 0, 0, 0, 0, 0]))
    script.accept()
    script.carried()
    script.drain()
    script.tell()
    script.setup(request(0, 5, 9))
    script.carried()
    script.token_in()
    script.carried()
    script.tell()
    script.acked()
    script.carried()
    script.tell()
    script.note("the empty packet of an accepted request comes again until its ACK, and the request is carried out once")
    script.bring("C")
    script.setup(IDLE)
    script.accept()
    for _ in range(2):
        script.token_in()
        script.carried()
    script.setup(IDLE)
    script.carried()
    script.refused()
    script.accept()
    script.drain()
    script.note("a status of two bytes has nothing of the answer before it")
    script.setup(bytes([0xA1, 1, 0, 0, 0, 0, 63, 0]))
    script.give(pattern(63))
    script.drain()
    script.setup(request(0x80, 0, 0, 0, 2))
    script.refused()
    script.drain()
    script.write()


def write_kinds():
    script = Script("answers-kinds", "Which requests are open to an owner's answer, and which are not.")
    script.bring("C")
    setups = [bytes([kind, code, 0, 0, 0, 0, length, 0]) for kind in (0x20, 0x21, 0x22, 0x23, 0x3F, 0x40, 0x41, 0x60, 0x61) for code in (1, 5) for length in (0, 4)]
    setups += [bytes([setup[0] | 0x80, *setup[1:]]) for setup in setups]
    setups += [request(0x80, 6, kind << 8 | 9, 0, 4) for kind in (0, 1, 2, 3, 4, 5, 6, 7, 8, 15, 0x21, 0x22, 0xFF)]
    setups += [request(0x80 | recipient, 6, kind << 8 | 9, 0, 4) for recipient in (1, 2, 3, 4, 31) for kind in (1, 2, 6, 7, 0x22)]
    setups += [request(0, 6, 0xF00, 0, length) for length in (0, 4)] + [request(0x80, 6, 0xF00), request(1, 6, 0x2200), request(1, 6, 0x2200, 0, 4)]
    setups += [request(0, 7, 0x100, 0, 4), request(0x82, 12, 0, 0x81, 2), request(0, 3, 2, 0x100), request(0x80, 0, 0, 0, 1), request(1, 11, 9), request(0, 9, 9)]
    for setup in setups:
        script.note(f"{setup.hex()}: {'open' if is_open(setup) else 'closed'}")
        script.setup(setup)
        script.refused()
        script.give(pattern(4))
        script.accept()
        script.drain()
    script.tell()
    script.write()


def write_lengths(packet):
    script = Script(f"answers-lengths-{packet}", f"Answers of every length against every wLength, in packets of {packet} bytes.", packet)
    script.bring("A")
    for length in LENGTHS:
        for count in sorted({0, 1, packet, max(length - 1, 0), length, length + 1, 513}):
            if 512 in (length, count) and count < length - 1 and count > packet:
                continue
            script.note(f"wLength {length}, {count} bytes")
            script.setup(bytes([0xC0, 1, 0, 0, 0, 0]) + length.to_bytes(2, "little"))
            script.give(pattern(count))
            script.refused()
            if count == length:
                script.accept()
            script.drain()
        script.note(f"wLength {length} to the device")
        script.setup(bytes([0x40, 1, 0, 0, 0, 0]) + length.to_bytes(2, "little"))
        script.give(pattern(1))
        script.accept()
        script.drain()
    script.tell()
    script.write()


def write_files():
    script = Script("answers-files", "Files of answers, which the owner of a device answers from.")
    script.lines.insert(3, "answers board.txt -> no step")
    for name, line in [("short-request", 4), ("half-a-byte", 1), ("no-word", 2), ("half-a-value", 2), ("no-answer", 2), ("no-text", 2)]:
        script.say(f"answers {name}.txt", f"bad answers at line {line}")
    for name in ("none.txt", "../answers/board.txt", ".."):
        script.say(f"answers {name}", "no such answers")
    script.say("answers", "no step")
    script.bring("C")
    script.setup(HID)
    script.refused()
    script.say("answers board.txt", "done")
    script.refused()
    script.answers = read_answers("board.txt")
    for setup in [HID, bytes([0x81, 6, 0, 0x22, 1, 0, 12, 0]), bytes([0x81, 6, 0, 0x21, 0, 0, 9, 0]), IDLE,
                  bytes([0x21, 10, 7, 3, 1, 0, 0, 0]), bytes([0x21, 10, 7, 3, 1, 0, 1, 0]), bytes([0xA1, 1, 0, 0, 0, 0, 8, 0]),
                  bytes([0xA1, 1, 2, 1, 5, 1, 3, 0]), bytes([0xC0, 0x51, 0, 0, 0, 0, 1, 0]), bytes([0xC0, 0x51, 0, 0, 0, 0, 0, 0]),
                  bytes([0xC0, 0x52, 0, 0, 0, 0, 1, 0]), request(0x80, 6, 0x100, 0, 18), request(0x80, 0, 0, 0, 2)]:
        script.note(setup.hex())
        script.setup(setup)
        script.refused()
        script.drain()
    script.note("to another address, and with no time")
    script.address(9)
    script.setup(HID)
    script.refused()
    script.address(5)
    script.setup(HID, busy=True)
    script.token_in(busy=True)
    script.drain()
    script.note("a new device has none")
    script.say("speed full", "accepted")
    script.begin()
    script.answers = ()
    script.setup(HID)
    script.refused()
    script.write()


if __name__ == "__main__":
    write_stages()
    write_kinds()
    for size in (8, 64):
        write_lengths(size)
    write_files()
