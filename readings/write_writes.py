"""Writes the scripts of writes with data, at a device's end (docs/control-transfers.md).

What must come of each step is the table of stages, read by the owner's device of write_answers.py, and not by the program
that plays the scripts. It writes scripts/writes-*.script.
"""

from readings import write_answers as answers
from readings.write_answers import pattern
from readings.write_scripts import REFUSED, answer, request

LENGTHS = [1, 7, 8, 9, 16, 64, 65, 512]


def report(length):
    """SET_REPORT of so many bytes."""
    return request(0x21, 9, 0x0200, 0, length)


READ = request(0xA1, 1, 0x0100, 0, 9)
# Three packets of the device descriptor, and two of a string of the file, whose request is open to an owner.
TABLE = request(0x80, 6, 0x0100, 0, 18)
TEXT = request(0x80, 6, 0x0301, 0x0409, 12)


class Script(answers.Script):
    """A device whose owner takes the data of writes."""

    def __init__(self, name, title, packet=8):
        super().__init__(name, title, packet)
        self.lines[1] = "# Written by readings/write_writes.py."

    def setup(self, setup, busy=False):
        if self.to == self.state.address:
            self.request = setup
        super().setup(setup, busy)

    def written(self):
        is_whole = self.stage[0] == "written"
        self.say("written", f"{self.stage[1].hex()} {self.stage[2].hex()}" if is_whole else "none")

    def refuse(self):
        """STALL from then on, where the status stage of a request that the table refuses wasn't answered."""
        self.say("refuse", "done")
        is_answered = self.stage[0] in ("idle", "over") or self.stage[0] == "status in" and self.stage[2]
        if self.stage[0] == "halted" or not is_answered and answer(self.state, self.request) is REFUSED:
            self.stage = ("halted", None)

    def packet_out(self, toggle, count, busy=False):
        """OUT with the next so many bytes, and zeros past the last one."""
        got = self.stage[2] if self.stage[0] in ("receiving", "written") else b""
        data = pattern(answers.ROOM)[len(got) :][:count].ljust(count, b"\0")
        self.out(toggle, data.hex() or "-", busy)

    def begin_write(self, length, kept=0):
        """Into the stage in which so many packets are kept."""
        self.setup(report(length))
        self.accept()
        for _ in range(kept):
            self.go_on()

    def left(self):
        return answers.length_of(self.stage[1]) - len(self.stage[2])

    def go_on(self):
        self.packet_out(self.toggle(), min(self.packet, self.left()))

    def sizes(self):
        """Empty, short, what is due, full, and longer than each."""
        due = min(self.left(), self.packet)
        return sorted({0, 1, due, due + 1, self.packet, self.packet + 1})

    def ask(self):
        """What the owner is told."""
        self.refused()
        self.written()
        self.carried()

    def end(self):
        """The status stage, as far as there is one, and past it."""
        self.token_in()
        self.carried()
        self.acked()
        self.token_in()


def write_lengths(packet):
    script = Script(f"writes-lengths-{packet}", f"Writes of every length in packets of {packet} bytes, and packets that aren't due.", packet)
    script.bring("A")
    for length in LENGTHS:
        last = -(-length // packet) - 1
        script.note(f"{length} bytes; a packet with the other toggle is discarded, whatever it has")
        script.begin_write(length)
        for place in range(last + 1):
            script.written()
            for count in script.sizes() if place in (0, 1, last) else []:
                script.packet_out(1 - script.toggle(), count)
            script.go_on()
        script.ask()
        script.packet_out(1 - last % 2, 1)
        script.accept()
        for toggle in (1, 0):
            script.packet_out(toggle, 1)
        script.end()
        for place in sorted({0, min(1, last), last} if length < 512 else {0, 1}):
            script.begin_write(length, place)
            right = min(packet, script.left())
            for count in script.sizes():
                if count != right:
                    if script.stage[0] != "receiving":
                        script.begin_write(length, place)
                    script.note(f"{length} bytes, {place} packets kept, a packet of {count} where {right} are due")
                    script.packet_out(script.toggle(), count)
                    script.ask()
                    script.token_in()
        script.note(f"{length} bytes, which the owner refuses when all have come, and doesn't answer for")
        script.begin_write(length, last + 1)
        script.refuse()
        script.ask()
        script.token_in()
        if length < 512:
            script.begin_write(length, last + 1)
            script.token_in()
            script.accept()
            script.ask()
    script.note("513 bytes: more than the device keeps")
    script.setup(report(513))
    script.accept()
    script.ask()
    script.out(1, pattern(packet).hex())
    script.write()


# Into each stage, of transfers with data to the device, with data from it and without any.
STAGES = {
    "no transfer": lambda s: None,
    "a refused write": lambda s: s.setup(report(9)),
    "a refusal that was told": lambda s: (s.setup(report(9)), s.token_in()),
    "the first packet of a write": lambda s: s.begin_write(9),
    "the last packet of a write": lambda s: s.begin_write(9, 1),
    "all data, not answered": lambda s: s.begin_write(9, 2),
    "the status stage of a write": lambda s: (s.begin_write(9, 2), s.accept()),
    "the status stage of a write, answered": lambda s: (s.begin_write(9, 2), s.accept(), s.token_in()),
    "past the status stage of a write": lambda s: (s.begin_write(9, 2), s.accept(), s.token_in(), s.acked()),
    "a read that its owner answers": lambda s: (s.setup(READ), s.give(pattern(9))),
    "its first packet, without its ACK": lambda s: (s.setup(READ), s.give(pattern(9)), s.token_in()),
    "its second packet": lambda s: (s.setup(READ), s.give(pattern(9)), s.token_in(), s.acked()),
    "its status stage": lambda s: (s.setup(READ), s.give(pattern(1)), s.token_in(), s.acked()),
    "past its status stage": lambda s: (s.setup(READ), s.give(pattern(1)), s.token_in(), s.acked(), s.out(1)),
    "a descriptor": lambda s: s.setup(TABLE),
    "the second packet of a descriptor": lambda s: (s.setup(TABLE), s.token_in(), s.acked()),
    "the status stage of a descriptor": lambda s: (s.setup(TABLE), *[step() for _ in range(3) for step in (s.token_in, s.acked)]),
    "a string": lambda s: s.setup(TEXT),
    "the second packet of a string": lambda s: (s.setup(TEXT), s.token_in(), s.acked()),
    "the status stage of a string": lambda s: (s.setup(TEXT), *[step() for _ in range(2) for step in (s.token_in, s.acked)]),
    "a string of no bytes": lambda s: s.setup(request(0x80, 6, 0x0301, 0x0409)),
    "a descriptor after a read": lambda s: (s.setup(READ), s.give(pattern(9)), s.token_in(), s.setup(TABLE)),
    "a read after a descriptor": lambda s: (s.setup(TABLE), s.token_in(), s.setup(READ), s.give(pattern(9))),
    "the status stage of SET_CONFIGURATION": lambda s: s.setup(request(0, 9, 7)),
    "that, answered": lambda s: (s.setup(request(0, 9, 7)), s.token_in()),
}
# What is done there. Those that aren't about the owner are played in the stages of writes alone.
SENDS = {
    "IN": lambda s: s.token_in(),
    "a busy IN": lambda s: s.token_in(busy=True),
    "an OUT of the byte that is left": lambda s: s.packet_out(0, 1),
    "the same with the other toggle": lambda s: s.packet_out(1, 1),
    "a full OUT": lambda s: s.packet_out(1, 8),
    "the same with the other toggle ": lambda s: s.packet_out(0, 8),
    "an empty OUT of DATA1": lambda s: s.out(1),
    "an empty OUT of DATA0": lambda s: s.out(0),
    "a long OUT": lambda s: s.packet_out(1, 9),
    "a busy OUT": lambda s: s.packet_out(1, 8, busy=True),
    "an ACK": lambda s: s.acked(),
    "a SETUP of the table": lambda s: s.setup(request(0x80, 8, 0, 0, 1)),
    "the SETUP again": lambda s: s.setup(report(9)),
    "a transaction to another address": lambda s: (s.address(9), s.packet_out(1, 8), s.token_in(), s.address(5)),
    "a bus reset": lambda s: s.reset(),
}
BY_OWNER = {
    "refuse": lambda s: s.refuse(),
    "refuse, and OUT": lambda s: (s.refuse(), s.out(1)),
    "refuse, and an ACK": lambda s: (s.refuse(), s.acked()),
    "accept": lambda s: s.accept(),
    "an answer of one byte": lambda s: s.give(b"\x01"),
    "accept, and refuse": lambda s: (s.accept(), s.refuse()),
    "refuse, and accept": lambda s: (s.refuse(), s.accept()),
}


def write_stages():
    script = Script("writes-stages", "Each stage of a write against what a host sends, and each stage against what an owner does.")
    script.bring("C")
    for stage, enter in STAGES.items():
        sends = SENDS | BY_OWNER if "a write" in stage or stage == "all data, not answered" else BY_OWNER
        for name, send in sends.items():
            script.note(f"{stage}: {name.strip()}")
            enter(script)
            send(script)
            script.ask()
            if name == "a bus reset":
                script.bring("C")
                continue
            script.token_in()
            script.ask()
            script.acked()
            script.packet_out(0, 1)
    script.tell()
    script.write()


def write_files():
    script = Script("writes-files", "Files of answers with data to the device, and what they gave again.")
    script.bring("C")
    for name, line in [("taken-read", 1), ("kept-write", 2), ("kept-no-write", 2), ("kept-nothing", 1), ("bytes-to-device", 1), ("of-the-table", 3), ("too-long", 1)]:
        script.say(f"answers {name}.txt", f"bad answers at line {line}")
    script.say("answers writes.txt", "done")
    script.answers = answers.read_answers("writes.txt")
    reads = [request(0xA1, 0x21, 0, 0, 7), request(0xA1, 1, 0, 0, 64), request(0xA1, 2, 0, 0, 3)]
    writes = [(0x21, 0x20, 0, 7), (0x21, 9, 0x0200, 9), (0x21, 9, 0x0201, 1), (0x21, 9, 0x0200, 512), (0x21, 9, 0x0200, 513), (0x21, 0x22, 3, 0), (0x21, 0x22, 3, 1), (0x21, 0x30, 0, 4)]
    for setup in reads:
        script.setup(setup)
        script.drain()
    for kind, code, value, length in writes:
        script.note(f"{length} bytes, and what is given again")
        script.setup(request(kind, code, value, 0, length))
        while script.stage[0] == "receiving":
            script.go_on()
        script.ask()
        script.drain()
        for setup in reads:
            script.setup(setup)
            script.drain()
    script.note("a write that ends early is not kept")
    script.setup(report(9))
    script.go_on()
    script.drain()
    script.setup(reads[1])
    script.drain()
    script.write()


if __name__ == "__main__":
    for size in (8, 64):
        write_lengths(size)
    write_stages()
    write_files()
