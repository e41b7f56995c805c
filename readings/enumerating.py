"""A second reading of an enumeration: a device made of a descriptor file, a host, and a bus that loses packets.

It follows the tables of docs/control-transfers.md, over the bytes of the descriptors, and shares no
code with the crates. write_hosts.py beside it writes what must come by it.
"""

NO_ANSWER, BUSY, STALLED, TOO_LONG, UNEXPECTED, MALFORMED = range(1, 7)


def word(b, place):
    return b[place] | b[place + 1] << 8


# Descriptors -----------------------------------------------------------------------------------------------------------

LEAST = {4: 9, 5: 7, 11: 8}


def descriptors(b):
    """The descriptors of a set one after another, or None where bytes are no set."""
    if len(b) < 9 or b[0] < 9 or b[1] not in (2, 7) or word(b, 2) < b[0] or word(b, 2) != len(b):
        return None
    found, place, interface = [b[: b[0]]], b[0], False
    while place < len(b):
        length = b[place]
        if length < 2 or place + length > len(b):
            return None
        item = b[place : place + length]
        kind = item[1]
        if kind in (2, 7) or length < LEAST.get(kind, 2) or (kind == 5 and not interface):
            return None
        interface = interface or kind == 4
        found.append(item)
        place += length
    return found


def indices_of_set(b):
    """The string indices that stand in a set."""
    place_of = {2: 6, 7: 6, 4: 8, 11: 7}
    return {d[place_of[d[1]]] for d in descriptors(b) if d[1] in place_of}


def named(device, sets):
    """The string indices that are named, ascending."""
    indices = set(device[14:17])
    for b in sets:
        indices |= indices_of_set(b)
    return sorted(indices - {0})


def units(b):
    """The units of a string or a language list, or None where bytes are none."""
    if len(b) < 2 or b[0] != len(b) or b[1] != 3 or len(b) % 2:
        return None
    return [word(b, place) for place in range(2, len(b), 2)]


class File:
    """A descriptor file in its parts, read from bytes that are one."""

    def __init__(self, b):
        self.bytes, self.device, place = b, b[:18], 18
        self.sets, self.qualifier, self.other_sets, self.languages, self.strings = [], None, [], None, {}

        def sets(count):
            nonlocal place
            found = []
            for _ in range(count):
                found.append(b[place : place + word(b, place + 2)])
                place += len(found[-1])
            return found

        self.sets = sets(self.device[17])
        if place + 1 < len(b) and b[place + 1] == 6:
            self.qualifier = b[place : place + 10]
            place += 10
            self.other_sets = sets(self.qualifier[8])
        self.named = named(self.device, self.sets + self.other_sets)
        if self.named:
            self.languages = b[place : place + b[place]]
            place += b[place]
            for language in units(self.languages):
                for index in self.named:
                    self.strings[language, index] = b[place : place + b[place]]
                    place += b[place]
        assert place == len(b)

    def descriptor(self, value, index):
        """The descriptor that a request asks for, or None."""
        kind, number = value >> 8, value & 0xFF
        if kind == 3 and number:
            return self.strings.get((index, number))
        if kind in (2, 7):
            sets = self.sets if kind == 2 else self.other_sets
            return sets[number] if number < len(sets) else None
        return {1: self.device, 3: self.languages, 6: self.qualifier}.get(kind) if number == 0 else None


# The device's end ------------------------------------------------------------------------------------------------------


class Device:
    """Endpoint zero. `stage` is idle, halted, sending, status_out, over or status_in. It knows the requests that an
    enumerating host makes; others are refused."""

    def __init__(self, file):
        self.file, self.packet = file, file.device[7]
        self.reset()

    def reset(self):
        self.address, self.selected, self.stage, self.waits = 0, 0, "idle", False

    def begin(self, setup):
        kind, code = setup[0], setup[1]
        value, index, length = word(setup, 2), word(setup, 4), word(setup, 6)
        self.stage = "halted"
        if (kind, code) == (0x80, 6):
            found = self.file.descriptor(value, index)
            if found is not None and length:
                self.data, self.sent, self.one, self.limit = found[:length], 0, True, length
                self.stage = "sending"
        elif (kind, code) == (0, 5) and value < 128 and not index and not length and not self.selected:
            self.code, self.value, self.stage = code, value, "status_in"
        elif (kind, code) == (0, 9) and not index and not length and self.address:
            if value == 0 or value in [b[5] for b in self.file.sets]:
                self.code, self.value, self.stage = code, value, "status_in"

    def serve(self, address, token, ready=True):
        self.waits = False
        if address != self.address:
            return "silence"
        if token[0] == "setup":
            self.begin(token[1])
            return "ack"
        if not ready:
            return "nak"
        if token[0] == "in":
            if self.stage == "sending":
                self.waits = True
                return self.one, self.data[self.sent : self.sent + self.packet]
            if self.stage == "status_in":
                self.waits = True
                if self.code == 9:
                    self.selected = self.value
                return True, b""
        elif self.stage in ("sending", "status_out", "over"):
            self.stage = "over"
            return "ack"
        self.stage = "halted"
        return "stall"

    def acked(self):
        if not self.waits:
            return
        self.waits = False
        if self.stage == "status_in":
            self.stage = "idle"
            if self.code == 5:
                self.address = self.value
            return
        packet = self.data[self.sent : self.sent + self.packet]
        self.sent += len(packet)
        self.one = not self.one
        if len(packet) < self.packet or self.sent == self.limit:
            self.stage = "status_out"


# The host's end --------------------------------------------------------------------------------------------------------


class Transfer:
    """One control transfer. An answer is ack, nak, stall, silence or a pair of 'carries DATA1' and bytes."""

    def __init__(self, address, packet, naks, setup):
        self.address, self.packet, self.limit, self.setup = address, packet, naks, setup
        self.length = word(setup, 6)
        self.stage, self.one, self.got, self.strikes, self.naks = "setup", True, b"", 0, 0

    def token(self):
        if self.stage == "setup":
            return ("setup", self.setup)
        return ("in",) if self.stage in ("data", "status_in") else ("out",)

    def strike(self):
        self.strikes += 1
        return NO_ANSWER if self.strikes == 3 else None

    def progress(self, stage):
        self.stage, self.strikes, self.naks = stage, 0, 0

    def take(self, answer):
        """None where the transfer goes on, 0 where it has completed, else why it has failed."""
        if answer == "silence":
            return self.strike()
        if answer == "nak" and self.stage != "setup":
            self.naks += 1
            return BUSY if self.naks > self.limit else None
        if self.stage == "setup":
            if answer != "ack":
                return UNEXPECTED
            self.progress("data" if self.length else "status_in")
            return None
        if answer == "stall":
            return STALLED
        if self.stage == "status_out":
            return 0 if answer == "ack" else UNEXPECTED
        if answer == "ack":
            return UNEXPECTED
        one, b = answer
        if self.stage == "status_in":
            return TOO_LONG if b else 0 if one else self.strike()
        if len(b) > self.packet:
            return TOO_LONG
        if one != self.one:
            return self.strike()
        if len(self.got) + len(b) > self.length:
            return TOO_LONG
        self.got, self.one = self.got + b, not self.one
        self.progress("status_out" if len(b) < self.packet or len(self.got) == self.length else "data")
        return None


def get(kind, number, language, length):
    return bytes([0x80, 6, number, kind]) + language.to_bytes(2, "little") + length.to_bytes(2, "little")


class Host:
    """An enumerating host. `due` is reset, send or ended."""

    def __init__(self, speed="full", address=1, naks=16, attempts=3, strings="needed", other_speed=True):
        self.speed, self.address, self.limit, self.attempts = speed, address, naks, attempts
        self.strings, self.other_speed, self.forgiven = strings, other_speed, []
        self.resets, self.transactions, self.due, self.outcome = 0, 0, "reset", None

    def reset_done(self):
        if self.due == "reset":
            self.resets += 1
            self.forgiven = []
            self.due = "send"
            self.steps = self.order()
            self.step, self.transfer = next(self.steps)

    def begin(self, step, setup, address=None, packet=None):
        address = self.address if address is None else address
        return step, Transfer(address, packet or self.first[7], self.limit, setup)

    def order(self):
        """The reads of an attempt: each is a step with its transfer, and is told what came of it, bytes or None where
        it was stalled. Raises ValueError at the step whose read is malformed."""
        self.first = b""
        b = yield self.begin("first", get(1, 0, 0, 8), 0, 8)
        sizes = {"low": [8], "full": [8, 16, 32, 64], "high": [64]}[self.speed]
        if len(b) != 8 or b[0] != 18 or b[1] != 1 or b[7] not in sizes:
            raise ValueError
        self.first = b
        yield self.begin("address", bytes([0, 5, self.address, 0, 0, 0, 0, 0]), 0)
        device = yield self.begin("device", get(1, 0, 0, 18))
        if len(device) != 18 or device[:2] != b"\x12\x01" or device[:8] != b or device[17] == 0:
            raise ValueError
        sets = yield from self.read_sets("", 2, device[17])
        qualifier, other_sets = b"", []
        if self.other_speed and word(device, 2) >= 0x0200 and self.speed != "low":
            qualifier = yield self.begin("qualifier", get(6, 0, 0, 10))
            if qualifier is None:
                qualifier = b""
            elif len(qualifier) != 10 or qualifier[:2] != b"\x0a\x06":
                raise ValueError
            else:
                other_sets = yield from self.read_sets("other_", 7, qualifier[8])
        indices = named(device, sets + other_sets)
        self.lacks_strings = self.strings == "skipped" and indices != []
        indices = [] if self.lacks_strings else indices
        strings = yield from self.read_strings(indices)
        yield self.begin("configure", bytes([0, 9, sets[0][5], 0, 0, 0, 0, 0]))
        self.read = device + b"".join(sets) + qualifier + b"".join(other_sets) + strings

    def read_sets(self, part, kind, count):
        sets = []
        for i in range(count):
            header = yield self.begin(f"{part}header {i}", get(kind, i, 0, 9))
            if len(header) != 9 or header[0] < 9 or header[1] != kind or word(header, 2) < header[0]:
                raise ValueError
            total = word(header, 2)
            b = yield self.begin(f"{part}set {i}", get(kind, i, 0, total))
            if len(b) != total or descriptors(b) is None or b[1] != kind or (kind == 2 and i == 0 and b[5] == 0):
                raise ValueError
            sets.append(b)
        return sets

    def read_strings(self, indices):
        if not indices:
            return b""
        languages = yield from self.read_string("languages", get(3, 0, 0, 255), b"\x04\x03\x09\x04", units)
        read = languages
        for language in units(languages):
            for index in indices:
                step = f"text {language:04x} {index:02x}"
                is_string = lambda b: units(b) is not None
                read += yield from self.read_string(step, get(3, index, language, 255), b"\x02\x03", is_string)
        return read

    def read_string(self, step, setup, stand_in, is_right):
        """What came, or the stand-in where strings may be missing and this one was stalled or is none."""
        b = yield self.begin(step, setup)
        if b is not None and is_right(b):
            return b
        if self.strings != "wanted":
            raise ValueError
        self.forgiven.append((STALLED if b is None else MALFORMED, step))
        return stand_in

    def end(self, outcome):
        self.due, self.outcome = "ended", outcome

    def take(self, answer):
        if self.due != "send":
            return
        self.transactions += 1
        why = self.transfer.take(answer)
        if why is None:
            return
        if why in (NO_ANSWER, BUSY) and self.resets < self.attempts:
            self.due = "reset"
        elif why and not (why == STALLED and self.may_be_stalled()):
            self.end(why)
        else:
            try:
                self.step, self.transfer = self.steps.send(None if why else self.transfer.got)
            except ValueError:
                self.end(MALFORMED)
            except StopIteration:
                self.end(0)

    def may_be_stalled(self):
        return self.step == "qualifier" or self.strings == "wanted" and self.step.split()[0] in ("languages", "text")

    def result(self):
        """The outcome in words, with the attempts and the transactions."""
        words = f"trouble {self.outcome} {self.step}" if self.outcome else "success"
        return f"{words} attempts {self.resets} transactions {self.transactions}"


# Both ends -------------------------------------------------------------------------------------------------------------


def enumerate_device(device, host, fates="", served=None):
    """An enumeration over a bus with these fates, one a transaction; all pass after the last. A device that lies is a
    function of the step, the token and the honest answer."""
    fates = iter(fates)
    while host.due != "ended":
        if host.due == "reset":
            device.reset()
            host.reset_done()
            continue
        fate, token = next(fates, "."), host.transfer.token()
        answer = "silence"
        if fate != "d":
            answer = device.serve(host.transfer.address, token, fate != "n")
            if isinstance(answer, tuple) and fate in ".n":
                device.acked()
            if fate == "u":
                answer = "silence"
        if served:
            answer = served(host, token, answer)
        host.take(answer)
    return host
