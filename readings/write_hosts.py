"""Writes the scripts that say what an enumerating host does, answer by answer, by the second reading of
enumerating.py. It writes hosts/*.script."""

import os

from readings import END_DATA
from readings.enumerating import Device, File, Host, named, units
from readings.descriptors import listing

SET = bytes.fromhex("09022200010100a032 0904000001030102 00 092110010001223400 0705810304000a")
DEVICE = bytes.fromhex("12 01 10 01 00 00 00 40 34 12 78 56 00 01 00 00 00 01")
MOUSE = DEVICE + SET
SMALL_PACKETS = MOUSE[:7] + b"\x08" + MOUSE[8:]
EVERYTHING = b"".join(
    [
        bytes.fromhex("12 01 00 02 00 00 00 40 34 12 78 56 00 01 00 01 00 01") + SET,
        bytes.fromhex("0a 06 00 02 00 00 00 40 01 00") + SET[:1] + b"\x07" + SET[2:],
        bytes.fromhex("04 03 09 04 0c 03 4d 00 6f 00 75 00 73 00 65 00"),
    ]
)


def answer_text(answer):
    if isinstance(answer, str):
        return answer
    one, data = answer
    return f"data{int(one)} {data.hex() or '-'}"


def due_text(host):
    if host.due == "reset":
        return "reset"
    if host.due == "ended":
        return host.result()
    token = host.transfer.token()
    words = {"setup": lambda: "setup " + token[1].hex(), "in": lambda: "in", "out": lambda: "out data1 -"}
    return f"send {host.transfer.address} {words[token[0]]()}"


class Script:
    """The lines of a script, with what must come of each."""

    def __init__(self, title):
        self.lines = [f"# {title}", "# Written by write_hosts.py, a second reading of docs/control-transfers.md."]

    def host(self, about, speed="full", address=1, naks=16, attempts=3, strings=None, other_speed=None):
        """A host that asks for everything, where nothing else is said of strings or of the other speed."""
        host = Host(speed, address, naks, attempts, strings or "needed", other_speed != "no")
        words = f"host {speed} address {address} naks {naks} attempts {attempts}"
        words += f" strings {strings}" if strings else ""
        words += f" other_speed {other_speed}" if other_speed else ""
        self.lines += ["", f"# {about}", f"{words} -> {due_text(host)}"]
        return host

    def answer(self, host, answer):
        host.take(answer)
        self.lines.append(f"{answer_text(answer)} -> {due_text(host)}")

    def reset_done(self, host):
        host.reset_done()
        self.lines.append(f"reset_done -> {due_text(host)}")

    def play(self, about, file, served=None, more=(), read=None, **limits):
        """A host and a device of this file to the end, and then these further answers, which change nothing. What is read
        is the file, or these bytes."""
        host, device = self.host(about, **limits), Device(File(file))
        while host.due != "ended":
            if host.due == "reset":
                device.reset()
                self.reset_done(host)
                continue
            answer = device.serve(host.transfer.address, host.transfer.token())
            if isinstance(answer, tuple):
                device.acked()
            self.answer(host, served(host, answer) if served else answer)
        self.ended(host, file if read is None else read)
        if {"strings", "other_speed"} & set(limits):
            self.forgiven(host)
        for answer in more:
            self.answer(host, answer)
        return host

    def forgiven(self, host):
        troubles = ", ".join(f"{why} {step}" for why, step in host.forgiven)
        self.lines.append(f"forgiven -> {troubles or 'none'}")

    def ended(self, host, file):
        if host.outcome == 0:
            assert host.read == file
            lines = listing_of(host, file)
            for number, line in enumerate(lines, 1):
                self.lines.append(f"listing {number} -> {line}")
            self.lines.append(f"listing {len(lines) + 1} -> none")

    def write(self, name):
        with open(f"{END_DATA}/hosts/{name}.script", "w", encoding="ascii") as target:
            target.write("\n".join(self.lines) + "\n")


def listing_of(host, b):
    """The lines of what a host read. Without its strings a file lists as with them, but for these."""
    if host.strings != "skipped":
        return listing("file", b).splitlines()
    count = len(named_in(b))
    stood_for = b"\4\3\x09\4" + count * b"\2\3" if count else b""
    lines = listing("file", b + stood_for).splitlines()
    return [line for line in lines if line.split()[0] not in ("languages", "string")]


def named_in(b):
    """The indices that are named in the bytes of a file without its strings."""
    device, sets, place = b[:18], [], 18
    while place < len(b):
        length = 10 if b[place + 1] == 6 else b[place + 2] | b[place + 3] << 8
        sets += [b[place : place + length]] if b[place + 1] != 6 else []
        place += length
    return named(device, sets)


def lies(step, change):
    """A device that answers a data packet of this step otherwise: `change` is given its bytes."""

    def served(host, answer):
        if host.step == step and isinstance(answer, tuple) and answer[1]:
            return answer[0], change(answer[1])
        return answer

    return served


def at(step, stage, answer):
    """A device that answers so in this stage of this step."""
    return lambda host, honest: answer if host.step == step and host.transfer.stage == stage else honest


def with_bytes(changes):
    """These bytes written over, each at its place."""

    def change(b):
        b = bytearray(b)
        for place, value in changes.items():
            b[place] = value
        return bytes(b)

    return change


def whole():
    s = Script("A host that reads a whole device.")
    s.play("A mouse at full speed: sixteen answers.", MOUSE, more=["ack", "nak", "stall", "silence", (True, b"")])
    s.play("Everything that a device can tell, at high speed.", EVERYTHING, speed="high")
    s.play("The same at full speed, with the address 127.", EVERYTHING, address=127)
    s.play("Packets of eight bytes at low speed.", SMALL_PACKETS, speed="low")
    s.play("bcdUSB 0200 and no second speed: the qualifier is stalled.", MOUSE[:2] + b"\x00\x02" + MOUSE[4:])
    s.play("The same at low speed: it isn't asked for.", SMALL_PACKETS[:2] + b"\x00\x02" + SMALL_PACKETS[4:], speed="low")
    status = lambda host, honest: "stall" if host.step == "qualifier" and host.transfer.stage == "status_out" else honest
    s.play("A qualifier that is stalled in its status stage is none, whatever came of it.", EVERYTHING_BUT_SECOND, lambda h, a: (True, QUALIFIER) if h.step == "qualifier" and h.transfer.stage == "data" else status(h, a))
    association = bytes.fromhex("09022300020100 8032 080b000202020100 090400000002020100 09040100000a000000")
    s.play("A set with an association.", DEVICE + association)
    two = DEVICE[:17] + b"\x02" + SET + SET[:5] + b"\x02" + SET[6:]
    s.play("Two configurations: the first one's value is chosen.", two)
    s.play("Two languages and two strings: language by language.", TWO_LANGUAGES)
    s.play("126 languages, as many as a list can have.", MANY_LANGUAGES)
    s.write("whole")


QUALIFIER = bytes.fromhex("0a 06 00 02 00 00 00 40 01 00")
EVERYTHING_BUT_SECOND = EVERYTHING[:52] + EVERYTHING[96:]
TWO_LANGUAGES = b"".join(
    [
        DEVICE[:14] + b"\x01\x00\x02\x01" + SET,
        bytes.fromhex("06 03 09 04 07 04 04 03 41 00 04 03 42 00 04 03 43 00 04 03 44 00"),
    ]
)
MANY_LANGUAGES = b"".join(
    [
        DEVICE[:14] + b"\x01\x00\x00\x01" + SET,
        b"\xfe\x03" + b"".join(language.to_bytes(2, "little") for language in range(0x0401, 0x0401 + 126)),
        *(bytes([4, 3, 0x41 + number % 26, 0]) for number in range(126)),
    ]
)


def hostile():
    s = Script("Devices that keep no rule.")
    for about, answers in [
        ("STALL always.", lambda stage: "stall"),
        ("NAK always.", lambda stage: "nak"),
        ("ACK always.", lambda stage: "ack"),
        ("Silence always.", lambda stage: "silence"),
        ("ACK to SETUP, and DATA0 to IN.", lambda stage: "ack" if stage == "setup" else (False, DEVICE[:8])),
        ("ACK to SETUP, and NAK to IN.", lambda stage: "ack" if stage == "setup" else "nak"),
        ("ACK to SETUP, and STALL to IN.", lambda stage: "ack" if stage == "setup" else "stall"),
        ("ACK to SETUP, and nine bytes to IN.", lambda stage: "ack" if stage == "setup" else (True, DEVICE[:9])),
    ]:
        s.play(about, MOUSE, lambda host, honest: answers(host.transfer.stage))
    s.play("Another class in the 18 bytes than in the first 8.", MOUSE, lies("device", with_bytes({4: 0xFF})))
    s.play("Silence always, with one attempt.", MOUSE, lambda host, honest: "silence", attempts=1)
    s.play("Silence always, with eight attempts.", MOUSE, lambda host, honest: "silence", attempts=8)
    s.play("NAK to IN always, where no NAK is borne.", MOUSE, lambda h, a: "nak" if h.transfer.stage == "data" else a, naks=0)
    s.play("A file of an attempt that failed is dropped: silence at the last step of the first attempt.", MOUSE, Silent("configure", 1))
    s.play("NAKs in the second attempt, more than are borne.", EVERYTHING, Naks("text 0409 01", 1, 3), naks=2)
    s.write("hostile")


class Silent:
    """Silence at a step in so many attempts."""

    def __init__(self, step, attempts):
        self.step, self.attempts = step, attempts

    def __call__(self, host, honest):
        return "silence" if host.step == self.step and host.resets <= self.attempts else honest


class Naks:
    """So many NAKs to the first IN of a step in the first attempts. The device must not be asked meanwhile, so the
    honest answer is kept until it is given."""

    def __init__(self, step, attempts, naks):
        self.step, self.attempts, self.naks = step, attempts, naks

    def __call__(self, host, honest):
        mine = host.step == self.step and host.resets <= self.attempts and host.transfer.stage == "data"
        if mine and self.naks:
            self.naks -= 1
            return "nak"
        return honest


def malformed():
    s = Script("One read that is malformed for each reason that there is.")

    def lie(about, step, change, file=EVERYTHING, **limits):
        host = s.play(about, file, lies(step, change), **limits)
        assert host.outcome in (4, 6) and host.step == step, (about, host.result())

    lie("First: seven bytes.", "first", lambda b: b[:7])
    lie("First: bLength isn't 18.", "first", with_bytes({0: 17}))
    lie("First: another type.", "first", with_bytes({1: 2}))
    lie("First: a packet size of 7.", "first", with_bytes({7: 7}))
    lie("First: a packet size of 16 at low speed.", "first", with_bytes({7: 16}), SMALL_PACKETS, speed="low")
    lie("First: a packet size of 32 at high speed.", "first", with_bytes({7: 32}), speed="high")
    lie("Device: 17 bytes.", "device", lambda b: b[:17])
    lie("Device: bLength isn't 18.", "device", with_bytes({0: 19}))
    lie("Device: another type.", "device", with_bytes({1: 3}))
    lie("Device: the first eight bytes differ from the first read.", "device", with_bytes({6: 1}))
    lie("Device: no configuration.", "device", with_bytes({17: 0}))
    for word, kind in (("", 2), ("other_", 7)):
        lie(f"{word}header: eight bytes.", f"{word}header 0", lambda b: b[:8])
        lie(f"{word}header: bLength below 9.", f"{word}header 0", with_bytes({0: 8}))
        lie(f"{word}header: another type.", f"{word}header 0", with_bytes({1: 9 - kind}))
        lie(f"{word}header: wTotalLength below bLength.", f"{word}header 0", with_bytes({2: 8}))
        lie(f"{word}set: refused by the decoder.", f"{word}set 0", with_bytes({2: 33}))
        lie(f"{word}set: done before the last byte.", f"{word}set 0", with_bytes({2: 9}))
        lie(f"{word}set: not done.", f"{word}set 0", lambda b: b[:33])
        lie(f"{word}set: whole, and shorter than announced.", f"{word}set 0", lambda b: with_bytes({2: 9})(b)[:9])
        lie(f"{word}set: of the other kind.", f"{word}set 0", with_bytes({1: 9 - kind}))
        lie(f"{word}set: 35 bytes in one packet.", f"{word}set 0", lambda b: b + b"\x00")
    lie("set: the first set's value is 0.", "set 0", with_bytes({5: 0}))
    lie("Qualifier: nine bytes.", "qualifier", lambda b: b[:9])
    lie("Qualifier: bLength isn't 10.", "qualifier", with_bytes({0: 9}))
    lie("Qualifier: another type.", "qualifier", with_bytes({1: 1}))
    lie("Languages: bLength isn't the number of bytes.", "languages", with_bytes({0: 6}))
    lie("Languages: another type.", "languages", with_bytes({1: 2}))
    lie("Languages: three bytes.", "languages", lambda b: b"\x03" + b[1:3])
    lie("Languages: no language.", "languages", lambda b: b"\x02\x03")
    lie("Languages: one byte.", "languages", lambda b: b[:1])
    for about, changes in [
        ("126, and bLength isn't the number of bytes.", {0: with_bytes({0: 252})}),
        ("126, and another type.", {0: with_bytes({1: 2})}),
        ("126, and one byte less.", {3: lambda b: b[:-1]}),
        ("126 and a byte, which bLength counts.", {0: with_bytes({0: 255}), 3: lambda b: b + b"\x00"}),
        ("127 bytes, which bLength counts.", {0: with_bytes({0: 127}), 1: lambda b: b[:63]}),
    ]:
        host = s.play(f"Languages: {about}", MANY_LANGUAGES, in_packets("languages", changes))
        assert host.outcome == 6 and host.step == "languages", (about, host.result())
    lie("String: bLength isn't the number of bytes.", "text 0409 01", with_bytes({0: 10}))
    lie("String: another type.", "text 0409 01", with_bytes({1: 2}))
    lie("String: eleven bytes.", "text 0409 01", lambda b: b"\x0b" + b[1:11])
    lie("String: one byte.", "text 0409 01", lambda b: b[:1])
    for about, total, in (("refused in the middle of the transfer", 33), ("done in the middle of it", 9)):
        s.play(f"A set that is {about}: the rest is taken, and then judged.", SMALL_PACKETS, in_packets("set 0", {0: with_bytes({2: total})}))
    s.write("malformed")


def in_packets(step, changes):
    """A device that answers some data packets of this step otherwise: each change is given the bytes of the packet of its
    number."""

    def served(host, answer):
        if host.step == step and isinstance(answer, tuple) and answer[1]:
            change = changes.get(len(host.transfer.got) // host.transfer.packet)
            return (answer[0], change(answer[1])) if change else answer
        return answer

    return served


STEPS = "first|address|device|header 0|set 0|qualifier|other_header 0|other_set 0|languages|text 0409 01|configure".split("|")


def reasons():
    s = Script("Each reason at each step where it can come. No answer brings *out of memory*.")
    for step in STEPS:
        data = "status_in" if step in ("address", "configure") else "data"
        s.play(f"{step}: no answer.", EVERYTHING, at(step, "setup", "silence"), attempts=1)
        s.play(f"{step}: no answer, in the status stage.", EVERYTHING, at(step, "status_in" if data == "status_in" else "status_out", "silence"), attempts=1)
        s.play(f"{step}: busy.", EVERYTHING, at(step, data, "nak"), naks=0, attempts=1)
        if step != "qualifier":
            s.play(f"{step}: stalled.", EVERYTHING, at(step, data, "stall"))
        s.play(f"{step}: too long.", EVERYTHING, at(step, data, (True, bytes(65))))
        s.play(f"{step}: unexpected.", EVERYTHING, at(step, data, "ack"))
        s.play(f"{step}: unexpected, a NAK of SETUP.", EVERYTHING, at(step, "setup", "nak"))
    s.write("reasons")


def of_strings(step):
    return step.split()[0] in ("languages", "text")


def stalls(*steps):
    """A device that stalls the first IN of these steps, or of all reads of strings."""

    def served(host, answer):
        mine = host.step in steps if steps else of_strings(host.step)
        return "stall" if mine and host.transfer.stage == "data" else answer

    return served


def with_stand_ins(file, forgiven):
    """The file of a device whose reads of these steps were passed over: 0409 for the list, and empty strings."""
    f = File(file)
    strings = sum(map(len, f.strings.values())) + len(f.languages)
    read = file[: len(file) - strings]
    listed = "languages" not in forgiven
    read += f.languages if listed else bytes.fromhex("04030904")
    for language in units(f.languages) if listed else [0x0409]:
        for index in f.named:
            read += b"\2\3" if f"text {language:04x} {index:02x}" in forgiven else f.strings[language, index]
    return read


def without_strings(file):
    """What a device tells that is asked for no string and no other speed: a dump."""
    f = File(file)
    return f.device + b"".join(f.sets)


LIST, PRODUCT = "languages", "text 0409 02"
EACH = [LIST] + [f"text 0409 {index:02x}" for index in (1, 2, 6, 9)]


def forgiving():
    s = Script("Strings that a device doesn't give, needed, wanted or skipped, and an other speed that isn't asked for.")
    with open(f"{END_DATA}/files/qemu-usb-mouse.file", "rb") as source:
        mouse = source.read()
    with open(f"{END_DATA}/files/gadget-webcam.file", "rb") as source:
        webcam = source.read()
    # What must come: the transactions, and where strings are wanted what is passed over.
    for about, served, needed, wanted, passed in [
        ("all right", None, (0, 40), (0, 40), []),
        ("string 2 is stalled", stalls(PRODUCT), (3, 31), (0, 39), [(3, PRODUCT)]),
        ("the language list is stalled", stalls(LIST), (3, 25), (0, 39), [(3, LIST)]),
        ("the list and all strings are stalled", stalls(), (3, 25), (0, 35), [(3, step) for step in EACH]),
        ("string 2 lacks its last byte", lies(PRODUCT, lambda b: b[:-1]), (6, 32), (0, 40), [(6, PRODUCT)]),
        ("a list without a language", lies(LIST, lambda b: b"\2\3"), (6, 26), (0, 40), [(6, LIST)]),
        ("the header of the other speed has type 2", lies("other_header 0", with_bytes({1: 2})), (6, 20), (6, 20), []),
        ("silence at string 2", Silent(PRODUCT, 3), (1, 96), (1, 96), []),
    ]:
        host = s.play(f"A mouse, needed: {about}.", mouse, served, speed="high")
        assert (host.outcome, host.transactions) == needed, (about, host.result())
        read = with_stand_ins(mouse, [step for _, step in passed])
        host = s.play(f"Wanted: {about}.", mouse, served, speed="high", strings="wanted", read=read)
        assert (host.outcome, host.transactions, host.forgiven) == (*wanted, passed), (about, host.result(), host.forgiven)
        host = s.play(f"Skipped, without the other speed: {about}.", mouse, served, speed="high", strings="skipped", other_speed="no", read=without_strings(mouse))
        assert (host.outcome, host.transactions, len(host.read)) == (0, 16, 52), (about, host.result())
    f = File(mouse)
    alone = mouse[:52] + mouse[len(mouse) - len(f.languages) - sum(map(len, f.strings.values())) :]
    host = s.play("Wanted, without the other speed, whose header has type 2: it isn't asked for.", mouse, lies("other_header 0", with_bytes({1: 2})), speed="high", strings="wanted", other_speed="no", read=alone)
    assert (host.outcome, host.transactions, len(host.read)) == (0, 31, 158), host.result()
    s.play("Skipped, with the other speed.", mouse, speed="high", strings="skipped", read=mouse[:96])
    s.play("Wanted at low speed, where there is no other one.", SMALL_PACKETS, speed="low", strings="wanted", other_speed="yes")
    s.play("No index is named: no string is asked for.", MOUSE, strings="wanted")
    host = s.play("A webcam.", webcam, speed="high", strings="wanted")
    assert (host.transactions, host.forgiven) == (82, [])
    steps = [LIST] + [f"text 0409 {index:02x}" for index in File(webcam).named]
    host = s.play("All strings of a webcam are stalled.", webcam, stalls(), speed="high", strings="wanted", read=with_stand_ins(webcam, steps))
    assert (host.transactions, len(host.forgiven)) == (69, 13), host.result()
    host = s.play("A webcam, skipped.", webcam, speed="high", strings="skipped", other_speed="no", read=without_strings(webcam))
    assert host.transactions == 25, host.result()
    s.play("Two languages: a string of the first is stalled.", TWO_LANGUAGES, stalls("text 0409 02"), strings="wanted", read=with_stand_ins(TWO_LANGUAGES, ["text 0409 02"]))
    s.play("Two languages: the list is stalled, and the strings are asked for in one.", TWO_LANGUAGES, stalls(LIST), strings="wanted", read=with_stand_ins(TWO_LANGUAGES, [LIST]))
    stages_of_strings(s, mouse)
    malformed_strings(s)
    resets(s, mouse)
    s.write("forgiving")


def stages_of_strings(s, mouse):
    small = mouse[:7] + b"\x08" + mouse[8:]
    for step in (LIST, PRODUCT):
        for stage in ("data", "status_out"):
            s.play(f"{step}: stalled at {stage}.", mouse, at(step, stage, "stall"), speed="high", strings="wanted", read=with_stand_ins(mouse, [step]))
        s.play(f"{step}: too long is not passed over.", mouse, at(step, "data", (True, bytes(65))), speed="high", strings="wanted")
        s.play(f"{step}: unexpected is not passed over.", mouse, at(step, "data", "ack"), speed="high", strings="wanted")
        s.play(f"{step}: busy is not passed over.", mouse, at(step, "data", "nak"), speed="high", naks=0, attempts=1, strings="wanted")
    late = lambda host, honest: "stall" if host.step == PRODUCT and len(host.transfer.got) == 16 else honest
    s.play("A string that is stalled after two packets: what came of it is dropped.", small, late, strings="wanted", read=with_stand_ins(small, [PRODUCT]))
    for step in ("device", "header 0", "set 0", "other_set 0", "configure"):
        stage = "status_in" if step == "configure" else "data"
        s.play(f"{step}: stalled, which is not passed over.", mouse, at(step, stage, "stall"), speed="high", strings="wanted")


def malformed_strings(s):
    for about, step, change in [
        ("Languages: bLength isn't the number of bytes.", LIST, with_bytes({0: 6})),
        ("Languages: another type.", LIST, with_bytes({1: 2})),
        ("Languages: three bytes.", LIST, lambda b: b"\x03" + b[1:3]),
        ("Languages: one byte.", LIST, lambda b: b[:1]),
        ("String: bLength isn't the number of bytes.", "text 0409 01", with_bytes({0: 10})),
        ("String: another type.", "text 0409 01", with_bytes({1: 2})),
        ("String: eleven bytes.", "text 0409 01", lambda b: b"\x0b" + b[1:11]),
        ("String: one byte.", "text 0409 01", lambda b: b[:1]),
    ]:
        host = s.play(about, EVERYTHING, lies(step, change), strings="wanted", read=with_stand_ins(EVERYTHING, [step]))
        assert host.forgiven == [(6, step)], (about, host.forgiven)


def resets(s, mouse):
    both = lambda host, honest: stalls(LIST)(host, Silent("configure", 1)(host, honest)) if host.resets == 1 else honest
    host = s.play("A bus reset after something was passed over: the list is empty, and nothing is in the next attempt.", mouse, both, speed="high", strings="wanted")
    assert host.resets == 2 and host.forgiven == []
    again = lambda host, honest: stalls(PRODUCT)(host, Silent("configure", 1)(host, honest))
    host = s.play("And passed over again.", mouse, again, speed="high", strings="wanted", read=with_stand_ins(mouse, [PRODUCT]))
    assert host.resets == 2 and host.forgiven == [(3, PRODUCT)]


if __name__ == "__main__":
    os.makedirs(f"{END_DATA}/hosts", exist_ok=True)
    whole()
    hostile()
    malformed()
    reasons()
    forgiving()
