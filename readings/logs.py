"""The log of an enumeration, by docs/control-transfers.md: what each step writes. Both ends are those of the second reading of
an enumeration (enumerating.py)."""

import copy

from readings.enumerating import BUSY, MALFORMED, NO_ANSWER, STALLED, TOO_LONG, UNEXPECTED, word

KINDS = {1: "device", 2: "configuration", 3: "string", 6: "qualifier", 7: "other-speed configuration"}
WIDTHS = [6, 2, 15, 17, 20]
NAMES = ["no.", "f", "packets (lost)", "data", "host"]
MESSAGES = {
    NO_ANSWER: "no answer, three times in a row",
    BUSY: "busy for longer than the limit",
    STALLED: "the device stalled the request",
    TOO_LONG: "more bytes than were asked for",
    UNEXPECTED: "an answer that cannot follow",
    MALFORMED: "not what was asked for",
}


def request(setup):
    """A request in words."""
    value, index, length = word(setup, 2), word(setup, 4), word(setup, 6)
    if setup[1] == 5:
        return f"SET_ADDRESS {value}"
    if setup[1] == 9:
        return f"SET_CONFIGURATION {value}"
    language = f" language 0x{index:04x}" if value >> 8 == 3 and value & 255 else ""
    return f"GET_DESCRIPTOR {KINDS[value >> 8]} {value & 255}{language}, {length} bytes"


def transfer_line(step, transfer):
    return f"{step}: {request(transfer.setup)}, to {transfer.address}\n"


def has_data(answer):
    return isinstance(answer, tuple)


def answer_words(answer):
    if has_data(answer):
        return f"DATA{int(answer[0])}"
    return "" if answer == "silence" else answer.upper()


def marked(words, is_lost):
    return f"({words})" if words and is_lost else words


def going_words(before, after, came):
    """What a transfer has that goes on."""
    if came == "ack":
        return "accepted"
    if came == "nak":
        return f"NAK {after.naks}"
    if has_data(came):
        if before.one != after.one:
            return f"has {len(after.got)} of {after.length}"
        return f"duplicate, strike {after.strikes}"
    return f"strike {after.strikes}"


def host_words(before, after, came, why, outcome):
    """What the host has, after it has taken what came: why its transfer has ended, and how the enumeration."""
    if why is None:
        return going_words(before, after, came)
    if why == 0:
        return "complete: malformed" if outcome == MALFORMED else "complete"
    busy = f"NAK {after.naks}: busy"
    return {NO_ANSWER: "strike 3: no answer", BUSY: busy, STALLED: "stalled", TOO_LONG: "too long", UNEXPECTED: "unexpected"}[why]


def device_words(device):
    stage = f"sending {device.sent}" if device.stage == "sending" else device.stage.replace("_", " ")
    return f"{device.address}/{device.selected} {stage}"


def data_words(packet):
    """The bytes of a data packet, 1 to 8, or how many it has."""
    if packet is None:
        return ""
    return packet.hex() if 1 <= len(packet) <= 8 else f"{len(packet)} bytes"


def data_lines(packet):
    """More than 8 bytes, 16 a line, below the column of data."""
    if packet is None or len(packet) <= 8:
        return ""
    margin = " " * sum(WIDTHS[:3])
    return "".join(f"{margin}{packet[k : k + 16].hex()}\n" for k in range(0, len(packet), 16))


def filled(columns):
    return "".join(words.ljust(width - 1) + " " for words, width in zip(columns, WIDTHS))


def transaction_lines(device, host, number, fate, brief):
    """One transaction: its line, and another one where the attempt is given up."""
    before = copy.copy(host.transfer)
    token = before.token()
    answer = "silence" if fate == "d" else device.serve(before.address, token, fate != "n")
    came = "silence" if fate == "u" else answer
    if has_data(came) and fate != "a":
        device.acked()
    acknowledged = marked("ACK" if has_data(came) else "", fate == "a")
    packets = [marked(token[0].upper(), fate == "d"), marked(answer_words(answer), fate == "u"), acknowledged]
    packet = before.setup if token[0] == "setup" else answer[1] if has_data(answer) else None
    columns = [str(number), fate, " ".join(name for name in packets if name), data_words(packet)]
    after = copy.copy(before)
    why = after.take(came)
    host.take(came)
    columns.append(host_words(before, after, came, why, host.outcome))
    cause = why if host.due == "reset" else host.outcome
    given_up = f"attempt {host.resets} given up: {MESSAGES[cause]}\n" if cause else ""
    return filled(columns) + device_words(device) + "\n" + ("" if brief else data_lines(packet)) + given_up


def steps(device, host, fates, brief):
    """What each step of an enumeration writes, and its end."""
    number, begun = 0, None
    while host.due != "ended":
        if host.due == "reset":
            device.reset()
            host.reset_done()
            headings = filled(NAMES) + "device\n" if host.resets == 1 else ""
            yield f"{headings}attempt {host.resets}: bus reset\n"
            continue
        line = "" if host.transfer is begun else transfer_line(host.step, host.transfer)
        begun = host.transfer
        fate = fates[number] if number < len(fates) else "."
        number += 1
        yield line + transaction_lines(device, host, number, fate, brief)
    used = fates[:number]
    yield f"fates: losses {sum(fate in 'dua' for fate in used)}, busy {sum(fate == 'n' for fate in used)}\n"
