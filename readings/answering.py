"""Hosts that are answered by a fixed generator: by anything, or by a device whose answers are now and then others.

The host and the device are those of the second reading of an enumeration (enumerating.py).
"""

from readings.changing import Numbers
from readings.enumerating import Device, File, Host

HOSTS = 10_000
MORE = 4
LISTS, LONG = 20, 10_000


def new_host(numbers, most=4):
    address = numbers.below(127) + 1
    naks = numbers.below(most)
    return Host("full", address, naks, numbers.below(8) + 1)


def any_answer(numbers, b):
    """Any answer; a packet begins as these bytes do."""
    kind = numbers.below(8)
    if kind < 5:
        return ["ack", "ack", "nak", "stall", "silence"][kind]
    if kind == 5:
        return True, b""
    return kind == 7, b[: numbers.below(65)]


def other_answer(numbers, kind, answer):
    """Another answer, of this kind, and whether the device hears the ACK of it."""
    if kind < 4:
        return ["ack", "nak", "stall", "silence"][kind], False
    if isinstance(answer, str):
        return (True, b""), False
    one, b = answer
    if kind == 4:
        return (not one, b), False
    if kind == 5:
        return (one, b[:-1]), True
    if kind == 6:
        return (one, b + b"\x00"), True
    place, value = numbers.below(max(len(b), 1)), numbers.below(256)
    return (one, b[:place] + bytes([value]) + b[place + 1 :] if b else b), True


def end(host):
    """How a host has ended: what that is counted as, and what it has read or at which step it has ended."""
    if host.due != "ended":
        return "host, asking", ""
    if host.outcome:
        return f"host, trouble {host.outcome} {host.step.split()[0]}", host.step
    told = "no file" if host.lacks_strings else host.read.hex()
    return "host, success", told + "".join(f", {why} {step}" for why, step in host.forgiven)


def line_of(host, kind, told):
    return f"{kind} {told} attempts {host.resets} transactions {host.transactions}\n"


def settled(host, numbers, b):
    """The line of a host, and its kind. One that has ended is answered some more, and must keep its outcome."""
    before = end(host)
    line = line_of(host, *before)
    for _ in range(MORE if host.due == "ended" else 0):
        host.take(any_answer(numbers, b))
        host.reset_done()
    return line, before[0] if end(host) == before else "host, changed"


def anything(b):
    numbers = Numbers(1)
    for _ in range(HOSTS):
        host = new_host(numbers)
        for _ in range(numbers.below(64)):
            if host.due == "reset":
                host.reset_done()
            elif host.due == "send":
                host.take(any_answer(numbers, b))
        yield settled(host, numbers, b)


def exchange(host, device, kind, times, numbers, ready=1):
    """A transaction, in which the device's answer is another one once in so many times, never at 0, and in which the device is ready
    once in so many."""
    lies = times > 0 and numbers.below(times) == 0
    is_ready = ready == 1 or numbers.below(ready) == 0
    answer = device.serve(host.transfer.address, host.transfer.token(), is_ready)
    acknowledged = isinstance(answer, tuple)
    if lies:
        answer, acknowledged = other_answer(numbers, kind, answer)
    host.take(answer)
    if acknowledged:
        device.acked()


def most(host):
    """How many transactions an attempt has at most, by the reads of an enumeration: at packets of eight bytes each has
    wLength / 8 + 3 steps, and each step as many transactions as NAKs and strikes are borne and one more."""
    sets = 255 * (65_535 // 8 + 3 + 9 // 8 + 3)
    reads = 8 // 8 + 3 + 3 + 18 // 8 + 3 + sets + 10 // 8 + 3 + sets + (1 + 126 * 255) * (255 // 8 + 3) + 3
    return host.attempts * reads * (host.limit + 3)


def long(b):
    """Hosts that are each given 10,000 resets and answers: by a device that is ready now and then, and once they have ended
    by anything, which must not change them."""
    numbers, device = Numbers(5), Device(File(b))
    for _ in range(LISTS):
        host, first = new_host(numbers, 4_096), None
        device.reset()
        kind, times, ready = numbers.below(8), numbers.below(4_096) + 2, numbers.below(1_024) + 1
        for _ in range(LONG):
            if host.due == "reset":
                device.reset()
                host.reset_done()
            elif host.due == "send":
                exchange(host, device, kind, times, numbers, ready)
            else:
                first = first or end(host)
                host.take(any_answer(numbers, b))
                host.reset_done()
        last = end(host)
        is_kept = last == first if first else host.due != "ended"
        within = "host, too many transactions" if host.transactions > most(host) else last[0]
        yield line_of(host, *last), within if is_kept else "host, changed"


def lies(b):
    numbers, device = Numbers(2), Device(File(b))
    for _ in range(HOSTS):
        host = new_host(numbers)
        device.reset()
        answers, kind, times = numbers.below(256), numbers.below(8), numbers.below(32) + 2
        for _ in range(answers):
            if host.due == "reset":
                device.reset()
                host.reset_done()
            elif host.due == "send":
                exchange(host, device, kind, times, numbers)
        yield settled(host, numbers, b)


def choosing(b):
    """Hosts of all six choices, by a device whose answers are now and then others where strings are read."""
    numbers, device = Numbers(6), Device(File(b))
    for number in range(HOSTS):
        host = new_host(numbers)
        host.strings, host.other_speed = ["needed", "wanted", "skipped"][number % 3], number % 6 < 3
        device.reset()
        answers, kind, times = numbers.below(512), numbers.below(8), numbers.below(8) + 2
        for _ in range(answers):
            if host.due == "reset":
                device.reset()
                host.reset_done()
            elif host.due == "send":
                of_strings = host.step.split()[0] in ("languages", "text")
                exchange(host, device, kind, times if of_strings else 0, numbers)
        yield settled(host, numbers, b)
