"""Hosts that keep no rule, and what a device answers to them, by the table of requests and the stages as
write_scripts.py reads them."""

from readings import write_scripts

HOSTS = 20_000
DEVICE = write_scripts.FILE
PACKETS = b"".join(packet for packets in write_scripts.REQUESTS.values() for packet in packets)


def packet(numbers):
    """A setup packet, of which once in four times a byte is another."""
    place = 8 * numbers.below(len(PACKETS) // 8)
    chosen = bytearray(PACKETS[place : place + 8])
    if numbers.below(4) == 0:
        changed = numbers.below(8)
        chosen[changed] = numbers.below(256)
    return bytes(chosen)


def ask(script, chosen):
    """A request that has no data."""
    script.setup(chosen)
    script.token_in()
    script.acked()


def bring(script, number):
    """Gives the device its address where the number is above 0, and where it is above 1 a configuration."""
    if number > 0:
        ask(script, "00 05 05 00 00 00 00 00")
        script.address(script.state.address)
    if number > 1:
        ask(script, "00 09 01 00 00 00 00 00")


def step(script, numbers):
    """One step of a host: it does anything."""
    kind = numbers.below(16)
    if kind < 3:
        chosen = packet(numbers)
        script.setup(chosen, numbers.below(8) == 0)
    elif kind < 9:
        script.token_in(numbers.below(8) == 0)
    elif kind == 9:
        toggle = numbers.below(2)
        data = "00" if numbers.below(4) == 0 else "-"
        script.out(toggle, data, numbers.below(8) == 0)
    elif kind < 13:
        script.acked()
    elif kind == 13:
        ask(script, packet(numbers))
    else:
        turn(script, numbers)


def turn(script, numbers):
    """Turns to the device's address, or once in sixteen times to any, or resets the bus."""
    kind = numbers.below(16)
    if kind == 0:
        script.reset()
    else:
        script.address(numbers.below(128) if kind == 1 else script.state.address)


def state_line(state):
    halts = sum(1 << (e % 16 + e // 128 * 16) for e in state.halts)
    alternates = bytes(state.alternates.get(number, 0) for number in range(4)).hex()
    return f"address {state.address} selected {state.selected} wakeup {int(state.wakeup)} halts {halts} alternates {alternates}\n"


def hosts(numbers):
    """For each host the lines of the device's answers, and that of the state in which the device is left."""
    script = write_scripts.Script("", "")
    for _ in range(HOSTS):
        script.begin()
        script.lines = []
        steps = numbers.below(64) + 1
        bring(script, numbers.below(4))
        for _ in range(steps):
            step(script, numbers)
        told = [line.split(" -> ")[1] for line in script.lines]
        yield [line.removesuffix("-") if line.startswith("data") else line + " " for line in told if line != "done"], state_line(script.state)
