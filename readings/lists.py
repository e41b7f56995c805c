"""Lists of fates, each a text of the letters that the option --fates has."""

from readings.changing import Numbers

LOSSES = [(place, kind) for place in range(24) for kind in "dua"]
# What happens to the transactions of an enumeration of a real mouse.
GIVEN = [
    "",
    "......a",
    "....a",
    "....a.......a.......a",
    ".a",
    "..u",
    "dd",
    "ddddddddd",
    ".nnnnnnnnnnnnnnnn",
    ".nnnnnnnnnnnnnnnnn",
    "n.d.n.u.n.a.n.d.n.u.n.a",
    "........d.........d.........uu.........a........ddd",
]


def every(length):
    """Every list of so many fates: the digits of its number to base five, the lowest first."""
    for number in range(5**length):
        yield "".join(".ndua"[number // 5**place % 5] for place in range(length))


def losses():
    """One or two losses among the first 24 transactions."""
    for first in LOSSES:
        for second in LOSSES:
            if first == second or first[0] < second[0]:
                lost = dict([first, second])
                yield "".join(lost.get(place, ".") for place in range(24))


def busy():
    """Sixteen NAKs in a row from each of the first 24 transactions on."""
    for place in range(24):
        yield "." * place + "n" * 16


def next_fate(numbers, times):
    return "ndua"[numbers.below(4)] if numbers.below(times) == 0 else "."


def long(first):
    """5,000 lists of 7 to 64 fates. In one list one in so many is no Pass, from each to one in 16."""
    numbers = Numbers(first)
    for _ in range(5_000):
        length = numbers.below(58) + 7
        times = numbers.below(16) + 1
        yield "".join(next_fate(numbers, times) for _ in range(length))


def far():
    """One list, in which three pass and behind each the device is busy 40,000 times."""
    yield ("." + "n" * 40_000) * 3


def named(name, first):
    """The lists of this name; the long ones are made of the numbers after the first."""
    if name == "long":
        return long(first)
    return {"five": lambda: every(5), "six": lambda: every(6), "losses": losses, "busy": busy, "far": far, "given": lambda: GIVEN}[name]()
