"""The inputs: examples that a fixed generator changes, the same as the crate test_generated makes of the same numbers."""

# What a byte of descriptors becomes, and a byte of a listing: bounds of what a field can be, and characters that a line
# may have in other places or nowhere.
BYTES = b"\x00\x01\x7f\x80\xff"
CHARACTERS = b' 0af-"\\gA~\n\x7f#\r'


class Numbers:
    """The generator of Knuth and Lewis: the high halves of its numbers."""

    def __init__(self, first):
        self.state = first

    def below(self, count):
        self.state = (1664525 * self.state + 1013904223) % 2**32
        return (self.state >> 16) % count


def descriptors(b):
    """The bytes in pieces of bLength bytes each, the last with all that is left."""
    pieces = []
    while b:
        length = b[0] if 2 <= b[0] <= len(b) else len(b)
        pieces.append(bytearray(b[:length]))
        b = b[length:]
    return pieces


def lines(b):
    return [bytearray(line) for line in b.splitlines(keepends=True)]


def change_byte(pieces, at, numbers, values):
    place = numbers.below(len(pieces[at]))
    kind, number = numbers.below(4), numbers.below(256)
    old = pieces[at][place]
    pieces[at][place] = [number, (old + 1) % 256, (old - 1) % 256, values[number % len(values)]][kind]


def cut(pieces, at, numbers):
    place = numbers.below(len(pieces[at]))
    del pieces[at][place:], pieces[at + 1 :]


def change(pieces, numbers, values):
    """One change: of a byte, a cut, a piece doubled, two swapped, or one dropped. An empty piece stays as it is."""
    if not pieces:
        return
    kind, at, other = numbers.below(8), numbers.below(len(pieces)), numbers.below(len(pieces))
    if kind == 7:
        del pieces[at]
    elif kind == 6:
        pieces[at], pieces[other] = pieces[other], pieces[at]
    elif kind == 5:
        pieces.insert(at, bytearray(pieces[at]))
    elif pieces[at] and kind == 4:
        cut(pieces, at, numbers)
    elif pieces[at]:
        change_byte(pieces, at, numbers, values)


def mend(pieces):
    """Writes into each configuration descriptor the length of what stands up to the next descriptor that can't be in its
    set: one of type 1, 2, 3, 6 or 7."""
    total = 0
    for piece in reversed(pieces):
        kind = piece[1] if len(piece) > 1 else 0
        total += len(piece)
        if kind in (2, 7) and len(piece) > 3:
            piece[2:4] = (total % 65536).to_bytes(2, "little")
        if kind in (1, 2, 3, 6, 7):
            total = 0


def changed(kind, b, number, count):
    """So many inputs made of an example, the one of this number."""
    numbers = Numbers(number)
    for _ in range(count):
        pieces = lines(b) if kind == "listing" else descriptors(b)
        for _ in range(1 + numbers.below(3)):
            change(pieces, numbers, CHARACTERS if kind == "listing" else BYTES)
        if numbers.below(2) == 0 and kind != "listing":
            mend(pieces)
        yield b"".join(pieces)


def bytes_set(b):
    """The bytes with each of them set to each of five values."""
    for place in range(len(b)):
        for value in BYTES:
            yield b[:place] + bytes([value]) + b[place + 1 :]


def cuts(b):
    for length in range(len(b)):
        yield b[:length]
