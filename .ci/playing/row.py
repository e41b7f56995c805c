"""Rows: what is asked for and what must come, as docs/testing.md says them."""


class Fault(Exception):
    """What is wrong with a row or an example itself, or with what was told of all of its runs."""


def counted(part):
    """How often a part stands there, and what it is: '253*00' is 253 times '00'."""
    count, star, atom = part.partition("*")
    return (int(count), atom) if star and count.isdecimal() else (1, part)


def expand(names, word):
    """The word written out: its parts, which are joined by '+', each as often as it says. A place, as '@0+9', is itself."""
    if word.startswith("@"):
        return word
    parts = [counted(part) for part in word.split("+")]
    return "".join(names.get(atom, atom) * count for count, atom in parts)


def expand_line(names, line):
    """The line with its words written out and a line feed, as often as its first word says."""
    first, *words = line.split(" ")
    count, first = counted(first)
    return (" ".join([first, *(expand(names, word) for word in words)]) + "\n") * count


def change(data, words):
    """Does with the bytes what the words say, one after another: digits put more bytes behind, '2=21' puts others from
    place 2 on, '..20' leaves the first 20, and '-' says nothing."""
    changed = bytearray(data)
    for word in words:
        place, equals, digits = word.partition("=")
        if equals:
            others, start = bytes.fromhex(digits), int(place)
            if start + len(others) > len(changed):
                raise Fault(f"{word}: there are only {len(changed)} bytes")
            changed[start : start + len(others)] = others
        elif word.startswith(".."):
            del changed[int(word[2:]) :]
        elif word != "-":
            changed += bytes.fromhex(word)
    return bytes(changed)


class Row:
    """One row. It is written out only where it is asked for: the longest file there is has 41 million bytes."""

    def __init__(self, path, line, asked, wanted, names):
        self.name, self.names = f"{path}:{line}", names
        self.call, _, self.given = asked.strip().partition(" ")
        self.answer, self.lines = wanted, []

    def words(self):
        return [expand(self.names, word) for word in self.given.split()]

    def wanted(self):
        return " ".join(expand(self.names, word) for word in self.answer.split())

    def text(self, mark):
        """The lines behind this mark: '|' is given to the call, '>' is wanted on standard output, '!' on standard error."""
        return "".join(expand_line(self.names, line) for of, line in self.lines if of == mark).encode()


def rows_of(path, text):
    """All rows of a text."""
    names, rows = {}, []
    for number, line in enumerate(text.split("\n"), 1):
        if not line or line.startswith("#"):
            continue
        asked, arrow, wanted = line.partition("->")
        mark, _, rest = line.partition(" ")
        if line.startswith("let "):
            name, _, word = rest.partition(" = ")
            names = {**names, name: expand(names, word)}
        elif arrow and line[0] not in "|>!":
            rows.append(Row(path, number, asked, wanted, names))
        elif rows and mark in ("|", ">", "!"):
            rows[-1].lines.append((mark, rest))
        else:
            raise Fault(f"{path}:{number}: neither a row nor a line of one")
    return rows
