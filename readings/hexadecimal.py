"""A separate reading of hexadecimal text, from which the explanations of such texts come.

It was written from the words of docs/formats.md, in another language and by no function of this repository. The gate
compares what it writes (.ci/readings).

    hexadecimal KIND FILE..    writes the explanation of each text to the file of that name that ends in .explain: that
                               of the set, file or dump, as KIND says, whose bytes it has
"""

import os
import re
import sys

from readings import explaining

DIGIT = rb"[0-9A-Fa-f]"
ITEM = re.compile(rb"[\t\r ,]|(?:0x|\\x)(?=[0-9A-Fa-f]{2}(?![0-9A-Fa-f]))|([0-9A-Fa-f]{2})")
BEFORE = rb"[\t >\xef\xbb\xbf]*"
ZEROS = re.compile(rb"0{4,}(?=:[\t ]|[\t ])")
NAME = rb"(?: <[^\n>]*(?:[\n>]|\Z)|(?! <))"
OFFSET = re.compile(rb"(?:0x)?(" + DIGIT + rb"{4,})" + NAME + rb"(:?)[\t ]*")
ADDRESS = re.compile(rb"(?:0x)?(" + DIGIT + rb"{4,})" + NAME + rb":[\t ]")
NUMBERED = re.compile(rb"(?:0x)?" + DIGIT + rb"*(?:[\t\n\r ,]|\Z)")
AFTER = rb"(?:[\t\n\r ,]|\Z)"
# What two readings would take differently: words after a blank; bits, the numbers of columns, or an offset before two bytes.
WORDS = re.compile(
    rb"[\t ]" + BEFORE + rb"(?:" + DIGIT + rb"{4}|" + DIGIT + rb"{8}|" + DIGIT + rb"{16})" + AFTER
    + rb"|" + BEFORE + rb"(?:(?:0b)?[01]{8}" + AFTER + rb"|00 01 02|" + DIGIT + rb"{4,}[\t ]+" + DIGIT + rb"{2}[\t ]" + DIGIT + rb"{2})"
)
# A line with an offset, or two zeros, and bytes; and the next line, to see whether it has counted them.
COUNTED = re.compile(
    BEFORE + rb"(" + DIGIT + rb"{4,}|00" + DIGIT + rb"?)([\t ][^\n]*)\n" + BEFORE + rb"(" + DIGIT + rb"+)"
)
# What could be an offset at the start of a later line of a text without columns.
LATER = re.compile(BEFORE + rb"(" + DIGIT + rb"{4,})(?:([\t ]+" + DIGIT + rb"{2}[\t ]" + DIGIT + rb"{2})|" + AFTER + rb")")
BYTE_WORD = re.compile(rb"(?:(?<=[\t\r ,])|\A)(?:0x|\\x)?" + DIGIT + rb"{2}" + AFTER.replace(rb"(?:", rb"(?=", 1))
LITERAL = re.compile(BEFORE + rb"(?![0-9])(?:[^\\,{\"']*[^\\,{\"'\w])?b(?=[\"']\\)")
ESCAPES = {b"0": 0, b"n": 10, b"r": 13, b"t": 9, b"\\": 92, b"'": 39, b'"': 34}
NAMED = rb"Data \(Hex[^\n:]*:?[\t ]*"
ASSEMBLER = re.compile(BEFORE + rb"[A-Fa-f]+[\t ]*0x")
# What is before the bytes of a line: a name and a colon; a directive; a declaration or a call before a string.
PAIR = DIGIT + rb"{2}"
LABEL = re.compile(
    rb"^(?:[^0-9:\n]*[G-Zg-z_][^0-9:\n]*:(?=[\t ]+" + PAIR + rb"[\t ]" + PAIR + rb"|" + PAIR + rb"," + PAIR + rb")"
    rb"|[\t ]*\.?(?:[dD][bB]|[dD][cC]\.?[bB]|[fF][cC][bB]|[bB][yY][tT][eE])[\t ][A-Za-z_.\t ]*"
    rb"(?=\$|[0-9]" + DIGIT + rb"*[xXhH])"
    rb"|(?![\t ]*[0-9])(?:[^\n\\,{\"']*=[\t ]*\n?[\t ]*|(?=[^\n\\,{\"']*[G-Zg-z_])[^\n\\,{\"']*[^\n\\,{\"'\[\t ][\t ]*)(?=[\"']\\x)"
    rb"|(?![\t ]*[0-9])[^\n\\,{\"']*\([\t ]*(?=[\"']" + PAIR + rb"))",
    re.M,
)
# Of each form with columns how many digits a group has at most, and where the characters of a line begin.
COLUMNS = {
    "colons": (4, re.compile(rb"  ")),
    "spaces": (2, re.compile(rb"\||   |  (?!" + ITEM.pattern + rb"|\Z)")),
    "groups": (None, re.compile(rb"  ")),
    "rows": (2, re.compile(rb"  ")),
    "addresses": (2, re.compile(rb"  ")),
}
DIRECTIVE = rb"[\t ]*(?:if|ifdef|ifndef|elif|else|endif|include)(?!\w)"
COMMENT = re.compile(rb"/\*.*?(?:\*/|\Z)|//[^\n]*|# (?!" + DIRECTIVE + rb")[^\n]*|^" + BEFORE + rb"(?:```[^\n]*)?", re.M | re.S)
GAP = rb"[\t\n\r ,;]"
CLOSING = rb"\)[\t\n\r ,;)]*\Z"
# Of each style what is between bytes, and how a byte is written.
STYLES = {
    "escaped": (rb"[\"']|\\(?=[\n\r])|" + GAP + rb"(?!\\x)|" + CLOSING, rb"\\x(" + DIGIT + rb"{2})(?=[\\\"'])"),
    "prefixed": (
        GAP + rb'|"',
        rb"(?:0[xX]|\$)(" + DIGIT + rb"{1,2})(?:[uU]8?)?(?!\w)|([0-9])(?!\w)(?![\t ]+(?:0[xX]|\$))",
    ),
    "suffixed": (GAP + rb"|0(?=(?s:..)[hH](?!\w))(?!(?s:.)[hH](?!\w))", rb"(" + DIGIT + rb"{2})[hH](?!\w)"),
    "pairs": (GAP + rb"|[\"']|" + CLOSING, rb"(" + DIGIT + rb"{2})(?![\"'](?:[\"']|" + DIGIT + rb"))"),
    "separated": (GAP, rb"(" + DIGIT + rb"{2})(?:[:-](?=" + DIGIT + rb")|(?=[\n\r])|\Z)"),
    "loose": (GAP, rb"(" + DIGIT + rb"{1,2})(?!\w)"),
    "decimals": (GAP, rb"(0|[1-9][0-9]{0,2})(?!\w)"),
    "either": (GAP, rb"(?!)"),
}


class Fault(Exception):
    """The line and the column of what is no hexadecimal text."""


def place(text, at):
    """The line and the column of a place in a text."""
    return text.count(b"\n", 0, at) + 1, at - text.rfind(b"\n", 0, at)


def columns_of(text):
    """Where the first offset is, which only headings may be before; none where a text has no columns."""
    at = 0
    while at < len(text):
        start = re.compile(BEFORE).match(text, at).end()
        if ZEROS.match(text, start) or ADDRESS.match(text, start):
            return start
        is_empty = text[start : start + 1] in (b"", b"\n", b"\r")
        has_numbers = NUMBERED.match(text, start) or has_bytes(text[start:].partition(b"\n")[0])
        if has_numbers and not is_empty and text[start : start + 8] != b"00 01 02":
            return None
        at = text.find(b"\n", start) + 1 or len(text)
    return None


def has_bytes(line):
    """Whether two words of a line or more are bytes, but for those that number columns."""
    words = [word.start() for word in BYTE_WORD.finditer(line)]
    return len(words) > 1 and not line.startswith(b"00 01 02", words[0])


def has_offset_after(count, text, at):
    """Whether what could be an offset begins the line there, after so many bytes of a text without columns."""
    offset = LATER.match(text, at)
    return offset and (offset[2] or any(value(offset[1], radix) == count for radix in (16, 10)))


def form_at(text, at):
    """The form of a text whose columns begin there, and its first offset."""
    zeros = ZEROS.match(text, at)
    if not zeros:
        return "addresses", int(ADDRESS.match(text, at)[1], 16)
    line, _, rest = text[zeros.end() :].partition(b"\n")
    if line.startswith(b":"):
        return ("colons" if is_in_order(text[at:]) else "words"), 0
    if line.startswith(b"  "):
        return "spaces", 0
    if zeros.end() - at == 16 and line[1:2] not in (b" ", b"\t"):
        return "rows", 0
    characters = re.search(rb"  ([^\x00-\x20])", line)
    if characters and characters[1] != b">":
        return "groups", 0
    return ("addresses" if re.match(BEFORE + rb"0{4}", rest) else "words"), 0


def is_in_order(text):
    """Whether the first visible character in sixteen lines is that of its byte."""
    for line in text.split(b"\n")[:16]:
        line = re.sub(rb"\A" + BEFORE, b"", line)
        offset = OFFSET.match(line)
        shown, _, characters = line[offset.end() if offset else 0 :].partition(b"  ")
        characters = b"" if characters.startswith(b" ") else characters
        for pair, c in zip(re.findall(DIGIT + rb".", shown), characters):
            if 32 < c < 127 and c != 46 and re.fullmatch(DIGIT + rb"{2}", pair):
                return c == int(pair, 16)
    return True


def is_at(offset, place):
    """Whether an offset is that of a place: hexadecimal, or octal where it is one of `od`."""
    digits, colon = offset[1], offset[2]
    is_octal = len(offset[1]) == 7 and not colon and offset[0][:2] != b"0x" and not re.search(rb"[^0-7]", digits)
    return int(digits, 16) == place or (is_octal and int(digits, 8) == place)


def in_columns(text, at):
    """The bytes of a text whose columns begin there."""
    form, base = form_at(text, at)
    if form == "words":
        raise Fault(*place(text, 0))
    most, characters = COLUMNS[form]
    found, at = bytearray(), OFFSET.match(text, at).end()
    while True:
        end = text.find(b"\n", at)
        end = len(text) if end < 0 else end
        mark = characters.search(text[at:end])
        stop_at = at + mark.start() if mark else end
        if form == "rows":
            sixteen = re.compile(rb"(?:" + DIGIT + rb"{2}[\t ,]*?){16}(?=[\t ])").match(text, at, stop_at)
            stop_at = sixteen.end() if sixteen else stop_at
        items(text, at, stop_at, most, found)
        if end == len(text):
            break
        start = re.compile(BEFORE).match(text, end + 1).end()
        offset = OFFSET.match(text, start)
        if offset and is_at(offset, base + len(found)):
            at = offset.end()
        elif text[start : start + 1] in (b"", b"\n", b"\r"):
            at = start
        elif text[start : start + 3] == b"```":
            at = text.find(b"\n", start)
            at = len(text) if at < 0 else at
        else:
            raise Fault(*place(text, end))
    if not found:
        raise Fault(*place(text, len(text)))
    return bytes(found)


def items(text, at, end, most, found):
    """Adds the bytes from there to an end, in groups of as many digits at most."""
    while at < end:
        item = ITEM.match(text, at, end)
        is_long = most and item and item[1] and re.compile(DIGIT + rb"{%d}" % (most + 1)).match(text, at, end)
        if not item or is_long:
            raise Fault(*place(text, at))
        found += bytes.fromhex((item[1] or b"").decode())
        at = item.end()


def has_two_readings(text):
    """Whether two readings would take a text differently."""
    line = COUNTED.match(text)
    count = len(re.findall(DIGIT, line[2])) // 2 if line else 0
    return bool(WORDS.match(text)) or (count > 0 and any(value(line[3], radix) == value(line[1], radix) + count for radix in (16, 10)))


def value(digits, radix):
    """The number that digits begin with."""
    leading = digits if radix == 16 else re.match(rb"[0-9]*", digits)[0]
    return int(leading or b"0", radix)


def as_it_is(text):
    """The bytes of a text that is hexadecimal as it is."""
    if ZEROS.match(text):
        return in_columns(text, 0)
    if columns_of(text) is not None or has_two_readings(text) or ASSEMBLER.match(text):
        raise Fault(*place(text, 0))
    found, at = bytearray(), 0
    while True:
        end = text.find(b"\n", at)
        end = len(text) if end < 0 else end
        items(text, at, end, None, found)
        if end == len(text):
            break
        if has_offset_after(len(found), text, end + 1):
            raise Fault(*place(text, end))
        at = end + 1
    if not found:
        raise Fault(*place(text, len(text)))
    return bytes(found)


def spaces(text):
    """Spaces in place of each character but line feeds."""
    return re.sub(rb"[^\n]", b" ", text)


def between(code):
    """The kind of brackets of a text, and what is between the first one and its partner."""
    opening, closing = (b"{", b"}") if b"{" in code else (b"[", b"]")
    if opening not in code:
        return None, code
    start = code.index(b"=") + 1 if opening == b"[" and b"=" in code else 0
    at = code.find(opening, start)
    if at < 0:
        return opening, spaces(code)
    end = code.find(closing, at)
    end = len(code) if end < 0 else end
    again = code.find(opening, end)
    again = len(code) if again < 0 else again
    rest = code[again : again + 1] + spaces(code[again + 1 :])
    partner = code[end : end + 1] if precedes_bytes(code[end + 1 :]) else spaces(code[end : end + 1])
    return opening, spaces(code[: at + 1]) + code[at + 1 : end] + partner + spaces(code[end + 1 : again]) + rest


def precedes_bytes(rest):
    """Whether bytes are after the partner of the first bracket."""
    return re.match(rb"\W*(?:0x|" + DIGIT + rb"{2,}(?!\w))", rest) or has_bytes(rest.partition(b"\n")[0])


def style_of(bracket, inner):
    """How a text has its bytes."""
    if b"\\" in inner:
        return "escaped"
    if re.search(rb"[xX$]", inner):
        return "prefixed"
    if not bracket:
        if re.search(rb"[:-]", inner):
            return "separated"
        return "suffixed" if re.search(rb"[hH]", inner) else "pairs"
    if re.search(rb"[hH]", inner):
        return "suffixed"
    if re.search(rb"[^0-9\t\n\r ,;]", inner):
        return "loose"
    if bracket == b"{":
        return "decimals" if re.search(rb"[0-9]{2}", inner) else "pairs"
    return "either" if re.search(rb"[0-9]{2}", inner) and not re.search(rb"[0-9]{3}", inner) else "decimals"


def uncommented(comment):
    """What is in place of a comment. One that doesn't end is wrong at the end of the text, and one of a line at its last backslash."""
    if comment[0].startswith(b"/*"):
        is_ended = comment[0].endswith(b"*/") and len(comment[0]) > 3
        return spaces(comment[0]) if is_ended else spaces(comment[0][:-1]) + b"*"
    shown = bytearray(spaces(comment[0]))
    for slash in re.compile(rb"\\(?=[\t ]*[\n\r])").finditer(comment.string, comment.start(), comment.end() + 1):
        shown[slash.start() - comment.start()] = ord("*")
    return bytes(shown)


def in_literals(text, at):
    """The bytes of the literals of a text, the first of which begins with the quote there."""
    quote, found, at = text[at : at + 1], bytearray(), at + 1
    while at < len(text):
        c, escape = text[at : at + 1], re.compile(rb"\\(?:x(" + DIGIT + rb"{2})|(0)(?![0-9])|([nrt\\'\"]))").match(text, at)
        if c == quote:
            later = re.compile(rb"[\t\n\r ]*b" + quote).match(text, at + 1)
            if not (later or re.compile(rb"[\t\n\r ,;)]*\Z").match(text, at + 1)):
                raise Fault(*place(text, at))
            at = later.end() if later else len(text)
        elif escape:
            found.append(int(escape[1], 16) if escape[1] else ESCAPES[escape[2] or escape[3]])
            at = escape.end()
        elif c == b"\\" or not 32 <= c[0] <= 126:
            raise Fault(*place(text, at))
        else:
            found += c
            at += 1
    if not found:
        raise Fault(*place(text, at))
    return bytes(found)


def in_names(text):
    """The bytes of a text whose lines have names before their bytes and characters after them."""
    found, at = bytearray(), 0
    start = re.compile(BEFORE + rb"(?:" + NAMED + rb")?")
    while at < len(text):
        at = start.match(text, at).end()
        end = text.find(b"\n", at)
        end = len(text) if end < 0 else end
        mark = text.find(b"   ", at, end)
        items(text, at, end if mark < 0 else mark, 2, found)
        at = end + 1
    if not found:
        raise Fault(*place(text, len(text)))
    return bytes(found)


def source(text):
    """The bytes of the source of a program, or of another text."""
    columns = columns_of(text)
    if columns is not None:
        return in_columns(text, columns)
    literal = LITERAL.match(text)
    if literal:
        return in_literals(text, literal.end())
    if re.match(BEFORE + NAMED, text):
        return in_names(text)
    code = COMMENT.sub(uncommented, text)
    code = re.sub(rb"\xef\xbb\xbf", b"   ", code)
    code = LABEL.sub(lambda it: spaces(it[0]), code)
    code = re.sub(rb"\\(?=[\n\r])", b" ", code)
    bracket, inner = between(code)
    if has_two_readings(text):
        raise Fault(*place(inner, 0))
    style = style_of(bracket, inner)
    gap, number = (re.compile(it) for it in STYLES[style])
    found, at = bytearray(), 0
    while at < len(inner):
        item, byte = gap.match(inner, at), number.match(inner, at)
        if inner[at : at + 1] == b"\n" and has_offset_after(len(found), inner, at + 1):
            raise Fault(*place(inner, at))
        if not item:
            value = int(byte[byte.lastindex], 10 if style == "decimals" else 16) if byte else 256
            if value > 255:
                raise Fault(*place(inner, at))
            found.append(value)
        at = (item or byte).end()
    if not found:
        raise Fault(*place(inner, at))
    return bytes(found)


def read(text):
    """The bytes of a text: as it is, or as a source."""
    try:
        return as_it_is(text)
    except Fault:
        if not is_source(text):
            raise
        return source(text)


def is_source(text):
    """Whether all characters are printable ones, or beyond ASCII, tabs, and ends of lines."""
    return not re.search(rb"[\x00-\x08\x0b\x0c\x0e-\x1f\x7f]", text)


def found_at(text, line, column):
    """What stops a text at this place, in words."""
    lines = text.split(b"\n")
    rest = lines[line - 1][column - 1 :]
    if not rest:
        return "is the end" + " of the line" * (line < len(lines))
    return f"has '{chr(rest[0])}'" if 32 <= rest[0] <= 126 else f"has 0x{rest[0]:02x}"


def stop(text, fault):
    """The line that says where a text stops being hexadecimal; none of what doesn't look like text."""
    if text[:2] in (b"\xff\xfe", b"\xfe\xff"):
        return "? not hexadecimal text: UTF-16\n"
    if not text or not is_source(text):
        return ""
    columns = columns_of(text)
    in_layout = LITERAL.match(text) or re.match(BEFORE + NAMED, text)
    if has_two_readings(text) and not in_layout if columns is None else form_at(text, columns)[0] == "words":
        return "? not hexadecimal text: it has two readings\n"
    line, column = fault.args
    return f"? not hexadecimal text: line {line} column {column} {found_at(text, line, column)}\n"


def main(words):
    if len(words) < 2 or words[0] not in ("set", "file", "dump"):
        sys.exit(__doc__)
    for path in words[1:]:
        with open(path, "rb") as source:
            data = read(source.read())
        with open(os.path.splitext(path)[0] + ".explain", "w", encoding="ascii") as target:
            size = explaining.count(len(data), "byte")
            target.write(f"hexadecimal text, {size}: " + explaining.Explanation(words[0], data).text())


if __name__ == "__main__":
    main(sys.argv[1:])
