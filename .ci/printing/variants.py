"""The variants of an enumeration: each with its number, if it has one, its name, and what its comment says."""

import re

from . import sources


def variants_of(text, name):
    """The names of the variants with their comments, and their numbers: those that the code gives, or their places."""
    body = re.search(rf"^pub enum {name} \{{\n(.*?)^\}}", text, flags=re.S | re.M)[1]
    found = re.findall(r"((?:^    ///.*\n)+)(?:^    #\[.*\n)*^    (\w+)", body, flags=re.M)
    given = dict(re.findall(rf"{name}::(\w+)(?:\(_\)| \{{ \.\. \}})? => (\d+),", text))
    has_numbers = re.search(rf"^impl {name} \{{.*?fn number", text, flags=re.S | re.M)
    for place, (comment, variant) in enumerate(found, 1):
        said = " ".join(re.sub(r"^ *///", "", comment, flags=re.M).split()).rstrip(".")
        said = re.sub(r"\[(`[^`]*`)\](?:\([^)]*\))?", r"\1", said).replace("|", "\\|")
        yield int(given.get(variant, place)) if has_numbers else None, variant, said


def printed(path, name):
    rows = list(variants_of(sources.text_of(f"crates/{path}.rt"), name))
    if rows[0][0] is None:
        table = ["| Name | Meaning |", "|---|---|"] + [f"| `{variant}` | {said} |" for _, variant, said in rows]
    else:
        table = ["| No. | Name | Meaning |", "|---|---|---|"]
        table += [f"| {number} | `{variant}` | {said} |" for number, variant, said in sorted(rows)]
    return "\n".join(table)


# What is put in a line beside words, and how a table shows it.
PUT = {
    **{"put_decimal": "N", "put_release": "N.NN", "put_word_code": "0xNNNN", "put_size_found": "wMaxPacketSize is N bytes"},
    **{"put_sizes": "SIZES", "speed_words": "SPEED", "packet_section": " (SECTION)"},
}


def texts_of(arm):
    """The texts that an arm puts: one of its words and numbers, and one of each that it names or that it puts else."""
    texts, arm = [""], re.sub(r'if [^{]*\{ "[^"]*" \} else', "", arm)
    values = "|".join(map(re.escape, PUT))
    for named, count, unit, word, value in re.findall(rf'(let \w+ = |\}} else \{{)|(put_count)\([^"]*"(\w+)"|"([^"]*)"|({values})\(', arm):
        if named:
            texts.append("")
        texts[-1] += f"N {unit}s" if count else word or PUT.get(value, "")
    return [text.removeprefix(", and ") for text in texts if text]


def lines(path, name, code):
    """What each variant says in an explanation, with its number if it has one: the arms of the file that puts the lines."""
    rows = []
    arms = dict(re.findall(rf"^        {name}::(\w+)(.*?)(?=^        \w+::|^    \}})", sources.text_of(f"crates/{code}.rt"), flags=re.S | re.M))
    for number, variant, said in variants_of(sources.text_of(f"crates/{path}.rt"), name):
        texts = ", ".join(f"`{text}`" for text in texts_of(arms.get(variant, "")))
        if number is not None:
            rows.append(f"| R{number} | {said} | {texts or 'below'} |")
        elif texts:
            rows.append(f"| {said} | {texts} |")
    head = ["| No. | What | Text |", "|---|---|---|"] if rows[0].startswith("| R") else ["| What | Text |", "|---|---|"]
    return "\n".join(head + rows)
