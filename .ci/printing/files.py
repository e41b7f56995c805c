"""The files of a crate, each with its lines and its first sentence."""

from . import sources


def printed(crate):
    rows = [f"## {crate}", "", "| File | Lines | What is in it |", "|---|---|---|"]
    for path in sources.code(crate) + sources.definitions(crate) + sources.lemmas(crate):
        name = path.split("/", 2)[2]
        rows.append(f"| `{name}` | {len(sources.text_of(path).splitlines())} | {sources.first_sentence(path)} |")
    return "\n".join(rows)
