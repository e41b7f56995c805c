"""The promises: each public call of a library with what its comment says, and the definitions that its contract cites."""

import re

from . import sources

# What programs name: a call of any library is for users where one of these hands it out.
DOORS = ["nozzlegorse", "usb_file", "usb_bus", "usb_tool", "usb_c"]
ITEM = re.compile(r"^( *)pub (extern \"C\" )?fn (\w+)")
HEAD = re.compile(r"^impl(?:<[^{]*?>)? (?:(\w+)[^{]* for )?(?:&(?:'\w+ )?(?:mut )?)?(\w+)")


def comment_of(above):
    """What a comment says: its first paragraph, and what stands below its heading of errors. Examples are left out."""
    text = re.sub(r"```.*?```", "", "\n".join(above), flags=re.S)
    text = re.sub(r"\[(`[^`]*`)\](?:\([^)]*\))?", r"\1", text)
    parts = [" ".join(part.split()) for part in re.split(r"\n\s*\n", text) if part.strip()]
    said = [part for part in parts[:1] if not part.startswith("#")]
    if "# Errors" in parts:
        below = parts[parts.index("# Errors") + 1 :]
        end = next((number for number, part in enumerate(below) if part.startswith("#")), len(below))
        said += ["*Errors:*", *below[:end]]
    return " ".join(said)


def cited(contract, imported):
    """The definitions of specs/ that a contract cites, in the order in which it does."""
    # The names of clauses are none.
    words = re.findall(r"[A-Za-z_]\w*", re.sub(r"\b(ensures|requires) \w+ \{", r"\1 {", contract))
    return list(dict.fromkeys(word for word in words if word in imported))


def imports_of(text):
    """The names that a file imports from definitions of this repository."""
    names = set()
    for found in re.finditer(r"ghost use Rattle\.usb_\w+\.specs\.(?!declared|inside|contracts)[\w.]*\.?\{([^}]*)\}", text):
        names.update(it.split(" as ")[-1].strip() for it in found[1].split(","))
    return names


def handed_out(crate):
    """What the root of a crate hands out: pairs of the crate that has it, this one or another, and a name."""
    text = sources.text_of(f"crates/{crate}/src/lib.rt")
    for found in re.finditer(r"^ *pub use (\w+)[\w:]*?::(?:\{([^}]*)\}|(\w+));", text, flags=re.M):
        for item in (found[2] or found[3]).split(","):
            if item.strip():
                yield found[1] if found[1].startswith("usb_") else crate, item.split(" as ")[0].strip()


def exported(crate):
    """The names of its own that a crate's root hands out, and its public modules."""
    text = sources.text_of(f"crates/{crate}/src/lib.rt")
    return {name for owner, name in handed_out(crate) if owner == crate}, set(re.findall(r"^pub mod (\w+);", text, flags=re.M))


def for_users(crate):
    """The names of a crate that are handed out to users."""
    return {name for door in DOORS for owner, name in handed_out(door) if owner == crate}


def calls_of(crate, names):
    """Each public call of a crate, of these names and of public modules: its name, what its comment says, and what its
    contract cites."""
    modules = exported(crate)[1]
    for path in sources.code(crate):
        text = sources.text_of(path)
        module, imported, owner, above = path.split("/src/")[1][:-3], imports_of(text), None, []
        lines = text.splitlines()
        for number, line in enumerate(lines):
            head = HEAD.match(line)
            if head is not None:
                owner = head[2]
            elif line.startswith("}"):
                owner = None
            comment = re.match(r"^ *///(?: (.*))?$", line)
            if comment is not None:
                above.append(comment[1] or "")
                continue
            item = ITEM.match(line)
            if item is not None:
                name = item[3] if owner is None else f"{owner}::{item[3]}"
                within = owner in names if owner else item[2] or item[3] in names or module in modules
                contract = []
                for further in lines[number + 1 :]:
                    if further.strip() in ("{", "{}") or further == item[1] + "}":
                        break
                    contract.append(further)
                if within:
                    prefix = f"{module}::" if module in modules else ""
                    yield prefix + name, comment_of(above), cited("\n".join(contract), imported)
            if not re.match(r"^ *#\[", line):
                above = []


def printed(*words):
    """A table of each of these libraries, or of what users call of any. Of a module, as `usb_bus::laws`, a table alone."""
    parts = []
    for word in words or sources.libraries():
        crate, _, module = word.partition("::")
        rows = ["| Call | What is promised | Definitions |", "|---|---|---|"]
        for name, said, definitions in calls_of(crate, exported(crate)[0] if words else for_users(crate)):
            if name.startswith(module):
                said = said.replace("|", "\\|")
                rows.append(f"| `{name.removeprefix(f'{module}::')}` | {said} | {', '.join(f'`{it}`' for it in definitions)} |")
        if len(rows) > 2:
            parts.append("\n".join([*([] if module else [f"### {crate}", ""]), *rows]))
    return "\n\n".join(parts)
