"""The definitions that the contract of a call reaches: those that it names, those that these name, and so on."""

import re
import textwrap

from . import sources

HEAD = re.compile(r"^ *(?:(?:abbrev|unfoldable)(?: pub)?|pub record|pub data) (\w+)")
IMPORT = re.compile(
    r"^ *(?:ghost |pub )?use Rattle\.(usb_\w+)\.specs\.((?:inside\.)?[A-Z]\w*)(?:\.\{([^}]*)\}| as (\w+))", flags=re.M
)


class File:
    """A file of definitions, or of code with contracts: what it imports, and its definitions by their names."""

    def __init__(self, path):
        self.text = sources.text_of(path)
        self.imported, self.whole = {}, {}
        for crate, name, names, alias in IMPORT.findall(self.text):
            other = f"crates/{crate}/specs/{name.replace('.', '/')}.antt"
            for item in filter(None, (it.strip() for it in names.split(","))):
                self.imported[item.split(" as ")[-1]] = (other, item.split(" as ")[0])
            if alias:
                self.whole[alias] = other
        # Headings and definitions, in their order: a heading with the definitions below it. And the definition that each
        # name is of: its own, or that of a variant.
        self.parts, self.lines, self.owner = [], {}, {}
        if path.endswith(".antt"):
            self.divide()

    def divide(self):
        """Parts the file into its definitions, each with the comment right above it."""
        above, name = [], None
        self.parts.append(([], []))
        for line in sources.without_imports(self.text).splitlines():
            head = HEAD.match(line)
            if head:
                name = head[1]
                self.owner[name] = name
                self.parts[-1][1].append(name)
            if re.match(r" *--", line):
                above.append(line)
            elif not line.strip():
                if above:
                    self.parts.append((above, []))
                above = []
            elif name and not re.match(r" *module", line):
                self.lines.setdefault(name, []).extend([*above, line])
                above = []
                variant = re.match(r"^ +([A-Za-z]\w*) :", line)
                if variant:
                    self.owner[variant[1]] = name

    def excerpt(self, names):
        """These definitions, with their headings."""
        blocks = []
        for heading, below in self.parts:
            chosen = [self.lines[name] for name in below if name in names]
            blocks += [heading, *chosen] if chosen else []
        return "\n\n".join("\n".join(lines) for lines in blocks if lines)

    def named(self, text, path):
        """The definitions that a text of this file names, each by its file and its name. What is called like a field isn't."""
        text = re.sub(r"--.*|//.*|^ *pub \w+ :|[{;] *\w+ =|\b(?:ensures|requires) \w+ (?=\{)", " ", text, flags=re.M)
        for alias, word in re.findall(r"(?<![\w.])(?:([A-Za-z]\w*)\.)?([A-Za-z]\w*)", text):
            name = alias or word
            if alias in self.whole:
                yield self.whole[alias], word
            elif name in self.owner:
                yield path, name
            elif name in self.imported:
                yield self.imported[name]


def contract(call):
    """The file of a public function, as `usb_bus::enumerate` or `usb_device::Description::new`, and its signature with its
    contract."""
    crate, *owner, name = call.split("::")
    head = rf"^impl(?:<[^{{]*?>)? {owner[-1]}\b.*?" if owner and owner[-1][0].isupper() else ""
    for path in sources.code(crate):
        found = re.search(rf'{head}(^ *pub (?:extern "C" )?fn {name}\b.*?)^ *\{{(?:\}})?$', sources.text_of(path), flags=re.S | re.M)
        if found:
            return path, textwrap.dedent(found[1].rstrip())
    raise SystemExit(f"no public function {call}")


def views(text):
    """The definitions as which contracts see the types of a signature that hide their fields."""
    for path in (path for crate in sources.libraries() for path in sources.code(crate)):
        for name, body in re.findall(r"^impl(?:<.*?>)? Model for (\w+).*?\{\n(.*?)^\}", sources.text_of(path), flags=re.S | re.M):
            for crate, file, view in re.findall(r"use Rattle\.(\w+)\.specs\.(\w+)\.\{(\w+)\};\n\n *ghost Value", body):
                if re.search(rf"\b{name}\b", text):
                    yield f"crates/{crate}/specs/{file}.antt", view


def reached(call):
    """What a call's contract reaches of each file of definitions."""
    path, text = contract(call)
    files, found = {path: File(path)}, {}
    left = [*views(text), *files[path].named(text, path)]
    while left:
        path, name = left.pop()
        if path not in files:
            files[path] = File(path)
        file = files[path]
        if name not in file.owner:
            raise SystemExit(f"{path} has no definition {name}")
        owner = file.owner[name]
        if owner not in found.setdefault(path, set()):
            found[path].add(owner)
            left += file.named("\n".join(file.lines[owner]), path)
    return {path: files[path].excerpt(names) for path, names in found.items()}
