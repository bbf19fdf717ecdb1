"""What the sources of the crates declare: types, constants and traits of .rt files, as a reader of definitions sees them."""
import collections
import os
import re

HEAD = re.compile(r"(?m)^pub(?:\([a-z]+\))? (?:const |unsafe )*(struct|enum|type|const|trait|fn) (\w+)")
FIELD = re.compile(r"\b([A-Z]\w*)\b")
# what a reader of definitions has to see of a type that contracts see otherwise than by its fields
SEEN = re.compile(r"\s*ghost (Value|view|invariant)\b")


class Item:
    """A type, a constant, a trait or a call of a .rt file: its text, and the texts in which names are looked for."""

    def __init__(self, crate, file, kind, name, text, clauses):
        self.crate, self.file, self.kind, self.name, self.text, self.clauses = crate, file, kind, name, text, clauses
        self.lines = sum(1 for line in text.split("\n") if line.strip() and not line.strip().startswith(("//", "#[")))


class Source:
    """A .rt file: its items by name, and what its `use` lines bring in."""

    def __init__(self, crate, file, text):
        self.text = re.sub(r"#\[cfg\(test\)\]\s*mod \w+ \{.*", "", text, flags=re.S)
        self.items = {name: item for name, item in read_items(crate, file, self.text)}
        self.brings = dict(brought(crate, self.text))


def brought(crate, text):
    """Yields each name that a `use` line of Rust brings in, with the crate and the name that it has there."""
    for path in re.findall(r"(?m)^\s*(?:pub )?use ([a-z][^;]*);", text):
        head, _, rest = re.sub(r"\s+", " ", path).partition("::")
        for part in re.split(r"[,{}]", rest):
            old, _, new = part.strip().partition(" as ")
            old = old.rsplit("::", 1)[-1].strip()
            if old:
                yield (new.strip() or old), (crate if head in ("crate", "super") else head, old)


def closed(text, start):
    """Returns where the item that begins at `start` ends: behind its closing bracket or its semicolon."""
    depth = 0
    for place in range(start, len(text)):
        letter = text[place]
        depth += {"{": 1, "(": 1, "[": 1, "}": -1, ")": -1, "]": -1}.get(letter, 0)
        if not depth and letter == ";":
            return place + 1
        if not depth and letter == "}":
            return place + 1
    return len(text)


def told_before(text, start):
    """Returns the comment lines above an item, without attributes."""
    lines = []
    for line in reversed(text[:start].split("\n")[:-1]):
        if not line.startswith(("///", "//", "#[")):
            break
        lines.append(line)
    return [line for line in reversed(lines) if not line.startswith("#[")]


def without_code(body):
    """Returns a trait or an `impl Model` without what a reader needs not see: imports, and the bodies of methods."""
    kept, depth, skips = [], 0, False
    for line in body.split("\n"):
        if re.match(r"\s*ghost use ", line):
            continue
        if re.match(r"    \{$", line):
            skips = True
        if not skips:
            kept.append(line)
        if skips and line == "    }":
            skips = False
    return re.sub(r"\n\n\n+", "\n\n", re.sub(r"\{\n\n", "{\n", "\n".join(kept)))


def model_of(text, name):
    """Returns what contracts see of a type: the lines of its `impl Model`."""
    found = re.search(rf"(?m)^impl(?:<[^>]*>)? Model for {name}\b[^{{]*\{{", text)
    if not found:
        return None
    return without_code(text[found.start() : closed(text, found.start())])


def contract_of(text):
    """Returns a call up to its body."""
    lines = []
    for line in text.split("\n"):
        if line == "{":
            break
        lines.append(line)
    return "\n".join(lines).rstrip()


def read_items(crate, file, text):
    for match in HEAD.finditer(text):
        kind, name = match.groups()
        body = text[match.start() : closed(text, match.start())]
        clauses = body
        if kind == "fn":
            body = clauses = contract_of(text[match.start() :])
        elif kind == "trait":
            clauses, body = body, without_code(body)
        elif kind in ("struct", "enum"):
            model = model_of(text, name)
            if model:
                # its fields are its own matter
                clauses = model
                body = (body.split("{")[0].rstrip() + ";\n" if kind == "struct" else body + "\n") + "\n" + model
            else:
                ghosts = "\n".join(line for line in body.split("\n") if SEEN.match(line))
                clauses = body + ghosts
        yield name, Item(crate, file, kind, name, "\n".join([*told_before(text, match.start()), body]), clauses)


class Sources:
    """The .rt files of all crates."""

    def __init__(self, root, crates):
        self.files = collections.OrderedDict((crate, read_crate(root, crate)) for crate in crates)

    def find(self, crate, name, seen=()):
        """Returns the item of a crate with a name, also one that the crate hands on from another, or None."""
        if crate not in self.files or (crate, name) in seen:
            return None
        for source in self.files[crate].values():
            if name in source.items:
                return source.items[name]
        for source in self.files[crate].values():
            if name in source.brings:
                found = self.find(*source.brings[name], (*seen, (crate, name)))
                if found:
                    return found
        return None

    def named(self, item, name):
        """Returns the item that a name means in the file of another, or None."""
        source = self.files[item.crate][item.file]
        if name in source.items:
            return source.items[name]
        return self.find(*source.brings[name]) if name in source.brings else None


def read_crate(root, crate):
    found = {}
    for at, _, names in sorted(os.walk(f"{root}/crates/{crate}/src")):
        for name in sorted(names):
            if name.endswith(".rt"):
                with open(f"{at}/{name}", encoding="utf-8") as it:
                    path = os.path.relpath(f"{at}/{name}", root)
                    found[path] = Source(crate, path, it.read())
    return found
