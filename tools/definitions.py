"""Reads files of definitions: what their use lines bring, and the definitions that stand there."""

import re

USE = re.compile(r"^ *(?:ghost |unfoldable |pub )*use ([\w.]+?)(?:\.\{([^}]*)\}| as (\w+))?;?$", re.M)
HEAD = re.compile(r"^(?:(?:unfoldable|abbrev|pub|record|data) )*(\S+?)(?: [({].*)? :(?: |$)")
NAME = r"[^\W\d][\w'-]*"


def read(path):
    with open(path, encoding="utf-8") as file:
        return file.read()


class Definition:
    """A definition as its file has it: its name, its text with the comment above it, and the names that it makes known to others."""

    def __init__(self, file, name, lines):
        self.file, self.name, self.lines = file, name, lines
        self.text = "\n".join(lines) + "\n"
        self.code = re.sub(r"(?m)(^|\s)--\s.*$", "", self.text)
        kind = re.search(r"(?m)^(?:pub )?(record|data) ", self.code)
        self.fields = set(re.findall(rf"(?m)^ +(?:pub )?({NAME}) :", self.code)) if kind else set()
        self.makes = {name} | (self.fields if kind and kind[1] == "data" else set())


class File:
    """A file of definitions: what its use lines bring, and its definitions by their names."""

    def __init__(self, path, text):
        self.path = path
        self.brought, self.modules, self.passed = {}, {}, {}
        for line, module, names, alias in ((it[0], *it.groups()) for it in USE.finditer(text)):
            if alias:
                self.modules[alias] = module
            for word in (names or "").split(","):
                name, _, other = word.strip().partition(" as ")
                if name:
                    self.brought[other or name] = (module, name)
                    if "pub use" in line:
                        self.passed[other or name] = (module, name)
        self.definitions = {}
        for it in definitions_of(path, text.split("\n")) if path.endswith(".antt") else []:
            for name in it.makes:
                self.definitions.setdefault(name, it)


def definitions_of(path, lines):
    """Yields the definitions that the lines of a file have."""
    heads, names = [], set()
    for at, line in enumerate(lines):
        head = HEAD.match(line)
        # A clause of a definition may look like a head, but has a name that stands already.
        if head and head[1] not in names and not line.startswith(("use ", "--", " ", "infix")):
            heads.append(at)
            names.add(head[1])
    for at, after in zip(heads, heads[1:] + [len(lines)]):
        start = at
        while start > 0 and lines[start - 1].startswith(("--", "infix")):
            start -= 1
        end = after
        while end > at and (not lines[end - 1].strip() or lines[end - 1].startswith(("--", "infix"))):
            end -= 1
        yield Definition(path, HEAD.match(lines[at])[1], lines[start:end])
