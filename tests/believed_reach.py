"""Which definitions cite which: those of specs/*.antt, and of src/*.rt the types and the contracts. A reading of text, not the checker's.
Where it errs it finds too much, since a variable with the name of a definition counts as a citation; at what it cannot read it stops."""
import functools
import re

NAME = r"[^\W\d_][\w'-]*"
# a function, a field or a constructor is declared by `NAME :`, a type by `record NAME` or `data NAME`, one of the code by `enum NAME` or `struct NAME`
DECLARED = re.compile(rf"(?:(?:abbrev|unfoldable|mutual|pub) )*(?:(?:record|data|enum|struct) ({NAME})|({NAME}) :)")
VARIANT = re.compile(rf"({NAME})(?:,| {{|\()")
STATEMENT = re.compile(rf"abbrev pub ({NAME}) : Type 0")
USE = re.compile(r"(?:ghost )?use Rattle\.(\w+)\.((?:specs|proofs)\.[\w.-]+?)(?:\.\{([^}]*)\}| as (\w+));?")


class Definition:
    """A line at the margin with what is indented under it, and the clauses up to a blank line; comments left out, and attributes."""

    def __init__(self, path, lines):
        self.path, self.lines, self.names = path, lines, []
        for line in lines:
            if found := DECLARED.match(line) or lines[0].startswith("pub enum ") and VARIANT.match(line):
                self.names += filter(None, found.groups())
        # what others cite it by: a field is written ` .field`, and its record stands in some type
        self.cited_as = self.names[:1] if lines[0].startswith("pub record ") else self.names

    def statement(self):
        """Its name if it is a statement, which is proved or not: a type without arguments."""
        found = STATEMENT.fullmatch(self.lines[0])
        return found and found[1]

    def is_exported(self):
        return any('extern "C"' in line for line in self.lines)


class File:
    """Its definitions, by the names that cite them too, and what it imports from the crates: names, and modules under an alias."""

    def __init__(self, path):
        self.path, self.imports, self.aliases = path, {}, {}
        comment = "//" if path.suffix == ".rt" else "--"
        parts, blank = [], True
        for line in path.read_text().splitlines():
            text = re.sub(rf"(^|\s){comment}.*", "", line).strip()
            if not line.strip():
                blank = True
            elif re.match(r"(ghost )?use ", text):
                self.add_import(text)
            elif path.suffix == ".rt" and re.match(r"#!?\[", text):
                continue
            elif text:
                if blank and not line.startswith(" "):
                    parts.append([])
                parts[-1].append(text)
                blank = False
        self.definitions = [Definition(path, lines) for lines in parts]
        self.cited = {name: definition for definition in self.definitions for name in definition.cited_as}

    def add_import(self, text):
        """Names of a module, or the module under an alias; what is no crate of ours is the kit's."""
        found = USE.fullmatch(text)
        if not found and "Rattle." in text:
            raise SystemExit(f"{self.path}: this import cannot be read: {text}")
        crates = next(folder for folder in self.path.parents if folder.name == "crates")
        if found and (crates / found[1]).is_dir():
            crate, module, names, alias = found.groups()
            path, enum = module_file(crates / crate, module)
            if alias:
                self.aliases[alias] = path, enum
            else:
                self.imports |= {name: (path, enum or name) for name in re.findall(NAME, names)}


def module_file(crate, module):
    """The file of a module, and the enum if it is that of one: from `enum Outcome` of src/outcome.rt the kit makes
    `specs.declared.outcome.Outcome`, and in it `TheVariants`."""
    parts = module.removesuffix(".TheVariants").split(".")
    if parts[1] == "declared":
        *folders, enum = parts[2:]
        return crate.joinpath("src", *folders or ["lib"]).with_suffix(".rt"), enum
    return crate.joinpath(*parts).with_suffix(".antt"), None


@functools.cache
def read(path):
    return File(path)


def defined(path, name):
    if name not in read(path).cited:
        raise SystemExit(f"{path} has no definition of {name}, which is imported from there")
    return read(path).cited[name]


@functools.cache
def cites(definition):
    """The definitions that this one names: those of its file, imported ones, and by an alias `alias.name`."""
    file = read(definition.path)
    text, found = "\n".join(definition.lines), []
    for alias, name in re.findall(rf"\b(\w+)\.({NAME})", text):
        if alias in file.aliases:
            path, enum = file.aliases[alias]
            found.append(defined(path, enum or name))
    # what else stands behind a dot is a field
    for name in re.findall(NAME, re.sub(rf"\.{NAME}", "", text)):
        if name in file.cited:
            found.append(file.cited[name])
        elif name in file.imports:
            found.append(defined(*file.imports[name]))
    return [other for other in dict.fromkeys(found) if other is not definition]


def reach(definitions):
    """These definitions and all that they cite, each with one that cites it."""
    reached, left = {}, [(definition, None) for definition in definitions]
    while left:
        definition, by = left.pop()
        if definition not in reached:
            reached[definition] = by
            left += [(other, definition) for other in cites(definition)]
    return reached
