"""The files of specs/: their imports, and the definitions in them."""
import re
from pathlib import Path

from theorem.words import NAME, Item, binders_of, equation_names, free_names, is_constructor, tokens_of

TOP = Path(__file__).resolve().parent.parent.parent
CRATES = TOP / "crates"

# The files that were read, by their paths.
SPECS = {}


class Specs:
    """A file of specs/: its imports, and its definitions in their order."""

    def __init__(self, path):
        self.path = path
        self.crate = path.relative_to(CRATES).parts[0]
        self.names, self.modules, self.reexported, self.items, self.heading = {}, {}, {}, {}, []
        self.constructors = {}
        lines = path.read_text("utf-8").split("\n")
        while lines and lines[0].startswith("--"):
            self.heading.append(lines.pop(0)[2:].strip())
        self.read_blocks([it for it in lines if not self.read_import(it)])

    def read_import(self, line):
        found = re.match(rf"(pub )?use ([\w.«»]+?)(?:\.\{{(.*)\}})?(?: as ({NAME}))?$", line)
        if not found:
            return bool(re.match(r"(pub )?mod ", line))
        is_public, path, names, alias = found.groups()
        if names is None:
            self.modules[alias or path.split(".")[-1]] = path
            return True
        for name in filter(None, (it.strip() for it in names.split(","))):
            own, _, other = name.partition(" as ")
            self.names[other or own] = path, own
            if is_public:
                self.reexported[other or own] = path, own
        return True

    def read_blocks(self, lines):
        """Reads the definitions, each in the modules whose indentation it has."""
        modules, comment, at = [], [], 0
        while at < len(lines):
            line, indent = lines[at], len(lines[at]) - len(lines[at].lstrip())
            if not line.strip():
                comment, at = [], at + 1
                continue
            modules = [it for it in modules if it[0] < indent]
            if line.lstrip().startswith("--"):
                comment.append(line.strip()[2:].removeprefix(" "))
                at += 1
            elif line.lstrip().startswith("module _"):
                modules, comment, at = modules + [(indent, line.strip())], [], at + 1
            else:
                end = self.definition_end(lines, at, indent)
                self.add(lines[at:end], indent, [it for _, it in modules], comment)
                comment, at = [], end

    @staticmethod
    def definition_end(lines, start, indent):
        """Where a definition ends: behind its equations, or the fields or forms of a record or data type."""
        name, end = defined_name(lines[start].strip()), start + 1
        while end < len(lines) and lines[end].strip():
            deeper = len(lines[end]) - len(lines[end].lstrip()) > indent
            if not deeper and lines[end].strip().split(" ")[0] != name:
                break
            end += 1
        return end

    def add(self, lines, indent, modules, comment):
        kind, name = lines[0].strip().split(" ")[0], defined_name(lines[0].strip())
        lines = [it[indent:] for it in lines]
        kind = re.match(r"(?:pub )?(record|data)\b|", lines[0]).group(1) or "function"
        if name in self.items:
            return self.items[name].lines.extend(lines)
        self.items[name] = Item(kind, self, name, modules, comment, lines, [])
        if kind == "data":
            for line in lines[1:]:
                form = re.match(rf"  (?:pub )?({NAME}) :", line)
                if form:
                    self.constructors[form.group(1)] = name

    def knows_constructor(self, name):
        """Whether a name in a pattern is that of a form, and no variable."""
        if name in self.constructors:
            return True
        if name not in self.names:
            return False
        path, own = self.names[name]
        specs = specs_at(path)
        return own in specs.constructors if specs else is_constructor(own)


def defined_name(line):
    return re.sub(r"^(?:(?:abbrev|pub|unfoldable|record|data|opaque) )*", "", line).split(" ")[0]


def clauses_of(lines):
    """The clauses of a definition: a line that is not indented begins one."""
    clauses = []
    for line in lines:
        if line.startswith(" ") and clauses:
            clauses[-1] += "\n" + line
        else:
            clauses.append(line)
    return clauses


def module_names(item):
    """What the modules round a definition bind, and the free names of their headers."""
    bound, used = set(), []
    for header in item.modules:
        tokens = tokens_of(header)[2:]
        used += free_names(tokens, bound)
        bound.update(binders_of(tokens))
    return bound, used


def parts_of_type(item, bound):
    """The free names of a record or a data type: a field is bound in those behind it."""
    head, *rest = clauses_of([re.sub(r"^  (?=\S)", "", it) for it in item.lines])
    tokens = tokens_of(head)
    used = free_names(tokens[tokens.index(item.name) + 1 :], bound)
    bound = bound | set(binders_of(tokens))
    for clause in rest:
        tokens = [it for it in tokens_of(clause) if it != "pub"]
        if not tokens:
            continue
        used += free_names(tokens[2:], bound)
        if item.kind == "record":
            bound.add(tokens[0])
    return used


def uses_of(item):
    """The free names of a definition, in their order."""
    bound, used = module_names(item)
    if item.kind != "function":
        return used + parts_of_type(item, bound)
    signature, *equations = clauses_of(item.lines)
    tokens = tokens_of(signature)
    used += free_names(tokens[tokens.index(item.name) + 1 :], bound)
    for equation in equations:
        tokens = tokens_of(equation)
        if tokens:
            used += equation_names(tokens, bound, item.file.knows_constructor)
    return used


def specs_at(path):
    """The file of specs/ that a path of antt names, or none where it is not of the repository."""
    parts = path.split(".")
    if parts[0] != "Rattle" or not (CRATES / parts[1]).is_dir() or parts[3:4] == ["declared"]:
        return None
    file = CRATES.joinpath(*parts[1:]).with_suffix(".antt")
    if not file.is_file():
        file = CRATES.joinpath(*parts[1:]) / "Lib.antt"
    if not file.is_file():
        return None
    if file not in SPECS:
        SPECS[file] = Specs(file)
    return SPECS[file]
