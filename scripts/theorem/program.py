"""The files of src/: what they use, the types that they declare, and the ghost items in them."""
import re
from collections import namedtuple

from theorem.specs import CRATES
from theorem.words import stop

# The files that were read, by their paths.
PROGRAMS = {}


def braced(text, start):
    """The text between a brace and the one that closes it, and where it ends."""
    depth = 0
    for at in range(start, len(text)):
        depth += (text[at] == "{") - (text[at] == "}")
        if depth == 0:
            return text[start + 1 : at], at + 1
    return stop(f"a brace is not closed: {text[start : start + 60]}")


def arguments_of(text):
    """The arguments of a type, as `A<B, C<D>>`: its head, and the types between its angles."""
    head, _, inner = text.strip().partition("<")
    parts, depth, last = [], 0, 0
    inner = inner.strip()[:-1] + ","
    for at, letter in enumerate(inner):
        depth += (letter in "<([") - (letter in ">)]")
        if letter == "," and depth == 0:
            parts.append(inner[last:at].strip())
            last = at + 1
    return head.strip(), [it for it in parts if it and not it.startswith("'")]


def parameters_of(text):
    """The names of the type parameters of a header, as `<'a, S: Bound, C>`."""
    return [re.split(r"[:=]", it)[0].strip() for it in arguments_of("_" + text)[1]] if text else []


class Program:
    """A file of src/: what it uses, its aliases of types, and its ghost items."""

    def __init__(self, path):
        self.path = path
        self.crate = path.relative_to(CRATES).parts[0]
        self.text = path.read_text("utf-8")
        self.names, self.modules, self.types = {}, {}, {}
        for uses in re.findall(r"\bghost use ([^;]+);", self.text):
            self.read_ghost_use(uses)
        for uses in re.findall(r"(?m)^\s*(?:pub )?use ([^;]+);", self.text):
            self.read_use(re.sub(r"\s+", "", uses.replace(" as ", "@")), [])

    def read_ghost_use(self, uses):
        path, _, names = uses.partition(".{")
        path, _, alias = path.partition(" as ")
        if not names:
            self.modules[alias or path.split(".")[-1]] = path
        for name in filter(None, (it.strip() for it in names.rstrip("}").split(","))):
            own, _, other = name.partition(" as ")
            self.names[other or own] = path, own

    def read_use(self, text, before):
        """Reads what a `use` brings in, as `a::{b, c::d}`: under each name its path."""
        head, brace, inner = text.partition("{")
        path = before + [it for it in head.split("::") if it]
        if not brace:
            name, _, other = path[-1].partition("@")
            self.types[other or name] = path[:-1] + [name] if name != "self" else path[:-1]
            return
        for part in arguments_of("_<" + inner.rstrip("}").replace("{", "<").replace("}", ">") + ">")[1]:
            self.read_use(part.replace("<", "{").replace(">", "}"), path)

    def module(self):
        """The path of the file's module, from its crate on."""
        parts = list(self.path.relative_to(CRATES / self.crate / "src").with_suffix("").parts)
        return [self.crate] + ([] if parts in (["lib"], ["main"]) else parts)

    def full_path(self, written):
        """The path of a type as the file writes it."""
        first, *rest = written.split("::")
        path = self.types.get(first, [first] if rest else self.module() + [first]) + rest
        if path[0] == "crate":
            return [self.crate] + path[1:]
        is_own = re.search(rf"(?m)^(?:pub )?mod {path[0]};", self.text)
        return self.module() + path if is_own else path

    def declaration(self, name):
        """Where the file declares a struct, an enum, a trait or an alias of this name, or none."""
        return re.search(rf"(?m)^(?:pub )?(struct|enum|trait|type) {name}\b", self.text)


def program_at(path):
    if path not in PROGRAMS:
        PROGRAMS[path] = Program(path)
    return PROGRAMS[path]


def programs():
    return [program_at(it) for it in sorted(CRATES.glob("*/src/**/*.rt"))]


def declared_at(path):
    """The file that declares the type of a path, through what modules re-export, or none where it is not of the repository."""
    crate, *modules, name = path
    source = CRATES / crate / "src"
    if not source.is_dir():
        return None
    candidates = [source.joinpath(*modules).with_suffix(".rt")] if modules else []
    for file in candidates + [source / "lib.rt"]:
        if not file.is_file():
            continue
        program = program_at(file)
        if program.declaration(name):
            return program, name
        if name in program.types:
            return declared_at(program.full_path(name))
    return None


def ghost_items(text, before):
    """The ghost items of a block: the name, the text in its braces, and the comment above it."""
    items = {}
    for found in re.finditer(rf"((?:^ *//.*\n)*)^ *ghost (\w+) *[:=] *(?=\{{)", text, re.M):
        comment = [it.strip().lstrip("/").strip() for it in found.group(1).splitlines()]
        items[found.group(2)] = braced(text, found.end())[0].strip(), comment, before + text[: found.start(2)].count("\n")
    return items


# What an impl or a trait says: its file, the trait, the type that it is for, its parameters, and its ghost items.
Ghosts = namedtuple("Ghosts", "program trait target parameters items")

HEADER = re.compile(r"^(?:pub )?(impl|trait)\b\s*([^{;]*?)\s*\{", re.M)


def read_ghosts(program):
    for found in HEADER.finditer(program.text):
        body, _ = braced(program.text, found.end() - 1)
        items = ghost_items(body, 0)
        if not items:
            continue
        header = re.sub(r"\s+", " ", found.group(2))
        generics, header = split_generics(header) if header.startswith("<") else ("", header)
        if found.group(1) == "trait":
            yield Ghosts(program, arguments_of(header.split(":")[0])[0], None, [], items)
        elif " for " in header:
            trait, target = header.split(" for ", 1)
            yield Ghosts(program, arguments_of(trait)[0], re.split(r" where ", target)[0], parameters_of(generics), items)


def split_generics(header):
    """The parameters between the first angles of a header, and what is behind them."""
    depth = 0
    for at, letter in enumerate(header):
        depth += (letter == "<") - (letter == ">")
        if depth == 0:
            return header[: at + 1], header[at + 1 :].strip()
    return "", header


class GhostItems:
    """The ghost items of the repository: of traits by their names, of impls by the type and the name."""

    def __init__(self):
        self.of_traits, self.of_types = {}, {}
        for program in programs():
            for ghosts in read_ghosts(program):
                for name in ghosts.items:
                    if ghosts.target is None:
                        self.of_traits.setdefault(name, ghosts)
                    else:
                        self.of_types[self.key(program, ghosts.target), name] = ghosts

    @staticmethod
    def key(program, written):
        head, _ = arguments_of(written)
        return declared_key(program, head)


def declared_key(program, written):
    """The file and the name of the type that a file writes so, or none."""
    found = declared_at(program.full_path(written)) if re.fullmatch(r"[\w:]+", written) else None
    return (found[0].path, found[1]) if found else None


# A type as a file writes it, with what stands for the parameters in it.
Written = namedtuple("Written", "program text parameters")


def expanded(written):
    """The type behind aliases and parameters: where it is declared, and what it is applied to."""
    head, arguments = arguments_of(written.text)
    if head in written.parameters:
        return expanded(written.parameters[head])
    applied = [Written(written.program, it, written.parameters) for it in arguments]
    key = declared_key(written.program, head)
    if key is None:
        return None, applied
    program, name = program_at(key[0]), key[1]
    alias = re.search(rf"(?ms)^(?:pub )?type {name}(<[^=]*>)? =\s*(.*?);", program.text)
    if alias is None:
        return key, applied
    return expanded(Written(program, alias.group(2), dict(zip(parameters_of(alias.group(1)), applied))))


def record_fields(text):
    """The fields of a record that a ghost item gives, or none where it gives something else."""
    found = re.fullmatch(r"record\s*\{(.*)\}", text, re.S)
    parts, depth, last = [], 0, 0
    body = found.group(1).rstrip().rstrip(";") + ";" if found else ""
    for at, letter in enumerate(body):
        depth += (letter in "({[") - (letter in ")}]")
        if letter == ";" and depth == 0:
            parts.append(body[last:at].strip())
            last = at + 1
    return dict(map(str.strip, it.split("=", 1)) for it in parts)
