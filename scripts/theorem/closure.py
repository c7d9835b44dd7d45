"""All that a clause depends on, in the order in which it is met."""
import re
from collections import Counter

from theorem.program import GhostItems, Written, arguments_of, braced, declared_at, declared_key, expanded, program_at
from theorem.program import record_fields
from theorem.specs import CRATES, Specs, specs_at, uses_of
from theorem.words import QUOTE, Item, free_names, stop, tokens_of

# The file with the two types of which lists of rules are built, and what each rule says of itself.
LIST = CRATES / "walk" / "src" / "rule.rt"
SILENCE = "finds_nothing"

class Closure:
    """All that a clause stands on, in the order in which it is met.

    Of a record that an impl gives only the fields count that some definition reads.
    """

    def __init__(self):
        self.ghost = GhostItems()
        self.items, self.waiting, self.library, self.rules = {}, [], Counter(), []
        self.read, self.given = set(), []

    def meet(self, key, make):
        if key not in self.items:
            self.items[key] = item = make()
            self.waiting.append(item)

    def meet_all(self):
        while self.waiting or self.meet_given():
            item = self.waiting.pop(0)
            if isinstance(item.file, Specs):
                self.read.update(part for line in item.lines for token in tokens_of(line) for part in token.split(".")[1:])
                for token in uses_of(item):
                    self.meet_token(item.file, token)
            else:
                for use in item.uses:
                    use()

    def meet_given(self):
        """Meets what the fields use that were read by now, and says whether something is to be followed."""
        for item, fields, use in self.given:
            for name in [it for it in fields if it in self.read]:
                item.lines.insert(-1, f"  {name} = {fields[name]};")
                use(fields.pop(name))
        return bool(self.waiting)

    def name_unread(self):
        """Says of each record that an impl gives which fields were not followed."""
        for item, fields, _ in self.given:
            if fields:
                item.lines.insert(-1, f"  // not needed here: {', '.join(fields)}")

    def meet_token(self, specs, token):
        """A name that a definition of specs/ uses."""
        head, _, rest = token.partition(".")
        if head in specs.items or head in specs.constructors:
            return self.meet_definition(specs, specs.constructors.get(head, head))
        if head in specs.names:
            return self.meet_path(*specs.names[head])
        if head in specs.modules:
            return self.meet_path(specs.modules[head], rest.split(".")[0])
        return self.library.update([("", head)])

    def meet_definition(self, specs, name):
        self.meet((specs.path, name), lambda: specs.items[name])

    def meet_path(self, path, name):
        """A name of a module of antt."""
        parts = path.split(".")
        if parts[0] == "Rattle" and parts[3:4] == ["declared"] and (CRATES / parts[1]).is_dir():
            return self.meet_declared(parts[1], parts[4:], name)
        specs = specs_at(path)
        if specs is None:
            return self.library.update([(path, name)])
        name = specs.constructors.get(name, name)
        if name in specs.items:
            return self.meet_definition(specs, name)
        if name in specs.reexported:
            return self.meet_path(*specs.reexported[name])
        return stop(f"{path} has no definition {name}")

    def meet_declared(self, crate, modules, name):
        """A type of the program, by its own name, or that of a form, of a fold or of a level of it."""
        modules = [it.strip("«»") for it in modules if it not in ("TheVariants", "TheOpen", "TheFolds")]
        own = re.sub(r"^(?:fold|out|para|rec)-|-F$", "", name.strip("«»"))
        for candidate in (own, modules[-1]):
            found = declared_at([crate] + modules[:-1] + [candidate])
            if found:
                return self.meet_type(found[0], found[1])
        return stop(f"{crate} declares no {'::'.join(modules)}")

    def meet_type(self, program, name):
        self.meet((program.path, name), lambda: self.read_type(program, name))

    def read_type(self, program, name):
        """A type as it is declared, or, where callers see it as a value, that view."""
        ghosts = self.ghost.of_types.get(((program.path, name), "view"))
        if ghosts:
            text, comment, _ = ghosts.items["view"]
            value = ghosts.items["Value"][0]
            lines = [f"impl Model for {ghosts.target}: ghost Value = {{ {value} }}"] + f"ghost view = {{ {text} }}".split("\n")
            return Item("view", program, name, [], comment, lines, [lambda: self.meet_ghost_text(program, f"{value} {text}", {})])
        comment, lines = declaration_of(program, name)
        types = re.findall(r"[A-Z]\w*", " ".join(it for it in lines[1:] if not it.lstrip().startswith("//")) or lines[0])
        return Item("type", program, name, [], comment, lines, [lambda: self.meet_types(program, types)])

    def meet_types(self, program, names):
        for name in names:
            key = declared_key(program, name)
            if key and program_at(key[0]).declaration(key[1]).group(1) in ("struct", "enum"):
                self.meet_type(program_at(key[0]), key[1])
            elif key and program_at(key[0]).declaration(key[1]).group(1) == "type":
                target = expanded(Written(program, name, {}))[0]
                if target:
                    self.meet_type(program_at(target[0]), target[1])

    def meet_ghost_text(self, program, text, parameters):
        """What a clause or a ghost item uses: definitions, members of traits, and what a type in a quote says."""
        for quoted, member in QUOTE.findall(text):
            self.meet_member(Written(program, quoted.rsplit(" as ", 1)[0], parameters), member)
        for token in free_names(tokens_of(QUOTE.sub(" ", text)), set()):
            head, _, rest = token.partition(".")
            if head in parameters:
                self.meet_member(parameters[head], rest)
            elif head in program.names:
                self.meet_path(*program.names[head])
            elif head in program.modules:
                self.meet_path(program.modules[head], rest.split(".")[0])
            elif rest in self.ghost.of_traits and (head == "Self" or len(head) == 1 and head.isupper()):
                self.meet_trait_member(self.ghost.of_traits[rest], rest)
            elif rest and len(head) == 1 and head.isupper():
                self.library.update([("", token)])

    def meet_trait_member(self, ghosts, name):
        """What a trait asks of its types."""
        text, comment, _ = ghosts.items[name]
        lines = f"trait {ghosts.trait}: ghost {name} : {{ {text} }}".split("\n")
        use = lambda: self.meet_ghost_text(ghosts.program, text, {})
        self.meet((ghosts.program.path, ghosts.trait, name), lambda: Item("ghost", ghosts.program, name, [], comment, lines, [use]))

    def meet_member(self, written, name):
        """What an impl says of a type; of a list of rules, what it says of each."""
        key, applied = expanded(written)
        ghosts = self.ghost.of_types.get((key, name))
        if ghosts is None:
            stop(f"no impl says what {name} is of {written.text}")
        text, comment, _ = ghosts.items[name]
        parameters = dict(zip(arguments_of(ghosts.target)[1], applied)) if ghosts.program.path == LIST else {}
        if (key, name) not in self.items:
            is_rule = name == SILENCE and ghosts.program.path != LIST and not QUOTE.search(text)
            item = Item("rule" if is_rule else "ghost", ghosts.program, f"{ghosts.target}.{name}", [], comment, [], [])
            self.meet((key, name), lambda: item)
            self.give(item, ghosts, name, text)
            if is_rule:
                self.rules.append((ghosts.program, text))
        if not record_fields(text):
            self.meet_ghost_text(ghosts.program, text, parameters)

    def give(self, item, ghosts, name, text):
        """Shows what an impl gives: a record only by the fields that are read, which are followed later."""
        fields, head = record_fields(text), f"impl {ghosts.trait} for {ghosts.target}: ghost {name} = "
        if fields:
            item.lines.extend([f"{head}{{ record {{", "} }"])
            self.given.append((item, fields, lambda field: self.meet_ghost_text(ghosts.program, field, {})))
        else:
            item.lines.extend(f"{head}{{ {text} }}".split("\n"))


def declaration_of(program, name):
    """The comment above a type, and its lines: what it is made of, without attributes and ghost fields."""
    found = program.declaration(name)
    start = program.text.rindex("\n", 0, found.start()) if found.start() else 0
    above = program.text[:start].split("\n")
    comment = []
    while above and above[-1].startswith(("///", "//", "#[")):
        line = above.pop()
        if line.startswith("//"):
            comment.insert(0, line.lstrip("/").strip())
    text = program.text[found.start() :]
    head = re.match(r"[^{;]*", text).group(0)
    if text[len(head)] == ";":
        return comment, [head.strip() + ";"]
    body, _ = braced(text, len(head))
    body = re.sub(r"(?ms)^ *ghost \w+: \{.*?\},\n", "", body)
    lines = [it for it in body.split("\n") if it.strip() and not it.lstrip().startswith("#[")]
    return comment, [head.strip() + " {"] + lines + ["}"] if lines else [head.strip() + " {}"]


def function_at(program, name):
    """The comment above a function, its signature, and its clauses by their names."""
    found = re.search(rf"(?m)((?:^ *//.*\n)*)^ *(pub fn {name}\b[^{{;]*?)\n? *(?=requires|ensures|\{{)", program.text)
    if not found:
        stop(f"{program.path} has no function {name}")
    comment = [it.strip().lstrip("/").strip() for it in found.group(1).splitlines()]
    clauses, at = {}, found.end()
    while True:
        clause = re.match(r"\s*(?:ensures|requires) *(\w*) *(?=\{)", program.text[at:])
        if not clause:
            return comment, found.group(2), clauses
        text, at = braced(program.text, at + clause.end())
        clauses[clause.group(1)] = text.strip()
