"""The page: the headline, and all definitions that it depends on."""
import re

from theorem.closure import SILENCE, Closure, function_at
from theorem.program import Written, program_at
from theorem.specs import CRATES, TOP, Specs, uses_of
from theorem.words import stop

PAGE = TOP / "docs" / "THEOREM.md"

# The headline: its file, function and clause.
HEADLINE = CRATES / "validation" / "src" / "root_node.rt", "validate", "valid"

# The lists of the first stage's rules, of each dialect: a file, and a name in it.
RULES = [
    ("juniper's", CRATES / "rules_first_stage" / "src" / "rules.rt", "StageRules"),
    ("October 2021", CRATES / "rules_specified_stage" / "src" / "rules.rt", "SpecifiedStageRules"),
]

# The same theorem of one dialect alone.
OF_DIALECTS = [
    ("juniper's alone", (CRATES / "validation" / "src" / "rules.rt", "visit_all_rules", "valid")),
    ("October 2021 alone", (CRATES / "validation" / "src" / "specified_rules.rt", "visit_specified_rules", "valid")),
]

INTRODUCTION = """\
# The theorem, and what it stands on

The theorem of this repository says that `RootNode::validate` returns an empty list of errors if and only if the document is valid,
in the dialect of the root node's schema: juniper's, or that of October 2021.
It is the clause `valid` of that function, the headline below. A machine checks its proof, so nobody has to read that. What a
reader must believe is the meaning of "valid": the definitions on this page, each with its comment. None of them says how the program works.

A definition gives a name to a function or a type: first its type behind a colon, then equations, of which the first that fits counts.
A statement is a type, too, and it is true if and only if that type has a value. A `record` is true if and only if all its fields
are. A `data` is true if and only if one of its lines can be built, so each line is one way to prove it. For types of plain values
the same words hold: a `record` lists the parts of a value, and a `data` its forms.

| notation | meaning |
|---|---|
| `a ≡ b` | a equals b |
| `P × Q`, `P ⊎ Q` | both hold, at least one of them holds |
| `P → Q`, `P ↔ Q` | P implies Q, each implies the other |
| `⊥`, `⊤`, `Unit` | never true, always true, always true |
| `P → ⊥`, `¬ P` | P is false |
| `(x : T) → P` | P holds for every x of type T |
| `(x : T) × P` | P holds for some x of type T |
| `A → B`, `A × B` | for types of values: the functions from A to B, and the pairs of an A and a B |
| `f x y` | the function f of x and y |
| `λ x. e` | the function that takes x to e |
| `v.name`, `p.0`, `p.1` | a field of a record, the first and the second part of a pair |
| `{S : Type 0}` | a parameter that is left out where it is clear |
| `[]`, `x ∷ xs`, `xs ++ ys` | the empty list, a list that begins with x, one list after the other |
| `List ℕ`, `codes "…"` | a list of numbers, which is how names and texts stand as bytes; the bytes of a text |
| `module _ … where` | its parameters are parameters of each definition inside it |
| `S`, `C` | the type of the scalars in documents; the type of the checks that the types of a schema have |
| `fold-X`, `para-X`, `rec-X`, `out-X`, `X-F` | recursion over the type X of the program; one level of it, and the type of a level |
| `x.now`, `v.items` | the value behind a reference, the elements of a `Vec` |
| `IfOk result (λ v. P)` | P holds of v whenever the call returns `Ok(v)` |
| `⟦<T as Trait>⟧.x`, `S.x` | the ghost item x of the trait, as the type's `impl` gives it |
"""

ABOUT_DEFINITIONS = [
    "## Definitions",
    "",
    "Crates go from the top to the bottom, and the files of a crate in the order in which they are needed. Of each file only what the",
    "headline needs is shown, in the file's order. An `impl` says what a trait's ghost item is for a type, and `impl Model` as which value",
    "callers see it. Of a record that an `impl` gives only the fields are shown that some definition reads. What each rule asks stands above.",
    "",
]


class Theorem:
    """The headline, and all that it depends on."""

    def __init__(self, headline=HEADLINE):
        path, function, clause = headline
        self.program = program_at(path)
        self.comment, self.signature, clauses = function_at(self.program, function)
        if clause not in clauses:
            stop(f"{function} has no clause {clause}")
        self.clause = clauses[clause]
        self.closure = Closure()
        self.closure.meet_ghost_text(self.program, self.clause, {})
        if headline == HEADLINE:
            self.closure.meet_types(self.program, ["RootNodeOf"] + re.findall(r"[A-Z]\w*", self.signature))
        self.closure.meet_all()
        self.closure.name_unread()
        self.files = {}
        for item in self.closure.items.values():
            self.files.setdefault(item.file.path, []).append(item)

    def crates(self):
        """The crates that it stands on, from the top to the bottom."""
        order = re.findall(r"(?m)^(\w+)(?: staticlib)?:", (TOP / "crates.txt").read_text("utf-8"))
        used = {crate_of(it) for it in self.files}
        return [it for it in reversed(order) if it in used]

    def items_of(self, crate):
        return [it for path, items in self.files.items() if crate_of(path) == crate for it in items]


def rules_of(path, name):
    """The rules of a list, each with what it says of a document where it finds nothing."""
    closure = Closure()
    closure.meet_member(Written(program_at(path), name, {}), SILENCE)
    return closure.rules


def crate_of(path):
    return path.relative_to(CRATES).parts[0]


def is_code(line):
    return bool(line.strip()) and not line.lstrip().startswith(("--", "//"))


def counted(items):
    """How many definitions and lines of them there are, and how many types of the program, and lines of those."""
    of_types = [it for it in items if it.kind == "type"]
    others = [it for it in items if it.kind != "type"]
    lines = [sum(is_code(line) for it in some for line in it.lines) for some in (others, of_types)]
    return len(others), lines[0], len(of_types), lines[1]


COLUMNS = "definitions", "lines", "types", "lines of types"


def counts(theorem):
    """The counts in total and of each crate, from the top to the bottom."""
    yield "in total", counted(theorem.closure.items.values())
    for name, headline in OF_DIALECTS:
        yield name, counted(Theorem(headline).closure.items.values())
    for crate in theorem.crates():
        yield crate, counted(theorem.items_of(crate))


def shown_path(path):
    return path.relative_to(CRATES).as_posix()


def fenced(language, lines):
    return [f"```{language}", *lines, "```", ""]


def headline_lines(theorem):
    path, function, clause = HEADLINE
    lines = ["## The headline", "", f"From `{shown_path(path)}`:", ""]
    comment = [f"/// {it}".rstrip() for it in theorem.comment]
    signature = [re.sub(r"^    ", "", it) for it in theorem.signature.split("\n")]
    clause = f"    ensures {clause} {{ {theorem.clause} }}".split("\n")
    return lines + fenced("rust", comment + signature + [re.sub(r"^        ", "    ", it) for it in clause])


def rule_line(program, text):
    about = re.match(r"//! (.*(?:\n//! .*)*)", program.text).group(1).replace("\n//! ", " ")
    return [f"- **{program.path.stem}**: {about}  ", f"  `{' '.join(text.split())}`"]


def rule_lines():
    """The rules of both dialects, and those of one alone."""
    lists = [(name, path, list(reversed(rules_of(path, listed)))) for name, path, listed in RULES]
    shared = [it for it in lists[0][2] if it in lists[1][2]]
    lines = ["## The rules of the first stage", "", "Below each rule is the condition under which it finds nothing. The lists stand in"]
    lines += [" and ".join(f"`{shown_path(path)}`" for _, path, _ in lists) + ".", "", "In both dialects:", ""]
    lines += [line for it in shared for line in rule_line(*it)] + [""]
    for name, _, rules in lists:
        lines += [f"In {name} alone:".replace("juniper's alone", "juniper's dialect alone"), ""]
        lines += [line for it in rules if it not in shared for line in rule_line(*it)] + [""]
    return lines


def count_lines(theorem):
    lines = ["## How much it is", "", "Lines of code, without comments and blank lines. The types are those of the program, which definitions speak of.", ""]
    lines += ["| crate | " + " | ".join(COLUMNS) + " |", "|---" * 5 + "|"]
    for name, numbers in counts(theorem):
        lines.append(f"| {name} | " + " | ".join(f"{it:,}" for it in numbers) + " |")
    return lines + [""]


def qualifiers_of(specs, items):
    """What the short names stand for that qualify others in a file."""
    used = {token.split(".")[0] for it in items for token in uses_of(it) if "." in token}
    for name, path in specs.modules.items():
        if name in used:
            yield f"`{name}` stands for `{re.sub(r'^Rattle.|.The(?:Variants|Open)$', '', path)}`"


def specs_lines(specs, items):
    """The definitions of a file that are needed, in the order of the file, in their modules."""
    lines, modules = [], []
    order = list(specs.items)
    for item in sorted(items, key=lambda it: order.index(it.name)):
        common = 0
        while common < min(len(modules), len(item.modules)) and modules[common] == item.modules[common]:
            common += 1
        for depth in range(common, len(item.modules)):
            lines += ["  " * depth + item.modules[depth]]
        modules = item.modules
        indent = "  " * len(modules)
        lines += [indent + f"-- {it}" for it in item.comment] + [(indent + it).rstrip() for it in item.lines] + [""]
    heading = [f"#### {shown_path(specs.path)}", "", " ".join(specs.heading)]
    about = "; ".join(qualifiers_of(specs, items))
    return heading + ["", *([f"Here {about}.", ""] if about else []), *fenced("antt", lines[:-1])]


def program_lines(program, items):
    lines = []
    for item in items:
        lines += [f"/// {it}".rstrip() for it in item.comment] + item.lines + [""]
    return [f"#### {shown_path(program.path)}", "", *fenced("rust", lines[:-1])]


def library_lines(theorem):
    """The names of the standard library and of the logic that the definitions use, by their modules."""
    modules = {}
    for path, name in sorted(theorem.closure.library):
        modules.setdefault(path.replace("Rattle.", "", 1) or "of the logic itself", []).append(name)
    lines = ["## Names of the standard library", "", "Their definitions come with the toolchain.", ""]
    return lines + [f"- {path}: " + ", ".join(f"`{it}`" for it in names) for path, names in modules.items()]


def page(theorem):
    lines = [INTRODUCTION, *count_lines(theorem), *headline_lines(theorem), *rule_lines(), *ABOUT_DEFINITIONS]
    for crate in theorem.crates():
        numbers = counted(theorem.items_of(crate))
        lines += [f"### {crate}", ""]
        for path, items in theorem.files.items():
            shown = [it for it in items if it.kind != "rule"]
            if shown and crate_of(path) == crate:
                show = specs_lines if isinstance(shown[0].file, Specs) else program_lines
                lines += show(shown[0].file, shown)
    return "\n".join(lines + library_lines(theorem)) + "\n"
