"""docs/PROVED.md: the public calls that users name, each with the first sentence of its comment and its clauses' names.

Usage: python3 scripts/proved.py            writes the page anew
       python3 scripts/proved.py --check    ends with 1 if the page is not what it would write
"""
import re
import sys
from pathlib import Path

TOP = Path(__file__).resolve().parent.parent
PAGE = TOP / "docs" / "PROVED.md"

HEAD = """\
# What is proved, call by call

The calls that users name, each with the first sentence of its comment and the names of its clauses. Every function of
these crates is safe and returns, too. A clause is in the source, between the signature and the body, and its words are
definitions in the crate's `specs/` ([how to read a contract](how-to-read-a-contract.md)). A dash is for a clause
without a name, which mostly gives the exact result.

Users reach all of it through `validation` or `graphql`. A call that returns `Result` may run out of memory; its clauses
say what holds then. [THEOREM.md](THEOREM.md) shows the clause `valid` with every definition it depends on. This page is
made from the sources by `scripts/proved.py`.
"""

# The crates whose calls users name, by what they are for.
CRATES = {
    "Validation": ("validation", "walk", "variable_values", "literals"),
    "Trees and values": ("language_types", "language_values", "language"),
    "Schemas": ("meta", "schema", "type_system", "type_system_validity"),
    "Readers": ("graphql_reader", "expected_tokens", "sdl_faults"),
    "Programs and other languages": ("lint_report", "lint_app", "answers", "schema_answers", "vorxindak"),
}

# A public function with its comment, or the head of an impl block.
ITEM = re.compile(
    r"(?m)^(?P<impl>impl\b[^{]*?(?= \{| where|\n))"
    r"|^(?P<doc>(?:[ ]*///[^\n]*\n)*)(?:[ ]*#\[[^\n]*\n)*"
    r"[ ]*pub (?:unsafe )?(?:extern \"C\" )?fn (?P<name>\w+)(?P<rest>.*?\n[ ]*\{$)",
    re.S,
)


def sentence(doc):
    """The first sentence of a comment."""
    text = " ".join(it.strip()[3:].strip() for it in doc.splitlines())
    return re.split(r"(?<=[.:]) ", text)[0].rstrip(":") if text else ""


def type_of(head):
    """The type of an impl block, by the head of it."""
    while "<" in head:
        head = re.sub(r"<[^<>]*>", "", head)
    return head.split()[-1].removesuffix("Of")


def shown(crate):
    """The files of a crate, each with the names that users reach of it, or None for all."""
    folder = TOP / "crates" / crate / "src"
    root = (folder / "lib.rt").read_text("utf-8")
    reached = {}
    for module, names in re.findall(r"(?m)^pub use (?:crate::)?(\w+)::(?:\w+::)*(\{[^}]*\}|\w+);", root):
        reached.setdefault(module, set()).update(re.findall(r"\w+", names))
    private = re.findall(r"(?m)^mod (\w+);", root)
    for file in sorted(folder.rglob("*.rt")):
        module = file.relative_to(folder).parts[0].removesuffix(".rt")
        yield file, reached.get(module, set()) if module in private else None


def calls(source):
    """The public calls of a source with clauses: name with its type, comment, names of clauses."""
    of = ""
    for it in ITEM.finditer(source):
        if it["impl"]:
            of = type_of(it["impl"])
            continue
        is_method = re.match(r"\n*[ ]", it[0])
        clauses = re.findall(r"(?m)^\s+ensures (?:(\w+) )?\{", it["rest"])
        if clauses:
            within = f"{of}::" if is_method else ""
            yield within + it["name"], sentence(it["doc"]), [name or "-" for name in clauses]


def page():
    lines = [HEAD]
    for title, crates in CRATES.items():
        lines.append(f"\n## {title}\n\n| crate | call | what it does | clauses |\n|---|---|---|---|\n")
        for crate in crates:
            for file, names in shown(crate):
                for name, said, clauses in calls(file.read_text("utf-8")):
                    if names is None or name.split("::")[0] in names:
                        said = said.replace("|", "\\|")
                        lines.append(f"| `{crate}` | `{name}` | {said} | {', '.join(clauses)} |\n")
    return "".join(lines)


def main(words):
    if words == ["--check"]:
        return 0 if PAGE.read_text("utf-8") == page() else 1
    PAGE.write_text(page(), "utf-8")
    return 0


if __name__ == "__main__":
    sys.exit(main(sys.argv[1:]))
