"""The crates of this repository, as crates.txt and their folders say."""
import os
import re
import shutil
from pathlib import Path

TOP = Path(__file__).resolve().parent.parent
CRATES = TOP / "crates"

# The folders of a crate that the toolchain reads, and what a run of its program reads beside them.
PARTS = ("src", "specs", "proofs")
OF_A_RUN = ("args", "stdin", "stdout", "status", "data")


def uses():
    """The crates of this repository that each crate names."""
    lines = re.findall(r"(?m)^(\w+)[^:#\n]*:([^#\n]*)", (TOP / "crates.txt").read_text("utf-8"))
    return {name: [it for it in words.split() if (CRATES / it).is_dir()] for name, words in lines}


def with_below(crate, named):
    """The crate and all crates below it, lowest first."""
    found = {}
    for below in named[crate]:
        found.update(dict.fromkeys(with_below(below, named)))
    return [*found, crate]


def line_of(crate, top=TOP):
    """The crate's line of crates.txt."""
    return re.search(rf"(?m)^{crate}\b[^:\n]*:[^#\n]*", (top / "crates.txt").read_text("utf-8"))[0].strip()


def files(crate, parts=PARTS, top=TOP):
    """The files of a crate's parts, in an order that does not depend on the machine."""
    for part in parts:
        for folder, folders, names in os.walk(top / "crates" / crate / part):
            folders.sort()
            yield from (Path(folder, it) for it in sorted(names))


def lines(crate):
    """How many lines of code a crate has."""
    return sum(it.read_bytes().count(b"\n") for it in files(crate, ["src"]))


def has_tests(crate):
    """Whether a crate has tests."""
    return any(b"#[test]" in it.read_bytes() for it in files(crate, ["src"]))


def is_program(crate):
    return (CRATES / crate / "src" / "main.rt").exists()


def copy(chosen, parts, to):
    """Copies these parts of these crates alone to a folder, which rt takes for the top of a repository."""
    (to / ".git").mkdir(parents=True)
    (to / "crates.txt").write_text("".join(f"{line_of(it)}\n" for it in chosen), "utf-8")
    shutil.copyfile(TOP / "HANDLES", to / "HANDLES")
    for crate in chosen:
        for part in parts:
            source, target = CRATES / crate / part, to / "crates" / crate / part
            if source.is_dir():
                shutil.copytree(source, target)
            elif source.exists():
                target.parent.mkdir(parents=True, exist_ok=True)
                shutil.copyfile(source, target)
