"""The drawing of all crates by layer at the head of docs/ARCHITECTURE.md, made from crates.txt.

Usage: python3 scripts/layers.py            writes the drawing anew
       python3 scripts/layers.py --check    ends with 1 if the page has another one
"""
import re
import sys
import textwrap
from pathlib import Path

TOP = Path(__file__).resolve().parent.parent
PAGE = TOP / "docs" / "ARCHITECTURE.md"

# What is around the drawing, and how wide it is.
BEGIN, END, WIDTH = "<!-- layers, by scripts/layers.py -->\n", "<!-- end of layers -->\n", 112


def sections():
    """The sections of crates.txt from the bottom up: the first words of its comment, and its crates."""
    found = []
    for line in (TOP / "crates.txt").read_text("utf-8").splitlines()[1:]:
        crate = re.match(r"(\w+)[^:#]*:", line)
        if line.startswith("# "):
            found.append((re.split(r"[:,]", line[2:])[0], []))
        elif crate:
            found[-1][1].append(crate[1])
    return found


def drawing():
    lines = []
    for title, crates in reversed(sections()):
        inside = textwrap.wrap(" · ".join(crates), WIDTH - 4, break_long_words=False, break_on_hyphens=False)
        lines.append(f"    ┌─ {title} " + "─" * (WIDTH - len(title) - 5) + "┐")
        lines += [f"    │ {it:<{WIDTH - 4}} │" for it in inside]
    lines.append("    └" + "─" * (WIDTH - 2) + "┘")
    return BEGIN + "\n" + "\n".join(lines) + "\n\n" + END


def written(page):
    """The page with the drawing."""
    before, _, rest = page.partition(BEGIN)
    return before + drawing() + rest.partition(END)[2]


def main(words):
    page = PAGE.read_text("utf-8")
    if words == ["--check"]:
        return 0 if page == written(page) else 1
    PAGE.write_text(written(page), "utf-8")
    return 0


if __name__ == "__main__":
    sys.exit(main(sys.argv[1:]))
