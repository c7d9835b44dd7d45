"""The words of antt: tokens, brackets, binders, and which names of a text are free."""
import re
import sys
from collections import namedtuple

NAME = r"(?:«\w+»|[^\W\d]\w*(?:[-'][^\W_]\w*)*'*)"
TOKEN = re.compile(rf'"(?:\\.|[^"\\])*"|{NAME}(?:\.(?:{NAME}|\d+))*|\.(?:{NAME}|\d+)|\d+|\S')
IS_NAME = re.compile(rf"{NAME}(?:\.(?:{NAME}|\d+))*\Z")
WORDS = {"record", "in", "if", "then", "else", "elim", "as", "Type", "where", "pub", "abbrev", "data", "let", "λ", "unfoldable"}
CLOSING = {"(": ")", "{": "}", "[": "]"}
QUOTE = re.compile(r"⟦\s*<(.*?)>\s*⟧\.(\w+)", re.S)

# A definition of antt, a ghost item of a trait, an impl or a view, or a type of the program: the file where it stands, the
# module lines round it, its comment, its lines, and the names that it uses, each free and whole.
Item = namedtuple("Item", "kind file name modules comment lines uses")


def stop(words):
    sys.exit(f"theorem: {words}")


def tokens_of(text):
    return TOKEN.findall(re.sub(r"(?m)(^|\s)--\s.*$", "", text))


def is_plain(token):
    return bool(IS_NAME.match(token)) and "." not in token and token not in WORDS


def closing_of(tokens, start):
    """Where the bracket closes that opens at a token."""
    depth = 0
    for at in range(start, len(tokens)):
        depth += (tokens[at] in "([{") - (tokens[at] in ")]}")
        if depth == 0:
            return at
    return stop(f"a bracket is not closed: {' '.join(tokens[start : start + 9])}")


def binder_at(tokens, at):
    """The names that a bracket binds, as in `(x y : T)`, or none."""
    end = at + 1
    while end < len(tokens) and is_plain(tokens[end]):
        end += 1
    return tokens[at + 1 : end] if end < len(tokens) and tokens[end] == ":" else []


class Scopes:
    """Which names are bound where: a set for each open bracket, the innermost last, and what a closed one binds behind it."""

    def __init__(self, bound):
        self.bound, self.open, self.behind = set(bound), [set()], []

    def has(self, name):
        return name in self.bound or any(name in names for names in self.open)

    def enter(self, names):
        self.open.append(set())
        self.behind.append(names)

    def leave(self):
        self.open.pop()
        self.open[-1].update(self.behind.pop())

    def bind(self, names):
        self.open[-1].update(names)

    def next_part(self):
        self.open[-1].clear()


def lambda_binders(tokens, at):
    """Where the binders of a λ end, the names that they bind, and the tokens of their types."""
    end, names, types = at + 1, [], []
    while tokens[end] != ".":
        if tokens[end] in "({":
            close = closing_of(tokens, end)
            bound = binder_at(tokens, end)
            names += bound or [it for it in tokens[end:close] if is_plain(it)]
            types += tokens[end + len(bound) + 2 : close] if bound else []
            end = close
        else:
            names.append(tokens[end])
        end += 1
    return end, names, types


def let_pattern(tokens, at):
    """Where the pattern of a `let` ends, and the names in it."""
    end = at + 1
    while tokens[end] not in (":", "="):
        end = closing_of(tokens, end) + 1 if tokens[end] in CLOSING else end + 1
    return end, [it for it in tokens[at + 1 : end] if is_plain(it)]


def free_names(tokens, bound):
    """The names that are used and not bound in a term or a type, each with what qualifies it."""
    found, scopes, at = [], Scopes(bound), 0
    while at < len(tokens):
        token = tokens[at]
        if token in CLOSING:
            names = binder_at(tokens, at) if token != "[" else []
            scopes.enter(names)
            at += len(names)
        elif token in ")]}":
            scopes.leave()
        elif token in (",", ";"):
            scopes.next_part()
        elif token == "λ":
            at, names, types = lambda_binders(tokens, at)
            found += free_names(types, scopes.bound.union(*scopes.open))
            scopes.bind(names)
        elif token == "let":
            at, names = let_pattern(tokens, at)
            scopes.bind(names)
        elif IS_NAME.match(token) and token not in WORDS and tokens[at + 1 : at + 2] != ["="]:
            if not scopes.has(token.split(".")[0]):
                found.append(token)
        at += 1
    return found


def binders_of(tokens):
    """The names that the brackets of a header bind, as in `record R {S : T} (x : X) : ..`."""
    names = []
    for at, token in enumerate(tokens):
        if token in CLOSING:
            names += binder_at(tokens, at)
    return names


def is_constructor(name):
    return name[0].isupper() or name in ("true", "false", "zero", "suc", "inl", "inr", "tt", "refl")


def equation_names(tokens, bound, knows):
    """The free names of an equation: the variables of its patterns are bound in its body."""
    depth, at = 0, 1
    while depth or tokens[at] != "=":
        depth += (tokens[at] in "([{") - (tokens[at] in ")]}")
        at += 1
    names = [it for it in tokens[1:at] if IS_NAME.match(it) and it not in WORDS]
    used = [it for it in names if "." in it or knows(it)]
    return used + free_names(tokens[at + 1 :], bound | set(names) - set(used))
