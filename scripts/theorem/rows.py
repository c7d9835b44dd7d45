"""Rows of what the modules beside this one read: a text of the sources, and what is in it."""
from theorem.program import arguments_of, parameters_of, record_fields, split_generics
from theorem.words import equation_names, free_names, is_constructor, tokens_of

# A term or a type, and the names that are free in it.
TERMS = [
    ("f x (y : A) → B y", "f x A B"),
    ("λ x y. f x z", "f z"),
    ("λ (u : Use). u.name", "Use"),
    ("let (a, b) = p in g a c", "p g c"),
    ("(x : T) × P x", "T P"),
    ("(x : T) → (y : U x) → Q x y", "T U Q"),
    ("{S : Type 0} → List S", "List"),
    ("record { field = x; other = y }", "x y"),
    ("record w { errors = w.errors }", "w w.errors"),
    ("if is_some o then f o else g", "is_some o f o g"),
    ("(λ x. x, x)", "x"),
    ('codes "a name in a text"', "codes"),
    ("f x -- a comment on y", "f x"),
]

# An equation, and the names that it uses: constructors in its patterns count, variables there are bound.
EQUATIONS = [
    ("f (Some x) = g x", "Some g"),
    ("f None = []", "None"),
    ("f (x ∷ xs) k = h k xs", "h"),
    ("f definition.Fragment = e", "definition.Fragment e"),
]

# The head of a type or an impl, and its parts.
ARGUMENTS = [("A<B, C<D, E>, 'a>", ("A", ["B", "C<D, E>"])), ("Name", ("Name", []))]
PARAMETERS = [("<'a, S: Bound<T>, C>", ["S", "C"]), ("", [])]
GENERICS = [("<'a, S> Rule<S> for T", ("<'a, S>", "Rule<S> for T")), ("<A<B>> C", ("<A<B>>", "C"))]
FIELDS = [("record { a = x; b = (y, z) }", {"a": "x", "b": "(y, z)"})]


def wrong_rows():
    """The rows that are read as something else."""
    for text, names in TERMS:
        if free_names(tokens_of(text), set()) != names.split():
            yield text
    for text, names in EQUATIONS:
        if equation_names(tokens_of(text), set(), is_constructor) != names.split():
            yield text
    for read, rows in ((arguments_of, ARGUMENTS), (parameters_of, PARAMETERS), (split_generics, GENERICS), (record_fields, FIELDS)):
        yield from (text for text, parts in rows if read(text) != parts)
