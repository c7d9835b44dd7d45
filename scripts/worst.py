"""The families of documents that ask for the most work: what a server may be sent by someone who wants to stop it."""

# Each differs from its neighbours, and all have as many digits, so that texts grow by the number of pieces alone.
FIRST = 1_000

# A field that no `a` of another type can be merged with, where it stands beside none. So the name is plain nowhere,
# though nothing conflicts.
HUMAN_ELSEWHERE = "human { a: iq } "
DOG_ELSEWHERE = "dog { a: name } "

# A field of a type that can't be one object with `Human`: no `a` beside it is plainly alike, and none conflicts.
APART = "... on Being { ... on Dog { a: barkVolume } } "

# A field below which stands one that is not plain.
BELOW = "relatives { a: iq } "

# Two fields below which something conflicts, though not with what stands below others.
CONFLICT_BELOW = ["relatives { b: iq } ", "relatives { b: name } "]


def numbers(count):
    return range(FIRST, FIRST + count)


def spreads(count):
    return "".join(f"...F{n} " for n in numbers(count))


def nested(levels, inmost, elsewhere=""):
    """A selection set below so many inline fragments."""
    return "{ human { " + "... { " * levels + inmost + "} " * levels + "} " + elsewhere + "}"


def hub(own, below, levels=0):
    """Fields in nested sets that spread as many fragments, of which each spreads one with as many fields."""

    def text(count):
        around = "".join(f"fragment F{n} on Being {{ ...Hub }} " for n in numbers(count))
        fields = "... on Human { " + f"a: {below} " * count + "} " + APART
        inmost = f"a: {own} " * count + APART + spreads(count)
        return nested(levels * count, inmost, DOG_ELSEWHERE) + f" {around}fragment Hub on Being {{ {fields}}}"

    return text


def pairs(count):
    """Fields of one name in nested sets, which have to be compared in pairs."""
    return nested(count, "a: iq " * count + APART, DOG_ELSEWHERE)


def two_kinds(count):
    """Fields of one name on two types that can't be one object: each is compared with all others."""
    return nested(0, "a: iq " * count + "... on Being { ... on Dog { " + "a: barkVolume " * count + "} } ")


def kinds_and_a_conflict(count):
    """The same, with one field that conflicts with half of them."""
    return nested(0, "a: iq " * count + "... on Being { ... on Dog { " + "a: barkVolume " * count + "} } a: relatives { iq } ")


def kinds_of_two_sets(count):
    """The same with the one kind in a set, and the others in another."""
    others = "... on Being { ... on Dog { " + "a: barkVolume " * count + "} } a: relatives { iq } "
    return "{ human { " + "a: iq " * count + "} human { " + others + "} }"


def two_fragments(count):
    """Two fragments with fields of one name, of which each has one that conflicts with one of the other."""

    def fragment(name, other):
        return f"fragment {name} on Human {{ {'a: name ' * count}... on Being {{ ... on Dog {{ a: {other} }} }} }} "

    return "{ human { ...F ...G } } " + fragment("F", "name") + fragment("G", "nickname")


def below_one_name(count):
    """Fields of one name, below each of which stands a field that is not plain."""
    return nested(0, BELOW * count, DOG_ELSEWHERE)


def below_and_a_conflict(count):
    """The same, with one conflict below two others."""
    return nested(0, BELOW * count + "".join(CONFLICT_BELOW), DOG_ELSEWHERE)


def two_fragments_below(rest):
    """Such fields in two fragments, which may have one more each."""

    def text(count):
        one, other = (f"fragment {name} on Human {{ {BELOW * count}{more}}} " for name, more in zip("FG", rest))
        return f"{{ human {{ ...F ...G }} {DOG_ELSEWHERE}}} {one}{other}"

    return text


def fragments_below(own):
    """As many fragments with one such field each, all spread in one set, which may have fields of its own."""

    def text(count):
        around = "".join(f"fragment F{n} on Human {{ {BELOW}}} " for n in numbers(count))
        return f"{{ human {{ {BELOW * own * count}{spreads(count)}}} {DOG_ELSEWHERE}}} {around}"

    return text


def conflicts_below(count):
    """Fields of one name, of which each has a conflict below it with just one other."""
    return nested(0, "".join(f"relatives {{ a{n}: iq }} relatives {{ a{n}: name }} " for n in numbers(count)))


def plain(count):
    """Fields in nested sets that are plainly alike."""
    return nested(count, "iq " * count)


def failing(levels):
    """Fields of one name, half of which differ from the others, in one set or in nested ones."""
    return lambda count: nested(levels * count, "a: iq " * count + "a: name " * count)


def reasons(count):
    """Two fields of one name, below which each field of the one conflicts with each of the other."""
    return f"{{ human {{ relatives {{ {'a: iq ' * count}}} relatives {{ {'a: name ' * count}}} }} }}"


def reopened(count):
    """Sets below a field, each of which is searched with a chain of fragments from its end to its start."""
    chain = "".join(f"fragment F{n} on Human {{ ...F{n + 1} }} " for n in numbers(count))
    back = "".join(f"...F{n} " for n in reversed(numbers(count)))
    sets = "relatives { a: iq } " * count
    return f"{{ human {{ {sets}relatives {{ {back}}} }} {DOG_ELSEWHERE}}} {chain}fragment F{FIRST + count} on Human {{ a: iq }}"


def chained(count):
    """A chain of fragments, each with a field that is not plain."""
    chain = "".join(f"fragment F{n} on Dog {{ a: name ...F{n + 1} }} " for n in numbers(count))
    return f"{{ dog {{ ...F{FIRST} }} {HUMAN_ELSEWHERE}}} {chain}fragment F{FIRST + count} on Dog {{ a: name }}"


def each_later(count):
    """Fragments that each spread all later ones, with such a field."""
    later = {n: "".join(f"...F{it} " for it in range(n + 1, FIRST + count)) for n in numbers(count)}
    return f"{{ dog {{ ...F{FIRST} }} {HUMAN_ELSEWHERE}}} " + "".join(f"fragment F{n} on Dog {{ a: name {later[n]}}} " for n in later)


def operations(definition):
    """Operations that all reach one fragment, which uses a variable as often."""

    def text(count):
        uses = f"complicatedArgs {{ stringListArgField(stringListArg: [{'$a ' * count}]) }}"
        return "".join(f"query Q{n} {definition}{{ ...Uses }} " for n in numbers(count)) + f"fragment Uses on QueryRoot {{ {uses} }}"

    return text


def long_type(count):
    """A variable of a type of as many lists, which each error tells once more."""
    uses = f"complicatedArgs {{ stringListArgField(stringListArg: [{'$a ' * count}]) }}"
    return f"query ($a: {'[' * count}Int{']' * count}) {{ {uses} }}"


# A family: its name, how a document is made of a number of pieces, the first number, and whether the document is valid.
WORST = [
    ("fields in nested sets", pairs, 20, True),
    ("fields of two kinds", two_kinds, 40, True),
    ("fields below one name", below_one_name, 40, True),
    ("below one name in two fragments", two_fragments_below(["", ""]), 40, True),
    ("fragments below one name", fragments_below(0), 40, True),
    ("fields and fragments below one name", fragments_below(1), 20, True),
    ("plain fields in nested sets", plain, 100, True),
    ("a hub", hub("iq", "iq"), 20, True),
    ("a hub in nested sets", hub("iq", "iq", 1), 8, True),
    ("sets against a chain", reopened, 40, True),
    ("fields in a chain", chained, 200, True),
    ("fields in all later", each_later, 30, True),
    ("uses in operations", operations("($a: String) "), 40, True),
    ("wrong uses in operations", operations("($a: Int) "), 40, False),
    ("undefined in operations", operations(""), 40, False),
    ("a long type at each use", long_type, 200, False),
    ("failing fields", failing(0), 40, False),
    ("two kinds and a conflict", kinds_and_a_conflict, 40, False),
    ("two kinds in two sets", kinds_of_two_sets, 40, False),
    ("a conflict of two fragments", two_fragments, 40, False),
    ("below one name and a conflict", below_and_a_conflict, 40, False),
    ("a conflict below two fragments", two_fragments_below(CONFLICT_BELOW), 40, False),
    ("each a conflict below", conflicts_below, 20, False),
    ("one error of many reasons", reasons, 40, False),
    ("failing fields in nested sets", failing(1), 8, False),
    ("a hub with conflicts", hub("iq", "name"), 10, False),
]

# The part of the sample schema `pets` that they ask for.
PETS = """\
schema { query: QueryRoot }
interface Being { name(surname: Boolean): String }
type Human implements Being { name(surname: Boolean): String iq: Int relatives: [Human] }
type Dog implements Being { name(surname: Boolean): String nickname: String barkVolume: Int }
type ComplicatedArgs { stringListArgField(stringListArg: [String]): String }
type QueryRoot { human: Human dog: Dog complicatedArgs: ComplicatedArgs }
"""


def longest(make, bytes_at_most):
    """The longest text of a family that has at most so many bytes."""
    least, most = 1, 2
    while len(make(most)) <= bytes_at_most:
        least, most = most, 2 * most
    while most - least > 1:
        between = (least + most) // 2
        least, most = (between, most) if len(make(between)) <= bytes_at_most else (least, between)
    return make(least)
