"""The families of texts that ./bench measures: each is a text of any size, and what its growth shows."""
import json


def fill(size, piece, before="", after=""):
    """As many of a piece, which is given its number, as make so many bytes; one at least."""
    pieces, length, number = [before], len(before) + len(after), 0
    while number == 0 or length < size:
        pieces.append(piece(number))
        length += len(pieces[-1])
        number += 1
    return "".join(pieces) + after


# The first of the numbers in names. All have as many digits, so that twice as many pieces are twice as long a text.
FIRST = 100_000


def listed(before, piece, after, first=FIRST):
    """A document with so many of a piece, which is given its number, between two texts."""
    return lambda count: before + " ".join(piece.format(number) for number in range(first, first + count)) + after


def operation(number, ending=""):
    """An operation as an application sends it, with two fragments of its own, and the ending of their names."""
    return (
        f"query Screen{number}{ending}($id: String, $short: Boolean!) {{\n"
        "  human(id: $id) {\n    name(surname: true)\n    pets {\n      name\n      ... on Dog { barkVolume }\n"
        f"      ... on Cat {{ meowVolume }}\n    }}\n    ...HumanParts{number}{ending}\n  }}\n"
        "  dog @skip(if: $short) {\n    nickname\n    knows: doesKnowCommand(dogCommand: SIT)\n"
        f"    ...DogParts{number}{ending}\n  }}\n}}\n"
        + fragments(number, ending)
    )


def fragments(number, ending=""):
    return (
        f"fragment HumanParts{number}{ending} on Human {{\n  iq\n  relatives {{\n    name\n    iq\n  }}\n}}\n"
        f"fragment DogParts{number}{ending} on Dog {{\n  barkVolume\n  barks\n}}\n"
    )


def screen(number):
    """A part of the one operation of a document."""
    return (
        f"  part{number}: human(id: \"{number}\") {{\n    name(surname: true)\n"
        "    pets {\n      name\n      ... on Dog { barkVolume }\n"
        "      ... on Cat { meowVolume }\n    }\n  }\n"
        f"  knows{number}: dog @include(if: $long) {{\n    nickname\n    doesKnowCommand(dogCommand: SIT)\n  }}\n"
    )


def realistic(size):
    return fill(size, operation)


def ending_alike(size):
    """Realistic operations whose names, and those of their fragments, all end alike."""
    return fill(size, lambda number: operation(number, "OfTheShop"))


def one_operation(size):
    return fill(size, screen, "query All($long: Boolean!) {\n", "}\n")


def no_operation(size):
    return fill(size, fragments)


def definitions(number):
    """Definitions of a schema's text as a team writes them."""
    return (
        f'"""\nA screen of the application, and what it shows.\n"""\n'
        f"type Screen{number} implements Node & Titled {{\n"
        f'  "The key of the screen."\n  id: ID!\n  title(language: String = "en", limit: Int = {number}): String!\n'
        f"  parts(first: Int = 20, after: String, by: Order{number}): [Part{number}!]! "
        f"@cost(weight: {number}, of: [\"first\"])\n"
        f'  old: Boolean @deprecated(reason: "Ask for the parts.")\n}}\n'
        f"input Filter{number} {{\n  name: String = \"\", sizes: [Float!] = [0.5, 1.5e3]\n"
        f"  within: Filter{number} = {{name: null}}\n}}\n"
        f'enum Order{number} {{\n  "The name, from A."\n  NAME\n  SIZE @deprecated\n}}\n'
        f"union Part{number} = Text | Image | Screen{number}\n"
        f"extend type Query {{\n  screen{number}(id: ID!, where: Filter{number}): Screen{number}\n}}\n"
    )


def type_system(size):
    return fill(size, definitions)


def many(size):
    return fill(
        size,
        lambda number: (
            f"query Q{number} {{ dog {{ ...F{number} name nickname }} }}\n"
            f"fragment F{number} on Dog {{ barkVolume barks }}\n"
        ),
    )


def wide(size):
    return fill(size, lambda number: f" a{number}: name(surname: true)", "{ dog {", " } }")


def deep(size):
    return fill(
        size,
        lambda number: f"query Q{number} {{ human {{ " + "relatives { " * 998 + "name " + "} " * 998 + "} }\n",
    )


def chain(count):
    """Fragments that spread the next, and the field of the last one."""
    last = FIRST + count
    spreads = (f"fragment F{number} on Dog {{ ...F{number + 1} }} " for number in range(FIRST, last))
    return "".join(spreads) + f"fragment F{last} on Dog {{ name }}"


def operations_over_chain(count):
    operations = (f"query Q{number} {{ dog {{ ...F{number} }} }} " for number in range(FIRST, FIRST + count))
    return "".join(operations) + chain(count)


def towers(levels):
    """Two towers of fragments that spread the next below two fields: written out each has 2 ** levels of the last."""
    return "{ human { ...A1 ...B1 } }" + "".join(
        "".join(
            f" fragment {x}{n} on Human {{ l: relatives {{ ...{x}{n + 1} }} r: relatives {{ ...{x}{n + 1} }} }}"
            for n in range(1, levels + 1)
        )
        + f" fragment {x}{levels + 1} on Human {{ name }}"
        for x in "AB"
    )


def crossing(levels):
    """A tower of two fragments a level, of which each spreads both of the next level."""
    return (
        "{ human { name ...A1 } } fragment A1 on Human { ...A2 ...C2 }"
        + "".join(f" fragment {x}{n} on Human {{ ...A{n + 1} ...C{n + 1} }}" for n in range(2, levels) for x in "AC")
        + "".join(f" fragment {x}{levels} on Human {{ name }}" for x in "AC")
    )


def beside(levels):
    """Own fields that nest beside a tower of two fragments a level, each with both of the next level below a field."""
    return (
        "{ human { " + "relatives { " * levels + "name" + " }" * levels + " ...A1 ...C1 } }"
        + "".join(
            f" fragment {x}{n} on Human {{ relatives {{ ...A{n + 1} ...C{n + 1} }} }}"
            for n in range(1, levels + 1)
            for x in "AC"
        )
        + "".join(f" fragment {x}{levels + 1} on Human {{ name }}" for x in "AC")
    )


def all_in_one(count):
    numbers = range(FIRST, FIRST + count)
    spreads = "".join(f" ...F{n}" for n in numbers)
    return f"{{ dog {{{spreads} }} }}" + "".join(f" fragment F{n} on Dog {{ name }}" for n in numbers)


def each_later(count):
    return "{ dog { ...F0 } }" + "".join(
        f" fragment F{n} on Dog {{ name" + "".join(f" ...F{later}" for later in range(n + 1, count)) + " }"
        for n in range(count)
    )


def all_later(size):
    """Fragments that each spread all later ones, as many as the bytes hold: twice as many are four times as long."""
    count = 1
    while len(each_later(count + 1)) <= size:
        count += 1
    return each_later(count)


# The ten fields of each type of a schema: a name, arguments with their types, and a type. {0} is the number of the type
# that comes next.
TEN_FIELDS = [
    ("id", [], "ID!"),
    ("title", [("language", "String"), ("limit", "Int")], "String!"),
    ("size", [("unit", "String")], "Float"),
    ("count", [], "Int!"),
    ("isOpen", [], "Boolean"),
    ("tags", [], "[String!]!"),
    ("owner", [], "Type{0}"),
    ("parts", [("first", "Int"), ("after", "ID")], "[Type{0}!]!"),
    ("part", [("id", "ID!")], "Type{0}"),
    ("note", [], "String"),
]


def typed(count):
    """The names of a query root and so many types, each with its ten fields."""
    last = FIRST + count - 1
    names = [("Query", FIRST)] + [(f"Type{it}", FIRST if it == last else it + 1) for it in range(FIRST, last + 1)]
    for name, number in names:
        yield name, [(field, arguments, text.format(number)) for field, arguments, text in TEN_FIELDS]


def schema(count):
    """The definitions of so many types."""
    lines = []
    for name, fields in typed(count):
        lines.append(f"type {name} {{\n")
        for field, arguments, text in fields:
            listed_arguments = ", ".join(f"{argument}: {it}" for argument, it in arguments)
            lines.append(f"  {field}({listed_arguments}): {text}\n" if arguments else f"  {field}: {text}\n")
        lines.append("}\n")
    return "".join(lines)


def reference(text):
    """A type as an introspection result has it."""
    if text.endswith("!"):
        return {"kind": "NON_NULL", "name": None, "ofType": reference(text[:-1])}
    if text.startswith("["):
        return {"kind": "LIST", "name": None, "ofType": reference(text[1:-1])}
    return {"kind": "OBJECT" if text.startswith("Type") else "SCALAR", "name": text, "ofType": None}


def introspected(name, fields):
    """An object type as an introspection result has it."""
    members = [
        {
            "name": field,
            "description": None,
            "args": [
                {"name": argument, "description": None, "type": reference(it), "defaultValue": None}
                for argument, it in arguments
            ],
            "type": reference(text),
            "isDeprecated": False,
            "deprecationReason": None,
        }
        for field, arguments, text in fields
    ]
    own = {"kind": "OBJECT", "name": name, "description": None, "fields": members, "interfaces": []}
    return {**own, "inputFields": None, "enumValues": None, "possibleTypes": None}


def introspection(count):
    """The introspection result of a schema of so many types."""
    types = [introspected(name, fields) for name, fields in typed(count)]
    roots = {"queryType": {"name": "Query"}, "mutationType": None, "subscriptionType": None}
    return json.dumps({"data": {"__schema": {**roots, "types": types, "directives": []}}}, separators=(",", ":"))


# What stands round the items of an argument, and behind the keys of a default.
LIST_ARGUMENT, ITEMS = "{ complicatedArgs { stringListArgField(stringListArg: [", "]) } }"
WIDE = "}) { wide(input: $input) }"

# What stands behind the default of a variable that is a list.
LISTED = "]) { complicatedArgs { stringListArgField(stringListArg: $list) } }"

# A family: its name, how a text of a size is made, the first size (bytes, or entries of a list), and the schema or the
# reader that alone reads the text. No schema: one whose input object has so many fields.
FAMILIES = [
    ("realistic, 3 KB", realistic, 3_000, "pets"),
    ("realistic", realistic, 100_000, "pets"),
    ("names that end alike", ending_alike, 100_000, "pets"),
    ("one operation, 3 KB", one_operation, 3_000, "pets"),
    ("one operation", one_operation, 100_000, "pets"),
    ("no operation, 3 KB", no_operation, 3_000, "pets"),
    ("no operation", no_operation, 100_000, "pets"),
    ("many operations", many, 500_000, "pets"),
    ("wide set", wide, 500_000, "pets"),
    ("1,000 levels", deep, 500_000, "pets"),
    ("arguments that fit", listed("{ complicatedArgs { ", "a{0}: intArgField(intArg: {0})", " } }"), 10_000, "pets"),
    ("unknown arguments", listed("{ dog { name(", "a{0}: 1", ") } }"), 1_000, "pets"),
    ("one argument again", listed("{ dog { name(", "surname: true", ") } }"), 1_000, "pets"),
    ("directives of a field", listed("{ dog { name ", "@skip(if: true)", " } }"), 1_000, "pets"),
    ("unknown directives", listed("{ dog { name ", "@d{0}", " } }"), 1_000, "pets"),
    ("unknown keys", listed("{ complicatedArgs { complexArgField(complexArg: {", "k{0}: 1", "}) } }"), 1_000, "pets"),
    ("variables", listed("query (", "$v{0}: Int", ") { dog { name } }"), 1_000, "pets"),
    ("unknown fields", listed("{ dog { ", "f{0}", " } }"), 1_000, "pets"),
    ("fragments in a chain", lambda count: f"{{ dog {{ ...F{FIRST} }} }} " + chain(count), 5_000, "pets"),
    ("operations over it", operations_over_chain, 300, "pets"),
    ("two towers", towers, 20, "pets"),
    ("a crossing tower", crossing, 20, "pets"),
    ("fields beside a tower", beside, 20, "pets"),
    ("one field again", listed("{ dog { ", "name", " } }"), 2_500, "pets"),
    ("spreads in one set", all_in_one, 500, "pets"),
    ("spreads of all later", all_later, 10_000, "pets"),
    ("keys of a wide type", listed("{ wide(input: {", "k{0}: 1", "}) }", 0), 2_000, None),
    ("items of a list", listed(LIST_ARGUMENT, '"{0}"', ITEMS), 10_000, "pets"),
    ("list of values", listed("query ($list: [String] = [", '"{0}"', LISTED), 10_000, "pets"),
    ("keys of a wide input", listed("query ($input: Wide = {", "k{0}: 1", WIDE, 0), 1_000, None),
    ("values that don't fit", listed("query ($list: [String] = [", "{0}", LISTED), 10_000, "pets"),
    ("SDL, 1 MB", type_system, 1_000_000, "sdl"),
    ("queries, 1 MB", realistic, 1_000_000, "queries"),
    ("schema, 800 types", schema, 800, "schema"),
    ("schema, 1,600 types", schema, 1_600, "schema"),
    ("introspection, 800", introspection, 800, "introspection"),
    ("introspection, 1,600", introspection, 1_600, "introspection"),
]

def within(before, opening, inmost, closing, after):
    """A document in which so many of an opening are nested, each with its closing."""
    return lambda levels: before + opening * levels + inmost + closing * levels + after


def conflicts_below(levels):
    """Two fields of one response name at each level; those inside are not the same field."""
    towers = ["human " + "{ relatives " * levels + f"{{ x: {field} }}" + " }" * levels for field in ("name", "iq")]
    return "{ " + " ".join(towers) + " }"


# Documents of so many levels, each for the sample schema `pets`.
DEPTHS = [
    ("sets", within("{ human ", "{ relatives ", "{ name }", " }", " }")),
    ("inline fragments", within("{ ", "... { ", "dog { name }", " }", " }")),
    ("inline fragments with a type", within("{ dog { ", "... on Dog { ", "name", " }", " } }")),
    ("lists", within("{ complicatedArgs { stringListArgField(stringListArg: ", "[", "1", "]", ") } }")),
    ("objects", within("{ complicatedArgs { complexArgField(complexArg: ", "{stringField: ", "1", "}", ") } }")),
    ("unknown objects", within("{ dog { name(unknown: ", "{a: ", "$v", "}", ") } }")),
    ("list types", within("query ($list: ", "[", "Int", "]", ") { dog { name } }")),
    ("list types with a default", within("query ($list: ", "[", "Int", "]", " = 1) { dog { name } }")),
    ("defaults in lists", within("query ($list: [Int] = ", "[", "1", "]", ") { dog { name } }")),
    ("values of a directive", within("{ dog { name @skip(if: ", "[", "true", "]", ") } }")),
    ("conflicts below conflicts", conflicts_below),
    ("fragments in a chain", lambda levels: f"{{ dog {{ ...F{FIRST} }} }} " + chain(levels)),
    ("fields beside a chain", lambda levels: f"{{ dog {{ name ...F{FIRST} }} }} " + chain(levels)),
    ("a cycle of fragments", lambda levels: chain(levels).replace("{ name }", f"{{ ...F{FIRST} }}")),
]

# The values of their variables, which stand in the document as defaults, are judged, too.
VALUED = ("list of values", "keys of a wide input", "values that don't fit")

# The readers of a team's texts. The last two also make a schema.
READERS = ("sdl", "queries", "schema", "introspection")

# What is measured of a text.
PHASES = ("read", "walk", "values")


def phases_of(name, schema):
    """Which phases a family has."""
    if schema in READERS:
        return PHASES[:1]
    return PHASES if name in VALUED else PHASES[:2]
