"""Documents of a fixed size that `./bench --documents` counts, each for the sample schema `pets`."""
import re

# What an application sends: two operations, and the fragments that they share.
UNIT = """\
query Overview($id: String, $surname: Boolean = true, $cmd: DogCommand, $full: Boolean!) {
  human(id: $id) {
    ...HumanCard
    relatives {
      ...HumanCard
      relatives @include(if: $full) {
        ...HumanName
        iq
      }
    }
    pets {
      ...PetCard
    }
  }
  dog {
    ...DogCard
    volume: barkVolume
  }
  cat {
    ...CatCard
  }
  pet {
    ...PetCard
  }
  catOrDog {
    __typename
    ... on Dog {
      ...DogCard
    }
    ... on Cat {
      ...CatCard
    }
  }
  dogOrHuman {
    ...Either
  }
}

query Commands($req: Int!, $opt: Int, $tags: [String], $input: ComplexInput, $pair: PairInput) {
  complicatedArgs {
    ...IntArgs
    ...Objects
    tagged: stringListArgField(stringListArg: $tags)
    twoTags: stringListArgField(stringListArg: ["one", "two"])
    sit: enumArgField(enumArg: SIT)
    heel: enumArgField(enumArg: HEEL)
  }
}

fragment HumanName on Human {
  name(surname: $surname)
}

fragment HumanCard on Human {
  ...HumanName
  ...BeingName
  iq
  pets {
    ...PetName
    ... on Dog {
      nickname
      barks
    }
    ... on Cat {
      nickname
      meows
    }
  }
}

fragment BeingName on Being {
  beingName: name
}

fragment PetName on Pet {
  petName: name(surname: true)
}

fragment PetCard on Pet {
  ...PetName
  ... on Dog {
    ...DogCard
  }
  ... on Cat {
    ...CatCard
  }
}

fragment DogCard on Dog {
  ...PetName
  ...BeingName
  nickname
  barks
  barkVolume @skip(if: $full)
  obeys: doesKnowCommand(dogCommand: $cmd)
  ...DogTricks
}

fragment DogTricks on Dog {
  sits: doesKnowCommand(dogCommand: SIT)
  heels: doesKnowCommand(dogCommand: HEEL)
  downs: doesKnowCommand(dogCommand: DOWN)
}

fragment CatCard on Cat {
  ...PetName
  ...BeingName
  nickname
  meows
  meowVolume @include(if: $full)
}

fragment Either on DogOrHuman {
  __typename
  ... on Human {
    ...HumanCard
    relatives {
      ...HumanName
      pets {
        ...PetName
      }
    }
  }
  ... on Dog {
    ...DogCard
  }
  ... on Being {
    ...BeingName
  }
}

fragment IntArgs on ComplicatedArgs {
  a: intArgField(intArg: $opt)
  b: nonNullIntArgField(nonNullIntArg: $req)
  c: multipleReqs(req1: $req, req2: 2)
  d: multipleOpts(opt1: 1)
  e: multipleOpts
  f: multipleOpts(opt2: $opt)
}

fragment Objects on ComplicatedArgs {
  ...Pairs
  given: complexArgField(complexArg: $input)
  fixed: complexArgField(complexArg: {requiredField: true, intField: 4, stringListField: ["x", "y"]})
}

fragment Pairs on ComplicatedArgs {
  pair: pairArgField(pairArg: $pair)
  fixedPair: pairArgField(pairArg: {a: 1, b: 2})
}
"""

# The names of its operations and fragments.
NAMES = re.compile(r"\b(?:" + "|".join(re.findall(r"(?m)^(?:query|fragment) (\w+)", UNIT)) + r")\b")

FRAGMENTS = UNIT[UNIT.index("fragment "):]


def numbered(text, number):
    """The text, with a number behind each name of an operation or a fragment."""
    return NAMES.sub(lambda it: f"{it[0]}_{number}", text)


def units(count):
    return "\n".join(numbered(UNIT, number) for number in range(count))


def one_operation(count):
    """One operation that spreads all fragments of so many units."""
    return (
        "query One($id: String, $surname: Boolean = true, $cmd: DogCommand, $full: Boolean!, $req: Int!, $opt: Int, "
        "$input: ComplexInput, $pair: PairInput) {\n"
        + "".join(screen(number) for number in range(count))
        + "}\n\n"
        + "\n".join(numbered(FRAGMENTS, number) for number in range(count))
    )


def screen(number):
    fields = (
        f"h{number}: human(id: $id) {{ ...HumanCard relatives {{ ...HumanCard }} }}",
        f"d{number}: dog {{ ...DogCard }}",
        f"p{number}: pet {{ ...PetCard }}",
        f"e{number}: dogOrHuman {{ ...Either }}",
        f"c{number}: complicatedArgs {{ ...IntArgs ...Objects }}",
    )
    return numbered("".join(f"  {it}\n" for it in fields), number)


def short_fields(count):
    """One operation with many short fields and no fragment."""
    inside = "name(surname: true) iq relatives { name pets { name ... on Dog { barks } } }"
    return "{\n" + "".join(f'  h{it}: human(id: "{it}") {{ {inside} }}\n' for it in range(count)) + "}\n"


def operations_over_chain(count):
    """As many operations as fragments, of which each spreads the next; all use one variable."""
    spreads = [f"...F{it}" for it in range(1, count)] + [""]
    operations = (f"query Q{it}($a: Boolean) {{ dog {{ name(surname: $a) ...F0 }} }}\n" for it in range(count))
    chain = (f"fragment F{it} on Dog {{ n{it}: name(surname: $a) {next} }}" for it, next in enumerate(spreads))
    return "".join(operations) + "\n".join(chain)


def repeated(levels):
    """One field twice in each set."""
    inside = "{ name }"
    for _ in range(levels):
        inside = f"{{ relatives {inside} relatives {inside} }}"
    return f"{{ human {inside} }}"


# A document's name and text, the millions of instructions that juniper's rules take, and the most that judging and
# reading are to take here.
DOCUMENTS = [
    ("units, 3 KB", UNIT, 1.37, 0.30, 0.15),
    ("units, 100 KB", units(38), 53.3, 9, 6),
    ("one operation, 100 KB", one_operation(51), 54.1, 9, 6),
    ("short fields, 100 KB", short_fields(946), 28.8, 9, 10),
    ("operations over a chain", operations_over_chain(300), 911, 30, 3.5),
    ("one field twice", repeated(10), 3428, 50, 3.5),
]
