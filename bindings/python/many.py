"""many.py [--ctypes] COUNT [FORM]: validates so many documents, all of one form if it is given, and prints how many
errors they have. With --ctypes it does as where the native part is not there.
"""
import sys

if sys.argv[1] == "--ctypes":
    sys.modules["vorxindak._native"] = None
    del sys.argv[1]

from vorxindak import Schema

FORMS = (
    "query q%d($name: String!) { greeting(name: $name) }",
    '{ greeting(nam: "%d") { length } }',
    "{ field%d }",
    "{ greeting%d(",
)

forms = FORMS[int(sys.argv[2]) :][:1] if sys.argv[2:] else FORMS
with Schema("type Query { greeting(name: String!): String }") as schema:
    print(sum(len(schema.validate(forms[i % len(forms)] % i)) for i in range(int(sys.argv[1]))))
