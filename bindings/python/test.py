"""python3 test.py [--ctypes]: what the binding does, from the specification and the contracts of the library.

With --ctypes it is tested as where the native part is not there. Else the native part is, which ./compile compiles.
"""
import json
import random
import sys
import threading
import unittest

BY_CTYPES = "--ctypes" in sys.argv
if BY_CTYPES:
    sys.argv.remove("--ctypes")
    sys.modules["vorxindak._native"] = None

from vorxindak import Error, Location, Schema, SchemaError, _errors, _Handle, _native, version

SDL = "type Query { greeting(name: String!): String }"


def read_reports(reports):
    """For each text what the reader of reports in use makes of it: errors, or None where the text is no report."""
    for text in reports:
        try:
            yield _errors(text.decode()) if BY_CTYPES else _native.read(text)
        except (ValueError, KeyError, TypeError):
            yield None


def some_text(numbers):
    """A text in which many characters have to be escaped, are long in UTF-8 or are one half of a pair."""
    characters = 'ab "\\/\n\x00\x1f\x7fé\u2028\ud7ff\ud83d\ude00\uffff😀'
    text = "".join(numbers.choices(characters, k=numbers.randrange(12)))
    return text.encode("utf-16", "surrogatepass").decode("utf-16", "surrogatepass")


def some_report(numbers):
    """A report in one of the ways to write it, and its errors."""
    errors, spelled = [], []
    for _ in range(numbers.randrange(4)):
        places = [Location(numbers.randrange(1, 10**9), numbers.randrange(1, 99)) for _ in range(numbers.randrange(3))]
        path = numbers.choice((None, some_text(numbers)))
        errors.append(Error(some_text(numbers), tuple(places), path))
        members = [(name, value) for name, value in errors[-1]._asdict().items() if value is not None]
        numbers.shuffle(members)
        spelled.append({**dict(members), "locations": [at._asdict() for at in places]})
    text = json.dumps(spelled, indent=numbers.choice((None, 2)), ensure_ascii=numbers.choice((False, True)))
    # A half of a pair has to be escaped.
    return text.encode(errors="backslashreplace"), errors


class Tests(unittest.TestCase):
    def test_errors(self):
        with Schema(SDL) as schema:
            self.assertEqual(schema.validate('{ greeting(name: "Ada") }'), [])
            unknown = Error('Unknown field "nam" on type "Query"', (Location(1, 3),))
            self.assertEqual(schema.validate("{ nam }"), [unknown])
            self.assertEqual(schema.validate(b"{ nam }"), [unknown])

    def test_syntax_errors(self):
        with Schema(SDL) as schema:
            (error,) = schema.validate("{ greeting(")
            self.assertEqual(error.locations, (Location(1, 12),))
            (error,) = schema.validate(b"{ a }\n# \xff")
            self.assertEqual(error.locations, (Location(2, 3),))
            self.assertEqual(len(schema.validate("")), 1)

    def test_texts_are_str_or_bytes(self):
        with Schema(SDL) as schema:
            for text in (5, None, bytearray(b"{ a }"), ["{ a }"]):
                with self.assertRaises(TypeError):
                    schema.validate(text)
            with self.assertRaises(TypeError):
                schema.validate("{ a }", max_errors="1")

    def test_messages(self):
        key = "".join(map(chr, range(32))) + '"\\/é\u2028😀\x7f'
        with Schema("type Query { find(by: Filter): Int } input Filter { name: Int }") as schema:
            errors = schema.validate_variables("query($by: Filter) { find(by: $by) }", {"by": {key: 1}})
        message = f'Variable "$by" got invalid value. In field "{key}": Unknown field.'
        self.assertEqual(errors, [Error(message, (Location(1, 7),))])

    def test_locations(self):
        query = 'query A { greeting(name: "Ada") }'
        with Schema(SDL) as schema:
            errors = schema.validate(f"{query}\n  {query}")
        message = "There can only be one operation named A"
        self.assertEqual(errors, [Error(message, (Location(1, 1), Location(2, 3)))])

    def test_reports(self):
        spelled = r'''[{"message": "\"\\\/\b\f\n\r\t\u001Fé\ud83d\ude00", "locations": [{"column": 2, "line": 1}]},
            {"message": "", "locations": [], "path": "0"}]'''
        meant = [Error('"\\/\b\f\n\r\t\x1fé😀', (Location(1, 2),)), Error("", (), "0")]
        broken = [spelled[:length] for length in range(len(spelled))]
        broken += ["{}", "null", "[1]", "[{}]", '[{"message": "a"}]', '[{"locations": []}]', spelled + "]"]
        found = list(read_reports(it.encode() for it in [spelled, "[ ]\n", *broken]))
        self.assertEqual(found, [meant, [], *[None] * len(broken)])
        self.assertEqual([type(it) for it in (*found[0], *found[0][0].locations)], [Error, Error, Location])

    def test_any_reports(self):
        numbers = random.Random(1)
        reports, meant = zip(*(some_report(numbers) for _ in range(1000)))
        self.assertEqual(list(read_reports(reports)), list(meant))

    def test_what_is_no_report(self):
        numbers = random.Random(2)
        for _ in range(3000):
            text = bytearray(some_report(numbers)[0])
            for _ in range(numbers.randrange(1, 4)):
                text[numbers.randrange(len(text))] = numbers.choice(b'\\"u0dD{}[],:\xed\xa0\x80\xc3 \x1f')
            (found,) = read_reports([bytes(text)])
            if found is not None:
                self.assertEqual(found, _errors(text.decode()))

    def test_columns_are_in_characters(self):
        with Schema(SDL) as schema:
            (error,) = schema.validate('{ greeting(name: "é") nam }')
            self.assertEqual(error.locations, (Location(1, 23),))

    def test_introspection(self):
        with Schema(SDL) as schema:
            query = "{ __schema { queryType { name } } }"
            self.assertEqual(schema.validate(query), [])
            self.assertEqual(len(schema.validate(query, introspection=False)), 1)

    def test_a_limit_on_errors(self):
        with Schema(SDL) as schema:
            counts = [len(schema.validate("{ a b c }", max_errors=it)) for it in (0, 1, 2, 3, 4)]
            self.assertEqual(counts, [3, 1, 2, 3, 3])

    def test_variables(self):
        query = "query($name: String!) { greeting(name: $name) }"
        with Schema(SDL) as schema:
            self.assertEqual(schema.validate_variables(query, {"name": "Ada"}), [])
            self.assertEqual(schema.validate_variables(query, '{"name": "Ada"}'), [])
            self.assertEqual(len(schema.validate_variables(query, {})), 1)
            self.assertEqual(len(schema.validate_variables(query, "[]")), 1)

    def test_faults_of_a_schema(self):
        with self.assertRaises(SchemaError) as raised:
            Schema("type Query { a: Int }", "type A { b: B }")
        (error,) = raised.exception.errors
        self.assertEqual(error.path, "1")
        for text in ("", "{}", b"\xff"):
            with self.assertRaises(SchemaError):
                Schema(text)

    def test_dialects(self):
        for dialect, count in (("october2021", 1), ("juniper", 0)):
            with Schema("type Query { a: Int } type Subscription { a: Int b: Int }", dialect=dialect) as schema:
                self.assertEqual(len(schema.validate("subscription { a b }")), count)
        with self.assertRaises(KeyError):
            Schema(SDL, dialect="other")

    def test_several_texts(self):
        with Schema("type Query { a: A }", "type A { b: Int }") as schema:
            self.assertEqual(schema.validate("{ a { b } }"), [])

    def test_long_reports(self):
        with Schema(SDL) as schema:
            names = [f"field{number}" for number in range(1000)]
            errors = schema.validate("{ " + " ".join(names) + " }")
            messages = [f'Unknown field "{name}" on type "Query"' for name in names]
            self.assertEqual([error.message for error in errors], messages)

    def test_closed(self):
        schema = Schema(SDL)
        schema.close()
        schema.close()
        with self.assertRaises(ValueError):
            schema.validate("{ a }")

    def test_answers_without_a_report(self):
        handle = _Handle()
        self.assertEqual(handle.errors(0), [])
        for status, raised in ((10, MemoryError), (1, ValueError)):
            with self.assertRaises(raised):
                handle.errors(status)

    def test_threads(self):
        with Schema(SDL) as schema:
            found = {}

            def work(number):
                name = f"field{number}"
                found[name] = {schema.validate(f"{{ {name} }}")[0].message for _ in range(200)}

            threads = [threading.Thread(target=work, args=[number]) for number in range(8)]
            for thread in threads:
                thread.start()
            work(8)
            for thread in threads:
                thread.join()
            self.assertEqual(len(found), 9)
            for name, messages in found.items():
                self.assertEqual(messages, {f'Unknown field "{name}" on type "Query"'})

    def test_form(self):
        self.assertEqual(_native is None, BY_CTYPES)

    def test_version(self):
        self.assertRegex(version(), r"^\d+\.\d+\.\d+$")


if __name__ == "__main__":
    unittest.main()
