"""GraphQL validation, proved.

    with Schema("type Query { greeting(name: String!): String }") as schema:
        for error in schema.validate("{ greeting(nam: 1) }"):
            print(error.message, error.locations)
"""
import ctypes
import json
import os
import threading
from pathlib import Path
from typing import Any, List, Mapping, NamedTuple, Optional, Tuple, Union

try:
    from . import _native
except ImportError:
    # ctypes does the same, with more instructions.
    _native = None

__all__ = ["Error", "Location", "Schema", "SchemaError", "version"]

_VALID, _INVALID, _UNREADABLE, _FAULTY_SCHEMA, _NO_VALUES, _NOT_UTF8, _CLOSED = range(7)
_TOO_SMALL, _OUT_OF_MEMORY = 8, 10
_NO_INTROSPECTION = 1
_DIALECTS = {"october2021": 0, "juniper": 2}


class _Slot(ctypes.Structure):
    _fields_ = [("is_open", ctypes.c_bool), ("at", ctypes.c_void_p)]


class _Raw(ctypes.Structure):
    _fields_ = [("is_open", ctypes.c_bool), ("slot", _Slot)]


def _load() -> ctypes.CDLL:
    """The library: $VORXINDAK_LIBRARY, the one beside this file, or the system's.

    Its calls are given arguments of their types. If ctypes had to convert them, that would take longer than a call.
    """
    named = os.environ.get("VORXINDAK_LIBRARY")
    beside = Path(__file__).with_name("libvorxindak.so")
    return ctypes.CDLL(named or (str(beside) if beside.exists() else "libvorxindak.so"))


_library = _load()
_validate = _library.vorxindak_validate
_validate_variables = _library.vorxindak_validate_variables
_library.vorxindak_close.restype = None
# A copy is too short for other threads to be let run beside it.
_report = ctypes.PyDLL(_library._name, handle=_library._handle).vorxindak_report

# Makes an argument of C's type size_t.
_size = ctypes.c_size_t.from_param
_DEFAULT_LIMIT = _size(1000)

# Reads JSON at a place of a text. json.loads calls it between regular expressions for white space.
_scan = json.JSONDecoder().scan_once
# Makes named tuples at once, where their class has a function in Python for it.
_new = tuple.__new__


class Location(NamedTuple):
    """A place of a text. Line and column count from 1, the column in characters."""

    line: int
    column: int


class Error(NamedTuple):
    """What is wrong, and where. `path` is the number of the text for faults of a schema, and else None."""

    message: str
    locations: Tuple[Location, ...]
    path: Optional[str] = None


class SchemaError(ValueError):
    """Texts are no schema."""

    def __init__(self, errors: List[Error]) -> None:
        super().__init__("; ".join(error.message for error in errors))
        self.errors = errors


if _native:
    _calls = (_validate, _validate_variables, _report)
    _native.bind(*(ctypes.cast(it, ctypes.c_void_p).value for it in _calls), _new, Error, Location)


def version() -> str:
    """The version of the library."""
    number = _library.vorxindak_version()
    return f"{number // 1_000_000}.{number // 1_000 % 1_000}.{number % 1_000}"


class _Handle:
    """A handle of the library, with arguments of its calls. It is closed when nothing refers to it."""

    def __init__(self) -> None:
        self.raw = _Raw()
        self.at = ctypes.byref(self.raw)
        self.address = ctypes.addressof(self.raw)
        self.needed = ctypes.c_size_t()
        self.needed_at = ctypes.byref(self.needed)
        self.make_room(0 if _native else 4096)

    def make_room(self, size: int) -> None:
        self.size = _size(size)
        self.room = bytearray(size)
        self.room_at = ctypes.byref((ctypes.c_char * size).from_buffer(self.room))

    def errors(self, status: int) -> List[Error]:
        """The errors that a call has found which answered so."""
        if _native:
            return _native.errors(self.address, status)
        if status == _VALID:
            return []
        if status == _OUT_OF_MEMORY:
            raise MemoryError
        status = _report(self.at, self.room_at, self.size, self.needed_at)
        if status == _TOO_SMALL:
            self.make_room(self.needed.value)
            status = _report(self.at, self.room_at, self.size, self.needed_at)
        if status != _VALID:
            raise ValueError("the schema is closed")
        return _errors(self.room[: self.needed.value].decode())

    def __del__(self) -> None:
        _library.vorxindak_close(self.at)


class _Handles(threading.local):
    """The handles of the threads that use a schema. A thread's first use of this makes its own."""

    def __init__(self, first: _Handle, lock: threading.Lock) -> None:
        self.handle = _Handle()
        with lock:
            status = _library.vorxindak_share(first.at, self.handle.at)
        if status != _VALID:
            raise MemoryError


class _Closed:
    """What stands in place of the handles of a schema that was closed."""

    @property
    def handle(self) -> _Handle:
        raise ValueError("the schema is closed")


def _errors(report: str) -> List[Error]:
    """The errors of a report. Raises ValueError, KeyError or TypeError of a text that is none."""
    try:
        items, end = _scan(report, 0)
    except StopIteration:
        raise ValueError("a report is JSON") from None
    if not isinstance(items, list) or report[end:].strip():
        raise ValueError("a report is one list")
    errors = []
    for it in items:
        locations = []
        for at in it["locations"]:
            locations.append(_new(Location, (at["line"], at["column"])))
        errors.append(_new(Error, (it["message"], tuple(locations), it.get("path"))))
    return errors


def _bytes(text: Union[str, bytes]) -> bytes:
    if isinstance(text, str):
        return text.encode()
    if isinstance(text, bytes):
        return text
    raise TypeError("a text is str or bytes")


class Schema:
    """A schema: type definitions, the JSON result of an introspection query, or several texts of both.

    Any thread may use it, each by a handle of its own. The rules are those of the specification of October 2021, or
    those of the dialect "juniper". Raises SchemaError if the texts are no schema, and KeyError of another dialect.
    """

    def __init__(self, *texts: Union[str, bytes], dialect: str = "october2021") -> None:
        flags = _DIALECTS[dialect]
        joined = b"\0".join(map(_bytes, texts))
        # The handles of the threads are shared from it, under a lock. No document is judged by it.
        first = _Handle()
        status = _library.vorxindak_open(first.at, joined, _size(len(joined)), flags)
        if status != _VALID:
            raise SchemaError(first.errors(status))
        self._threads: Union[_Handles, _Closed] = _Handles(first, threading.Lock())

    def validate(
        self, query: Union[str, bytes], *, introspection: bool = True, max_errors: int = 1000
    ) -> List[Error]:
        """The errors of a document, in ascending order; none if and only if it is valid.

        There are at most `max_errors` of them, or all for 0. One with a long message counts as several: one, and one
        more for each 4,096 bytes of its message. A text that is not a document has its syntax error.
        """
        handle, text = self._threads.handle, _bytes(query)
        flags = 0 if introspection else _NO_INTROSPECTION
        if _native:
            return _native.validate(handle.address, text, None, max_errors, flags)
        limit = _DEFAULT_LIMIT if max_errors == 1000 else _size(max_errors)
        status = _validate(handle.at, text, _size(len(text)), limit, flags)
        return handle.errors(status)

    def validate_variables(
        self,
        query: Union[str, bytes],
        values: Union[Mapping[str, Any], str, bytes],
        *,
        introspection: bool = True,
        max_errors: int = 1000,
    ) -> List[Error]:
        """The errors of a document, or if it has none those of the values of its variables.

        The values are a mapping, or JSON of one.
        """
        given = values if isinstance(values, (str, bytes)) else json.dumps(values)
        handle, text, given = self._threads.handle, _bytes(query), _bytes(given)
        flags = 0 if introspection else _NO_INTROSPECTION
        if _native:
            return _native.validate(handle.address, text, given, max_errors, flags)
        limit = _DEFAULT_LIMIT if max_errors == 1000 else _size(max_errors)
        status = _validate_variables(
            handle.at, text, _size(len(text)), given, _size(len(given)), limit, flags
        )
        return handle.errors(status)

    def close(self) -> None:
        """Lets go of the schema. Further calls raise ValueError."""
        self._threads = _Closed()

    def __enter__(self) -> "Schema":
        return self

    def __exit__(self, *_: object) -> None:
        self.close()
