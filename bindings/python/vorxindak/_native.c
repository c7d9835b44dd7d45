/* The package's native part: a user's call is one call of it. __init__.py has what users call, and does the same by
 * ctypes where this part is not there. Nothing is linked: `bind` is given the addresses of the library's functions.
 *
 * A handle is given by its address. It stays until the call ends, and no other call uses it at the same time. */
#define Py_LIMITED_API 0x03080000
#include <Python.h>
#include <string.h>
#include <vorxindak.h>

typedef uint32_t validate_call(vorxindak *, const uint8_t *, size_t, size_t, uint32_t);
typedef uint32_t variables_call(vorxindak *, const uint8_t *, size_t, const uint8_t *, size_t, size_t, uint32_t);
typedef uint32_t report_call(vorxindak *, uint8_t *, size_t, size_t *);

/* What the module is bound to: the library, tuple.__new__, and the classes of named tuples that it makes. */
typedef struct {
    validate_call *validate;
    variables_call *validate_variables;
    report_call *report;
    PyObject *make, *error, *location;
} bound;

/* What is left of a report. A read that fails returns NULL or false, and need not set an exception. */
typedef struct {
    uint8_t *at, *end;
    const bound *to;
} reader;

/* A member of an object: its name in quotes, and what reads its value. */
typedef struct {
    const char *name;
    PyObject *(*read)(reader *);
} member;

static void skip_space(reader *r) {
    while (r->at < r->end && (*r->at == ' ' || *r->at == '\n' || *r->at == '\r' || *r->at == '\t'))
        r->at++;
}

/* Whether a byte stands next, which is taken. */
static bool takes(reader *r, uint8_t wanted) {
    skip_space(r);
    if (r->at == r->end || *r->at != wanted)
        return false;
    r->at++;
    return true;
}

/* Whether a name with its quotes stands next, which is taken with its colon. */
static bool takes_name(reader *r, const char *name) {
    size_t length = strlen(name);
    skip_space(r);
    if ((size_t)(r->end - r->at) < length || memcmp(r->at, name, length))
        return false;
    r->at += length;
    return takes(r, ':');
}

/* Reads the four digits of `\u`. */
static bool read_unit(reader *r, uint32_t *unit) {
    static const char digits[] = "0123456789abcdef";
    if (r->end - r->at < 5 || *r->at != 'u')
        return false;
    *unit = 0;
    for (int i = 1; i < 5; i++) {
        uint8_t lower = r->at[i] | ('A' <= r->at[i] && r->at[i] <= 'F' ? 0x20 : 0);
        const char *digit = memchr(digits, lower, 16);
        if (!digit)
            return false;
        *unit = *unit << 4 | (uint32_t)(digit - digits);
    }
    r->at += 5;
    return true;
}

/* Writes a character as UTF-8, also one half of a pair, and returns the place behind it. */
static uint8_t *put(uint8_t *to, uint32_t character) {
    int more = character < 0x80 ? 0 : character < 0x800 ? 1 : character < 0x10000 ? 2 : 3;
    static const uint8_t firsts[] = {0, 0xC0, 0xE0, 0xF0};
    *to++ = (uint8_t)(firsts[more] | character >> 6 * more);
    while (more--)
        *to++ = (uint8_t)(0x80 | (character >> 6 * more & 0x3F));
    return to;
}

/* Reads what follows a backslash, and writes what is meant. Returns the place behind that, or NULL if nothing is. */
static uint8_t *read_escape(reader *r, uint8_t *to) {
    static const char letters[] = "\"\\/bfnrt", meant[] = "\"\\/\b\f\n\r\t";
    const char *letter = r->at < r->end ? memchr(letters, *r->at, 8) : NULL;
    uint32_t first, second;
    if (letter) {
        r->at++;
        *to = (uint8_t)meant[letter - letters];
        return to + 1;
    }
    if (!read_unit(r, &first))
        return NULL;
    if (first >> 10 == 0x36 && r->at < r->end && *r->at == '\\') {
        reader ahead = {r->at + 1, r->end, r->to};
        if (read_unit(&ahead, &second) && second >> 10 == 0x37) {
            r->at = ahead.at;
            first = 0x10000 + ((first & 0x3FF) << 10 | (second & 0x3FF));
        }
    }
    return put(to, first);
}

/* Reads a string. What is meant is written over it, since no escape is shorter than that. */
static PyObject *read_text(reader *r) {
    if (!takes(r, '"'))
        return NULL;
    uint8_t *start = r->at, *to = start;
    while (to && r->at < r->end && *r->at != '"') {
        uint8_t each = *r->at++;
        if (each == '\\')
            to = read_escape(r, to);
        else if (each < ' ' || (each == 0xED && r->at < r->end && *r->at > 0x9F))
            /* A control character, or a half of a pair that is no escape. */
            to = NULL;
        else
            *to++ = each;
    }
    if (!to || !takes(r, '"'))
        return NULL;
    return PyUnicode_DecodeUTF8((const char *)start, to - start, "surrogatepass");
}

/* Reads a list of what a function reads. */
static PyObject *read_list(reader *r, PyObject *(*read)(reader *)) {
    PyObject *list = takes(r, '[') ? PyList_New(0) : NULL;
    if (!list || takes(r, ']'))
        return list;
    do {
        PyObject *item = read(r);
        int status = item ? PyList_Append(list, item) : -1;
        Py_XDECREF(item);
        if (status < 0) {
            Py_DECREF(list);
            return NULL;
        }
    } while (takes(r, ','));
    if (!takes(r, ']'))
        Py_CLEAR(list);
    return list;
}

/* Reads an object, and makes a named tuple of its members. None stands twice, and only the third may be left out. */
static PyObject *read_object(reader *r, PyObject *class, size_t count, const member *members) {
    PyObject *found[3] = {NULL, NULL, NULL}, *tuple = NULL;
    bool is_read = takes(r, '{');
    do {
        size_t i = 0;
        while (i < count && (found[i] || !takes_name(r, members[i].name)))
            i++;
        is_read = is_read && i < count && (found[i] = members[i].read(r));
    } while (is_read && takes(r, ','));
    if (is_read && takes(r, '}') && found[0] && found[1])
        tuple = PyTuple_Pack((Py_ssize_t)count, found[0], found[1], found[2] ? found[2] : Py_None);
    for (size_t i = 0; i < count; i++)
        Py_XDECREF(found[i]);
    PyObject *made = tuple ? PyObject_CallFunctionObjArgs(r->to->make, class, tuple, NULL) : NULL;
    Py_XDECREF(tuple);
    return made;
}

/* Reads a number, which counts from 1. */
static PyObject *read_number(reader *r) {
    unsigned long long number = 0;
    skip_space(r);
    const uint8_t *start = r->at;
    while (r->at < r->end && '0' <= *r->at && *r->at <= '9' && r->at - start < 19)
        number = 10 * number + (*r->at++ - '0');
    return r->at > start && *start != '0' ? PyLong_FromUnsignedLongLong(number) : NULL;
}

static PyObject *read_location(reader *r) {
    static const member members[] = {{"\"line\"", read_number}, {"\"column\"", read_number}};
    return read_object(r, r->to->location, 2, members);
}

static PyObject *read_locations(reader *r) {
    PyObject *list = read_list(r, read_location), *locations = list ? PyList_AsTuple(list) : NULL;
    Py_XDECREF(list);
    return locations;
}

static PyObject *read_error(reader *r) {
    static const member members[] = {
        {"\"message\"", read_text}, {"\"locations\"", read_locations}, {"\"path\"", read_text}};
    return read_object(r, r->to->error, 3, members);
}

/* The errors of a report, which is written over. */
static PyObject *read_report(const bound *to, uint8_t *report, size_t length) {
    reader r = {report, report + length, to};
    PyObject *errors = read_list(&r, read_error);
    skip_space(&r);
    if (errors && r.at < r.end)
        Py_CLEAR(errors);
    if (!errors && !PyErr_Occurred())
        PyErr_SetString(PyExc_ValueError, "a report can't be read");
    return errors;
}

/* The errors that a call has found which answered so. The report is copied before any code in Python can run. */
static PyObject *errors_of(const bound *to, vorxindak *handle, uint32_t status) {
    uint8_t few[4096], *report = few;
    size_t length = 0;
    if (status == VORXINDAK_VALID)
        return PyList_New(0);
    if (status == VORXINDAK_OUT_OF_MEMORY)
        return PyErr_NoMemory();
    status = to->report(handle, few, sizeof few, &length);
    if (status == VORXINDAK_TOO_SMALL) {
        report = PyMem_Malloc(length);
        if (!report)
            return PyErr_NoMemory();
        status = to->report(handle, report, length, &length);
    }
    PyObject *errors = NULL;
    if (status == VORXINDAK_VALID)
        errors = read_report(to, report, length);
    else
        PyErr_SetString(PyExc_ValueError, "the schema is closed");
    if (report != few)
        PyMem_Free(report);
    return errors;
}

/* validate(handle, query, values, max_errors, flags) -> errors. Values of None are not judged. */
static PyObject *call_validate(PyObject *module, PyObject *arguments) {
    const bound *to = PyModule_GetState(module);
    unsigned long long handle, max_errors;
    unsigned int flags;
    PyObject *query, *values;
    char *text, *given = NULL;
    Py_ssize_t length, given_length = 0;
    uint32_t status;
    if (!PyArg_ParseTuple(arguments, "KOOKI", &handle, &query, &values, &max_errors, &flags) ||
        PyBytes_AsStringAndSize(query, &text, &length) < 0 ||
        (values != Py_None && PyBytes_AsStringAndSize(values, &given, &given_length) < 0))
        return NULL;
    vorxindak *at = (vorxindak *)(uintptr_t)handle;
    const uint8_t *first = (const uint8_t *)text, *second = (const uint8_t *)given;
    Py_BEGIN_ALLOW_THREADS
    if (second)
        status = to->validate_variables(at, first, (size_t)length, second, (size_t)given_length,
                                        (size_t)max_errors, flags);
    else
        status = to->validate(at, first, (size_t)length, (size_t)max_errors, flags);
    Py_END_ALLOW_THREADS
    return errors_of(to, at, status);
}

/* errors(handle, status) -> the errors that a call has found which answered so */
static PyObject *call_errors(PyObject *module, PyObject *arguments) {
    unsigned long long handle;
    unsigned int status;
    if (!PyArg_ParseTuple(arguments, "KI", &handle, &status))
        return NULL;
    return errors_of(PyModule_GetState(module), (vorxindak *)(uintptr_t)handle, status);
}

/* read(report) -> its errors; for tests */
static PyObject *call_read(PyObject *module, PyObject *report) {
    char *bytes;
    Py_ssize_t length;
    if (PyBytes_AsStringAndSize(report, &bytes, &length) < 0)
        return NULL;
    uint8_t *copy = PyMem_Malloc((size_t)length);
    if (!copy)
        return PyErr_NoMemory();
    PyObject *found = read_report(PyModule_GetState(module), memcpy(copy, bytes, (size_t)length), (size_t)length);
    PyMem_Free(copy);
    return found;
}

static int traverse(PyObject *module, visitproc visit, void *arg) {
    bound *to = PyModule_GetState(module);
    /* CPython 3.8 asks before there is a state. */
    if (to) {
        Py_VISIT(to->make);
        Py_VISIT(to->error);
        Py_VISIT(to->location);
    }
    return 0;
}

static int clear(PyObject *module) {
    bound *to = PyModule_GetState(module);
    if (to) {
        Py_CLEAR(to->make);
        Py_CLEAR(to->error);
        Py_CLEAR(to->location);
    }
    return 0;
}

static void let_go(void *module) { clear(module); }

/* bind(validate, validate_variables, report, tuple.__new__, Error, Location), once and before all other calls */
static PyObject *call_bind(PyObject *module, PyObject *arguments) {
    bound *to = PyModule_GetState(module), given = {0};
    unsigned long long calls[3];
    if (!PyArg_ParseTuple(arguments, "KKKOOO", &calls[0], &calls[1], &calls[2], &given.make, &given.error,
                          &given.location))
        return NULL;
    given.validate = (validate_call *)(uintptr_t)calls[0];
    given.validate_variables = (variables_call *)(uintptr_t)calls[1];
    given.report = (report_call *)(uintptr_t)calls[2];
    Py_INCREF(given.make);
    Py_INCREF(given.error);
    Py_INCREF(given.location);
    clear(module);
    *to = given;
    Py_RETURN_NONE;
}

static PyMethodDef calls[] = {{"bind", call_bind, METH_VARARGS, NULL},
                              {"validate", call_validate, METH_VARARGS, NULL},
                              {"errors", call_errors, METH_VARARGS, NULL},
                              {"read", call_read, METH_O, NULL},
                              {NULL, NULL, 0, NULL}};

static PyModuleDef_Slot slots[] = {{0, NULL}};

static PyModuleDef definition = {
    PyModuleDef_HEAD_INIT, "_native", NULL, sizeof(bound), calls, slots, traverse, clear, let_go};

PyMODINIT_FUNC PyInit__native(void) {
    return PyModuleDef_Init(&definition);
}
