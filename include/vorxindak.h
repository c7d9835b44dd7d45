/* GraphQL validation, proved: whether a document is valid by a schema, and its errors.
 *
 *     vorxindak schema = {0};
 *     if (vorxindak_open(&schema, text, text_length, 0) == VORXINDAK_VALID)
 *         status = vorxindak_validate(&schema, query, query_length, 1000, 0);
 *     vorxindak_close(&schema);
 *
 * What a caller owes. Nothing checks it, and the library keeps its promises only where it is met:
 *
 * - A handle is memory of the caller whose bytes are all 0 at first, by `= {0}` or calloc. After that the library alone
 *   reads and writes it. It may be moved between calls, but a copy of it is never used beside it.
 * - A handle is closed before its memory goes.
 * - One call at a time uses a handle. Any thread may, if a lock, a thread's start or its join orders the calls. For calls
 *   at the same time each thread has a handle of its own, by `vorxindak_share`; the schema is in memory once.
 * - A pointer is never null, not even to 0 bytes. Each is to as many bytes as the length behind it says, and those that
 *   a call writes overlap no others of the call.
 * - malloc, realloc and free are those of one allocator. No call is made from a signal handler, or from the child that a
 *   process with threads has forked.
 *
 * What the library promises, proved where it is not said to be tested:
 *
 * - Every call returns, and none aborts or reads or writes anything else than the memory that it is given and its own.
 *   It takes no lock and writes nothing that threads share but the count of the handles of a schema.
 * - A schema that is open stays as it is until `vorxindak_close`. A document is borrowed for the one call.
 * - A handle without a schema is answered with VORXINDAK_CLOSED, also where all its bytes are 0.
 * - A schema is a valid type system (GraphQL, October 2021, section 3).
 * - A document that is judged is that of its text: the tokens of the text are those that it is written with. A text is
 *   answered with VORXINDAK_UNREADABLE exactly where it is no document. That a schema is that of its texts is tested and
 *   not proved.
 */
#ifndef VORXINDAK_H
#define VORXINDAK_H

#include <stdbool.h>
#include <stddef.h>
#include <stdint.h>

#ifdef __cplusplus
extern "C" {
#endif

/* A schema and the last report, or nothing. The members are the library's own. */
typedef struct vorxindak {
    bool is_open;
    struct {
        bool is_open;
        void *at;
    } slot;
} vorxindak;

/* What calls answer. */
enum {
    /* The document is valid, or the call did what it was asked for. */
    VORXINDAK_VALID = 0,
    /* The document or the values of its variables have errors, which the report has. */
    VORXINDAK_INVALID = 1,
    /* The text is not a document. The report has the syntax error, at the first token with which no document goes on. */
    VORXINDAK_UNREADABLE = 2,
    /* The texts are no schema. The report has their faults, and the handle has no schema. */
    VORXINDAK_FAULTY_SCHEMA = 3,
    /* The values are not a JSON object. The report says why. */
    VORXINDAK_NO_VALUES = 4,
    /* The bytes are not UTF-8. The report has the place of the first that is not. */
    VORXINDAK_NOT_UTF8 = 5,
    /* The handle has no schema. */
    VORXINDAK_CLOSED = 6,
    /* The handle has a schema already, which stays. */
    VORXINDAK_ALREADY_OPEN = 7,
    /* The room is too small for the report. Nothing was written to it. */
    VORXINDAK_TOO_SMALL = 8,
    /* A flag is unknown. Nothing was done. */
    VORXINDAK_UNKNOWN_FLAG = 9,
    /* Out of memory. Nothing is known of the document or the schema, and the report is empty. */
    VORXINDAK_OUT_OF_MEMORY = 10
};

/* Flags. A call takes those that are named for it; all other bits are reserved, and unknown for now. */
enum {
    /* Of `vorxindak_validate` and `vorxindak_validate_variables`: a field `__schema` or `__type` is an error. */
    VORXINDAK_NO_INTROSPECTION = 1,
    /* Of `vorxindak_open`: the rules are juniper's, and not those of October 2021. */
    VORXINDAK_JUNIPER = 2
};

/* The version: a million times its first number, a thousand times its second, and its third. */
uint32_t vorxindak_version(void);

/* Reads a schema, which the handle has from then on. `texts` is UTF-8: type definitions or the JSON result of an
 * introspection query, or several of both with a zero byte between each two. The flag is JUNIPER.
 *
 * Answers VALID exactly where the handle has got the schema, FAULTY_SCHEMA, NOT_UTF8, UNKNOWN_FLAG or OUT_OF_MEMORY. A
 * handle that has a schema keeps it, and the answer is ALREADY_OPEN. The report of a faulty schema has one fault at
 * least; an object of it has a `path` too, which is the number of the text, counted from 0. */
uint32_t vorxindak_open(vorxindak *handle, const uint8_t *texts, size_t length, uint32_t flags);

/* Validates a document, which is UTF-8, by the rules of the schema's dialect. The flag is NO_INTROSPECTION. The report has
 * at most `max_errors` errors, or all for 0. One with a long message counts as several: one, and one more for each 4,096
 * bytes of its message. Each is an error of the document, but for one without locations: that says that the search for
 * fields that conflict was stopped, which a limit on errors does. Where there is such a one, or the errors count as many
 * as the limit or more, there may be more.
 *
 * Answers VALID exactly where the document of the text is valid, INVALID where it is not, UNREADABLE where the text is no
 * document, NOT_UTF8, CLOSED, UNKNOWN_FLAG or OUT_OF_MEMORY. The handle keeps the report until the next call that makes one. */
uint32_t vorxindak_validate(vorxindak *handle, const uint8_t *query, size_t length, size_t max_errors, uint32_t flags);

/* Validates a document, and if it is valid the values of its variables, by name in a JSON object. They are checked for
 * each operation of the document. Flag and answers are those of `vorxindak_validate`, and NO_VALUES; VALID where neither
 * the document nor the values have an error. NOT_UTF8 is of the document, or else of the values. The limit is on errors of
 * the document; faults of the values are all reported. */
uint32_t vorxindak_validate_variables(vorxindak *handle, const uint8_t *query, size_t length, const uint8_t *values,
                                      size_t values_length, size_t max_errors, uint32_t flags);

/* Copies the last report into `room` bytes at `out`, and puts its length in bytes into `needed`. Answers VALID, TOO_SMALL
 * or CLOSED; the first `needed` bytes are written or none, and no byte past them.
 *
 * A report is JSON in UTF-8, without a zero byte at its end: a list of objects with `message` and `locations`, which is a
 * list of objects with `line` and `column`. Both count from 1, columns in characters. Errors are in ascending order. The
 * report on a valid document is the empty list. */
uint32_t vorxindak_report(vorxindak *handle, uint8_t *out, size_t room, size_t *needed);

/* Gives `other` the schema of `handle`, and an empty report. Answers VALID, CLOSED where `handle` has no schema,
 * ALREADY_OPEN where `other` has one, or OUT_OF_MEMORY; `other` stays as it was unless the answer is VALID. */
uint32_t vorxindak_share(vorxindak *handle, vorxindak *other);

/* Lets go of the schema and the report, after which all is as at first. A handle with neither may be closed. The schema
 * is freed with the last handle that has it. */
void vorxindak_close(vorxindak *handle);

#ifdef __cplusplus
}
#endif

#endif
