/* The binding's native part. A user's call is one call of it; index.js has what users call. */
#include <node_api.h>
#include <stdlib.h>
#include <vorxindak.h>

static napi_value fail(napi_env env, const char *message) {
    napi_throw_error(env, NULL, message);
    return NULL;
}

static void let_go(napi_env env, void *handle, void *hint) {
    (void)env;
    (void)hint;
    vorxindak_close(handle);
    free(handle);
}

/* The arguments of a call; false where there are fewer. */
static bool arguments(napi_env env, napi_callback_info info, size_t wanted, napi_value *given) {
    size_t count = wanted;
    return napi_get_cb_info(env, info, &count, given, NULL, NULL) == napi_ok && count == wanted;
}

/* A text of the caller's. A short string is copied to `few`, and a long one to `many`, which its taker frees. */
typedef struct {
    const uint8_t *bytes;
    size_t length;
    char few[1024], *many;
} text;

static bool refuse(napi_env env, const char *message) {
    fail(env, message);
    return false;
}

/* Takes a string of any length. */
static bool take_long(napi_env env, napi_value given, text *into) {
    size_t length = 0;
    napi_get_value_string_utf8(env, given, NULL, 0, &length);
    into->many = malloc(length + 1);
    if (!into->many)
        return refuse(env, "out of memory");
    into->bytes = (const uint8_t *)into->many;
    if (napi_get_value_string_utf8(env, given, into->many, length + 1, &into->length) == napi_ok)
        return true;
    free(into->many);
    return refuse(env, "no string");
}

/* Takes a string or a buffer, or throws. The pointer to the bytes is never null. */
static bool take(napi_env env, napi_value given, text *into) {
    void *found = NULL;
    into->many = NULL;
    into->bytes = (const uint8_t *)into->few;
    if (napi_get_value_string_utf8(env, given, into->few, sizeof into->few, &into->length) == napi_ok)
        /* A string that is too long is cut off before a character, which takes 4 bytes at most. */
        return into->length + 4 < sizeof into->few || take_long(env, given, into);
    if (napi_get_buffer_info(env, given, &found, &into->length) != napi_ok)
        return refuse(env, "a text is a string or a buffer");
    if (into->length)
        into->bytes = found;
    return true;
}

static bool handle_of(napi_env env, napi_value given, vorxindak **handle) {
    void *found = NULL;
    bool is = napi_get_value_external(env, given, &found) == napi_ok;
    *handle = found;
    return is && found;
}

/* create() -> handle */
static napi_value create(napi_env env, napi_callback_info info) {
    napi_value made = NULL;
    (void)info;
    vorxindak *handle = calloc(1, sizeof *handle);
    if (!handle)
        return fail(env, "out of memory");
    if (napi_create_external(env, handle, let_go, NULL, &made) != napi_ok) {
        free(handle);
        return fail(env, "no handle");
    }
    return made;
}

/* The last report, as a string. */
static napi_value report_of(napi_env env, vorxindak *handle) {
    napi_value made = NULL;
    uint8_t few[4096], *bytes = few;
    size_t needed = 0;
    uint32_t status = vorxindak_report(handle, few, sizeof few, &needed);
    if (status == VORXINDAK_TOO_SMALL) {
        bytes = malloc(needed);
        if (!bytes)
            return fail(env, "out of memory");
        status = vorxindak_report(handle, bytes, needed, &needed);
    }
    if (status == VORXINDAK_VALID)
        napi_create_string_utf8(env, (const char *)bytes, needed, &made);
    if (bytes != few)
        free(bytes);
    return made ? made : fail(env, "no report");
}

/* What is returned for a status: the report, or nothing where there is no error. */
static napi_value answer(napi_env env, vorxindak *handle, uint32_t status) {
    switch (status) {
    case VORXINDAK_VALID:
        return NULL;
    case VORXINDAK_CLOSED:
        return fail(env, "the schema is closed");
    case VORXINDAK_OUT_OF_MEMORY:
        return fail(env, "out of memory");
    default:
        return report_of(env, handle);
    }
}

/* open(handle, texts, flags) -> report, if there are errors */
static napi_value open_texts(napi_env env, napi_callback_info info) {
    napi_value given[3];
    vorxindak *handle;
    text texts;
    uint32_t flags;
    if (!arguments(env, info, 3, given) || !handle_of(env, given[0], &handle) ||
        napi_get_value_uint32(env, given[2], &flags) != napi_ok)
        return fail(env, "open takes a handle, a text and flags");
    if (!take(env, given[1], &texts))
        return NULL;
    uint32_t status = vorxindak_open(handle, texts.bytes, texts.length, flags);
    free(texts.many);
    return answer(env, handle, status);
}

/* validate(handle, query, maxErrors, flags) -> report, if there are errors */
static napi_value validate(napi_env env, napi_callback_info info) {
    napi_value given[4];
    vorxindak *handle;
    text query;
    uint32_t max_errors, flags;
    if (!arguments(env, info, 4, given) || !handle_of(env, given[0], &handle) ||
        napi_get_value_uint32(env, given[2], &max_errors) != napi_ok ||
        napi_get_value_uint32(env, given[3], &flags) != napi_ok)
        return fail(env, "validate takes a handle, a text, a number of errors and flags");
    if (!take(env, given[1], &query))
        return NULL;
    uint32_t status = vorxindak_validate(handle, query.bytes, query.length, max_errors, flags);
    free(query.many);
    return answer(env, handle, status);
}

/* validateVariables(handle, query, values, maxErrors, flags) -> report, if there are errors */
static napi_value validate_variables(napi_env env, napi_callback_info info) {
    napi_value given[5];
    vorxindak *handle;
    text query, values;
    uint32_t max_errors, flags;
    if (!arguments(env, info, 5, given) || !handle_of(env, given[0], &handle) ||
        napi_get_value_uint32(env, given[3], &max_errors) != napi_ok ||
        napi_get_value_uint32(env, given[4], &flags) != napi_ok)
        return fail(env, "validateVariables takes a handle, two texts, a number of errors and flags");
    if (!take(env, given[1], &query))
        return NULL;
    if (!take(env, given[2], &values)) {
        free(query.many);
        return NULL;
    }
    uint32_t status = vorxindak_validate_variables(handle, query.bytes, query.length, values.bytes, values.length,
                                                   max_errors, flags);
    free(query.many);
    free(values.many);
    return answer(env, handle, status);
}

/* close(handle) */
static napi_value close_handle(napi_env env, napi_callback_info info) {
    napi_value given[1];
    vorxindak *handle;
    if (!arguments(env, info, 1, given) || !handle_of(env, given[0], &handle))
        return fail(env, "close takes a handle");
    vorxindak_close(handle);
    return NULL;
}

/* version() -> number */
static napi_value version(napi_env env, napi_callback_info info) {
    napi_value made = NULL;
    (void)info;
    napi_create_uint32(env, vorxindak_version(), &made);
    return made;
}

NAPI_MODULE_INIT() {
    static const struct {
        const char *name;
        napi_callback call;
    } all[] = {{"create", create},
               {"open", open_texts},
               {"validate", validate},
               {"validateVariables", validate_variables},
               {"close", close_handle},
               {"version", version}};
    for (size_t i = 0; i < sizeof all / sizeof *all; i++) {
        napi_value made;
        if (napi_create_function(env, all[i].name, NAPI_AUTO_LENGTH, all[i].call, NULL, &made) != napi_ok ||
            napi_set_named_property(env, exports, all[i].name, made) != napi_ok)
            return NULL;
    }
    return exports;
}
