/* Validates a document against a schema: example SCHEMA_FILE QUERY_FILE. Ends with 0 if the document is valid, with 1
 * if it has errors, and with 2 else.
 *
 *     cc example.c $(pkg-config --cflags --libs vorxindak) -o example */
#include <stdio.h>
#include <stdlib.h>
#include <vorxindak.h>

struct text {
    uint8_t *bytes;
    size_t length;
};

/* The text of a file; ends the program where there is none. */
static struct text read_text(const char *path) {
    FILE *file = fopen(path, "rb");
    struct text text = {malloc(1), 0};
    while (file && text.bytes) {
        uint8_t *bytes = realloc(text.bytes, text.length + 65536);
        if (!bytes)
            break;
        text.bytes = bytes;
        size_t more = fread(bytes + text.length, 1, 65536, file);
        text.length += more;
        if (more == 0 && !ferror(file)) {
            fclose(file);
            return text;
        }
        if (more == 0)
            break;
    }
    fprintf(stderr, "example: can't read %s\n", path);
    exit(2);
}

/* Prints the last report. */
static void print_report(vorxindak *handle) {
    uint8_t none = 0;
    size_t needed = 0;
    vorxindak_report(handle, &none, 0, &needed);
    uint8_t *report = malloc(needed + 1);
    if (report && vorxindak_report(handle, report, needed, &needed) == VORXINDAK_VALID)
        fwrite(report, 1, needed, stdout);
    free(report);
}

int main(int count, char **words) {
    if (count != 3) {
        fprintf(stderr, "usage: example SCHEMA_FILE QUERY_FILE\n");
        return 2;
    }
    struct text schema = read_text(words[1]), query = read_text(words[2]);
    vorxindak handle = {0};
    uint32_t opened = vorxindak_open(&handle, schema.bytes, schema.length, 0);
    uint32_t status = opened;
    if (opened == VORXINDAK_VALID)
        status = vorxindak_validate(&handle, query.bytes, query.length, 1000, 0);
    if (status != VORXINDAK_VALID)
        print_report(&handle);
    vorxindak_close(&handle);
    free(schema.bytes);
    free(query.bytes);
    return status == VORXINDAK_VALID ? 0 : status == VORXINDAK_INVALID ? 1 : 2;
}
