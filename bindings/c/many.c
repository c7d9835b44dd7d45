/* many COUNT [FORM]: validates so many documents, all of one form if it is given, copies each report, and prints how many
 * errors they have. */
#include <stdio.h>
#include <stdlib.h>
#include <string.h>
#include <vorxindak.h>

static const char *const SCHEMA = "type Query { greeting(name: String!): String }";
static const char *const FORMS[] = {"query q%ld($name: String!) { greeting(name: $name) }",
                                    "{ greeting(nam: \"%ld\") { length } }", "{ field%ld }", "{ greeting%ld("};

int main(int count, char **words) {
    long documents = count > 1 ? atol(words[1]) : 1, form = count > 2 ? atol(words[2]) : -1, errors = 0;
    vorxindak handle = {0};
    if (vorxindak_open(&handle, (const uint8_t *)SCHEMA, strlen(SCHEMA), 0) != VORXINDAK_VALID)
        return 2;
    for (long i = 0; i < documents; i++) {
        char query[100];
        uint8_t report[4096];
        int length = snprintf(query, sizeof query, FORMS[form < 0 ? i % 4 : form], i);
        size_t needed = 0;
        if (vorxindak_validate(&handle, (const uint8_t *)query, (size_t)length, 0, 0) == VORXINDAK_VALID)
            continue;
        if (vorxindak_report(&handle, report, sizeof report, &needed) != VORXINDAK_VALID)
            return 2;
        for (size_t j = 0; j + 9 < needed; j++)
            errors += !memcmp(report + j, "\"message\":", 10);
    }
    vorxindak_close(&handle);
    printf("%ld\n", errors);
    return 0;
}
