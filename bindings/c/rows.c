/* Runs every call of bindings/rows.txt, and compares the results. The argument is the path of that file. */
#include "ipnet.h"

#include <stdbool.h>
#include <stdio.h>
#include <stdlib.h>
#include <string.h>

#define UNTOUCHED 0xa5
#define MOST 256

/* The bytes of a row, in a block of exactly their length, so that a sanitizer detects a read past the end. */
struct bytes {
    uint8_t *at;
    size_t len;
};

struct row {
    char function[32], status[32];
    struct bytes first, second, answer;
    bool has_number;
    size_t number;
};

typedef ipnet_status into_buffer(const uint8_t *, size_t, uint8_t *, size_t, size_t *);
typedef ipnet_status both_into_buffer(const uint8_t *, size_t, const uint8_t *, size_t, uint8_t *, size_t, size_t *);
typedef ipnet_status yes_or_no(const uint8_t *, size_t, const uint8_t *, size_t, uint8_t *, size_t *);

/* Each function of ipnet.h as one over bytes: some take or write text. */
#define OF_ONE(name, in, out)                                                                                        \
    static ipnet_status name(const uint8_t *first, size_t first_len, uint8_t *buffer, size_t len, size_t *count)     \
    {                                                                                                                \
        return ipnet_##name((in)first, first_len, (out)buffer, len, count);                                          \
    }
#define OF_TWO(name)                                                                                                 \
    static ipnet_status name(const uint8_t *first, size_t first_len, const uint8_t *second, size_t second_len,       \
                             uint8_t *buffer, size_t len, size_t *count)                                             \
    {                                                                                                                \
        return ipnet_##name((const char *)first, first_len, (const char *)second, second_len, (char *)buffer, len,   \
                            count);                                                                                  \
    }
#define YES_OR_NO(name, in)                                                                                          \
    static ipnet_status name(const uint8_t *first, size_t first_len, const uint8_t *second, size_t second_len,       \
                             uint8_t *answer, size_t *line)                                                          \
    {                                                                                                                \
        return ipnet_##name((const char *)first, first_len, (in)second, second_len, answer, line);                   \
    }

OF_ONE(aggregate_text, const char *, char *)
OF_ONE(aggregate_text_legacy, const char *, char *)
OF_ONE(parse, const char *, uint8_t *)
OF_ONE(parse_legacy, const char *, uint8_t *)
OF_ONE(print, const uint8_t *, char *)
OF_TWO(union_text)
OF_TWO(intersection_text)
OF_TWO(difference_text)
YES_OR_NO(same_addresses, const char *)
YES_OR_NO(is_covered, const uint8_t *)

/* A function of one argument, or of two. */
static const struct function {
    const char *name;
    into_buffer *of_one;
    both_into_buffer *of_two;
} into_buffers[] = {
    {"aggregate_text", aggregate_text, NULL},
    {"aggregate_text_legacy", aggregate_text_legacy, NULL},
    {"union_text", NULL, union_text},
    {"intersection_text", NULL, intersection_text},
    {"difference_text", NULL, difference_text},
    {"parse", parse, NULL},
    {"parse_legacy", parse_legacy, NULL},
    {"print", print, NULL},
};

static const struct {
    const char *name;
    yes_or_no *call;
} yes_or_nos[] = {{"same_addresses", same_addresses}, {"is_covered", is_covered}};

static const char *const statuses[] = {
    "OK",           "BAD_LINE",       "NOT_UTF8",        "OUT_OF_MEMORY",     "BUFFER_TOO_SHORT", "NOT_A_NETWORK",
    "WRONG_LENGTH", "UNKNOWN_FAMILY", "PREFIX_TOO_LONG", "BAD_LINE_IN_OTHER", "OTHER_NOT_UTF8",
};

static unsigned lines, calls, faults;

/* Whether the calls are made with NULL if a length is 0. */
static bool with_null;

static void fail(const struct row *row, const char *what)
{
    faults++;
    printf("line %u, %s: %s\n", lines, row->function, what);
}

/* A copy of the bytes, in a block of exactly their length. */
static void *copied(const void *bytes, size_t len)
{
    if (len == 0 && with_null) {
        return NULL;
    }
    void *at = malloc(len > 0 ? len : 1);
    if (at == NULL) {
        abort();
    }
    return memcpy(at, bytes, len);
}

/* The bytes of a quoted field, and a pointer to its end. */
static const char *unquoted(const char *field, struct bytes *bytes)
{
    uint8_t buffer[MOST];
    size_t len = 0;
    for (field++; *field != '"'; field++) {
        unsigned byte = (uint8_t)*field;
        if (byte == '\\') {
            field++;
            byte = *field == 'n' ? '\n' : '\r';
            if (*field == 'x') {
                sscanf(field + 1, "%2x", &byte);
                field += 2;
            }
        }
        buffer[len++] = (uint8_t)byte;
    }
    bytes->len = len;
    bytes->at = copied(buffer, len);
    return field + 1;
}

static bool read_row(const char *line, struct row *row)
{
    int at = 0;
    if (sscanf(line, "%31s | %n", row->function, &at) != 1 || row->function[0] == '#') {
        return false;
    }
    line = unquoted(line + at, &row->first) + strlen(" | ");
    line = unquoted(line, &row->second) + strlen(" | ");
    sscanf(line, "%31s |%n", row->status, &at);
    line += at;
    row->answer = (struct bytes){NULL, 0};
    row->has_number = sscanf(line, " %zu", &row->number) == 1;
    if (strncmp(line, " \"", 2) == 0) {
        unquoted(line + 1, &row->answer);
    }
    return true;
}

static bool all_untouched(const uint8_t *at, size_t len)
{
    while (len > 0 && at[len - 1] == UNTOUCHED) {
        len--;
    }
    return len == 0;
}

static ipnet_status called(const struct row *row, const struct function *function, uint8_t *buffer,
                           size_t buffer_len, size_t *count)
{
    if (function->of_two != NULL) {
        return function->of_two(row->first.at, row->first.len, row->second.at, row->second.len, buffer, buffer_len,
                                count);
    }
    return function->of_one(row->first.at, row->first.len, buffer, buffer_len, count);
}

/* Runs a call with a buffer of this length. The row and the length determine the expected result. */
static void call_into_buffer(const struct row *row, const struct function *function, size_t buffer_len)
{
    bool ok = strcmp(row->status, "OK") == 0, fits = row->answer.len <= buffer_len;
    const char *wanted = ok && !fits ? "BUFFER_TOO_SHORT" : row->status;
    size_t count = 77, wanted_count = ok ? row->answer.len : row->has_number ? row->number : 77;
    uint8_t untouched[MOST];
    memset(untouched, UNTOUCHED, sizeof untouched);
    uint8_t *buffer = copied(untouched, buffer_len);
    ipnet_status status = called(row, function, buffer, buffer_len, &count);
    calls++;
    if (status >= sizeof statuses / sizeof *statuses || strcmp(statuses[status], wanted) != 0) {
        fail(row, "another status");
    } else if (count != wanted_count) {
        fail(row, "another number");
    } else if (ok && fits && count > 0 && memcmp(buffer, row->answer.at, count) != 0) {
        fail(row, "another answer");
    }
    size_t written = ok && fits ? row->answer.len : 0;
    if (!all_untouched(buffer + written, buffer_len - written)) {
        fail(row, "more is written than the answer");
    }
    free(buffer);
}

static void call_yes_or_no(const struct row *row, yes_or_no *call)
{
    bool ok = strcmp(row->status, "OK") == 0;
    uint8_t answer = 77, wanted_answer = ok ? (uint8_t)row->number : 77;
    size_t line = 77, wanted_line = !ok && row->has_number ? row->number : 77;
    ipnet_status status = call(row->first.at, row->first.len, row->second.at, row->second.len, &answer, &line);
    calls++;
    if (status >= sizeof statuses / sizeof *statuses || strcmp(statuses[status], row->status) != 0) {
        fail(row, "another status");
    } else if (answer != wanted_answer || line != wanted_line) {
        fail(row, "another answer");
    }
}

static void try_row(const struct row *row)
{
    unsigned before = calls;
    for (size_t i = 0; i < sizeof into_buffers / sizeof *into_buffers; i++) {
        if (strcmp(into_buffers[i].name, row->function) == 0) {
            for (size_t len = 0; len <= row->answer.len + 2; len++) {
                call_into_buffer(row, &into_buffers[i], len);
            }
        }
    }
    for (size_t i = 0; i < sizeof yes_or_nos / sizeof *yes_or_nos; i++) {
        if (strcmp(yes_or_nos[i].name, row->function) == 0) {
            call_yes_or_no(row, yes_or_nos[i].call);
        }
    }
    if (calls == before) {
        fail(row, "no such function");
    }
}

int main(int words, char **word)
{
    char line[4 * MOST];
    FILE *file = words == 2 ? fopen(word[1], "r") : NULL;
    if (file == NULL) {
        fputs("rows: takes the file of rows\n", stderr);
        return 2;
    }
    while (fgets(line, sizeof line, file) != NULL) {
        struct row row;
        lines++;
        for (int null = 0; null < 2; null++) {
            with_null = null;
            if (read_row(line, &row)) {
                try_row(&row);
                free(row.first.at);
                free(row.second.at);
                free(row.answer.at);
            }
        }
    }
    fclose(file);
    printf("%u calls, %u faults\n", calls, faults);
    return calls == 0 || faults > 0;
}
