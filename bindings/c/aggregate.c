/* Reads a list of networks from standard input, one per line, and prints the shortest list with the same addresses.
 *
 *     cc -Iinclude bindings/c/aggregate.c bindings/out/libipnet.a -o aggregate && ./aggregate < examples/routes.txt
 */
#include "ipnet.h"

#include <stdio.h>
#include <stdlib.h>

/* Reads a file to its end, and returns its contents and length. Returns NULL if reading or an allocation fails. */
static char *read_all(FILE *file, size_t *len)
{
    size_t room = 1 << 16;
    char *text = malloc(room);
    *len = 0;
    while (text != NULL) {
        *len += fread(text + *len, 1, room - *len, file);
        if (*len < room) {
            if (!ferror(file)) {
                return text;
            }
            free(text);
            return NULL;
        }
        room *= 2;
        char *more = realloc(text, room);
        if (more == NULL) {
            free(text);
        }
        text = more;
    }
    return NULL;
}

/* The result is usually not longer than the text. If it is longer, as ::ffff:0.0.0.0/96 for ::ffff:0:0/96, the first
 * call reports the length that it needs. */
static ipnet_status aggregate(const char *text, size_t text_len, char **answer, size_t *count)
{
    size_t room = text_len + 1;
    for (;;) {
        char *buffer = malloc(room);
        if (buffer == NULL) {
            return IPNET_OUT_OF_MEMORY;
        }
        ipnet_status status = ipnet_aggregate_text(text, text_len, buffer, room, count);
        if (status == IPNET_OK) {
            *answer = buffer;
            return IPNET_OK;
        }
        free(buffer);
        if (status != IPNET_BUFFER_TOO_SHORT) {
            return status;
        }
        room = *count;
    }
}

int main(void)
{
    size_t len, count = 0;
    char *text = read_all(stdin, &len), *answer = NULL;
    if (text == NULL) {
        fputs("aggregate: the input cannot be read, or memory is short\n", stderr);
        return 3;
    }
    ipnet_status status = aggregate(text, len, &answer, &count);
    free(text);
    if (status == IPNET_BAD_LINE) {
        fprintf(stderr, "line %zu: invalid IP address syntax\n", count);
        return 1;
    }
    if (status != IPNET_OK) {
        fprintf(stderr, "aggregate: %s\n", ipnet_status_text(status));
        return 3;
    }
    int written = fwrite(answer, 1, count, stdout) == count && fflush(stdout) == 0;
    free(answer);
    return written ? 0 : 3;
}
