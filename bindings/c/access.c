/* An access control: prints for each address or network on standard input whether a list allows it. The list has
 * networks, addresses, ranges and comments.
 *
 *     cc -Iinclude bindings/c/access.c bindings/out/libipnet.a -o access && ./access allowed.txt < questions.txt
 *
 * The list is compiled once, to the image of a set; a question takes a few memory accesses. The status is 0, or 3 if the
 * list cannot be read or has a bad line.
 */
#include "ipnet.h"

#include <stdio.h>
#include <string.h>

static char list[1 << 20];
static unsigned char set[1 << 22];

/* The byte form of an address or a network. */
static ipnet_status parsed(const char *line, uint8_t *network, size_t *len)
{
    char text[80];
    const char *full = strchr(line, '/') ? "" : strchr(line, ':') ? "/128" : "/32";
    int count = snprintf(text, sizeof text, "%s%s", line, full);
    return ipnet_parse(text, (size_t)count, network, IPNET_MAX_BYTES, len);
}

int main(int words, char **word)
{
    char line[64];
    FILE *file = words == 2 ? fopen(word[1], "r") : NULL;
    size_t list_len = file != NULL ? fread(list, 1, sizeof list, file) : 0, set_len = 0, len = 0;
    if (file == NULL || ferror(file) || !feof(file)) {
        fputs("access: the list cannot be read\n", stderr);
        return 3;
    }
    ipnet_status status = ipnet_set_from_list(list, list_len, set, sizeof set, &set_len);
    if (status != IPNET_OK) {
        fprintf(stderr, "access: %s (%zu)\n", ipnet_status_text(status), set_len);
        return 3;
    }
    while (fgets(line, sizeof line, stdin) != NULL) {
        uint8_t network[IPNET_MAX_BYTES];
        line[strcspn(line, "\n")] = '\0';
        if (parsed(line, network, &len) != IPNET_OK) {
            printf("%s: not a network\n", line);
        } else {
            printf("%s: %s\n", line, ipnet_set_covers(set, set_len, network, len) == 1 ? "allowed" : "refused");
        }
    }
    return fflush(stdout) == 0 ? 0 : 3;
}
