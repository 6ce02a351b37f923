/* Measures calls of the library: calls SET LIST OTHER ADDRESSES. SET, LIST and OTHER are lists of networks, and
 * ADDRESSES has the octets of IPv4 addresses. Prints a line for each call: its name, and the least
 * processor time of five rounds in seconds. */
#define _POSIX_C_SOURCE 200112L
#include "ipnet.h"

#include <arpa/inet.h>
#include <stdio.h>
#include <stdlib.h>
#include <string.h>
#include <time.h>

enum { ROUNDS = 5, WIDTH = 4 };

typedef struct bytes {
    char *at;
    size_t len;
} bytes;

static bytes set, list, other, addresses, image, table, room;
static bytes families, octets;
/* The addresses as lines of text, as many IPv6 addresses, the addresses without line ends, and their offsets. */
static bytes lines, ipv6_lines, joined, offsets;
static uint32_t *values, *numbers;
static size_t routes;

/* The processor time of this process in seconds. */
static double now(void)
{
    struct timespec time;
    clock_gettime(CLOCK_PROCESS_CPUTIME_ID, &time);
    return (double)time.tv_sec + (double)time.tv_nsec / 1e9;
}

static void stop(const char *name)
{
    fprintf(stderr, "calls: %s\n", name);
    exit(1);
}

static bytes memory(size_t len)
{
    bytes made = {malloc(len), len};
    return made.at != NULL ? made : (stop("out of memory"), made);
}

static bytes read_file(const char *path)
{
    FILE *file = fopen(path, "rb");
    if (file == NULL || fseek(file, 0, SEEK_END) != 0) {
        stop(path);
    }
    bytes made = memory((size_t)ftell(file));
    rewind(file);
    if (fread(made.at, 1, made.len, file) != made.len) {
        stop(path);
    }
    fclose(file);
    return made;
}

static void needs(ipnet_status status)
{
    if (status != IPNET_OK) {
        stop(ipnet_status_text(status));
    }
}

static void aggregate(void)
{
    size_t count;
    needs(ipnet_aggregate_text(list.at, list.len, room.at, room.len, &count));
}

static void aggregate_both(void)
{
    size_t count;
    aggregate();
    needs(ipnet_aggregate_text(other.at, other.len, room.at, room.len, &count));
}

static void compile(void)
{
    size_t count;
    needs(ipnet_set_from_text(list.at, list.len, room.at, room.len, &count));
}

static void compile_list(void)
{
    size_t count;
    needs(ipnet_set_from_list(list.at, list.len, room.at, room.len, &count));
}

static void same(void)
{
    uint8_t answer;
    size_t line;
    needs(ipnet_same_addresses(list.at, list.len, other.at, other.len, &answer, &line));
}

static void covered(void)
{
    static const uint8_t network[] = {0, 10, 0, 0, 0, 32};
    uint8_t answer;
    size_t line;
    needs(ipnet_is_covered(list.at, list.len, network, sizeof network, &answer, &line));
}

static void contains(void)
{
    for (size_t at = 0; at < addresses.len; at += WIDTH) {
        if (ipnet_set_contains(image.at, image.len, (const uint8_t *)addresses.at + at, WIDTH) > 1) {
            stop("contains");
        }
    }
}

static void contains_all(void)
{
    needs(ipnet_set_contains_all(image.at, image.len, addresses.at, addresses.len, WIDTH, (uint8_t *)room.at,
                                 addresses.len / WIDTH));
}

/* The addresses as numbers, and as rows. */
static void make_columns(void)
{
    size_t count = addresses.len / WIDTH;
    numbers = malloc(addresses.len);
    families = memory(count);
    octets = memory(count * 16);
    memset(families.at, 4, count);
    memset(octets.at, 0, octets.len);
    for (size_t row = 0; row < count; row++) {
        const uint8_t *four = (const uint8_t *)addresses.at + row * WIDTH;
        numbers[row] = (uint32_t)four[0] << 24 | (uint32_t)four[1] << 16 | (uint32_t)four[2] << 8 | four[3];
        memcpy(octets.at + row * 16, four, WIDTH);
    }
}

static void contains_numbers(void)
{
    needs(ipnet_set_contains_u32(image.at, image.len, numbers, families.len, (uint8_t *)room.at, families.len));
}

static void contains_rows(void)
{
    needs(ipnet_set_contains_rows(image.at, image.len, (uint8_t *)families.at, families.len, (uint8_t *)octets.at,
                                  octets.len, (uint8_t *)room.at, families.len));
}

static void match_numbers(void)
{
    needs(ipnet_table_longest_match_u32(table.at, table.len, numbers, families.len, 0, (uint32_t *)room.at,
                                        families.len));
}

static void match_rows(void)
{
    needs(ipnet_table_longest_match_rows(table.at, table.len, (uint8_t *)families.at, families.len,
                                         (uint8_t *)octets.at, octets.len, 0, (uint32_t *)room.at, families.len));
}

static void truncate_rows(void)
{
    needs(ipnet_truncate_rows(24, 48, (uint8_t *)families.at, families.len, (uint8_t *)octets.at, octets.len));
}

static void unmap_rows(void)
{
    needs(ipnet_unmap_rows((uint8_t *)families.at, families.len, (uint8_t *)octets.at, octets.len));
}

static void compile_table(void)
{
    size_t count;
    needs(ipnet_table_from_text(list.at, list.len, values, routes, room.at, room.len, &count));
}

static void match(void)
{
    uint32_t value;
    for (size_t at = 0; at < addresses.len; at += WIDTH) {
        if (ipnet_table_longest_match(table.at, table.len, (const uint8_t *)addresses.at + at, WIDTH, &value) > 1) {
            stop("longest_match");
        }
    }
}

static void match_all(void)
{
    needs(ipnet_table_longest_match_all(table.at, table.len, addresses.at, addresses.len, WIDTH, 0, (uint32_t *)room.at,
                                        addresses.len / WIDTH));
}

static void longest_route(void)
{
    uint8_t network[IPNET_MAX_BYTES];
    uint32_t value;
    for (size_t at = 0; at < addresses.len; at += WIDTH) {
        if (ipnet_table_longest_route(table.at, table.len, (const uint8_t *)addresses.at + at, WIDTH, network,
                                      sizeof network, &value) > 1) {
            stop("longest_route");
        }
    }
}

/* The lines of the addresses, or of IPv6 addresses whose last 8 or 4 octets are taken from them. */
static void put_lines(void)
{
    size_t rows = addresses.len / WIDTH;
    lines = memory(rows * INET_ADDRSTRLEN);
    ipv6_lines = memory(rows * INET6_ADDRSTRLEN);
    joined = memory(rows * INET_ADDRSTRLEN);
    offsets = memory((rows + 1) * 4);
    lines.len = ipv6_lines.len = joined.len = 0;
    for (size_t row = 0; row < rows; row++) {
        const char *octets = addresses.at + row * WIDTH;
        uint8_t ipv6[16] = {0x20, 0x01, 0x0d, 0xb8};
        uint32_t offset = (uint32_t)joined.len;
        memcpy(offsets.at + row * 4, &offset, 4);
        memcpy(ipv6 + 12, octets, WIDTH);
        memcpy(ipv6 + 8, octets, row % 2 * WIDTH);
        if (inet_ntop(AF_INET, octets, lines.at + lines.len, INET_ADDRSTRLEN) == NULL
            || inet_ntop(AF_INET6, ipv6, ipv6_lines.at + ipv6_lines.len, INET6_ADDRSTRLEN) == NULL) {
            stop("inet_ntop");
        }
        size_t len = strlen(lines.at + lines.len);
        memcpy(joined.at + joined.len, lines.at + lines.len, len);
        joined.len += len;
        lines.len += len;
        lines.at[lines.len++] = '\n';
        ipv6_lines.len += strlen(ipv6_lines.at + ipv6_lines.len);
        ipv6_lines.at[ipv6_lines.len++] = '\n';
    }
    uint32_t offset = (uint32_t)joined.len;
    memcpy(offsets.at + rows * 4, &offset, 4);
}

static void read_lines(bytes text)
{
    size_t rows = addresses.len / WIDTH, bad;
    needs(ipnet_rows_from_lines(text.at, text.len, (uint8_t *)room.at, rows, (uint8_t *)room.at + rows, rows * 16, &bad));
    if (bad != 0) {
        stop("rows_from_lines");
    }
}

static void rows_from_lines(void)
{
    read_lines(lines);
}

static void rows_from_ipv6_lines(void)
{
    read_lines(ipv6_lines);
}

static void rows_from_offsets(void)
{
    size_t rows = addresses.len / WIDTH, bad;
    needs(ipnet_rows_from_offsets(joined.at, joined.len, offsets.at, offsets.len, (uint8_t *)room.at, rows,
                                  (uint8_t *)room.at + rows, rows * 16, &bad));
    if (bad != 0) {
        stop("rows_from_offsets");
    }
}

static const struct {
    const char *name;
    void (*work)(void);
} CALLS[] = {
    {"aggregate_text", aggregate}, {"aggregate_text twice", aggregate_both},
    {"set_from_text", compile}, {"set_from_list", compile_list},
    {"same_addresses", same}, {"is_covered", covered},
    {"set_contains", contains}, {"set_contains_all", contains_all},
    {"table_from_text", compile_table}, {"table_longest_match", match},
    {"table_longest_match_all", match_all}, {"table_longest_route", longest_route},
    {"set_contains_u32", contains_numbers}, {"set_contains_rows", contains_rows},
    {"table_longest_match_u32", match_numbers}, {"table_longest_match_rows", match_rows},
    {"truncate_rows", truncate_rows}, {"unmap_rows", unmap_rows},
    {"rows_from_lines", rows_from_lines}, {"rows_from_lines, IPv6", rows_from_ipv6_lines},
    {"rows_from_offsets", rows_from_offsets},
};

int main(int words, char **word)
{
    if (words != 5) {
        stop("takes SET LIST OTHER ADDRESSES");
    }
    set = read_file(word[1]);
    list = read_file(word[2]);
    other = read_file(word[3]);
    addresses = read_file(word[4]);
    for (size_t at = 0; at < list.len; at++) {
        routes += list.at[at] == '\n';
    }
    values = malloc(routes * sizeof *values);
    for (size_t at = 0; at < routes; at++) {
        values[at] = (uint32_t)at;
    }
    room = memory((size_t)1 << 27);
    image = memory((size_t)1 << 24);
    table = memory((size_t)1 << 27);
    needs(ipnet_set_from_text(set.at, set.len, image.at, image.len, &image.len));
    needs(ipnet_table_from_text(list.at, list.len, values, routes, table.at, table.len, &table.len));
    make_columns();
    put_lines();
    for (size_t call = 0; call < sizeof CALLS / sizeof *CALLS; call++) {
        double least = 1e9;
        for (int round = 0; round < ROUNDS; round++) {
            double start = now();
            CALLS[call].work();
            double time = now() - start;
            least = time < least ? time : least;
        }
        printf("%s %.4f\n", CALLS[call].name, least);
    }
    return 0;
}
