/* Tables of routes by their images: longest matches one by one and in bulk, refusals, and questions to hostile
 * bytes. Each argument is in a block of exactly its length, so that a sanitizer detects a read past its end. */
#include "ipnet.h"

#include <stdbool.h>
#include <stdio.h>
#include <stdlib.h>
#include <string.h>

#define UNTOUCHED 0xa5a5a5a5u

static unsigned calls, faults;

static void expect(bool holds, const char *label)
{
    calls++;
    if (!holds) {
        faults++;
        printf("wrong: %s\n", label);
    }
}

/* A copy in a block of exactly this length. */
static void *copied(const void *bytes, size_t len)
{
    void *copy = malloc(len > 0 ? len : 1);
    if (copy == NULL) {
        abort();
    }
    if (len > 0) {
        memcpy(copy, bytes, len);
    }
    return copy;
}

static const char list[] = "0.0.0.0/0\n10.0.0.0/8\n10.1.0.0/16\n10.1.2.0/24\n10.0.0.7/8\nfd00::/32\n";
static const uint32_t numbers[] = {1, 2, 3, 4, 5, 6};

static void texts(void)
{
    uint8_t buffer[512];
    size_t count = 99;
    expect(ipnet_table_from_text(NULL, 0, NULL, 0, buffer, sizeof buffer, &count) == IPNET_OK && count == 32, "none");
    expect(ipnet_table_from_text(list, strlen(list), numbers, 6, NULL, 0, &count) == IPNET_BUFFER_TOO_SHORT
           && count == 128, "no buffer");
    count = 99;
    expect(ipnet_table_from_text(list, strlen(list), numbers, 5, buffer, sizeof buffer, &count) == IPNET_WRONG_LENGTH
           && count == 99, "five values");
    expect(ipnet_table_from_text("10.0.0.0/8\n\nx\n", 14, numbers, 2, buffer, sizeof buffer, &count) == IPNET_BAD_LINE
           && count == 3, "a bad line");
    count = 99;
    expect(ipnet_table_from_text("\xff", 1, numbers, 1, buffer, sizeof buffer, &count) == IPNET_NOT_UTF8 && count == 99,
           "not UTF-8");
}

static const struct {
    uint8_t octets[16];
    size_t len;
    uint32_t status, value;
} asked[] = {
    {{10, 1, 2, 3}, 4, 1, 4},
    {{10, 1, 3, 3}, 4, 1, 3},
    {{10, 2, 0, 1}, 4, 1, 5},
    {{11, 0, 0, 1}, 4, 1, 1},
    {{255, 255, 255, 255}, 4, 1, 1},
    {{0xfd, 0, 0, 0, 0, 1}, 16, 1, 6},
    {{0xfd, 0, 0, 1}, 16, 0, 0},
    {{0}, 16, 0, 0},
    {{10, 1, 2, 3}, 3, IPNET_WRONG_LENGTH, 0},
};

static void questions(const uint8_t *table, size_t len)
{
    size_t count = 0;
    expect(ipnet_table_count(table, len, &count) == IPNET_OK && count == 5, "five routes");
    expect(ipnet_table_check(table, len) == IPNET_OK, "an image");
    for (size_t i = 0; i < sizeof asked / sizeof asked[0]; i++) {
        uint32_t value = UNTOUCHED;
        uint8_t *octets = copied(asked[i].octets, asked[i].len);
        expect(ipnet_table_longest_match(table, len, octets, asked[i].len, &value) == asked[i].status, "the status");
        expect(value == (asked[i].status == 1 ? asked[i].value : UNTOUCHED), "the value");
        free(octets);
    }
}

/* The network of each address of `asked` in byte form; its length is 0 if there is none. */
static const struct {
    uint8_t bytes[18];
    size_t len;
} routes[] = {
    {{0, 10, 1, 2, 0, 24}, 6},  {{0, 10, 1, 0, 0, 16}, 6}, {{0, 10, 0, 0, 0, 8}, 6},
    {{0, 0, 0, 0, 0, 0}, 6},    {{0, 0, 0, 0, 0, 0}, 6},   {{1, 0xfd, [17] = 32}, 18},
    {{0}, 0},                   {{0}, 0},                  {{0}, 0},
};

static void longest_routes(const uint8_t *table, size_t len)
{
    for (size_t i = 0; i < sizeof asked / sizeof asked[0]; i++) {
        for (size_t room = 17; room < 20; room++) {
            uint32_t value = UNTOUCHED;
            uint8_t *octets = copied(asked[i].octets, asked[i].len), *network = malloc(room);
            memset(network, 0xa5, room);
            uint32_t status = ipnet_table_longest_route(table, len, octets, asked[i].len, network, room, &value);
            bool is_short = room < 18 && asked[i].status != IPNET_WRONG_LENGTH, found = status == 1;
            expect(status == (is_short ? (uint32_t)IPNET_BUFFER_TOO_SHORT : asked[i].status), "the status of a route");
            expect(value == (found ? asked[i].value : UNTOUCHED), "the value of a route");
            expect(!found || memcmp(network, routes[i].bytes, routes[i].len) == 0, "the network of a route");
            for (size_t k = found ? routes[i].len : 0; k < room; k++) {
                expect(network[k] == 0xa5, "the bytes after the network");
            }
            free(octets);
            free(network);
        }
    }
    uint8_t network[18] = {0};
    uint32_t value = UNTOUCHED;
    expect(ipnet_table_longest_route(table, 31, asked[0].octets, 4, network, 18, &value) == IPNET_NOT_A_TABLE
           && value == UNTOUCHED, "no header, no route");
    expect(ipnet_table_longest_route(table, 31, asked[0].octets, 4, NULL, 0, &value) == IPNET_BUFFER_TOO_SHORT,
           "the length is checked before the table");
}

/* Networks, and the longest network of the table that contains each, in byte form, with its value. */
static const struct {
    uint8_t network[18];
    size_t len;
    uint32_t status, value;
    uint8_t covering[18];
} held[] = {
    {{0, 10, 1, 2, 3, 24}, 6, 1, 4, {0, 10, 1, 2, 0, 24}},
    {{0, 10, 1, 2, 0, 23}, 6, 1, 3, {0, 10, 1, 0, 0, 16}},
    {{0, 10, 0, 0, 0, 8}, 6, 1, 5, {0, 10, 0, 0, 0, 8}},
    {{0, 10, 0, 0, 0, 7}, 6, 1, 1, {0, 0, 0, 0, 0, 0}},
    {{1, 0xfd, [17] = 33}, 18, 1, 6, {1, 0xfd, [17] = 32}},
    {{1, 0xfd, [17] = 31}, 18, 0, 0, {0}},
    {{0, 10, 1, 2, 3, 33}, 6, IPNET_PREFIX_TOO_LONG, 0, {0}},
    {{2, 10, 1, 2, 3, 8}, 6, IPNET_UNKNOWN_FAMILY, 0, {0}},
    {{0, 10, 1, 2, 3}, 5, IPNET_WRONG_LENGTH, 0, {0}},
};

static void longest_covering(const uint8_t *table, size_t len)
{
    for (size_t i = 0; i < sizeof held / sizeof held[0]; i++) {
        for (size_t room = 17; room < 20; room++) {
            uint32_t value = UNTOUCHED;
            uint8_t *given = copied(held[i].network, held[i].len), *covering = malloc(room);
            memset(covering, 0xa5, room);
            uint32_t status = ipnet_table_longest_covering(table, len, given, held[i].len, covering, room, &value);
            bool is_short = room < 18 && held[i].status <= 1, found = status == 1;
            expect(status == (is_short ? (uint32_t)IPNET_BUFFER_TOO_SHORT : held[i].status), "the status of a network");
            expect(value == (found ? held[i].value : UNTOUCHED), "the value of a network");
            expect(!found || memcmp(covering, held[i].covering, held[i].len) == 0, "the network around one");
            for (size_t k = found ? held[i].len : 0; k < room; k++) {
                expect(covering[k] == 0xa5, "the bytes after the network around one");
            }
            free(given);
            free(covering);
        }
    }
    uint32_t value = UNTOUCHED;
    expect(ipnet_table_longest_covering(table, 31, held[0].network, 6, NULL, 0, &value) == IPNET_BUFFER_TOO_SHORT,
           "the length is checked before the table");
}

static void bulk(const uint8_t *table, size_t len)
{
    static const uint8_t four[] = {10, 1, 2, 3, 10, 2, 0, 1, 11, 0, 0, 1};
    uint32_t values[3] = {UNTOUCHED, UNTOUCHED, UNTOUCHED};
    uint8_t *octets = copied(four, sizeof four);
    expect(ipnet_table_longest_match_all(table, len, octets, 12, 4, 9, values, 2) == IPNET_WRONG_LENGTH, "two values");
    expect(ipnet_table_longest_match_all(table, len, octets, 12, 12, 9, values, 1) == IPNET_WRONG_LENGTH, "width 12");
    expect(ipnet_table_longest_match_all(table, 31, octets, 12, 4, 9, values, 3) == IPNET_NOT_A_TABLE, "no header");
    expect(values[0] == UNTOUCHED && values[2] == UNTOUCHED, "untouched");
    expect(ipnet_table_longest_match_all(table, len, octets, 12, 4, 9, values, 3) == IPNET_OK, "the call");
    expect(values[0] == 4 && values[1] == 5 && values[2] == 1, "three values");
    expect(ipnet_table_longest_match_all(table, len, NULL, 0, 16, 9, NULL, 0) == IPNET_OK, "none");
    static const uint8_t sixteen[16] = {0xfe, 0x80};
    expect(ipnet_table_longest_match_all(table, len, sixteen, 16, 16, 9, values, 1) == IPNET_OK && values[0] == 9,
           "missing");
    free(octets);
}

/* The routes of the table, in order, as rows: the family, the octets, the prefix length and the value. */
static const struct {
    uint8_t family, octets[16], length;
    uint32_t value;
} listed[] = {
    {4, {0}, 0, 1}, {4, {10}, 8, 5}, {4, {10, 1}, 16, 3}, {4, {10, 1, 2}, 24, 4}, {6, {0xfd}, 32, 6},
};

/* Each part of the list of routes, and with one route too many. */
static void rows(const uint8_t *table, size_t len)
{
    for (size_t start = 0; start <= 5; start++) {
        for (size_t count = 0; start + count <= 6; count++) {
            bool fits = start + count <= 5;
            uint8_t *families = malloc(count + 1), *octets = malloc(16 * count + 1), *lengths = malloc(count + 1);
            uint32_t *values = malloc(4 * count + 4);
            memset(families, 0xa5, count + 1);
            memset(octets, 0xa5, 16 * count + 1);
            memset(lengths, 0xa5, count + 1);
            memset(values, 0xa5, 4 * count + 4);
            expect(ipnet_table_networks(table, len, start, families, count, octets, 16 * count, lengths, count)
                   == (fits ? IPNET_OK : IPNET_WRONG_LENGTH), "the status of networks");
            expect(ipnet_table_values(table, len, start, values, count) == (fits ? IPNET_OK : IPNET_WRONG_LENGTH),
                   "the status of values");
            for (size_t i = 0; fits && i < count; i++) {
                expect(families[i] == listed[start + i].family && lengths[i] == listed[start + i].length
                       && memcmp(octets + 16 * i, listed[start + i].octets, 16) == 0, "a network");
                expect(values[i] == listed[start + i].value, "a value of the list");
            }
            size_t kept = fits ? count : 0;
            expect(families[kept] == 0xa5 && octets[16 * kept] == 0xa5 && lengths[kept] == 0xa5
                   && values[kept] == UNTOUCHED, "no other row");
            free(families);
            free(octets);
            free(lengths);
            free(values);
        }
    }
    uint8_t few[32];
    uint32_t value;
    expect(ipnet_table_networks(table, len, 0, few, 1, few + 1, 17, few + 18, 1) == IPNET_WRONG_LENGTH, "17 octets");
    expect(ipnet_table_networks(table, len, 0, few, 1, few + 1, 16, few + 18, 2) == IPNET_WRONG_LENGTH, "two lengths");
    expect(ipnet_table_networks(table, len, SIZE_MAX, few, 1, few + 1, 16, few + 18, 1) == IPNET_WRONG_LENGTH
           && ipnet_table_values(table, len, SIZE_MAX, &value, 1) == IPNET_WRONG_LENGTH, "a start beyond all routes");
    expect(ipnet_table_networks(table, 31, 0, few, 1, few + 1, 17, few + 18, 1) == IPNET_NOT_A_TABLE
           && ipnet_table_values(table, 31, 9, &value, 1) == IPNET_NOT_A_TABLE, "no header, no rows");
}

/* Other values: the result is the image of the same networks with these values. */
static void other_values(const uint8_t *table, size_t len)
{
    static const uint32_t values[] = {70, 0x01020304, 0, 0xffffffff, 80, 9};
    static const char networks[] = "0.0.0.0/0\n10.0.0.0/8\n10.1.0.0/16\n10.1.2.0/24\nfd00::/32\n";
    uint8_t wanted[512];
    size_t count = 0, wanted_len = 0;
    expect(ipnet_table_from_text(networks, strlen(networks), values, 5, wanted, sizeof wanted, &wanted_len) == IPNET_OK
           && wanted_len == len, "the same networks");
    for (size_t room = len - 1; room <= len + 1; room++) {
        uint8_t *buffer = malloc(room);
        memset(buffer, 0xa5, room);
        count = 99;
        expect(ipnet_table_with_values(table, len, values, 5, buffer, room, &count)
               == (room < len ? IPNET_BUFFER_TOO_SHORT : IPNET_OK) && count == len, "the status of other values");
        expect(room < len ? buffer[0] == 0xa5 : memcmp(buffer, wanted, len) == 0, "the image with other values");
        expect(room == len || buffer[room - 1] == 0xa5, "the bytes after the image");
        free(buffer);
    }
    count = 99;
    expect(ipnet_table_with_values(table, len, values, 4, wanted, sizeof wanted, &count) == IPNET_WRONG_LENGTH
           && ipnet_table_with_values(table, len, values, 6, wanted, sizeof wanted, &count) == IPNET_WRONG_LENGTH
           && ipnet_table_with_values(table, 31, values, 5, wanted, sizeof wanted, &count) == IPNET_NOT_A_TABLE
           && count == 99, "no other values");
}

/* Each byte of the image changed, and each shorter image: every call ends, and reads no further. */
static void hostile(const uint8_t *table, size_t len)
{
    for (size_t i = 0; i < len; i++) {
        for (unsigned flip = 1; flip < 256; flip = flip * 2 + 1) {
            uint8_t *changed = copied(table, len), network[18];
            uint32_t value = 0;
            changed[i] ^= (uint8_t)flip;
            bool is_header = i < 32;
            ipnet_status status = ipnet_table_check(changed, len);
            expect(status == IPNET_NOT_A_TABLE || (status == IPNET_OK && !is_header), "a changed byte");
            for (size_t k = 0; k < sizeof asked / sizeof asked[0]; k++) {
                ipnet_table_longest_match(changed, len, asked[k].octets, asked[k].len, &value);
                ipnet_table_longest_route(changed, len, asked[k].octets, asked[k].len, network, sizeof network, &value);
                ipnet_table_longest_covering(changed, len, held[k].network, held[k].len, network, sizeof network,
                                             &value);
            }
            uint8_t families[5], octets[80], lengths[5];
            uint32_t values[5];
            size_t count;
            status = ipnet_table_networks(changed, len, 0, families, 5, octets, 80, lengths, 5);
            expect(status == (is_header ? IPNET_NOT_A_TABLE : IPNET_OK), "the rows of a changed image");
            for (size_t k = 0; status == IPNET_OK && k < 5; k++) {
                expect(families[k] == listed[k].family || (families[k] == 0 && lengths[k] == 0), "a row of any bytes");
            }
            expect(ipnet_table_values(changed, len, 0, values, 5) == status, "the values of a changed image");
            uint8_t *copy = malloc(len);
            expect(ipnet_table_with_values(changed, len, numbers, 5, copy, len, &count) == status, "other values");
            free(copy);
            free(changed);
        }
        uint8_t *shorter = copied(table, i);
        uint32_t value = UNTOUCHED;
        expect(ipnet_table_longest_match(shorter, i, asked[0].octets, 4, &value) == IPNET_NOT_A_TABLE
               && value == UNTOUCHED, "a shorter image");
        free(shorter);
    }
}

enum { EACH = 300, ROWS = 32 + EACH * 16 + EACH * 32, INDEXED = ROWS + (256 + 256 + 1) * 4 };

/* The image of a table of EACH networks of each family, the first one last if `backward`. */
static uint8_t *indexed_image(bool backward)
{
    static char text[EACH * 2 * 24];
    static uint32_t values[EACH * 2];
    size_t text_len = 0, len = 0;
    for (unsigned i = 0; i < EACH * 2; i++) {
        unsigned number = backward ? EACH * 2 - 1 - i : i;
        values[i] = number;
        text_len += (size_t)sprintf(text + text_len, number < EACH ? "10.%u.%u.0/24\n" : "2001:db8:%x%02x::/48\n",
                                    number >> 8, number & 255);
    }
    uint8_t *image = malloc(INDEXED);
    if (image == NULL) {
        abort();
    }
    expect(ipnet_table_from_text(text, text_len, values, EACH * 2, image, INDEXED, &len) == IPNET_OK && len == INDEXED,
           "a table with an index");
    return image;
}

/* A table with an index: one image whatever the order, and no other index. */
static void indexed(void)
{
    uint8_t *table = indexed_image(false), *other = indexed_image(true);
    expect(memcmp(table, other, INDEXED) == 0, "one image");
    for (unsigned i = 0; i < EACH; i++) {
        const uint8_t octets[16] = {10, (uint8_t)(i >> 8), (uint8_t)i, 9};
        uint32_t value = UNTOUCHED;
        expect(ipnet_table_longest_match(table, INDEXED, octets, 4, &value) == 1 && value == i, "a match by the index");
        expect(ipnet_table_longest_match(table, INDEXED, octets, 16, &value) == 0, "no match of IPv6");
    }
    expect(ipnet_table_check(table, INDEXED) == IPNET_OK, "the index");
    for (size_t i = ROWS; i < INDEXED; i++) {
        uint32_t value = 0;
        other[i] ^= (uint8_t)(1 << i % 8);
        expect(ipnet_table_check(other, INDEXED) == IPNET_NOT_A_TABLE, "a changed index");
        for (size_t k = 0; k < sizeof asked / sizeof asked[0]; k++) {
            ipnet_table_longest_match(other, INDEXED, asked[k].octets, asked[k].len, &value);
        }
        other[i] = table[i];
    }
    free(other);
    free(table);
}

int main(void)
{
    uint8_t buffer[512];
    size_t len = 0;
    texts();
    expect(ipnet_table_from_text(list, strlen(list), numbers, 6, buffer, sizeof buffer, &len) == IPNET_OK, "the table");
    uint8_t *table = copied(buffer, len);
    questions(table, len);
    longest_routes(table, len);
    longest_covering(table, len);
    bulk(table, len);
    rows(table, len);
    other_values(table, len);
    hostile(table, len);
    free(table);
    indexed();
    printf("%u answers, %u faults\n", calls, faults);
    return faults > 0;
}
