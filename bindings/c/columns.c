/* Columns of addresses: numbers and rows, beside the calls for one address; refusals; bytes at odd addresses, and
 * hostile images. Each argument ends with its block, so that a sanitizer detects a read past its end. */
#include "ipnet.h"

#include <stdbool.h>
#include <stdio.h>
#include <stdlib.h>
#include <string.h>

enum { MANY = 1000, OCTETS = 16, MISSING = 9 };

static unsigned calls, faults;

static void expect(bool holds, const char *label)
{
    calls++;
    if (!holds) {
        faults++;
        printf("wrong: %s\n", label);
    }
}

/* Memory at an odd address, up to the end of its block. */
static uint8_t *room(size_t len)
{
    uint8_t *block = malloc(len + 1);
    if (block == NULL) {
        abort();
    }
    return block + 1;
}

/* A copy of the bytes in such memory. */
static uint8_t *lent(const void *bytes, size_t len)
{
    uint8_t *copy = room(len);
    if (len > 0) {
        memcpy(copy, bytes, len);
    }
    return copy;
}

static void taken_back(uint8_t *bytes)
{
    free(bytes - 1);
}

typedef struct image {
    uint8_t *bytes;
    size_t len;
} image;

static image set_image(const char *text)
{
    uint8_t buffer[512];
    image made = {NULL, 0};
    expect(ipnet_set_from_text(text, strlen(text), buffer, sizeof buffer, &made.len) == IPNET_OK, "a set");
    made.bytes = lent(buffer, made.len);
    return made;
}

static image table_image(const char *text, const uint32_t *values, size_t count)
{
    uint8_t buffer[512];
    image made = {NULL, 0};
    expect(ipnet_table_from_text(text, strlen(text), values, count, buffer, sizeof buffer, &made.len) == IPNET_OK,
           "a table");
    made.bytes = lent(buffer, made.len);
    return made;
}

/* The next of numbers that look random. */
static uint32_t drawn(void)
{
    static uint32_t state = 2463534242u;
    state ^= state << 13;
    state ^= state >> 17;
    state ^= state << 5;
    return state;
}

/* Columns of each length up to 40, and a long one, beside the question for one address. */
static void numbers(image set, image table)
{
    for (size_t count = 0; count <= MANY; count = count < 40 ? count + 1 : count * 5) {
        uint32_t *addresses = malloc(count * sizeof *addresses + 1), *values = malloc(count * sizeof *values + 1);
        uint8_t *answers = room(count);
        if (addresses == NULL || values == NULL) {
            abort();
        }
        for (size_t i = 0; i < count; i++) {
            addresses[i] = i % 2 ? 0x0a000000u + drawn() % 20 : drawn();
        }
        expect(ipnet_set_contains_u32(set.bytes, set.len, addresses, count, answers, count) == IPNET_OK, "numbers");
        expect(ipnet_table_longest_match_u32(table.bytes, table.len, addresses, count, MISSING, values, count)
               == IPNET_OK, "numbers in a table");
        for (size_t i = 0; i < count; i++) {
            uint32_t a = addresses[i], value = MISSING;
            uint8_t octets[4] = {(uint8_t)(a >> 24), (uint8_t)(a >> 16), (uint8_t)(a >> 8), (uint8_t)a};
            expect(answers[i] == ipnet_set_contains(set.bytes, set.len, octets, 4), "the answer for one number");
            ipnet_table_longest_match(table.bytes, table.len, octets, 4, &value);
            expect(values[i] == value, "the value for one number");
        }
        free(addresses);
        free(values);
        taken_back(answers);
    }
}

static void refused_numbers(image set, image table)
{
    const uint32_t two[] = {0x0a000001u, 0x0a000004u};
    uint32_t values[] = {7, 7};
    uint8_t answers[] = {7, 7};
    expect(ipnet_set_contains_u32(set.bytes, set.len, two, 2, answers, 1) == IPNET_WRONG_LENGTH, "one answer");
    expect(ipnet_set_contains_u32(set.bytes, 31, two, 1, answers, 2) == IPNET_WRONG_LENGTH, "the lengths come first");
    expect(ipnet_set_contains_u32(set.bytes, 31, two, 2, answers, 2) == IPNET_NOT_A_SET, "no set");
    expect(ipnet_table_longest_match_u32(table.bytes, table.len, two, 2, MISSING, values, 1) == IPNET_WRONG_LENGTH,
           "one value");
    expect(ipnet_table_longest_match_u32(table.bytes, 31, two, 2, MISSING, values, 2) == IPNET_NOT_A_TABLE, "no table");
    expect(answers[0] == 7 && answers[1] == 7 && values[0] == 7 && values[1] == 7, "nothing is written");
    expect(ipnet_set_contains_u32(set.bytes, set.len, two, 2, answers, 2) == IPNET_OK && answers[0] == 1
           && answers[1] == 0, "10.0.0.1 and 10.0.0.4");
    expect(ipnet_set_contains_u32(set.bytes, set.len, NULL, 0, NULL, 0) == IPNET_OK, "no number");
}

typedef struct row {
    const char *label;
    uint8_t family, octets[OCTETS];
    uint8_t answer;                        /* of the set 10.0.0.0/30, fd00::/16 and ::ffff:10.0.0.0/126 */
    uint32_t value;                        /* of the table 10.0.0.0/8 with 1, 10.0.0.0/24 with 2, fd00::/16 with 3 */
    uint8_t unmapped_family, unmapped[OCTETS];
    uint8_t truncated[OCTETS];             /* to /24 and /20 */
} row;

static const row rows[] = {
    {"10.0.0.1", 4, {10, 0, 0, 1}, 1, 2, 4, {10, 0, 0, 1}, {10, 0, 0, 0}},
    {"10.0.0.4", 4, {10, 0, 0, 4}, 0, 2, 4, {10, 0, 0, 4}, {10, 0, 0, 0}},
    {"10.1.2.3", 4, {10, 1, 2, 3}, 0, 1, 4, {10, 1, 2, 3}, {10, 1, 2, 0}},
    {"11.0.0.1", 4, {11, 0, 0, 1}, 0, MISSING, 4, {11, 0, 0, 1}, {11, 0, 0, 0}},
    {"10.0.0.1 and bytes after it", 4, {10, 0, 0, 1, 1, [15] = 255}, 1, 2, 4, {10, 0, 0, 1, 1, [15] = 255}, {10}},
    {"fd00:1fff::1", 6, {0xfd, 0, 0x1f, 0xff, [15] = 1}, 1, 3, 6, {0xfd, 0, 0x1f, 0xff, [15] = 1}, {0xfd, 0, 0x10}},
    {"::ffff:10.0.0.1", 6, {[10] = 255, 255, 10, 0, 0, 1}, 1, MISSING, 4, {10, 0, 0, 1}, {0}},
    {"::fffe:10.0.0.1", 6, {[10] = 255, 254, 10, 0, 0, 1}, 0, MISSING, 6, {[10] = 255, 254, 10, 0, 0, 1}, {0}},
    {"::1:ffff:10.0.0.1", 6, {[9] = 1, 255, 255, 10, 0, 0, 1}, 0, MISSING, 6, {[9] = 1, 255, 255, 10, 0, 0, 1}, {0}},
    {"::10.0.0.1", 6, {[12] = 10, 0, 0, 1}, 0, MISSING, 6, {[12] = 10, 0, 0, 1}, {0}},
    {"no address", 0, {0}, 2, MISSING, 0, {0}, {0}},
    {"no address, with bytes", 0, {10, 0, 0, 1, [15] = 3}, 2, MISSING, 0, {10, 0, 0, 1, [15] = 3},
     {10, 0, 0, 1, [15] = 3}},
    {"family 5", 5, {10, 0, 0, 1}, 2, MISSING, 5, {10, 0, 0, 1}, {10, 0, 0, 1}},
    {"family 255", 255, {10, 0, 0, 1}, 2, MISSING, 255, {10, 0, 0, 1}, {10, 0, 0, 1}},
};

enum { COUNT = sizeof rows / sizeof rows[0] };

static void lent_rows(uint8_t **families, uint8_t **octets)
{
    *families = room(COUNT);
    *octets = room((size_t)COUNT * OCTETS);
    for (size_t i = 0; i < COUNT; i++) {
        (*families)[i] = rows[i].family;
        memcpy(*octets + i * OCTETS, rows[i].octets, OCTETS);
    }
}

static void questions(image set, image table)
{
    uint8_t *families, *octets, *answers = room(COUNT);
    uint32_t values[COUNT];
    lent_rows(&families, &octets);
    expect(ipnet_set_contains_rows(set.bytes, set.len, families, COUNT, octets, COUNT * OCTETS, answers, COUNT)
           == IPNET_OK, "rows");
    expect(ipnet_table_longest_match_rows(table.bytes, table.len, families, COUNT, octets, COUNT * OCTETS, MISSING,
                                          values, COUNT) == IPNET_OK, "rows in a table");
    for (size_t i = 0; i < COUNT; i++) {
        expect(answers[i] == rows[i].answer, rows[i].label);
        expect(values[i] == rows[i].value, rows[i].label);
        expect(families[i] == rows[i].family && memcmp(octets + i * OCTETS, rows[i].octets, OCTETS) == 0, "the rows");
    }
    memset(answers, 7, COUNT);
    values[0] = 7;
    expect(ipnet_set_contains_rows(set.bytes, set.len, families, COUNT, octets, COUNT * OCTETS - 1, answers, COUNT)
           == IPNET_WRONG_LENGTH, "an octet too few");
    expect(ipnet_set_contains_rows(set.bytes, 31, families, COUNT, octets, COUNT * OCTETS, answers, COUNT - 1)
           == IPNET_WRONG_LENGTH, "an answer too few");
    expect(ipnet_set_contains_rows(set.bytes, 31, families, COUNT, octets, COUNT * OCTETS, answers, COUNT)
           == IPNET_NOT_A_SET, "rows and no set");
    expect(ipnet_table_longest_match_rows(table.bytes, table.len, families, COUNT - 1, octets, COUNT * OCTETS, MISSING,
                                          values, COUNT) == IPNET_WRONG_LENGTH, "a family too few");
    expect(ipnet_table_longest_match_rows(table.bytes, 31, families, COUNT, octets, COUNT * OCTETS, MISSING, values,
                                          COUNT) == IPNET_NOT_A_TABLE, "rows and no table");
    expect(answers[0] == 7 && answers[COUNT - 1] == 7 && values[0] == 7, "no answer is written");
    taken_back(families);
    taken_back(octets);
    taken_back(answers);
}

static void changes(void)
{
    uint8_t *families, *octets;
    lent_rows(&families, &octets);
    expect(ipnet_unmap_rows(families, COUNT, octets, COUNT * OCTETS - 1) == IPNET_WRONG_LENGTH, "unmap: lengths");
    expect(ipnet_truncate_rows(33, 20, families, COUNT, octets, 1) == IPNET_PREFIX_TOO_LONG, "truncate: 33");
    expect(ipnet_truncate_rows(24, 129, families, COUNT, octets, COUNT * OCTETS) == IPNET_PREFIX_TOO_LONG,
           "truncate: 129");
    expect(ipnet_truncate_rows(256, 20, families, COUNT, octets, COUNT * OCTETS) == IPNET_PREFIX_TOO_LONG,
           "truncate: 256");
    expect(ipnet_truncate_rows(24, 20, families, COUNT, octets, 1) == IPNET_WRONG_LENGTH, "truncate: lengths");
    for (size_t i = 0; i < COUNT; i++) {
        expect(families[i] == rows[i].family && memcmp(octets + i * OCTETS, rows[i].octets, OCTETS) == 0,
               "nothing is changed");
    }
    expect(ipnet_truncate_rows(24, 20, families, COUNT, octets, COUNT * OCTETS) == IPNET_OK, "truncate");
    for (size_t i = 0; i < COUNT; i++) {
        expect(families[i] == rows[i].family && memcmp(octets + i * OCTETS, rows[i].truncated, OCTETS) == 0,
               rows[i].label);
    }
    taken_back(families);
    taken_back(octets);
    lent_rows(&families, &octets);
    expect(ipnet_unmap_rows(families, COUNT, octets, COUNT * OCTETS) == IPNET_OK, "unmap");
    for (size_t i = 0; i < COUNT; i++) {
        expect(families[i] == rows[i].unmapped_family && memcmp(octets + i * OCTETS, rows[i].unmapped, OCTETS) == 0,
               rows[i].label);
    }
    expect(ipnet_unmap_rows(NULL, 0, NULL, 0) == IPNET_OK && ipnet_truncate_rows(0, 0, NULL, 0, NULL, 0) == IPNET_OK,
           "no rows");
    taken_back(families);
    taken_back(octets);
}

/* Each prefix length from 0 on, beside a plain mask. */
static void lengths(void)
{
    for (uint32_t length = 0; length <= 128; length++) {
        uint8_t families[2] = {4, 6}, octets[2 * OCTETS], mask[OCTETS] = {0};
        memset(octets, 255, sizeof octets);
        for (uint32_t bit = 0; bit < length; bit++) {
            mask[bit / 8] |= (uint8_t)(128 >> bit % 8);
        }
        uint32_t ipv4 = length < 32 ? length : 32;
        expect(ipnet_truncate_rows(ipv4, length, families, 2, octets, sizeof octets) == IPNET_OK, "a length");
        expect(memcmp(octets + OCTETS, mask, OCTETS) == 0, "the mask of IPv6");
        memset(mask + 4, 0, OCTETS - 4);
        expect(memcmp(octets, mask, OCTETS) == 0, "the mask of IPv4");
    }
}

/* Each byte of the images changed, and each shorter image: every call ends, and reads no further. */
static void hostile(image given, bool is_set)
{
    uint8_t *families, *octets, answers[COUNT];
    uint32_t values[COUNT], asked[COUNT];
    lent_rows(&families, &octets);
    for (size_t i = 0; i < COUNT; i++) {
        asked[i] = drawn();
    }
    for (size_t i = 0; i < given.len; i++) {
        for (size_t len = i; len <= given.len; len += given.len - i) {
            uint8_t *changed = lent(given.bytes, len);
            if (len > i) {
                changed[i] ^= 0x81;
            }
            ipnet_status first = is_set
                ? ipnet_set_contains_u32(changed, len, asked, COUNT, answers, COUNT)
                : ipnet_table_longest_match_u32(changed, len, asked, COUNT, MISSING, values, COUNT);
            ipnet_status second = is_set
                ? ipnet_set_contains_rows(changed, len, families, COUNT, octets, COUNT * OCTETS, answers, COUNT)
                : ipnet_table_longest_match_rows(changed, len, families, COUNT, octets, COUNT * OCTETS, MISSING, values,
                                                 COUNT);
            expect(first == second && (first == IPNET_OK) == (len > i && i >= 32), "hostile bytes");
            taken_back(changed);
        }
    }
    taken_back(families);
    taken_back(octets);
}

int main(void)
{
    const uint32_t values[] = {1, 2, 3};
    image set = set_image("10.0.0.0/30\nfd00::/16\n::ffff:10.0.0.0/126\n");
    image table = table_image("10.0.0.0/8\n10.0.0.0/24\nfd00::/16\n", values, 3);
    numbers(set, table);
    refused_numbers(set, table);
    questions(set, table);
    changes();
    lengths();
    hostile(set, true);
    hostile(table, false);
    taken_back(set.bytes);
    taken_back(table.bytes);
    printf("%u answers, %u faults\n", calls, faults);
    return faults > 0;
}
