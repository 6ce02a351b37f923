/* Rows that are read from text: labelled texts as lines and by offsets, refusals, odd addresses, and random texts beside
 * inet_pton. Each argument ends with its block, so that a sanitizer detects a read past its end. */
#define _POSIX_C_SOURCE 200112L
#include "ipnet.h"

#include <arpa/inet.h>
#include <stdbool.h>
#include <stdio.h>
#include <stdlib.h>
#include <string.h>

#define UNTOUCHED 0xa5

static unsigned calls, faults;

static void expect(bool holds, const char *label)
{
    calls++;
    if (!holds) {
        faults++;
        printf("wrong: %s\n", label);
    }
}

static void *memory(size_t len)
{
    void *made = malloc(len > 0 ? len : 1);
    if (made == NULL) {
        abort();
    }
    return made;
}

/* Bytes that lie `shift` bytes after the start of a block, and end with it. */
struct bytes {
    uint8_t *block, *at;
    size_t len;
};

static struct bytes lent(const void *bytes, size_t len, size_t shift)
{
    struct bytes made = {memory(len + shift), NULL, len};
    made.at = made.block + shift;
    if (bytes != NULL && len > 0) {
        memcpy(made.at, bytes, len);
    } else {
        memset(made.at, UNTOUCHED, len);
    }
    return made;
}

static bool is_untouched(struct bytes bytes)
{
    for (size_t i = 0; i < bytes.len; i++) {
        if (bytes.at[i] != UNTOUCHED) {
            return false;
        }
    }
    return true;
}

/* A text, and the family and the octets of its row. */
static const struct {
    const char *text;
    uint8_t family, octets[16];
} rows[] = {
    {"10.0.0.1", 4, {10, 0, 0, 1}},
    {"0.0.0.0", 4, {0}},
    {"255.255.255.255", 4, {255, 255, 255, 255}},
    {"::", 6, {0}},
    {"::1", 6, {[15] = 1}},
    {"fd00::1", 6, {0xfd, [15] = 1}},
    {"FD00::A", 6, {0xfd, [15] = 10}},
    {"1:2:3:4:5:6:7:8", 6, {0, 1, 0, 2, 0, 3, 0, 4, 0, 5, 0, 6, 0, 7, 0, 8}},
    {"1:2:3:4:5:6:7::", 6, {0, 1, 0, 2, 0, 3, 0, 4, 0, 5, 0, 6, 0, 7, 0, 0}},
    {"::ffff:10.0.0.1", 6, {[10] = 255, [11] = 255, [12] = 10, [15] = 1}},
    {"ffff:ffff:ffff:ffff:ffff:ffff:255.255.255.255", 6,
     {255, 255, 255, 255, 255, 255, 255, 255, 255, 255, 255, 255, 255, 255, 255, 255}},
    {"", 0, {0}},
    {"x", 0, {0}},
    {" 10.0.0.1", 0, {0}},
    {"10.0.0.1 ", 0, {0}},
    {"10.0.0.1\r", 0, {0}},
    {"10.0.0", 0, {0}},
    {"10.0.0.1.2", 0, {0}},
    {"10.0.0.256", 0, {0}},
    {"10.0.0.01", 0, {0}},
    {"10.0.0.1/32", 0, {0}},
    {"10.0.0.1-10.0.0.2", 0, {0}},
    {"::1%eth0", 0, {0}},
    {"::1/128", 0, {0}},
    {"1::2::3", 0, {0}},
    {"1:2:3:4:5:6:7:8:9", 0, {0}},
    {"1:2:3:4:5:6:7::8", 0, {0}},
    {"12345::", 0, {0}},
    {"::ffff:10.0.0.01", 0, {0}},
    {"\xff", 0, {0}},
    {"10.0.0.1\xc2\xa0", 0, {0}},
    {"0000:0000:0000:0000:0000:0000:0000:0000:0000:0000:0000:0000", 0, {0}},
};

enum { COUNT = sizeof rows / sizeof *rows };

/* Whether these are the rows, from index `first` on. */
static bool are_rows(struct bytes families, struct bytes octets, size_t first)
{
    for (size_t i = 0; i < families.len; i++) {
        if (families.at[i] != rows[first + i].family || memcmp(octets.at + 16 * i, rows[first + i].octets, 16) != 0) {
            printf("row: %s\n", rows[first + i].text);
            return false;
        }
    }
    return true;
}

static size_t count_bad(size_t first, size_t count)
{
    size_t bad = 0;
    for (size_t i = first; i < first + count; i++) {
        bad += rows[i].family == 0;
    }
    return bad;
}

static size_t joined(char *text, size_t first, size_t count, const char *end)
{
    size_t len = 0;
    for (size_t i = first; i < first + count; i++) {
        len += (size_t)sprintf(text + len, "%s%s", rows[i].text, end);
    }
    return len;
}

/* The rows from index `first` on as lines, each argument `shift` bytes after the start of its block. */
static void try_lines(size_t first, size_t count, size_t shift)
{
    char text[4096] = "";
    size_t bad = 99, len = joined(text, first, count, "\n");
    struct bytes given = lent(text, len, shift), families = lent(NULL, count, shift + 1);
    struct bytes octets = lent(NULL, 16 * count, shift + 2);
    ipnet_status status = ipnet_rows_from_lines((const char *)given.at, len, families.at, count, octets.at, octets.len,
                                                &bad);
    expect(status == IPNET_OK && bad == count_bad(first, count), "lines");
    expect(are_rows(families, octets, first), "the rows of lines");
    free(given.block);
    free(families.block);
    free(octets.block);
}

/* The offsets of the rows from index `first` on, the first one `start`, of `width` bytes each. */
static size_t put_offsets(uint8_t *offsets, size_t width, size_t start, size_t first, size_t count)
{
    for (size_t i = 0; i <= count; i++) {
        for (size_t k = 0; k < width; k++) {
            offsets[i * width + k] = (uint8_t)((uint64_t)start >> (8 * k));
        }
        start += i < count ? strlen(rows[first + i].text) : 0;
    }
    return (count + 1) * width;
}

static void try_offsets(size_t first, size_t count, size_t width, size_t shift)
{
    char text[4096] = "ab";
    uint8_t bytes[8 * (COUNT + 1)];
    size_t bad = 99, len = 2 + joined(text + 2, first, count, "");
    struct bytes given = lent(text, len, shift);
    struct bytes offsets = lent(bytes, put_offsets(bytes, width, 2, first, count), shift + 1);
    struct bytes families = lent(NULL, count, shift), octets = lent(NULL, 16 * count, shift + 1);
    ipnet_status status = ipnet_rows_from_offsets((const char *)given.at, len, offsets.at, offsets.len, families.at,
                                                  count, octets.at, octets.len, &bad);
    expect(status == IPNET_OK && bad == count_bad(first, count), "offsets");
    expect(are_rows(families, octets, first), "the rows of offsets");
    free(given.block);
    free(offsets.block);
    free(families.block);
    free(octets.block);
}

static void try_rows(void)
{
    for (size_t i = 0; i < COUNT; i++) {
        try_lines(i, 1, i % 16);
        try_offsets(i, 1, 4, i % 16);
        try_offsets(i, 1, 8, i % 16);
    }
    for (size_t shift = 0; shift < 17; shift++) {
        try_lines(0, COUNT, shift);
        try_offsets(0, COUNT, 4, shift);
        try_offsets(0, COUNT, 8, shift);
    }
    try_lines(0, 0, 0);
    try_offsets(0, 0, 4, 0);
    try_offsets(0, 0, 8, 0);
}

/* A text, and how many rows and octets are lent for it; the call refuses all of them. */
static const struct {
    const char *text;
    size_t rows, octets;
} wrong_lines[] = {
    {"10.0.0.1\n10.0.0.2\n", 1, 16}, {"10.0.0.1\n10.0.0.2\n", 3, 48}, {"10.0.0.1\n10.0.0.2", 2, 32},
    {"10.0.0.1\n10.0.0.2", 1, 16},   {"10.0.0.1\n", 1, 15},           {"10.0.0.1\n", 1, 17},
    {"10.0.0.1\n", 0, 0},            {"", 1, 16},                     {"10.0.0.1", 0, 0},
    {"\n", 2, 32},                   {"10.0.0.1\n", 1, 0},
};

static void try_wrong_lines(void)
{
    for (size_t i = 0; i < sizeof wrong_lines / sizeof *wrong_lines; i++) {
        size_t bad = 99;
        struct bytes given = lent(wrong_lines[i].text, strlen(wrong_lines[i].text), 0);
        struct bytes families = lent(NULL, wrong_lines[i].rows, 0), octets = lent(NULL, wrong_lines[i].octets, 0);
        expect(ipnet_rows_from_lines((const char *)given.at, given.len, families.at, families.len, octets.at, octets.len,
                                     &bad) == IPNET_WRONG_LENGTH, wrong_lines[i].text);
        expect(bad == 99 && is_untouched(families) && is_untouched(octets), "nothing is modified");
        free(given.block);
        free(families.block);
        free(octets.block);
    }
}

/* The bytes of offsets over a text of 8 bytes, their number, rows and octets, and the status. */
static const struct {
    uint8_t offsets[24];
    size_t len, rows, octets;
    ipnet_status status;
} given_offsets[] = {
    {{0, 0, 0, 0, 8, 0, 0, 0}, 8, 1, 16, IPNET_OK},
    {{8, 0, 0, 0, 8, 0, 0, 0}, 8, 1, 16, IPNET_OK},
    {{0, 0, 0, 0, 9, 0, 0, 0}, 8, 1, 16, IPNET_BAD_OFFSETS},
    {{8, 0, 0, 0, 7, 0, 0, 0}, 8, 1, 16, IPNET_BAD_OFFSETS},
    {{9, 0, 0, 0}, 4, 0, 0, IPNET_BAD_OFFSETS},
    {{9, 0, 0, 0, 9, 0, 0, 0}, 8, 1, 16, IPNET_BAD_OFFSETS},
    {{0, 0, 0, 0, 9, 0, 0, 0, 8, 0, 0, 0}, 12, 2, 32, IPNET_BAD_OFFSETS},
    {{0, 0, 0, 0, 255, 255, 255, 255}, 8, 1, 16, IPNET_BAD_OFFSETS},
    {{[8] = 8}, 16, 1, 16, IPNET_OK},
    {{[8] = 8, [12] = 1}, 16, 1, 16, IPNET_BAD_OFFSETS},
    {{[8] = 8, [15] = 128}, 16, 1, 16, IPNET_BAD_OFFSETS},
    {{[7] = 255, [15] = 255}, 16, 1, 16, IPNET_BAD_OFFSETS},
    {{0}, 0, 0, 0, IPNET_WRONG_LENGTH},
    {{0}, 5, 0, 0, IPNET_WRONG_LENGTH},
    {{0}, 4, 1, 16, IPNET_WRONG_LENGTH},
    {{0}, 12, 1, 16, IPNET_WRONG_LENGTH},
    {{0}, 16, 2, 32, IPNET_WRONG_LENGTH},
    {{0}, 8, 1, 15, IPNET_WRONG_LENGTH},
    {{9, 0, 0, 0, 9, 0, 0, 0}, 8, 1, 32, IPNET_WRONG_LENGTH},
};

static void try_given_offsets(void)
{
    for (size_t i = 0; i < sizeof given_offsets / sizeof *given_offsets; i++) {
        size_t bad = 99;
        struct bytes text = lent("10.0.0.1", 8, 0), offsets = lent(given_offsets[i].offsets, given_offsets[i].len, 0);
        struct bytes families = lent(NULL, given_offsets[i].rows, 0), octets = lent(NULL, given_offsets[i].octets, 0);
        ipnet_status status = ipnet_rows_from_offsets((const char *)text.at, 8, offsets.at, offsets.len, families.at,
                                                      families.len, octets.at, octets.len, &bad);
        expect(status == given_offsets[i].status, "the status of offsets");
        expect(status == IPNET_OK || (bad == 99 && is_untouched(families) && is_untouched(octets)), "nothing is modified");
        free(text.block);
        free(offsets.block);
        free(families.block);
        free(octets.block);
    }
}

static uint64_t state = 40;

static unsigned draw(unsigned below)
{
    state = state * 6364136223846793005u + 1442695040888963407u;
    return (unsigned)(state >> 33) % below;
}

/* A text with its line end: an address of either family, often with a byte that is changed, added or left out. */
static size_t put_text(char *text)
{
    static const char bytes[] = "0123456789abcdefABCDEF.:/% x-";
    uint8_t octets[16];
    bool is_ipv4 = draw(2) == 0;
    for (size_t i = 0; i < 16; i++) {
        octets[i] = (uint8_t)(draw(3) == 0 ? draw(256) : draw(2) * 10);
    }
    if (!is_ipv4 && draw(4) == 0) {
        memset(octets, 0, 10);
        memset(octets + 10, 255, 2);
    }
    if (inet_ntop(is_ipv4 ? AF_INET : AF_INET6, octets, text, 64) == NULL) {
        abort();
    }
    size_t len = strlen(text);
    if (draw(2) == 0) {
        size_t place = draw((unsigned)len);
        char byte = bytes[draw(sizeof bytes - 1)];
        unsigned kind = draw(3);
        if (kind == 0) {
            text[place] = byte;
        } else if (kind == 1) {
            memmove(text + place + 1, text + place, len++ - place);
            text[place] = byte;
        } else {
            memmove(text + place, text + place + 1, --len - place);
        }
    }
    text[len] = '\n';
    return len + 1;
}

enum { RANDOM = 100000 };

/* Random texts: inet_pton reads the same addresses, in the same grammar. */
static void try_random(void)
{
    char *text = memory(RANDOM * 64);
    uint8_t *families = memory(RANDOM), *octets = memory(RANDOM * 16);
    size_t len = 0, bad = 0, expected_bad = 0, wrong = 0;
    for (size_t i = 0; i < RANDOM; i++) {
        len += put_text(text + len);
    }
    expect(ipnet_rows_from_lines(text, len, families, RANDOM, octets, RANDOM * 16, &bad) == IPNET_OK, "random texts");
    char *line = text;
    for (size_t i = 0; i < RANDOM; i++) {
        char *end = strchr(line, '\n');
        uint8_t expected[16] = {0}, family = 0;
        *end = '\0';
        family = inet_pton(AF_INET, line, expected) == 1 ? 4 : inet_pton(AF_INET6, line, expected) == 1 ? 6 : 0;
        if (family == 0) {
            memset(expected, 0, 16);
            expected_bad++;
        }
        if (family != families[i] || memcmp(expected, octets + 16 * i, 16) != 0) {
            wrong++;
            printf("%s: %d, and %d by inet_pton\n", line, families[i], family);
        }
        line = end + 1;
    }
    expect(wrong == 0 && bad == expected_bad, "the rows of inet_pton");
    expect(bad > RANDOM / 4 && bad < RANDOM / 2, "many texts of each kind");
    free(text);
    free(families);
    free(octets);
}

int main(void)
{
    try_rows();
    try_wrong_lines();
    try_given_offsets();
    try_random();
    printf("%u answers, %u faults\n", calls, faults);
    return faults > 0;
}
