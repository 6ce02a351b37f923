/* Origins of routes: tables of payloads by their images, the validity of routes, refusals, and hostile bytes. Each
 * argument is in a block of exactly its length, so that a sanitizer detects a read past its end. */
#include "ipnet.h"

#include <stdbool.h>
#include <stdio.h>
#include <stdlib.h>
#include <string.h>

#define COUNT(array) (sizeof array / sizeof array[0])
#define MOST 16
#define UNTOUCHED 0xa5

static unsigned calls, faults;

static void expect(bool holds, const char *label, size_t row)
{
    calls++;
    if (!holds) {
        faults++;
        printf("wrong: %s, row %zu\n", label, row);
    }
}

/* A copy in a block of exactly this length. */
static void *copied(const void *bytes, size_t len)
{
    void *copy = malloc(len > 0 ? len : 1);
    if (copy == NULL) {
        abort();
    }
    if (len > 0) {
        memcpy(copy, bytes, len);
    }
    return copy;
}

/* A network with an AS number: a payload, if it has a greatest length, or a route with its validity. */
struct row {
    const char *label;
    uint8_t family, octets[16], len, max_len;
    uint32_t asn;
    uint8_t answer;
};

/* The columns of some rows. */
struct columns {
    size_t count;
    uint8_t *families, *octets, *lengths, *max_lens;
    uint32_t *asns;
};

static struct columns columns_of(const struct row *rows, size_t count)
{
    uint8_t families[MOST], octets[MOST * 16], lengths[MOST], max_lens[MOST];
    uint32_t asns[MOST];
    for (size_t i = 0; i < count; i++) {
        families[i] = rows[i].family;
        memcpy(octets + 16 * i, rows[i].octets, 16);
        lengths[i] = rows[i].len;
        max_lens[i] = rows[i].max_len;
        asns[i] = rows[i].asn;
    }
    return (struct columns){count, copied(families, count), copied(octets, 16 * count), copied(lengths, count),
                            copied(max_lens, count), copied(asns, sizeof asns[0] * count)};
}

static void dropped(struct columns columns)
{
    free(columns.families);
    free(columns.octets);
    free(columns.lengths);
    free(columns.max_lens);
    free(columns.asns);
}

static ipnet_status image_of(struct columns c, void *buffer, size_t room, size_t *count)
{
    return ipnet_origins_from_rows(c.families, c.count, c.octets, 16 * c.count, c.lengths, c.count, c.max_lens, c.count,
                                   c.asns, c.count, buffer, room, count);
}

static ipnet_status validity_of(const void *image, size_t len, struct columns c, uint8_t *answers)
{
    return ipnet_origins_validity(image, len, c.families, c.count, c.octets, 16 * c.count, c.lengths, c.count, c.asns,
                                  c.count, answers, c.count);
}

static const struct row payloads[] = {
    {"a greatest length above the prefix length", 4, {198, 51, 100}, 24, 26, 64496, 0},
    {"host bits, which do not count", 4, {192, 0, 2, 9}, 24, 24, 64497, 0},
    {"AS 0, which matches nothing", 4, {203, 0, 113}, 24, 32, 0, 0},
    {"AS 0 beside another AS", 4, {192, 0, 2}, 24, 24, 0, 0},
    {"a repeat", 4, {192, 0, 2}, 24, 24, 64497, 0},
    {"the length 0", 4, {0}, 0, 0, 64499, 0},
    {"IPv6", 6, {0x20, 0x01, 0x0d, 0xb8}, 32, 48, 64500, 0},
};

static const struct row routes[] = {
    {"the prefix length", 4, {198, 51, 100}, 24, 0, 64496, IPNET_VALID},
    {"the greatest length", 4, {198, 51, 100, 64}, 26, 0, 64496, IPNET_VALID},
    {"too long", 4, {198, 51, 100, 64}, 27, 0, 64496, IPNET_INVALID},
    {"another AS", 4, {198, 51, 100, 64}, 26, 0, 64497, IPNET_INVALID},
    {"an origin of 0", 4, {203, 0, 113}, 24, 0, 0, IPNET_INVALID},
    {"a payload of AS 0", 4, {203, 0, 113}, 24, 0, 64496, IPNET_INVALID},
    {"AS 0 beside the AS", 4, {192, 0, 2}, 24, 0, 64497, IPNET_VALID},
    {"host bits", 4, {192, 0, 2, 7}, 24, 0, 64497, IPNET_VALID},
    {"the route of all addresses", 4, {0}, 0, 0, 64499, IPNET_VALID},
    {"half of all addresses", 4, {128}, 1, 0, 64499, IPNET_INVALID},
    {"IPv6", 6, {0x20, 0x01, 0x0d, 0xb8, 0, 1}, 48, 0, 64500, IPNET_VALID},
    {"IPv6 that no payload covers", 6, {0x20, 0x01, 0x0d, 0xb8}, 31, 0, 64500, IPNET_NOT_FOUND},
    {"a mapped address", 6, {[10] = 0xff, 0xff, 192, 0, 2}, 120, 0, 64497, IPNET_NOT_FOUND},
    {"no family", 0, {192, 0, 2}, 24, 0, 64497, IPNET_NO_ROUTE},
    {"a length above 32", 4, {192, 0, 2}, 33, 0, 64497, IPNET_NO_ROUTE},
    {"a length above 128", 6, {0}, 129, 0, 64497, IPNET_NO_ROUTE},
};

/* Rows that are not payloads. */
static const struct row bad[] = {
    {"no family", 0, {192, 0, 2}, 24, 24, 1, 0},
    {"the family of a byte form", 1, {0}, 24, 24, 1, 0},
    {"a length above 32", 4, {192, 0, 2}, 33, 33, 1, 0},
    {"a length above 128", 6, {0}, 129, 129, 1, 0},
    {"a greatest length below the length", 4, {192, 0, 2}, 24, 23, 1, 0},
    {"a greatest length above 32", 4, {192, 0, 2}, 24, 33, 1, 0},
    {"a greatest length above 128", 6, {0}, 24, 129, 1, 0},
};

static void refused_rows(void)
{
    for (size_t i = 0; i < COUNT(bad); i++) {
        struct row rows[3] = {payloads[0], bad[i], bad[i]};
        struct columns c = columns_of(rows, 3);
        uint8_t buffer[256], before[256];
        memset(buffer, UNTOUCHED, sizeof buffer);
        memcpy(before, buffer, sizeof buffer);
        size_t count = 99;
        expect(image_of(c, buffer, sizeof buffer, &count) == IPNET_BAD_ROW && count == 1, bad[i].label, i);
        expect(memcmp(buffer, before, sizeof buffer) == 0, "the buffer stays", i);
        dropped(c);
    }
}

static void refused_lengths(const uint8_t *image, size_t len, struct columns c)
{
    uint8_t answers[MOST + 1];
    size_t count = 99;
    for (size_t wrong = 0; wrong < 5; wrong++) {
        size_t n = c.count, lens[] = {16 * n, n, n, n, n};
        lens[wrong]--;
        expect(ipnet_origins_from_rows(c.families, lens[4], c.octets, lens[0], c.lengths, lens[1], c.max_lens, lens[2],
                                       c.asns, lens[3], NULL, 0, &count) == IPNET_WRONG_LENGTH && count == 99,
               "a wrong length of payloads", wrong);
        memset(answers, UNTOUCHED, sizeof answers);
        expect(ipnet_origins_validity(image, len, c.families, lens[4], c.octets, lens[0], c.lengths, lens[1], c.asns,
                                      lens[3], answers, lens[2]) == IPNET_WRONG_LENGTH && answers[0] == UNTOUCHED,
               "a wrong length of routes", wrong);
    }
    expect(ipnet_origins_validity(image, len - 1, c.families, c.count, c.octets, 16 * c.count, c.lengths, c.count,
                                  c.asns, c.count, answers, c.count - 1) == IPNET_WRONG_LENGTH,
           "lengths are checked before the image", 0);
}

/* Whatever one byte of an image becomes, the bytes are an image or are refused, and every call ends. */
static void hostile(const uint8_t *image, size_t len, struct columns c)
{
    uint8_t answers[MOST];
    size_t count;
    for (size_t cut = 0; cut < len; cut++) {
        uint8_t *bytes = copied(image, cut);
        count = 99;
        memset(answers, UNTOUCHED, sizeof answers);
        expect(ipnet_origins_count(bytes, cut, &count) == IPNET_NOT_ORIGINS && count == 99, "cut", cut);
        expect(validity_of(bytes, cut, c, answers) == IPNET_NOT_ORIGINS && answers[0] == UNTOUCHED, "cut", cut);
        free(bytes);
    }
    for (size_t at = 0; at < len; at++) {
        for (unsigned bit = 0; bit < 8; bit++) {
            uint8_t *bytes = copied(image, len);
            bytes[at] ^= (uint8_t)(1u << bit);
            memset(answers, UNTOUCHED, sizeof answers);
            ipnet_status status = ipnet_origins_count(bytes, len, &count);
            expect(validity_of(bytes, len, c, answers) == status, "one status", at);
            expect(status == IPNET_NOT_ORIGINS || (status == IPNET_OK && at >= 24), "the header", at);
            for (size_t i = 0; i < c.count; i++) {
                expect(status == IPNET_OK ? answers[i] <= IPNET_NO_ROUTE : answers[i] == UNTOUCHED, "an answer", at);
            }
            free(bytes);
        }
    }
}

static void images(void)
{
    struct columns c = columns_of(payloads, COUNT(payloads)), asked = columns_of(routes, COUNT(routes));
    uint8_t buffer[512], answers[MOST];
    size_t len = 24 + 32 * COUNT(payloads), count = 99;
    expect(image_of(c, NULL, 0, &count) == IPNET_BUFFER_TOO_SHORT && count == len, "no buffer", 0);
    memset(buffer, UNTOUCHED, sizeof buffer);
    expect(image_of(c, buffer, len - 1, &count) == IPNET_BUFFER_TOO_SHORT && count == len, "a byte too short", 0);
    expect(buffer[0] == UNTOUCHED, "the buffer stays", 0);
    expect(image_of(c, buffer, sizeof buffer, &count) == IPNET_OK && count == len, "an image", 0);
    expect(memcmp(buffer, "ipnetvrp\1\0\0\0\0\0\0\0\7", 17) == 0 && buffer[len] == UNTOUCHED, "its header", 0);
    uint8_t *image = copied(buffer, len);
    count = 99;
    expect(ipnet_origins_count(image, len, &count) == IPNET_OK && count == COUNT(payloads), "the count", 0);
    expect(validity_of(image, len, asked, answers) == IPNET_OK, "the questions", 0);
    for (size_t i = 0; i < asked.count; i++) {
        expect(answers[i] == routes[i].answer, routes[i].label, i);
    }
    refused_lengths(image, len, asked);
    hostile(image, len, asked);

    /* the order of the rows does not matter */
    struct row turned[COUNT(payloads)];
    for (size_t i = 0; i < COUNT(payloads); i++) {
        turned[i] = payloads[COUNT(payloads) - 1 - i];
    }
    struct columns other = columns_of(turned, COUNT(payloads));
    expect(image_of(other, buffer, sizeof buffer, &count) == IPNET_OK && memcmp(buffer, image, len) == 0, "in turn", 0);
    dropped(other);
    dropped(asked);
    dropped(c);
    free(image);
}

static void nothing(void)
{
    uint8_t image[24], answer = UNTOUCHED, family = 4, len = 24;
    uint32_t asn = 64496;
    size_t count = 99;
    expect(ipnet_origins_from_rows(NULL, 0, NULL, 0, NULL, 0, NULL, 0, NULL, 0, image, 24, &count) == IPNET_OK
           && count == 24, "no payloads", 0);
    expect(ipnet_origins_count(image, 24, &count) == IPNET_OK && count == 0, "no payloads", 1);
    expect(ipnet_origins_validity(image, 24, NULL, 0, NULL, 0, NULL, 0, NULL, 0, NULL, 0) == IPNET_OK, "no routes", 2);
    expect(ipnet_origins_validity(image, 24, &family, 1, payloads[0].octets, 16, &len, 1, &asn, 1, &answer, 1) == IPNET_OK
           && answer == IPNET_NOT_FOUND, "no payloads", 3);
    expect(ipnet_origins_validity(NULL, 0, NULL, 0, NULL, 0, NULL, 0, NULL, 0, NULL, 0) == IPNET_NOT_ORIGINS,
           "no image", 4);
    expect(ipnet_origins_count(NULL, 0, &count) == IPNET_NOT_ORIGINS && count == 0, "no image", 5);
}

int main(void)
{
    images();
    refused_rows();
    nothing();
    printf("%u expectations, %u faults\n", calls, faults);
    return faults != 0;
}
