/* Sets by their images: rows of operations, questions and refusals, and questions to bytes that are not an image. Each
 * argument is in a block of exactly its length, so that a sanitizer detects a read past its end. */
#include "ipnet.h"

#include <stdbool.h>
#include <stdio.h>
#include <stdlib.h>
#include <string.h>

#define UNTOUCHED 0xa5

struct bytes {
    uint8_t *at;
    size_t len;
};

static unsigned calls, faults;

static void expect(bool holds, const char *label)
{
    calls++;
    if (!holds) {
        faults++;
        printf("wrong: %s\n", label);
    }
}

/* A copy in a block of exactly this length. */
static struct bytes copied(const void *bytes, size_t len)
{
    struct bytes copy = {malloc(len > 0 ? len : 1), len};
    if (copy.at == NULL) {
        abort();
    }
    if (len > 0) {
        memcpy(copy.at, bytes, len);
    }
    return copy;
}

/* The image of a list of networks. */
static struct bytes image_of(const char *text)
{
    uint8_t buffer[512];
    size_t count = 0;
    struct bytes given = copied(text, strlen(text));
    ipnet_status status = ipnet_set_from_text((const char *)given.at, given.len, buffer, sizeof buffer, &count);
    expect(status == IPNET_OK && count <= sizeof buffer, text);
    free(given.at);
    return copied(buffer, count);
}

typedef ipnet_status combine(const void *, size_t, const void *, size_t, void *, size_t, size_t *);

/* Two lists, and the text of the networks of each operation's result. */
static const struct {
    const char *first, *second, *all, *both, *rest, *one;
} operations[] = {
    {"", "", "", "", "", ""},
    {"10.0.0.0/31", "10.0.0.2/31", "10.0.0.0/30\n", "", "10.0.0.0/31\n", "10.0.0.0/30\n"},
    {"10.0.0.0/30", "10.0.0.2/31", "10.0.0.0/30\n", "10.0.0.2/31\n", "10.0.0.0/31\n", "10.0.0.0/31\n"},
    {"0.0.0.0/0", "255.255.255.255/32", "0.0.0.0/0\n", "255.255.255.255/32\n", NULL, NULL},
    {"::/0", "fd00::/8", "::/0\n", "fd00::/8\n", NULL, NULL},
    {"10.0.0.0/32\nfd00::1/128", "fd00::/127", "10.0.0.0/32\nfd00::/127\n", "fd00::1/128\n", "10.0.0.0/32\n",
     "10.0.0.0/32\nfd00::/128\n"},
    {"::ffff:10.0.0.0/120", "10.0.0.0/24", "10.0.0.0/24\n::ffff:10.0.0.0/120\n", "", "::ffff:10.0.0.0/120\n",
     "10.0.0.0/24\n::ffff:10.0.0.0/120\n"},
};

/* Whether the call writes an image with these networks, into each buffer that is long enough, and else nothing. */
static void try_operation(struct bytes first, struct bytes second, combine *call, const char *text)
{
    size_t needed = 0;
    if (text == NULL) {
        return;
    }
    expect(call(first.at, first.len, second.at, second.len, NULL, 0, &needed) == IPNET_BUFFER_TOO_SHORT, text);
    for (size_t len = needed - 1; len <= needed + 1; len++) {
        size_t count = 0, text_len = 0;
        char printed[256];
        uint8_t *buffer = malloc(len);
        memset(buffer, UNTOUCHED, len);
        ipnet_status status = call(first.at, first.len, second.at, second.len, buffer, len, &count);
        expect(status == (len < needed ? IPNET_BUFFER_TOO_SHORT : IPNET_OK) && count == needed, text);
        if (status == IPNET_OK) {
            expect(ipnet_set_check(buffer, count) == IPNET_OK && (len == count || buffer[count] == UNTOUCHED), text);
            expect(ipnet_set_to_text(buffer, count, printed, sizeof printed, &text_len) == IPNET_OK, text);
            expect(text_len == strlen(text) && memcmp(printed, text, text_len) == 0, text);
        } else {
            expect(buffer[0] == UNTOUCHED && buffer[len - 1] == UNTOUCHED, text);
        }
        free(buffer);
    }
}

static void try_operations(void)
{
    for (size_t i = 0; i < sizeof operations / sizeof *operations; i++) {
        struct bytes first = image_of(operations[i].first), second = image_of(operations[i].second);
        try_operation(first, second, ipnet_set_union, operations[i].all);
        try_operation(first, second, ipnet_set_intersection, operations[i].both);
        try_operation(first, second, ipnet_set_difference, operations[i].rest);
        try_operation(first, second, ipnet_set_symmetric_difference, operations[i].one);
        free(first.at);
        free(second.at);
    }
}

/* A list, an address or a network as bytes, and whether the set contains it. */
static const struct {
    const char *list;
    uint8_t bytes[18];
    size_t len;
    uint32_t answer;
} questions[] = {
    {"10.0.0.0/30", {10, 0, 0, 0}, 4, 1},
    {"10.0.0.0/30", {10, 0, 0, 3}, 4, 1},
    {"10.0.0.0/30", {10, 0, 0, 4}, 4, 0},
    {"10.0.0.0/30", {9, 255, 255, 255}, 4, 0},
    {"0.0.0.0/0", {255, 255, 255, 255}, 4, 1},
    {"255.255.255.255/32", {0, 0, 0, 0}, 4, 0},
    {"", {0, 0, 0, 0}, 4, 0},
    {"::ffff:0:0/96", {10, 0, 0, 0}, 4, 0},
    {"fd00::/16", {0xfd, 0, 0, 0, 0, 0, 0, 0, 0, 0, 0, 0, 0, 0, 0, 1}, 16, 1},
    {"fd00::/16", {0xfd, 1}, 16, 0},
    {"::/0", {0xff, 0xff}, 16, 1},
    {"10.0.0.0/25\n10.0.0.128/25", {0, 10, 0, 0, 9, 24}, 6, 1},
    {"10.0.0.0/25\n10.0.0.128/25", {0, 10, 0, 0, 0, 23}, 6, 0},
    {"::/0", {1, 0xfd, 0, 0, 0, 0, 0, 0, 0, 0, 0, 0, 0, 0, 0, 0, 1, 0}, 18, 1},
    {"10.0.0.0/30", {10, 0, 0}, 3, IPNET_WRONG_LENGTH},
    {"10.0.0.0/30", {0}, 0, IPNET_WRONG_LENGTH},
    {"10.0.0.0/30", {0, 10, 0, 0, 0, 33}, 6, IPNET_PREFIX_TOO_LONG},
};

/* An address has 4 or 16 octets; all else is asked as a network. */
static uint32_t asked(const void *set, size_t set_len, const uint8_t *bytes, size_t len)
{
    return len == 4 || len == 16 || len < 4 ? ipnet_set_contains(set, set_len, bytes, len)
                                            : ipnet_set_covers(set, set_len, bytes, len);
}

static void try_questions(void)
{
    for (size_t i = 0; i < sizeof questions / sizeof *questions; i++) {
        struct bytes set = image_of(questions[i].list), given = copied(questions[i].bytes, questions[i].len);
        expect(asked(set.at, set.len, given.at, given.len) == questions[i].answer, questions[i].list);
        expect(ipnet_set_is_subset(set.at, set.len, set.at, set.len) == 1, questions[i].list);
        if (questions[i].answer <= 1) {
            expect(asked(set.at, set.len - 1, given.at, given.len) == IPNET_NOT_A_SET, "a byte less");
        }
        free(given.at);
        free(set.at);
    }
}

/* As many addresses as are searched in eights with some left over: each has the answer of a call of its own. */
static void try_eights(void)
{
    struct bytes set = image_of("10.0.0.0/30\n10.0.0.8/29\n10.0.0.21/32");
    uint8_t octets[4 * 27], answers[27];
    for (uint8_t row = 0; row < 27; row++) {
        memcpy(octets + 4 * row, ((uint8_t[]){10, 0, 0, (uint8_t)(26 - row)}), 4);
    }
    for (size_t count = 0; count <= 27; count++) {
        struct bytes given = copied(octets, 4 * count);
        memset(answers, UNTOUCHED, sizeof answers);
        expect(ipnet_set_contains_all(set.at, set.len, given.at, given.len, 4, answers, count) == IPNET_OK, "eights");
        for (size_t row = 0; row < 27; row++) {
            uint32_t single = ipnet_set_contains(set.at, set.len, octets + 4 * row, 4);
            expect(answers[row] == (row < count ? single : UNTOUCHED), "an answer of eights");
        }
        free(given.at);
    }
    free(set.at);
}

static void try_many(void)
{
    struct bytes set = image_of("10.0.0.0/30\nfd00::/127");
    struct bytes four = copied((uint8_t[]){10, 0, 0, 3, 10, 0, 0, 4, 10, 0, 0, 0}, 12);
    struct bytes sixteen = copied((uint8_t[32]){0xfd, [15] = 1, [16] = 0xfd, [31] = 2}, 32);
    struct bytes answers = copied((uint8_t[]){UNTOUCHED, UNTOUCHED, UNTOUCHED}, 3);
    expect(ipnet_set_contains_all(set.at, set.len, four.at, 12, 4, answers.at, 3) == IPNET_OK
           && memcmp(answers.at, "\1\0\1", 3) == 0, "three of IPv4");
    expect(ipnet_set_contains_all(set.at, set.len, sixteen.at, 32, 16, answers.at, 2) == IPNET_OK
           && memcmp(answers.at, "\1\0\1", 3) == 0, "two of IPv6");
    expect(ipnet_set_contains_all(set.at, set.len, NULL, 0, 4, NULL, 0) == IPNET_OK, "none");
    expect(ipnet_set_contains_all(set.at, set.len, four.at, 12, 4, answers.at, 2) == IPNET_WRONG_LENGTH, "two answers");
    expect(ipnet_set_contains_all(set.at, set.len, four.at, 12, 12, answers.at, 1) == IPNET_WRONG_LENGTH, "width 12");
    expect(ipnet_set_contains_all(set.at, set.len, four.at, 12, 0, answers.at, 3) == IPNET_WRONG_LENGTH, "width 0");
    expect(ipnet_set_contains_all(set.at, 31, four.at, 12, 4, answers.at, 3) == IPNET_NOT_A_SET, "no header");
    expect(memcmp(answers.at, "\1\0\1", 3) == 0, "refused calls change nothing");
    free(answers.at);
    free(sixteen.at);
    free(four.at);
    free(set.at);
}

/* Many networks: the same answers as ipnet_set_covers, one by one. */
static void try_many_networks(void)
{
    struct bytes set = image_of("10.0.0.0/30\nfd00::/32");
    struct bytes six = copied((uint8_t[]){0, 10, 0, 0, 2, 31, 0, 10, 0, 0, 0, 29, 0, 10, 0, 0, 0, 33, 1, 10, 0, 0, 0, 32}, 24);
    struct bytes eighteen = copied((uint8_t[36]){1, 0xfd, [17] = 32, [18] = 1, [19] = 0xfd, [35] = 31}, 36);
    struct bytes answers = copied((uint8_t[]){UNTOUCHED, UNTOUCHED, UNTOUCHED, UNTOUCHED}, 4);
    expect(ipnet_set_covers_all(set.at, set.len, six.at, 24, 6, answers.at, 4) == IPNET_OK
           && memcmp(answers.at, "\1\0\10\6", 4) == 0, "four of IPv4");
    for (size_t i = 0; i < 4; i++) {
        expect(ipnet_set_covers(set.at, set.len, six.at + 6 * i, 6) == answers.at[i], "one by one");
    }
    expect(ipnet_set_covers_all(set.at, set.len, eighteen.at, 36, 18, answers.at, 2) == IPNET_OK
           && memcmp(answers.at, "\1\0\10\6", 4) == 0, "two of IPv6");
    expect(ipnet_set_covers_all(set.at, set.len, NULL, 0, 6, NULL, 0) == IPNET_OK, "no network");
    expect(ipnet_set_covers_all(set.at, set.len, six.at, 24, 6, answers.at, 3) == IPNET_WRONG_LENGTH, "three answers");
    expect(ipnet_set_covers_all(set.at, set.len, six.at, 24, 12, answers.at, 2) == IPNET_WRONG_LENGTH, "a width of 12");
    expect(ipnet_set_covers_all(set.at, set.len - 1, six.at, 24, 6, answers.at, 4) == IPNET_NOT_A_SET, "no image");
    expect(memcmp(answers.at, "\1\0\10\6", 4) == 0, "refused calls change no answer");
    free(answers.at);
    free(eighteen.at);
    free(six.at);
    free(set.at);
}

static void try_statuses(void)
{
    struct bytes set = image_of("10.0.0.0/30"), all = image_of("0.0.0.0/0\n::/0"), none = image_of("");
    uint8_t buffer[128];
    size_t count = 77;
    expect(set.len == 40 && memcmp(set.at, "ipnetset\1\0\0\0\0\0\0\0\2\0\0\0\0\0\0\0\0\0\0\0\0\0\0\0\0\0\0\12\4\0\0\12", 40) == 0,
           "the image of 10.0.0.0/30");
    expect(ipnet_set_from_text("10.0.0.0/24\n\nx", 14, buffer, sizeof buffer, &count) == IPNET_BAD_LINE && count == 3,
           "a bad line");
    count = 77;
    expect(ipnet_set_from_text("\377", 1, buffer, sizeof buffer, &count) == IPNET_NOT_UTF8 && count == 77, "not UTF-8");
    expect(ipnet_set_union(none.at, 31, set.at, 39, buffer, sizeof buffer, &count) == IPNET_NOT_A_SET && count == 77,
           "the first");
    expect(ipnet_set_union(set.at, 40, set.at, 39, buffer, sizeof buffer, &count) == IPNET_OTHER_NOT_A_SET, "the second");
    expect(ipnet_set_is_subset(set.at, 40, none.at, 31) == IPNET_OTHER_NOT_A_SET, "subset of the second");
    expect(ipnet_set_is_subset(set.at, 40, none.at, none.len) == 0, "no subset of nothing");
    expect(ipnet_set_is_subset(none.at, none.len, set.at, 40) == 1, "nothing is a subset");
    expect(ipnet_set_complement(none.at, none.len, buffer, sizeof buffer, &count) == IPNET_OK && count == all.len
           && memcmp(buffer, all.at, count) == 0, "the complement of nothing");
    expect(ipnet_set_complement(all.at, all.len, buffer, sizeof buffer, &count) == IPNET_OK && count == none.len
           && memcmp(buffer, none.at, count) == 0, "the complement of all");
    expect(ipnet_set_check(NULL, 0) == IPNET_NOT_A_SET, "no bytes");
    set.at[39] = 9;
    expect(ipnet_set_check(set.at, set.len) == IPNET_NOT_A_SET, "numbers that do not ascend");
    expect(ipnet_set_to_text(set.at, set.len, (char *)buffer, sizeof buffer, &count) == IPNET_NOT_A_SET, "no text");
    free(none.at);
    free(all.at);
    free(set.at);
}

/* A list of networks, and the text of its ranges. */
static const struct {
    const char *list, *ranges;
} ranges[] = {
    {"", ""},
    {"10.0.0.7/32", "10.0.0.7-10.0.0.7\n"},
    {"10.0.0.0/30\n10.0.0.4/31", "10.0.0.0-10.0.0.5\n"},
    {"10.0.0.0/31\n10.0.0.3/32", "10.0.0.0-10.0.0.1\n10.0.0.3-10.0.0.3\n"},
    {"0.0.0.0/0\n::/0", "0.0.0.0-255.255.255.255\n::-ffff:ffff:ffff:ffff:ffff:ffff:ffff:ffff\n"},
    {"fd00::/127\n255.255.255.255/32\n::/128", "255.255.255.255-255.255.255.255\n::-::\nfd00::-fd00::1\n"},
};

static void try_ranges(void)
{
    for (size_t i = 0; i < sizeof ranges / sizeof *ranges; i++) {
        struct bytes set = image_of(ranges[i].list);
        const size_t needed = strlen(ranges[i].ranges);
        for (size_t len = needed > 0 ? needed - 1 : 0; len <= needed + 1; len++) {
            size_t count = 0;
            char *buffer = malloc(len > 0 ? len : 1);
            memset(buffer, UNTOUCHED, len);
            ipnet_status status = ipnet_set_to_ranges(set.at, set.len, buffer, len, &count);
            expect(status == (len < needed ? IPNET_BUFFER_TOO_SHORT : IPNET_OK) && count == needed, ranges[i].list);
            expect(len < needed || memcmp(buffer, ranges[i].ranges, needed) == 0, ranges[i].ranges);
            expect(len == 0 || len == needed || (uint8_t)buffer[len - 1] == UNTOUCHED, "nothing else is modified");
            free(buffer);
        }
        size_t count = 99;
        expect(ipnet_set_to_ranges(set.at, set.len - 1, NULL, 0, &count) == IPNET_NOT_A_SET && count == 99, "no ranges");
        free(set.at);
    }
}

/* The text of the row with this index, with the prefix length of a single address. */
static size_t print_row(const uint8_t *families, const uint8_t *octets, size_t i, char *text)
{
    uint8_t bytes[18] = {families[i] == 6};
    size_t width = families[i] == 6 ? 16 : 4, count = 0;
    memcpy(bytes + 1, octets + 16 * i, width);
    bytes[width + 1] = (uint8_t)(8 * width);
    expect(ipnet_print(bytes, width + 2, text, 43, &count) == IPNET_OK, "a row is an address");
    return count - (width == 4 ? 3 : 4);
}

/* The same ranges as rows: their texts are those above. With a row too few, nothing is modified. */
static void try_range_rows(void)
{
    for (size_t i = 0; i < sizeof ranges / sizeof *ranges; i++) {
        struct bytes set = image_of(ranges[i].list);
        char text[512] = "";
        size_t needed = 0, len = 0;
        for (const char *at = ranges[i].ranges; *at != '\0'; at++) {
            needed += *at == '\n' ? 2 : 0;
        }
        for (size_t rows = needed > 0 ? needed - 1 : 0; rows <= needed + 1; rows++) {
            size_t count = 99;
            uint8_t *families = malloc(rows + 1), *octets = malloc(16 * rows + 1);
            memset(families, UNTOUCHED, rows + 1);
            memset(octets, UNTOUCHED, 16 * rows + 1);
            ipnet_status status = ipnet_set_range_rows(set.at, set.len, families, rows, octets, 16 * rows, &count);
            expect(status == (rows < needed ? IPNET_BUFFER_TOO_SHORT : IPNET_OK) && count == needed / 2, ranges[i].list);
            for (size_t k = rows < needed ? 0 : needed; k < rows + 1; k++) {
                expect(families[k] == UNTOUCHED && octets[16 * k] == UNTOUCHED, "other rows are not modified");
            }
            len = 0;
            for (size_t k = 0; rows >= needed && k < needed; k += 2) {
                len += print_row(families, octets, k, text + len);
                text[len++] = '-';
                len += print_row(families, octets, k + 1, text + len);
                text[len++] = '\n';
            }
            free(families);
            free(octets);
        }
        expect(len == strlen(ranges[i].ranges) && memcmp(text, ranges[i].ranges, len) == 0, ranges[i].ranges);
        uint8_t family = UNTOUCHED, octets[17] = {UNTOUCHED};
        size_t count = 99;
        expect(ipnet_set_range_rows(set.at, set.len, &family, 1, octets, 17, &count) == IPNET_WRONG_LENGTH
               && ipnet_set_range_rows(set.at, set.len - 1, &family, 1, octets, 17, &count) == IPNET_WRONG_LENGTH
               && ipnet_set_range_rows(set.at, set.len - 1, &family, 1, octets, 16, &count) == IPNET_NOT_A_SET
               && count == 99 && family == UNTOUCHED && octets[0] == UNTOUCHED, "no rows of ranges");
        free(set.at);
    }
}

/* Lists as people keep them: the same set as a strict list, or the number of the first bad line. */
static const struct {
    const char *list, *strict;
    size_t line;
} lists[] = {
    {"", "", 0},
    {"\n \t\r\n# nothing\n; nothing either", "", 0},
    {"10.0.0.1", "10.0.0.1/32", 0},
    {"\xef\xbb\xbf 10.0.0.0/31 # ours\r\n10.0.0.2-10.0.0.5\n", "10.0.0.0/30\n10.0.0.4/31", 0},
    {"fd00::-fd00::1 ; two\n10.0.0.7/24", "fd00::/127\n10.0.0.0/24", 0},
    {"10.0.0.1 # \xff is in a comment", "10.0.0.1/32", 0},
    {"10.0.0.1\n\nx\ny", NULL, 3},
    {"10.0.0.1\n10.0.0.9-10.0.0.2", NULL, 2},
    {"10.0.0.1-::1", NULL, 1},
    {"10.0.0.1 10.0.0.2", NULL, 1},
    {"10.0.0.1; 10.0.0.2", NULL, 1},
    {"10.0.0.01", NULL, 1},
    {"\n10.0.0.0/33", NULL, 2},
    {"10.0.0.1\n\xff", NULL, 2},
};

static void try_lists(void)
{
    for (size_t i = 0; i < sizeof lists / sizeof *lists; i++) {
        struct bytes given = copied(lists[i].list, strlen(lists[i].list));
        uint8_t buffer[256];
        size_t count = 0;
        memset(buffer, UNTOUCHED, sizeof buffer);
        ipnet_status status = ipnet_set_from_list((const char *)given.at, given.len, buffer, sizeof buffer, &count);
        if (lists[i].strict == NULL) {
            expect(status == IPNET_BAD_LINE && count == lists[i].line && buffer[0] == UNTOUCHED, lists[i].list);
        } else {
            struct bytes set = image_of(lists[i].strict);
            expect(status == IPNET_OK && count == set.len && memcmp(buffer, set.at, count) == 0, lists[i].list);
            expect(ipnet_set_from_list((const char *)given.at, given.len, NULL, 0, &count) == IPNET_BUFFER_TOO_SHORT
                   && count == set.len, lists[i].list);
            free(set.at);
        }
        free(given.at);
    }
}

/* Lists in the legacy grammar: the same set as a strict list; the strict calls refuse them. */
static void try_legacy(void)
{
    const char networks[] = "10.0.0.0/31\n10.0.00.2/31\n1:2:3:4:5:6:7::8/127\n", people[] = "010.0.0.0-10.0.0.03 # ours\n";
    struct bytes set = image_of("10.0.0.0/30\n1:2:3:4:5:6:7:8/127"), four = image_of("10.0.0.0/30");
    uint8_t buffer[256];
    size_t count = 0;
    expect(ipnet_set_from_text_legacy(networks, strlen(networks), buffer, sizeof buffer, &count) == IPNET_OK
           && count == set.len && memcmp(buffer, set.at, count) == 0, networks);
    expect(ipnet_set_from_text(networks, strlen(networks), buffer, sizeof buffer, &count) == IPNET_BAD_LINE && count == 2,
           networks);
    expect(ipnet_set_from_list_legacy(people, strlen(people), buffer, sizeof buffer, &count) == IPNET_OK
           && count == four.len && memcmp(buffer, four.at, count) == 0, people);
    expect(ipnet_set_from_list(people, strlen(people), buffer, sizeof buffer, &count) == IPNET_BAD_LINE && count == 1, people);
    expect(ipnet_set_from_list_legacy("10.0.0.1\nx", 10, buffer, sizeof buffer, &count) == IPNET_BAD_LINE && count == 2, "x");
    expect(ipnet_set_from_text_legacy("\377", 1, buffer, sizeof buffer, &count) == IPNET_NOT_UTF8, "not UTF-8");
    free(four.at);
    free(set.at);
}

/* A list, and the numbers of its addresses. */
static const struct {
    const char *list;
    uint64_t counts[4];
} numbers[] = {
    {"", {0, 0, 0, 0}},
    {"10.0.0.0/30\nfd00::/63", {4, 0, 2, 0}},
    {"0.0.0.0/0\n::/1\n8000::/128", {(uint64_t)1 << 32, 1, (uint64_t)1 << 63, 0}},
    {"::/0", {0, 0, 0, 1}},
    {"255.255.255.255/32\n::/127\nffff::/127", {1, 4, 0, 0}},
};

static void try_counts(void)
{
    const uint64_t untouched[5] = {7, 7, 7, 7, 7};
    uint64_t counts[5];
    for (size_t i = 0; i < sizeof numbers / sizeof *numbers; i++) {
        struct bytes set = image_of(numbers[i].list);
        memcpy(counts, untouched, sizeof counts);
        expect(ipnet_set_counts(set.at, set.len, counts, 3) == IPNET_WRONG_LENGTH, "three counts");
        expect(ipnet_set_counts(set.at, set.len, counts, 5) == IPNET_WRONG_LENGTH, "five counts");
        expect(ipnet_set_counts(set.at, set.len - 1, counts, 4) == IPNET_NOT_A_SET, "a byte less");
        expect(memcmp(counts, untouched, sizeof counts) == 0, "refused calls change nothing");
        expect(ipnet_set_counts(set.at, set.len, counts, 4) == IPNET_OK
               && memcmp(counts, numbers[i].counts, sizeof numbers[i].counts) == 0, numbers[i].list);
        free(set.at);
    }
}

/* Bytes that were changed at random: each call ends, and reads only these. */
static void try_hostile(void)
{
    struct bytes good = image_of("10.0.0.0/30\n10.1.0.0/16\nfd00::/32");
    const uint8_t address[16] = {10, 0, 0, 1};
    uint8_t buffer[4096];
    unsigned state = 7;
    for (unsigned turn = 0; turn < 200000; turn++) {
        state = state * 1103515245 + 12345;
        size_t len = turn % 3 != 0 ? good.len : (state >> 8) % (good.len + 1), count;
        struct bytes bad = copied(good.at, len);
        for (unsigned change = turn % 4; change > 0 && len > 0; change--) {
            state = state * 1103515245 + 12345;
            bad.at[(state >> 8) % len] = (uint8_t)(state >> 20);
        }
        bool is_set = ipnet_set_check(bad.at, len) == IPNET_OK;
        uint32_t four = ipnet_set_contains(bad.at, len, address, 4), sixteen = ipnet_set_contains(bad.at, len, address, 16);
        expect(!is_set || (four <= 1 && sixteen <= 1), "a tested set answers");
        ipnet_status status = ipnet_set_complement(bad.at, len, buffer, sizeof buffer, &count);
        expect(status == (is_set ? IPNET_OK : IPNET_NOT_A_SET), "only a set has a complement");
        free(bad.at);
    }
    free(good.at);
}

int main(void)
{
    try_operations();
    try_questions();
    try_eights();
    try_many();
    try_many_networks();
    try_statuses();
    try_lists();
    try_ranges();
    try_range_rows();
    try_legacy();
    try_counts();
    try_hostile();
    printf("%u answers, %u faults\n", calls, faults);
    return faults > 0;
}
