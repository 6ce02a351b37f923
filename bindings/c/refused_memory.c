/* Tests all calls with failing allocations.
 *
 * Each call that allocates runs several times: first all its allocations fail, then all except the first, and so on,
 * until all succeed. While any fails, the call must report that memory ran out, leave its buffers unchanged, and free
 * all its blocks. Calls that need no memory run with all allocations failing: each must allocate nothing and return
 * its status.
 *
 * The linker replaces malloc, realloc and free by the functions below (--wrap).
 */
#include "ipnet.h"

#include <stdio.h>
#include <stdlib.h>
#include <string.h>

void *__real_malloc(size_t len);
void *__real_realloc(void *block, size_t len);
void __real_free(void *block);

/* How many allocations may succeed, how many blocks are in use, and how many allocations were requested. */
static long granted = -1, held, requests;

static int is_refused(void)
{
    requests++;
    if (granted == 0) {
        return 1;
    }
    granted -= granted > 0;
    return 0;
}

void *__wrap_malloc(size_t len)
{
    void *block = is_refused() ? NULL : __real_malloc(len);
    held += block != NULL;
    return block;
}

void *__wrap_realloc(void *block, size_t len)
{
    void *grown = is_refused() ? NULL : __real_realloc(block, len);
    held += block == NULL && grown != NULL;
    return grown;
}

void __wrap_free(void *block)
{
    held -= block != NULL;
    __real_free(block);
}

static const char list[] = "10.0.1.0/24\n\n10.0.0.0/24\nfd00::/32\n";
static const char other[] = "10.0.0.0/23\nfd00::/32\n";
static const char part[] = "10.0.0.0/24\nfd00::/33\n";
static const uint8_t network[] = {0, 10, 0, 0, 0, 23};
static const char whole[] = "10.0.0.0/23\nfd00::/32\n";
static const char rest[] = "10.0.1.0/24\nfd00:0:8000::/33\n";
static const char part_ranges[] = "10.0.0.0-10.0.0.255\nfd00::-fd00:0:7fff:ffff:ffff:ffff:ffff:ffff\n";
/* The memory that is passed to a call. */
struct lent {
    char buffer[64];
    uint8_t yes;
    size_t number;
};

static ipnet_status aggregate(struct lent *lent)
{
    return ipnet_aggregate_text(list, strlen(list), lent->buffer, sizeof lent->buffer, &lent->number);
}

static ipnet_status aggregate_legacy(struct lent *lent)
{
    return ipnet_aggregate_text_legacy(list, strlen(list), lent->buffer, sizeof lent->buffer, &lent->number);
}

/* Functions that write text, with one or two texts as input. */
typedef ipnet_status of_one(const char *, size_t, char *, size_t, size_t *);
typedef ipnet_status of_two(const char *, size_t, const char *, size_t, char *, size_t, size_t *);

static ipnet_status of_both(struct lent *lent, of_two *call)
{
    return call(list, strlen(list), part, strlen(part), lent->buffer, sizeof lent->buffer, &lent->number);
}

static ipnet_status union_of(struct lent *lent)
{
    return of_both(lent, ipnet_union_text);
}

static ipnet_status intersection(struct lent *lent)
{
    return of_both(lent, ipnet_intersection_text);
}

static ipnet_status difference(struct lent *lent)
{
    return of_both(lent, ipnet_difference_text);
}

static ipnet_status same_addresses(struct lent *lent)
{
    return ipnet_same_addresses(list, strlen(list), other, strlen(other), &lent->yes, &lent->number);
}

static ipnet_status is_covered(struct lent *lent)
{
    return ipnet_is_covered(list, strlen(list), network, sizeof network, &lent->yes, &lent->number);
}

/* The images of the lists, which are made before memory is refused. */
static struct {
    uint8_t bytes[128];
    size_t len;
} list_set, part_set;

static ipnet_status set_from_text(struct lent *lent)
{
    uint8_t image[128];
    ipnet_status status = ipnet_set_from_text(list, strlen(list), image, sizeof image, &lent->number);
    lent->yes = status == IPNET_OK ? lent->number == list_set.len && memcmp(image, list_set.bytes, list_set.len) == 0
                                   : lent->yes;
    return status;
}

static ipnet_status set_from_list(struct lent *lent)
{
    static const char people[] = "# ours\n10.0.1.0-10.0.1.255 # a range\n10.0.0.0/24\r\nfd00::/32 ; the last\n";
    uint8_t image[128];
    ipnet_status status = ipnet_set_from_list(people, strlen(people), image, sizeof image, &lent->number);
    lent->yes = status == IPNET_OK ? lent->number == list_set.len && memcmp(image, list_set.bytes, list_set.len) == 0
                                   : lent->yes;
    return status;
}

static ipnet_status set_from_list_legacy(struct lent *lent)
{
    static const char people[] = "010.0.0.0/23 # ours\nfd00::/32\n";
    uint8_t image[128];
    ipnet_status status = ipnet_set_from_list_legacy(people, strlen(people), image, sizeof image, &lent->number);
    lent->yes = status == IPNET_OK ? lent->number == list_set.len && memcmp(image, list_set.bytes, list_set.len) == 0
                                   : lent->yes;
    return status;
}

static ipnet_status set_from_text_legacy(struct lent *lent)
{
    static const char text[] = "10.0.00.0/23\nfd00::/32\n";
    uint8_t image[128];
    ipnet_status status = ipnet_set_from_text_legacy(text, strlen(text), image, sizeof image, &lent->number);
    lent->yes = status == IPNET_OK ? lent->number == list_set.len && memcmp(image, list_set.bytes, list_set.len) == 0
                                   : lent->yes;
    return status;
}

static ipnet_status set_counts(struct lent *lent)
{
    uint64_t counts[4];
    ipnet_status status = ipnet_set_counts(list_set.bytes, list_set.len, counts, 4);
    lent->yes = status == IPNET_OK ? counts[0] == 512 && counts[1] == 0 && counts[2] == (uint64_t)1 << 32 && counts[3] == 0
                                   : lent->yes;
    return status;
}

static ipnet_status set_to_text(struct lent *lent)
{
    return ipnet_set_to_text(list_set.bytes, list_set.len, lent->buffer, sizeof lent->buffer, &lent->number);
}

static ipnet_status set_to_ranges(struct lent *lent)
{
    return ipnet_set_to_ranges(part_set.bytes, part_set.len, lent->buffer, sizeof lent->buffer, &lent->number);
}

static ipnet_status set_range_rows(struct lent *lent)
{
    static const uint8_t wanted[] = {10, 0, 0, 0, 0, 0, 0, 0, 0, 0, 0, 0, 0, 0, 0, 0, 10, 0, 0, 255};
    uint8_t families[4], octets[64];
    ipnet_status status = ipnet_set_range_rows(part_set.bytes, part_set.len, families, 4, octets, 64, &lent->number);
    lent->yes = status == IPNET_OK ? lent->number == 2 && memcmp(families, "\4\4\6\6", 4) == 0
                                         && memcmp(octets, wanted, sizeof wanted) == 0
                                   : lent->yes;
    return status;
}

static ipnet_status set_union(struct lent *lent)
{
    uint8_t image[128];
    ipnet_status status = ipnet_set_union(list_set.bytes, list_set.len, part_set.bytes, part_set.len, image,
                                          sizeof image, &lent->number);
    lent->yes = status == IPNET_OK ? lent->number == list_set.len && memcmp(image, list_set.bytes, list_set.len) == 0
                                   : lent->yes;
    return status;
}

static ipnet_status set_complement(struct lent *lent)
{
    uint8_t image[128];
    ipnet_status status = ipnet_set_complement(list_set.bytes, list_set.len, image, sizeof image, &lent->number);
    lent->yes = status == IPNET_OK ? ipnet_set_check(image, lent->number) == IPNET_OK : lent->yes;
    return status;
}

static ipnet_status set_is_subset(struct lent *lent)
{
    uint32_t answer = ipnet_set_is_subset(part_set.bytes, part_set.len, list_set.bytes, list_set.len);
    lent->yes = answer <= 1 ? (uint8_t)answer : lent->yes;
    return answer <= 1 ? IPNET_OK : (ipnet_status)answer;
}

/* Two payloads and two routes as rows: 192.0.2.0/24 and 2001::/16. */
static const uint8_t families[] = {4, 6}, octets[32] = {192, 0, 2, [16] = 0x20, 0x01}, lengths[] = {24, 16};
static const uint8_t max_lens[] = {24, 16};
static const uint32_t asns[] = {64496, 64497};

static ipnet_status origins_from_rows(struct lent *lent)
{
    uint8_t image[88];
    ipnet_status status = ipnet_origins_from_rows(families, 2, octets, 32, lengths, 2, max_lens, 2, asns, 2, image,
                                                  sizeof image, &lent->number);
    lent->yes = status == IPNET_OK ? lent->number == 88 && memcmp(image, "ipnetvrp", 8) == 0 : lent->yes;
    return status;
}

static ipnet_status origins_validity(struct lent *lent)
{
    static uint8_t image[88];
    uint8_t answers[2] = {9, 9};
    size_t len = 88;
    if (image[0] == 0) {
        long left = granted;
        granted = -1;
        ipnet_origins_from_rows(families, 2, octets, 32, lengths, 2, max_lens, 2, asns, 2, image, sizeof image, &len);
        granted = left;
    }
    ipnet_status status = ipnet_origins_validity(image, len, families, 2, octets, 32, lengths, 2, asns, 2, answers, 2);
    lent->yes = status == IPNET_OK ? answers[0] == IPNET_VALID && answers[1] == IPNET_VALID : lent->yes;
    return answers[0] == (status == IPNET_OK ? IPNET_VALID : 9) ? status : IPNET_NOT_ORIGINS;
}

/* Pictures of two sets in 10.0.0.0/30. Whether a picture is right is tested in pictures.c. */
static struct {
    uint8_t bytes[64];
    size_t len;
} first_set, second_set;
static const uint8_t shown[] = {0, 10, 0, 0, 0, 30};
static char picture[1 << 16];

static ipnet_status drawn(struct lent *lent, ipnet_status status, const char *start)
{
    lent->yes = status == IPNET_OK ? memcmp(picture, start, strlen(start)) == 0 : lent->yes;
    return status;
}

static ipnet_status set_map(struct lent *lent)
{
    return drawn(lent, ipnet_set_map(first_set.bytes, first_set.len, shown, sizeof shown,
                                     IPNET_MAP_LIGHT + IPNET_MAP_FREE, picture, sizeof picture, &lent->number),
                 "<svg ");
}

static ipnet_status set_comparison_map(struct lent *lent)
{
    return drawn(lent, ipnet_set_comparison_map(first_set.bytes, first_set.len, second_set.bytes, second_set.len, NULL,
                                                0, IPNET_MAP_AUTO, picture, sizeof picture, &lent->number), "<svg ");
}

static ipnet_status set_bar(struct lent *lent)
{
    return drawn(lent, ipnet_set_bar(first_set.bytes, first_set.len, shown, sizeof shown, 32 + IPNET_BAR_UTF8, picture,
                                     sizeof picture, &lent->number), "10.0.0.0/30, ");
}

static ipnet_status set_comparison_bar(struct lent *lent)
{
    return drawn(lent, ipnet_set_comparison_bar(first_set.bytes, first_set.len, second_set.bytes, second_set.len, shown,
                                                sizeof shown, 4, picture, sizeof picture, &lent->number),
                 "10.0.0.0/30, ");
}

static ipnet_status info(struct lent *lent)
{
    return drawn(lent, ipnet_info(shown, sizeof shown, IPNET_JSON, picture, sizeof picture, &lent->number),
                 "{\"network\":\"10.0.0.0/30\",");
}

static ipnet_status set_plan(struct lent *lent)
{
    static const uint8_t lengths[] = {26, 25};
    return ipnet_set_plan(part_set.bytes, part_set.len, 4, lengths, sizeof lengths, lent->buffer, sizeof lent->buffer,
                          &lent->number);
}

/* Each call, and the text that it writes; NULL if its result is yes. */
static const struct {
    const char *name;
    ipnet_status (*call)(struct lent *);
    const char *answer;
} calls[] = {
    {"aggregate_text", aggregate, whole},   {"aggregate_text_legacy", aggregate_legacy, whole},
    {"union_text", union_of, whole},        {"intersection_text", intersection, part},
    {"difference_text", difference, rest},  {"same_addresses", same_addresses, NULL},
    {"is_covered", is_covered, NULL},       {"set_from_text", set_from_text, NULL},
    {"set_to_text", set_to_text, whole},    {"set_to_ranges", set_to_ranges, part_ranges},
    {"set_union", set_union, NULL},         {"set_range_rows", set_range_rows, NULL},
    {"set_complement", set_complement, NULL}, {"set_is_subset", set_is_subset, NULL},
    {"set_from_list", set_from_list, NULL}, {"set_counts", set_counts, NULL},
    {"set_from_list_legacy", set_from_list_legacy, NULL}, {"set_from_text_legacy", set_from_text_legacy, NULL},
    {"origins_from_rows", origins_from_rows, NULL}, {"origins_validity", origins_validity, NULL},
    {"set_map", set_map, NULL},             {"set_comparison_map", set_comparison_map, NULL},
    {"set_bar", set_bar, NULL},             {"set_comparison_bar", set_comparison_bar, NULL},
    {"info", info, NULL},                   {"set_plan", set_plan, "10.0.0.0/26\n10.0.0.128/25\n"},
};

static int is_answered(const struct lent *lent, const char *answer)
{
    if (answer != NULL) {
        return lent->number == strlen(answer) && memcmp(lent->buffer, answer, strlen(answer)) == 0;
    }
    return lent->yes == 1;
}

/* No call above allocates more often; a map does so most often. */
enum { MOST_GROWTHS = 1000 };

/* How many allocations the call needed; -1 if the call broke a rule above. */
static long least_growths(ipnet_status (*call)(struct lent *), const char *answer)
{
    for (long growths = 0; growths < MOST_GROWTHS; growths++) {
        struct lent before, lent;
        memset(&before, 0xa5, sizeof before);
        lent = before;
        held = 0;
        granted = growths;
        ipnet_status status = call(&lent);
        granted = -1;
        if (held != 0) {
            return -1;
        }
        if (status == IPNET_OK) {
            return is_answered(&lent, answer) ? growths : -1;
        }
        if (status != IPNET_OUT_OF_MEMORY || memcmp(&lent, &before, sizeof lent) != 0) {
            return -1;
        }
    }
    return -1;
}

/* parse, parse_legacy and print as functions that write text, and is_covered as one that takes it; rows_from_lines and
 * rows_from_offsets for one row */
static ipnet_status parse(const char *text, size_t text_len, char *buffer, size_t buffer_len, size_t *count)
{
    return ipnet_parse(text, text_len, (uint8_t *)buffer, buffer_len, count);
}

static ipnet_status parse_legacy(const char *text, size_t text_len, char *buffer, size_t buffer_len, size_t *count)
{
    return ipnet_parse_legacy(text, text_len, (uint8_t *)buffer, buffer_len, count);
}

static ipnet_status print(const char *text, size_t text_len, char *buffer, size_t buffer_len, size_t *count)
{
    return ipnet_print((const uint8_t *)text, text_len, buffer, buffer_len, count);
}

static ipnet_status lines(const char *text, size_t text_len, char *buffer, size_t buffer_len, size_t *count)
{
    (void)buffer_len;
    return ipnet_rows_from_lines(text, text_len, (uint8_t *)buffer, 1, (uint8_t *)buffer + 16, 16, count);
}

static ipnet_status offsets(const char *text, size_t text_len, char *buffer, size_t buffer_len, size_t *count)
{
    const uint8_t bytes[] = {0, 0, 0, 0, (uint8_t)text_len, 0, 0, 0};
    (void)buffer_len;
    return ipnet_rows_from_offsets(text, text_len, bytes, 8, (uint8_t *)buffer, 1, (uint8_t *)buffer + 16, 16, count);
}

static ipnet_status covers(const char *text, size_t text_len, const char *bytes, size_t bytes_len, uint8_t *covered,
                           size_t *line)
{
    return ipnet_is_covered(text, text_len, (const uint8_t *)bytes, bytes_len, covered, line);
}

/* Functions whose result is yes or no. */
typedef ipnet_status yes_or_no(const char *, size_t, const char *, size_t, uint8_t *, size_t *);

/* The calls that need no memory, and their statuses. */
static const struct {
    const char *name;
    of_one *one;
    of_two *two;
    yes_or_no *asks;
    const char *first;
    size_t first_len;
    const char *second;
    size_t second_len;
    ipnet_status status;
} free_calls[] = {
#define TEXT(text) text, sizeof(text) - 1
    {"aggregate, empty", ipnet_aggregate_text, NULL, NULL, TEXT(""), TEXT(""), IPNET_OK},
    {"aggregate, a bad line at once", ipnet_aggregate_text, NULL, NULL, TEXT("\nx"), TEXT(""), IPNET_BAD_LINE},
    {"aggregate legacy, empty lines", ipnet_aggregate_text_legacy, NULL, NULL, TEXT("\n\n"), TEXT(""), IPNET_OK},
    {"aggregate legacy, a bad line at once", ipnet_aggregate_text_legacy, NULL, NULL, TEXT("x"), TEXT(""),
     IPNET_BAD_LINE},
    {"aggregate, not UTF-8", ipnet_aggregate_text, NULL, NULL, TEXT("10.0.0.0/24\n\xff"), TEXT(""), IPNET_NOT_UTF8},
    {"union, empty", NULL, ipnet_union_text, NULL, TEXT(""), TEXT("\n"), IPNET_OK},
    {"intersection, empty", NULL, ipnet_intersection_text, NULL, TEXT(""), TEXT(""), IPNET_OK},
    {"difference, empty", NULL, ipnet_difference_text, NULL, TEXT(""), TEXT(""), IPNET_OK},
    {"intersection, a bad line at once", NULL, ipnet_intersection_text, NULL, TEXT("\nx"), TEXT(list), IPNET_BAD_LINE},
    {"union, a bad line at once in the other", NULL, ipnet_union_text, NULL, TEXT("\n"), TEXT("\nx"),
     IPNET_BAD_LINE_IN_OTHER},
    {"intersection, a bad line at once in the other", NULL, ipnet_intersection_text, NULL, TEXT(""),
     TEXT("x\n10.0.0.0/24"), IPNET_BAD_LINE_IN_OTHER},
    {"difference, a bad line at once in the other", NULL, ipnet_difference_text, NULL, TEXT("\n\n"), TEXT("\n\nx"),
     IPNET_BAD_LINE_IN_OTHER},
    {"same addresses, empty", NULL, NULL, ipnet_same_addresses, TEXT("\n"), TEXT(""), IPNET_OK},
    {"same addresses, a bad line at once in the other", NULL, NULL, ipnet_same_addresses, TEXT("\n"), TEXT("\nx"),
     IPNET_BAD_LINE_IN_OTHER},
    {"is covered, empty", NULL, NULL, covers, TEXT("\n"), TEXT("\0\12\0\0\0\30"), IPNET_OK},
    {"is covered, a bad line at once", NULL, NULL, covers, TEXT("\nx"), TEXT("\0\12\0\0\0\30"),
     IPNET_BAD_LINE},
    {"parse", parse, NULL, NULL, TEXT("10.0.0.7/24"), TEXT(""), IPNET_OK},
    {"parse legacy", parse_legacy, NULL, NULL, TEXT("010.0.0.7/24"), TEXT(""), IPNET_OK},
    {"print", print, NULL, NULL, TEXT("\0\12\0\0\0\27"), TEXT(""), IPNET_OK},
    {"rows from lines, IPv4", lines, NULL, NULL, TEXT("10.0.0.1\n"), TEXT(""), IPNET_OK},
    {"rows from lines, IPv6", lines, NULL, NULL, TEXT("fd00::1\n"), TEXT(""), IPNET_OK},
    {"rows from lines, a bad row", lines, NULL, NULL, TEXT("x\n"), TEXT(""), IPNET_OK},
    {"rows from offsets, IPv6", offsets, NULL, NULL, TEXT("fd00::1"), TEXT(""), IPNET_OK},
};

/* How many of the calls above break a rule. */
static int free_faults(void)
{
    int faults = 0;
    for (size_t i = 0; i < sizeof free_calls / sizeof *free_calls; i++) {
        const char *first = free_calls[i].first, *second = free_calls[i].second;
        size_t first_len = free_calls[i].first_len, second_len = free_calls[i].second_len;
        struct lent lent;
        ipnet_status status;
        requests = 0;
        granted = 0;
        if (free_calls[i].one != NULL) {
            status = free_calls[i].one(first, first_len, lent.buffer, sizeof lent.buffer, &lent.number);
        } else if (free_calls[i].two != NULL) {
            status = free_calls[i].two(first, first_len, second, second_len, lent.buffer, sizeof lent.buffer,
                                       &lent.number);
        } else {
            status = free_calls[i].asks(first, first_len, second, second_len, &lent.yes, &lent.number);
        }
        granted = -1;
        if (status != free_calls[i].status || requests != 0) {
            printf("%s: status %d, %ld requests\n", free_calls[i].name, status, requests);
            faults++;
        }
    }
    return faults;
}

int main(void)
{
    granted = -1;
    if (ipnet_set_from_text(list, strlen(list), list_set.bytes, sizeof list_set.bytes, &list_set.len) != IPNET_OK
        || ipnet_set_from_text(part, strlen(part), part_set.bytes, sizeof part_set.bytes, &part_set.len) != IPNET_OK
        || ipnet_set_from_text("10.0.0.0/31", 11, first_set.bytes, sizeof first_set.bytes, &first_set.len) != IPNET_OK
        || ipnet_set_from_text("10.0.0.1/32", 11, second_set.bytes, sizeof second_set.bytes, &second_set.len)
            != IPNET_OK) {
        puts("the images cannot be made");
        return 1;
    }
    int faults = free_faults();
    printf("growths:");
    for (size_t i = 0; i < sizeof calls / sizeof *calls; i++) {
        long growths = least_growths(calls[i].call, calls[i].answer);
        printf("%s %s %ld", i == 0 ? "" : ",", calls[i].name, growths);
        faults += growths < 1;
    }
    putchar('\n');
    return faults > 0;
}
