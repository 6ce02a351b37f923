/* A caller of version 1.0.0 of the library: it is compiled with the header of that version, ipnet.h in this folder, and
 * has to run with each later library of the same soname. It calls every function of that header. Neither file changes.
 */
#include "ipnet.h"

#include <stdio.h>
#include <string.h>

static unsigned faults;

static void expect(const char *what, int holds)
{
    if (!holds) {
        faults++;
        printf("%s\n", what);
    }
}

static const char list[] = "10.0.1.0/24\n10.0.0.0/24\n";
static const char half[] = "10.0.0.0/24\n";
static const uint8_t bytes[] = {0, 10, 0, 0, 0, 24};
static char text[64];
static uint8_t network[IPNET_MAX_BYTES];
static size_t count;

static int is_text(ipnet_status status, const char *answer)
{
    return status == IPNET_OK && count == strlen(answer) && memcmp(text, answer, count) == 0;
}

static int is_network(ipnet_status status)
{
    return status == IPNET_OK && count == sizeof bytes && memcmp(network, bytes, sizeof bytes) == 0;
}

static void aggregates(void)
{
    expect("aggregate_text", is_text(ipnet_aggregate_text(list, strlen(list), text, sizeof text, &count),
                                     "10.0.0.0/23\n"));
    expect("aggregate_text_legacy", is_text(ipnet_aggregate_text_legacy("010.0.0.1/08", 12, text, sizeof text, &count),
                                            "10.0.0.0/8\n"));
    expect("a short buffer", ipnet_aggregate_text(list, strlen(list), NULL, 0, &count) == IPNET_BUFFER_TOO_SHORT
                                 && count == 12);
    expect("a bad line", ipnet_aggregate_text("\nx", 2, text, sizeof text, &count) == IPNET_BAD_LINE && count == 2);
    expect("not UTF-8", ipnet_aggregate_text("\xff", 1, text, sizeof text, &count) == IPNET_NOT_UTF8);
}

static void sets(void)
{
    size_t len = strlen(list), other = strlen(half);
    expect("union_text", is_text(ipnet_union_text(list, len, half, other, text, sizeof text, &count), "10.0.0.0/23\n"));
    expect("intersection_text", is_text(ipnet_intersection_text(list, len, half, other, text, sizeof text, &count),
                                        "10.0.0.0/24\n"));
    expect("difference_text", is_text(ipnet_difference_text(list, len, half, other, text, sizeof text, &count),
                                      "10.0.1.0/24\n"));
    expect("a bad line in the other", ipnet_union_text(list, len, "x", 1, text, sizeof text, &count)
                                          == IPNET_BAD_LINE_IN_OTHER && count == 1);
    expect("the other is not UTF-8", ipnet_union_text(list, len, "\xff", 1, text, sizeof text, &count)
                                         == IPNET_OTHER_NOT_UTF8);
}

static void questions(void)
{
    uint8_t answer = 7;
    expect("same_addresses", ipnet_same_addresses(list, strlen(list), "10.0.0.0/23", 11, &answer, &count) == IPNET_OK
                                 && answer == 1);
    expect("is_covered", ipnet_is_covered(half, strlen(half), bytes, sizeof bytes, &answer, &count) == IPNET_OK
                             && answer == 1);
}

static void networks(void)
{
    static const uint8_t unknown[] = {2}, long_prefix[] = {0, 10, 0, 0, 0, 33};
    expect("parse", is_network(ipnet_parse("10.0.0.0/24", 11, network, sizeof network, &count)));
    expect("parse_legacy", is_network(ipnet_parse_legacy("010.0.0.0/24", 12, network, sizeof network, &count)));
    expect("print", is_text(ipnet_print(bytes, sizeof bytes, text, sizeof text, &count), "10.0.0.0/24"));
    expect("no network", ipnet_parse("x", 1, network, sizeof network, &count) == IPNET_NOT_A_NETWORK);
    expect("no bytes", ipnet_print(NULL, 0, text, sizeof text, &count) == IPNET_WRONG_LENGTH);
    expect("family 2", ipnet_print(unknown, sizeof unknown, text, sizeof text, &count) == IPNET_UNKNOWN_FAMILY);
    expect("length 33", ipnet_print(long_prefix, sizeof long_prefix, text, sizeof text, &count)
                            == IPNET_PREFIX_TOO_LONG);
}

int main(void)
{
    expect("version", ipnet_version() >= IPNET_VERSION && ipnet_version() / 1000000 == IPNET_VERSION / 1000000);
    aggregates();
    sets();
    questions();
    networks();
    return faults > 0;
}
