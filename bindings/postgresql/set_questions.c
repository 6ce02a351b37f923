/* Questions about sets: members, subsets, common addresses, numbers of addresses. */
#include "images.h"

#include "utils/builtins.h"
#include "utils/numeric.h"

PG_FUNCTION_INFO_V1(ipset_contains_inet);
PG_FUNCTION_INFO_V1(inet_in_ipset);
PG_FUNCTION_INFO_V1(ipset_contains_set);
PG_FUNCTION_INFO_V1(ipset_in_ipset);
PG_FUNCTION_INFO_V1(ipset_overlaps);
PG_FUNCTION_INFO_V1(ipset_count);

static bool
contains(const Image *set, inet *address)
{
    uint32 answer;
    if (is_single(address))
        answer = ipnet_set_contains(set->bytes, image_len(set), ip_addr(address), inet_octets_len(address));
    else {
        SqlNetwork network = network_of_inet(address);
        answer = ipnet_set_covers(set->bytes, image_len(set), network.bytes, sql_network_len(&network));
    }
    if (answer > 1)
        report_status((ipnet_status) answer);
    return answer == 1;
}

Datum
ipset_contains_inet(PG_FUNCTION_ARGS)
{
    PG_RETURN_BOOL(contains(get_image(fcinfo, 0, 1), PG_GETARG_INET_PP(1)));
}

Datum
inet_in_ipset(PG_FUNCTION_ARGS)
{
    PG_RETURN_BOOL(contains(get_image(fcinfo, 1, 1), PG_GETARG_INET_PP(0)));
}

static bool
is_subset(const Image *inner, const Image *outer)
{
    uint32 answer = ipnet_set_is_subset(inner->bytes, image_len(inner), outer->bytes, image_len(outer));
    if (answer > 1)
        report_status((ipnet_status) answer);
    return answer == 1;
}

Datum
ipset_contains_set(PG_FUNCTION_ARGS)
{
    const Image *outer = get_image(fcinfo, 0, 2);
    PG_RETURN_BOOL(is_subset(get_image(fcinfo, 1, 2), outer));
}

Datum
ipset_in_ipset(PG_FUNCTION_ARGS)
{
    const Image *inner = get_image(fcinfo, 0, 2);
    PG_RETURN_BOOL(is_subset(inner, get_image(fcinfo, 1, 2)));
}

/* Two sets have a common address if the image of their intersection is longer than the image of the empty set. */
Datum
ipset_overlaps(PG_FUNCTION_ARGS)
{
    const Image *set = get_image(fcinfo, 0, 2), *other = get_image(fcinfo, 1, 2);
    size_t common = 0, empty = 0;
    ipnet_status status = ipnet_set_intersection(set->bytes, image_len(set), other->bytes, image_len(other), NULL, 0,
                                                 &common);
    if (status == IPNET_BUFFER_TOO_SHORT)
        status = ipnet_set_from_text("", 0, NULL, 0, &empty);
    if (status != IPNET_BUFFER_TOO_SHORT)
        report_status(status);
    PG_RETURN_BOOL(common > empty);
}

Datum
ipset_count(PG_FUNCTION_ARGS)
{
    const Image *set = get_image(fcinfo, 0, 1);
    int32 family = PG_GETARG_INT32(1);
    uint64 counts[4];
    uint64 ipv4_count[3];
    char text[SQL_COUNT_TEXT];
    ipnet_status status;
    if (family != 4 && family != 6)
        ereport(ERROR, (errcode(ERRCODE_INVALID_PARAMETER_VALUE), errmsg("not a family of addresses: %d", family),
                        errhint("The family is 4 or 6.")));
    status = ipnet_set_counts(set->bytes, image_len(set), counts, 4);
    if (status != IPNET_OK)
        report_status(status);
    ipv4_count[0] = counts[0];
    ipv4_count[1] = ipv4_count[2] = 0;
    sql_print_count(family == 4 ? ipv4_count : counts + 1, text);
    return DirectFunctionCall3(numeric_in, CStringGetDatum(text), ObjectIdGetDatum(InvalidOid), Int32GetDatum(-1));
}
