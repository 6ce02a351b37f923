/* The type iptable: as text and bytes, and the questions for the longest match. */
#include "images.h"

#include "lib/stringinfo.h"

#include "routes_of_table.h"

PG_FUNCTION_INFO_V1(iptable_in);
PG_FUNCTION_INFO_V1(iptable_out);
PG_FUNCTION_INFO_V1(iptable_recv);
PG_FUNCTION_INFO_V1(iptable_from_bytea);
PG_FUNCTION_INFO_V1(longest_match);
PG_FUNCTION_INFO_V1(longest_route);

static size_t
count_of(const Image *table)
{
    size_t count;
    ipnet_status status = ipnet_table_count(table->bytes, image_len(table), &count);
    if (status != IPNET_OK)
        report_status(status);
    return count;
}

static void
read_routes(const Image *table, size_t start, size_t count, SqlPiece *piece)
{
    ipnet_status status = sql_read_routes(table->bytes, image_len(table), start, count, piece);
    if (status != IPNET_OK)
        report_status(status);
}

Datum
iptable_in(PG_FUNCTION_ARGS)
{
    const char *text = PG_GETARG_CSTRING(0);
    SqlEntries entries = sql_entries(text, strlen(text));
    SqlPart entry;
    GatheredRoutes *routes = new_routes(CurrentMemoryContext);
    while (sql_next_entry(&entries, &entry)) {
        SqlNetwork network;
        int32 value;
        const char *cause = sql_parse_route(entry, &network, &value);
        if (cause != NULL)
            refuse_entry("iptable", entry, entries.number, cause);
        add_route(routes, &network, value);
    }
    PG_RETURN_POINTER(table_of_routes(routes));
}

Datum
iptable_out(PG_FUNCTION_ARGS)
{
    const Image *table = (const Image *) PG_DETOAST_DATUM(PG_GETARG_DATUM(0));
    size_t count = count_of(table), index;
    StringInfoData text;
    SqlPiece piece;
    initStringInfo(&text);
    for (index = 0; index < count; index++) {
        SqlRoute route;
        if (index % SQL_PIECE == 0)
            read_routes(table, index, Min(count - index, SQL_PIECE), &piece);
        route = sql_route_at(&piece, index % SQL_PIECE);
        enlargeStringInfo(&text, SQL_LINE + 2);
        text.len += sql_print_line(&route.network, text.data + text.len);
        text.data[text.len - 1] = ' ';
        appendStringInfo(&text, index + 1 < count ? "%d, " : "%d", (int32) route.value);
    }
    PG_RETURN_CSTRING(text.data);
}

Datum
iptable_recv(PG_FUNCTION_ARGS)
{
    return receive_image(fcinfo, ipnet_table_check, "iptable");
}

Datum
iptable_from_bytea(PG_FUNCTION_ARGS)
{
    return image_of_bytea(fcinfo, ipnet_table_check, "iptable");
}

/* Finds the longest route that contains all addresses of the network. Returns 1, or 0 if there is none, or a status. */
static uint32
find_covering(const Image *table, inet *address, SqlRoute *route)
{
    SqlNetwork network = network_of_inet(address);
    return ipnet_table_longest_covering(table->bytes, image_len(table), network.bytes, sql_network_len(&network),
                                        route->network.bytes, sizeof route->network.bytes, &route->value);
}

Datum
longest_match(PG_FUNCTION_ARGS)
{
    const Image *table = get_image(fcinfo, 0, 1);
    inet *address = PG_GETARG_INET_PP(1);
    SqlRoute route = {{{0}}, 0};
    uint32 answer;
    if (is_single(address))
        answer = ipnet_table_longest_match(table->bytes, image_len(table), ip_addr(address), inet_octets_len(address),
                                           &route.value);
    else
        answer = find_covering(table, address, &route);
    if (answer > 1)
        report_status((ipnet_status) answer);
    if (answer == 0)
        PG_RETURN_NULL();
    PG_RETURN_INT32((int32) route.value);
}

Datum
longest_route(PG_FUNCTION_ARGS)
{
    const Image *table = get_image(fcinfo, 0, 1);
    inet *address = PG_GETARG_INET_PP(1);
    SqlRoute route = {{{0}}, 0};
    uint32 answer;
    if (is_single(address))
        answer = ipnet_table_longest_route(table->bytes, image_len(table), ip_addr(address), inet_octets_len(address),
                                           route.network.bytes, sizeof route.network.bytes, &route.value);
    else
        answer = find_covering(table, address, &route);
    if (answer > 1)
        report_status((ipnet_status) answer);
    if (answer == 0)
        PG_RETURN_NULL();
    PG_RETURN_INET_P(inet_of_network(&route.network));
}
