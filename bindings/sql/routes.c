/* Routes of tables for the extensions: see routes.h. */
#include "routes.h"

#include <stdlib.h>
#include <string.h>

size_t sql_print_line(const SqlNetwork *network, char *line)
{
    size_t count = 0;
    ipnet_print(network->bytes, sql_network_len(network), line, SQL_LINE - 1, &count);
    line[count] = '\n';
    return count + 1;
}

static int compare(const SqlNetwork *network, const SqlNetwork *other)
{
    return memcmp(network->bytes, other->bytes, sizeof network->bytes);
}

static int compare_routes(const void *route, const void *other)
{
    const SqlRoute *left = route, *right = other;
    int order = compare(&left->network, &right->network);
    int32_t value = (int32_t)left->value, other_value = (int32_t)right->value;
    return order != 0 ? order : (value > other_value) - (value < other_value);
}

const SqlRoute *sql_find_conflict(SqlRoute *routes, size_t count)
{
    size_t i;
    if (count == 0)
        return NULL;
    qsort(routes, count, sizeof *routes, compare_routes);
    for (i = 0; i + 1 < count; i++)
        if (compare(&routes[i].network, &routes[i + 1].network) == 0 && routes[i].value != routes[i + 1].value)
            return &routes[i];
    return NULL;
}

ipnet_status sql_read_routes(const void *table, size_t table_len, size_t start, size_t count, SqlPiece *piece)
{
    ipnet_status status = ipnet_table_networks(table, table_len, start, piece->families, count, piece->octets,
                                               16 * count, piece->lengths, count);
    return status != IPNET_OK ? status : ipnet_table_values(table, table_len, start, piece->values, count);
}

SqlRoute sql_route_at(const SqlPiece *piece, size_t index)
{
    bool is_ipv6 = piece->families[index] == 6;
    SqlRoute route = {{{is_ipv6}}, piece->values[index]};
    memcpy(route.network.bytes + 1, piece->octets + 16 * index, 16);
    route.network.bytes[is_ipv6 ? 17 : 5] = piece->lengths[index];
    return route;
}
