/* Addresses and networks of PostgreSQL in byte form. */
#include "images.h"

size_t
inet_octets_len(inet *address)
{
    return ip_family(address) == PGSQL_AF_INET ? 4 : 16;
}

bool
is_single(inet *address)
{
    return ip_bits(address) == 8 * inet_octets_len(address);
}

SqlNetwork
network_of_inet(inet *address)
{
    return sql_network(ip_addr(address), inet_octets_len(address), ip_bits(address));
}

inet *
inet_of_network(const SqlNetwork *network)
{
    inet *address = palloc0(sizeof(inet));
    ip_family(address) = sql_octets_len(network) == 4 ? PGSQL_AF_INET : PGSQL_AF_INET6;
    ip_bits(address) = sql_prefix_len(network);
    memcpy(ip_addr(address), network->bytes + 1, sql_octets_len(network));
    SET_INET_VARSIZE(address);
    return address;
}
