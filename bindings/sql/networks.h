/* Networks and addresses for the extensions of PostgreSQL and SQLite: the byte form of ipnet.h, and the texts that
 * people write. Nothing here allocates memory. The grammar of a network is the library's (ipnet_parse). */
#ifndef SQL_NETWORKS_H
#define SQL_NETWORKS_H

#include <stdbool.h>
#include <stddef.h>
#include <stdint.h>

/* A network in byte form: family 0 or 1, octets, prefix length, and then zeros. The order of memcmp is the order of
 * networks: family, address, prefix length. */
typedef struct SqlNetwork {
    uint8_t bytes[18];
} SqlNetwork;

/* The number of octets of an address of the network's family: 4 or 16. */
size_t sql_octets_len(const SqlNetwork *network);

/* The number of bytes of the byte form: 6 or 18. */
size_t sql_network_len(const SqlNetwork *network);

uint8_t sql_prefix_len(const SqlNetwork *network);

/* The network that contains the address with these octets, 4 or 16, and has this prefix length. Its host bits are 0. */
SqlNetwork sql_network(const uint8_t *octets, size_t octets_len, uint8_t prefix_len);

/* Reads NETWORK/LENGTH, or an address, which is a network of full length. The host bits become 0. Returns false if the
 * text is neither. */
bool sql_parse_network(const char *text, size_t len, SqlNetwork *network);

/* Reads an address and writes its octets. Returns 4 or 16, their number, or 0 if the text is not an address. */
size_t sql_parse_address(const char *text, size_t len, uint8_t *octets);

/* Whether the address, of 16 octets, is an IPv4 address mapped into IPv6 (::ffff:0:0/96). Its IPv4 address is then in
 * the last four octets. */
bool sql_is_mapped(const uint8_t *octets);

/* Prints the number numbers[0] + 2^64 * numbers[1] + 2^128 * numbers[2] in decimal, with a NUL. */
enum { SQL_COUNT_TEXT = 60 };
void sql_print_count(const uint64_t numbers[3], char text[SQL_COUNT_TEXT]);

#endif
