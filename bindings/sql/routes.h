/* Routes of tables for the extensions: gathered routes on their way into a table, and the routes of a table. Nothing
 * here allocates memory. */
#ifndef SQL_ROUTES_H
#define SQL_ROUTES_H

#include "ipnet.h"
#include "networks.h"

/* A network with host bits 0, and its value. */
typedef struct SqlRoute {
    SqlNetwork network;
    uint32_t value;
} SqlRoute;

/* The bytes that a network takes as text, with a line end. */
enum { SQL_LINE = 44 };

/* Prints the network and a line end. Returns the length of both, at most SQL_LINE. */
size_t sql_print_line(const SqlNetwork *network, char *line);

/* Sorts the routes, and looks for a network with two different values. Returns the first of the two routes, which
 * are neighbours then; or NULL if there is none. */
const SqlRoute *sql_find_conflict(SqlRoute *routes, size_t count);

/* How many routes are read at a time. */
enum { SQL_PIECE = 256 };

/* Some routes of a table, one after the other, in the form of ipnet_table_networks and ipnet_table_values. */
typedef struct SqlPiece {
    uint8_t families[SQL_PIECE];
    uint8_t octets[16 * SQL_PIECE];
    uint8_t lengths[SQL_PIECE];
    uint32_t values[SQL_PIECE];
} SqlPiece;

/* Reads `count` routes, at most SQL_PIECE, of the image of a table from the index `start` on. Returns OK, or what the
 * library returns for the image. */
ipnet_status sql_read_routes(const void *table, size_t table_len, size_t start, size_t count, SqlPiece *piece);

/* The route with this index in the piece. */
SqlRoute sql_route_at(const SqlPiece *piece, size_t index);

#endif
