/* Shared by the files of the SQLite extension: values, images, and the functions of each file. */
#ifndef IPSET_SQLITE_EXTENSION_H
#define IPSET_SQLITE_EXTENSION_H

#include <sqlite3ext.h>
#ifndef IPSET_SQLITE_MAIN
SQLITE_EXTENSION_INIT3
#endif

#include "entries.h"
#include "ipnet.h"
#include "messages.h"
#include "routes.h"
#include "writers.h"

/* An address: 4 or 16 octets. */
typedef struct Address {
    uint8_t octets[16];
    size_t len;
} Address;

/* ---- values.c: arguments and errors. A function that returns false has reported an error. */

/* The error with this message of sqlite3_mprintf, which it frees; no memory if it is NULL. */
void report(sqlite3_context *context, char *message);

/* An error that quotes the value: 'not an address: 10.0.0.01'. The cause may be NULL. */
void refuse(sqlite3_context *context, const char *what, sqlite3_value *value, const char *cause);

/* The same for a blob that is not an image, with its version as the cause if it has another one. */
void refuse_image(sqlite3_context *context, const char *what, sqlite3_value *value);

/* The error of a status that is not OK. */
void refuse_status(sqlite3_context *context, ipnet_status status);

bool has_null(int count, sqlite3_value **values);

/* The text of a value that is one. */
bool read_text(sqlite3_context *context, sqlite3_value *value, SqlPart *text);

/* The address in an integer or a blob. Returns false if it has none, and reports nothing. */
bool find_address(sqlite3_value *value, Address *address);

/* A text, an integer (IPv4), or a blob of 4 or 16 bytes. */
bool read_address(sqlite3_context *context, sqlite3_value *value, Address *address);

/* The same, or a text NETWORK/LENGTH. */
bool read_network(sqlite3_context *context, sqlite3_value *value, SqlNetwork *network);

/* The bytes of a blob. The calls of the library check whether they are an image. */
bool read_image(sqlite3_context *context, sqlite3_value *value, SqlPart *image);

/* The result of a function: the network as a text. */
void answer_network(sqlite3_context *context, const SqlNetwork *network);

/* The result of a function: the address as an integer (IPv4) or as a blob of 16 bytes, which sort as addresses do. */
void answer_key(sqlite3_context *context, const Address *address);

/* ---- tables.c: finds the longest route that contains the address, or all of the network. The result of the function
 * is its value, or its network. Returns false if the bytes are not the image of a table, and reports nothing. */
bool answer_route_around(sqlite3_context *context, SqlPart table, const SqlNetwork *network, bool is_route);

/* ---- images.c: calls of the library that write an image */

/* Calls the writer with a buffer of `guess` bytes, and once more if it is too short. The caller frees the result with
 * sqlite3_free. On a failure the result is NULL, `*status` has the reason, and `*count` what the call wrote there. */
uint8_t *try_write(SqlWriter writer, const SqlGiven *given, size_t guess, ipnet_status *status, size_t *count);

/* The same as the result of an SQL function, or an error. */
void write_result(sqlite3_context *context, SqlWriter writer, const SqlGiven *given, size_t guess);

/* ---- the functions of each file; each returns a status of SQLite */

int add_set_functions(sqlite3 *database);
int add_set_aggregate(sqlite3 *database);
int add_table_functions(sqlite3 *database);
int add_kept_functions(sqlite3 *database);
int add_text_functions(sqlite3 *database);
int add_row_tables(sqlite3 *database);

/* The flags of functions that depend on nothing but their arguments. */
enum { PURE_FUNCTION = SQLITE_UTF8 | SQLITE_DETERMINISTIC | SQLITE_INNOCUOUS };

#endif
