/* The text of a set or of a table in SQL: entries with commas between them. Nothing here allocates memory.
 *
 * An entry has blanks or line ends around it, or none. In a set it is a network, an address or a range FIRST-LAST, as
 * ipnet_set_from_list reads it; in a table it is a network without a netmask or an address, blanks, and a value. A text
 * of blanks has no entries. An entry that is empty, has a comment or begins with a byte order mark is refused. */
#ifndef SQL_ENTRIES_H
#define SQL_ENTRIES_H

#include "ipnet.h"
#include "networks.h"

/* A part of a text. */
typedef struct SqlPart {
    const char *text;
    size_t len;
} SqlPart;

/* Moves from one entry to the next. Begin with `rest`, the whole text, and `number` 0. */
typedef struct SqlEntries {
    SqlPart rest;
    size_t number;  /* the number of the last entry, counted from 1 */
    bool has_ended;
} SqlEntries;

SqlEntries sql_entries(const char *text, size_t len);

/* The next entry, without the blanks around it. Returns false if there is none. */
bool sql_next_entry(SqlEntries *entries, SqlPart *entry);

/* Writes the entries into `lines`, one per line, for ipnet_set_from_list, up to the first that is empty, has a comment
 * or begins with a byte order mark; `lines` has a byte more than the text. Returns the length. `*refused` is the number
 * of that entry, or 0. */
size_t sql_set_lines(const char *text, size_t len, char *lines, size_t *refused);

/* The entry with this number. */
SqlPart sql_entry_at(const char *text, size_t len, size_t number);

/* Returns OK if the text is one entry of a set, BAD_LINE if it is not, or OUT_OF_MEMORY. */
ipnet_status sql_check_entry(const char *text, size_t len);

/* Why an entry of a set, or the network of a table, is refused, as the end of a sentence: "the prefix length is above
 * 32". A table takes no netmasks. */
const char *sql_cause_of_entry(SqlPart entry);
const char *sql_cause_of_network(SqlPart network);

/* Reads the entry of a table. Returns NULL, or why it is refused. */
const char *sql_parse_route(SqlPart entry, SqlNetwork *network, int32_t *value);

#endif
