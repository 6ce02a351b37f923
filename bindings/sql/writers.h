/* The calls of the library that write bytes of any length, in one form. So each extension has one function that lends
 * the memory and tries again if the buffer was too short. */
#ifndef SQL_WRITERS_H
#define SQL_WRITERS_H

#include "ipnet.h"

/* The arguments of a call: one image or text, or two. */
typedef struct SqlGiven {
    const void *bytes;
    size_t len;
    const void *other;
    size_t other_len;
} SqlGiven;

/* Returns OK and writes the bytes, and their number to `*count`; or returns another status, as ipnet.h says. */
typedef ipnet_status (*SqlWriter)(const SqlGiven *given, void *buffer, size_t buffer_len, size_t *count);

/* The image of a set: of a list as netset reads it, and of two sets or of one. */
ipnet_status sql_write_set(const SqlGiven *list, void *buffer, size_t buffer_len, size_t *count);
ipnet_status sql_write_union(const SqlGiven *sets, void *buffer, size_t buffer_len, size_t *count);
ipnet_status sql_write_intersection(const SqlGiven *sets, void *buffer, size_t buffer_len, size_t *count);
ipnet_status sql_write_difference(const SqlGiven *sets, void *buffer, size_t buffer_len, size_t *count);
ipnet_status sql_write_complement(const SqlGiven *set, void *buffer, size_t buffer_len, size_t *count);

/* The networks of a set, and its ranges, one per line. */
ipnet_status sql_write_networks(const SqlGiven *set, void *buffer, size_t buffer_len, size_t *count);
ipnet_status sql_write_ranges(const SqlGiven *set, void *buffer, size_t buffer_len, size_t *count);

/* The image of the table of a list. `other` has the values, of type uint32_t, and `other_len` is their number. */
ipnet_status sql_write_table(const SqlGiven *list, void *buffer, size_t buffer_len, size_t *count);

#endif
