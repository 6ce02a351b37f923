/* The calls of the library that write bytes, in one form: see writers.h. */
#include "writers.h"

ipnet_status sql_write_set(const SqlGiven *list, void *buffer, size_t buffer_len, size_t *count)
{
    return ipnet_set_from_list(list->bytes, list->len, buffer, buffer_len, count);
}

ipnet_status sql_write_union(const SqlGiven *sets, void *buffer, size_t buffer_len, size_t *count)
{
    return ipnet_set_union(sets->bytes, sets->len, sets->other, sets->other_len, buffer, buffer_len, count);
}

ipnet_status sql_write_intersection(const SqlGiven *sets, void *buffer, size_t buffer_len, size_t *count)
{
    return ipnet_set_intersection(sets->bytes, sets->len, sets->other, sets->other_len, buffer, buffer_len, count);
}

ipnet_status sql_write_difference(const SqlGiven *sets, void *buffer, size_t buffer_len, size_t *count)
{
    return ipnet_set_difference(sets->bytes, sets->len, sets->other, sets->other_len, buffer, buffer_len, count);
}

ipnet_status sql_write_complement(const SqlGiven *set, void *buffer, size_t buffer_len, size_t *count)
{
    return ipnet_set_complement(set->bytes, set->len, buffer, buffer_len, count);
}

ipnet_status sql_write_networks(const SqlGiven *set, void *buffer, size_t buffer_len, size_t *count)
{
    return ipnet_set_to_text(set->bytes, set->len, buffer, buffer_len, count);
}

ipnet_status sql_write_ranges(const SqlGiven *set, void *buffer, size_t buffer_len, size_t *count)
{
    return ipnet_set_to_ranges(set->bytes, set->len, buffer, buffer_len, count);
}

ipnet_status sql_write_table(const SqlGiven *list, void *buffer, size_t buffer_len, size_t *count)
{
    return ipnet_table_from_text(list->bytes, list->len, list->other, list->other_len, buffer, buffer_len, count);
}
