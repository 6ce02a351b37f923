/* Questions about values before they are used; addresses that are mapped into IPv6; the keys of addresses. */
#include "extension.h"

/* ipset_is_address(value): 1 if the value is an address for the other functions, or 0 */
static void is_address(sqlite3_context *context, int count, sqlite3_value **values)
{
    SqlPart text;
    Address address;
    if (has_null(count, values))
        return;
    if (sqlite3_value_type(values[0]) != SQLITE_TEXT)
        sqlite3_result_int(context, find_address(values[0], &address));
    else if (read_text(context, values[0], &text))
        sqlite3_result_int(context, sql_parse_address(text.text, text.len, address.octets) > 0);
}

/* ipset_is_entry(value): 1 if the value is an entry for ipset_agg, or 0 */
static void is_entry(sqlite3_context *context, int count, sqlite3_value **values)
{
    SqlPart text;
    Address address;
    ipnet_status status;
    if (has_null(count, values))
        return;
    if (sqlite3_value_type(values[0]) != SQLITE_TEXT) {
        sqlite3_result_int(context, find_address(values[0], &address));
        return;
    }
    if (!read_text(context, values[0], &text))
        return;
    status = sql_check_entry(text.text, text.len);
    if (status == IPNET_OK || status == IPNET_BAD_LINE)
        sqlite3_result_int(context, status == IPNET_OK);
    else
        refuse_status(context, status);
}

/* The result of ipset_unmap: the IPv4 address in the last octets, as a text or a blob, as the value was. */
static void answer_unmapped(sqlite3_context *context, const uint8_t *octets, bool is_text)
{
    char text[16];
    if (!is_text) {
        sqlite3_result_blob(context, octets + 12, 4, SQLITE_TRANSIENT);
        return;
    }
    sqlite3_snprintf(sizeof text, text, "%d.%d.%d.%d", octets[12], octets[13], octets[14], octets[15]);
    sqlite3_result_text(context, text, -1, SQLITE_TRANSIENT);
}

/* ipset_unmap(address): the IPv4 address that is mapped into IPv6 (::ffff:0:0/96); any other value as it is */
static void unmap(sqlite3_context *context, int count, sqlite3_value **values)
{
    Address address;
    if (has_null(count, values) || !read_address(context, values[0], &address))
        return;
    if (address.len == 16 && sql_is_mapped(address.octets))
        answer_unmapped(context, address.octets, sqlite3_value_type(values[0]) == SQLITE_TEXT);
    else
        sqlite3_result_value(context, values[0]);
}

/* ipset_key(address): a value that sorts as the address does among addresses */
static void key(sqlite3_context *context, int count, sqlite3_value **values)
{
    Address address;
    if (!has_null(count, values) && read_address(context, values[0], &address))
        answer_key(context, &address);
}

int add_text_functions(sqlite3 *database)
{
    int status = sqlite3_create_function(database, "ipset_is_address", 1, PURE_FUNCTION, NULL, is_address, NULL, NULL);
    if (status == SQLITE_OK)
        status = sqlite3_create_function(database, "ipset_is_entry", 1, PURE_FUNCTION, NULL, is_entry, NULL, NULL);
    if (status == SQLITE_OK)
        status = sqlite3_create_function(database, "ipset_unmap", 1, PURE_FUNCTION, NULL, unmap, NULL, NULL);
    if (status == SQLITE_OK)
        status = sqlite3_create_function(database, "ipset_key", 1, PURE_FUNCTION, NULL, key, NULL, NULL);
    return status;
}
