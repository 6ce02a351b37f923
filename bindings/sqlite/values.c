/* Arguments and errors of the SQLite functions. */
#include "extension.h"

#include <string.h>

/* The value as it is quoted: the start of a text, a number, or at most 20 bytes of a blob. */
static char *quoted(sqlite3_value *value)
{
    static const char digits[] = "0123456789abcdef";
    const uint8_t *bytes;
    char hex[41];
    int len, i;
    if (sqlite3_value_type(value) == SQLITE_NULL)
        return sqlite3_mprintf("NULL");
    if (sqlite3_value_type(value) != SQLITE_BLOB) {
        const char *text = (const char *)sqlite3_value_text(value);
        char quote[SQL_QUOTE];
        sql_quote(text, text ? (size_t)sqlite3_value_bytes(value) : 0, true, quote);
        return sqlite3_mprintf("%s", quote);
    }
    bytes = sqlite3_value_blob(value);
    len = sqlite3_value_bytes(value);
    for (i = 0; i < len && i < 20; i++) {
        hex[2 * i] = digits[bytes[i] >> 4];
        hex[2 * i + 1] = digits[bytes[i] & 15];
    }
    return sqlite3_mprintf("x'%.*s%s', a blob of length %d", 2 * i, hex, i < len ? ".." : "", len);
}

void report(sqlite3_context *context, char *message)
{
    if (message == NULL)
        sqlite3_result_error_nomem(context);
    else
        sqlite3_result_error(context, message, -1);
    sqlite3_free(message);
}

void refuse(sqlite3_context *context, const char *what, sqlite3_value *value, const char *cause)
{
    char *quote = quoted(value);
    report(context, quote ? sqlite3_mprintf("%s: %s%s%s", what, quote, cause ? ": " : "", cause ? cause : "") : NULL);
    sqlite3_free(quote);
}

void refuse_image(sqlite3_context *context, const char *what, sqlite3_value *value)
{
    size_t len = (size_t)sqlite3_value_bytes(value);
    refuse(context, what, value, sql_cause_of_image(sqlite3_value_blob(value), len));
}

void refuse_status(sqlite3_context *context, ipnet_status status)
{
    if (status == IPNET_OUT_OF_MEMORY)
        sqlite3_result_error_nomem(context);
    else
        sqlite3_result_error(context, ipnet_status_text(status), -1);
}

bool has_null(int count, sqlite3_value **values)
{
    int i;
    for (i = 0; i < count; i++)
        if (sqlite3_value_type(values[i]) == SQLITE_NULL)
            return true;
    return false;
}

bool find_address(sqlite3_value *value, Address *address)
{
    if (sqlite3_value_type(value) == SQLITE_INTEGER) {
        sqlite3_int64 number = sqlite3_value_int64(value);
        int i;
        for (i = 0; i < 4; i++)
            address->octets[i] = (uint8_t)(number >> (24 - 8 * i));
        address->len = 4;
        return number >= 0 && number <= UINT32_MAX;
    }
    if (sqlite3_value_type(value) == SQLITE_BLOB) {
        const void *bytes = sqlite3_value_blob(value);
        address->len = (size_t)sqlite3_value_bytes(value);
        if (bytes == NULL || (address->len != 4 && address->len != 16))
            return false;
        memcpy(address->octets, bytes, address->len);
        return true;
    }
    return false;
}

bool read_text(sqlite3_context *context, sqlite3_value *value, SqlPart *text)
{
    text->text = (const char *)sqlite3_value_text(value);
    text->len = (size_t)sqlite3_value_bytes(value);
    if (text->text == NULL)
        sqlite3_result_error_nomem(context);
    return text->text != NULL;
}

bool read_address(sqlite3_context *context, sqlite3_value *value, Address *address)
{
    SqlPart text;
    if (sqlite3_value_type(value) == SQLITE_TEXT) {
        if (!read_text(context, value, &text))
            return false;
        address->len = sql_parse_address(text.text, text.len, address->octets);
        if (address->len != 0)
            return true;
    } else if (find_address(value, address))
        return true;
    refuse(context, "not an address", value, NULL);
    return false;
}

bool read_network(sqlite3_context *context, sqlite3_value *value, SqlNetwork *network)
{
    Address address;
    SqlPart text;
    if (sqlite3_value_type(value) == SQLITE_TEXT) {
        if (!read_text(context, value, &text))
            return false;
        if (sql_parse_network(text.text, text.len, network))
            return true;
        refuse(context, "not a network", value, sql_cause_of_network(text));
        return false;
    }
    if (find_address(value, &address)) {
        *network = sql_network(address.octets, address.len, (uint8_t)(8 * address.len));
        return true;
    }
    refuse(context, "not a network", value, NULL);
    return false;
}

bool read_image(sqlite3_context *context, sqlite3_value *value, SqlPart *image)
{
    if (sqlite3_value_type(value) != SQLITE_BLOB) {
        refuse(context, "not an image", value, NULL);
        return false;
    }
    image->text = sqlite3_value_blob(value);
    image->len = (size_t)sqlite3_value_bytes(value);
    if (image->text == NULL)
        image->text = "";
    return true;
}

void answer_network(sqlite3_context *context, const SqlNetwork *network)
{
    char line[SQL_LINE];
    sqlite3_result_text(context, line, (int)sql_print_line(network, line) - 1, SQLITE_TRANSIENT);
}

void answer_key(sqlite3_context *context, const Address *address)
{
    const uint8_t *octets = address->octets;
    if (address->len == 16)
        sqlite3_result_blob(context, octets, 16, SQLITE_TRANSIENT);
    else
        sqlite3_result_int64(context, (sqlite3_int64)octets[0] << 24 | octets[1] << 16 | octets[2] << 8 | octets[3]);
}
