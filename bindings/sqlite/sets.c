/* Functions of sets: from a text, members, operations, numbers of addresses. */
#include "extension.h"

static void refuse_entry(sqlite3_context *context, SqlPart text, size_t number)
{
    SqlPart entry = sql_entry_at(text.text, text.len, number);
    char quote[SQL_QUOTE];
    sql_quote(entry.text, entry.len, true, quote);
    report(context, sqlite3_mprintf("entry %llu is not a network, address or range: %s: %s",
                                    (unsigned long long)number, quote, sql_cause_of_entry(entry)));
}

/* The set of the entries; `lines` has room for them. */
static void compile_text(sqlite3_context *context, SqlPart text, char *lines)
{
    size_t refused, count;
    SqlGiven given = {lines, sql_set_lines(text.text, text.len, lines, &refused), NULL, 0};
    ipnet_status status;
    uint8_t *image = try_write(sql_write_set, &given, 32 + given.len, &status, &count);
    if (image != NULL && refused == 0) {
        sqlite3_result_blob64(context, image, count, sqlite3_free);
        return;
    }
    if (image == NULL && status != IPNET_BAD_LINE)
        refuse_status(context, status);
    else
        refuse_entry(context, text, image == NULL ? count : refused);
    sqlite3_free(image);
}

/* ipset(text): the set of networks, addresses and ranges with commas between them */
static void set_of_text(sqlite3_context *context, int count, sqlite3_value **values)
{
    SqlPart text;
    char *lines;
    if (has_null(count, values))
        return;
    if (sqlite3_value_type(values[0]) != SQLITE_TEXT) {
        refuse(context, "not the text of a set", values[0], NULL);
        return;
    }
    text.text = (const char *)sqlite3_value_text(values[0]);
    text.len = (size_t)sqlite3_value_bytes(values[0]);
    lines = sqlite3_malloc64(text.len + 1);
    if (text.text == NULL || lines == NULL)
        sqlite3_result_error_nomem(context);
    else
        compile_text(context, text, lines);
    sqlite3_free(lines);
}

/* ipset_contains(image, address): 1 or 0 */
static void contains(sqlite3_context *context, int count, sqlite3_value **values)
{
    SqlPart set;
    Address address;
    uint32_t answer;
    if (has_null(count, values) || !read_image(context, values[0], &set) ||
        !read_address(context, values[1], &address))
        return;
    answer = ipnet_set_contains(set.text, set.len, address.octets, address.len);
    if (answer == IPNET_NOT_A_SET)
        refuse_image(context, "not the image of a set", values[0]);
    else
        sqlite3_result_int(context, (int)answer);
}

/* The operations of two sets, as the user data of their functions. */
static const struct Operation {
    const char *name;
    SqlWriter writer;
} operations[] = {
    {"ipset_union", sql_write_union},
    {"ipset_intersection", sql_write_intersection},
    {"ipset_difference", sql_write_difference},
};

static void combine(sqlite3_context *context, int count, sqlite3_value **values)
{
    const struct Operation *operation = sqlite3_user_data(context);
    SqlPart set, other;
    SqlGiven given;
    ipnet_status status;
    size_t len;
    uint8_t *image;
    if (has_null(count, values) || !read_image(context, values[0], &set) || !read_image(context, values[1], &other))
        return;
    given.bytes = set.text;
    given.len = set.len;
    given.other = other.text;
    given.other_len = other.len;
    image = try_write(operation->writer, &given, set.len + other.len, &status, &len);
    if (image != NULL)
        sqlite3_result_blob64(context, image, len, sqlite3_free);
    else if (status == IPNET_NOT_A_SET || status == IPNET_OTHER_NOT_A_SET)
        refuse_image(context, "not the image of a set", values[status == IPNET_NOT_A_SET ? 0 : 1]);
    else
        refuse_status(context, status);
}

/* ipset_complement(image): all addresses of both families that are not in the set */
static void complement(sqlite3_context *context, int count, sqlite3_value **values)
{
    SqlPart set;
    SqlGiven given = {NULL, 0, NULL, 0};
    if (has_null(count, values) || !read_image(context, values[0], &set))
        return;
    given.bytes = set.text;
    given.len = set.len;
    if (ipnet_set_check(set.text, set.len) == IPNET_NOT_A_SET)
        refuse_image(context, "not the image of a set", values[0]);
    else
        write_result(context, sql_write_complement, &given, set.len + 20);
}

/* ipset_count(image, family): an integer, or a text if the number is above 2^63 - 1 */
static void count_addresses(sqlite3_context *context, int count, sqlite3_value **values)
{
    SqlPart set;
    uint64_t counts[4];
    ipnet_status status;
    sqlite3_int64 family;
    char text[SQL_COUNT_TEXT];
    if (has_null(count, values) || !read_image(context, values[0], &set))
        return;
    family = sqlite3_value_type(values[1]) == SQLITE_INTEGER ? sqlite3_value_int64(values[1]) : 0;
    if (family != 4 && family != 6) {
        refuse(context, "not a family of addresses, 4 or 6", values[1], NULL);
        return;
    }
    status = ipnet_set_counts(set.text, set.len, counts, 4);
    if (status == IPNET_NOT_A_SET)
        refuse_image(context, "not the image of a set", values[0]);
    else if (status != IPNET_OK)
        refuse_status(context, status);
    else if (family == 4)
        sqlite3_result_int64(context, (sqlite3_int64)counts[0]);
    else if (counts[1] <= INT64_MAX && counts[2] == 0 && counts[3] == 0)
        sqlite3_result_int64(context, (sqlite3_int64)counts[1]);
    else {
        sql_print_count(counts + 1, text);
        sqlite3_result_text(context, text, -1, SQLITE_TRANSIENT);
    }
}

int add_set_functions(sqlite3 *database)
{
    size_t i;
    int status = sqlite3_create_function(database, "ipset", 1, PURE_FUNCTION, NULL, set_of_text, NULL, NULL);
    if (status == SQLITE_OK)
        status = sqlite3_create_function(database, "ipset_contains", 2, PURE_FUNCTION, NULL, contains, NULL, NULL);
    if (status == SQLITE_OK)
        status = sqlite3_create_function(database, "ipset_complement", 1, PURE_FUNCTION, NULL, complement, NULL, NULL);
    if (status == SQLITE_OK)
        status = sqlite3_create_function(database, "ipset_count", 2, PURE_FUNCTION, NULL, count_addresses, NULL, NULL);
    for (i = 0; i < sizeof operations / sizeof *operations && status == SQLITE_OK; i++)
        status = sqlite3_create_function(database, operations[i].name, 2, PURE_FUNCTION, (void *)&operations[i],
                                         combine, NULL, NULL);
    return status;
}
