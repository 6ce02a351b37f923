/* ipset_agg(entry): the set of the networks, addresses, ranges and sets of a column.
 *
 * The state has a set, and the lines of entries that came after it. If the lines are as long as the set and 1 MB, the
 * library compiles them and joins both. */
#include "extension.h"

#include <string.h>

typedef struct SetState {
    uint8_t *set;
    size_t set_len;
    char *lines;
    size_t len;
    size_t room;
    bool has_failed;
} SetState;

enum { LEAST_TEXT = 1024 * 1024 };

static void fail(SetState *state)
{
    sqlite3_free(state->set);
    sqlite3_free(state->lines);
    memset(state, 0, sizeof *state);
    state->has_failed = true;
}

/* Moves the entries of the lines into the set. Returns OK, or the status of the library's call that failed. */
static ipnet_status compile_lines(SetState *state)
{
    SqlGiven lines = {state->lines ? state->lines : "", state->len, NULL, 0}, both;
    ipnet_status status;
    size_t more_len, joined_len;
    uint8_t *joined, *more = try_write(sql_write_set, &lines, 32 + state->len, &status, &more_len);
    if (more == NULL)
        return status;
    state->len = 0;
    if (state->set == NULL) {
        state->set = more;
        state->set_len = more_len;
        return IPNET_OK;
    }
    both.bytes = state->set;
    both.len = state->set_len;
    both.other = more;
    both.other_len = more_len;
    joined = try_write(sql_write_union, &both, both.len + both.other_len, &status, &joined_len);
    sqlite3_free(more);
    if (joined == NULL)
        return status;
    sqlite3_free(state->set);
    state->set = joined;
    state->set_len = joined_len;
    return IPNET_OK;
}

/* Makes room for more bytes of lines. Returns false without memory. */
static bool make_room(SetState *state, size_t more)
{
    size_t room = state->room;
    char *lines;
    if (room - state->len >= more)
        return true;
    room = 2 * room + more;
    lines = sqlite3_realloc64(state->lines, room);
    if (lines == NULL)
        return false;
    state->lines = lines;
    state->room = room;
    return true;
}

/* Adds an entry that is not just a network: one with blanks around it, a range, or a network with a netmask. Returns
 * false after an error. */
static bool add_entry(sqlite3_context *context, SetState *state, sqlite3_value *value, SqlPart text)
{
    size_t refused;
    ipnet_status status = sql_check_entry(text.text, text.len);
    if (status == IPNET_OK)
        state->len += sql_set_lines(text.text, text.len, state->lines + state->len, &refused);
    else if (status == IPNET_BAD_LINE)
        refuse(context, "not a network, address or range", value, sql_cause_of_entry(text));
    else
        refuse_status(context, status);
    return status == IPNET_OK;
}

/* Adds the ranges of the set with this image. Returns false after an error. */
static bool add_set(sqlite3_context *context, SetState *state, sqlite3_value *value)
{
    SqlGiven image = {sqlite3_value_blob(value), (size_t)sqlite3_value_bytes(value), NULL, 0};
    ipnet_status status = IPNET_OUT_OF_MEMORY;
    size_t len;
    uint8_t *ranges = image.bytes ? try_write(sql_write_ranges, &image, 4 * image.len, &status, &len) : NULL;
    if (ranges != NULL && !make_room(state, len)) {
        sqlite3_free(ranges);
        ranges = NULL;
        status = IPNET_OUT_OF_MEMORY;
    }
    if (ranges != NULL) {
        memcpy(state->lines + state->len, ranges, len);
        state->len += len;
        sqlite3_free(ranges);
    } else if (status == IPNET_NOT_A_SET)
        refuse_image(context, "not the image of a set", value);
    else
        refuse_status(context, status);
    return ranges != NULL;
}

/* Whether the value is a blob that is too long for an address. */
static bool may_be_image(sqlite3_value *value)
{
    return sqlite3_value_type(value) == SQLITE_BLOB && sqlite3_value_bytes(value) > 16;
}

/* Adds the value. Returns false after an error. */
static bool add_value(sqlite3_context *context, SetState *state, sqlite3_value *value)
{
    bool is_text = sqlite3_value_type(value) == SQLITE_TEXT;
    SqlPart text = {is_text ? (const char *)sqlite3_value_text(value) : "", 0};
    SqlNetwork network;
    if (may_be_image(value))
        return add_set(context, state, value);
    text.len = is_text ? (size_t)sqlite3_value_bytes(value) : 0;
    if (text.text == NULL || !make_room(state, text.len + SQL_LINE)) {
        sqlite3_result_error_nomem(context);
        return false;
    }
    if (!is_text && !read_network(context, value, &network))
        return false;
    if (!is_text || sql_parse_network(text.text, text.len, &network)) {
        state->len += sql_print_line(&network, state->lines + state->len);
        return true;
    }
    return add_entry(context, state, value, text);
}

static void add(sqlite3_context *context, int count, sqlite3_value **values)
{
    SetState *state = sqlite3_aggregate_context(context, sizeof *state);
    ipnet_status status = IPNET_OK;
    if (state == NULL)
        sqlite3_result_error_nomem(context);
    if (state == NULL || state->has_failed || has_null(count, values))
        return;
    if (!add_value(context, state, values[0])) {
        fail(state);
        return;
    }
    if (state->len >= LEAST_TEXT && state->len >= state->set_len)
        status = compile_lines(state);
    if (status != IPNET_OK) {
        refuse_status(context, status);
        fail(state);
    }
}

static void finish(sqlite3_context *context)
{
    SetState nothing = {NULL, 0, NULL, 0, 0, false}, *state = sqlite3_aggregate_context(context, 0);
    ipnet_status status;
    if (state == NULL)
        state = &nothing;
    if (state->has_failed)
        return;
    status = compile_lines(state);
    if (status == IPNET_OK) {
        sqlite3_result_blob64(context, state->set, state->set_len, sqlite3_free);
        state->set = NULL;
    } else
        refuse_status(context, status);
    fail(state);
}

int add_set_aggregate(sqlite3 *database)
{
    return sqlite3_create_function(database, "ipset_agg", 1, PURE_FUNCTION, NULL, NULL, add, finish);
}
