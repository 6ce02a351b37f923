/* Functions of tables of routes: the aggregate, and the longest match. */
#include "extension.h"

#include <string.h>

typedef struct TableState {
    SqlRoute *routes;
    size_t count;
    size_t room;
    bool has_failed;
} TableState;

static void fail(TableState *state)
{
    sqlite3_free(state->routes);
    memset(state, 0, sizeof *state);
    state->has_failed = true;
}

/* Makes room for one more route. Returns false without memory. */
static bool make_room(TableState *state)
{
    size_t room = state->room;
    SqlRoute *routes;
    if (room > state->count)
        return true;
    room = 2 * room + 64;
    routes = sqlite3_realloc64(state->routes, room * sizeof *routes);
    if (routes == NULL)
        return false;
    state->routes = routes;
    state->room = room;
    return true;
}

/* The number in a text of 1 to 10 digits, or -1 if the text is another one. */
static sqlite3_int64 number_in(SqlPart text)
{
    sqlite3_int64 number = 0;
    size_t i;
    if (text.len == 0 || text.len > 10)
        return -1;
    for (i = 0; i < text.len; i++) {
        if (text.text[i] < '0' || text.text[i] > '9')
            return -1;
        number = 10 * number + (text.text[i] - '0');
    }
    return number;
}

/* An integer, or a text of digits, as .import writes it into a column of type TEXT. */
static bool read_value(sqlite3_context *context, sqlite3_value *value, uint32_t *number)
{
    sqlite3_int64 wide = -1;
    SqlPart text;
    if (sqlite3_value_type(value) == SQLITE_INTEGER)
        wide = sqlite3_value_int64(value);
    else if (sqlite3_value_type(value) == SQLITE_TEXT) {
        if (!read_text(context, value, &text))
            return false;
        wide = number_in(text);
    }
    *number = (uint32_t)wide;
    if (wide >= 0 && wide <= UINT32_MAX)
        return true;
    refuse(context, "not a value from 0 to 4294967295", value, NULL);
    return false;
}

static void add(sqlite3_context *context, int count, sqlite3_value **values)
{
    TableState *state = sqlite3_aggregate_context(context, sizeof *state);
    SqlRoute route;
    if (state == NULL)
        sqlite3_result_error_nomem(context);
    if (state == NULL || state->has_failed || has_null(count, values))
        return;
    if (!read_network(context, values[0], &route.network) || !read_value(context, values[1], &route.value))
        fail(state);
    else if (!make_room(state)) {
        sqlite3_result_error_nomem(context);
        fail(state);
    } else
        state->routes[state->count++] = route;
}

/* The image of the table of the routes; of two routes with one network, it has the last. */
static uint8_t *compile_routes(const TableState *state, ipnet_status *status, size_t *len)
{
    char *text = sqlite3_malloc64(state->count * SQL_LINE + 1);
    uint32_t *values = sqlite3_malloc64((state->count + 1) * sizeof *values);
    SqlGiven given = {text, 0, values, state->count};
    uint8_t *table = NULL;
    size_t i;
    *status = IPNET_OUT_OF_MEMORY;
    if (text != NULL && values != NULL) {
        for (i = 0; i < state->count; i++) {
            given.len += sql_print_line(&state->routes[i].network, text + given.len);
            values[i] = state->routes[i].value;
        }
        table = try_write(sql_write_table, &given, 64 + 28 * state->count, status, len);
    }
    sqlite3_free(text);
    sqlite3_free(values);
    return table;
}

static void refuse_conflict(sqlite3_context *context, const SqlRoute *conflict)
{
    char name[SQL_LINE];
    name[sql_print_line(&conflict->network, name) - 1] = '\0';
    report(context, sqlite3_mprintf("two values for the network %s: %u and %u", name, conflict[0].value,
                                    conflict[1].value));
}

static void finish(sqlite3_context *context)
{
    TableState nothing = {NULL, 0, 0, false}, *state = sqlite3_aggregate_context(context, 0);
    const SqlRoute *conflict = NULL;
    ipnet_status status;
    size_t len = 0, count = 0;
    uint8_t *table;
    if (state == NULL)
        state = &nothing;
    if (state->has_failed)
        return;
    table = compile_routes(state, &status, &len);
    if (table != NULL)
        status = ipnet_table_count(table, len, &count);
    /* only if the table has fewer routes than were gathered, a network was given twice */
    if (status == IPNET_OK && count < state->count)
        conflict = sql_find_conflict(state->routes, state->count);
    if (status != IPNET_OK)
        refuse_status(context, status);
    else if (conflict != NULL)
        refuse_conflict(context, conflict);
    else {
        sqlite3_result_blob64(context, table, len, sqlite3_free);
        table = NULL;
    }
    sqlite3_free(table);
    fail(state);
}

bool answer_route_around(sqlite3_context *context, SqlPart table, const SqlNetwork *network, bool is_route)
{
    const uint8_t *octets = network->bytes + 1;
    size_t len = sql_octets_len(network);
    SqlRoute route = {{{0}}, 0};
    uint32_t answer;
    if (sql_prefix_len(network) < 8 * len)
        answer = ipnet_table_longest_covering(table.text, table.len, network->bytes, sql_network_len(network),
                                              route.network.bytes, sizeof route.network.bytes, &route.value);
    else if (is_route)
        answer = ipnet_table_longest_route(table.text, table.len, octets, len, route.network.bytes,
                                           sizeof route.network.bytes, &route.value);
    else
        answer = ipnet_table_longest_match(table.text, table.len, octets, len, &route.value);
    if (answer == 1 && is_route)
        answer_network(context, &route.network);
    else if (answer == 1)
        sqlite3_result_int64(context, route.value);
    return answer <= 1;
}

static void find_route(sqlite3_context *context, int count, sqlite3_value **values, bool is_route)
{
    SqlPart table;
    SqlNetwork network;
    if (has_null(count, values) || !read_image(context, values[0], &table) ||
        !read_network(context, values[1], &network))
        return;
    if (!answer_route_around(context, table, &network, is_route))
        refuse_image(context, "not the image of a table", values[0]);
}

/* longest_match(image, network): the value of the longest route that contains the network, or NULL */
static void longest_match(sqlite3_context *context, int count, sqlite3_value **values)
{
    find_route(context, count, values, false);
}

/* longest_route(image, network): that route, or NULL */
static void longest_route(sqlite3_context *context, int count, sqlite3_value **values)
{
    find_route(context, count, values, true);
}

int add_table_functions(sqlite3 *database)
{
    int status = sqlite3_create_function(database, "iptable_agg", 2, PURE_FUNCTION, NULL, NULL, add, finish);
    if (status == SQLITE_OK)
        status = sqlite3_create_function(database, "longest_match", 2, PURE_FUNCTION, NULL, longest_match, NULL, NULL);
    if (status == SQLITE_OK)
        status = sqlite3_create_function(database, "longest_route", 2, PURE_FUNCTION, NULL, longest_route, NULL, NULL);
    return status;
}
