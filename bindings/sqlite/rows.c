/* Tables with a row for each part of an image: ipset_each(image), ipset_ranges(image) and iptable_each(image). */
#include "extension.h"

#include <string.h>

/* The parts of an image that are rows: the networks or the ranges of a set, or the routes of a table. */
typedef enum Part { NETWORKS, RANGES, ROUTES } Part;

/* A table. The image is its last column, which is hidden; its name is in no table of a user. */
typedef struct RowKind {
    const char *name;
    Part part;
    const char *columns;
    int image_column;
    const char *refusal;
} RowKind;

static const RowKind kinds[] = {
    {"ipset_each", NETWORKS, "CREATE TABLE x(network TEXT, ipset_each_image HIDDEN)", 1, "not the image of a set"},
    {"ipset_ranges", RANGES,
     "CREATE TABLE x(first TEXT, last TEXT, first_key, last_key, ipset_ranges_image HIDDEN)", 4,
     "not the image of a set"},
    {"iptable_each", ROUTES, "CREATE TABLE x(network TEXT, value INTEGER, iptable_each_image HIDDEN)", 2,
     "not the image of a table"},
};

typedef struct RowTable {
    sqlite3_vtab base;
    const RowKind *kind;
} RowTable;

typedef struct RowCursor {
    sqlite3_vtab_cursor base;
    uint8_t *bytes;   /* the networks or ranges, one per line; or the image of the table */
    size_t len;
    size_t at;        /* the start of the line of this row, or the index of its route */
    size_t end;       /* the length of the lines, or the number of routes */
    sqlite3_int64 row;
    SqlPiece piece;   /* the routes around this row */
} RowCursor;

static const RowKind *kind_of(const RowCursor *rows)
{
    return ((const RowTable *)rows->base.pVtab)->kind;
}

static int connect_rows(sqlite3 *database, void *data, int count, const char *const *words, sqlite3_vtab **table,
                        char **message)
{
    const RowKind *kind = data;
    int status = sqlite3_declare_vtab(database, kind->columns);
    RowTable *rows;
    (void)count, (void)words, (void)message;
    if (status != SQLITE_OK)
        return status;
    rows = sqlite3_malloc64(sizeof *rows);
    if (rows == NULL)
        return SQLITE_NOMEM;
    memset(rows, 0, sizeof *rows);
    rows->kind = kind;
    *table = &rows->base;
    sqlite3_vtab_config(database, SQLITE_VTAB_INNOCUOUS);
    return SQLITE_OK;
}

static int disconnect_rows(sqlite3_vtab *table)
{
    sqlite3_free(table);
    return SQLITE_OK;
}

/* The image has to be given; idxNum is 1 if it is. */
static int plan_rows(sqlite3_vtab *table, sqlite3_index_info *info)
{
    const RowKind *kind = ((const RowTable *)table)->kind;
    int i;
    info->idxNum = 0;
    info->estimatedRows = 1000;
    info->estimatedCost = 1000;
    for (i = 0; i < info->nConstraint; i++) {
        const struct sqlite3_index_constraint *constraint = &info->aConstraint[i];
        if (constraint->iColumn != kind->image_column || constraint->op != SQLITE_INDEX_CONSTRAINT_EQ)
            continue;
        if (!constraint->usable)
            return SQLITE_CONSTRAINT;
        info->aConstraintUsage[i].argvIndex = 1;
        info->aConstraintUsage[i].omit = 1;
        info->idxNum = 1;
        break;
    }
    return SQLITE_OK;
}

static int open_rows(sqlite3_vtab *table, sqlite3_vtab_cursor **cursor)
{
    RowCursor *rows = sqlite3_malloc64(sizeof *rows);
    (void)table;
    if (rows == NULL)
        return SQLITE_NOMEM;
    memset(rows, 0, sizeof *rows);
    *cursor = &rows->base;
    return SQLITE_OK;
}

static void empty_cursor(RowCursor *rows)
{
    sqlite3_free(rows->bytes);
    rows->bytes = NULL;
    rows->len = rows->at = rows->end = 0;
    rows->row = 0;
}

static int close_rows(sqlite3_vtab_cursor *cursor)
{
    empty_cursor((RowCursor *)cursor);
    sqlite3_free(cursor);
    return SQLITE_OK;
}

static int fail(RowCursor *rows, char *message)
{
    sqlite3_free(rows->base.pVtab->zErrMsg);
    rows->base.pVtab->zErrMsg = message;
    return message == NULL ? SQLITE_NOMEM : SQLITE_ERROR;
}

/* Reads the routes around the row, if they are not read yet. */
static ipnet_status read_piece(RowCursor *rows)
{
    size_t left = rows->end - rows->at;
    if (left == 0 || rows->at % SQL_PIECE != 0)
        return IPNET_OK;
    return sql_read_routes(rows->bytes, rows->len, rows->at, left < SQL_PIECE ? left : SQL_PIECE, &rows->piece);
}

/* Copies the image of the table, and reads its first routes. */
static ipnet_status begin_routes(RowCursor *rows, const SqlGiven *image)
{
    ipnet_status status = ipnet_table_check(image->bytes, image->len);
    if (status == IPNET_OK)
        status = ipnet_table_count(image->bytes, image->len, &rows->end);
    if (status != IPNET_OK)
        return status;
    rows->bytes = sqlite3_malloc64(image->len);
    if (rows->bytes == NULL)
        return IPNET_OUT_OF_MEMORY;
    memcpy(rows->bytes, image->bytes, image->len);
    rows->len = image->len;
    return read_piece(rows);
}

static ipnet_status begin_lines(RowCursor *rows, const SqlGiven *image, SqlWriter writer)
{
    ipnet_status status;
    rows->bytes = try_write(writer, image, 4 * image->len, &status, &rows->len);
    rows->end = rows->bytes == NULL ? 0 : rows->len;
    return status;
}

static int filter_rows(sqlite3_vtab_cursor *cursor, int number, const char *name, int count, sqlite3_value **values)
{
    RowCursor *rows = (RowCursor *)cursor;
    const RowKind *kind = kind_of(rows);
    SqlGiven image = {"", 0, NULL, 0};
    ipnet_status status;
    (void)name, (void)count;
    empty_cursor(rows);
    if (number != 1)
        return fail(rows, sqlite3_mprintf("%s needs an image: %s(image)", kind->name, kind->name));
    if (sqlite3_value_type(values[0]) == SQLITE_NULL)
        return SQLITE_OK;
    if (sqlite3_value_type(values[0]) == SQLITE_BLOB && sqlite3_value_bytes(values[0]) > 0) {
        image.bytes = sqlite3_value_blob(values[0]);
        image.len = (size_t)sqlite3_value_bytes(values[0]);
        if (image.bytes == NULL)
            return SQLITE_NOMEM;
    }
    if (kind->part == ROUTES)
        status = begin_routes(rows, &image);
    else
        status = begin_lines(rows, &image, kind->part == NETWORKS ? sql_write_networks : sql_write_ranges);
    if (status == IPNET_OUT_OF_MEMORY)
        return SQLITE_NOMEM;
    if (status != IPNET_OK) {
        const char *cause = sql_cause_of_image(image.bytes, image.len);
        return fail(rows, sqlite3_mprintf("%s: %s%s%s", kind->name, kind->refusal, cause ? ": " : "",
                                          cause ? cause : ""));
    }
    return SQLITE_OK;
}

/* The line of this row. */
static SqlPart line_of(const RowCursor *rows)
{
    SqlPart line = {(const char *)rows->bytes + rows->at, 0};
    const char *end = memchr(line.text, '\n', rows->len - rows->at);
    line.len = (size_t)(end - line.text);
    return line;
}

static int next_row(sqlite3_vtab_cursor *cursor)
{
    RowCursor *rows = (RowCursor *)cursor;
    rows->row++;
    if (kind_of(rows)->part != ROUTES) {
        rows->at += line_of(rows).len + 1;
        return SQLITE_OK;
    }
    rows->at++;
    return read_piece(rows) == IPNET_OK ? SQLITE_OK : SQLITE_ERROR;
}

static int has_ended(sqlite3_vtab_cursor *cursor)
{
    const RowCursor *rows = (const RowCursor *)cursor;
    return rows->at >= rows->end;
}

static void answer_text(sqlite3_context *context, SqlPart text)
{
    sqlite3_result_text(context, text.text, (int)text.len, SQLITE_TRANSIENT);
}

/* An end of a range: as a text, or as the key by which addresses are in order. */
static void answer_end(sqlite3_context *context, SqlPart text, bool is_key)
{
    Address address;
    if (!is_key) {
        answer_text(context, text);
        return;
    }
    address.len = sql_parse_address(text.text, text.len, address.octets);
    answer_key(context, &address);
}

static void answer_range(const RowCursor *rows, sqlite3_context *context, int column)
{
    SqlPart line = line_of(rows), last = line;
    const char *dash = memchr(line.text, '-', line.len);
    last.text = dash + 1;
    last.len = line.len - (size_t)(last.text - line.text);
    line.len = (size_t)(dash - line.text);
    answer_end(context, column % 2 == 0 ? line : last, column >= 2);
}

static void answer_route(const RowCursor *rows, sqlite3_context *context, int column)
{
    SqlRoute route = sql_route_at(&rows->piece, rows->at % SQL_PIECE);
    if (column == 0)
        answer_network(context, &route.network);
    else
        sqlite3_result_int64(context, route.value);
}

static int column_of_row(sqlite3_vtab_cursor *cursor, sqlite3_context *context, int column)
{
    const RowCursor *rows = (const RowCursor *)cursor;
    const RowKind *kind = kind_of(rows);
    if (column >= kind->image_column)
        return SQLITE_OK;
    if (kind->part == NETWORKS)
        answer_text(context, line_of(rows));
    else if (kind->part == RANGES)
        answer_range(rows, context, column);
    else
        answer_route(rows, context, column);
    return SQLITE_OK;
}

static int number_of_row(sqlite3_vtab_cursor *cursor, sqlite3_int64 *row)
{
    *row = ((const RowCursor *)cursor)->row;
    return SQLITE_OK;
}

static const sqlite3_module row_module = {
    .xConnect = connect_rows,
    .xBestIndex = plan_rows,
    .xDisconnect = disconnect_rows,
    .xOpen = open_rows,
    .xClose = close_rows,
    .xFilter = filter_rows,
    .xNext = next_row,
    .xEof = has_ended,
    .xColumn = column_of_row,
    .xRowid = number_of_row,
};

int add_row_tables(sqlite3 *database)
{
    size_t i;
    int status = SQLITE_OK;
    for (i = 0; i < sizeof kinds / sizeof *kinds && status == SQLITE_OK; i++)
        status = sqlite3_create_module(database, kinds[i].name, &row_module, (void *)&kinds[i]);
    return status;
}
