/* Faults of the SQLite extension, for tests/sqlite: a kept image that is replaced while a statement runs, two
 * connections, functions in views, and every refused request for memory, of SQLite and of the library.
 *
 *     faults ./ipset       prints a line for each failure; the last line is 'N passed, M failed' */
#define _GNU_SOURCE
#include <sqlite3.h>
#include <stdbool.h>
#include <stdio.h>
#include <stdlib.h>
#include <string.h>

void *__libc_malloc(size_t size);
void *__libc_realloc(void *memory, size_t size);

static const char *extension;
static int passed, failed;

static void check(bool is_right, const char *label, const char *found)
{
    if (is_right)
        passed++;
    else {
        failed++;
        printf("FAILED: %s: %s\n", label, found);
    }
}

/* ---- requests for memory: SQLite calls its configured methods, and the library calls malloc */

static sqlite3_mem_methods methods;
static int in_sqlite, left, is_counting;
static bool refuse_sqlite;

/* Whether this request is refused: all of its kind are, once `left` of them were granted. */
static bool is_refused(bool is_of_sqlite)
{
    if (!is_counting || is_of_sqlite != refuse_sqlite)
        return false;
    return left == 0 || left-- == 0;
}

void *malloc(size_t size)
{
    return in_sqlite == 0 && is_refused(false) ? NULL : __libc_malloc(size);
}

void *realloc(void *memory, size_t size)
{
    return in_sqlite == 0 && is_refused(false) ? NULL : __libc_realloc(memory, size);
}

static void *sqlite_malloc(int size)
{
    void *memory;
    if (is_refused(true))
        return NULL;
    in_sqlite++;
    memory = methods.xMalloc(size);
    in_sqlite--;
    return memory;
}

static void *sqlite_realloc(void *old, int size)
{
    void *memory;
    if (is_refused(true))
        return NULL;
    in_sqlite++;
    memory = methods.xRealloc(old, size);
    in_sqlite--;
    return memory;
}

static void configure(void)
{
    sqlite3_mem_methods counted;
    sqlite3_config(SQLITE_CONFIG_GETMALLOC, &methods);
    counted = methods;
    counted.xMalloc = sqlite_malloc;
    counted.xRealloc = sqlite_realloc;
    sqlite3_config(SQLITE_CONFIG_MALLOC, &counted);
    sqlite3_config(SQLITE_CONFIG_LOOKASIDE, 0, 0);
}

/* ---- statements */

static sqlite3 *opened(const char *file)
{
    sqlite3 *database;
    char *message = NULL;
    if (sqlite3_open(file, &database) != SQLITE_OK || sqlite3_enable_load_extension(database, 1) != SQLITE_OK ||
        sqlite3_load_extension(database, extension, NULL, &message) != SQLITE_OK) {
        printf("FAILED: open: %s\n0 passed, 1 failed\n", message ? message : "no database");
        exit(1);
    }
    return database;
}

/* Runs the statements. Returns the first column of the last row, or the error; at most 199 bytes. */
static const char *ask(sqlite3 *database, const char *text)
{
    static char answer[200];
    sqlite3_stmt *statement = NULL;
    int status = SQLITE_OK;
    snprintf(answer, sizeof answer, "no row");
    while (*text != '\0' && status == SQLITE_OK) {
        status = sqlite3_prepare_v2(database, text, -1, &statement, &text);
        while (status == SQLITE_OK && statement != NULL && (status = sqlite3_step(statement)) == SQLITE_ROW) {
            const unsigned char *cell = sqlite3_column_text(statement, 0);
            snprintf(answer, sizeof answer, "%s", cell ? (const char *)cell : "NULL");
            status = SQLITE_OK;
        }
        if (status == SQLITE_DONE)
            status = SQLITE_OK;
        if (status != SQLITE_OK)
            snprintf(answer, sizeof answer, "%s", sqlite3_errmsg(database));
        sqlite3_finalize(statement);
        statement = NULL;
    }
    return answer;
}

static void expect(sqlite3 *database, const char *text, const char *wanted)
{
    const char *found = ask(database, text);
    check(strcmp(found, wanted) == 0, text, found);
}

/* ---- faults */

static int next_value(sqlite3_stmt *statement)
{
    return sqlite3_step(statement) == SQLITE_ROW ? sqlite3_column_int(statement, 0) : -1;
}

static void replace_while_running(void)
{
    sqlite3 *database = opened(":memory:");
    sqlite3_stmt *fixed, *varying;
    expect(database, "CREATE TABLE log(a); INSERT INTO log VALUES ('10.0.0.1'), ('10.0.0.1'), ('10.0.0.1');"
                     "SELECT ipset_keep('list', ipset('10.0.0.0/8'))", "40");
    sqlite3_prepare_v2(database, "SELECT ipset_has('list', a) FROM log", -1, &fixed, NULL);
    sqlite3_prepare_v2(database, "SELECT ipset_has(substr('list' || a, 1, 4), a) FROM log", -1, &varying, NULL);
    check(next_value(fixed) == 1 && next_value(varying) == 1, "before the set is replaced", "0");
    expect(database, "SELECT ipset_keep('list', ipset('::/0'))", "48");
    check(next_value(fixed) == 1, "a statement goes on with its set", "0");
    check(next_value(varying) == 0, "a name that is not a constant is looked up for each row", "1");
    expect(database, "SELECT ipset_keep('list', NULL)", "NULL");
    check(next_value(fixed) == 1, "a statement goes on with a set that was forgotten", "0");
    check(next_value(varying) == -1, "a forgotten name", "found");
    expect(database, "SELECT ipset_has('list', '::1')", "no set was kept under this name: list");
    sqlite3_reset(fixed);
    check(next_value(fixed) == -1, "the next run of the statement", "goes on");
    expect(database, "SELECT ipset_keep('list', ipset('::/0'))", "48");
    sqlite3_reset(fixed);
    check(next_value(fixed) == 0, "the next run of the statement has the new set", "1");
    sqlite3_finalize(fixed);
    sqlite3_finalize(varying);
    check(sqlite3_close(database) == SQLITE_OK, "close", "busy");
}

static void use_two_connections(void)
{
    sqlite3 *database = opened(":memory:"), *other = opened(":memory:");
    expect(database, "SELECT ipset_keep('list', ipset('10.0.0.0/8'))", "40");
    expect(other, "SELECT ipset_has('list', '10.0.0.1')", "no set was kept under this name: list");
    expect(other, "SELECT ipset_keep('list', ipset('::/0'))", "48");
    expect(database, "SELECT ipset_has('list', '10.0.0.1')", "1");
    expect(other, "SELECT ipset_has('list', '10.0.0.1')", "0");
    check(sqlite3_close(database) == SQLITE_OK, "close", "busy");
    expect(other, "SELECT ipset_has('list', '::1')", "1");
    check(sqlite3_load_extension(other, extension, NULL, NULL) == SQLITE_OK, "loaded again", "error");
    expect(other, "SELECT ipset_has('list', '::1')", "no set was kept under this name: list");
    sqlite3_close(other);
}

static void use_views(void)
{
    sqlite3 *database = opened(":memory:");
    expect(database, "SELECT ipset_keep('list', ipset('10.0.0.0/8'));"
                     "CREATE VIEW v AS SELECT ipset_has('list', '::1') x; SELECT x FROM v",
           "unsafe use of ipset_has()");
    expect(database, "CREATE VIEW w AS SELECT ipset_contains(ipset('10.0.0.0/8'), '10.0.0.1') x; SELECT x FROM w", "1");
    expect(database, "CREATE VIEW e AS SELECT network FROM ipset_each(ipset('10.0.0.0/8')); SELECT * FROM e",
           "10.0.0.0/8");
    expect(database, "CREATE TEMP VIEW t AS SELECT ipset_has('list', '10.0.0.1') x; SELECT x FROM t", "1");
    sqlite3_close(database);
}

/* Runs the statement with each number of granted requests, until it succeeds. */
static void refuse_each(sqlite3 *database, const char *text, const char *wanted, bool of_sqlite)
{
    int granted;
    const char *found = "";
    refuse_sqlite = of_sqlite;
    for (granted = 0; granted < 20000; granted++) {
        left = granted;
        is_counting = 1;
        found = ask(database, text);
        is_counting = 0;
        if (strcmp(found, wanted) == 0)
            break;
        /* SQLite prints this if it has no memory for the message of an error */
        if (strcmp(found, "out of memory") != 0 && strcmp(found, "SQL logic error") != 0)
            break;
        passed++;
    }
    check(strcmp(found, wanted) == 0 && (granted > 0 || !of_sqlite), text, found);
}

/* Statements that are run without memory, each with its result. */
static const char *const rows[][2] = {
    {"SELECT hex(ipset('10.0.0.0/8, 10.0.0.3-10.0.0.9, ::1')) = hex(ipset('10.0.0.0/8, ::1'))", "1"},
    {"SELECT ipset('10.0.0.0/8, x')",
     "entry 2 is not a network, address or range: x: a host name: write its addresses"},
    {"SELECT ipset_contains(ipset('10.0.0.0/8'), '10.1.2.3')", "1"},
    {"SELECT ipset_contains(ipset('10.0.0.0/8'), 'x')", "not an address: x"},
    {"SELECT ipset_count(ipset_union(ipset('10.0.0.0/8'), ipset('::/0')), 6)",
     "340282366920938463463374607431768211456"},
    {"SELECT ipset_count(ipset_difference(ipset_complement(ipset('10.0.0.0/8')), ipset('::/0')), 4)", "4278190080"},
    {"SELECT count(*) FROM (SELECT ipset_agg(a) s FROM log), ipset_each(s)", "2"},
    {"SELECT longest_match((SELECT iptable_agg(a, 7) FROM log), 167772161)", "7"},
    {"SELECT iptable_agg(a, b) FROM (SELECT '10.0.0.0/8' a, 1 b UNION ALL SELECT '10.0.0.1/8', 2)",
     "two values for the network 10.0.0.0/8: 1 and 2"},
    {"SELECT ipset_keep('a', ipset('10.0.0.0/8')) + ipset_keep('b', (SELECT iptable_agg(a, 7) FROM log))", "120"},
    {"SELECT ipset_has('a', '10.0.0.1') + longest_match_in('b', 'fd00::1')", "8"},
    {"SELECT longest_route((SELECT iptable_agg(a, 7) FROM log), 167772161)", "10.0.0.1/32"},
    {"SELECT longest_route_in('b', 'fd00::/16')", "fd00::/8"},
    {"SELECT max(last) FROM ipset_ranges(ipset('10.0.0.0/8'))", "10.255.255.255"},
    {"SELECT sum(value) FROM (SELECT iptable_agg(a, 7) t FROM log), iptable_each(t)", "14"},
    {"SELECT ipset_is_entry('10.0.0.1 - 10.0.0.9') + ipset_is_address('::1')", "2"},
    {"SELECT ipset_unmap('::ffff:10.0.0.1')", "10.0.0.1"},
    {"SELECT hex(ipset_key('::1'))", "00000000000000000000000000000001"},
    {"SELECT ipset_count(ipset_agg(s), 4) FROM (SELECT ipset('10.0.0.0/8') s UNION ALL SELECT ipset('11.0.0.0/8'))",
     "33554432"},
};

static void refuse_memory(void)
{
    sqlite3 *database = opened(":memory:");
    size_t i;
    sqlite3_int64 used;
    expect(database, "CREATE TABLE log(a); INSERT INTO log VALUES ('10.0.0.1'), ('fd00::/8'), (NULL)", "no row");
    for (i = 0; i < sizeof rows / sizeof *rows; i++) {
        refuse_each(database, rows[i][0], rows[i][1], true);
        refuse_each(database, rows[i][0], rows[i][1], false);
    }
    used = sqlite3_memory_used();
    for (i = 0; i < sizeof rows / sizeof *rows; i++)
        refuse_each(database, rows[i][0], rows[i][1], true);
    check(sqlite3_memory_used() == used, "memory after all refusals", "grew");
    sqlite3_close(database);
    check(sqlite3_memory_used() == 0, "memory after the end", "is in use");
}

/* Aggregates more text than a state keeps, so that the library compiles it in parts. */
static void aggregate_much(void)
{
    static const char *const text =
        "WITH RECURSIVE n(i) AS (SELECT 0 UNION ALL SELECT i + 1 FROM n WHERE i < 199999) "
        "SELECT ipset_count(ipset_agg(268435456 + 2 * i), 4) FROM n";
    sqlite3 *database = opened(":memory:");
    sqlite3_int64 used;
    expect(database, text, "200000");
    used = sqlite3_memory_used();
    expect(database, text, "200000");
    check(sqlite3_memory_used() == used, "memory after an aggregate", "grew");
    sqlite3_close(database);
    check(sqlite3_memory_used() == 0, "memory after the end", "is in use");
}

int main(int count, char **words)
{
    if (count != 2)
        return 2;
    extension = words[1];
    configure();
    replace_while_running();
    use_two_connections();
    use_views();
    refuse_memory();
    aggregate_much();
    printf("%d passed, %d failed\n", passed, failed);
    return failed != 0;
}
