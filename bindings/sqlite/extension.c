/* The SQLite extension: .load ./ipset, or sqlite3_load_extension. docs/SQL.md describes the functions. */
#define IPSET_SQLITE_MAIN
#include "extension.h"
SQLITE_EXTENSION_INIT1

__attribute__((visibility("default"))) int sqlite3_ipset_init(sqlite3 *database, char **message,
                                                              const sqlite3_api_routines *routines)
{
    int status;
    SQLITE_EXTENSION_INIT2(routines);
    (void)message;
    status = add_set_functions(database);
    if (status == SQLITE_OK)
        status = add_set_aggregate(database);
    if (status == SQLITE_OK)
        status = add_table_functions(database);
    if (status == SQLITE_OK)
        status = add_kept_functions(database);
    if (status == SQLITE_OK)
        status = add_text_functions(database);
    if (status == SQLITE_OK)
        status = add_row_tables(database);
    return status;
}
