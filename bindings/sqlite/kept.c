/* Images that a connection keeps by name: ipset_keep, ipset_has, longest_match_in, longest_route_in.
 *
 * SQLite copies a blob of a column or of a subquery for each row. A kept image is copied once. Each image is counted: a
 * statement holds the images that it uses until it ends, even if another statement keeps a new image of that name. */
#include "extension.h"

#include <string.h>

typedef struct KeptImage {
    struct KeptImage *next;
    uint32_t holders;
    bool is_set;
    size_t len;
    uint8_t *bytes;
    char *name;
} KeptImage;

/* The images of a connection. Each of these functions holds it. */
typedef struct Registry {
    KeptImage *first;
    uint32_t holders;
} Registry;

static void release(void *image)
{
    KeptImage *kept = image;
    if (--kept->holders > 0)
        return;
    sqlite3_free(kept->bytes);
    sqlite3_free(kept->name);
    sqlite3_free(kept);
}

static void release_registry(void *held)
{
    Registry *registry = held;
    if (--registry->holders > 0)
        return;
    while (registry->first != NULL) {
        KeptImage *kept = registry->first;
        registry->first = kept->next;
        release(kept);
    }
    sqlite3_free(registry);
}

/* The place in the list of the image with this name, or the end of the list. */
static KeptImage **find(Registry *registry, const char *name)
{
    KeptImage **at = &registry->first;
    while (*at != NULL && strcmp((*at)->name, name) != 0)
        at = &(*at)->next;
    return at;
}

static void forget(Registry *registry, const char *name)
{
    KeptImage **at = find(registry, name), *kept = *at;
    if (kept == NULL)
        return;
    *at = kept->next;
    release(kept);
}

/* A copy of the image and of the name, held once; NULL without memory. */
static KeptImage *copy_of(const char *name, SqlPart image, bool is_set)
{
    KeptImage *kept = sqlite3_malloc64(sizeof *kept);
    if (kept == NULL)
        return NULL;
    memset(kept, 0, sizeof *kept);
    kept->holders = 1;
    kept->is_set = is_set;
    kept->len = image.len;
    kept->bytes = sqlite3_malloc64(image.len);
    kept->name = sqlite3_mprintf("%s", name);
    if (kept->bytes == NULL || kept->name == NULL) {
        release(kept);
        return NULL;
    }
    memcpy(kept->bytes, image.text, image.len);
    return kept;
}

/* The name of a kept image, a text without a NUL. Returns NULL after an error. */
static const char *read_name(sqlite3_context *context, sqlite3_value *value)
{
    const char *name;
    if (sqlite3_value_type(value) != SQLITE_TEXT) {
        refuse(context, "not a name", value, NULL);
        return NULL;
    }
    name = (const char *)sqlite3_value_text(value);
    if (name == NULL) {
        sqlite3_result_error_nomem(context);
        return NULL;
    }
    if (strlen(name) != (size_t)sqlite3_value_bytes(value)) {
        refuse(context, "not a name", value, "it has a NUL");
        return NULL;
    }
    return name;
}

/* ipset_keep(name, image): keeps the set or the table, and returns its number of bytes. Without an image (NULL) it
 * forgets the name. */
static void keep(sqlite3_context *context, int count, sqlite3_value **values)
{
    Registry *registry = sqlite3_user_data(context);
    const char *name;
    SqlPart image;
    KeptImage *kept;
    ipnet_status status;
    bool is_set;
    if (has_null(1, values) || (name = read_name(context, values[0])) == NULL)
        return;
    if (has_null(count, values)) {
        forget(registry, name);
        return;
    }
    if (!read_image(context, values[1], &image))
        return;
    status = ipnet_set_check(image.text, image.len);
    is_set = status == IPNET_OK;
    if (status == IPNET_NOT_A_SET)
        status = ipnet_table_check(image.text, image.len);
    if (status == IPNET_NOT_A_TABLE) {
        refuse_image(context, "not the image of a set or of a table", values[1]);
        return;
    }
    kept = status == IPNET_OK ? copy_of(name, image, is_set) : NULL;
    if (kept == NULL) {
        sqlite3_result_error_nomem(context);
        return;
    }
    forget(registry, name);
    kept->next = registry->first;
    registry->first = kept;
    sqlite3_result_int64(context, (sqlite3_int64)kept->len);
}

/* The kept image of the name that is the first argument. If the name is a constant, the statement holds the image until
 * it ends. Returns NULL after an error. */
static KeptImage *kept_image(sqlite3_context *context, sqlite3_value *value, bool is_set)
{
    KeptImage *kept = sqlite3_get_auxdata(context, 0);
    const char *name;
    if (kept != NULL)
        return kept;
    name = read_name(context, value);
    if (name == NULL)
        return NULL;
    kept = *find(sqlite3_user_data(context), name);
    if (kept == NULL || kept->is_set != is_set)
        refuse(context, is_set ? "no set was kept under this name" : "no table was kept under this name", value, NULL);
    return kept == NULL || kept->is_set != is_set ? NULL : kept;
}

/* Lets the statement hold the image, if the name is a constant. SQLite may release it in this call. */
static void hold(sqlite3_context *context, KeptImage *kept)
{
    if (sqlite3_get_auxdata(context, 0) != NULL)
        return;
    kept->holders++;
    sqlite3_set_auxdata(context, 0, kept, release);
}

/* ipset_has(name, address): 1 or 0 */
static void has(sqlite3_context *context, int count, sqlite3_value **values)
{
    Address address;
    KeptImage *kept = has_null(count, values) ? NULL : kept_image(context, values[0], true);
    if (kept == NULL || !read_address(context, values[1], &address))
        return;
    sqlite3_result_int(context, (int)ipnet_set_contains(kept->bytes, kept->len, address.octets, address.len));
    hold(context, kept);
}

/* Finds the longest route in the kept table. */
static void find_in(sqlite3_context *context, int count, sqlite3_value **values, bool is_route)
{
    SqlNetwork network;
    SqlPart table;
    KeptImage *kept = has_null(count, values) ? NULL : kept_image(context, values[0], false);
    if (kept == NULL || !read_network(context, values[1], &network))
        return;
    table.text = (const char *)kept->bytes;
    table.len = kept->len;
    answer_route_around(context, table, &network, is_route);
    hold(context, kept);
}

/* longest_match_in(name, network): the value of the longest route that contains the network, or NULL */
static void longest_match_in(sqlite3_context *context, int count, sqlite3_value **values)
{
    find_in(context, count, values, false);
}

/* longest_route_in(name, network): that route, or NULL */
static void longest_route_in(sqlite3_context *context, int count, sqlite3_value **values)
{
    find_in(context, count, values, true);
}

/* Registers a function that holds the registry. SQLite releases it also if this fails. */
static int add_holder(sqlite3 *database, Registry *registry, const char *name,
                      void (*function)(sqlite3_context *, int, sqlite3_value **))
{
    registry->holders++;
    return sqlite3_create_function_v2(database, name, 2, SQLITE_UTF8 | SQLITE_DIRECTONLY, registry, function, NULL,
                                      NULL, release_registry);
}

int add_kept_functions(sqlite3 *database)
{
    Registry *registry = sqlite3_malloc64(sizeof *registry);
    int status;
    if (registry == NULL)
        return SQLITE_NOMEM;
    registry->first = NULL;
    registry->holders = 1;
    status = add_holder(database, registry, "ipset_keep", keep);
    if (status == SQLITE_OK)
        status = add_holder(database, registry, "ipset_has", has);
    if (status == SQLITE_OK)
        status = add_holder(database, registry, "longest_match_in", longest_match_in);
    if (status == SQLITE_OK)
        status = add_holder(database, registry, "longest_route_in", longest_route_in);
    release_registry(registry);
    return status;
}
