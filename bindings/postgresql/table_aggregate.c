/* iptable_agg(inet, int4): the table of the networks of a column, with the values of another. */
#include "routes_of_table.h"

#include "miscadmin.h"
#include "utils/memutils.h"

PG_FUNCTION_INFO_V1(iptable_agg_add);
PG_FUNCTION_INFO_V1(iptable_agg_combine);
PG_FUNCTION_INFO_V1(iptable_agg_serialize);
PG_FUNCTION_INFO_V1(iptable_agg_deserialize);
PG_FUNCTION_INFO_V1(iptable_agg_final);

GatheredRoutes *
new_routes(MemoryContext memory)
{
    GatheredRoutes *gathered = MemoryContextAllocZero(memory, sizeof *gathered);
    gathered->memory = memory;
    gathered->room = 64;
    gathered->routes = MemoryContextAlloc(memory, gathered->room * sizeof(SqlRoute));
    return gathered;
}

static void
make_room(GatheredRoutes *gathered, Size more)
{
    if (gathered->room - gathered->count >= more)
        return;
    gathered->room = Max(2 * gathered->room, gathered->count + more);
    gathered->routes = repalloc_huge(gathered->routes, gathered->room * sizeof(SqlRoute));
}

void
add_route(GatheredRoutes *gathered, const SqlNetwork *network, int32 value)
{
    make_room(gathered, 1);
    gathered->routes[gathered->count].network = *network;
    gathered->routes[gathered->count].value = (uint32) value;
    gathered->count++;
}

/* The table of the routes; of two routes with one network, it has the last. */
static Image *
compile_routes(const GatheredRoutes *gathered)
{
    Size count = gathered->count, i, len = 0;
    char *text = palloc_extended(count * SQL_LINE + 1, MCXT_ALLOC_HUGE);
    uint32 *values = palloc_extended((count + 1) * sizeof *values, MCXT_ALLOC_HUGE);
    SqlGiven given = {text, 0, values, count};
    Image *table;
    for (i = 0; i < count; i++) {
        len += sql_print_line(&gathered->routes[i].network, text + len);
        values[i] = gathered->routes[i].value;
        if (i % 65536 == 0)
            CHECK_FOR_INTERRUPTS();
    }
    given.len = len;
    table = write_image(sql_write_table, &given, 64 + 28 * count);
    pfree(text);
    pfree(values);
    return table;
}

Image *
table_of_routes(GatheredRoutes *gathered)
{
    Image *table = compile_routes(gathered);
    size_t count;
    ipnet_status status = ipnet_table_count(table->bytes, image_len(table), &count);
    const SqlRoute *conflict = NULL;
    if (status != IPNET_OK)
        report_status(status);
    /* only if the table has fewer routes than were gathered, a network was given twice */
    if (count < gathered->count)
        conflict = sql_find_conflict(gathered->routes, gathered->count);
    if (conflict != NULL) {
        char name[SQL_LINE];
        name[sql_print_line(&conflict->network, name) - 1] = '\0';
        ereport(ERROR, (errcode(ERRCODE_CARDINALITY_VIOLATION), errmsg("two values for the network %s", name),
                        errdetail("The values are %d and %d.", (int32) conflict[0].value, (int32) conflict[1].value)));
    }
    return table;
}

static GatheredRoutes *
get_state(FunctionCallInfo fcinfo)
{
    MemoryContext memory = aggregate_memory(fcinfo);
    return PG_ARGISNULL(0) ? new_routes(memory) : (GatheredRoutes *) PG_GETARG_POINTER(0);
}

static void
add_all(GatheredRoutes *gathered, const void *routes, Size count)
{
    make_room(gathered, count);
    memcpy(gathered->routes + gathered->count, routes, count * sizeof(SqlRoute));
    gathered->count += count;
}

Datum
iptable_agg_add(PG_FUNCTION_ARGS)
{
    GatheredRoutes *gathered = get_state(fcinfo);
    if (!PG_ARGISNULL(1) && !PG_ARGISNULL(2)) {
        SqlNetwork network = network_of_inet(PG_GETARG_INET_PP(1));
        add_route(gathered, &network, PG_GETARG_INT32(2));
    }
    PG_RETURN_POINTER(gathered);
}

Datum
iptable_agg_combine(PG_FUNCTION_ARGS)
{
    GatheredRoutes *gathered = get_state(fcinfo);
    if (!PG_ARGISNULL(1)) {
        const GatheredRoutes *other = (const GatheredRoutes *) PG_GETARG_POINTER(1);
        add_all(gathered, other->routes, other->count);
    }
    PG_RETURN_POINTER(gathered);
}

/* A parallel worker sends its routes. */
Datum
iptable_agg_serialize(PG_FUNCTION_ARGS)
{
    const GatheredRoutes *gathered = (const GatheredRoutes *) PG_GETARG_POINTER(0);
    Size len = gathered->count * sizeof(SqlRoute);
    bytea *sent;
    aggregate_memory(fcinfo);
    sent = palloc(VARHDRSZ + len);
    SET_VARSIZE(sent, VARHDRSZ + len);
    memcpy(VARDATA(sent), gathered->routes, len);
    PG_RETURN_BYTEA_P(sent);
}

Datum
iptable_agg_deserialize(PG_FUNCTION_ARGS)
{
    bytea *sent = PG_GETARG_BYTEA_PP(0);
    GatheredRoutes *gathered;
    aggregate_memory(fcinfo);
    gathered = new_routes(CurrentMemoryContext);
    add_all(gathered, VARDATA_ANY(sent), VARSIZE_ANY_EXHDR(sent) / sizeof(SqlRoute));
    PG_RETURN_POINTER(gathered);
}

Datum
iptable_agg_final(PG_FUNCTION_ARGS)
{
    GatheredRoutes *gathered = get_state(fcinfo);
    PG_RETURN_POINTER(table_of_routes(gathered));
}
