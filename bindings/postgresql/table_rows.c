/* The routes of a table, as rows. */
#include "images.h"

#include "funcapi.h"

PG_FUNCTION_INFO_V1(iptable_routes);

/* The routes of a table, read in pieces. */
typedef struct Routes {
    const Image *table;
    SqlPiece piece;
} Routes;

static void
begin_routes(FunctionCallInfo fcinfo)
{
    FuncCallContext *context = SRF_FIRSTCALL_INIT();
    MemoryContext before = MemoryContextSwitchTo(context->multi_call_memory_ctx);
    Routes *routes = palloc(sizeof *routes);
    size_t count;
    ipnet_status status;
    routes->table = (const Image *) PG_DETOAST_DATUM(PG_GETARG_DATUM(0));
    status = ipnet_table_count(routes->table->bytes, image_len(routes->table), &count);
    if (status != IPNET_OK)
        report_status(status);
    context->max_calls = count;
    context->user_fctx = routes;
    if (get_call_result_type(fcinfo, NULL, &context->tuple_desc) != TYPEFUNC_COMPOSITE)
        elog(ERROR, "the result is not a row");
    context->tuple_desc = BlessTupleDesc(context->tuple_desc);
    MemoryContextSwitchTo(before);
}

Datum
iptable_routes(PG_FUNCTION_ARGS)
{
    FuncCallContext *context;
    Routes *routes;
    SqlRoute route;
    uint64 index;
    Datum cells[2];
    bool are_null[2] = {false, false};
    if (SRF_IS_FIRSTCALL())
        begin_routes(fcinfo);
    context = SRF_PERCALL_SETUP();
    index = context->call_cntr;
    if (index >= context->max_calls)
        SRF_RETURN_DONE(context);
    routes = context->user_fctx;
    if (index % SQL_PIECE == 0) {
        ipnet_status status = sql_read_routes(routes->table->bytes, image_len(routes->table), index,
                                              Min(context->max_calls - index, SQL_PIECE), &routes->piece);
        if (status != IPNET_OK)
            report_status(status);
    }
    route = sql_route_at(&routes->piece, index % SQL_PIECE);
    cells[0] = InetPGetDatum(inet_of_network(&route.network));
    cells[1] = Int32GetDatum((int32) route.value);
    SRF_RETURN_NEXT(context, HeapTupleGetDatum(heap_form_tuple(context->tuple_desc, cells, are_null)));
}
