/* The networks and the ranges of a set, as rows. */
#include "images.h"

#include "funcapi.h"

PG_FUNCTION_INFO_V1(ipset_networks);
PG_FUNCTION_INFO_V1(ipset_ranges);

/* The lines that are left to return. */
typedef struct Lines {
    const char *at;
    Size left;
} Lines;

static FuncCallContext *
begin_lines(FunctionCallInfo fcinfo, SqlWriter writer)
{
    FuncCallContext *context = SRF_FIRSTCALL_INIT();
    MemoryContext before = MemoryContextSwitchTo(context->multi_call_memory_ctx);
    const Image *set = (const Image *) PG_DETOAST_DATUM(PG_GETARG_DATUM(0));
    SqlGiven given = {set->bytes, image_len(set), NULL, 0};
    ipnet_status status;
    size_t len;
    Image *text = try_write(writer, &given, text_guess(set), &status, &len);
    Lines *lines = palloc(sizeof *lines);
    if (text == NULL)
        report_status(status);
    lines->at = (const char *) text->bytes;
    lines->left = len;
    context->user_fctx = lines;
    if (get_call_result_type(fcinfo, NULL, &context->tuple_desc) == TYPEFUNC_COMPOSITE)
        context->tuple_desc = BlessTupleDesc(context->tuple_desc);
    MemoryContextSwitchTo(before);
    return context;
}

static bool
next_line(Lines *lines, SqlPart *line)
{
    const char *end;
    if (lines->left == 0)
        return false;
    end = memchr(lines->at, '\n', lines->left);
    line->text = lines->at;
    line->len = end - lines->at;
    lines->at += line->len + 1;
    lines->left -= line->len + 1;
    return true;
}

static Datum
inet_datum(const char *text, size_t len)
{
    SqlNetwork network;
    if (!sql_parse_network(text, len, &network))
        elog(ERROR, "unexpected text of a set: %s", pnstrdup(text, len));
    return InetPGetDatum(inet_of_network(&network));
}

Datum
ipset_networks(PG_FUNCTION_ARGS)
{
    FuncCallContext *context;
    SqlPart line;
    if (SRF_IS_FIRSTCALL())
        begin_lines(fcinfo, sql_write_networks);
    context = SRF_PERCALL_SETUP();
    if (!next_line(context->user_fctx, &line))
        SRF_RETURN_DONE(context);
    SRF_RETURN_NEXT(context, inet_datum(line.text, line.len));
}

Datum
ipset_ranges(PG_FUNCTION_ARGS)
{
    FuncCallContext *context;
    SqlPart line;
    const char *dash;
    Datum ends[2];
    bool are_null[2] = {false, false};
    if (SRF_IS_FIRSTCALL())
        begin_lines(fcinfo, sql_write_ranges);
    context = SRF_PERCALL_SETUP();
    if (!next_line(context->user_fctx, &line))
        SRF_RETURN_DONE(context);
    dash = memchr(line.text, '-', line.len);
    ends[0] = inet_datum(line.text, dash - line.text);
    ends[1] = inet_datum(dash + 1, line.text + line.len - dash - 1);
    SRF_RETURN_NEXT(context, HeapTupleGetDatum(heap_form_tuple(context->tuple_desc, ends, are_null)));
}
