/* ipset_agg(inet) and ipset_agg(ipset): the set of the addresses of a column of networks, or of sets.
 *
 * The state has a set, and the text of networks that came after it. If the text is as long as the set and has 1 MB, the
 * library compiles it and joins both. So the time for all of these calls together is proportional to the text, apart
 * from sorting. At 64 MB the text is compiled in any case, because a call of the library cannot be interrupted. */
#include "images.h"

#include "lib/stringinfo.h"
#include "utils/memutils.h"

PG_FUNCTION_INFO_V1(ipset_agg_add);
PG_FUNCTION_INFO_V1(ipset_agg_add_set);
PG_FUNCTION_INFO_V1(ipset_agg_combine);
PG_FUNCTION_INFO_V1(ipset_agg_serialize);
PG_FUNCTION_INFO_V1(ipset_agg_deserialize);
PG_FUNCTION_INFO_V1(ipset_agg_final);

typedef struct SetState {
    MemoryContext memory;
    Image *set;
    StringInfoData lines;
} SetState;

enum { LEAST_TEXT = 1024 * 1024, MOST_TEXT = 64 * 1024 * 1024 };

static SetState *
new_state(MemoryContext memory)
{
    MemoryContext before = MemoryContextSwitchTo(memory);
    SetState *state = palloc0(sizeof *state);
    state->memory = memory;
    state->set = empty_set();
    initStringInfo(&state->lines);
    MemoryContextSwitchTo(before);
    return state;
}

static SetState *
get_state(FunctionCallInfo fcinfo, MemoryContext memory)
{
    return PG_ARGISNULL(0) ? new_state(memory) : (SetState *) PG_GETARG_POINTER(0);
}

/* Adds the addresses of an image to the set of the state. */
static void
join_set(SetState *state, const Image *more)
{
    SqlGiven both = {state->set->bytes, image_len(state->set), more->bytes, image_len(more)};
    MemoryContext before = MemoryContextSwitchTo(state->memory);
    Image *joined = write_image(sql_write_union, &both, both.len + both.other_len);
    pfree(state->set);
    state->set = joined;
    MemoryContextSwitchTo(before);
}

/* Moves the networks of the text into the set. */
static void
compile_lines(SetState *state)
{
    SqlGiven given = {state->lines.data, state->lines.len, NULL, 0};
    Image *more;
    if (given.len == 0)
        return;
    more = write_image(sql_write_set, &given, 32 + given.len);
    join_set(state, more);
    pfree(more);
    resetStringInfo(&state->lines);
}

/* The same, if the text is long enough. */
static void
compile_long_lines(SetState *state)
{
    if (state->lines.len >= LEAST_TEXT && state->lines.len >= Min(VARSIZE(state->set), MOST_TEXT))
        compile_lines(state);
}

Datum
ipset_agg_add(PG_FUNCTION_ARGS)
{
    SetState *state = get_state(fcinfo, aggregate_memory(fcinfo));
    if (!PG_ARGISNULL(1)) {
        SqlNetwork network = network_of_inet(PG_GETARG_INET_PP(1));
        enlargeStringInfo(&state->lines, SQL_LINE);
        state->lines.len += sql_print_line(&network, state->lines.data + state->lines.len);
        compile_long_lines(state);
    }
    PG_RETURN_POINTER(state);
}

/* Adds the ranges of the set to the text. */
static void
add_ranges(SetState *state, const Image *set)
{
    SqlGiven given = {set->bytes, image_len(set), NULL, 0};
    Image *ranges = write_image(sql_write_ranges, &given, text_guess(set));
    appendBinaryStringInfo(&state->lines, (const char *) ranges->bytes, (int) image_len(ranges));
    pfree(ranges);
    compile_long_lines(state);
}

Datum
ipset_agg_add_set(PG_FUNCTION_ARGS)
{
    SetState *state = get_state(fcinfo, aggregate_memory(fcinfo));
    if (!PG_ARGISNULL(1)) {
        Image *set = (Image *) PG_DETOAST_DATUM(PG_GETARG_DATUM(1));
        if (image_len(set) < LEAST_TEXT)
            add_ranges(state, set);
        else
            join_set(state, set);
        PG_FREE_IF_COPY(set, 1);
    }
    PG_RETURN_POINTER(state);
}

Datum
ipset_agg_combine(PG_FUNCTION_ARGS)
{
    SetState *state = get_state(fcinfo, aggregate_memory(fcinfo));
    if (!PG_ARGISNULL(1)) {
        SetState *other = (SetState *) PG_GETARG_POINTER(1);
        compile_lines(other);
        join_set(state, other->set);
    }
    PG_RETURN_POINTER(state);
}

/* A parallel worker sends the image of its set. */
Datum
ipset_agg_serialize(PG_FUNCTION_ARGS)
{
    SetState *state = (SetState *) PG_GETARG_POINTER(0);
    Size len;
    bytea *sent;
    aggregate_memory(fcinfo);
    compile_lines(state);
    len = image_len(state->set);
    sent = palloc(VARHDRSZ + len);
    SET_VARSIZE(sent, VARHDRSZ + len);
    memcpy(VARDATA(sent), state->set->bytes, len);
    PG_RETURN_BYTEA_P(sent);
}

Datum
ipset_agg_deserialize(PG_FUNCTION_ARGS)
{
    bytea *sent = PG_GETARG_BYTEA_PP(0);
    SetState *state;
    SqlGiven both;
    aggregate_memory(fcinfo);
    state = new_state(CurrentMemoryContext);
    both.bytes = state->set->bytes;
    both.len = image_len(state->set);
    both.other = VARDATA_ANY(sent);
    both.other_len = VARSIZE_ANY_EXHDR(sent);
    state->set = write_image(sql_write_union, &both, both.len + both.other_len);
    PG_RETURN_POINTER(state);
}

Datum
ipset_agg_final(PG_FUNCTION_ARGS)
{
    SetState *state = get_state(fcinfo, aggregate_memory(fcinfo));
    Image *result;
    compile_lines(state);
    /* the state may be asked again, so the result is a copy */
    result = palloc(VARSIZE(state->set));
    memcpy(result, state->set, VARSIZE(state->set));
    PG_RETURN_POINTER(result);
}
