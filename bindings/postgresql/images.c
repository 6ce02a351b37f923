/* Images as values of PostgreSQL: calls of the library that write one, and values that a client sends. */
#include "images.h"

#include "libpq/pqformat.h"
#include "mb/pg_wchar.h"
#include "utils/memutils.h"

PG_MODULE_MAGIC;

void _PG_init(void);

void
_PG_init(void)
{
    define_cache_size();
}

static void
set_len(Image *image, Size len)
{
    /* above 1 GB the length word cannot hold the length; checked_len refuses such an image before it is stored */
    SET_VARSIZE(image, Min(len + IMAGE_HEADER, MaxAllocSize));
    image->padding = 0;
}

Image *
try_write(SqlWriter writer, const SqlGiven *given, Size guess, ipnet_status *status, size_t *count)
{
    for (;;) {
        Image *image = palloc_extended(guess + IMAGE_HEADER, MCXT_ALLOC_HUGE);
        *count = 0;
        *status = writer(given, image->bytes, guess, count);
        if (*status == IPNET_OK) {
            set_len(image, *count);
            return image;
        }
        pfree(image);
        if (*status != IPNET_BUFFER_TOO_SHORT)
            return NULL;
        guess = *count;
    }
}

Image *
write_image(SqlWriter writer, const SqlGiven *given, Size guess)
{
    ipnet_status status;
    size_t count;
    Image *image = try_write(writer, given, guess, &status, &count);
    if (image == NULL)
        report_status(status);
    return checked_len(image);
}

Image *
checked_len(Image *image)
{
    if (VARSIZE(image) >= MaxAllocSize)
        ereport(ERROR, (errcode(ERRCODE_PROGRAM_LIMIT_EXCEEDED), errmsg("the result is larger than 1 GB")));
    return image;
}

void
report_status(ipnet_status status)
{
    if (status == IPNET_OUT_OF_MEMORY)
        ereport(ERROR, (errcode(ERRCODE_OUT_OF_MEMORY), errmsg("out of memory")));
    if (status == IPNET_NOT_A_SET || status == IPNET_OTHER_NOT_A_SET || status == IPNET_NOT_A_TABLE)
        ereport(ERROR, (errcode(ERRCODE_DATA_CORRUPTED), errmsg("%s", ipnet_status_text(status))));
    elog(ERROR, "unexpected status %d: %s", (int) status, ipnet_status_text(status));
}

Size
text_guess(const Image *set)
{
    return Min(4 * image_len(set), MaxAllocSize / 4);
}

Image *
empty_set(void)
{
    SqlGiven nothing = {"", 0, NULL, 0};
    return write_image(sql_write_set, &nothing, 32);
}

/* A copy of the bytes, which all are checked. */
static Image *
checked_image(const void *bytes, Size len, ImageCheck check, const char *type)
{
    Image *image = palloc(len + IMAGE_HEADER);
    const char *cause = sql_cause_of_image(bytes, len);
    ipnet_status status = check(bytes, len);
    if (status == IPNET_OUT_OF_MEMORY)
        report_status(status);
    if (status != IPNET_OK)
        ereport(ERROR, (errcode(ERRCODE_INVALID_BINARY_REPRESENTATION),
                        errmsg("invalid binary value for type %s", type),
                        errdetail("The length is %zu: %s.", len, cause ? cause : ipnet_status_text(status))));
    set_len(image, len);
    memcpy(image->bytes, bytes, len);
    return image;
}

Datum
receive_image(FunctionCallInfo fcinfo, ImageCheck check, const char *type)
{
    StringInfo message = (StringInfo) PG_GETARG_POINTER(0);
    int len = message->len - message->cursor;
    PG_RETURN_POINTER(checked_image(pq_getmsgbytes(message, len), len, check, type));
}

Datum
image_of_bytea(FunctionCallInfo fcinfo, ImageCheck check, const char *type)
{
    bytea *bytes = PG_GETARG_BYTEA_PP(0);
    PG_RETURN_POINTER(checked_image(VARDATA_ANY(bytes), VARSIZE_ANY_EXHDR(bytes), check, type));
}

MemoryContext
aggregate_memory(FunctionCallInfo fcinfo)
{
    MemoryContext memory;
    if (!AggCheckCallContext(fcinfo, &memory))
        elog(ERROR, "this function may only be called by an aggregate");
    return memory;
}

void
refuse_entry(const char *type, SqlPart entry, size_t number, const char *cause)
{
    char quote[SQL_QUOTE];
    sql_quote(entry.text, entry.len, GetDatabaseEncoding() == PG_UTF8, quote);
    ereport(ERROR, (errcode(ERRCODE_INVALID_TEXT_REPRESENTATION),
                    errmsg("invalid input syntax for type %s: \"%s\"", type, quote),
                    errdetail("Entry %zu: %s.", number, cause)));
}
