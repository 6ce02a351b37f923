/* The type ipset: as text, and as the bytes of its image. */
#include "images.h"

#include "libpq/pqformat.h"

PG_FUNCTION_INFO_V1(ipset_in);
PG_FUNCTION_INFO_V1(ipset_out);
PG_FUNCTION_INFO_V1(ipset_recv);
PG_FUNCTION_INFO_V1(ipset_from_bytea);
PG_FUNCTION_INFO_V1(image_send);

Datum
ipset_in(PG_FUNCTION_ARGS)
{
    const char *text = PG_GETARG_CSTRING(0);
    size_t len = strlen(text), refused, line;
    char *lines = palloc(len + 1);
    SqlGiven given = {lines, sql_set_lines(text, len, lines, &refused), NULL, 0};
    ipnet_status status;
    Image *image = try_write(sql_write_set, &given, 32 + given.len, &status, &line);
    if (image == NULL && status != IPNET_BAD_LINE)
        report_status(status);
    if (image == NULL || refused != 0) {
        size_t number = image == NULL ? line : refused;
        SqlPart entry = sql_entry_at(text, len, number);
        refuse_entry("ipset", entry, number, sql_cause_of_entry(entry));
    }
    pfree(lines);
    PG_RETURN_POINTER(checked_len(image));
}

Datum
ipset_out(PG_FUNCTION_ARGS)
{
    const Image *set = (const Image *) PG_DETOAST_DATUM(PG_GETARG_DATUM(0));
    SqlGiven given = {set->bytes, image_len(set), NULL, 0};
    Image *text = write_image(sql_write_networks, &given, text_guess(set));
    Size len = image_len(text), commas = 0, at;
    char *out;
    /* each line end but the last becomes a comma and a blank */
    for (at = 0; at < len; at++)
        commas += text->bytes[at] == '\n';
    out = palloc(len + commas + 1);
    commas = 0;
    for (at = 0; at + 1 < len; at++) {
        bool is_end = text->bytes[at] == '\n';
        out[commas++] = is_end ? ',' : (char) text->bytes[at];
        if (is_end)
            out[commas++] = ' ';
    }
    out[commas] = '\0';
    PG_RETURN_CSTRING(out);
}

Datum
ipset_recv(PG_FUNCTION_ARGS)
{
    return receive_image(fcinfo, ipnet_set_check, "ipset");
}

Datum
ipset_from_bytea(PG_FUNCTION_ARGS)
{
    return image_of_bytea(fcinfo, ipnet_set_check, "ipset");
}

/* Sends the bytes of the image of a set or of a table. */
Datum
image_send(PG_FUNCTION_ARGS)
{
    const Image *image = (const Image *) PG_DETOAST_DATUM(PG_GETARG_DATUM(0));
    StringInfoData message;
    pq_begintypsend(&message);
    pq_sendbytes(&message, (const char *) image->bytes, (int) image_len(image));
    PG_RETURN_BYTEA_P(pq_endtypsend(&message));
}
