/* Calls of the library that write an image or a text into memory of SQLite. */
#include "extension.h"

uint8_t *try_write(SqlWriter writer, const SqlGiven *given, size_t guess, ipnet_status *status, size_t *count)
{
    for (;;) {
        uint8_t *bytes = sqlite3_malloc64(guess > 0 ? guess : 1);
        *count = 0;
        *status = IPNET_OUT_OF_MEMORY;
        if (bytes == NULL)
            return NULL;
        *status = writer(given, bytes, guess, count);
        if (*status == IPNET_OK)
            return bytes;
        sqlite3_free(bytes);
        if (*status != IPNET_BUFFER_TOO_SHORT)
            return NULL;
        guess = *count;
    }
}

void write_result(sqlite3_context *context, SqlWriter writer, const SqlGiven *given, size_t guess)
{
    ipnet_status status;
    size_t count;
    uint8_t *bytes = try_write(writer, given, guess, &status, &count);
    if (bytes == NULL)
        refuse_status(context, status);
    else
        sqlite3_result_blob64(context, bytes, count, sqlite3_free);
}
