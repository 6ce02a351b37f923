/* Parts of the messages of the extensions. Nothing here allocates memory. */
#ifndef SQL_MESSAGES_H
#define SQL_MESSAGES_H

#include <stdbool.h>
#include <stddef.h>

/* The room for a quoted text: 100 bytes, each written with at most four, then one character more, or "..", and a NUL. */
enum { SQL_QUOTE = 4 * 100 + 12 };

/* Writes the start of the text, at most 100 bytes and no part of a character, with a NUL; then ".." if there is more.
 * Control characters, a backslash, and characters that nobody sees are escaped: \x00, \\, \ufeff. So are bytes that
 * are not UTF-8; if the text is in another encoding, all bytes from 0x80 on are. */
void sql_quote(const char *text, size_t len, bool is_utf8, char quote[SQL_QUOTE]);

/* Why bytes are not an image, if it is their version: they begin as an image does, with a version other than 1. NULL
 * for other bytes. */
const char *sql_cause_of_image(const void *bytes, size_t len);

#endif
