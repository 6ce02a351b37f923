/* Parts of the messages of the extensions: see messages.h. */
#include "messages.h"

#include <stdint.h>
#include <stdio.h>
#include <string.h>

/* Characters above U+007F that print nothing, or only a blank: the first and the last of each range. */
static const uint32_t unseen[][2] = {
    {0x80, 0xa0},     {0xad, 0xad},     {0x34f, 0x34f},   {0x61c, 0x61c},     {0x1680, 0x1680},   {0x180b, 0x180e},
    {0x2000, 0x200f}, {0x2028, 0x202f}, {0x205f, 0x206f}, {0x3000, 0x3000},   {0xfe00, 0xfe0f},   {0xfeff, 0xfeff},
    {0xfff0, 0xfffb}, {0xe0000, 0xe0fff},
};

static bool is_unseen(uint32_t character)
{
    size_t i;
    for (i = 0; i < sizeof unseen / sizeof *unseen; i++)
        if (unseen[i][0] <= character && character <= unseen[i][1])
            return true;
    return false;
}

/* Decodes the character of UTF-8 above U+007F at the start of the text. Returns its number of bytes, or 0. */
static size_t decode(const unsigned char *text, size_t len, uint32_t *character)
{
    static const uint32_t least[] = {0, 0, 0x80, 0x800, 0x10000};
    size_t count = text[0] >= 0xf0 ? 4 : text[0] >= 0xe0 ? 3 : 2, i;
    if (text[0] < 0xc2 || text[0] > 0xf4 || count > len)
        return 0;
    *character = text[0] & (0xffu >> (count + 1));
    for (i = 1; i < count; i++) {
        if ((text[i] & 0xc0) != 0x80)
            return 0;
        *character = *character << 6 | (text[i] & 0x3fu);
    }
    if (*character < least[count] || *character > 0x10ffff || (*character >= 0xd800 && *character <= 0xdfff))
        return 0;
    return count;
}

/* Writes the first character of the text, escaped if it has to be. Returns the number of bytes that it has there. */
static size_t quote_character(const unsigned char *text, size_t len, bool is_utf8, char **at)
{
    uint32_t character;
    size_t count = is_utf8 ? decode(text, len, &character) : 0;
    if (count > 0 && is_unseen(character))
        *at += sprintf(*at, character > 0xffff ? "\\U%08x" : "\\u%04x", (unsigned)character);
    else if (count > 0) {
        memcpy(*at, text, count);
        *at += count;
    } else if (text[0] == '\\')
        *at += sprintf(*at, "\\\\");
    else if (text[0] < ' ' || text[0] > '~')
        *at += sprintf(*at, "\\x%02x", text[0]);
    else
        *(*at)++ = (char)text[0];
    return count > 0 ? count : 1;
}

void sql_quote(const char *text, size_t len, bool is_utf8, char quote[SQL_QUOTE])
{
    char *at = quote;
    size_t next = 0;
    while (next < len) {
        char *before = at;
        size_t count = quote_character((const unsigned char *)text + next, len - next, is_utf8, &at);
        if (next + count > 100) {
            at = before;
            break;
        }
        next += count;
    }
    strcpy(at, next < len ? ".." : "");
}

const char *sql_cause_of_image(const void *bytes, size_t len)
{
    /* the version is the number in bytes 8 to 15, the least significant byte first */
    static const uint8_t version[8] = {1};
    const uint8_t *image = bytes;
    if (len < 16 || (memcmp(image, "ipnetset", 8) != 0 && memcmp(image, "ipnettab", 8) != 0))
        return NULL;
    return memcmp(image + 8, version, 8) == 0 ? NULL : "the version of its format is not 1";
}
