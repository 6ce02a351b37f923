/* The text of a set or of a table in SQL: see entries.h. */
#include "entries.h"

#include <string.h>

static bool is_blank(char character)
{
    return character != '\0' && strchr(" \t\r\n\f", character) != NULL;
}

static SqlPart trimmed(SqlPart part)
{
    while (part.len > 0 && is_blank(part.text[0])) {
        part.text++;
        part.len--;
    }
    while (part.len > 0 && is_blank(part.text[part.len - 1]))
        part.len--;
    return part;
}

static bool has(SqlPart part, char character)
{
    return memchr(part.text, character, part.len) != NULL;
}

/* The part before the first of these characters, and the part after it. Without one, the second part is empty. */
static SqlPart split(SqlPart part, char character, SqlPart *after)
{
    const char *at = part.len > 0 ? memchr(part.text, character, part.len) : NULL;
    size_t len = at ? (size_t)(at - part.text) : part.len;
    after->text = at ? at + 1 : part.text + part.len;
    after->len = at ? part.len - len - 1 : 0;
    part.len = len;
    return part;
}

SqlEntries sql_entries(const char *text, size_t len)
{
    SqlEntries entries = {{text, len}, 0, false};
    entries.has_ended = trimmed(entries.rest).len == 0;
    return entries;
}

bool sql_next_entry(SqlEntries *entries, SqlPart *entry)
{
    SqlPart rest;
    if (entries->has_ended)
        return false;
    entries->has_ended = !has(entries->rest, ',');
    *entry = trimmed(split(entries->rest, ',', &rest));
    entries->rest = rest;
    entries->number++;
    return true;
}

/* Whether the entry begins with a byte order mark. The library skips one at the start of a list, and refuses others. */
static bool has_mark(SqlPart entry)
{
    return entry.len >= 3 && memcmp(entry.text, "\xef\xbb\xbf", 3) == 0;
}

/* Whether the entry is refused before the library reads it. */
static bool is_refused(SqlPart entry)
{
    return entry.len == 0 || has_mark(entry) || has(entry, '#') || has(entry, ';') || has(entry, '\n');
}

size_t sql_set_lines(const char *text, size_t len, char *lines, size_t *refused)
{
    SqlEntries entries = sql_entries(text, len);
    SqlPart entry;
    size_t written = 0;
    *refused = 0;
    while (sql_next_entry(&entries, &entry)) {
        if (is_refused(entry)) {
            *refused = entries.number;
            break;
        }
        memcpy(lines + written, entry.text, entry.len);
        written += entry.len;
        lines[written++] = '\n';
    }
    return written;
}

ipnet_status sql_check_entry(const char *text, size_t len)
{
    SqlPart entry = {text, len};
    uint8_t image[64];
    size_t count;
    entry = trimmed(entry);
    if (is_refused(entry) || has(entry, ','))
        return IPNET_BAD_LINE;
    /* one range has an image of at most 64 bytes */
    return ipnet_set_from_list(entry.text, entry.len, image, sizeof image, &count);
}

SqlPart sql_entry_at(const char *text, size_t len, size_t number)
{
    SqlEntries entries = sql_entries(text, len);
    SqlPart entry = {text, 0};
    while (entries.number < number && sql_next_entry(&entries, &entry))
        ;
    return entry;
}

static bool is_address(SqlPart part)
{
    uint8_t octets[16];
    return sql_parse_address(part.text, part.len, octets) > 0;
}

/* Whether the part is an entry of a set. */
static bool is_entry(SqlPart part)
{
    SqlNetwork network;
    SqlPart after, front = split(part, '-', &after);
    if (has(part, '-'))
        return is_address(trimmed(front)) && is_address(trimmed(after));
    front = split(part, '/', &after);
    return sql_parse_network(part.text, part.len, &network)
        || (is_address(front) && has(after, '.') && is_address(after));
}

/* The number of bytes of the dash that begins the part: U+2013, U+2014 or U+2212 in UTF-8, or "-". */
static size_t dash_len(SqlPart part)
{
    if (part.len >= 3 && (memcmp(part.text, "\xe2\x80\x93", 3) == 0 || memcmp(part.text, "\xe2\x80\x94", 3) == 0
                          || memcmp(part.text, "\xe2\x88\x92", 3) == 0))
        return 3;
    return part.len >= 1 && part.text[0] == '-';
}

static SqlPart after_bytes(SqlPart part, size_t len)
{
    part.text += len;
    part.len -= len;
    return part;
}

/* Whether the part is two entries around a dash that is not "-". */
static bool is_dashed(SqlPart part)
{
    SqlPart after, front = split(part, '\xe2', &after);
    SqlPart back = after_bytes(part, front.len);
    return dash_len(back) == 3 && is_entry(trimmed(front)) && is_entry(trimmed(after_bytes(back, 3)));
}

/* The first word of the part, up to a blank, and the rest without blanks. */
static SqlPart cut_word(SqlPart part, SqlPart *rest)
{
    SqlPart word = part;
    word.len = 0;
    while (word.len < part.len && !is_blank(part.text[word.len]))
        word.len++;
    *rest = trimmed(after_bytes(part, word.len));
    return word;
}

/* Whether the part is a text, and not a dash with what may be meant as an address after it. */
static bool is_remark(SqlPart part)
{
    size_t len = dash_len(part);
    SqlPart rest, back = trimmed(after_bytes(part, len));
    SqlPart word = cut_word(back, &rest);
    if (part.len == 0 || len == 0)
        return part.len > 0;
    return (back.len == 0 || back.text[0] < '0' || back.text[0] > '9') && !has(word, ':');
}

/* Whether the part is an entry and a text after it that is not one. */
static bool is_followed(SqlPart part)
{
    SqlPart rest, more, word = cut_word(part, &rest);
    SqlPart back, front = split(part, '-', &back);
    if (is_entry(word) && is_remark(rest))
        return !is_entry(cut_word(rest, &more));
    word = cut_word(trimmed(back), &rest);
    return has(part, '-') && is_address(trimmed(front)) && is_address(word) && is_remark(rest);
}

static bool has_inner_blank(SqlPart part)
{
    size_t i;
    for (i = 0; i < part.len; i++)
        if (is_blank(part.text[i]))
            return true;
    return false;
}

static const char *cause_of_prefix(SqlPart prefix, bool is_ipv6, bool may_be_netmask)
{
    size_t i;
    if (!is_ipv6 && has(prefix, '.'))
        return may_be_netmask ? "the netmask is not valid" : "a netmask is not allowed here";
    if (prefix.len == 0)
        return "the prefix length is missing";
    for (i = 0; i < prefix.len; i++)
        if (prefix.text[i] < '0' || prefix.text[i] > '9')
            return "the prefix length is not a number";
    if (prefix.text[0] == '0')
        return "the prefix length has leading zeros";
    return is_ipv6 ? "the prefix length is above 128" : "the prefix length is above 32";
}

static bool is_letter(char character)
{
    return (character >= 'a' && character <= 'z') || (character >= 'A' && character <= 'Z');
}

/* Whether the part is this word, which has small letters, in letters of any case. */
static bool is_word(SqlPart part, const char *word)
{
    size_t i;
    if (part.len != strlen(word))
        return false;
    for (i = 0; i < part.len; i++)
        if (!is_letter(part.text[i]) || (part.text[i] | 0x20) != word[i])
            return false;
    return true;
}

/* Whether the part is letters, digits, ".", "-" and "_", with a letter among them. */
static bool is_name(SqlPart part)
{
    bool has_letter = false;
    size_t i;
    for (i = 0; i < part.len; i++) {
        char character = part.text[i];
        bool is_other = (character >= '0' && character <= '9') || character == '.' || character == '-'
            || character == '_';
        if (!is_letter(character) && !is_other)
            return false;
        has_letter = has_letter || is_letter(character);
    }
    return has_letter;
}

/* The cause in a word for all addresses or a host name, or NULL. */
static const char *cause_in_name(SqlPart part)
{
    SqlPart after, host = split(part, '/', &after);
    host = split(host, ':', &after);
    if (is_word(part, "any") || is_word(part, "all") || is_word(part, "default"))
        return "all addresses: write 0.0.0.0/0 and ::/0";
    if (is_name(part) || (is_name(host) && has(host, '.')))
        return "a host name: write its addresses";
    return NULL;
}

static const char *cause_of_network(SqlPart network, bool may_have_netmask)
{
    SqlPart prefix, address = split(network, '/', &prefix);
    bool is_ipv6 = has(address, ':');
    if (network.len == 0)
        return "it is empty";
    if (has_inner_blank(network))
        return "it has white space";
    if (has(network, '%'))
        return "a zone is not part of a network";
    if (cause_in_name(network))
        return cause_in_name(network);
    if (!is_address(address))
        return is_ipv6 ? "the IPv6 address is not valid" : "the IPv4 address is not valid";
    return cause_of_prefix(prefix, is_ipv6, may_have_netmask);
}

const char *sql_cause_of_network(SqlPart network)
{
    return cause_of_network(network, false);
}

static const char *cause_of_range(SqlPart entry)
{
    uint8_t octets[16];
    SqlPart last, first = trimmed(split(entry, '-', &last));
    size_t first_len, last_len;
    last = trimmed(last);
    first_len = sql_parse_address(first.text, first.len, octets);
    last_len = sql_parse_address(last.text, last.len, octets);
    if ((first_len == 0 || last_len == 0) && cause_in_name(entry))
        return cause_in_name(entry);
    if (first_len == 0 || last_len == 0)
        return "a range is FIRST-LAST, two addresses";
    if (first_len != last_len)
        return "the range has addresses of two families";
    return "the range ends before it starts";
}

const char *sql_cause_of_entry(SqlPart entry)
{
    SqlPart last, first = split(entry, '-', &last);
    if (has(entry, '#') || has(entry, ';'))
        return "comments are not allowed";
    if (has(entry, '\n'))
        return "it has several lines";
    if (has(entry, ','))
        return "it has a comma";
    if (is_dashed(entry))
        return "a dash other than -: write - between the first and the last address";
    if (has(entry, '-') && is_entry(trimmed(first)) && trimmed(last).len == 0)
        return "the range has no last address";
    if (is_followed(entry))
        return "text after the entry: leave it out";
    if (has(entry, '-') && first.len == 0 && is_entry(trimmed(last)))
        return "a - before the entry: leave it out";
    return has(entry, '-') ? cause_of_range(entry) : cause_of_network(entry, true);
}

/* Reads a number from -2147483648 to 2147483647. */
static bool parse_value(SqlPart text, int32_t *value)
{
    bool is_negative = text.len > 0 && text.text[0] == '-';
    int64_t number = 0;
    size_t i = is_negative ? 1 : 0;
    if (text.len == i)
        return false;
    for (; i < text.len; i++) {
        if (text.text[i] < '0' || text.text[i] > '9')
            return false;
        number = number * 10 + (text.text[i] - '0');
        if (number > (int64_t)INT32_MAX + is_negative)
            return false;
    }
    *value = (int32_t)(is_negative ? -number : number);
    return true;
}

const char *sql_parse_route(SqlPart entry, SqlNetwork *network, int32_t *value)
{
    SqlPart words = entry, number;
    size_t len = 0;
    while (len < words.len && !is_blank(words.text[len]))
        len++;
    words.len = len;
    number.text = entry.text + len;
    number.len = entry.len - len;
    number = trimmed(number);
    if (!sql_parse_network(words.text, words.len, network))
        return sql_cause_of_network(words);
    if (number.len == 0)
        return "the value is missing";
    return parse_value(number, value) ? NULL : "the value is not a number of int4";
}
