/* IP networks, with proofs: aggregates, combines and compares lists of networks, and parses and prints single networks.
 *
 * Each function in this file has a contract in crates/ipnet_c, with a proof that its code satisfies it. docs/C.md says
 * what a caller must ensure, and docs/PROVED.md what is trusted. The functions take no locks, keep no state between
 * calls, and may run in any number of threads at once. A call frees all memory that it allocates before it returns.
 * Results are written to memory that the caller supplies, so the caller never frees anything.
 *
 * The caller must ensure:
 * - A pointer is NULL only if its length is 0. Pointers without a length (`count`, `same`, `covered`, `line`, `bad`,
 *   `value`) are never NULL.
 * - A length is at most the number of bytes that may be read, or written, at its pointer.
 * - The memory that a call writes (`buffer`, `count`, `same`, `covered`, `line`, `answers`, `counts`, `bad`, `network`,
 *   `covering`, `lengths`, `value`, and `values`, `families` and `octets` if they are not const) does not overlap any
 *   other argument.
 * - malloc, realloc and free belong to the same allocator. It aligns a block to each power of two up to 16 that divides
 *   the size of the block. The allocators of Linux do so.
 * - No call is made from a signal handler, nor in the child of a process that had several threads when it forked.
 *
 * A list of networks is a text with one network per line, such as 10.1.1.0/24 or fd00::/32. Networks may have host
 * bits, may repeat, and may be in any order. Each line ends with "\n"; the last line may end without one. Empty lines
 * are skipped. Texts are UTF-8 without a terminating NUL, and their lengths are in bytes.
 *
 * There are two grammars:
 * - The strict grammar (RFC 4632, section 3.1; RFC 4291, sections 2.2 and 2.3) allows no leading zeros in decimal
 *   numbers, and "::" replaces at least one group of zeros.
 * - The legacy grammar, used by the functions whose names end in _legacy, also allows leading zeros, as in
 *   010.0.0.1/08, which are read as decimal. It also allows "::" in an address that already has eight groups.
 *
 * The byte form of a network has 6 bytes (IPv4) or 18 bytes (IPv6): the family, 0 for IPv4 and 1 for IPv6; the octets
 * of the address, including host bits, most significant first; and the prefix length. The byte form of 10.1.1.0/24 is
 * 0, 10, 1, 1, 0, 24. A single address is a network of full length: 10.1.1.7 is 0, 10, 1, 1, 7, 32.
 */
#ifndef IPNET_H
#define IPNET_H

#include <stddef.h>
#include <stdint.h>

#ifdef __cplusplus
extern "C" {
#endif

/* The version of this header, 1.1.0: a million for each major version, a thousand for each minor version, and one for
 * each patch. Programs that were compiled with this header run with each library of the same major version that is not
 * older. docs/C.md says what raises which number. */
#define IPNET_VERSION 1001000

/* The version of the library, in the form of IPNET_VERSION. */
uint32_t ipnet_version(void);

/* The statuses that a call returns. A later minor version may add some. */
typedef enum ipnet_status {
    IPNET_OK = 0,                 /* success: the result was written */
    IPNET_BAD_LINE = 1,           /* a line is neither empty nor what the call reads */
    IPNET_NOT_UTF8 = 2,           /* the text is not UTF-8 */
    IPNET_OUT_OF_MEMORY = 3,      /* malloc or realloc failed */
    IPNET_BUFFER_TOO_SHORT = 4,   /* the result does not fit into the buffer */
    IPNET_NOT_A_NETWORK = 5,      /* the text is not a network */
    IPNET_WRONG_LENGTH = 6,       /* there are no bytes, or the wrong number for the family in the first byte */
    IPNET_UNKNOWN_FAMILY = 7,     /* the first byte is neither 0 nor 1 */
    IPNET_PREFIX_TOO_LONG = 8,    /* the last byte, the prefix length, is above 32 (IPv4) or 128 (IPv6) */
    IPNET_BAD_LINE_IN_OTHER = 9,  /* a line of `other`, the second list, is neither empty nor a network */
    IPNET_OTHER_NOT_UTF8 = 10,    /* `other` is not UTF-8 */
    IPNET_NOT_A_SET = 11,         /* the bytes are not the image of a set */
    IPNET_OTHER_NOT_A_SET = 12,   /* `other`, the second image, is not the image of a set */
    IPNET_NOT_A_TABLE = 13,       /* the bytes are not the image of a table */
    IPNET_BAD_OFFSETS = 14,       /* an offset is less than the offset before it, or more than the length of the text */
    IPNET_BAD_ROW = 15,           /* a row is not what the call reads */
    IPNET_NOT_ORIGINS = 16,       /* the bytes are not the image of a table of payloads */
    IPNET_UNKNOWN_OPTION = 17,    /* a number is not one of the numbers of an option */
    IPNET_NO_ADDRESS = 18,        /* there is no address around which to draw a network */
    IPNET_NO_PLACE = 19           /* the set has no room for the networks of a plan */
} ipnet_status;

/* Returns the meaning of a status, in English. The text is constant; nothing is allocated. */
static inline const char *ipnet_status_text(ipnet_status status)
{
    switch (status) {
    case IPNET_OK: return "success";
    case IPNET_BAD_LINE: return "a line is not a network";
    case IPNET_NOT_UTF8: return "the text is not UTF-8";
    case IPNET_OUT_OF_MEMORY: return "out of memory";
    case IPNET_BUFFER_TOO_SHORT: return "the buffer is too short";
    case IPNET_NOT_A_NETWORK: return "the text is not a network";
    case IPNET_WRONG_LENGTH: return "the number of bytes is wrong for a network";
    case IPNET_UNKNOWN_FAMILY: return "the first byte is not a family";
    case IPNET_PREFIX_TOO_LONG: return "the prefix length is too long";
    case IPNET_BAD_LINE_IN_OTHER: return "a line of the other list is not a network";
    case IPNET_OTHER_NOT_UTF8: return "the other text is not UTF-8";
    case IPNET_NOT_A_SET: return "the bytes are not the image of a set";
    case IPNET_OTHER_NOT_A_SET: return "the other bytes are not the image of a set";
    case IPNET_NOT_A_TABLE: return "the bytes are not the image of a table";
    case IPNET_BAD_OFFSETS: return "the offsets are not ascending places in the text";
    case IPNET_BAD_ROW: return "a row is not what the call reads";
    case IPNET_NOT_ORIGINS: return "the bytes are not a table of payloads";
    case IPNET_UNKNOWN_OPTION: return "the option is not known";
    case IPNET_NO_ADDRESS: return "there is no address to draw";
    case IPNET_NO_PLACE: return "the set has no room for these networks";
    }
    return "unknown status";
}

/* The maximum number of bytes in the byte form of a network, and in its text. */
enum { IPNET_MAX_BYTES = 18, IPNET_MAX_TEXT = 43 };

/* Aggregates a list. The result is the shortest list of networks with exactly the same addresses. Its networks have no
 * host bits and no repeats, and are in ascending order, IPv4 first. Each is in canonical text and ends with "\n".
 *
 * OK                `buffer` starts with the result, and `*count` is its length
 * BUFFER_TOO_SHORT  `*count` is the length of the result
 * BAD_LINE          `*count` is the number of the first bad line; lines count from 1, including empty ones
 * NOT_UTF8          if and only if `text` is not UTF-8
 * OUT_OF_MEMORY     never if all lines are empty, nor if the first non-empty line is bad
 *
 * `buffer` is modified only on OK, and only up to the end of the result. `*count` is not modified on NOT_UTF8 and
 * OUT_OF_MEMORY.
 *
 *     "10.0.1.0/24\n\n10.0.0.0/24"   OK, 12, "10.0.0.0/23\n"
 *     "10.0.0.0/24\n\nx\n"           BAD_LINE, 3
 */
ipnet_status ipnet_aggregate_text(const char *text, size_t text_len, char *buffer, size_t buffer_len, size_t *count);

/* Like ipnet_aggregate_text, for a list in the legacy grammar. The result is in the strict grammar. */
ipnet_status ipnet_aggregate_text_legacy(const char *text, size_t text_len, char *buffer, size_t buffer_len,
                                         size_t *count);

/* Checks whether two lists, in the strict grammar, cover the same addresses.
 *
 * OK                 `*same` is 1 if they do, and 0 if they do not
 * BAD_LINE           `*line` is the number of the first bad line of `text`
 * BAD_LINE_IN_OTHER  `*line` is the number of the first bad line of `other`; `text` has no bad line
 * NOT_UTF8           if and only if `text` is not UTF-8
 * OTHER_NOT_UTF8     if and only if `text` is UTF-8 and `other` is not
 * OUT_OF_MEMORY      never if all lines of both lists are empty, nor if the first non-empty line, in `text` and then
 *                    in `other`, is bad
 *
 * `*same` is modified only on OK, `*line` only on BAD_LINE and BAD_LINE_IN_OTHER.
 *
 *     "10.0.0.0/25\n10.0.0.128/25" and "10.0.0.7/24"   OK, 1
 *     "10.0.0.0/25" and "10.0.0.0/24"                  OK, 0
 */
ipnet_status ipnet_same_addresses(const char *text, size_t text_len, const char *other, size_t other_len, uint8_t *same,
                                  size_t *line);

/* Writes the union of two lists, in the strict grammar: the shortest list of networks with exactly the addresses that
 * are in either list or in both. The result has the form of the result of ipnet_aggregate_text.
 *
 * OK                 `buffer` starts with the result, and `*count` is its length
 * BUFFER_TOO_SHORT   `*count` is the length of the result
 * BAD_LINE           `*count` is the number of the first bad line of `text`
 * BAD_LINE_IN_OTHER  `*count` is the number of the first bad line of `other`; `text` has no bad line
 * NOT_UTF8           if and only if `text` is not UTF-8
 * OTHER_NOT_UTF8     if and only if `text` is UTF-8 and `other` is not
 * OUT_OF_MEMORY      never if all lines of both lists are empty, nor if the first non-empty line, in `text` and then
 *                    in `other`, is bad
 *
 * `buffer` is modified only on OK, and only up to the end of the result. `*count` is not modified on NOT_UTF8,
 * OTHER_NOT_UTF8 and OUT_OF_MEMORY.
 *
 *     "10.0.0.0/25" and "10.0.0.128/25"   OK, 12, "10.0.0.0/24\n"
 *     "10.0.0.0/25" and "\nx"             BAD_LINE_IN_OTHER, 2
 */
ipnet_status ipnet_union_text(const char *text, size_t text_len, const char *other, size_t other_len, char *buffer,
                              size_t buffer_len, size_t *count);

/* Like ipnet_union_text, for the intersection: exactly the addresses that are in both lists.
 *
 *     "10.0.0.0/24" and "10.0.0.128/25\n10.0.1.0/24"   OK, 14, "10.0.0.128/25\n"
 */
ipnet_status ipnet_intersection_text(const char *text, size_t text_len, const char *other, size_t other_len,
                                     char *buffer, size_t buffer_len, size_t *count);

/* Like ipnet_union_text, for the difference: exactly the addresses that are in `text` and not in `other`.
 *
 *     "10.0.0.0/24" and "10.0.0.0/26"   OK, 27, "10.0.0.64/26\n10.0.0.128/25\n"
 */
ipnet_status ipnet_difference_text(const char *text, size_t text_len, const char *other, size_t other_len, char *buffer,
                                   size_t buffer_len, size_t *count);

/* Checks whether a list, in the strict grammar, covers every address of a network in byte form. Several networks of the
 * list may cover it together.
 *
 * OK               `*covered` is 1 if it does, and 0 if it does not
 * WRONG_LENGTH, UNKNOWN_FAMILY, PREFIX_TOO_LONG   if and only if the bytes have this fault; checked before the text
 * BAD_LINE         `*line` is the number of the first bad line
 * NOT_UTF8         if and only if the bytes are a network and the text is not UTF-8
 * OUT_OF_MEMORY    never if all lines are empty, nor if the first non-empty line is bad
 *
 * `*covered` is modified only on OK, `*line` only on BAD_LINE.
 *
 *     "10.0.0.0/25\n10.0.0.128/25" and 0, 10, 0, 0, 0, 24   OK, 1
 *     "10.0.0.0/25" and 0, 10, 0, 0, 200, 32                OK, 0
 */
ipnet_status ipnet_is_covered(const char *text, size_t text_len, const uint8_t *network, size_t network_len,
                              uint8_t *covered, size_t *line);

/* Parses the text of one network, in the strict grammar, and writes its byte form. Allocates no memory.
 *
 * OK                `buffer` starts with the bytes, and `*count` is their number, 6 or 18
 * BUFFER_TOO_SHORT  `*count` is the number of bytes needed
 * NOT_A_NETWORK     if and only if the text is UTF-8 and not a network
 * NOT_UTF8          if and only if the text is not UTF-8
 *
 * `buffer` is modified only on OK, and only up to the end of the bytes. `*count` is not modified on NOT_A_NETWORK and
 * NOT_UTF8.
 */
ipnet_status ipnet_parse(const char *text, size_t text_len, uint8_t *buffer, size_t buffer_len, size_t *count);

/* Like ipnet_parse, for a text in the legacy grammar. */
ipnet_status ipnet_parse_legacy(const char *text, size_t text_len, uint8_t *buffer, size_t buffer_len, size_t *count);

/* Prints a network in byte form as canonical text: its address with the host bits (IPv6 as in RFC 5952), "/", and the
 * prefix length. Allocates no memory.
 *
 * OK                `buffer` starts with the text, and `*count` is its length
 * BUFFER_TOO_SHORT  `*count` is the length needed
 * WRONG_LENGTH, UNKNOWN_FAMILY, PREFIX_TOO_LONG   if and only if the bytes have this fault
 *
 * `buffer` is modified only on OK, and only up to the end of the text. `*count` is not modified on WRONG_LENGTH,
 * UNKNOWN_FAMILY and PREFIX_TOO_LONG.
 */
ipnet_status ipnet_print(const uint8_t *network, size_t network_len, char *buffer, size_t buffer_len, size_t *count);

/* ---- Sets of addresses
 *
 * A set is kept by the caller, as bytes: its image. ipnet_set_from_text makes the image of a list. It can be stored in
 * a file, mapped into memory, and sent; it needs no alignment. Nothing is ever freed. Each set has exactly one image,
 * so two sets are equal if and only if their images are equal bytes. An image has 32 bytes, and 4 (IPv4) or 16 (IPv6)
 * for each end of a range.
 *
 * The questions ipnet_set_contains, ipnet_set_covers, ipnet_set_contains_all and ipnet_set_covers_all allocate nothing,
 * and test only the header of the image, so that each takes a few memory accesses. If the image comes from outside,
 * test all of it once with ipnet_set_check. Whatever the bytes are, no call reads outside of them, and every call
 * ends. */

/* Writes the image of the addresses of a list, in the strict grammar.
 *
 * OK                `buffer` starts with the image, and `*count` is its length
 * BUFFER_TOO_SHORT  `*count` is the length of the image
 * BAD_LINE          `*count` is the number of the first bad line
 * NOT_UTF8          if and only if `text` is not UTF-8
 * OUT_OF_MEMORY
 *
 * `buffer` is modified only on OK, and only up to the end of the image. `*count` is not modified on NOT_UTF8 and
 * OUT_OF_MEMORY.
 *
 *     "10.0.0.0/31\n10.0.0.2/31"   OK, 40
 */
ipnet_status ipnet_set_from_text(const char *text, size_t text_len, void *buffer, size_t buffer_len, size_t *count);

/* Like ipnet_set_from_text, for a text in the legacy grammar.
 *
 *     "10.0.0.0/31\n10.0.00.2/31"   OK, 40
 */
ipnet_status ipnet_set_from_text_legacy(const char *text, size_t text_len, void *buffer, size_t buffer_len,
                                        size_t *count);

/* Writes the image of the addresses of a list as people keep it, read as the program netset reads its files. A line is
 * a network (10.0.0.0/8 or 10.0.0.0/255.0.0.0), an address (10.0.0.7), a range of addresses (10.0.0.3-10.0.0.9), or
 * empty. It may have blanks around it, end with "\r\n", and have a comment after "#" or ";". A byte order mark at the
 * start is skipped. Numbers are in the strict grammar. The text need not be UTF-8.
 *
 * OK                `buffer` starts with the image, and `*count` is its length
 * BUFFER_TOO_SHORT  `*count` is the length of the image
 * BAD_LINE          `*count` is the number of the first line that is none of these
 * OUT_OF_MEMORY
 *
 * `buffer` is modified only on OK, and only up to the end of the image. `*count` is not modified on OUT_OF_MEMORY.
 *
 *     "# ours\n10.0.0.0-10.0.0.3\r\n"   OK, 40
 *     "10.0.0.1\n10.0.0.1 10.0.0.2\n"    BAD_LINE, 2
 */
ipnet_status ipnet_set_from_list(const char *text, size_t text_len, void *buffer, size_t buffer_len, size_t *count);

/* Like ipnet_set_from_list, with numbers in the legacy grammar, as netset reads its files with the option --legacy.
 *
 *     "010.0.0.0-10.0.0.03 # ours"   OK, 40
 */
ipnet_status ipnet_set_from_list_legacy(const char *text, size_t text_len, void *buffer, size_t buffer_len,
                                        size_t *count);

/* Writes the fewest networks of a set, given by its image, as text in the form of the result of ipnet_aggregate_text.
 *
 * OK                `buffer` starts with the text, and `*count` is its length
 * BUFFER_TOO_SHORT  `*count` is the length of the text
 * NOT_A_SET         if and only if the bytes are not the image of a set
 * OUT_OF_MEMORY
 *
 * `buffer` is modified only on OK, and only up to the end of the text. `*count` is modified only on OK and
 * BUFFER_TOO_SHORT.
 */
ipnet_status ipnet_set_to_text(const void *set, size_t set_len, char *buffer, size_t buffer_len, size_t *count);

/* Writes the fewest ranges of a set, given by its image, as text. Each line has the first and the last address of a
 * range, joined by "-", in canonical text, and ends with "\n". The ranges ascend, IPv4 first, and no two of them
 * overlap or touch. A range of one address is written with both ends. Returns the same statuses as ipnet_set_to_text.
 *
 *     the image of 10.0.0.0/30, 10.0.0.4/31 and fd00::1/128   OK, 34, "10.0.0.0-10.0.0.5\nfd00::1-fd00::1\n"
 */
ipnet_status ipnet_set_to_ranges(const void *set, size_t set_len, char *buffer, size_t buffer_len, size_t *count);

/* Returns OK if the bytes are the image of a set, and NOT_A_SET if they are not. Reads all of them once. */
ipnet_status ipnet_set_check(const void *set, size_t set_len);

/* Returns 1 if the set contains the address, and 0 if it does not. The address is given by its octets, the most
 * significant first, as inet_pton writes them: 4 for IPv4, 16 for IPv6. Otherwise returns
 *
 * WRONG_LENGTH      if and only if there are neither 4 nor 16 octets
 * NOT_A_SET         if the bytes of the set do not start with the header of an image, or have another length than it
 *                   states; checked after the address
 */
uint32_t ipnet_set_contains(const void *set, size_t set_len, const uint8_t *address, size_t address_len);

/* Returns 1 if the set contains every address of the network, and 0 if it does not. The network is in byte form.
 * Otherwise returns WRONG_LENGTH, UNKNOWN_FAMILY or PREFIX_TOO_LONG if and only if the bytes of the network have this
 * fault; else NOT_A_SET, as ipnet_set_contains does.
 */
uint32_t ipnet_set_covers(const void *set, size_t set_len, const uint8_t *network, size_t network_len);

/* Writes for each of many addresses 1 if the set contains it, and 0 if it does not. `addresses` has `width` octets for
 * each address, 4 for IPv4 or 16 for IPv6; `answers` gets one byte for each.
 *
 * OK                all answers are written
 * WRONG_LENGTH      if and only if `width` is neither 4 nor 16, or `addresses_len` is not `width` times `answers_len`
 * NOT_A_SET         as ipnet_set_contains; checked after the lengths
 *
 * `answers` is modified only on OK.
 */
ipnet_status ipnet_set_contains_all(const void *set, size_t set_len, const void *addresses, size_t addresses_len,
                                    size_t width, uint8_t *answers, size_t answers_len);

/* Writes for each of many networks what ipnet_set_covers returns for it: 1, 0, or the status of bytes that are not a
 * network. `networks` has `width` bytes for each network in byte form, 6 for IPv4 or 18 for IPv6; `answers` gets one
 * byte for each.
 *
 * OK                all answers are written
 * WRONG_LENGTH      if and only if `width` is neither 6 nor 18, or `networks_len` is not `width` times `answers_len`
 * NOT_A_SET         as ipnet_set_contains; checked after the lengths
 *
 * `answers` is modified only on OK.
 */
ipnet_status ipnet_set_covers_all(const void *set, size_t set_len, const void *networks, size_t networks_len,
                                  size_t width, uint8_t *answers, size_t answers_len);

/* Writes the numbers of addresses of a set, given by its image, into `counts`, which has four numbers. counts[0] is the
 * number of IPv4 addresses. The number of IPv6 addresses is counts[1] + 2^64 * counts[2] + 2^128 * counts[3]; counts[3]
 * is 1 if the set has all of them, and else 0.
 *
 * OK
 * WRONG_LENGTH      if and only if `counts_len` is not 4
 * NOT_A_SET         if and only if `counts_len` is 4 and the bytes are not the image of a set
 * OUT_OF_MEMORY
 *
 * `counts` is modified only on OK.
 *
 *     the image of 10.0.0.0/30 and fd00::/63   OK, 4, 0, 2, 0
 */
ipnet_status ipnet_set_counts(const void *set, size_t set_len, uint64_t *counts, size_t counts_len);

/* Returns 1 if the second set contains every address of the first, and 0 if it does not. Otherwise returns
 *
 * NOT_A_SET         if and only if the first bytes are not the image of a set
 * OTHER_NOT_A_SET   if and only if the first bytes are the image of a set and the second are not
 * OUT_OF_MEMORY
 */
uint32_t ipnet_set_is_subset(const void *set, size_t set_len, const void *other, size_t other_len);

/* Writes the image of the union of two sets, given by their images.
 *
 * OK                `buffer` starts with the image, and `*count` is its length
 * BUFFER_TOO_SHORT  `*count` is the length of the image
 * NOT_A_SET         if and only if the first bytes are not the image of a set
 * OTHER_NOT_A_SET   if and only if the first bytes are the image of a set and the second are not
 * OUT_OF_MEMORY
 *
 * `buffer` is modified only on OK, and only up to the end of the image. `*count` is modified only on OK and
 * BUFFER_TOO_SHORT. A buffer as long as both images together is always long enough.
 */
ipnet_status ipnet_set_union(const void *set, size_t set_len, const void *other, size_t other_len, void *buffer,
                             size_t buffer_len, size_t *count);

/* Like ipnet_set_union, for the intersection: exactly the addresses that are in both sets. */
ipnet_status ipnet_set_intersection(const void *set, size_t set_len, const void *other, size_t other_len, void *buffer,
                                    size_t buffer_len, size_t *count);

/* Like ipnet_set_union, for the difference: exactly the addresses that are in the first set and not in the second. */
ipnet_status ipnet_set_difference(const void *set, size_t set_len, const void *other, size_t other_len, void *buffer,
                                  size_t buffer_len, size_t *count);

/* Like ipnet_set_union, for the symmetric difference: exactly the addresses that are in one of the two sets. */
ipnet_status ipnet_set_symmetric_difference(const void *set, size_t set_len, const void *other, size_t other_len,
                                            void *buffer, size_t buffer_len, size_t *count);

/* Writes the image of all addresses, IPv4 and IPv6, that are not in the set. Returns the same statuses as
 * ipnet_set_to_text. A buffer that is 20 bytes longer than the image of the set is always long enough. */
ipnet_status ipnet_set_complement(const void *set, size_t set_len, void *buffer, size_t buffer_len, size_t *count);

/* ---- Pictures, facts and plans
 *
 * A picture shows one network. `network` says which:
 * - a network in byte form, whose host bits do not matter;
 * - no bytes: the smallest network around all IPv4 addresses of the set, or around all IPv6 addresses if it has no
 *   IPv4 address;
 * - the byte 1 only: the smallest network around all IPv6 addresses of the set.
 *
 * docs/PICTURES.md says how to read a map and a bar. */

/* The options of a map: IPNET_MAP_AUTO for dark colours if the reader prefers dark pages, and else light ones,
 * IPNET_MAP_LIGHT or IPNET_MAP_DARK; plus IPNET_MAP_FREE, if it outlines the free blocks. */
enum { IPNET_MAP_AUTO = 0, IPNET_MAP_LIGHT = 1, IPNET_MAP_DARK = 2, IPNET_MAP_FREE = 4 };

/* The options of a bar: the most marks in a row, which are 4, 8, 16, 32 or 64; plus IPNET_BAR_UTF8, if the marks are
 * shades in UTF-8 and not ASCII. */
enum { IPNET_BAR_UTF8 = 1 };

/* Writes a map of the set, given by its image, as a document of SVG in ASCII, as netset map prints it. The networks of
 * the set that are shown have titles, the 1,500 largest at most.
 *
 * OK                `buffer` starts with the document, and `*count` is its length
 * BUFFER_TOO_SHORT  `*count` is the length of the document; most maps have fewer than 500,000 bytes
 * UNKNOWN_OPTION    if and only if `options` is not a sum as above; checked first
 * WRONG_LENGTH, UNKNOWN_FAMILY, PREFIX_TOO_LONG   if and only if `network` is none of the above, and has this fault;
 *                   checked before the image
 * NOT_A_SET         if and only if all of these are right, and the bytes are not the image of a set
 * NO_ADDRESS        `network` has no byte form, and the set has no address around which to draw a network
 * OUT_OF_MEMORY
 *
 * `buffer` is modified only on OK, and only up to the end of the document. `*count` is modified only on OK and
 * BUFFER_TOO_SHORT.
 */
ipnet_status ipnet_set_map(const void *set, size_t set_len, const uint8_t *network, size_t network_len,
                           uint32_t options, char *buffer, size_t buffer_len, size_t *count);

/* Like ipnet_set_map, for a map of what changes if the first set becomes the second. The smallest network is around the
 * addresses that the sets have together. Also returns OTHER_NOT_A_SET, if and only if all other arguments are right,
 * and the second bytes are not the image of a set. */
ipnet_status ipnet_set_comparison_map(const void *set, size_t set_len, const void *other, size_t other_len,
                                      const uint8_t *network, size_t network_len, uint32_t options, char *buffer,
                                      size_t buffer_len, size_t *count);

/* Like ipnet_set_map, for a bar: at most 16 rows of marks, as netset bar prints them.
 *
 *     the image of 10.0.0.0/31, the network 0, 10, 0, 0, 0, 30, and 4   OK, a text whose second line is
 *                                                                      "10.0.0.0/30 |##..| 50.0 %\n"
 */
ipnet_status ipnet_set_bar(const void *set, size_t set_len, const uint8_t *network, size_t network_len,
                           uint32_t options, char *buffer, size_t buffer_len, size_t *count);

/* Like ipnet_set_comparison_map, for a bar. A mark is "-" if only the first set has some of its addresses that the
 * other lacks, "+" if only the second has, "!" if both have, and "=" if both sets have the same of its addresses. */
ipnet_status ipnet_set_comparison_bar(const void *set, size_t set_len, const void *other, size_t other_len,
                                      const uint8_t *network, size_t network_len, uint32_t options, char *buffer,
                                      size_t buffer_len, size_t *count);

/* The forms of facts: a line for each fact, with its name, ": " and its value; or one JSON object on a line, whose
 * numbers are strings. */
enum { IPNET_LINES = 0, IPNET_JSON = 1 };

/* Writes the facts about a network in byte form, as netset info prints them: masks, hosts, counts, the address as a
 * number, reverse zones, and the special-purpose blocks of IANA's registries that share an address with it.
 *
 * OK                `buffer` starts with the text, and `*count` is its length
 * BUFFER_TOO_SHORT  `*count` is the length of the text
 * UNKNOWN_OPTION    if and only if `form` is neither IPNET_LINES nor IPNET_JSON; checked first
 * WRONG_LENGTH, UNKNOWN_FAMILY, PREFIX_TOO_LONG   if and only if the form is known, and the bytes have this fault
 * OUT_OF_MEMORY
 *
 * `buffer` is modified only on OK, and only up to the end of the text. `*count` is modified only on OK and
 * BUFFER_TOO_SHORT.
 *
 *     0, 10, 0, 0, 9, 24 and IPNET_LINES   OK, "network: 10.0.0.0/24\naddress: 10.0.0.9\n.."
 */
ipnet_status ipnet_info(const uint8_t *network, size_t network_len, uint32_t form, char *buffer, size_t buffer_len,
                        size_t *count);

/* Writes a plan: networks in the set, given by its image, one for each prefix length of `lengths` and in their order,
 * one per line. No two of them share an address, and whatever further networks could be placed in the set beside
 * networks of these lengths can still be placed. `family` is 4 for IPv4 and 6 for IPv6.
 *
 * OK                `buffer` starts with the text, and `*count` is its length
 * BUFFER_TOO_SHORT  `*count` is the length of the text; 44 bytes for each network are always enough
 * UNKNOWN_FAMILY    if and only if `family` is neither 4 nor 6; checked first
 * PREFIX_TOO_LONG   if and only if the family is known, and a length is above 32 (IPv4) or 128 (IPv6)
 * NOT_A_SET         if and only if all of these are right, and the bytes are not the image of a set
 * NO_PLACE          no such networks exist
 * OUT_OF_MEMORY
 *
 * `buffer` is modified only on OK, and only up to the end of the text. `*count` is modified only on OK and
 * BUFFER_TOO_SHORT.
 *
 *     the image of 10.0.0.0/24, 4, and 26, 25       OK, 27, "10.0.0.0/26\n10.0.0.128/25\n"
 *     the image of 10.0.0.0/24, 4, and 25, 25, 27   NO_PLACE
 */
ipnet_status ipnet_set_plan(const void *set, size_t set_len, uint32_t family, const uint8_t *lengths,
                            size_t lengths_len, char *buffer, size_t buffer_len, size_t *count);

/* ---- Rows from text
 *
 * A column of texts becomes rows, which "Columns of addresses" below defines. The text of a row is an address in the
 * strict grammar, such as 10.0.0.1 or fd00::1, and nothing else: no prefix length, no zone, no blanks. Any other text,
 * UTF-8 or not, is a row that is not an address. ::ffff:10.0.0.1 is an IPv6 address. The calls allocate nothing, and
 * their texts, offsets and rows need no alignment. */

/* Reads rows from a text that has one row on each line. Each line ends with "\n", the last one too.
 *
 * OK                `families` and `octets` have a row for each line, and `*bad` is the number of rows that are not
 *                   addresses
 * WRONG_LENGTH      if and only if the text is not `families_len` lines, or `octets_len` is not 16 times `families_len`
 *
 * `families`, `octets` and `*bad` are modified only on OK.
 *
 *     "10.0.0.1\nx\nfd00::1\n" and 3 rows   OK, 4, 0, 6 as the families, and 1 bad row
 *     "10.0.0.1\nx" and 2 rows               WRONG_LENGTH
 */
ipnet_status ipnet_rows_from_lines(const char *text, size_t text_len, uint8_t *families, size_t families_len,
                                   uint8_t *octets, size_t octets_len, size_t *bad);

/* Reads rows from texts that lie one after the other in `text`, as Arrow keeps a column of strings. There is one offset
 * more than there are rows. Row i is read from the bytes of `text` from offset i up to offset i + 1, without the byte
 * at offset i + 1. Each offset has 4 or 8 bytes, the least significant first; `offsets_len` is the number of bytes of
 * all offsets. The first offset need not be 0, nor the last the length of `text`.
 *
 * OK                `families` and `octets` have a row for each text, and `*bad` is the number of rows that are not
 *                   addresses
 * WRONG_LENGTH      if and only if `offsets_len` is neither 4 nor 8 times `families_len` + 1, or `octets_len` is not 16
 *                   times `families_len`
 * BAD_OFFSETS       if and only if the lengths are right, and an offset is less than the offset before it, or more than
 *                   `text_len`
 *
 * `families`, `octets` and `*bad` are modified only on OK.
 *
 *     "10.0.0.1fd00::1", the offsets 0, 8, 15, and 2 rows   OK, 4, 6 as the families, and no bad row
 *     "10.0.0.1fd00::1", the offsets 0, 8, 16, and 2 rows   BAD_OFFSETS
 */
ipnet_status ipnet_rows_from_offsets(const char *text, size_t text_len, const void *offsets, size_t offsets_len,
                                     uint8_t *families, size_t families_len, uint8_t *octets, size_t octets_len,
                                     size_t *bad);

/* ---- Tables of routes
 *
 * A table has networks with a number each, its value, and finds the longest network that contains an address. It is
 * kept by the caller, as a set is: as its image. A table of fewer than 2^32 routes has exactly one image. An image has
 * 32 bytes, 16 for each IPv4 route and 32 for each IPv6 route, and from 256 routes of a family on an index, of at most
 * 8 bytes for each route and 12 more.
 *
 * The questions to an image allocate nothing and test only its header. If the image comes from outside, test all of it
 * once with ipnet_table_check. Whatever the bytes are, no call reads outside of them, and every call ends. */

/* Writes the image of a table of routes. The text is a list of networks, in the strict grammar, and `values` has one
 * number for each network, in the same order. Networks are equal if they are equal without their host bits; if one is
 * given twice, the last value counts.
 *
 * OK                `buffer` starts with the image, and `*count` is its length
 * BUFFER_TOO_SHORT  `*count` is the length of the image
 * BAD_LINE          `*count` is the number of the first bad line
 * NOT_UTF8          if and only if `text` is not UTF-8
 * WRONG_LENGTH      there are not as many values as networks
 * OUT_OF_MEMORY
 *
 * `buffer` is modified only on OK, and only up to the end of the image. `*count` is modified only on OK,
 * BUFFER_TOO_SHORT and BAD_LINE.
 *
 *     "10.0.0.0/8\n10.1.0.0/16", 1, 2   OK, 64
 */
ipnet_status ipnet_table_from_text(const char *text, size_t text_len, const uint32_t *values, size_t values_len,
                                   void *buffer, size_t buffer_len, size_t *count);

/* Writes the number of routes of a table into `*count`.
 *
 * OK
 * NOT_A_TABLE       if and only if the bytes do not start with the header of an image, or have another length than it
 *                   states; `*count` is not modified
 */
ipnet_status ipnet_table_count(const void *table, size_t table_len, size_t *count);

/* Returns OK if the bytes are the image of a table, and NOT_A_TABLE if they are not. Reads all of the routes and
 * the index once. */
ipnet_status ipnet_table_check(const void *table, size_t table_len);

/* Returns 1 if a network of the table contains the address, and writes the value of the longest of them into `*value`;
 * 0 if none does. The address is given by its octets, as for ipnet_set_contains. Otherwise returns
 *
 * WRONG_LENGTH      if and only if there are neither 4 nor 16 octets
 * NOT_A_TABLE       as ipnet_table_count; checked after the address
 *
 * `*value` is modified only on 1.
 */
uint32_t ipnet_table_longest_match(const void *table, size_t table_len, const uint8_t *address, size_t address_len,
                                   uint32_t *value);

/* Like ipnet_table_longest_match, and also writes the longest network, in byte form and without host bits, to the start
 * of `network`, which has 18 bytes or more. The byte form has 6 bytes for an IPv4 address and 18 for an IPv6 address.
 * Returns 1 or 0, or
 *
 * WRONG_LENGTH      if and only if there are neither 4 nor 16 octets
 * BUFFER_TOO_SHORT  if and only if there are 4 or 16 octets, and `network_len` is less than 18
 * NOT_A_TABLE       as ipnet_table_count; checked after the lengths
 *
 * `network` and `*value` are modified only on 1, and `network` only up to the end of the byte form.
 *
 *     the image of 10.0.0.0/8 with 1 and 10.1.0.0/16 with 2, and 10, 1, 2, 3   1, the network 0, 10, 1, 0, 0, 16, and 2
 */
uint32_t ipnet_table_longest_route(const void *table, size_t table_len, const uint8_t *address, size_t address_len,
                                   uint8_t *network, size_t network_len, uint32_t *value);

/* Finds the longest network of the table that contains every address of `network`. Writes its byte form, without host
 * bits, to the start of `covering`, which has 18 bytes or more, and its value to `*value`, and returns 1; or returns 0
 * if no network of the table contains it. `network` has the bytes of a network, as for ipnet_is_covered. Otherwise
 * returns
 *
 * WRONG_LENGTH, UNKNOWN_FAMILY, PREFIX_TOO_LONG  if and only if the bytes of `network` have this fault
 * BUFFER_TOO_SHORT  if and only if they are a network, and `covering_len` is less than 18
 * NOT_A_TABLE       as ipnet_table_count; checked after the network and the length
 *
 * `covering` and `*value` are modified only on 1, and `covering` only up to the end of the byte form.
 *
 *     the image of 10.0.0.0/8 with 1 and 10.1.0.0/16 with 2, and 0, 10, 1, 2, 0, 24   1, 0, 10, 1, 0, 0, 16, and 2
 *     the same image, and 0, 10, 0, 0, 0, 15                                          1, 0, 10, 0, 0, 0, 8, and 1
 */
uint32_t ipnet_table_longest_covering(const void *table, size_t table_len, const uint8_t *network, size_t network_len,
                                      uint8_t *covering, size_t covering_len, uint32_t *value);

/* Writes for each of many addresses the value of the longest network of the table that contains it, or `missing` if
 * none does. `addresses` has `width` octets for each address, 4 or 16, one address after the other.
 *
 * OK                `values` has the value for each address, or `missing`
 * WRONG_LENGTH      if and only if the width is neither 4 nor 16, or the number of octets is not the width for each
 *                   number of `values`
 * NOT_A_TABLE       as ipnet_table_count; checked after the lengths
 *
 * `values` is modified only on OK.
 */
ipnet_status ipnet_table_longest_match_all(const void *table, size_t table_len, const void *addresses,
                                           size_t addresses_len, size_t width, uint32_t missing, uint32_t *values,
                                           size_t values_len);

/* ---- Columns of addresses
 *
 * A column has one address in each row. There are two forms:
 * - Numbers, for columns of IPv4 addresses only (the calls whose names end in _u32): a number of 32 bits for each row,
 *   in the byte order of the machine. 10.0.0.1 is 0x0a000001.
 * - Rows, for columns of both families (the calls whose names end in _rows): two arrays. `families` has one byte for
 *   each row: 4, 6, or 0 for a row that is not an address. `octets` has 16 bytes for each row, the most significant
 *   octet first: the 4 octets of an IPv4 address and 12 zeros; the 16 octets of an IPv6 address; or 16 zeros.
 *
 * A family that is neither 4 nor 6 is read as 0, and the 12 bytes after the octets of an IPv4 address are not read.
 * `octets_len` counts bytes, so it is 16 times `families_len`. Numbers are aligned as uint32_t; bytes need no
 * alignment. The calls allocate nothing, and test only the header of an image, except ipnet_set_range_rows. */

/* Writes for each IPv4 address 1 if the set contains it, and 0 if it does not.
 *
 * OK                all answers are written
 * WRONG_LENGTH      if and only if `answers_len` is not `addresses_len`
 * NOT_A_SET         as ipnet_set_contains; checked after the lengths
 *
 * `answers` is modified only on OK.
 *
 *     the image of 10.0.0.0/30 and 0x0a000001, 0x0a000004   OK, 1, 0
 */
ipnet_status ipnet_set_contains_u32(const void *set, size_t set_len, const uint32_t *addresses, size_t addresses_len,
                                    uint8_t *answers, size_t answers_len);

/* Writes for each row 1 if the set contains its address, 0 if it does not, and 2 if the row is not an address.
 *
 * OK                all answers are written
 * WRONG_LENGTH      if and only if `octets_len` is not 16 times `families_len`, or `answers_len` is not `families_len`
 * NOT_A_SET         as ipnet_set_contains; checked after the lengths
 *
 * `answers` is modified only on OK.
 */
ipnet_status ipnet_set_contains_rows(const void *set, size_t set_len, const uint8_t *families, size_t families_len,
                                     const uint8_t *octets, size_t octets_len, uint8_t *answers, size_t answers_len);

/* Writes for each IPv4 address the value of the longest network of the table that contains it, or `missing` if none
 * does.
 *
 * OK                all values are written
 * WRONG_LENGTH      if and only if `values_len` is not `addresses_len`
 * NOT_A_TABLE       as ipnet_table_count; checked after the lengths
 *
 * `values` is modified only on OK.
 *
 *     the image of 10.0.0.0/8 with 7, 0x0a000001, 0x0b000001, and 9 as `missing`   OK, 7, 9
 */
ipnet_status ipnet_table_longest_match_u32(const void *table, size_t table_len, const uint32_t *addresses,
                                           size_t addresses_len, uint32_t missing, uint32_t *values,
                                           size_t values_len);

/* Writes for each row the value of the longest network of the table that contains its address, or `missing` if none
 * does, or if the row is not an address.
 *
 * OK                all values are written
 * WRONG_LENGTH      if and only if `octets_len` is not 16 times `families_len`, or `values_len` is not `families_len`
 * NOT_A_TABLE       as ipnet_table_count; checked after the lengths
 *
 * `values` is modified only on OK.
 */
ipnet_status ipnet_table_longest_match_rows(const void *table, size_t table_len, const uint8_t *families,
                                            size_t families_len, const uint8_t *octets, size_t octets_len,
                                            uint32_t missing, uint32_t *values, size_t values_len);

/* Makes an IPv4 row of each row of an IPv4-mapped address, ::ffff:0:0/96: of its last four octets. All other rows keep
 * their bytes.
 *
 * OK                all rows are written
 * WRONG_LENGTH      if and only if `octets_len` is not 16 times `families_len`
 *
 * `families` and `octets` are modified only on OK.
 *
 *     6 and ::ffff:10.0.0.1   OK, 4 and 10, 0, 0, 1 and 12 zeros
 */
ipnet_status ipnet_unmap_rows(uint8_t *families, size_t families_len, uint8_t *octets, size_t octets_len);

/* Writes the fewest ranges of the set as rows: for each range the row of its first address, and then the row of its
 * last address. The ranges ascend, IPv4 first, and no two of them overlap or touch. `*count` is the number of ranges.
 * If there are more than two rows for each, the others keep their bytes.
 *
 * OK                the first 2 * `*count` rows are written
 * WRONG_LENGTH      if and only if `octets_len` is not 16 times `families_len`
 * NOT_A_SET         if and only if the bytes are not the image of a set; checked after the lengths
 * OUT_OF_MEMORY
 * BUFFER_TOO_SHORT  there are fewer than 2 * `*count` rows
 *
 * `families` and `octets` are modified only on OK, and `*count` only on OK and BUFFER_TOO_SHORT. The call tests all of
 * the image, and allocates. For an image of n bytes, n / 4 rows are always enough.
 *
 *     the image of 10.0.0.0/30 and 10.0.0.4/31, and two rows   OK, 10.0.0.0 and 10.0.0.5, 1
 */
ipnet_status ipnet_set_range_rows(const void *set, size_t set_len, uint8_t *families, size_t families_len,
                                  uint8_t *octets, size_t octets_len, size_t *count);

/* Writes the networks of the routes of a table from the index `start` on, one for each row: its address, without host
 * bits, as the row, and its prefix length into `lengths`. The routes ascend, IPv4 first, and a network is before those
 * that it contains. ipnet_table_count says how many there are.
 *
 * OK                all rows and lengths are written. If the table comes from outside and is not an image, a route that
 *                   is none has the family 0, and 0 for each octet and for the length
 * NOT_A_TABLE       as ipnet_table_count
 * WRONG_LENGTH      if and only if the bytes start with the header of an image, and `octets_len` is not 16 times
 *                   `families_len`, or `lengths_len` is not `families_len`, or the table does not have that many routes
 *                   from `start` on
 *
 * `families`, `octets` and `lengths` are modified only on OK.
 *
 *     the image of 10.0.0.0/8 and 10.1.0.0/16, 1, and one row   OK, 4 and 10, 1, 0, 0 and 12 zeros, 16
 */
ipnet_status ipnet_table_networks(const void *table, size_t table_len, size_t start, uint8_t *families,
                                  size_t families_len, uint8_t *octets, size_t octets_len, uint8_t *lengths,
                                  size_t lengths_len);

/* Writes the values of the routes of a table from the index `start` on, in the order of ipnet_table_networks.
 *
 * OK                all values are written; a route that is none has the value 0
 * NOT_A_TABLE       as ipnet_table_count
 * WRONG_LENGTH      if and only if the bytes start with the header of an image, and the table does not have
 *                   `values_len` routes from `start` on
 *
 * `values` is modified only on OK.
 *
 *     the image of 10.0.0.0/8 with 1 and 10.1.0.0/16 with 2, 0, and two values   OK, 1, 2
 */
ipnet_status ipnet_table_values(const void *table, size_t table_len, size_t start, uint32_t *values,
                                size_t values_len);

/* Writes the image of the table with the same networks and other values: one for each route, in the order of
 * ipnet_table_networks. The image is as long as the image of the table.
 *
 * OK                `buffer` starts with the image, and `*count` is its length
 * NOT_A_TABLE       as ipnet_table_count
 * WRONG_LENGTH      if and only if the bytes start with the header of an image, and there are not as many values as
 *                   routes
 * BUFFER_TOO_SHORT  `*count` is the length of the image
 *
 * `buffer` is modified only on OK, and only up to the end of the image. `*count` is modified only on OK and
 * BUFFER_TOO_SHORT.
 *
 *     the image of 10.0.0.0/8 with 1, and 7   OK, the image of 10.0.0.0/8 with 7, 48
 */
ipnet_status ipnet_table_with_values(const void *table, size_t table_len, const uint32_t *values, size_t values_len,
                                     void *buffer, size_t buffer_len, size_t *count);

/* Replaces each address by the first address of its network of a prefix length: `ipv4_length` for IPv4, `ipv6_length`
 * for IPv6. The row of an IPv4 address then ends with 12 zeros. Rows that are not an address keep their bytes.
 *
 * OK                all rows are written
 * PREFIX_TOO_LONG   if and only if `ipv4_length` is above 32 or `ipv6_length` is above 128
 * WRONG_LENGTH      if and only if `octets_len` is not 16 times `families_len`; checked after the prefix lengths
 *
 * `octets` is modified only on OK.
 *
 *     24 for IPv4, and the row of 10.1.2.3   OK, the row of 10.1.2.0
 */
ipnet_status ipnet_truncate_rows(uint32_t ipv4_length, uint32_t ipv6_length, const uint8_t *families,
                                 size_t families_len, uint8_t *octets, size_t octets_len);

/* ---- Origins of routes
 *
 * A validated ROA payload says which AS may announce a network, and its subnets up to a greatest prefix length. A table
 * of payloads says whether the origin of a route is valid (RFC 6811, section 2). It is kept by the caller as its image,
 * as a table of routes is: 24 bytes, and 32 for each payload. */

/* The validity of a route, as ipnet_origins_validity writes it. NOT_FOUND: no payload covers the route, because no
 * network of a payload contains the route's network. VALID: a payload matches the route. It covers the route, has the
 * route's AS number, which is not 0, and has a greatest length that is not less than the route's prefix length.
 * INVALID: a payload covers the route, and none matches it. NO_ROUTE: the row is not a network. */
enum { IPNET_NOT_FOUND = 0, IPNET_VALID = 1, IPNET_INVALID = 2, IPNET_NO_ROUTE = 3 };

/* Writes the image of a table of payloads. The networks are given as rows, as for ipnet_set_contains_rows, and
 * `lengths` has their prefix lengths. `max_lens` has the greatest prefix length of each payload, and `asns` its AS
 * number. Host bits do not count. Payloads may overlap and repeat. The image has the payloads in the order of their
 * networks, IPv4 first, then of their AS numbers and greatest lengths.
 *
 * OK                `buffer` starts with the image, and `*count` is its length
 * BUFFER_TOO_SHORT  `*count` is the length of the image
 * BAD_ROW           if and only if the lengths fit and a row is not a payload; `*count` is the index of the first such
 *                   row. Its family is neither 4 nor 6, its prefix length is above 32 (IPv4) or 128 (IPv6), or its
 *                   greatest length is less than the prefix length or above 32 or 128
 * WRONG_LENGTH      if and only if `octets_len` is not 16 times `families_len`, or the length of `lengths`, `max_lens`
 *                   or `asns` is not `families_len`
 * OUT_OF_MEMORY
 *
 * `buffer` is modified only on OK, and only up to the end of the image. `*count` is modified only on OK,
 * BUFFER_TOO_SHORT and BAD_ROW.
 *
 *     the row of 192.0.2.0, 24, 26 and 64496   OK, 56
 *     the row of 192.0.2.0, 24, 23 and 64496   BAD_ROW, 0
 */
ipnet_status ipnet_origins_from_rows(const uint8_t *families, size_t families_len, const uint8_t *octets,
                                     size_t octets_len, const uint8_t *lengths, size_t lengths_len,
                                     const uint8_t *max_lens, size_t max_lens_len, const uint32_t *asns,
                                     size_t asns_len, void *buffer, size_t buffer_len, size_t *count);

/* Writes the number of payloads of a table into `*count`. Reads all payloads once.
 *
 * OK
 * NOT_ORIGINS       if and only if the bytes are not the image of a table of payloads; `*count` is not modified
 */
ipnet_status ipnet_origins_count(const void *origins, size_t origins_len, size_t *count);

/* Writes the validity of each route, as one of the numbers above. The routes are given as rows, and `lengths` has their
 * prefix lengths. `asns` has the AS numbers of their origins. A route without a single origin has the number 0, which
 * no payload matches. Host bits do not count.
 *
 * OK                the validity of each row is written
 * WRONG_LENGTH      if and only if `octets_len` is not 16 times `families_len`, or the length of `lengths`, `asns` or
 *                   `answers` is not `families_len`
 * NOT_ORIGINS       if and only if the lengths fit and the bytes are not the image of a table of payloads
 * OUT_OF_MEMORY
 *
 * `answers` is modified only on OK. Each call tests all of the image and makes the table, so ask for many routes at
 * once.
 *
 *     192.0.2.0/24 with 26 and 64496; 192.0.2.64/26 of 64496, 192.0.2.0/27 of 64496, 198.51.100.0/24   OK, 1, 2, 0
 */
ipnet_status ipnet_origins_validity(const void *origins, size_t origins_len, const uint8_t *families,
                                    size_t families_len, const uint8_t *octets, size_t octets_len,
                                    const uint8_t *lengths, size_t lengths_len, const uint32_t *asns,
                                    size_t asns_len, uint8_t *answers, size_t answers_len);

#ifdef __cplusplus
}
#endif

#endif
