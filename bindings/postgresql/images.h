/* Shared by the files of the PostgreSQL extension: images as values, calls of the library, and addresses.
 *
 * The library calls malloc and free, so no error of PostgreSQL may leave one of its calls. Nothing that the library
 * runs calls PostgreSQL; the status of a call is reported after it has returned. */
#ifndef IPSET_IMAGES_H
#define IPSET_IMAGES_H

#include "postgres.h"

#include <sys/socket.h>

#include "fmgr.h"
#include "utils/inet.h"

#include "entries.h"
#include "ipnet.h"
#include "messages.h"
#include "routes.h"
#include "writers.h"

/* A value of type ipset or iptable. The types have the alignment 8; the padding puts the image at a multiple of 8. */
typedef struct Image {
    int32 vl_len_;
    uint32 padding;
    uint8 bytes[FLEXIBLE_ARRAY_MEMBER];
} Image;

#define IMAGE_HEADER offsetof(Image, bytes)

static inline Size image_len(const Image *image)
{
    return VARSIZE(image) - IMAGE_HEADER;
}

/* ---- images.c: calls of the library */

/* Calls the writer with an image of `guess` bytes, and once more if it is too short. The image may be above 1 GB. On a
 * failure the result is NULL, `*status` has the reason, and `*count` what the call wrote there. */
extern Image *try_write(SqlWriter writer, const SqlGiven *given, Size guess, ipnet_status *status, size_t *count);

/* The same, with an error for each failure. */
extern Image *write_image(SqlWriter writer, const SqlGiven *given, Size guess);

/* An image whose length PostgreSQL can store, or an error. */
extern Image *checked_len(Image *image);

extern void report_status(ipnet_status status) pg_attribute_noreturn();

/* A buffer that the networks or ranges of most sets fit into, as text: four times the image, and at most 256 MB. */
extern Size text_guess(const Image *set);

/* The image of the empty set. */
extern Image *empty_set(void);

/* The call of the library that checks all of an image. */
typedef ipnet_status (*ImageCheck)(const void *, size_t);

/* Reads an image that a client sends, or one that is a value of type bytea, and checks all of it. */
extern Datum receive_image(FunctionCallInfo fcinfo, ImageCheck check, const char *type);
extern Datum image_of_bytea(FunctionCallInfo fcinfo, ImageCheck check, const char *type);

/* The memory of the state of the aggregate that calls the function. */
extern MemoryContext aggregate_memory(FunctionCallInfo fcinfo);

/* An error that quotes the text: 'invalid input syntax for type ipset: "10.0.0.0/33"', with the entry and the cause.
 * Characters that nobody sees are escaped. */
extern void refuse_entry(const char *type, SqlPart entry, size_t number, const char *cause) pg_attribute_noreturn();

/* ---- cache.c: images that a call keeps */

extern void define_cache_size(void);

/* The image that is an argument of a function that gets `needed` images in all. A value that is stored out of line is
 * read once, and kept for the later calls of the same expression. The image is valid until the function returns. */
extern const Image *get_image(FunctionCallInfo fcinfo, int argument, int needed);

/* ---- addresses.c */

/* The number of octets of the address, 4 or 16. */
extern size_t inet_octets_len(inet *address);

/* Whether the value is a single address, and not a network of several. */
extern bool is_single(inet *address);

extern SqlNetwork network_of_inet(inet *address);
extern inet *inet_of_network(const SqlNetwork *network);

#endif
