/* Images that a call keeps. Each place in a query that calls a function has its own cache, in fn_extra.
 *
 * An image that is stored out of line reaches the function as a pointer of 18 bytes. Reading such an image takes up to
 * milliseconds, so a call keeps the images that it has read, within ipset.cache_size. The pointer names the value as
 * long as the row is visible. A cache therefore ends with the execution of its expression, and is never shared. */
#include "images.h"

#include <limits.h>

#include "access/detoast.h"
#include "common/hashfn.h"
#include "lib/ilist.h"
#include "utils/guc.h"
#include "utils/memutils.h"

static int cache_size_kb = 65536;

/* The place of a kept image, in a list: its relation and its number there. */
typedef struct KeptPlace {
    struct varatt_external place;
    dlist_node node;
} KeptPlace;

/* A kept image, in a hash table. */
typedef struct KeptImage {
    struct varatt_external place;
    Image *image;
    bool was_used; /* since it was last looked at for removal */
    char status;   /* belongs to the hash table */
} KeptImage;

#define SH_PREFIX places
#define SH_ELEMENT_TYPE KeptImage
#define SH_KEY_TYPE struct varatt_external
#define SH_KEY place
#define SH_HASH_KEY(table, key) murmurhash32((key).va_valueid)
#define SH_EQUAL(table, one, other) (memcmp(&(one), &(other), sizeof(struct varatt_external)) == 0)
#define SH_SCOPE static inline
#define SH_DECLARE
#define SH_DEFINE
#include "lib/simplehash.h"

typedef struct ImageCache {
    MemoryContext memory;
    places_hash *by_place;
    dlist_head newest_first;
    struct varatt_external last_place;
    Image *last;   /* the image that was returned last, or NULL */
    Image *before; /* the other image that was returned before it */
    Size bytes;
} ImageCache;

void
define_cache_size(void)
{
    DefineCustomIntVariable("ipset.cache_size", "Memory in which a call keeps images that are stored out of line.",
                            "The image that was used last is kept even if it is larger.", &cache_size_kb, 65536, 0,
                            MAX_KILOBYTES, PGC_USERSET, GUC_UNIT_KB, NULL, NULL, NULL);
    MarkGUCPrefixReserved("ipset");
}

static ImageCache *
new_cache(MemoryContext parent)
{
    ImageCache *cache = MemoryContextAllocZero(parent, sizeof *cache);
    cache->memory = AllocSetContextCreate(parent, "ipset images", ALLOCSET_DEFAULT_SIZES);
    cache->by_place = places_create(cache->memory, 16, NULL);
    dlist_init(&cache->newest_first);
    return cache;
}

static void
forget(ImageCache *cache, KeptPlace *place, KeptImage *kept)
{
    cache->bytes -= VARSIZE(kept->image);
    pfree(kept->image);
    places_delete(cache->by_place, place->place);
    dlist_delete(&place->node);
    pfree(place);
}

/* Forgets the oldest images until the others fit. An image that was used since it was last looked at stays for one
 * more round. The images that the running call needs stay. */
static void
forget_oldest(ImageCache *cache, uint32 needed)
{
    Size limit = (Size) cache_size_kb * 1024;
    while (cache->bytes > limit && cache->by_place->members > needed) {
        KeptPlace *oldest = dlist_tail_element(KeptPlace, node, &cache->newest_first);
        KeptImage *kept = places_lookup(cache->by_place, oldest->place);
        bool is_needed = kept->image == cache->last || (needed > 1 && kept->image == cache->before);
        if (!is_needed && !kept->was_used) {
            forget(cache, oldest, kept);
            continue;
        }
        kept->was_used = false;
        dlist_move_head(&cache->newest_first, &oldest->node);
    }
}

/* Reads the image, and adds it to the cache. */
static KeptImage *
read_image(ImageCache *cache, struct varlena *pointer, const struct varatt_external *place)
{
    MemoryContext before = MemoryContextSwitchTo(cache->memory);
    KeptPlace *listed = palloc0(sizeof *listed);
    Image *image = (Image *) detoast_attr(pointer);
    bool is_found;
    KeptImage *kept = places_insert(cache->by_place, *place, &is_found);
    MemoryContextSwitchTo(before);
    kept->image = image;
    listed->place = *place;
    dlist_push_head(&cache->newest_first, &listed->node);
    cache->bytes += VARSIZE(image);
    return kept;
}

static const Image *
kept_image(ImageCache *cache, struct varlena *pointer, uint32 needed)
{
    struct varatt_external place;
    KeptImage *kept;
    bool is_new;
    VARATT_EXTERNAL_GET_POINTER(place, pointer);
    if (cache->last != NULL && memcmp(&cache->last_place, &place, sizeof place) == 0)
        return cache->last;
    kept = places_lookup(cache->by_place, place);
    is_new = kept == NULL;
    if (is_new)
        kept = read_image(cache, pointer, &place);
    kept->was_used = true;
    cache->before = cache->last;
    cache->last = kept->image;
    cache->last_place = place;
    if (is_new)
        forget_oldest(cache, needed);
    return cache->last;
}

const Image *
get_image(FunctionCallInfo fcinfo, int argument, int needed)
{
    struct varlena *value = (struct varlena *) PG_GETARG_POINTER(argument);
    FmgrInfo *function = fcinfo->flinfo;
    if (!VARATT_IS_EXTERNAL_ONDISK(value) || function == NULL)
        return (const Image *) PG_DETOAST_DATUM(PointerGetDatum(value));
    if (function->fn_extra == NULL)
        function->fn_extra = new_cache(function->fn_mcxt);
    return kept_image(function->fn_extra, value, needed);
}
