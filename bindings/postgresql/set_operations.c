/* Union, intersection, difference and complement of sets; the order and the hash of images. */
#include "images.h"

#include "access/detoast.h"
#include "common/hashfn.h"

PG_FUNCTION_INFO_V1(ipset_union);
PG_FUNCTION_INFO_V1(ipset_intersection);
PG_FUNCTION_INFO_V1(ipset_difference);
PG_FUNCTION_INFO_V1(ipset_complement);
PG_FUNCTION_INFO_V1(image_eq);
PG_FUNCTION_INFO_V1(image_ne);
PG_FUNCTION_INFO_V1(image_lt);
PG_FUNCTION_INFO_V1(image_le);
PG_FUNCTION_INFO_V1(image_gt);
PG_FUNCTION_INFO_V1(image_ge);
PG_FUNCTION_INFO_V1(image_cmp);
PG_FUNCTION_INFO_V1(image_hash);
PG_FUNCTION_INFO_V1(image_hash_extended);

static Image *
combine(FunctionCallInfo fcinfo, SqlWriter writer)
{
    const Image *set = get_image(fcinfo, 0, 2), *other = get_image(fcinfo, 1, 2);
    SqlGiven given = {set->bytes, image_len(set), other->bytes, image_len(other)};
    return write_image(writer, &given, given.len + given.other_len);
}

Datum
ipset_union(PG_FUNCTION_ARGS)
{
    PG_RETURN_POINTER(combine(fcinfo, sql_write_union));
}

Datum
ipset_intersection(PG_FUNCTION_ARGS)
{
    PG_RETURN_POINTER(combine(fcinfo, sql_write_intersection));
}

Datum
ipset_difference(PG_FUNCTION_ARGS)
{
    PG_RETURN_POINTER(combine(fcinfo, sql_write_difference));
}

Datum
ipset_complement(PG_FUNCTION_ARGS)
{
    const Image *set = get_image(fcinfo, 0, 1);
    SqlGiven given = {set->bytes, image_len(set), NULL, 0};
    PG_RETURN_POINTER(write_image(sql_write_complement, &given, given.len + 20));
}

/* Equal sets have equal images, and so do equal tables. No image is the beginning of another one, because its header
 * states its length. */
static int
compare(FunctionCallInfo fcinfo)
{
    Image *image = (Image *) PG_DETOAST_DATUM(PG_GETARG_DATUM(0));
    Image *other = (Image *) PG_DETOAST_DATUM(PG_GETARG_DATUM(1));
    int order = memcmp(image->bytes, other->bytes, Min(image_len(image), image_len(other)));
    PG_FREE_IF_COPY(image, 0);
    PG_FREE_IF_COPY(other, 1);
    return order;
}

/* Whether the lengths of the two images are equal. It reads neither. */
static bool
have_equal_len(FunctionCallInfo fcinfo)
{
    return toast_raw_datum_size(PG_GETARG_DATUM(0)) == toast_raw_datum_size(PG_GETARG_DATUM(1));
}

Datum
image_eq(PG_FUNCTION_ARGS)
{
    PG_RETURN_BOOL(have_equal_len(fcinfo) && compare(fcinfo) == 0);
}

Datum
image_ne(PG_FUNCTION_ARGS)
{
    PG_RETURN_BOOL(!have_equal_len(fcinfo) || compare(fcinfo) != 0);
}

Datum
image_lt(PG_FUNCTION_ARGS)
{
    PG_RETURN_BOOL(compare(fcinfo) < 0);
}

Datum
image_le(PG_FUNCTION_ARGS)
{
    PG_RETURN_BOOL(compare(fcinfo) <= 0);
}

Datum
image_gt(PG_FUNCTION_ARGS)
{
    PG_RETURN_BOOL(compare(fcinfo) > 0);
}

Datum
image_ge(PG_FUNCTION_ARGS)
{
    PG_RETURN_BOOL(compare(fcinfo) >= 0);
}

Datum
image_cmp(PG_FUNCTION_ARGS)
{
    PG_RETURN_INT32(compare(fcinfo));
}

Datum
image_hash(PG_FUNCTION_ARGS)
{
    Image *image = (Image *) PG_DETOAST_DATUM(PG_GETARG_DATUM(0));
    Datum hash = hash_any(image->bytes, (int) image_len(image));
    PG_FREE_IF_COPY(image, 0);
    return hash;
}

Datum
image_hash_extended(PG_FUNCTION_ARGS)
{
    Image *image = (Image *) PG_DETOAST_DATUM(PG_GETARG_DATUM(0));
    Datum hash = hash_any_extended(image->bytes, (int) image_len(image), PG_GETARG_INT64(1));
    PG_FREE_IF_COPY(image, 0);
    return hash;
}
