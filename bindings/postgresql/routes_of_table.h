/* Routes that are gathered for a table: table_aggregate.c. */
#ifndef IPSET_ROUTES_OF_TABLE_H
#define IPSET_ROUTES_OF_TABLE_H

#include "images.h"

typedef struct GatheredRoutes {
    MemoryContext memory;
    SqlRoute *routes;
    Size count;
    Size room;
} GatheredRoutes;

extern GatheredRoutes *new_routes(MemoryContext memory);
extern void add_route(GatheredRoutes *gathered, const SqlNetwork *network, int32 value);

/* The image of the table with these routes. Two values for one network are an error that names it. */
extern Image *table_of_routes(GatheredRoutes *gathered);

#endif
