/* The fewest failed entries of a complete run that leaves a set and keeps to what has come. */
#ifndef SEARCH_H
#define SEARCH_H

#include "costs.h"

/* For each leaf, by its node's number, what is asked of it. */
struct table {
    uint8_t at[MOST_NODES];
};

/* The fewest, where that is below `most`; else `most`. */
unsigned fewest(const struct layout *p, unsigned set, const struct table *t, unsigned most);

#endif
