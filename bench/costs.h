/* Costs: for a node and each code the fewest failed entries of its runs under that code. */
#ifndef COSTS_H
#define COSTS_H

#include "reader.h"

/* What stands where a code has no run. More than any run has failed entries. */
enum { NO_RUN = 64 };

struct costs {
    uint8_t under[15];
};

/* What is asked of a leaf. */
enum { FREE, HAS_FINISHED, HAS_FAILED };

/* Of a leaf: of its type, whether its finishing keeps to the set, and what is asked of it. */
struct costs leaf_costs(unsigned type, int may_finish, unsigned asked);

/* Of a composite of the form, from those of its sides. */
struct costs composite_costs(unsigned form, struct costs l, struct costs r);

#endif
