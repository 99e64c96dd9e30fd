/* What the runner tells after some entries. */
#ifndef TOLD_H
#define TOLD_H

#include "search.h"

/* The leaves that may come next, bit n for node n, from the outcomes of those that came. */
uint64_t told_next(const struct layout *p, const struct table *t);

#endif
