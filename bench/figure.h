/* Figure 2 of the report, as document 02 amends it, told as a test: is a record a complete run of a plan? Nothing of the verdicts is used. */
#ifndef FIGURE_H
#define FIGURE_H

#include "reader.h"

/* Entries in their order. A leaf runs at most once. */
struct run {
    unsigned len;
    uint8_t leaf[MOST_NODES], outcome[MOST_NODES];
};

int is_complete_run(const struct layout *p, const struct run *w);

#endif
