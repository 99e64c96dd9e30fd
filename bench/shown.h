/* The run that a verdict shows: the plainest. */
#ifndef SHOWN_H
#define SHOWN_H

#include "reader.h"

/* Writes to `record`, 126 bytes, of the complete runs that leave the set, which is one of the plan's sets, one with the fewest failed entries, and of those
   the first in byte order. */
void show_run(const struct layout *p, unsigned set, uint8_t *record);

#endif
