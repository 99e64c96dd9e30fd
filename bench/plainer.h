/* Whether the run that is shown is the plainest, by trying all others. */
#ifndef PLAINER_H
#define PLAINER_H

#include "figure.h"

/* So many leaves a plan may have for that. */
enum { FEW_LEAVES = 5 };

/* Whether some complete run leaves the set with fewer failed entries than w, or with as many and a record before w's in byte order. */
int is_plainer_run(const struct layout *p, unsigned set, const struct run *w);

#endif
