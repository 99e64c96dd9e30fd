/* What an answer must be, whichever verdict gave it. */
#ifndef CHECK_H
#define CHECK_H

#include <stddef.h>
#include <stdint.h>

/* The lent areas, with a margin past what a verdict needs. */
enum { WORK_ROOM = 65536 + 192, RECORD_ROOM = 126 + 66 };

struct answer {
    uint32_t result;
    uint8_t work[WORK_ROOM], record[RECORD_ROOM];
};

/* Fills both areas with bytes that the seed determines. */
void fill_areas(struct answer *a, uint64_t seed);

/* What is wrong with an answer to this file, from areas that were as in `before`; a null pointer where nothing is. The run that is shown is
   held to Figure 2: it is a complete run of the plan; its set is the one given, and that breaks the rule. */
const char *answer_fault(const uint8_t *file, size_t len, const struct answer *before, const struct answer *after);

/* The same of a run that is not the plainest, by trying all runs, where the plan is small enough for that. */
const char *plainness_fault(const uint8_t *file, size_t len, const struct answer *after);

#endif
