/* Summaries: for each composite and each code the family of the action sets that the outcome chart gives it.

   A code is how a process has ended and how its undo has and that one's undo: 0 is not run, 1 [ok], 2 [ok, ok], 3 [ok, ok, ok], 4 [ok, ok, fail], 5 [ok, fail],
   6 [ok, fail, ok], 7 [ok, fail, fail], and 8 to 14 are likewise with fail first. No part of a complete run has 5, 8 or 12, whose last level has failed with a level beyond it
   not run: the eleven others above 0 have families. */
#ifndef SUMMARY_H
#define SUMMARY_H

#include "family.h"
#include "reader.h"

enum { CODES = 15, FAMILIES = 11, SUMMARY_WORDS = FAMILIES * WORDS };

/* A place for each composite: their number is half the number of nodes. */
enum { MOST_SUMMARIES = MOST_NODES / 2 };

/* The family of the code 0, not run: the empty set alone. */
extern const uint64_t NOT_RUN[WORDS];

/* The outcome chart by rows: of a form, 3 to 7, and a left code one number, whose hexadecimal digit r, counted from the right, is one more than the code of the cell
   with the right code r; 0 where the two cannot occur, or where no part of a complete run has that code. */
extern const uint64_t CHART[5 * CODES];

static inline uint64_t row_of(unsigned form, unsigned left)
{
    return CHART[(form - SEQUENCE) * CODES + left];
}

/* The codes that have families, in their order; and the place of each of these, from 1 on, by the code. */
extern const uint8_t CODE_AT[FAMILIES], PLACE_OF[CODES];

/* The family of a code in a summary, where it has one. */
static inline const word *family_of(const word *summary, unsigned code)
{
    return code ? summary + WORDS * (PLACE_OF[code] - 1) : (const word *)NOT_RUN;
}

/* Puts the summaries of all composites into the area, of 31 * 176 words, the k-th composite's at place k, and the sets of the whole plan into `sets`: those under 1, 9, 13
   and 14. */
void summarise(const struct layout *p, word *area, word sets[WORDS]);

#endif
