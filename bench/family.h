/* Families of action sets: one bit for each of the 1,024 sets, in sixteen words. The low six actions say the bit, the high four the word. */
#ifndef FAMILY_H
#define FAMILY_H

#include <stdint.h>

enum { WORDS = 16, SETS = 1024 };

/* A word in the lent work area, which may lie at any address. */
typedef uint64_t word __attribute__((may_alias, aligned(1)));

static inline int family_has(const word *f, unsigned set)
{
    return f[set / 64] >> set % 64 & 1;
}

static inline void family_insert(word *f, unsigned set)
{
    f[set / 64] |= 1ull << set % 64;
}

static inline void family_join(word *out, const word *f)
{
    for (unsigned i = 0; i < WORDS; i++)
        out[i] |= f[i];
}

static inline int family_is_empty(const word *f)
{
    for (unsigned i = 0; i < WORDS; i++)
        if (f[i])
            return 0;
    return 1;
}

/* HIGH[k] has the bits whose number has bit k. */
extern const uint64_t HIGH[6];

/* The sets of word w that have the action: all or none from action 6 on. */
static inline uint64_t family_having(unsigned action, uint64_t w)
{
    if (action < 6)
        return HIGH[action];
    return w >> (action - 6) & 1 ? ~0ull : 0;
}

/* The unions of a set of a and a set of b. */
void family_product(word *out, const word *a, const word *b);

#endif
