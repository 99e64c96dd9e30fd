/* The product of two families, by whole words. */
#include "family.h"

#include <string.h>

const uint64_t HIGH[6] = {
    0xaaaaaaaaaaaaaaaa, 0xcccccccccccccccc, 0xf0f0f0f0f0f0f0f0,
    0xff00ff00ff00ff00, 0xffff0000ffff0000, 0xffffffff00000000,
};

/* The empty set alone. */
static int is_unit(const word *f)
{
    if (f[0] != 1)
        return 0;
    for (unsigned i = 1; i < WORDS; i++)
        if (f[i])
            return 0;
    return 1;
}

/* The sets of a word with x, for each x below 64: the table is doubled action by action. */
static void spreads(uint64_t w, uint64_t table[64])
{
    table[0] = w;
    for (unsigned k = 0; k < 6; k++) {
        unsigned n = 1u << k;
        for (unsigned j = 0; j < n; j++)
            table[n + j] = (table[j] | table[j] << n) & HIGH[k];
    }
}

/* The words of the table at the bits of u. */
static uint64_t picked(uint64_t u, const uint64_t table[64])
{
    uint64_t r = 0;
    for (unsigned x = 0; x < 64; x++)
        if (u >> x & 1)
            r |= table[x];
    return r;
}

/* Joins to r the unions of a set of a and a set of w, which is word i of a family. */
static void grow(word *r, const word *a, uint64_t w, unsigned i)
{
    uint64_t table[64];
    spreads(w, table);
    for (unsigned h = 0; h < WORDS; h++)
        if (a[h])
            r[h | i] |= picked(a[h], table);
}

void family_product(word *out, const word *a, const word *b)
{
    memset(out, 0, WORDS * sizeof *out);
    if (family_is_empty(a))
        return;
    if (is_unit(a)) {
        memcpy(out, b, WORDS * sizeof *out);
        return;
    }
    if (is_unit(b)) {
        memcpy(out, a, WORDS * sizeof *out);
        return;
    }
    for (unsigned i = 0; i < WORDS; i++)
        if (b[i])
            grow(out, a, b[i], i);
}
