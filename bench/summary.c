/* The fold over the nodes: a leaf's summary from its type, where it is needed, a composite's by the outcome chart. */
#include "summary.h"

#include <string.h>

const uint64_t CHART[5 * CODES] = {
    /* sequence */
    0x1, 0xfe0000087000020, 0xa000000300, 0xcb0000054000, 0xc000000500,
    0x0, 0xfe0000087000, 0xf000000800, 0x0, 0xa,
    0xb, 0xc, 0x0, 0xe, 0xf,
    /* parallel */
    0x1, 0x20, 0xa000000300, 0xfe0cb0087054000, 0xff0cc0088055000,
    0x0, 0xfe0fe0087087000, 0xff0ff0088088000, 0x0, 0xa000000a00,
    0xfe0cb00fe0cb000, 0xff0cc00ff0cc000, 0x0, 0xfe0fe00fe0fe000, 0xff0ff00ff0ff000,
    /* choice */
    0xfe0cba087054321, 0x2, 0x3, 0x4, 0x5,
    0x0, 0x7, 0x8, 0x0, 0xa,
    0xb, 0xc, 0x0, 0xe, 0xf,
    /* compensation */
    0x1, 0x80007005000432, 0x0, 0x0, 0x0,
    0x0, 0x0, 0x0, 0x0, 0xa,
    0xb, 0xc, 0x0, 0xe, 0xf,
    /* handler */
    0x1, 0x2, 0x3, 0x4, 0x5,
    0x0, 0x7, 0x8, 0x0, 0xfe0cba087054320,
    0x0, 0x0, 0x0, 0xfe0cba087054320, 0xfe0cba087054320,
};

const uint64_t NOT_RUN[WORDS] = {1};

const uint8_t CODE_AT[FAMILIES] = {1, 2, 3, 4, 6, 7, 9, 10, 11, 13, 14};
const uint8_t PLACE_OF[CODES] = {0, 1, 2, 3, 4, 0, 5, 6, 0, 7, 8, 9, 0, 10, 11};

static word *family_in(word *summary, unsigned code)
{
    return summary + WORDS * (PLACE_OF[code] - 1);
}

/* A leaf that may finish has its set under 1, 2 and 3, one that may fail the empty set under 9 and 10. */
static void leaf(const struct layout *p, const uint8_t *n, word *out)
{
    unsigned type = n[0] == ACTION ? p->types[n[1]] : n[0], set = n[0] == ACTION ? 1u << n[1] : 0;
    memset(out, 0, SUMMARY_WORDS * sizeof *out);
    if (type != 2)
        for (unsigned code = 1; code <= 3; code++)
            family_insert(family_in(out, code), set);
    if (type != 1)
        for (unsigned code = 9; code <= 10; code++)
            family_insert(family_in(out, code), 0);
}

/* A side of a node: its summary, and the codes under which that has sets, bit c for code c. */
struct side {
    const word *summary;
    unsigned live;
};

static unsigned live_codes(const word *summary)
{
    unsigned live = 1;
    for (unsigned k = 0; k < FAMILIES; k++)
        live |= (unsigned)!family_is_empty(summary + WORDS * k) << CODE_AT[k];
    return live;
}

/* Marks the left code under each digit of its row that stands at one of these right codes. */
static void mark(unsigned marks[16], uint64_t row, unsigned live, unsigned left)
{
    for (; row; row >>= 4, live >>= 1)
        if (live & 1)
            marks[row & 15] |= 1u << left;
}

/* The sets of the right side under the right codes that give this code beside a left code. */
static void gather(word *out, uint64_t row, unsigned code, const word *right)
{
    memset(out, 0, WORDS * sizeof *out);
    for (unsigned r = 0; r < CODES; r++)
        if ((row >> 4 * r & 15) == code + 1)
            family_join(out, family_of(right, r));
}

/* The sets of a node under a code, by the left codes that have a part in it. */
static void under(word *out, unsigned form, unsigned code, unsigned lefts, const word *left, const word *right)
{
    memset(out, 0, WORDS * sizeof *out);
    if (!lefts)
        return;
    for (unsigned l = 0; l < CODES; l++) {
        word y[WORDS], unions[WORDS];
        if (!(lefts >> l & 1))
            continue;
        gather(y, row_of(form, l), code, right);
        family_product(unions, family_of(left, l), y);
        family_join(out, unions);
    }
}

static void composite(word *out, unsigned form, struct side left, struct side right)
{
    unsigned marks[16] = {0};
    for (unsigned l = 0; l < CODES; l++)
        if (left.live >> l & 1)
            mark(marks, row_of(form, l), right.live, l);
    for (unsigned k = 0; k < FAMILIES; k++)
        under(out + WORDS * k, form, CODE_AT[k], marks[CODE_AT[k] + 1], left.summary, right.summary);
}

/* A composite's is in the area; a leaf's is made. */
static const word *summary_of(const struct layout *p, unsigned i, const word *area, const uint8_t *place, word *made)
{
    const uint8_t *n = p->nodes + 3 * i;
    if (n[0] >= SEQUENCE)
        return area + SUMMARY_WORDS * place[i];
    leaf(p, n, made);
    return made;
}

static struct side side_of(const struct layout *p, unsigned i, const word *area, const uint8_t *place, word *made)
{
    const word *summary = summary_of(p, i, area, place, made);
    return (struct side){summary, live_codes(summary)};
}

void summarise(const struct layout *p, word *area, word sets[WORDS])
{
    uint8_t place[MOST_NODES]; /* the composites before a node */
    unsigned composites = 0;
    word left[SUMMARY_WORDS], right[SUMMARY_WORDS];
    for (unsigned i = 0; i < p->node_count; i++) {
        const uint8_t *n = p->nodes + 3 * i;
        place[i] = composites;
        if (n[0] < SEQUENCE)
            continue;
        composite(area + SUMMARY_WORDS * composites++, n[0], side_of(p, n[1], area, place, left), side_of(p, n[2], area, place, right));
    }
    const word *top = summary_of(p, p->node_count - 1, area, place, left);
    for (unsigned i = 0; i < WORDS; i++)
        sets[i] = family_of(top, 1)[i] | family_of(top, 9)[i] | family_of(top, 13)[i] | family_of(top, 14)[i];
}
