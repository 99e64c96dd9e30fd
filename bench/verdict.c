/* The verdict: read, fold, scan for the least violating set, show its plainest run, clear the work area. */
#include "verdict.h"

#include <string.h>

#include "shown.h"
#include "summary.h"

/* One mask of undos for each action. */
static void fill_masks(const struct layout *p, uint64_t masks[MOST_ACTIONS])
{
    memset(masks, 0, MOST_ACTIONS * sizeof *masks);
    for (unsigned i = 0; i < p->pair_count; i++)
        masks[p->pairs[2 * i]] |= 1ull << p->pairs[2 * i + 1];
}

/* Sets of a word: those that have some action of a mask, and those that have more than one. */
struct meeting {
    uint64_t some, more;
};

static struct meeting meeting(uint64_t mask, unsigned w)
{
    struct meeting met = {0, 0};
    for (; mask; mask &= mask - 1) {
        uint64_t having = family_having(__builtin_ctzll(mask), w);
        met.more |= met.some & having;
        met.some |= having;
    }
    return met;
}

/* The normalised rule at the sets 64 w + i, bit i for each. Two stacks of words in a round of 64 places: no more values stand in a rule of 127 bytes. */
static uint64_t satisfying(const uint8_t *rule, unsigned len, const uint64_t *masks, unsigned w)
{
    uint64_t pos[64] = {0}, neg[64] = {0};
    unsigned top = 0;
    for (unsigned i = 0; i < len; i++) {
        unsigned t = rule[i], below = (top + 63) % 64;
        uint64_t p = pos[top], n = neg[top];
        if (t == NOT) {
            pos[top] = n, neg[top] = p;
        } else if (t == AND || t == OR) {
            pos[top] = neg[top] = 0;
            pos[below] = t == AND ? pos[below] & p : pos[below] | p;
            neg[below] = t == AND ? neg[below] | n : neg[below] & n;
            top = below;
        } else {
            uint64_t finished = family_having(t, w);
            struct meeting undone = meeting(masks[t], w);
            top = (top + 1) % 64;
            pos[top] = finished & ~undone.some;
            neg[top] = (finished & undone.some & ~undone.more) | ~(finished | undone.some);
        }
    }
    return pos[top];
}

/* The smallest set of the family that breaks the rule; SETS where there is none. */
static unsigned least_violating(const struct layout *p, const word *sets)
{
    uint64_t masks[MOST_ACTIONS];
    fill_masks(p, masks);
    for (unsigned w = 0; w < WORDS; w++) {
        uint64_t broken = sets[w] ? sets[w] & ~satisfying(p->rule, p->rule_len, masks, w) : 0;
        if (broken)
            return 64 * w + __builtin_ctzll(broken);
    }
    return SETS;
}

uint32_t plain_verdict(const uint8_t *file, size_t file_len, uint8_t *work, size_t work_len, uint8_t *record, size_t record_len)
{
    struct layout plan;
    word *area = (word *)work;
    word sets[WORDS];
    if (work_len < WORK)
        return REFUSED + 10;
    if (record_len < RECORD)
        return REFUSED + 12;
    unsigned fault = read_plan(file, file_len, &plan);
    if (fault)
        return REFUSED + fault;

    summarise(&plan, area, sets);
    unsigned set = least_violating(&plan, sets);
    if (set < SETS)
        show_run(&plan, set, record);
    else
        memset(record, 0, RECORD);
    memset(work, 0, WORK);
    return set < SETS ? VIOLATED + set : CONSISTENT;
}
