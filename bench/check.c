/* Checks of an answer that use nothing of the two verdicts but the reader of plan files. */
#include "check.h"

#include <string.h>

#include "plainer.h"
#include "verdict.h"

void fill_areas(struct answer *a, uint64_t seed)
{
    for (unsigned i = 0; i < WORK_ROOM; i++)
        a->work[i] = (seed + i) * 0x9e3779b97f4a7c15 >> 56;
    for (unsigned i = 0; i < RECORD_ROOM; i++)
        a->record[i] = (seed - i) * 0x9e3779b97f4a7c15 >> 56;
}

static int all_zero(const uint8_t *b, size_t n)
{
    while (n && *b == 0)
        b++, n--;
    return n == 0;
}

/* More than any set of ten actions. */
enum { NO_SET = 1 << MOST_ACTIONS };

/* The two values of a part of the rule, by the words of documents 01 and 02. */
struct value {
    int positive, negative;
};

static struct value literal(const struct layout *p, unsigned set, unsigned action)
{
    int a = set >> action & 1;
    unsigned undone = 0;
    for (unsigned i = 0; i < p->pair_count; i++)
        undone += p->pairs[2 * i] == action && set >> p->pairs[2 * i + 1] & 1;
    return (struct value){a && undone == 0, (!a && undone == 0) || (a && undone == 1)};
}

/* The rule as a tree, read from its end: `at` goes down past the part. */
static struct value part(const struct layout *p, unsigned set, unsigned *at)
{
    unsigned t = p->rule[--*at];
    struct value left, right;
    if (t < NOT)
        return literal(p, set, t);
    right = part(p, set, at);
    if (t == NOT)
        return (struct value){right.negative, right.positive};
    left = part(p, set, at);
    if (t == AND)
        return (struct value){left.positive && right.positive, left.negative || right.negative};
    return (struct value){left.positive || right.positive, left.negative && right.negative};
}

/* The run in a record, up to the first entry without an outcome. */
static struct run run_in(const uint8_t *record)
{
    struct run w = {0};
    for (; w.len < MOST_NODES && record[2 * w.len + 1]; w.len++)
        w.leaf[w.len] = record[2 * w.len], w.outcome[w.len] = record[2 * w.len + 1];
    return w;
}

/* The actions that finish, as a set; NO_SET where an entry names no leaf, or one that ran. */
static unsigned set_left(const struct layout *p, const struct run *w)
{
    unsigned finished = 0;
    uint64_t ran = 0;
    for (unsigned i = 0; i < w->len; i++) {
        unsigned n = w->leaf[i];
        if (n >= p->node_count || p->nodes[3 * n] >= SEQUENCE || ran >> n & 1)
            return NO_SET;
        ran |= 1ull << n;
        if (p->nodes[3 * n] == ACTION && w->outcome[i] == 1)
            finished |= 1u << p->nodes[3 * n + 1];
    }
    return finished;
}

static const char *run_fault(const struct layout *p, const uint8_t *record, unsigned set)
{
    struct run w = run_in(record);
    unsigned at = p->rule_len, left = set_left(p, &w);
    if (!all_zero(record + 2 * w.len, RECORD - 2 * w.len))
        return "the record is not 0 after the run";
    if (left == NO_SET)
        return "an entry names no leaf, or one that ran";
    if (left != set)
        return "the run leaves another set";
    if (part(p, set, &at).positive)
        return "the set satisfies the rule";
    return is_complete_run(p, &w) ? 0 : "the run is no complete run of the plan";
}

const char *plainness_fault(const uint8_t *file, size_t len, const struct answer *after)
{
    struct layout p;
    if (after->result < VIOLATED || after->result >= REFUSED || read_plan(file, len, &p) || p.node_count >= 2 * FEW_LEAVES)
        return 0;
    struct run w = run_in(after->record);
    return is_plainer_run(&p, after->result - VIOLATED, &w) ? "another run is plainer" : 0;
}

const char *answer_fault(const uint8_t *file, size_t len, const struct answer *before, const struct answer *after)
{
    struct layout p;
    if (after->result >= REFUSED) {
        if (memcmp(before->work, after->work, WORK_ROOM) || memcmp(before->record, after->record, RECORD_ROOM))
            return "refused, and a lent byte changed";
        return 0;
    }
    if (memcmp(before->work + WORK, after->work + WORK, WORK_ROOM - WORK))
        return "a byte past the work area changed";
    if (memcmp(before->record + RECORD, after->record + RECORD, RECORD_ROOM - RECORD))
        return "a byte past the record area changed";
    if (!all_zero(after->work, WORK))
        return "the work area is not 0";
    if (after->result == CONSISTENT)
        return all_zero(after->record, RECORD) ? 0 : "consistent, and the record is not 0";
    if (read_plan(file, len, &p))
        return "a verdict on what is no plan";
    return run_fault(&p, after->record, after->result - VIOLATED);
}
