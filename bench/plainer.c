/* All sequences of entries, each leaf at most once, but for those with more failures than the run shown. */
#include "plainer.h"

#include <string.h>

struct trial {
    const struct layout *plan;
    const struct run *shown;
    unsigned set, failures;
};

static unsigned failures_of(const struct run *w)
{
    unsigned n = 0;
    for (unsigned i = 0; i < w->len; i++)
        n += w->outcome[i] == 2;
    return n;
}

static unsigned set_of(const struct layout *p, const struct run *w)
{
    unsigned set = 0;
    for (unsigned i = 0; i < w->len; i++) {
        const uint8_t *n = p->nodes + 3 * w->leaf[i];
        if (n[0] == ACTION && w->outcome[i] == 1)
            set |= 1u << n[1];
    }
    return set;
}

static void record_of(const struct run *w, uint8_t out[2 * MOST_NODES])
{
    memset(out, 0, 2 * MOST_NODES);
    for (unsigned i = 0; i < w->len; i++)
        out[2 * i] = w->leaf[i], out[2 * i + 1] = w->outcome[i];
}

static int is_plainer(const struct trial *t, const struct run *w)
{
    uint8_t record[2 * MOST_NODES], shown[2 * MOST_NODES];
    record_of(w, record);
    record_of(t->shown, shown);
    return failures_of(w) < t->failures || memcmp(record, shown, sizeof record) < 0;
}

/* Among w and all that go on from it. */
static int some_plainer(const struct trial *t, const struct run *w, uint64_t used)
{
    if (failures_of(w) > t->failures)
        return 0;
    if (set_of(t->plan, w) == t->set && is_complete_run(t->plan, w) && is_plainer(t, w))
        return 1;
    for (unsigned n = 0; n < t->plan->node_count; n++)
        for (unsigned outcome = 1; outcome <= 2; outcome++) {
            struct run more = *w;
            if (used >> n & 1 || t->plan->nodes[3 * n] >= SEQUENCE)
                continue;
            more.leaf[more.len] = n, more.outcome[more.len++] = outcome;
            if (some_plainer(t, &more, used | 1ull << n))
                return 1;
        }
    return 0;
}

int is_plainer_run(const struct layout *p, unsigned set, const struct run *w)
{
    struct trial t = {p, w, set, failures_of(w)};
    struct run none = {0};
    return some_plainer(&t, &none, 0);
}
