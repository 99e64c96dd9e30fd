/* The fold over the nodes tells the fewest failures of a run in which no action outside the set finishes. That each action of the set does is searched for: each
   leaf of an action is tried as one that has to finish, first of that action of which the fewest leaves are left by which the fold comes below the best. */
#include "search.h"

static unsigned lesser(unsigned a, unsigned b)
{
    return a < b ? a : b;
}

/* Of the complete runs that keep to the table and finish no action outside the set. */
static unsigned fold(const struct layout *p, unsigned set, const struct table *t)
{
    struct costs costs[MOST_NODES];
    for (unsigned i = 0; i < p->node_count; i++) {
        const uint8_t *n = p->nodes + 3 * i;
        if (n[0] == ACTION)
            costs[i] = leaf_costs(p->types[n[1]], set >> n[1] & 1, t->at[i]);
        else if (n[0] < SEQUENCE)
            costs[i] = leaf_costs(n[0], 1, t->at[i]);
        else
            costs[i] = composite_costs(n[0], costs[n[1]], costs[n[2]]);
    }
    const uint8_t *top = costs[p->node_count - 1].under;
    return lesser(lesser(top[1], top[9]), lesser(top[13], top[14]));
}

static int is_leaf_of(const struct layout *p, unsigned n, unsigned action)
{
    return p->nodes[3 * n] == ACTION && p->nodes[3 * n + 1] == action;
}

/* Whether the action has still to finish: it is in the set, and no leaf of it has finished. */
static int is_due(const struct layout *p, unsigned set, const struct table *t, unsigned action)
{
    if (!(set >> action & 1))
        return 0;
    for (unsigned n = 0; n < p->node_count; n++)
        if (is_leaf_of(p, n, action) && t->at[n] == HAS_FINISHED)
            return 0;
    return 1;
}

/* The first action from `from` on that is due; the number of actions where there is none. */
static unsigned next_due(const struct layout *p, unsigned set, const struct table *t, unsigned from)
{
    while (from < p->actions && !is_due(p, set, t, from))
        from++;
    return from;
}

/* The first leaf of the action, from `from` on, that has not failed; the number of nodes where there is none. */
static unsigned next_candidate(const struct layout *p, const struct table *t, unsigned action, unsigned from)
{
    while (from < p->node_count && !(is_leaf_of(p, from, action) && t->at[from] < HAS_FAILED))
        from++;
    return from;
}

static struct table with_finished(const struct table *t, unsigned n)
{
    struct table with = *t;
    with.at[n] = HAS_FINISHED;
    return with;
}

static unsigned candidates(const struct layout *p, const struct table *t, unsigned action)
{
    unsigned many = 0;
    for (unsigned n = next_candidate(p, t, action, 0); n < p->node_count; n = next_candidate(p, t, action, n + 1))
        many++;
    return many;
}

/* How many leaves of the action bring the fold below the best. */
static unsigned leaves_left(const struct layout *p, unsigned set, const struct table *t, unsigned action, unsigned best)
{
    unsigned many = 0;
    for (unsigned n = next_candidate(p, t, action, 0); n < p->node_count; n = next_candidate(p, t, action, n + 1)) {
        struct table with = with_finished(t, n);
        many += fold(p, set, &with) < best;
    }
    return many;
}

/* An action to be tried, and how many leaves of it are left. */
struct choice {
    unsigned action, leaves;
};

/* The first action that is due and leaves no choice, for which no fold is needed; else the first with the fewest leaves left. The number of actions where none is due. */
static struct choice choose(const struct layout *p, unsigned set, const struct table *t, unsigned best)
{
    for (unsigned a = next_due(p, set, t, 0); a < p->actions; a = next_due(p, set, t, a + 1))
        if (candidates(p, t, a) < 2)
            return (struct choice){a, 1};
    struct choice c = {p->actions, MOST_NODES + 1};
    for (unsigned a = next_due(p, set, t, 0); a < p->actions; a = next_due(p, set, t, a + 1)) {
        unsigned leaves = leaves_left(p, set, t, a, best);
        if (leaves < c.leaves)
            c = (struct choice){a, leaves};
    }
    return c;
}

/* As `fewest`. `other`: the table is one of several, so that it is worth a fold to rule it out. */
static unsigned search(const struct layout *p, unsigned set, const struct table *t, int other, unsigned best)
{
    if (other && best <= fold(p, set, t))
        return best;
    struct choice c = choose(p, set, t, best);
    if (c.action == p->actions)
        return lesser(fold(p, set, t), best);
    if (c.leaves == 0)
        return best;
    int several = candidates(p, t, c.action) > 1;
    for (unsigned n = next_candidate(p, t, c.action, 0); n < p->node_count; n = next_candidate(p, t, c.action, n + 1)) {
        struct table with = with_finished(t, n);
        best = search(p, set, &with, several, best);
    }
    return best;
}

unsigned fewest(const struct layout *p, unsigned set, const struct table *t, unsigned most)
{
    return search(p, set, t, 0, most);
}
