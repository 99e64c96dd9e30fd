/* The plainest run, entry by entry: the first that may come after which the fewest failures can still be had. */
#include "shown.h"

#include <string.h>

#include "search.h"
#include "told.h"

enum { RUN = 126 };

struct entry {
    unsigned leaf, outcome;
};

/* Whether some run that goes on with the entry leaves the set with as few failures as any. */
static int leads_on(const struct layout *p, unsigned set, const struct table *t, struct entry e, unsigned failures)
{
    struct table with = *t;
    with.at[e.leaf] = e.outcome;
    return fewest(p, set, &with, failures + 1) == failures;
}

/* The first entry that leads on, of the leaves that may come next; an outcome 0 where there is none. */
static struct entry next_entry(const struct layout *p, unsigned set, const struct table *t, uint64_t next, unsigned failures)
{
    for (unsigned n = 0; n < p->node_count; n++)
        for (unsigned outcome = HAS_FINISHED; outcome <= HAS_FAILED; outcome++)
            if (next >> n & 1 && leads_on(p, set, t, (struct entry){n, outcome}, failures))
                return (struct entry){n, outcome};
    return (struct entry){0, 0};
}

void show_run(const struct layout *p, unsigned set, uint8_t *record)
{
    struct table t = {{0}};
    unsigned failures = fewest(p, set, &t, NO_RUN);
    memset(record, 0, RUN);
    for (unsigned at = 0; at < RUN; at += 2) {
        uint64_t next = told_next(p, &t);
        if (!next)
            return;
        struct entry e = next_entry(p, set, &t, next, failures);
        t.at[e.leaf] = e.outcome;
        record[at] = e.leaf, record[at + 1] = e.outcome;
    }
}
