/* A process is asked to take entries from the front of those that its leaves have in a run. What it takes is determined: the first entry says which side of a choice runs, and
   no run is a proper beginning of another. The sides of a node have different leaves, so that even of a parallel each entry says whose it is. */
#include "figure.h"

/* The undo of a leaf: nothing. */
enum { DONE = HANDLER + 1 };

/* The plan's nodes, then the undos that runs leave. */
enum { MOST_PROCESSES = 8 * MOST_NODES };

struct processes {
    const struct layout *plan;
    unsigned count, form[MOST_PROCESSES], left[MOST_PROCESSES], right[MOST_PROCESSES];
    uint64_t leaves[MOST_PROCESSES];
};

static unsigned add_process(struct processes *ps, unsigned form, unsigned left, unsigned right, uint64_t leaves)
{
    unsigned i = ps->count < MOST_PROCESSES - 1 ? ps->count++ : ps->count;
    ps->form[i] = form, ps->left[i] = left, ps->right[i] = right, ps->leaves[i] = leaves;
    return i;
}

static unsigned joined(struct processes *ps, unsigned form, unsigned left, unsigned right)
{
    return add_process(ps, form, left, right, ps->leaves[left] | ps->leaves[right]);
}

/* Whether entries were taken that make a run, how many, how it ended, and its undo. */
struct taken {
    int is_run, failed;
    unsigned len, undo;
};

static const struct taken NO_RUN_TAKEN = {0, 0, 0, 0};

/* The entries from `from` on that these leaves have. */
static struct run of_leaves(const struct run *w, unsigned from, uint64_t leaves)
{
    struct run out = {0};
    for (unsigned i = from; i < w->len; i++)
        if (leaves >> w->leaf[i] & 1) {
            out.leaf[out.len] = w->leaf[i];
            out.outcome[out.len++] = w->outcome[i];
        }
    return out;
}

/* How many of the first `len` entries these leaves have. */
static unsigned count_of(const struct run *w, unsigned len, uint64_t leaves)
{
    unsigned n = 0;
    for (unsigned i = 0; i < len && i < w->len; i++)
        n += leaves >> w->leaf[i] & 1;
    return n;
}

static struct taken forward(struct processes *ps, unsigned process, const struct run *w);

static struct taken complete(struct processes *ps, unsigned process, const struct run *w);

/* The same with the undo after it where it failed, whether or not that succeeds. */
static struct taken with_undo(struct processes *ps, struct taken x, const struct run *w)
{
    if (!x.is_run || !x.failed)
        return x;
    struct run rest = of_leaves(w, x.len, ~0ull);
    struct taken u = complete(ps, x.undo, &rest);
    x.is_run = u.is_run, x.len += u.len;
    return x;
}

static struct taken complete(struct processes *ps, unsigned process, const struct run *w)
{
    return with_undo(ps, forward(ps, process, w), w);
}

static struct taken leaf(struct processes *ps, unsigned process, const struct run *w)
{
    unsigned form = ps->form[process], type = form == ACTION ? ps->plan->types[ps->left[process]] : form;
    if (w->len == 0 || w->leaf[0] != process || !(w->outcome[0] == 1 ? type != 2 : w->outcome[0] == 2 && type != 1))
        return NO_RUN_TAKEN;
    return (struct taken){1, w->outcome[0] == 2, 1, add_process(ps, DONE, 0, 0, 0)};
}

/* What both sides have taken, as one; a run where that is what w begins with. */
static struct taken both(struct taken x, uint64_t left, struct taken y, uint64_t right, const struct run *w)
{
    unsigned len = x.len + y.len;
    int first = count_of(w, len, left) == x.len && count_of(w, len, right) == y.len;
    return (struct taken){x.is_run && y.is_run && first, y.failed, len, y.undo};
}

/* What one side has taken; a run where that is what w begins with. */
static struct taken alone(struct taken x, uint64_t leaves, const struct run *w)
{
    x.is_run = x.is_run && count_of(w, x.len, leaves) == x.len;
    return x;
}

static struct taken composite(struct processes *ps, unsigned process, const struct run *w)
{
    unsigned form = ps->form[process], left = ps->left[process], right = ps->right[process];
    uint64_t of_left = ps->leaves[left], of_right = ps->leaves[right];
    struct run lefts = of_leaves(w, 0, of_left), rights = of_leaves(w, 0, of_right);
    if (form == CHOICE && w->len && of_right >> w->leaf[0] & 1)
        return alone(forward(ps, right, &rights), of_right, w);
    struct taken x = forward(ps, left, &lefts), y;
    if (form == PARALLEL) {
        y = both(x, of_left, forward(ps, right, &rights), of_right, w);
        return (struct taken){y.is_run, x.failed || y.failed, y.len, joined(ps, PARALLEL, x.undo, y.undo)};
    }
    x = alone(x, of_left, w);
    if (form == COMPENSATION && !x.failed)
        x.undo = right;
    if (form == SEQUENCE && !x.failed) {
        y = both(x, of_left, forward(ps, right, &rights), of_right, w);
        y.undo = joined(ps, SEQUENCE, y.undo, x.undo); /* from right to left */
        return y;
    }
    if (form == HANDLER && x.failed) {
        x = alone(with_undo(ps, x, &lefts), of_left, w);
        return both(x, of_left, forward(ps, right, &rights), of_right, w);
    }
    return x;
}

static struct taken forward(struct processes *ps, unsigned process, const struct run *w)
{
    unsigned form = ps->form[process];
    if (form == DONE)
        return (struct taken){1, 0, 0, process};
    return form < SEQUENCE ? leaf(ps, process, w) : composite(ps, process, w);
}

int is_complete_run(const struct layout *p, const struct run *w)
{
    struct processes ps;
    ps.plan = p, ps.count = 0;
    for (unsigned i = 0; i < p->node_count; i++) {
        const uint8_t *n = p->nodes + 3 * i;
        if (n[0] < SEQUENCE)
            add_process(&ps, n[0], n[1], n[2], 1ull << i);
        else
            joined(&ps, n[0], n[1], n[2]);
    }
    struct taken x = complete(&ps, p->node_count - 1, w);
    return x.is_run && x.len == w->len;
}
