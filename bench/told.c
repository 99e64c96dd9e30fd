/* The fold over the nodes: a node's cells, one for its forward run, one for its undo and one for that one's undo, from those of its sides. */
#include "told.h"

enum ended { OPEN, SUCCEEDED, FAILED };

/* Where a process stands: nothing to run, or whether it has begun, how it has ended, and which leaves may come next in it. */
struct cell {
    int empty, begun;
    enum ended ended;
    uint64_t next;
};

struct cells {
    struct cell forward, undo, again;
};

struct told {
    enum ended ended;
    uint64_t next;
};

static const struct cell NOTHING = {1, 0, SUCCEEDED, 0};

static int node_begun(unsigned form, int x, int y)
{
    return form == COMPENSATION || form == HANDLER ? x : x || y;
}

static enum ended node_ended(unsigned form, enum ended x, enum ended y, int y_begun)
{
    switch (form) {
    case SEQUENCE:
        return x == SUCCEEDED ? y : x;
    case PARALLEL: /* both begin, so both have to end */
        return x == SUCCEEDED ? y : x == FAILED && y != OPEN ? FAILED : OPEN;
    case CHOICE:
        return y_begun ? y : x;
    case COMPENSATION:
        return x;
    default:
        return x == FAILED ? y : x;
    }
}

static int left_may(unsigned form, int y_begun)
{
    return form == PARALLEL || form == COMPENSATION || !y_begun;
}

/* x_over: the left has failed and its undo has ended. */
static int right_may(unsigned form, enum ended x, int x_begun, int x_over)
{
    switch (form) {
    case SEQUENCE:
        return x == SUCCEEDED;
    case PARALLEL:
        return 1;
    case CHOICE:
        return !x_begun;
    case COMPENSATION:
        return 0;
    default:
        return x_over;
    }
}

static struct cell node_cell(unsigned form, struct cell x, struct cell y, uint64_t x_next, int x_over)
{
    uint64_t left = left_may(form, y.begun) ? x_next : 0, right = right_may(form, x.ended, x.begun, x_over) ? y.next : 0;
    return (struct cell){0, node_begun(form, x.begun, y.begun), node_ended(form, x.ended, y.ended, y.begun), left | right};
}

/* Two undos as one. */
static struct cell join_cell(unsigned form, struct cell x, struct cell y)
{
    if (x.empty)
        return y;
    if (y.empty)
        return x;
    return node_cell(form, x, y, x.next, 0);
}

/* A process with its undo, from what is told of that. */
static struct told with_undo(struct cell a, int undo_begun, struct told undo)
{
    uint64_t first = undo_begun ? 0 : a.next, then = a.ended == FAILED ? undo.next : 0;
    return (struct told){a.ended == FAILED && undo.ended == OPEN ? OPEN : a.ended, first | then};
}

/* Of the whole process, run with its undo, and that with its own. */
static struct told tell(const struct cells *a)
{
    struct told undo = with_undo(a->undo, a->again.begun, (struct told){a->again.ended, a->again.next});
    return with_undo(a->forward, a->undo.begun, undo);
}

static struct cells node_cells(unsigned form, const struct cells *a, const struct cells *b)
{
    struct told left = tell(a);
    int succeeded = a->forward.ended == SUCCEEDED;
    uint64_t next = form == HANDLER ? left.next : a->forward.next;
    struct cell forward = node_cell(form, a->forward, b->forward, next, left.ended == FAILED);
    switch (form) {
    case PARALLEL:
        return (struct cells){forward, join_cell(PARALLEL, a->undo, b->undo), join_cell(PARALLEL, a->again, b->again)};
    case COMPENSATION:
        return (struct cells){forward, succeeded ? b->forward : a->undo, succeeded ? b->undo : a->again};
    case HANDLER:
        return (struct cells){forward, succeeded ? a->undo : b->undo, succeeded ? a->again : b->again};
    default: /* a sequence, or a choice of which one side did not run: undone from right to left, and that from left to right */
        return (struct cells){forward, join_cell(SEQUENCE, b->undo, a->undo), join_cell(SEQUENCE, a->again, b->again)};
    }
}

static struct cells leaf_cells(unsigned n, unsigned outcome)
{
    if (outcome == FREE)
        return (struct cells){{0, 0, OPEN, 1ull << n}, NOTHING, NOTHING};
    return (struct cells){{0, 1, outcome == HAS_FINISHED ? SUCCEEDED : FAILED, 0}, NOTHING, NOTHING};
}

uint64_t told_next(const struct layout *p, const struct table *t)
{
    struct cells cells[MOST_NODES];
    for (unsigned i = 0; i < p->node_count; i++) {
        const uint8_t *n = p->nodes + 3 * i;
        cells[i] = n[0] < SEQUENCE ? leaf_cells(i, t->at[i]) : node_cells(n[0], &cells[n[1]], &cells[n[2]]);
    }
    return tell(&cells[p->node_count - 1]).next;
}
