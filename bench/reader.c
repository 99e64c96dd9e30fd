/* The reader of plan files: for each block heading (1), kind (2), length (3), body (1), contents; bytes after the last block (1) come last. */
#include "reader.h"

static unsigned types_fault(const struct layout *p)
{
    for (unsigned a = 0; a < p->actions; a++)
        if (p->types[a] < 1 || p->types[a] > 3)
            return 4;
    return 0;
}

/* Each pair beside every pair: no pair is there twice, and no action is first in more than three pairs, or first in one and second in any. */
static unsigned pairs_fault(const struct layout *p)
{
    for (unsigned i = 0; i < p->pair_count; i++) {
        unsigned action = p->pairs[2 * i], undo = p->pairs[2 * i + 1];
        if (action >= p->actions || undo >= p->actions)
            return 5;
        unsigned undos = 0;
        for (unsigned j = 0; j < p->pair_count; j++) {
            unsigned first = p->pairs[2 * j], second = p->pairs[2 * j + 1];
            if (action == second || (i != j && action == first && undo == second))
                return 5;
            undos += action == first;
        }
        if (undos > MOST_UNDOS)
            return 5;
    }
    return 0;
}

static int node_ok(const uint8_t *n, unsigned i, unsigned actions)
{
    if (n[0] == ACTION)
        return n[1] < actions && n[2] == 0;
    if (n[0] < SEQUENCE)
        return n[1] == 0 && n[2] == 0;
    return n[0] <= HANDLER && n[1] < i && n[2] < i;
}

/* How often node j is named. */
static unsigned times_named(const struct layout *p, unsigned j)
{
    unsigned times = 0;
    for (unsigned i = 0; i < p->node_count; i++) {
        const uint8_t *n = p->nodes + 3 * i;
        if (n[0] >= SEQUENCE)
            times += (n[1] == j) + (n[2] == j);
    }
    return times;
}

/* The levels of undos at a node, from those at the nodes before it. */
static unsigned levels_of(const uint8_t *n, const uint8_t *levels)
{
    if (n[0] < SEQUENCE)
        return 0;
    unsigned left = levels[n[1]], right = levels[n[2]] + (n[0] == COMPENSATION);
    return left < right ? right : left;
}

/* Forms first (6), then naming (7), then levels of undos (8). */
static unsigned nodes_fault(struct layout *p)
{
    for (unsigned i = 0; i < p->node_count; i++)
        if (!node_ok(p->nodes + 3 * i, i, p->actions))
            return 6;
    for (unsigned j = 0; j + 1 < p->node_count; j++)
        if (times_named(p, j) != 1)
            return 7;
    uint8_t levels[MOST_NODES];
    for (unsigned i = 0; i < p->node_count; i++)
        levels[i] = levels_of(p->nodes + 3 * i, levels);
    p->levels = levels[p->node_count - 1];
    return p->levels > MOST_LEVELS ? 8 : 0;
}

static unsigned rule_fault(const struct layout *p)
{
    unsigned depth = 0;
    for (unsigned i = 0; i < p->rule_len; i++) {
        unsigned t = p->rule[i];
        unsigned takes = t < p->actions ? 0 : t == NOT ? 1 : t == AND || t == OR ? 2 : MOST_RULE + 1;
        if (depth < takes)
            return 9;
        depth += 1 - takes;
    }
    return depth == 1 ? 0 : 9;
}

static int length_ok(unsigned kind, unsigned len)
{
    switch (kind) {
    case 1:
        return len >= 1 && len <= MOST_ACTIONS;
    case 2:
        return len % 2 == 0 && len <= 2 * MOST_PAIRS;
    case 3:
        return len % 3 == 0 && len >= 3 && len <= 3 * MOST_NODES;
    default:
        return len >= 1 && len <= MOST_RULE;
    }
}

static unsigned body_fault(struct layout *p, unsigned kind, const uint8_t *body, unsigned len)
{
    switch (kind) {
    case 1:
        p->types = body, p->actions = len;
        return types_fault(p);
    case 2:
        p->pairs = body, p->pair_count = len / 2;
        return pairs_fault(p);
    case 3:
        p->nodes = body, p->node_count = len / 3;
        return nodes_fault(p);
    default:
        p->rule = body, p->rule_len = len;
        return rule_fault(p);
    }
}

unsigned read_plan(const uint8_t *file, size_t len, struct layout *out)
{
    size_t left = len;
    out->levels = 0;
    for (unsigned kind = 1; kind <= 4; kind++) {
        if (left < 4)
            return 1;
        unsigned body_len = file[0] | file[1] << 8;
        if ((unsigned)(file[2] | file[3] << 8) != kind)
            return 2;
        if (!length_ok(kind, body_len))
            return 3;
        file += 4, left -= 4;
        if (left < body_len)
            return 1;
        unsigned fault = body_fault(out, kind, file, body_len);
        if (fault)
            return fault;
        file += body_len, left -= body_len;
    }
    return left ? 1 : 0;
}
