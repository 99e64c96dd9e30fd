/* Plan files: the writer, the random plans and the damage. */
#include "plans.h"

#include <string.h>

#include "summary.h"

void add_pair(struct plan *p, unsigned action, unsigned undo)
{
    p->pairs[2 * p->pair_count] = action;
    p->pairs[2 * p->pair_count + 1] = undo;
    p->pair_count++;
}

unsigned add_node(struct plan *p, unsigned form, unsigned left, unsigned right)
{
    uint8_t *n = p->nodes + 3 * p->node_count;
    n[0] = form, n[1] = left, n[2] = right;
    return p->node_count++;
}

unsigned add_action(struct plan *p, unsigned action)
{
    return add_node(p, ACTION, action, 0);
}

void add_rule(struct plan *p, const uint8_t *bytes, unsigned len)
{
    memcpy(p->rule + p->rule_len, bytes, len);
    p->rule_len += len;
}

static void write_block(struct plan_file *out, unsigned kind, const uint8_t *body, unsigned len)
{
    uint8_t *at = out->bytes + out->len;
    at[0] = len, at[1] = len >> 8, at[2] = kind, at[3] = 0;
    memcpy(at + 4, body, len);
    out->len += 4 + len;
}

void write_plan(const struct plan *p, struct plan_file *out)
{
    out->len = 0;
    write_block(out, 1, p->types, p->actions);
    write_block(out, 2, p->pairs, 2 * p->pair_count);
    write_block(out, 3, p->nodes, 3 * p->node_count);
    write_block(out, 4, p->rule, p->rule_len);
}

/* splitmix64 */
uint64_t next_random(uint64_t *state)
{
    uint64_t z = *state += 0x9e3779b97f4a7c15;
    z = (z ^ z >> 30) * 0xbf58476d1ce4e5b9;
    z = (z ^ z >> 27) * 0x94d049bb133111eb;
    return z ^ z >> 31;
}

unsigned below(uint64_t *state, unsigned n)
{
    return (unsigned)((next_random(state) >> 32) * n >> 32);
}

/* The numbers below n, in any order. */
static void shuffled(uint64_t *state, unsigned n, unsigned *out)
{
    for (unsigned i = 0; i < n; i++) {
        unsigned j = below(state, i + 1);
        out[i] = out[j];
        out[j] = i;
    }
}

/* Some actions are first, each with up to so many of the others as its undos; now and then with as many as can be, 21 in all. */
static void random_pairs(uint64_t *state, struct plan *p)
{
    unsigned order[MOST_ACTIONS] = {0}, crossed[MOST_ACTIONS * MOST_ACTIONS / 4] = {0}, wanted[MOST_ACTIONS];
    unsigned n = p->actions, many = n > PLAN_UNDOS && below(state, 6) == 0;
    unsigned firsts = many ? n - PLAN_UNDOS : below(state, 2) ? below(state, n) : below(state, n / 2 + 1), seconds = n - firsts;
    for (unsigned i = 0; i < firsts; i++)
        wanted[i] = many ? PLAN_UNDOS : below(state, PLAN_UNDOS + 1);
    shuffled(state, n, order);
    /* each first beside each second */
    shuffled(state, firsts * seconds, crossed);
    for (unsigned k = 0; k < firsts * seconds; k++) {
        unsigned i = crossed[k] / seconds;
        if (wanted[i]) {
            wanted[i]--;
            add_pair(p, order[i], order[firsts + crossed[k] % seconds]);
        }
    }
}

static unsigned random_leaf(uint64_t *state, struct plan *p)
{
    unsigned k = below(state, 8);
    return k < 2 ? add_node(p, SKIP + k, 0, 0) : add_action(p, below(state, p->actions));
}

/* Leaves come in one by one, and at any time two of the processes made so far are joined to one. Compensations are nested up to so deep. */
static void random_nodes(uint64_t *state, struct plan *p, unsigned leaves, unsigned most)
{
    unsigned open[32], n = 0, levels[MOST_NODES] = {0};
    unsigned eager = 1 + below(state, 4), parallel = below(state, 3) == 0;
    while (leaves || n > 1) {
        if (n < 2 || (leaves && below(state, 5) >= eager)) {
            open[n++] = random_leaf(state, p);
            leaves--;
            continue;
        }
        unsigned i = below(state, n), l = open[i];
        open[i] = open[--n];
        unsigned j = below(state, n), r = open[j];
        unsigned form = parallel && below(state, 2) ? PARALLEL : SEQUENCE + below(state, 5);
        if (form == COMPENSATION && levels[r] == most)
            form = HANDLER;
        if (form == PARALLEL && !PLAN_PARALLELS)
            form = SEQUENCE;
        unsigned right = levels[r] + (form == COMPENSATION);
        open[j] = add_node(p, form, l, r);
        levels[open[j]] = levels[l] < right ? right : levels[l];
    }
}

/* From the top down, with compensations nested up to so deep, most of which have the larger side as their undo. Where the process is to fail, that mostly comes last, so
   that much is undone; and many undos are to fail. */
static unsigned undone_nodes(uint64_t *state, struct plan *p, unsigned leaves, unsigned most, int fails)
{
    static const uint8_t forms[] = {SEQUENCE, SEQUENCE, PARALLEL, CHOICE, HANDLER, COMPENSATION, COMPENSATION, COMPENSATION, COMPENSATION, COMPENSATION};
    if (leaves == 1)
        return fails ? add_node(p, THROW, 0, 0) : random_leaf(state, p);
    unsigned form = fails && below(state, 4) ? SEQUENCE : forms[below(state, most ? 10 : 5)], left = 1 + below(state, leaves - 1), l, r;
    int first = form == HANDLER && below(state, 2), second = form == COMPENSATION ? below(state, 3) > 0 : fails;
    if (form == SEQUENCE && fails)
        left = leaves - 1;
    if (form == COMPENSATION)
        left = 1 + below(state, left);
    l = undone_nodes(state, p, left, most, first);
    r = undone_nodes(state, p, leaves - left, most - (form == COMPENSATION), second);
    return add_node(p, form == PARALLEL && !PLAN_PARALLELS ? SEQUENCE : form, l, r);
}

/* Of up to `values` values. A third of them end in "or a or not a", so that plans are consistent often enough. */
static void random_rule(uint64_t *state, struct plan *p, unsigned values)
{
    unsigned depth = 0, room = MOST_RULE - (2 * values - 1);
    unsigned yes = room >= 5 && below(state, 3) == 0;
    if (yes)
        room -= 5;
    while (values || depth > 1) {
        uint8_t t;
        if (depth < 2 || (values && below(state, 2)))
            t = below(state, p->actions), values--, depth++;
        else
            t = AND + below(state, 2), depth--;
        add_rule(p, &t, 1);
        if (room && below(state, 4) == 0) {
            t = NOT, room--;
            add_rule(p, &t, 1);
        }
    }
    if (yes) {
        uint8_t a = below(state, p->actions), or_a_or_not_a[5] = {a, a, NOT, OR, OR};
        add_rule(p, or_a_or_not_a, 5);
    }
}

void random_plan(uint64_t *state, struct plan_file *out)
{
    struct plan p = {.actions = 1 + below(state, MOST_ACTIONS)};
    for (unsigned a = 0; a < p.actions; a++) {
        unsigned k = below(state, 4);
        p.types[a] = k ? k : 3;
    }
    if (below(state, 2))
        random_pairs(state, &p);
    unsigned leaves = below(state, 8) ? 1 + below(state, 32) : 32, most = 1 + below(state, PLAN_LEVELS);
    if (below(state, 3))
        random_nodes(state, &p, leaves, most);
    else
        undone_nodes(state, &p, leaves, most, below(state, 5) > 0);
    random_rule(state, &p, below(state, 8) ? 1 + below(state, 12) : 1 + below(state, 64));
    write_plan(&p, out);
}

/* Any set of the family, which has one. */
static unsigned random_set(uint64_t *state, const word *sets)
{
    unsigned set = below(state, SETS);
    while (!family_has(sets, set))
        set = (set + 1) % SETS;
    return set;
}

void aim(uint64_t *state, struct plan_file *f)
{
    static word area[SUMMARY_WORDS * MOST_SUMMARIES];
    static const uint8_t not_and[2] = {NOT, AND};
    word sets[WORDS];
    struct layout from;
    struct plan p = {0};
    if (read_plan(f->bytes, f->len, &from))
        return;
    summarise(&from, area, sets);
    unsigned set = random_set(state, sets);
    p.actions = from.actions, p.node_count = from.node_count;
    memcpy(p.types, from.types, from.actions);
    memcpy(p.nodes, from.nodes, 3 * from.node_count);
    for (uint8_t a = 0; a < p.actions; a++) {
        add_rule(&p, &a, 1);
        add_rule(&p, not_and, !(set >> a & 1));
        add_rule(&p, not_and + 1, a > 0);
    }
    add_rule(&p, not_and, 1);
    write_plan(&p, f);
}

/* Where the heading of block k, 0 to 3, of a whole file stands; of a broken one, an earlier one. */
static size_t heading_of(const struct plan_file *f, unsigned k)
{
    size_t at = 0;
    for (; k > 0; k--) {
        size_t next = at + 4 + (f->bytes[at] | f->bytes[at + 1] << 8);
        if (next + 4 > f->len)
            break;
        at = next;
    }
    return at;
}

/* As many pairs as there could be where an action had one undo at most. */
enum { FEW_PAIRS = 9 };

static int has_parallel(const struct plan_file *f)
{
    struct layout p;
    if (read_plan(f->bytes, f->len, &p))
        return 0;
    for (unsigned i = 0; i < p.node_count; i++)
        if (p.nodes[3 * i] == PARALLEL)
            return 1;
    return 0;
}

static int pairs_alike(const struct plan_file *f)
{
    const uint8_t *heading = f->bytes + heading_of(f, 1), *pairs = heading + 4, *end = f->bytes + f->len;
    unsigned len = heading[0] | heading[1] << 8;
    if (len > 2 * FEW_PAIRS)
        return len > 2 * MOST_PAIRS;
    for (unsigned i = 0; i < len && pairs + i + 1 < end; i += 2)
        for (unsigned j = 0; j < i; j += 2)
            if (pairs[j] == pairs[i] && pairs[j + 1] != pairs[i + 1])
                return 0;
    return 1;
}

int is_nested(const struct plan_file *f)
{
    struct layout p;
    read_plan(f->bytes, f->len, &p);
    return p.levels == MOST_LEVELS;
}

int is_asked(const struct plan_file *f)
{
    return (PLAN_UNDOS > 1 || pairs_alike(f)) && (PLAN_PARALLELS || !has_parallel(f)) && (PLAN_LEVELS > 1 || !is_nested(f));
}

/* A byte of the body of block k; a byte anywhere where it has none. */
static size_t random_in_body(uint64_t *state, const struct plan_file *f, unsigned k)
{
    size_t heading = heading_of(f, k), len = f->bytes[heading];
    return len && heading + 4 + len <= f->len ? heading + 4 + below(state, len) : below(state, f->len);
}

void damage(uint64_t *state, struct plan_file *f)
{
    static const uint8_t telling[] = {0, 1, 2, 3, 4, 5, 6, 7, 8, 9, 10, 62, 63, 127, NOT, AND, OR, 0x83, 255};
    if (f->len < 4)
        return;
    uint8_t *b = f->bytes;
    size_t at = below(state, f->len), heading = heading_of(f, below(state, 4));
    switch (below(state, 11)) {
    case 0:
        b[at] = next_random(state);
        break;
    case 1:
        b[at] ^= 1u << below(state, 8);
        break;
    case 2: /* a byte that means something somewhere */
        b[at] = telling[below(state, sizeof telling)];
        break;
    case 3: /* a pair's byte */
        b[random_in_body(state, f, 1)] = below(state, 11);
        break;
    case 4: /* a node's byte */
        b[random_in_body(state, f, 2)] = below(state, 11);
        break;
    case 5: { /* every composite from some node on turned into a compensation, if any are there */
        size_t nodes = heading_of(f, 2) + 4;
        for (size_t n = nodes + 3 * below(state, MOST_NODES); n + 2 < f->len && n < nodes + b[nodes - 4]; n += 3)
            if (b[n] >= SEQUENCE)
                b[n] = COMPENSATION;
        break;
    }
    case 6:
        f->len = at;
        break;
    case 7:
        for (unsigned k = 1 + below(state, 8); k > 0 && f->len < sizeof f->bytes; k--)
            b[f->len++] = next_random(state);
        break;
    case 8: /* a length moved, the body as it was */
        b[heading] += below(state, 2) ? 1 + below(state, 3) : -1 - below(state, 3);
        break;
    case 9: /* a length of 256 more, or another kind */
        b[heading + 1 + below(state, 3)] = below(state, 6);
        break;
    default: { /* two bytes exchanged */
        size_t other = below(state, f->len);
        uint8_t t = b[at];
        b[at] = b[other];
        b[other] = t;
    }
    }
}

void random_file(uint64_t *state, struct plan_file *f)
{
    random_plan(state, f);
    if (below(state, 3) == 0)
        aim(state, f);
    if (below(state, 5) < 2)
        for (unsigned k = 1 + below(state, 2); k > 0; k--)
            damage(state, f);
}
