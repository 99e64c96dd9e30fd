/* Plan files: building one part by part, random ones, and damage. */
#ifndef PLANS_H
#define PLANS_H

#include "reader.h"

/* The bytes of a file, which may be longer than any plan's. */
struct plan_file {
    uint8_t bytes[512];
    size_t len;
};

/* The parts of a plan that is being built. */
struct plan {
    uint8_t types[MOST_ACTIONS], pairs[2 * MOST_PAIRS], nodes[3 * MOST_NODES], rule[MOST_RULE];
    unsigned actions, pair_count, node_count, rule_len;
};

/* Each adds one thing. Those of nodes give the new node's number. */
void add_pair(struct plan *p, unsigned action, unsigned undo);
unsigned add_node(struct plan *p, unsigned form, unsigned left, unsigned right);
unsigned add_action(struct plan *p, unsigned action);
void add_rule(struct plan *p, const uint8_t *bytes, unsigned len);

void write_plan(const struct plan *p, struct plan_file *out);

/* A sequence of numbers that its seed determines. */
uint64_t next_random(uint64_t *state);
unsigned below(uint64_t *state, unsigned n);

/* How many undos an action of a random plan has at most, whether it has parallels, and how deep its compensations are nested at most. Compiled with ALIKE it has one and
   none and they are not nested, so that a version from before an action could have more, from before both sides of a parallel had to begin, or from before an undo could
   have an undo, answers alike. */
#ifdef ALIKE
enum { PLAN_UNDOS = 1, PLAN_PARALLELS = 0, PLAN_LEVELS = 1 };
#else
enum { PLAN_UNDOS = MOST_UNDOS, PLAN_PARALLELS = 1, PLAN_LEVELS = MOST_LEVELS };
#endif

/* A plan that no check refuses: 1 to 10 actions, 1 to 32 leaves, all forms, pairs and nodes in any order that the file permits. */
void random_plan(uint64_t *state, struct plan_file *out);

/* Gives a plan a rule that one of its own sets breaks, and no other, and takes its pairs away: so long runs are shown too. */
void aim(uint64_t *state, struct plan_file *f);

/* Changes a file in one place: a byte changed, cut, extended, a length moved, and so on. Most are then refused, not all. */
void damage(uint64_t *state, struct plan_file *f);

/* A random plan, a third of them aimed, two of five damaged once or twice. */
void random_file(uint64_t *state, struct plan_file *f);

/* Whether an undo of it has an undo, and none of these has one, whatever is amiss after its nodes: a version from before that could be refuses it by 8. */
int is_nested(const struct plan_file *f);

/* Whether a file, damaged or not, is one to be tried. Compiled with ALIKE it is where its pairs mean now what they meant before: no more than
   nine, or too many at any time, and no action first in two different ones; and where it is no plan with a parallel, and not nested. */
int is_asked(const struct plan_file *f);

#endif
