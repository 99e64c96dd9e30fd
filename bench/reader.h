/* A plan file, read: where its four bodies lie. */
#ifndef READER_H
#define READER_H

#include <stddef.h>
#include <stdint.h>

enum { MOST_ACTIONS = 10, MOST_UNDOS = 3, MOST_PAIRS = 21, MOST_NODES = 63, MOST_LEVELS = 2, MOST_RULE = 127, MOST_FILE = 384 };

enum { ACTION, SKIP, THROW, SEQUENCE, PARALLEL, CHOICE, COMPENSATION, HANDLER };

enum { NOT = 0x80, AND = 0x81, OR = 0x82 };

/* levels: how many compensations stand in one another's right sides, at most. */
struct layout {
    const uint8_t *types, *pairs, *nodes, *rule;
    unsigned actions, pair_count, node_count, levels, rule_len;
};

/* 0 and the layout, or the number by which the file is refused; then `levels` is 0 where the nodes were not come to. */
unsigned read_plan(const uint8_t *file, size_t len, struct layout *out);

#endif
