/* The named cases: plans from the report, plans with as many sets as there can be, and plans whose run is hard to find. */
#ifndef CASES_H
#define CASES_H

#include "plans.h"

/* A plan in words. Types and pairs: a digit for each byte. Process and rule are in postfix order, blanks ignored, and a digit is an action;
   process: s skip, t throw, ; sequence, | parallel, + choice, / compensation, > handler; rule: ! not, & and, | or. */
struct named_case {
    const char *name, *types, *pairs, *process, *rule;
};

extern const struct named_case CASES[];
extern const unsigned CASE_COUNT;

/* The plan file; 0 where the words say none. */
int write_case(const struct named_case *c, struct plan_file *out);

#endif
