/* A composite's costs by the rows of the outcome chart: what gives a code is the cheapest of the cells that hold it. */
#include "costs.h"

#include <string.h>

#include "summary.h"

struct costs leaf_costs(unsigned type, int may_finish, unsigned asked)
{
    uint8_t absent = asked == FREE ? 0 : NO_RUN;
    uint8_t finished = type != 2 && asked != HAS_FAILED && may_finish ? 0 : NO_RUN;
    uint8_t failed = type != 1 && asked != HAS_FINISHED ? 1 : NO_RUN;
    return (struct costs){{absent, finished, finished, finished, NO_RUN, NO_RUN, NO_RUN, NO_RUN, NO_RUN, failed, failed, NO_RUN, NO_RUN, NO_RUN, NO_RUN}};
}

struct costs composite_costs(unsigned form, struct costs l, struct costs r)
{
    struct costs out;
    memset(out.under, NO_RUN, sizeof out.under);
    for (unsigned left = 0; left < CODES; left++) {
        if (l.under[left] >= NO_RUN)
            continue;
        uint64_t row = row_of(form, left);
        for (unsigned right = 0; row; row >>= 4, right++) {
            unsigned digit = row & 15, both = l.under[left] + r.under[right];
            if (digit && both < out.under[digit - 1])
                out.under[digit - 1] = both;
        }
    }
    return out;
}
