/* Times the proved verdict and the C one on each named case, and prints a table (Markdown) of their times and ratio. Compiled with BEFORE it
   times another build of the proved one too, and prints its times and the ratio to them; a case of which the other build has another verdict or set is told
   and left out, one of which it shows another run is not.

   What is timed: one whole verdict, from the file's bytes to the answer: reading and checking the file, the summaries, the least violating
   set, the run that is shown, and clearing the work area. Both get the same file and the same two lent areas, which the call before left as
   a verdict leaves them, so neither is cleared in between. It is processor time, since other work may share the machine. A round repeats one
   verdict and then the next for some 12 ms each; the times are the medians over the rounds, the ratio the median of the rounds' ratios. */
#include <stdio.h>
#include <stdlib.h>
#include <string.h>

#include "cases.h"
#include "summary.h"
#include "timing.h"
#include "verdict.h"

static uint8_t work[WORK], record[RECORD];

/* Microseconds for one call, over `times` calls. */
static double round_of(verdict_fn *f, const struct plan_file *plan, unsigned times)
{
    double start = microseconds();
    for (unsigned i = 0; i < times; i++)
        f(plan->bytes, plan->len, work, sizeof work, record, sizeof record);
    return (microseconds() - start) / times;
}

/* How many calls make a round. */
static unsigned times_for(verdict_fn *f, const struct plan_file *plan)
{
    unsigned times = 1;
    double each;
    while ((each = round_of(f, plan, times)) * times < ROUND_MICROSECONDS / 4)
        times *= 2;
    return 1 + (unsigned)(ROUND_MICROSECONDS / each);
}

static unsigned size_of(const word *f)
{
    unsigned n = 0;
    for (unsigned set = 0; set < SETS; set++)
        n += family_has(f, set);
    return n;
}

/* The number of the plan's sets, and how many of its families have all 1,024 sets, at the node with the most and in all. */
static unsigned set_count(const struct plan_file *f, unsigned *most_full, unsigned *full)
{
    struct layout p;
    word *area = (word *)work, sets[WORDS];
    *most_full = *full = 0;
    if (read_plan(f->bytes, f->len, &p))
        return 0;
    summarise(&p, area, sets);
    for (unsigned k = 0; k < p.node_count / 2; k++) {
        unsigned here = 0;
        for (unsigned i = 0; i < FAMILIES; i++)
            here += size_of(area + SUMMARY_WORDS * k + WORDS * i) == SETS;
        *most_full = here > *most_full ? here : *most_full;
        *full += here;
    }
    memset(work, 0, sizeof work);
    return size_of(sets);
}

struct version {
    const char *name;
    verdict_fn *f;
};

static const struct version VERSIONS[] = {
    {"proved", vodjimar_verdict},
    {"C", plain_verdict},
#ifdef BEFORE
    {"before", vodjimar_before},
#endif
};

enum { VERSION_COUNT = sizeof VERSIONS / sizeof *VERSIONS };

/* Whether all versions give the same verdict and set, which are put into `first`: times of different ones compare nothing. The program ends where the proved
   one and the C one differ in these, or in the run. */
static int same_answer(const char *name, const struct plan_file *f, uint32_t *first)
{
    uint8_t first_record[RECORD];
    *first = VERSIONS[0].f(f->bytes, f->len, work, sizeof work, record, sizeof record);
    memcpy(first_record, record, sizeof record);
    for (unsigned v = 1; v < VERSION_COUNT; v++) {
        uint32_t answer = VERSIONS[v].f(f->bytes, f->len, work, sizeof work, record, sizeof record);
        int plain = VERSIONS[v].f == plain_verdict;
        if (answer == *first && (!plain || !memcmp(first_record, record, sizeof record)))
            continue;
        fprintf(stderr, "%s: proved and %s answer differently, %x and %x\n", name, VERSIONS[v].name, (unsigned)*first, (unsigned)answer);
        if (plain)
            exit(1);
        return 0;
    }
    return 1;
}

static void print_verdict(uint32_t v)
{
    if (v == CONSISTENT)
        printf("consistent");
    else if (v < REFUSED)
        printf("violated %u", (unsigned)(v - VIOLATED));
    else
        printf("refused %u", (unsigned)(v - REFUSED));
}

int main(void)
{
    printf("| case | sets | verdict | proved, us");
    for (unsigned v = 1; v < VERSION_COUNT; v++)
        printf(" | %s, us | ratio", VERSIONS[v].name);
    printf(" |\n|---|---|---|---%s|---|---|\n", VERSION_COUNT > 2 ? "|---|---" : "");
    for (unsigned k = 0; k < CASE_COUNT; k++) {
        struct plan_file f;
        if (!write_case(&CASES[k], &f)) {
            printf("%s is no plan\n", CASES[k].name);
            return 1;
        }
        uint32_t answer;
        if (!same_answer(CASES[k].name, &f, &answer))
            continue;
        double time[VERSION_COUNT][ROUNDS], ratio[VERSION_COUNT][ROUNDS];
        unsigned times[VERSION_COUNT];
        for (unsigned v = 0; v < VERSION_COUNT; v++)
            times[v] = times_for(VERSIONS[v].f, &f);
        for (unsigned r = 0; r < ROUNDS; r++)
            for (unsigned v = 0; v < VERSION_COUNT; v++) {
                time[v][r] = round_of(VERSIONS[v].f, &f, times[v]);
                ratio[v][r] = time[0][r] / time[v][r];
            }
        unsigned most_full, full, sets = set_count(&f, &most_full, &full);
        printf("| %s | %u | ", CASES[k].name, sets);
        if (full)
            fprintf(stderr, "%s: %u full families, up to %u at a node, counted\n", CASES[k].name, full, most_full);
        print_verdict(answer);
        printf(" | %.2f", median(time[0]));
        for (unsigned v = 1; v < VERSION_COUNT; v++)
            printf(" | %.2f | %.2f", median(time[v]), median(ratio[v]));
        printf(" |\n");
        fflush(stdout);
    }
    return 0;
}
