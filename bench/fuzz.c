/* Random plans, good and damaged, and lent areas of any size: the proved verdict and the C one must answer the same, and leave the same in
   every lent byte and in those past them; compiled with BEFORE, another build of the proved one too, but for the run that it shows and for plans with undos of undos that it
   refuses; with ALIKE, files that an earlier one answers alike (plans.h). fuzz [COUNT [SEED]]; it ends with 1 at the first disagreement, which it prints. */
#include <stdio.h>
#include <stdlib.h>
#include <string.h>

#include "cases.h"
#include "check.h"
#include "verdict.h"

/* A file, and how much of the two areas is lent with it. */
struct trial {
    struct plan_file file;
    size_t work_len, record_len;
};

static struct answer before, proved, other;
static unsigned long consistent, violated, nested, entries, refused[16];

static void ask(verdict_fn *f, const struct trial *t, struct answer *a)
{
    memcpy(a, &before, sizeof before);
    a->result = f(t->file.bytes, t->file.len, a->work, t->work_len, a->record, t->record_len);
}

static void print_hex(const char *what, const uint8_t *b, size_t n)
{
    printf("%s:", what);
    for (size_t i = 0; i < n; i++)
        printf(" %02x", b[i]);
    putchar('\n');
}

static int report(const struct trial *t, const char *name, const char *fault)
{
    printf("%s\nwork area %zu, record area %zu\nproved %x, %s %x\n", fault, t->work_len, t->record_len, (unsigned)proved.result, name,
           (unsigned)other.result);
    print_hex("file", t->file.bytes, t->file.len);
    print_hex("record, proved", proved.record, RECORD_ROOM);
    print_hex("record, the other", other.record, RECORD_ROOM);
    for (size_t i = 0; i < WORK_ROOM; i++)
        if (proved.work[i] != other.work[i]) {
            printf("work areas differ first at %zu: %02x, %02x\n", i, proved.work[i], other.work[i]);
            break;
        }
    return 1;
}

/* What differs between the proved verdict and another one, whose answer is put into `other`; 0 where nothing does. */
static const char *difference(verdict_fn *f, const struct trial *t)
{
    ask(f, t, &other);
    if (proved.result != other.result)
        return "the answers differ";
    if (memcmp(proved.work, other.work, WORK_ROOM))
        return "the work areas differ";
    if (memcmp(proved.record, other.record, RECORD_ROOM))
        return "the record areas differ";
    return 0;
}

#ifdef BEFORE
/* The same of another build, which may show any run that leaves the set, and may refuse by 8 a plan in which an undo has an undo. */
static const char *difference_before(const struct trial *t)
{
    const char *fault = difference(vodjimar_before, t);
    if (other.result == REFUSED + 8 && is_nested(&t->file))
        return 0;
    if (!fault || proved.result != other.result || proved.result < VIOLATED || proved.result >= REFUSED)
        return fault;
    return answer_fault(t->file.bytes, t->file.len, &before, &other);
}
#endif

static int differ(const struct trial *t, uint64_t seed)
{
    const char *fault;
    struct plan_file kept = t->file;
    fill_areas(&before, seed);
    ask(vodjimar_verdict, t, &proved);
    if (memcmp(&kept, &t->file, sizeof kept))
        return report(t, "proved", "the file was changed");
#ifdef BEFORE
    fault = difference_before(t);
    if (fault)
        return report(t, "before", fault);
#endif
    fault = difference(plain_verdict, t);
    if (fault)
        return report(t, "C", fault);
    fault = answer_fault(t->file.bytes, t->file.len, &before, &proved);
    if (!fault)
        fault = plainness_fault(t->file.bytes, t->file.len, &proved);
    return fault ? report(t, "C", fault) : 0;
}

static void count(const struct trial *t, const struct answer *a)
{
    nested += a->result < REFUSED && is_nested(&t->file);
    if (a->result == CONSISTENT)
        consistent++;
    else if (a->result >= REFUSED)
        refused[(a->result - REFUSED) % 16]++;
    else {
        violated++;
        for (unsigned i = 0; i < RECORD && a->record[i + 1]; i += 2)
            entries++;
    }
}

/* Most areas are large enough, to the byte or with room to spare; some are not, mostly by one byte. */
static size_t random_length(uint64_t *state, size_t need, size_t room)
{
    switch (below(state, 40)) {
    case 0:
        return need - 1;
    case 1:
        return below(state, (unsigned)need);
    default:
        return below(state, 2) ? need : need + below(state, (unsigned)(room - need) + 1);
    }
}

static void random_trial(uint64_t *state, struct trial *t)
{
    do
        random_file(state, &t->file);
    while (!is_asked(&t->file));
    t->work_len = random_length(state, WORK, WORK_ROOM);
    t->record_len = random_length(state, RECORD, RECORD_ROOM);
}

int main(int argc, char **argv)
{
    unsigned long total = argc > 1 ? strtoul(argv[1], 0, 10) : 20000;
    uint64_t seed = argc > 2 ? strtoull(argv[2], 0, 10) : 1, state = seed;
    unsigned named = 0;
    struct trial t = {.work_len = WORK_ROOM, .record_len = RECORD_ROOM};

    for (unsigned k = 0; k < CASE_COUNT; k++) {
        int written = write_case(&CASES[k], &t.file);
        if (written && !is_asked(&t.file))
            continue;
        if (!written || differ(&t, k)) {
            printf("at the case %s\n", CASES[k].name);
            return 1;
        }
        named++;
    }
    for (unsigned long i = 0; i < total; i++) {
        random_trial(&state, &t);
        if (differ(&t, i)) {
            printf("at plan %lu of seed %llu\n", i, (unsigned long long)seed);
            return 1;
        }
        count(&t, &proved);
    }
    printf("%lu random plans, seed %llu, and %u named ones: no disagreement\nconsistent %lu, violated %lu with %lu entries, %lu of both with undos of undos, refused by number:",
           total, (unsigned long long)seed, named, consistent, violated, entries, nested);
    for (unsigned n = 0; n < 16; n++)
        if (refused[n])
            printf(" %u: %lu", n, refused[n]);
    putchar('\n');
    return 0;
}
