/* A whole class against single verdicts: on random classes the call must answer, and leave in every lent byte and in those past them, what document 02 (N8) says by the single
   verdicts on their files; and it is timed against them. class [COUNT [SEED]]; it ends with 1 at the first disagreement, which it prints. The table (Markdown) goes to standard output, all
   else to standard error. */
#include <stdio.h>
#include <stdlib.h>
#include <string.h>

#include "cases.h"
#include "timing.h"
#include "verdict.h"

/* One file more than a class may have, and a margin past what is lent. */
enum { MOST = FILES + 1, MARGIN = 64, INPUT_ROOM = MOST * (2 + 512) + 2, WORK_ROOM = WORK + MARGIN, ANSWERS_ROOM = MOST * PLACE + MARGIN };

struct call {
    struct plan_file files[MOST];
    unsigned count;
    uint8_t input[INPUT_ROOM];
    size_t input_len, work_len, answers_len;
    int cut;
};

struct areas {
    uint32_t result;
    uint8_t work[WORK_ROOM], answers[ANSWERS_ROOM];
};

static struct areas before, got, due;
static unsigned long filled, places, refused[32];

static void add_file(struct call *c, const struct plan_file *f)
{
    uint8_t *at = c->input + c->input_len;
    at[0] = f->len % 256;
    at[1] = f->len / 256;
    memcpy(at + 2, f->bytes, f->len);
    c->input_len += 2 + f->len;
    c->files[c->count++] = *f;
}

/* The place of a file, by the single verdict on it in areas of its own. */
static void single(const struct plan_file *f, uint8_t *place)
{
    static uint8_t work[WORK];
    uint8_t record[RECORD] = {0};
    uint32_t v = vodjimar_verdict(f->bytes, f->len, work, sizeof work, record, sizeof record);
    unsigned n = 0;
    while (n < RECORD / 2 && record[2 * n + 1])
        n++;
    place[0] = v >= REFUSED ? 2 : v >= VIOLATED;
    place[1] = v % 65536 % 256;
    place[2] = v % 65536 / 256;
    place[3] = n;
    memcpy(place + 4, record, RECORD);
}

/* What the papers say to a call. */
static void say(const struct call *c, struct areas *a)
{
    memcpy(a, &before, sizeof before);
    if (c->work_len < WORK)
        a->result = REFUSED + 10;
    else if (c->cut || c->count > FILES)
        a->result = REFUSED + 19;
    else if (c->answers_len < PLACE * c->count)
        a->result = REFUSED + 20;
    else {
        a->result = c->count;
        memset(a->work, 0, WORK);
        for (unsigned i = 0; i < c->count; i++)
            single(&c->files[i], a->answers + PLACE * i);
    }
}

static void random_bytes(uint64_t *state, uint8_t *to, size_t n)
{
    for (size_t i = 0; i < n; i++)
        to[i] = below(state, 4) ? below(state, 256) : 0;
}

static void random_call(uint64_t *state, struct call *c)
{
    c->count = c->input_len = 0;
    c->cut = 0;
    unsigned n = below(state, 12) ? below(state, FILES + 1) : MOST;
    for (unsigned i = 0; i < n; i++) {
        struct plan_file f;
        random_file(state, &f);
        switch (below(state, 12)) {
        case 0:
            f.len = 0;
            break;
        case 1:
            random_bytes(state, f.bytes, f.len = below(state, sizeof f.bytes + 1));
            break;
        }
        add_file(c, &f);
    }
    /* a byte of a length that is cut, or a file without its last bytes: an input that begins no more files */
    if (below(state, 10) == 0) {
        if (n > 0 && c->files[n - 1].len > 0 && below(state, 2))
            c->input_len -= 1 + below(state, c->files[n - 1].len);
        else
            c->input[c->input_len++] = below(state, 256);
        c->cut = 1;
    }
    size_t need = PLACE * n;
    c->work_len = below(state, 30) ? WORK + below(state, MARGIN) : WORK - 1 - below(state, 2) * below(state, WORK);
    c->answers_len = below(state, 10) || !need ? need + below(state, ANSWERS_ROOM - need + 1) : below(state, 2) ? need - 1 : below(state, need);
}

static int report(const struct call *c, const char *fault)
{
    fprintf(stderr, "%s\n%u files, work area %zu, answer area %zu\nanswered %x, due %x\ninput:", fault, c->count, c->work_len, c->answers_len, (unsigned)got.result,
            (unsigned)due.result);
    for (size_t i = 0; i < c->input_len; i++)
        fprintf(stderr, " %02x", c->input[i]);
    fputc('\n', stderr);
    return 1;
}

static int differ(const struct call *c)
{
    static uint8_t kept[INPUT_ROOM];
    memcpy(kept, c->input, sizeof kept);
    memcpy(&got, &before, sizeof before);
    got.result = vodjimar_class(c->input, c->input_len, got.work, c->work_len, got.answers, c->answers_len);
    say(c, &due);
    if (memcmp(kept, c->input, sizeof kept))
        return report(c, "the input was changed");
    if (got.result != due.result)
        return report(c, "the answers differ");
    if (memcmp(got.work, due.work, WORK_ROOM))
        return report(c, "the work areas differ");
    if (memcmp(got.answers, due.answers, ANSWERS_ROOM))
        return report(c, "the answer areas differ");
    if (got.result >= REFUSED)
        refused[(got.result - REFUSED) % 32]++;
    else
        filled++, places += got.result;
    return 0;
}

/* A class that takes longer is not timed. */
enum { LONGEST_MICROSECONDS = 200000 };

static uint8_t work[WORK], answers[FILES * PLACE], record[RECORD];

/* Microseconds for the class, and for its single verdicts one after the other. */
static double class_time(const struct call *c, unsigned times)
{
    double start = microseconds();
    for (unsigned i = 0; i < times; i++)
        vodjimar_class(c->input, c->input_len, work, sizeof work, answers, sizeof answers);
    return (microseconds() - start) / times;
}

static double single_time(const struct call *c, unsigned times)
{
    double start = microseconds();
    for (unsigned i = 0; i < times; i++)
        for (unsigned k = 0; k < c->count; k++)
            vodjimar_verdict(c->files[k].bytes, c->files[k].len, work, sizeof work, record, sizeof record);
    return (microseconds() - start) / times;
}

/* The time of the class, and its ratio to its single verdicts, in two columns; the ratio. */
static double columns(const struct call *c)
{
    double time[ROUNDS], ratio[ROUNDS];
    unsigned times = 1;
    double each;
    while ((each = class_time(c, times)) * times < ROUND_MICROSECONDS / 4)
        times *= 2;
    times = 1 + (unsigned)(ROUND_MICROSECONDS / each);
    for (unsigned r = 0; r < ROUNDS; r++) {
        time[r] = class_time(c, times);
        ratio[r] = time[r] / single_time(c, times);
    }
    double middle = median(ratio);
    printf(" %.2f | %.2f |", median(time), middle);
    fflush(stdout);
    return middle;
}

/* So many times one file. */
static void repeat(struct call *c, const struct plan_file *f, unsigned n)
{
    c->count = c->input_len = 0;
    while (c->count < n)
        add_file(c, f);
}

/* A row of the table, for a class of the first file and for one of sixteen, in which the others are the second; the larger ratio. */
static double row(struct call *c, const char *name, const struct plan_file *first, const struct plan_file *others)
{
    printf("| %s |", name);
    repeat(c, first, 1);
    double one = columns(c);
    while (c->count < FILES)
        add_file(c, others);
    double sixteen = columns(c);
    putchar('\n');
    return one > sixteen ? one : sixteen;
}

int main(int argc, char **argv)
{
    unsigned long total = argc > 1 ? strtoul(argv[1], 0, 10) : 2000;
    uint64_t seed = argc > 2 ? strtoull(argv[2], 0, 10) : 1, state = seed;
    static struct call c;
    struct plan_file f, none = {.len = 0};
    double most = 0, ratio;

    for (unsigned long i = 0; i < total; i++) {
        random_bytes(&state, before.work, sizeof before.work);
        random_bytes(&state, before.answers, sizeof before.answers);
        random_call(&state, &c);
        if (differ(&c)) {
            fprintf(stderr, "at class %lu of seed %llu\n", i, (unsigned long long)seed);
            return 1;
        }
    }
    fprintf(stderr, "%lu random classes, seed %llu: no disagreement with single verdicts\n%lu filled, with %lu places, refused by number: 10: %lu 19: %lu 20: %lu\n", total,
            (unsigned long long)seed, filled, places, refused[10], refused[19], refused[20]);

    printf("| case | of one, us | of one | of sixteen, us | of sixteen |\n|---|---|---|---|---|\n");
    for (unsigned k = 0; k < CASE_COUNT; k++) {
        if (!write_case(&CASES[k], &f)) {
            printf("%s is no plan\n", CASES[k].name);
            return 1;
        }
        repeat(&c, &f, 1);
        if (FILES * single_time(&c, 1) > LONGEST_MICROSECONDS) {
            fprintf(stderr, "%s: left out, sixteen take too long to be timed often\n", CASES[k].name);
            continue;
        }
        ratio = row(&c, CASES[k].name, &f, &f);
        most = ratio > most ? ratio : most;
    }
    write_case(&CASES[0], &f);
    ratio = row(&c, "the first, and fifteen that are refused", &f, &none);
    most = ratio > most ? ratio : most;
    row(&c, "files of no bytes, all refused", &none, &none);
    fprintf(stderr, "the largest ratio of a class with accepted plans: %.2f\n", most);
    return 0;
}
