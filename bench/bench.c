/*
 * Speed of the kernel beside plain C, in one program and on the same buffers.
 *
 *     bench [--heavy] [--growth] [--only OPERATION] [--setting N V] [--samples COUNT]
 *
 * Both libraries run each job in turn, sample by sample, so that whatever else the machine does
 * meets both alike. The table shows medians in microseconds of processor time for one call and
 * their ratio, then the ratio of the best samples. Before a job is timed, both must give the same
 * answer and the same words. Functions that the kernel's library does not export show as '-'.
 * --heavy adds what takes above a tenth of a second a call: maps at n 10, v 6 and the like. --growth
 * takes other settings instead, along which one of n, v and the density grows at a time.
 *
 * Where flint.c is linked too (bench/run --flint), FLINT runs some of the jobs in the ways that
 * flint.c explains, in turn with the libraries, once its coefficients have been compared with
 * those of plain C. Its ratio is to the kernel.
 */
#include "plain/plain.h"

#include <math.h>
#include <stdio.h>
#include <stdlib.h>
#include <string.h>
#include <time.h>
#include <unistd.h>

#define FUNCTIONS(use)                                                                            \
    use(build_table) use(check_table) use(sum) use(difference) use(multiple) use(product)         \
    use(derivative) use(bracket) use(substitute) use(compose) use(invert)

/* The kernel's functions have the types of the plain ones; those not linked are null. */
#define DECLARE(f) extern __typeof__(plain_##f) yigtrav_##f __attribute__((weak));
FUNCTIONS(DECLARE)

#define MEMBER(f) __typeof__(plain_##f) *f;
struct library {
    FUNCTIONS(MEMBER)
};

#define PLAIN(f) .f = plain_##f,
#define KERNEL(f) .f = yigtrav_##f,
static struct library plain = { FUNCTIONS(PLAIN) };
static struct library kernel;

enum operation {
#define NUMBER(f) OP_##f,
    FUNCTIONS(NUMBER) OPERATIONS
};

static const char *const names[OPERATIONS] = {
#define NAME(f) #f,
    FUNCTIONS(NAME)
};

/* FLINT, where flint.c is linked; otherwise null. */
static const char *const way_names[] = { "parts us", "rows us", "full us" };
enum { WAYS = sizeof way_names / sizeof *way_names };
#define WEAK __attribute__((weak))
extern void bench_flint_load(int way, uint32_t n, uint32_t v, const uint16_t *table, int maps,
                             const uint32_t *first, const uint32_t *second) WEAK;
extern void bench_flint_call(int way) WEAK;
extern void bench_flint_store(int way, uint32_t *result) WEAK;
extern void bench_flint_release(int way) WEAK;
extern const char *bench_flint_version(void) WEAK;

/* ---- inputs ------------------------------------------------------------------------------- */

enum { P = 65521, MAX_TABLE = 25992, MAX_LENGTH = 8009, MAX_MAP = 8 * MAX_LENGTH,
       MAX_WORK = 26 * MAX_LENGTH + 128 };

static uint16_t table[MAX_TABLE], built[2][MAX_TABLE];
static uint32_t first[MAX_MAP], second[MAX_MAP], result[2][MAX_MAP], work[MAX_WORK];

static uint64_t state = 88172645463325252u;

static uint32_t number_below(uint32_t bound)
{
    state ^= state << 13;
    state ^= state >> 7;
    state ^= state << 17;
    return (uint32_t)((state >> 32) * bound >> 32);
}

/* A random series with about `percent` of all entries, from position `from` on. */
static void random_series(uint32_t *w, uint32_t count, uint32_t from, uint32_t percent)
{
    uint32_t m = 0;
    for (uint32_t i = from; i <= count; i++)
        if (number_below(100) < percent)
            w[++m] = i << 16 | (1 + number_below(P - 1));
    w[0] = m;
    memset(w + m + 1, 0, (count - m) * sizeof *w);
}

/* Sets the coefficient at a position; 0 leaves no entry. */
static void set_coefficient(uint32_t *w, uint32_t position, uint32_t c)
{
    uint32_t i = 1;
    while (i <= w[0] && w[i] >> 16 < position)
        i++;
    int found = i <= w[0] && w[i] >> 16 == position;
    if (c != 0 && !found) {
        memmove(w + i + 1, w + i, (w[0] - i + 1) * sizeof *w);
        w[0]++;
    } else if (c == 0 && found) {
        memmove(w + i, w + i + 1, (w[0] - i) * sizeof *w);
        w[w[0]--] = 0;
    }
    if (c != 0)
        w[i] = position << 16 | c;
}

/* Position of variable i, from 0. */
static uint32_t variable(uint32_t n, uint32_t v, uint32_t i)
{
    uint32_t h = (v + 1) / 2, count = (uint32_t)plain_count(n, v), codes = 1, weight = 1;
    for (uint32_t j = 0; j < h; j++)
        codes *= n + 1;
    for (uint32_t j = i < h ? i : i - h; j > 0; j--)
        weight *= n + 1;
    const uint16_t *d1 = table + 2 * count, *d2 = d1 + codes;
    return i < h ? d1[weight] : d1[0] + d2[weight];
}

/* A random map without constants. Where it is not full its linear part is made triangular, so
 * that it has an inverse. */
static void random_map(uint32_t *w, uint32_t n, uint32_t v, uint32_t percent)
{
    uint32_t count = (uint32_t)plain_count(n, v);
    for (uint32_t i = 0; i < v; i++, w += count + 1) {
        random_series(w, count, 2, percent);
        if (percent == 100)
            continue;
        for (uint32_t j = 0; j < i; j++)
            set_coefficient(w, variable(n, v, j), 0);
        set_coefficient(w, variable(n, v, i), 1 + number_below(P - 1));
    }
}

/* ---- jobs --------------------------------------------------------------------------------- */

struct job {
    enum operation operation;
    uint32_t n, v, percent;
};

enum { DENSITIES = 5 };

struct setting {
    uint32_t n, v, percent[DENSITIES];
};

static const struct setting usual[] = {
    { 10, 6, { 100, 10, 2 } }, { 7, 8, { 100, 10, 0 } }, { 8, 7, { 100, 10, 0 } },
    { 5, 6, { 100, 10, 0 } },  { 6, 4, { 100, 10, 0 } }, { 4, 6, { 100, 10, 0 } },
    { 10, 2, { 100, 0, 0 } },  { 3, 4, { 100, 0, 0 } },  { 3, 8, { 100, 10, 0 } },
};

static const struct setting growing[] = {
    { 2, 4, { 100 } }, { 4, 4, { 100 } }, { 6, 4, { 100, 30, 10, 3, 1 } }, { 8, 4, { 100 } },
    { 3, 2, { 100 } }, { 3, 4, { 100 } }, { 3, 6, { 100 } },               { 3, 8, { 100 } },
};

static int takes_map(enum operation o)
{
    return o == OP_substitute || o == OP_compose || o == OP_invert;
}

static int exported(const struct library *l, enum operation o)
{
#define EXPORTED(f) l->f != NULL,
    const int found[OPERATIONS] = { FUNCTIONS(EXPORTED) };
    return found[o];
}

static uint64_t call(const struct library *l, const struct job *j, int side)
{
    const uint32_t n = j->n, v = j->v;
    uint32_t *r = result[side];
    switch (j->operation) {
    case OP_build_table:
        return l->build_table(n, v, built[side], MAX_TABLE);
    case OP_check_table:
        return l->check_table(n, v, table, MAX_TABLE);
    case OP_sum:
        return l->sum(n, v, first, MAX_MAP, second, MAX_MAP, r, MAX_MAP);
    case OP_difference:
        return l->difference(n, v, first, MAX_MAP, second, MAX_MAP, r, MAX_MAP);
    case OP_multiple:
        return l->multiple(n, v, 12345, first, MAX_MAP, r, MAX_MAP);
    case OP_product:
        return l->product(n, v, table, MAX_TABLE, first, MAX_MAP, second, MAX_MAP, r, MAX_MAP,
                          work, MAX_WORK);
    case OP_derivative:
        return l->derivative(n, v, 2, table, MAX_TABLE, first, MAX_MAP, r, MAX_MAP);
    case OP_bracket:
        return l->bracket(n, v, table, MAX_TABLE, first, MAX_MAP, second, MAX_MAP, r, MAX_MAP,
                          work, MAX_WORK);
    case OP_substitute:
        return l->substitute(n, v, table, MAX_TABLE, first, MAX_MAP, second, MAX_MAP, r, MAX_MAP,
                             work, MAX_WORK);
    case OP_compose:
        return l->compose(n, v, table, MAX_TABLE, first, MAX_MAP, second, MAX_MAP, r, MAX_MAP,
                          work, MAX_WORK);
    case OP_invert:
        return l->invert(n, v, table, MAX_TABLE, second, MAX_MAP, r, MAX_MAP, work, MAX_WORK);
    default:
        return 0;
    }
}

static void prepare(const struct job *j)
{
    uint32_t count = (uint32_t)plain_count(j->n, j->v);
    state = 88172645463325252u + j->n * 1000 + j->v * 100 + j->percent;
    plain_build_table(j->n, j->v, table, MAX_TABLE);
    if (j->operation == OP_compose)
        random_map(first, j->n, j->v, j->percent);
    else
        random_series(first, count, 1, j->percent);
    if (takes_map(j->operation))
        random_map(second, j->n, j->v, j->percent);
    else
        random_series(second, count, 1, j->percent);
    memset(built, 0, sizeof built);
    memset(result, 0, sizeof result);
}

/* Both sides give the same answer and words, and leave work space zero. */
static int agree(const struct job *j)
{
    uint32_t words = (uint32_t)plain_work_words(j->n, j->v);
    uint64_t answers[2];
    for (int side = 0; side < 2; side++) {
        memset(work, 0xa5, sizeof work);
        answers[side] = call(side ? &kernel : &plain, j, side);
        if (j->operation == OP_product || j->operation == OP_bracket || takes_map(j->operation))
            for (uint32_t i = 0; i < words; i++)
                if (work[i])
                    return 0;
    }
    return answers[0] == answers[1] && (answers[0] & 0xff) == 0
           && memcmp(result[0], result[1], sizeof result[0]) == 0
           && memcmp(built[0], built[1], sizeof built[0]) == 0;
}

/* Whether FLINT runs a job: it does some products and compositions only. */
static int flint_runs(const struct job *j)
{
    static const struct { enum operation operation; uint32_t n, v; } chosen[] = {
        { OP_product, 10, 6 }, { OP_product, 7, 8 },  { OP_product, 5, 6 }, { OP_product, 3, 4 },
        { OP_compose, 6, 4 },  { OP_compose, 10, 2 }, { OP_compose, 4, 6 }, { OP_compose, 3, 8 },
    };
    for (size_t i = 0; bench_flint_load && i < sizeof chosen / sizeof *chosen; i++)
        if (chosen[i].operation == j->operation && chosen[i].n == j->n && chosen[i].v == j->v)
            return 1;
    return 0;
}

/* Loads the job into FLINT; each of its ways gives the coefficients that plain C gives. */
static int flint_agrees(const struct job *j)
{
    static uint32_t stored[MAX_MAP];
    int same = (call(&plain, j, 0) & 0xff) == 0;
    for (int way = 0; way < WAYS; way++) {
        memset(stored, 0, sizeof stored);
        bench_flint_load(way, j->n, j->v, table, takes_map(j->operation), first, second);
        bench_flint_call(way);
        bench_flint_store(way, stored);
        same &= memcmp(stored, result[0], sizeof stored) == 0;
    }
    return same;
}

/* ---- timing ------------------------------------------------------------------------------- */

enum { MAX_SAMPLES = 101 };

static double microseconds(void)
{
    struct timespec t;
    clock_gettime(CLOCK_THREAD_CPUTIME_ID, &t);
    return (double)t.tv_sec * 1e6 + (double)t.tv_nsec * 1e-3;
}

/* What is timed: plain C, the kernel, and FLINT's ways. */
enum { PLAIN_SIDE, KERNEL_SIDE, FLINT_SIDE, SIDES = FLINT_SIDE + WAYS };

static double sample(const struct job *j, int side, uint32_t calls)
{
    const struct library *l = side == KERNEL_SIDE ? &kernel : &plain;
    double start = microseconds();
    if (side >= FLINT_SIDE)
        for (uint32_t i = 0; i < calls; i++)
            bench_flint_call(side - FLINT_SIDE);
    else
        for (uint32_t i = 0; i < calls; i++)
            call(l, j, side);
    return (microseconds() - start) / calls;
}

static int ascending(const void *a, const void *b)
{
    double x = *(const double *)a, y = *(const double *)b;
    return (x > y) - (x < y);
}

/* Of one library; 0 where the function is not linked. */
struct figures {
    double median, best;
};

static struct figures summary(double *times, uint32_t count)
{
    if (count == 0)
        return (struct figures){ 0, 0 };
    qsort(times, count, sizeof *times, ascending);
    return (struct figures){ times[count / 2], times[0] };
}

/* Calls in a sample, so that it takes some 1.5 ms. */
static uint32_t calls_in_sample(double once)
{
    return once < 1500 ? (uint32_t)(1500 / fmax(once, 0.05)) + 1 : 1;
}

static void measure(const struct job *j, uint32_t samples, const int *runs,
                    struct figures figures[SIDES])
{
    static double times[SIDES][MAX_SAMPLES];
    uint32_t calls[SIDES], every[SIDES], taken[SIDES] = { 0 };
    double once = sample(j, PLAIN_SIDE, 1);
    once = fmin(once, sample(j, PLAIN_SIDE, 1));
    if (once > 20000)
        samples = samples > 5 ? 5 : samples;
    for (int side = 0; side < SIDES; side++) {
        /* The kernel makes as many calls as plain C; FLINT may be far slower than both. */
        double flint_once = side >= FLINT_SIDE && runs[side] ? sample(j, side, 1) : 0;
        calls[side] = calls_in_sample(side >= FLINT_SIDE ? flint_once : once);
        every[side] = flint_once > 20000 && samples > 5 ? samples / 5 : 1;
    }
    for (uint32_t i = 0; i < samples; i++)
        for (int side = 0; side < SIDES; side++)
            if (runs[side] && i % every[side] == 0)
                times[side][taken[side]++] = sample(j, side, calls[side]);
    for (int side = 0; side < SIDES; side++)
        figures[side] = summary(times[side], taken[side]);
}

/* ---- the table ---------------------------------------------------------------------------- */

struct options {
    int heavy, growth;
    const char *only;
    uint32_t n, v, samples;
};

/* Whether a call takes above a tenth of a second: maps at large settings. */
static int is_heavy(const struct job *j)
{
    return takes_map(j->operation) && plain_count(j->n, j->v) > 1000;
}

static int wanted(const struct options *o, const struct job *j)
{
    if (j->percent == 0 || (o->only && strcmp(o->only, names[j->operation]) != 0))
        return 0;
    if (o->n && (o->n != j->n || o->v != j->v))
        return 0;
    if (j->operation == OP_bracket && j->v % 2)
        return 0;
    /* Tables do not depend on the density. */
    if ((j->operation == OP_build_table || j->operation == OP_check_table) && j->percent != 100)
        return 0;
    return o->heavy || !is_heavy(j);
}

static void print_flint(const struct figures *f, const int *runs)
{
    for (int way = 0; bench_flint_load && way < WAYS; way++) {
        int side = FLINT_SIDE + way;
        if (runs[side])
            printf(" %12.2f", f[side].median);
        else
            printf(" %12s", "-");
        if (runs[side] && runs[KERNEL_SIDE])
            printf(" %8.2f", f[side].median / f[KERNEL_SIDE].median);
        else
            printf(" %8s", "-");
    }
}

static int run_job(const struct job *j, const struct options *o, double *logarithms,
                    double *worst, uint32_t *count)
{
    const int flint = flint_runs(j);
    int runs[SIDES] = { 1, exported(&kernel, j->operation) };
    for (int side = FLINT_SIDE; side < SIDES; side++)
        runs[side] = flint;
    prepare(j);
    printf("%-12s %3u %2u %4u%% ", names[j->operation], j->n, j->v, j->percent);
    if (runs[KERNEL_SIDE] && !agree(j)) {
        printf(" the two libraries do not agree\n");
        return 0;
    }
    if (flint && !flint_agrees(j)) {
        printf(" FLINT does not agree\n");
        return 0;
    }
    struct figures f[SIDES];
    measure(j, o->samples, runs, f);
    printf("%12.2f", f[0].median);
    if (runs[KERNEL_SIDE]) {
        double ratio = f[1].median / f[0].median;
        printf(" %12.2f %8.2f %8.2f", f[1].median, ratio, f[1].best / f[0].best);
        logarithms[j->operation] += log(ratio);
        worst[j->operation] = fmax(worst[j->operation], ratio);
        count[j->operation]++;
    } else {
        printf(" %12s %8s %8s", "-", "-", "-");
    }
    print_flint(f, runs);
    printf("\n");
    fflush(stdout);
    for (int way = 0; flint && way < WAYS; way++)
        bench_flint_release(way);
    return 1;
}

static int run_all(const struct options *o)
{
    const struct setting *settings = o->growth ? growing : usual;
    const size_t setting_count = o->growth ? sizeof growing / sizeof *growing
                                      : sizeof usual / sizeof *usual;
    static struct job jobs[OPERATIONS * (sizeof usual + sizeof growing) / sizeof *usual * DENSITIES];
    static double logarithms[OPERATIONS], worst[OPERATIONS];
    static uint32_t count[OPERATIONS];
    uint32_t total = 0;
    int good = 1;
    for (int op = 0; op < OPERATIONS; op++)
        for (size_t s = 0; s < setting_count; s++)
            for (int d = 0; d < DENSITIES; d++) {
                struct job j = { op, settings[s].n, settings[s].v, settings[s].percent[d] };
                if (wanted(o, &j))
                    jobs[total++] = j;
            }
    if (bench_flint_load)
        printf("beside FLINT %s\n", bench_flint_version());
    printf("%-12s %3s %2s %5s %12s %12s %8s %8s", "operation", "n", "v", "full", "plain us",
           "kernel us", "ratio", "best");
    for (int way = 0; bench_flint_load && way < WAYS; way++)
        printf(" %12s %8s", way_names[way], "ratio");
    printf("\n");
    for (uint32_t i = 0; i < total; i++) {
        /* On a terminal the job's own line is written over its progress line. */
        fprintf(stderr, "%u of %u: %s n %u v %u %u%%%s", i + 1, total, names[jobs[i].operation],
                jobs[i].n, jobs[i].v, jobs[i].percent, isatty(STDERR_FILENO) ? "\r" : "\n");
        good &= run_job(&jobs[i], o, logarithms, worst, count);
    }
    printf("\n%-12s %12s %8s\n", "operation", "mean ratio", "worst");
    for (int op = 0; op < OPERATIONS; op++)
        if (count[op])
            printf("%-12s %12.2f %8.2f\n", names[op], exp(logarithms[op] / count[op]), worst[op]);
        else
            printf("%-12s %12s %8s\n", names[op], "-", "-");
    return good;
}

int main(int argc, char **argv)
{
    struct options o = { .samples = 25 };
    kernel = (struct library){ FUNCTIONS(KERNEL) };
    for (int i = 1; i < argc; i++) {
        if (strcmp(argv[i], "--heavy") == 0)
            o.heavy = 1;
        else if (strcmp(argv[i], "--growth") == 0)
            o.growth = 1;
        else if (strcmp(argv[i], "--only") == 0 && i + 1 < argc)
            o.only = argv[++i];
        else if (strcmp(argv[i], "--samples") == 0 && i + 1 < argc)
            o.samples = (uint32_t)atoi(argv[++i]);
        else if (strcmp(argv[i], "--setting") == 0 && i + 2 < argc) {
            o.n = (uint32_t)atoi(argv[++i]);
            o.v = (uint32_t)atoi(argv[++i]);
        } else {
            fprintf(stderr, "usage: bench [--heavy] [--growth] [--only OPERATION] [--setting N V] "
                            "[--samples COUNT]\n");
            return 2;
        }
    }
    if (o.samples < 1 || o.samples > MAX_SAMPLES)
        o.samples = 25;
    return run_all(&o) ? 0 : 1;
}
