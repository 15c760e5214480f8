/*
 * FLINT's nmod_mpoly on the benchmark's inputs. Only `bench/run --flint` links it.
 *
 * FLINT has no product cut at an order, so it is put together in three ways:
 *
 *     parts   a series is held as its homogeneous parts; the parts whose orders add to at most n
 *             are multiplied, and the products of each order are added up
 *     rows    a series is one polynomial; each homogeneous part of the first factor is multiplied
 *             by all of the second that stays within the order, and the products are added up
 *     full    a series is one polynomial; the product is computed whole and then cut at order n
 *
 * Composition walks the tree of beginnings as the kernel does, with each of these products. The
 * timed call has arithmetic only: reading the inputs, the list of the beginnings that are needed
 * and writing the result as an image are left out, in FLINT's favour.
 */
#include <flint/nmod_mpoly.h>

#include <stdint.h>
#include <string.h>

enum { P = 65521, MAX_ORDER = 10, MAX_VARIABLES = 8, MAX_LENGTH = 8009 };

/* Ways have the numbers that bench.c knows them by. */
enum way { PARTS, ROWS, FULL, WAYS };

/* What bench.c calls; it declares the same. Inputs are two series, or an outer and an inner map. */
void bench_flint_load(int way, uint32_t n, uint32_t v, const uint16_t *table, int maps,
                      const uint32_t *first, const uint32_t *second);
void bench_flint_call(int way);
void bench_flint_store(int way, uint32_t *result);
void bench_flint_release(int way);
const char *bench_flint_version(void);

/* In the way of parts, part o has the terms of order o; in the others part 0 has them all. */
struct series {
    nmod_mpoly_struct part[MAX_ORDER + 1];
};

struct job {
    enum way way;
    uint32_t n, v, count, parts;
    uint32_t components; /* of the result */
    int composing;
    const uint16_t *c1, *c2, *d1, *d2; /* the table, from position 1 and from code 0 */
    nmod_mpoly_ctx_t ctx;
    nmod_mpoly_t scratch;
    struct series first[MAX_VARIABLES], second[MAX_VARIABLES], result[MAX_VARIABLES];
    struct series power[MAX_ORDER + 1];        /* of beginnings, by their number of letters */
    uint16_t outer[MAX_VARIABLES][MAX_LENGTH]; /* the outer map's coefficients by position */
    uint8_t needed[MAX_LENGTH];                /* positions of beginnings of its monomials */
};

/* One for each way, so that their samples can alternate. */
static struct job jobs[WAYS];

/* By order, then lexicographic: a cut is then a suffix of the terms. The order takes a byte beside
 * those of the exponents, which makes two words of one for 8 variables; parts need no cut, and
 * are faster there without it. */
static ordering_t ordering(enum way way, uint32_t v)
{
    return way == PARTS && v == MAX_VARIABLES ? ORD_LEX : ORD_DEGLEX;
}

/* ---- inputs and results ------------------------------------------------------------------- */

static void start_series(const struct job *j, struct series *a)
{
    for (uint32_t o = 0; o < j->parts; o++)
        nmod_mpoly_init(&a->part[o], j->ctx);
}

static void end_series(const struct job *j, struct series *a)
{
    for (uint32_t o = 0; o < j->parts; o++)
        nmod_mpoly_clear(&a->part[o], j->ctx);
}

/* Exponents of the monomial at a position; answers its order. */
static uint32_t exponents_at(const struct job *j, uint32_t position, ulong *exponents)
{
    uint32_t h = (j->v + 1) / 2, order = 0;
    uint32_t codes[2] = { j->c1[position - 1], j->c2[position - 1] };
    for (uint32_t i = 0; i < j->v; i++) {
        uint32_t *code = &codes[i >= h];
        exponents[i] = *code % (j->n + 1);
        order += *code % (j->n + 1);
        *code /= j->n + 1;
    }
    return order;
}

/* Position of a monomial of order at most n. */
static uint32_t position_of(const struct job *j, const ulong *exponents)
{
    uint32_t h = (j->v + 1) / 2, codes[2] = { 0, 0 };
    for (uint32_t i = j->v; i-- > 0;)
        codes[i >= h] = codes[i >= h] * (j->n + 1) + (uint32_t)exponents[i];
    return (uint32_t)j->d1[codes[0]] + j->d2[codes[1]];
}

static void read_series(const struct job *j, struct series *a, const uint32_t *image)
{
    ulong exponents[MAX_VARIABLES];
    start_series(j, a);
    for (uint32_t i = 1; i <= image[0]; i++) {
        uint32_t order = exponents_at(j, image[i] >> 16, exponents);
        nmod_mpoly_push_term_ui_ui(&a->part[j->way == PARTS ? order : 0], image[i] & 0xffff,
                                   exponents, j->ctx);
    }
    for (uint32_t o = 0; o < j->parts; o++)
        nmod_mpoly_sort_terms(&a->part[o], j->ctx);
}

static void write_series(const struct job *j, const struct series *a, uint32_t *image)
{
    ulong exponents[MAX_VARIABLES];
    uint32_t m = 0;
    memset(image, 0, (j->count + 1) * sizeof *image);
    for (uint32_t o = 0; o < j->parts; o++)
        for (slong i = 0; i < a->part[o].length; i++) {
            nmod_mpoly_get_term_exp_ui(exponents, &a->part[o], i, j->ctx);
            image[position_of(j, exponents)] = (uint32_t)a->part[o].coeffs[i];
        }
    for (uint32_t i = 1; i <= j->count; i++) {
        uint32_t c = image[i];
        image[i] = 0;
        if (c)
            image[++m] = i << 16 | c;
    }
    image[0] = m;
}

/* Spreads the outer map by position and marks every beginning of its monomials. */
static void read_outer(struct job *j, const uint32_t *map)
{
    ulong exponents[MAX_VARIABLES];
    memset(j->outer, 0, sizeof j->outer);
    memset(j->needed, 0, sizeof j->needed);
    for (uint32_t k = 0; k < j->v; k++, map += j->count + 1)
        for (uint32_t i = 1; i <= map[0]; i++) {
            uint32_t position = map[i] >> 16, last = j->v;
            uint32_t letters = exponents_at(j, position, exponents);
            j->outer[k][position] = (uint16_t)map[i];
            j->needed[position] = 1;
            for (; letters > 0; letters--) {
                while (exponents[last - 1] == 0)
                    last--;
                exponents[last - 1]--;
                j->needed[position_of(j, exponents)] = 1;
            }
        }
}

/* ---- the timed part ----------------------------------------------------------------------- */

static uint32_t order_of_term(const struct job *j, const nmod_mpoly_t a, slong i)
{
    ulong exponents[MAX_VARIABLES];
    uint32_t order = 0;
    nmod_mpoly_get_term_exp_ui(exponents, a, i, j->ctx);
    for (uint32_t k = 0; k < j->v; k++)
        order += (uint32_t)exponents[k];
    return order;
}

/* The first term of order at most `order`; terms stand by falling order. */
static slong first_within(const struct job *j, const nmod_mpoly_t a, uint32_t order)
{
    slong low = 0, high = a->length;
    while (low < high) {
        slong middle = low + (high - low) / 2;
        if (order_of_term(j, a, middle) > order)
            low = middle + 1;
        else
            high = middle;
    }
    return low;
}

/* Terms from `start` to before `end`, to be read only: they stay where they are. */
static nmod_mpoly_struct view(const struct job *j, const nmod_mpoly_t a, slong start, slong end)
{
    nmod_mpoly_struct terms = *a;
    terms.coeffs += start;
    terms.exps += start * mpoly_words_per_exp(a->bits, j->ctx->minfo);
    terms.length = end - start;
    return terms;
}

static void add_product(struct job *j, nmod_mpoly_t sum, const nmod_mpoly_t a,
                        const nmod_mpoly_t b)
{
    if (a->length == 0 || b->length == 0)
        return;
    nmod_mpoly_mul(j->scratch, a, b, j->ctx);
    if (sum->length == 0)
        nmod_mpoly_swap(sum, j->scratch, j->ctx);
    else
        nmod_mpoly_add(sum, sum, j->scratch, j->ctx);
}

static void multiply_parts(struct job *j, struct series *r, const struct series *a,
                           const struct series *b)
{
    for (uint32_t o = 0; o <= j->n; o++) {
        nmod_mpoly_zero(&r->part[o], j->ctx);
        for (uint32_t i = 0; i <= o; i++)
            add_product(j, &r->part[o], &a->part[i], &b->part[o - i]);
    }
}

static void multiply_rows(struct job *j, nmod_mpoly_t r, const nmod_mpoly_t a,
                          const nmod_mpoly_t b)
{
    slong end = a->length;
    nmod_mpoly_zero(r, j->ctx);
    for (uint32_t o = 0; o <= j->n; o++) {
        slong start = first_within(j, a, o);
        nmod_mpoly_struct part = view(j, a, start, end);
        nmod_mpoly_struct rest = view(j, b, first_within(j, b, j->n - o), b->length);
        add_product(j, r, &part, &rest);
        end = start;
    }
}

static void multiply_full(struct job *j, nmod_mpoly_t r, const nmod_mpoly_t a,
                          const nmod_mpoly_t b)
{
    nmod_mpoly_mul(r, a, b, j->ctx);
    nmod_mpoly_struct kept = view(j, r, first_within(j, r, j->n), r->length);
    slong words = kept.length * mpoly_words_per_exp(r->bits, j->ctx->minfo);
    memmove(r->coeffs, kept.coeffs, (size_t)kept.length * sizeof *r->coeffs);
    memmove(r->exps, kept.exps, (size_t)words * sizeof *r->exps);
    r->length = kept.length;
}

/* r is neither a nor b. */
static void multiply(struct job *j, struct series *r, const struct series *a,
                     const struct series *b)
{
    if (j->way == PARTS)
        multiply_parts(j, r, a, b);
    else if (j->way == ROWS)
        multiply_rows(j, &r->part[0], &a->part[0], &b->part[0]);
    else
        multiply_full(j, &r->part[0], &a->part[0], &b->part[0]);
}

static void add_multiple(struct job *j, struct series *r, uint32_t c, const struct series *a)
{
    for (uint32_t o = 0; o < j->parts; o++)
        if (a->part[o].length)
            nmod_mpoly_scalar_addmul_ui(&r->part[o], &r->part[o], &a->part[o], c, j->ctx);
}

/* Visits a beginning of so many letters, the last of them `letter`, and all that continue it. */
static void visit(struct job *j, uint32_t letters, uint32_t letter, ulong *exponents,
                  const struct series *power)
{
    uint32_t position = position_of(j, exponents);
    for (uint32_t k = 0; k < j->v; k++)
        if (j->outer[k][position])
            add_multiple(j, &j->result[k], j->outer[k][position], power);
    if (letters == j->n)
        return;
    for (uint32_t i = letter; i < j->v; i++) {
        exponents[i]++;
        if (j->needed[position_of(j, exponents)]) {
            const struct series *next = &j->second[i]; /* the power of one letter */
            if (letters > 0) {
                multiply(j, &j->power[letters + 1], power, next);
                next = &j->power[letters + 1];
            }
            visit(j, letters + 1, i, exponents, next);
        }
        exponents[i]--;
    }
}

static void compose(struct job *j)
{
    ulong exponents[MAX_VARIABLES] = { 0 };
    for (uint32_t k = 0; k < j->v; k++)
        for (uint32_t o = 0; o < j->parts; o++)
            nmod_mpoly_zero(&j->result[k].part[o], j->ctx);
    visit(j, 0, 0, exponents, &j->power[0]);
}

/* ---- the interface ------------------------------------------------------------------------ */

void bench_flint_load(int way, uint32_t n, uint32_t v, const uint16_t *table, int maps,
                      const uint32_t *first, const uint32_t *second)
{
    struct job *j = &jobs[way];
    uint32_t codes = 1;
    j->way = (enum way)way;
    j->n = n;
    j->v = v;
    j->parts = way == PARTS ? n + 1 : 1;
    j->components = maps ? v : 1;
    j->composing = maps;
    j->count = 1;
    for (uint32_t i = 1; i <= v; i++)
        j->count = j->count * (n + i) / i;
    for (uint32_t i = 0; i < (v + 1) / 2; i++)
        codes *= n + 1;
    j->c1 = table;
    j->c2 = j->c1 + j->count;
    j->d1 = j->c2 + j->count;
    j->d2 = j->d1 + codes;
    nmod_mpoly_ctx_init(j->ctx, (slong)v, ordering(j->way, v), P);
    nmod_mpoly_init(j->scratch, j->ctx);
    for (uint32_t k = 0; k < j->components; k++) {
        read_series(j, &j->first[k], first + k * (j->count + 1));
        read_series(j, &j->second[k], second + k * (j->count + 1));
        start_series(j, &j->result[k]);
    }
    for (uint32_t l = 0; l <= n; l++)
        start_series(j, &j->power[l]);
    nmod_mpoly_one(&j->power[0].part[0], j->ctx);
    if (maps)
        read_outer(j, first);
}

void bench_flint_call(int way)
{
    struct job *j = &jobs[way];
    if (j->composing)
        compose(j);
    else
        multiply(j, &j->result[0], &j->first[0], &j->second[0]);
}

void bench_flint_store(int way, uint32_t *result)
{
    const struct job *j = &jobs[way];
    for (uint32_t k = 0; k < j->components; k++)
        write_series(j, &j->result[k], result + k * (j->count + 1));
}

void bench_flint_release(int way)
{
    struct job *j = &jobs[way];
    for (uint32_t k = 0; k < j->components; k++) {
        end_series(j, &j->first[k]);
        end_series(j, &j->second[k]);
        end_series(j, &j->result[k]);
    }
    for (uint32_t l = 0; l <= j->n; l++)
        end_series(j, &j->power[l]);
    nmod_mpoly_clear(j->scratch, j->ctx);
    nmod_mpoly_ctx_clear(j->ctx);
}

const char *bench_flint_version(void)
{
    return FLINT_VERSION;
}
