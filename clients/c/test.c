/*
 * The samples of the rules through the wrapper, and bad use: every mistake must come back as an error and leave the
 * result as it was. The last line is 'N passed, M failed'.
 */
#include "yt.h"

#include <stdio.h>
#include <stdlib.h>
#include <string.h>
#include <yigtrav.h>

static int passed, failed;

static void record(int good, const char *label)
{
    if (good)
        passed++;
    else {
        failed++;
        printf("FAILED %s\n", label);
    }
}

static int is(yt_error e, uint32_t number, uint64_t place)
{
    return e.number == number && e.place == place && e.argument == 0 && e.component == 0;
}

static int fine(yt_error e)
{
    return is(e, 0, 0);
}

/* What the rest of a test cannot go on without. */
static void need(yt_error e)
{
    char text[120];
    if (e.number == 0)
        return;
    printf("FAILED %s\n%d passed, %d failed\n", yt_message(e, text, sizeof text), passed, failed + 1);
    exit(1);
}

/* ---- objects of one setting, freed together ---- */

struct bench {
    yt_context *c;
    yt_series *a, *b, *r;
    yt_map *f, *g, *h;
};

static struct bench open_bench(uint32_t n, uint32_t v)
{
    struct bench t;
    need(yt_open(n, v, &t.c));
    need(yt_new_series(t.c, &t.a));
    need(yt_new_series(t.c, &t.b));
    need(yt_new_series(t.c, &t.r));
    need(yt_new_map(t.c, &t.f));
    need(yt_new_map(t.c, &t.g));
    need(yt_new_map(t.c, &t.h));
    return t;
}

static void close_bench(struct bench *t)
{
    yt_free_series(t->a);
    yt_free_series(t->b);
    yt_free_series(t->r);
    yt_free_map(t->f);
    yt_free_map(t->g);
    yt_free_map(t->h);
    yt_close(t->c);
}

/* Sets the coefficient of x1^i x2^j .. */
static void set(struct bench *t, yt_series *s, uint32_t coefficient, uint32_t i, uint32_t j)
{
    uint32_t e[YIGTRAV_MAX_VARIABLES] = { i, j };
    need(yt_set(t->c, s, e, coefficient));
}

static uint32_t position(yt_context *c, uint32_t i, uint32_t j, uint32_t k)
{
    uint32_t e[YIGTRAV_MAX_VARIABLES] = { i, j, k }, at = 0;
    need(yt_position(c, e, &at));
    return at;
}

/* The words of a series are exactly these, and zeros after them. */
static int words_are(const yt_context *c, const yt_series *s, const uint32_t *expected, uint32_t number)
{
    const uint32_t *w = yt_words(s);
    for (uint32_t i = 0; i <= yt_count(c); i++)
        if (w[i] != (i < number ? expected[i] : 0))
            return 0;
    return 1;
}

#define WORDS(c, s, ...) \
    words_are(c, s, (const uint32_t[]){ __VA_ARGS__ }, sizeof(uint32_t[]){ __VA_ARGS__ } / sizeof(uint32_t))
#define ENTRY(position, coefficient) ((position) * 65536u + (coefficient))

/* ---- the samples ---- */

static void positions(void)
{
    static const uint16_t d1[] = { 1, 2, 4, 3, 5, 0, 6, 0, 0 }, d2[] = { 0, 6, 9, 10, 13, 0, 14, 0, 0 };
    uint16_t table[48];
    uint32_t e[YIGTRAV_MAX_VARIABLES];
    yt_context *c;

    need(yt_open(2, 2, &c));
    record(yt_order(c) == 2 && yt_variables(c) == 2 && yt_count(c) == 6, "n 2, v 2 has 6 monomials");
    record(position(c, 1, 1, 0) == 5, "n 2, v 2: x1 x2 at 5");
    yt_close(c);

    need(yt_open(2, 4, &c));
    record(position(c, 1, 1, 0) == 5, "n 2, v 4: x1 x2 at 5");
    record(position(c, 0, 2, 0) == 6, "n 2, v 4: x2^2 at 6");
    record(position(c, 0, 0, 1) == 7, "n 2, v 4: x3 at 7");
    int back = 1;
    for (uint32_t i = 1; i <= yt_count(c); i++) {
        uint32_t at = 0;
        need(yt_exponents(c, i, e));
        need(yt_position(c, e, &at));
        back &= at == i;
    }
    record(back, "n 2, v 4: from each position to the exponents and back");
    yt_close(c);

    record(yigtrav_table_words(2, 4) == 48 && yigtrav_build_table(2, 4, table, 48) == 0 &&
               memcmp(table + 30, d1, sizeof d1) == 0 && memcmp(table + 39, d2, sizeof d2) == 0,
           "n 2, v 4: D1 and D2");

    record(fine(yt_open(10, 6, &c)) && yt_count(c) == 8008, "n 10, v 6 builds");
    yt_close(c);
    record(is(yt_open(10, 7, &c), 1, 0) && c == NULL, "n 10, v 7 is refused 1");
    record(yigtrav_count(8, 7) == 6435 && yigtrav_count(7, 8) == 6435, "counts of n 8, v 7 and n 7, v 8");
}

static void products(void)
{
    uint64_t pairs = 99;
    struct bench t = open_bench(2, 1);
    set(&t, t.a, 1, 0, 0);
    set(&t, t.a, 1, 1, 0);
    record(fine(yt_product(t.c, t.a, t.a, t.r, &pairs)) && pairs == 4 &&
               WORDS(t.c, t.r, 3, ENTRY(1, 1), ENTRY(2, 2), ENTRY(3, 1)),
           "n 2, v 1: (1 + x)(1 + x), 4 pairs");
    set(&t, t.b, 1, 0, 0);
    set(&t, t.b, 65520, 1, 0);
    record(fine(yt_product(t.c, t.a, t.b, t.r, NULL)) && WORDS(t.c, t.r, 2, ENTRY(1, 1), ENTRY(3, 65520)),
           "n 2, v 1: (1 + x)(1 + 65,520 x) has no entry for x");
    record(fine(yt_sum(t.c, t.a, t.b, t.r)) && WORDS(t.c, t.r, 1, ENTRY(1, 2)), "sum cancels x");
    record(fine(yt_difference(t.c, t.a, t.b, t.r)) && WORDS(t.c, t.r, 1, ENTRY(2, 2)), "difference cancels 1");
    record(fine(yt_multiple(t.c, 65520, t.a, t.r)) && WORDS(t.c, t.r, 2, ENTRY(1, 65520), ENTRY(2, 65520)),
           "multiple by 65,520");
    record(fine(yt_multiple(t.c, 0, t.a, t.r)) && WORDS(t.c, t.r, 0), "multiple by 0");
    close_bench(&t);

    t = open_bench(1, 1);
    set(&t, t.a, 1, 0, 0);
    set(&t, t.a, 1, 1, 0);
    record(fine(yt_product(t.c, t.a, t.a, t.r, &pairs)) && pairs == 3 &&
               WORDS(t.c, t.r, 2, ENTRY(1, 1), ENTRY(2, 2)),
           "n 1, v 1: (1 + x)(1 + x), 3 pairs");
    set(&t, t.b, 1, 1, 0);
    record(fine(yt_product(t.c, t.b, t.b, t.r, &pairs)) && pairs == 0 && WORDS(t.c, t.r, 0),
           "n 1, v 1: x x is zero, 0 pairs");
    close_bench(&t);
}

static void brackets_and_maps(void)
{
    struct bench t = open_bench(2, 2);
    set(&t, t.a, 1, 2, 0);
    set(&t, t.b, 1, 0, 2);
    record(fine(yt_derivative(t.c, 1, t.a, t.r)) && WORDS(t.c, t.r, 1, ENTRY(2, 2)), "derivative of x1^2");
    record(fine(yt_bracket(t.c, t.a, t.b, t.r)) && WORDS(t.c, t.r, 1, ENTRY(5, 4)), "bracket of x1^2 and x2^2");

    set(&t, yt_component(t.f, 1), 1, 1, 0);
    set(&t, yt_component(t.f, 1), 1, 0, 1);
    set(&t, yt_component(t.f, 2), 1, 0, 1);
    record(fine(yt_substitute(t.c, t.a, t.f, t.r)) &&
               WORDS(t.c, t.r, 3, ENTRY(3, 1), ENTRY(5, 2), ENTRY(6, 1)),
           "x1^2 with (x1 + x2, x2)");

    set(&t, yt_component(t.f, 1), 0, 0, 1);
    set(&t, yt_component(t.f, 1), 1, 0, 2);
    record(fine(yt_invert(t.c, t.f, t.g)) &&
               WORDS(t.c, yt_component(t.g, 1), 2, ENTRY(2, 1), ENTRY(6, 65520)) &&
               WORDS(t.c, yt_component(t.g, 2), 1, ENTRY(4, 1)),
           "(x1 + x2^2, x2) inverted");
    record(fine(yt_compose(t.c, t.f, t.g, t.h)) && WORDS(t.c, yt_component(t.h, 1), 1, ENTRY(2, 1)) &&
               WORDS(t.c, yt_component(t.h, 2), 1, ENTRY(4, 1)),
           "composed with its inverse: the identity");
    close_bench(&t);

    t = open_bench(2, 2);
    set(&t, yt_component(t.f, 1), 256, 1, 0);
    set(&t, yt_component(t.f, 1), 15, 0, 1);
    set(&t, yt_component(t.f, 2), 1, 1, 0);
    set(&t, yt_component(t.f, 2), 256, 0, 1);
    set(&t, yt_component(t.g, 1), 7, 2, 0);
    record(is(yt_invert(t.c, t.f, t.g), 9, 0) && WORDS(t.c, yt_component(t.g, 1), 1, ENTRY(3, 7)),
           "determinant 65,521 is refused 9, the result unchanged");
    set(&t, yt_component(t.f, 1), 14, 0, 1);
    record(fine(yt_invert(t.c, t.f, t.g)) &&
               WORDS(t.c, yt_component(t.g, 1), 2, ENTRY(2, 256), ENTRY(4, 65507)) &&
               WORDS(t.c, yt_component(t.g, 2), 2, ENTRY(2, 65520), ENTRY(4, 256)),
           "determinant 65,522 is inverted");
    close_bench(&t);

    t = open_bench(2, 1);
    set(&t, yt_component(t.f, 1), 2, 1, 0);
    set(&t, yt_component(t.f, 1), 3, 2, 0);
    record(fine(yt_invert(t.c, t.f, t.g)) &&
               WORDS(t.c, yt_component(t.g, 1), 2, ENTRY(2, 32761), ENTRY(3, 24570)),
           "2x + 3x^2 inverted");
    close_bench(&t);
}

/* The examples of the refusals, straight through the interface. */
static void refusals(void)
{
    uint16_t table[18], swap;
    const uint32_t bad[7] = { 2, 196609, 196609 }, zero[7] = { 0 };
    uint32_t result[7];
    uint64_t answer;

    record(yigtrav_build_table(2, 2, table, 17) == (2 | 1 << 24), "table of 17 words is refused 2 at 1");
    record(yigtrav_build_table(2, 2, NULL, 0) == (2 | 1 << 24), "null table of length 0 is refused 2 at 1");
    record(yigtrav_build_table(2, 2, table, 18) == 0 && yigtrav_check_table(2, 2, table, 18) == 0,
           "table of 18 words");
    swap = table[13];
    table[13] = table[14];
    table[14] = swap;
    answer = yigtrav_check_table(2, 2, table, 18);
    record(yigtrav_number(answer) == 6 && yigtrav_place(answer) == 13, "words 13 and 14 exchanged: 6 at 13");
    memset(result, 7, sizeof result);
    answer = yigtrav_sum(2, 2, bad, 7, zero, 7, result, 7);
    record(yigtrav_number(answer) == 7 && yigtrav_argument(answer) == 1 && yigtrav_component(answer) == 1 &&
               yigtrav_place(answer) == 2 && yigtrav_reported(answer) == 0 && result[0] == 0x07070707,
           "a position twice: 7 at argument 1, component 1, word 2");
}

/* ---- bad use ---- */

static void bad_use(void)
{
    struct bench t = open_bench(2, 2), other = open_bench(2, 1), same_count = open_bench(1, 2);
    const uint32_t high[] = { 2, 1 }, huge[] = { 1, 0xffffffff }, one[] = { 0, 0 };
    const uint32_t words[7] = { 1, ENTRY(1, 65521) }, good[8] = { 1, ENTRY(2, 5), 0, 0, 0, 0, 0, 99 };
    uint32_t at = 0, e2[2];
    yt_context *none;
    char text[120];
    yt_error e;
    set(&t, t.r, 5, 1, 0);
    set(&t, t.a, 1, 1, 0);

    record(is(yt_open(0, 2, &none), 1, 0) && is(yt_open(0xffffffff, 0xffffffff, &none), 1, 0), "n 0; v 2^32 - 1");
    record(is(yt_open(2, 2, NULL), YT_NULL, 3), "no place for the context");

    /* Wrong lengths, words that are no image, null slices. */
    e = yt_read(t.c, good, 6, t.r);
    record(is(e, 2, 1), "words of a wrong length");
    record(is(yt_read(t.c, NULL, 0, t.r), 2, 1), "null words of length 0");
    record(is(yt_read(t.c, NULL, 7, t.r), YT_NULL, 1), "null words of length 7");
    e = yt_read(t.c, words, 7, t.r);
    record(e.number == 7 && e.argument == 1 && e.component == 1 && e.place == 1, "a coefficient word of 65,521");
    record(is(yt_read(t.c, yt_words(t.r), 7, t.r), YT_OVERLAP, 1), "words read into themselves");
    record(WORDS(t.c, t.r, 1, ENTRY(2, 5)), "all of that leaves the result unchanged");
    record(fine(yt_read(t.c, good, 8, t.r)) && WORDS(t.c, t.r, 1, ENTRY(2, 5)), "a longer slice is allowed");

    /* Null arguments. */
    record(is(yt_sum(NULL, t.a, t.a, t.r), YT_NULL, 0), "no context");
    record(is(yt_sum(t.c, NULL, t.a, t.r), YT_NULL, 1) && is(yt_sum(t.c, t.a, NULL, t.r), YT_NULL, 2) &&
               is(yt_sum(t.c, t.a, t.a, NULL), YT_NULL, 3), "null series");
    record(is(yt_multiple(t.c, 2, NULL, t.r), YT_NULL, 2) && is(yt_derivative(t.c, 1, t.a, NULL), YT_NULL, 3),
           "null series after a number");
    record(is(yt_substitute(t.c, t.a, NULL, t.r), YT_NULL, 2) && is(yt_compose(t.c, NULL, t.f, t.g), YT_NULL, 1) &&
               is(yt_invert(t.c, t.f, NULL), YT_NULL, 2), "null maps");
    record(yt_component(t.f, 0) == NULL && yt_component(t.f, 3) == NULL && yt_component(NULL, 1) == NULL,
           "no such component");
    record(is(yt_set(t.c, yt_component(t.f, 3), one, 1), YT_NULL, 1), "set in no such component");
    record(is(yt_set(t.c, t.a, NULL, 1), YT_NULL, 2) && is(yt_get(t.c, t.a, one, NULL), YT_NULL, 3) &&
               is(yt_position(t.c, NULL, &at), YT_NULL, 1) && is(yt_exponents(t.c, 1, NULL), YT_NULL, 2),
           "null exponents");
    yt_close(NULL);
    yt_free_map(NULL);
    yt_free_series(NULL);

    /* Another setting, also one with as many monomials (n 2, v 1 and n 1, v 2 have 3). */
    record(is(yt_sum(t.c, t.a, other.a, t.r), YT_OTHER_SETTING, 2), "series of another setting");
    record(is(yt_product(t.c, t.a, t.a, other.r, NULL), YT_OTHER_SETTING, 3), "result of another setting");
    record(is(yt_invert(t.c, other.f, t.g), YT_OTHER_SETTING, 1) &&
               is(yt_compose(t.c, t.f, other.f, t.g), YT_OTHER_SETTING, 2), "map of another setting");
    record(is(yt_sum(other.c, other.a, same_count.a, other.r), YT_OTHER_SETTING, 2),
           "another setting with the same N");

    /* Numbers out of range. */
    record(is(yt_set(t.c, t.a, one, 65521), YT_COEFFICIENT, 0), "coefficient 65,521");
    record(is(yt_set(t.c, t.a, high, 1), YT_NO_MONOMIAL, 0), "a monomial of order 3");
    record(is(yt_position(t.c, huge, &at), YT_NO_MONOMIAL, 0), "exponents whose sum wraps");
    record(is(yt_exponents(t.c, 0, e2), YT_NO_MONOMIAL, 0) && is(yt_exponents(t.c, 7, e2), YT_NO_MONOMIAL, 0),
           "positions 0 and N + 1");
    record(is(yt_multiple(t.c, 65521, t.a, t.r), 5, 0), "multiplier 65,521");
    record(is(yt_derivative(t.c, 3, t.a, t.r), 3, 0) && is(yt_derivative(t.c, 0, t.a, t.r), 3, 0),
           "derivative in x3 and x0");
    record(is(yt_bracket(other.c, other.a, other.b, other.r), 4, 0), "bracket with odd v");

    /* Maps that are refused. */
    record(is(yt_invert(t.c, t.f, t.g), 9, 0), "the zero map");
    set(&t, yt_component(t.f, 1), 1, 0, 0);
    set(&t, yt_component(t.f, 1), 1, 1, 0);
    set(&t, yt_component(t.f, 2), 1, 0, 1);
    record(is(yt_invert(t.c, t.f, t.g), 8, 1) && is(yt_substitute(t.c, t.a, t.f, t.r), 8, 1) &&
               is(yt_compose(t.c, t.g, t.f, t.h), 8, 1), "(1 + x1, x2)");
    record(fine(yt_compose(t.c, t.f, t.g, t.h)), "an outer map may have a constant");

    /* A result that is an input. */
    record(is(yt_sum(t.c, t.a, t.b, t.a), YT_OVERLAP, 1) && is(yt_invert(t.c, t.f, t.f), YT_OVERLAP, 1) &&
               is(yt_substitute(t.c, t.a, t.f, yt_component(t.f, 2)), YT_OVERLAP, 2), "result is an input");
    record(WORDS(t.c, t.r, 1, ENTRY(2, 5)), "all of that leaves the result unchanged, too");

    yt_message((yt_error){ 7, 2, 1, 3 }, text, sizeof text);
    record(strcmp(text, "refusal 7: argument 2, component 1 is not an image at word 3") == 0, "message of 7");
    yt_message((yt_error){ .number = 6, .place = 13 }, text, sizeof text);
    record(strcmp(text, "refusal 6: table word 13 differs from the rule") == 0, "message of 6");
    for (uint32_t number = 0; number < 300; number++)
        yt_message((yt_error){ .number = number }, text, number % 20);
    close_bench(&same_count);
    close_bench(&other);
    close_bench(&t);
}

int main(void)
{
    positions();
    products();
    brackets_and_maps();
    refusals();
    bad_use();
    printf("%d passed, %d failed\n", passed, failed);
    return failed != 0;
}
