#include "yt.h"

#include <stdio.h>
#include <stdlib.h>
#include <string.h>
#include <yigtrav.h>

struct yt_context {
    uint32_t n, v;
    uint32_t half;  /* variables in C1 */
    uint32_t count; /* N */
    size_t codes;   /* E */
    size_t table_len, work_len;
    uint16_t *table;
    uint32_t *work;
};

struct yt_series {
    uint32_t n, v;
    size_t length;
    uint32_t *words;
};

struct yt_map {
    uint32_t n, v;
    size_t length;
    uint32_t *words;
    yt_series component[]; /* v of them, each in its part of the words */
};

/* ---- errors ------------------------------------------------------------------------------------------------- */

static const yt_error none;

static yt_error error_at(uint32_t number, uint64_t place)
{
    return (yt_error){ .number = number, .place = place };
}

static yt_error decode(uint64_t answer)
{
    return (yt_error){ yigtrav_number(answer), yigtrav_argument(answer), yigtrav_component(answer),
                       yigtrav_place(answer) };
}

char *yt_message(yt_error e, char *text, size_t size)
{
    static const char *const refusals[] = {
        "no error", "n, v or N out of range", "slice %llu is too short", "variable not 1 to v",
        "bracket with odd v", "multiplier above 65,520", "table word %llu differs from the rule",
        "", "component %llu has a constant", "linear part singular modulo 65,521"
    };
    static const char *const errors[] = {
        "argument %llu is null", "argument %llu is of another setting", "the result overlaps argument %llu",
        "no such monomial in this setting", "coefficient above 65,520", "out of memory"
    };
    unsigned long long place = e.place;
    if (text == NULL || size == 0)
        return text;
    if (e.number == YIGTRAV_NOT_AN_IMAGE)
        snprintf(text, size, "refusal 7: argument %u, component %u is not an image at word %llu",
                 (unsigned)e.argument, (unsigned)e.component, place);
    else if (e.number == 0)
        snprintf(text, size, "%s", refusals[0]);
    else if (e.number <= YIGTRAV_SINGULAR) {
        int used = snprintf(text, size, "refusal %u: ", (unsigned)e.number);
        if ((size_t)used < size)
            snprintf(text + used, size - (size_t)used, refusals[e.number], place);
    } else if (e.number >= YT_NULL && e.number <= YT_NO_MEMORY)
        snprintf(text, size, errors[e.number - YT_NULL], place);
    else
        snprintf(text, size, "unknown error %u", (unsigned)e.number);
    return text;
}

/* ---- contexts ----------------------------------------------------------------------------------------------- */

yt_error yt_open(uint32_t n, uint32_t v, yt_context **context)
{
    yt_error e;
    yt_context *c;
    if (context == NULL)
        return error_at(YT_NULL, 3);
    *context = NULL;
    if (yigtrav_count(n, v) == 0)
        return error_at(YIGTRAV_SETTING_OUT_OF_RANGE, 0);
    c = calloc(1, sizeof *c);
    if (c == NULL)
        return error_at(YT_NO_MEMORY, 0);
    c->n = n;
    c->v = v;
    c->half = (v + 1) / 2;
    c->count = (uint32_t)yigtrav_count(n, v);
    c->table_len = (size_t)yigtrav_table_words(n, v);
    c->work_len = (size_t)yigtrav_work_words(n, v);
    c->codes = c->table_len / 2 - c->count;
    c->table = calloc(c->table_len, sizeof *c->table);
    c->work = calloc(c->work_len, sizeof *c->work);
    if (c->table == NULL || c->work == NULL)
        e = error_at(YT_NO_MEMORY, 0);
    else
        e = decode(yigtrav_build_table(n, v, c->table, c->table_len));
    if (e.number) {
        yt_close(c);
        return e;
    }
    *context = c;
    return none;
}

void yt_close(yt_context *c)
{
    if (c == NULL)
        return;
    free(c->table);
    free(c->work);
    free(c);
}

uint32_t yt_order(const yt_context *c)
{
    return c ? c->n : 0;
}

uint32_t yt_variables(const yt_context *c)
{
    return c ? c->v : 0;
}

uint32_t yt_count(const yt_context *c)
{
    return c ? c->count : 0;
}

yt_error yt_position(const yt_context *c, const uint32_t *exponents, uint32_t *position)
{
    uint32_t order = 0, code[2] = { 0, 0 }, weight[2] = { 1, 1 };
    if (c == NULL || exponents == NULL || position == NULL)
        return error_at(YT_NULL, c == NULL ? 0 : exponents == NULL ? 1 : 2);
    for (uint32_t i = 0; i < c->v; i++) {
        int side = i >= c->half;
        /* The order is tested before codes are added: beyond n the table leads to other monomials. */
        if (exponents[i] > c->n - order)
            return error_at(YT_NO_MONOMIAL, 0);
        order += exponents[i];
        code[side] += exponents[i] * weight[side];
        weight[side] *= c->n + 1;
    }
    const uint16_t *d1 = c->table + 2 * c->count, *d2 = d1 + c->codes;
    *position = (uint32_t)d1[code[0]] + d2[code[1]];
    return none;
}

yt_error yt_exponents(const yt_context *c, uint32_t position, uint32_t *exponents)
{
    if (c == NULL || exponents == NULL)
        return error_at(YT_NULL, c == NULL ? 0 : 2);
    if (position < 1 || position > c->count)
        return error_at(YT_NO_MONOMIAL, 0);
    uint32_t code[2] = { c->table[position - 1], c->table[c->count + position - 1] };
    for (uint32_t i = 0; i < c->v; i++) {
        int side = i >= c->half;
        exponents[i] = code[side] % (c->n + 1);
        code[side] /= c->n + 1;
    }
    return none;
}

/* ---- series and maps ---------------------------------------------------------------------------------------- */

yt_error yt_new_series(const yt_context *c, yt_series **series)
{
    yt_series *s;
    if (c == NULL || series == NULL)
        return error_at(YT_NULL, c == NULL ? 0 : 1);
    *series = NULL;
    s = calloc(1, sizeof *s);
    if (s == NULL)
        return error_at(YT_NO_MEMORY, 0);
    *s = (yt_series){ c->n, c->v, (size_t)c->count + 1, calloc((size_t)c->count + 1, sizeof *s->words) };
    if (s->words == NULL) {
        free(s);
        return error_at(YT_NO_MEMORY, 0);
    }
    *series = s;
    return none;
}

yt_error yt_new_map(const yt_context *c, yt_map **map)
{
    size_t length;
    yt_map *m;
    if (c == NULL || map == NULL)
        return error_at(YT_NULL, c == NULL ? 0 : 1);
    *map = NULL;
    length = (size_t)c->count + 1;
    m = calloc(1, sizeof *m + c->v * sizeof m->component[0]);
    if (m == NULL)
        return error_at(YT_NO_MEMORY, 0);
    m->n = c->n;
    m->v = c->v;
    m->length = c->v * length;
    m->words = calloc(m->length, sizeof *m->words);
    if (m->words == NULL) {
        free(m);
        return error_at(YT_NO_MEMORY, 0);
    }
    for (uint32_t k = 0; k < c->v; k++)
        m->component[k] = (yt_series){ c->n, c->v, length, m->words + k * length };
    *map = m;
    return none;
}

void yt_free_series(yt_series *s)
{
    if (s == NULL)
        return;
    free(s->words);
    free(s);
}

void yt_free_map(yt_map *m)
{
    if (m == NULL)
        return;
    free(m->words);
    free(m);
}

yt_series *yt_component(yt_map *m, uint32_t k)
{
    return m != NULL && k >= 1 && k <= m->v ? &m->component[k - 1] : NULL;
}

const uint32_t *yt_words(const yt_series *s)
{
    return s ? s->words : NULL;
}

/* An argument that may be a series or a map, as the checks below see it. */
struct operand {
    int given;
    uint32_t n, v;
    const uint32_t *words;
    size_t length;
};

static struct operand of_series(const yt_series *s)
{
    return s ? (struct operand){ 1, s->n, s->v, s->words, s->length } : (struct operand){ 0 };
}

static struct operand of_map(const yt_map *m)
{
    return m ? (struct operand){ 1, m->n, m->v, m->words, m->length } : (struct operand){ 0 };
}

/* Arguments first, first + 1, ..: none null, all of the context's setting, the last (the result) apart from the
 * others. */
static yt_error check(const yt_context *c, uint64_t first, const struct operand *operand, size_t operands)
{
    if (c == NULL)
        return error_at(YT_NULL, 0);
    for (size_t i = 0; i < operands; i++)
        if (!operand[i].given)
            return error_at(YT_NULL, first + i);
    for (size_t i = 0; i < operands; i++)
        if (operand[i].n != c->n || operand[i].v != c->v)
            return error_at(YT_OTHER_SETTING, first + i);
    for (size_t i = 0; i + 1 < operands; i++) {
        const struct operand *a = &operand[i], *r = &operand[operands - 1];
        if ((uintptr_t)a->words < (uintptr_t)(r->words + r->length) &&
            (uintptr_t)r->words < (uintptr_t)(a->words + a->length))
            return error_at(YT_OVERLAP, first + i);
    }
    return none;
}

/* First entry at or after a position. */
static uint32_t entry_from(const yt_series *s, uint32_t position)
{
    uint32_t i = 1;
    while (i <= s->words[0] && yigtrav_entry_position(s->words[i]) < position)
        i++;
    return i;
}

yt_error yt_set(const yt_context *c, yt_series *s, const uint32_t *exponents, uint32_t coefficient)
{
    uint32_t position, i, m;
    yt_error e = check(c, 1, (struct operand[]){ of_series(s) }, 1);
    if (e.number)
        return e;
    if (exponents == NULL)
        return error_at(YT_NULL, 2);
    if (coefficient >= YIGTRAV_MODULUS)
        return error_at(YT_COEFFICIENT, 0);
    e = yt_position(c, exponents, &position);
    if (e.number)
        return e;
    m = s->words[0];
    i = entry_from(s, position);
    int present = i <= m && yigtrav_entry_position(s->words[i]) == position;
    if (coefficient == 0) {
        if (!present)
            return none;
        memmove(s->words + i, s->words + i + 1, (m - i) * sizeof *s->words);
        s->words[m] = 0;
        s->words[0] = m - 1;
        return none;
    }
    if (!present) {
        memmove(s->words + i + 1, s->words + i, (m + 1 - i) * sizeof *s->words);
        s->words[0] = m + 1;
    }
    s->words[i] = yigtrav_entry(position, coefficient);
    return none;
}

yt_error yt_get(const yt_context *c, const yt_series *s, const uint32_t *exponents, uint32_t *coefficient)
{
    uint32_t position, i;
    yt_error e = check(c, 1, (struct operand[]){ of_series(s) }, 1);
    if (e.number)
        return e;
    if (exponents == NULL || coefficient == NULL)
        return error_at(YT_NULL, exponents == NULL ? 2 : 3);
    e = yt_position(c, exponents, &position);
    if (e.number)
        return e;
    i = entry_from(s, position);
    *coefficient = i <= s->words[0] && yigtrav_entry_position(s->words[i]) == position
                       ? yigtrav_entry_coefficient(s->words[i])
                       : 0;
    return none;
}

yt_error yt_read(const yt_context *c, const uint32_t *words, size_t length, yt_series *s)
{
    if (c != NULL && words == NULL && length > 0)
        return error_at(YT_NULL, 1);
    yt_error e = check(c, 3, (struct operand[]){ of_series(s) }, 1);
    if (e.number)
        return e;
    if (length > 0 && (uintptr_t)words < (uintptr_t)(s->words + s->length) &&
        (uintptr_t)s->words < (uintptr_t)(words + length))
        return error_at(YT_OVERLAP, 1);
    /* Once a series is a copy that the kernel has checked. */
    return decode(yigtrav_multiple(c->n, c->v, 1, words, length, s->words, s->length));
}

/* ---- operations --------------------------------------------------------------------------------------------- */

yt_error yt_sum(yt_context *c, const yt_series *a, const yt_series *b, yt_series *r)
{
    yt_error e = check(c, 1, (struct operand[]){ of_series(a), of_series(b), of_series(r) }, 3);
    return e.number ? e
                    : decode(yigtrav_sum(c->n, c->v, a->words, a->length, b->words, b->length, r->words,
                                         r->length));
}

yt_error yt_difference(yt_context *c, const yt_series *a, const yt_series *b, yt_series *r)
{
    yt_error e = check(c, 1, (struct operand[]){ of_series(a), of_series(b), of_series(r) }, 3);
    return e.number ? e
                    : decode(yigtrav_difference(c->n, c->v, a->words, a->length, b->words, b->length, r->words,
                                                r->length));
}

yt_error yt_multiple(yt_context *c, uint32_t by, const yt_series *a, yt_series *r)
{
    yt_error e = check(c, 2, (struct operand[]){ of_series(a), of_series(r) }, 2);
    return e.number ? e : decode(yigtrav_multiple(c->n, c->v, by, a->words, a->length, r->words, r->length));
}

yt_error yt_product(yt_context *c, const yt_series *a, const yt_series *b, yt_series *r, uint64_t *pairs)
{
    uint64_t answer;
    yt_error e = check(c, 1, (struct operand[]){ of_series(a), of_series(b), of_series(r) }, 3);
    if (e.number)
        return e;
    answer = yigtrav_product(c->n, c->v, c->table, c->table_len, a->words, a->length, b->words, b->length,
                             r->words, r->length, c->work, c->work_len);
    e = decode(answer);
    if (e.number == 0 && pairs != NULL)
        *pairs = yigtrav_reported(answer);
    return e;
}

yt_error yt_derivative(yt_context *c, uint32_t k, const yt_series *a, yt_series *r)
{
    yt_error e = check(c, 2, (struct operand[]){ of_series(a), of_series(r) }, 2);
    return e.number ? e
                    : decode(yigtrav_derivative(c->n, c->v, k, c->table, c->table_len, a->words, a->length,
                                                r->words, r->length));
}

yt_error yt_bracket(yt_context *c, const yt_series *a, const yt_series *b, yt_series *r)
{
    yt_error e = check(c, 1, (struct operand[]){ of_series(a), of_series(b), of_series(r) }, 3);
    return e.number ? e
                    : decode(yigtrav_bracket(c->n, c->v, c->table, c->table_len, a->words, a->length, b->words,
                                             b->length, r->words, r->length, c->work, c->work_len));
}

yt_error yt_substitute(yt_context *c, const yt_series *a, const yt_map *map, yt_series *r)
{
    yt_error e = check(c, 1, (struct operand[]){ of_series(a), of_map(map), of_series(r) }, 3);
    return e.number ? e
                    : decode(yigtrav_substitute(c->n, c->v, c->table, c->table_len, a->words, a->length,
                                                map->words, map->length, r->words, r->length, c->work,
                                                c->work_len));
}

yt_error yt_compose(yt_context *c, const yt_map *outer, const yt_map *inner, yt_map *r)
{
    yt_error e = check(c, 1, (struct operand[]){ of_map(outer), of_map(inner), of_map(r) }, 3);
    return e.number ? e
                    : decode(yigtrav_compose(c->n, c->v, c->table, c->table_len, outer->words, outer->length,
                                             inner->words, inner->length, r->words, r->length, c->work,
                                             c->work_len));
}

yt_error yt_invert(yt_context *c, const yt_map *map, yt_map *r)
{
    yt_error e = check(c, 1, (struct operand[]){ of_map(map), of_map(r) }, 2);
    return e.number ? e
                    : decode(yigtrav_invert(c->n, c->v, c->table, c->table_len, map->words, map->length,
                                            r->words, r->length, c->work, c->work_len));
}
