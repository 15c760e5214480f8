/*
 * Random calls of the kernel, each beside the same call of plain C (bench/plain), a second implementation.
 *
 *     fuzz [--calls N] [--seconds S] [--seed S] [--from I]
 *
 * Stops after a million calls or 60 seconds, whichever comes first; --calls or --seconds alone lifts the other limit.
 * Call I depends on the seed and on I only, so --seed S --from I --calls 1 repeats it.
 *
 * Of every call it is tested that
 * - the answer is that of plain C;
 * - a refused call has changed no word;
 * - a finished call has left plain C's words in the result, which are an image or a table, zeros in work space, and
 *   no other word changed: no input, no word beyond a needed length, no canary before or after a slice.
 * Both sides get different words where the words must not matter: in results, in work space, beyond the needed
 * lengths. Many slices end or begin at a page that can be neither read nor written, so that reading outside them is
 * found, too.
 *
 * The last line is 'N passed, M failed'. Functions that the library does not export are skipped and listed.
 */
#define _GNU_SOURCE
#include "../../bench/plain/plain.h"

#include <inttypes.h>
#include <signal.h>
#include <stdarg.h>
#include <stdio.h>
#include <stdlib.h>
#include <string.h>
#include <sys/mman.h>
#include <time.h>
#include <unistd.h>
#include <yigtrav.h>

/* Written out once more, so that a function that is missing is null here and not an error of the linker. */
#define FUNCTIONS(use)                                                                                         \
    use(build_table) use(check_table) use(sum) use(difference) use(multiple) use(product) use(derivative)      \
    use(bracket) use(substitute) use(compose) use(invert) use(count) use(table_words) use(work_words)
#define WEAK(f) extern __typeof__(yigtrav_##f) yigtrav_##f __attribute__((weak));
FUNCTIONS(WEAK)

enum operation {
#define NUMBER(f) OP_##f,
    FUNCTIONS(NUMBER) OPERATIONS
};

static const char *const names[OPERATIONS] = {
#define NAME(f) #f,
    FUNCTIONS(NAME)
};

static int present[OPERATIONS];

enum {
    P = 65521,
    MAX_ORDER = 10,
    MAX_VARIABLES = 8,
    MAX_COUNT = 8008,
    MAX_SLICES = 5,
    REGION = 1 << 20, /* bytes for one slice; work space is the longest, 833,224 */
    CANARY = 64       /* bytes */
};

/* ---- random numbers ------------------------------------------------------------------------------------------- */

static uint64_t state;

static uint64_t random_word(void)
{
    uint64_t z = state += 0x9e3779b97f4a7c15;
    z = (z ^ z >> 30) * 0xbf58476d1ce4e5b9;
    z = (z ^ z >> 27) * 0x94d049bb133111eb;
    return z ^ z >> 31;
}

static uint32_t below(uint32_t bound)
{
    return (uint32_t)((random_word() >> 32) * bound >> 32);
}

static int percent(uint32_t chance)
{
    return below(100) < chance;
}

static void fill(void *at, size_t bytes)
{
    uint64_t word;
    uint8_t *b = at;
    for (; bytes >= sizeof word; b += sizeof word, bytes -= sizeof word) {
        word = random_word();
        memcpy(b, &word, sizeof word);
    }
    word = random_word();
    memcpy(b, &word, bytes);
}

/* ---- settings ------------------------------------------------------------------------------------------------- */

struct setting {
    uint32_t n, v, count, length, map, table_len, work_len;
    uint16_t *table;
    uint32_t variable[MAX_VARIABLES]; /* positions */
    uint8_t *order;                   /* by position */
};

static struct setting settings[75];
static uint32_t number_of_settings;
static uint32_t by_count[75]; /* settings by ascending N */

static uint32_t digit_sum(uint32_t code, uint32_t base)
{
    uint32_t sum = 0;
    for (; code; code /= base)
        sum += code % base;
    return sum;
}

static void make_setting(struct setting *s, uint32_t n, uint32_t v)
{
    uint32_t half = (v + 1) / 2, weight = 1;
    s->n = n;
    s->v = v;
    s->count = (uint32_t)plain_count(n, v);
    s->length = s->count + 1;
    s->map = v * s->length;
    s->table_len = (uint32_t)plain_table_words(n, v);
    s->work_len = (uint32_t)plain_work_words(n, v);
    s->table = malloc(s->table_len * sizeof *s->table);
    s->order = calloc(s->length, 1);
    if (s->table == NULL || s->order == NULL || plain_build_table(n, v, s->table, s->table_len) != 0)
        abort();
    for (uint32_t i = 0; i < s->count; i++)
        s->order[i + 1] = (uint8_t)(digit_sum(s->table[i], n + 1) + digit_sum(s->table[s->count + i], n + 1));
    const uint16_t *d1 = s->table + 2 * s->count, *d2 = d1 + (s->table_len / 2 - s->count);
    for (uint32_t i = 0; i < v; i++) {
        if (i == half)
            weight = 1;
        s->variable[i] = i < half ? d1[weight] : d2[weight] + 1u;
        weight *= n + 1;
    }
}

static void make_settings(void)
{
    for (uint32_t v = 1; v <= MAX_VARIABLES; v++)
        for (uint32_t n = 1; n <= MAX_ORDER; n++)
            if (plain_count(n, v))
                make_setting(&settings[number_of_settings++], n, v);
    for (uint32_t i = 0; i < number_of_settings; i++) {
        uint32_t j = i;
        for (; j > 0 && settings[by_count[j - 1]].count > settings[i].count; j--)
            by_count[j] = by_count[j - 1];
        by_count[j] = i;
    }
}

static const struct setting *find_setting(uint32_t n, uint32_t v)
{
    for (uint32_t i = 0; i < number_of_settings; i++)
        if (settings[i].n == n && settings[i].v == v)
            return &settings[i];
    return NULL;
}

/* Small settings mostly: their calls are short, and every edge is near. */
static const struct setting *choose_setting(void)
{
    static uint32_t small, medium;
    uint32_t dice = below(100);
    while (settings[by_count[small]].count <= 35)
        small++;
    while (settings[by_count[medium]].count <= 500)
        medium++;
    return &settings[by_count[below(dice < 2 ? number_of_settings : dice < 45 ? medium : small)]];
}

/* ---- slices --------------------------------------------------------------------------------------------------- */

enum kind { TABLE, SERIES, MAP, WORK };

struct slice {
    enum kind kind;
    int written;        /* by a call that finishes */
    uint32_t width;     /* bytes of a word */
    uint32_t needed;    /* words */
    uint32_t length;    /* words passed */
    int null;           /* where the length is 0: a null pointer, not one that nothing may be read at */
    uint8_t *before;    /* the kernel's words before the call */
    uint8_t *side[2];   /* where the kernel and plain C have it */
    uint8_t *region[2]; /* REGION bytes between two pages that cannot be touched */
};

static struct slice pool[MAX_SLICES];

static uint8_t *guarded_region(void)
{
    size_t page = (size_t)sysconf(_SC_PAGESIZE);
    uint8_t *all = mmap(NULL, REGION + 2 * page, PROT_NONE, MAP_PRIVATE | MAP_ANONYMOUS, -1, 0);
    if (all == MAP_FAILED || mprotect(all + page, REGION, PROT_READ | PROT_WRITE) != 0) {
        perror("fuzz: mmap");
        exit(2);
    }
    return all + page;
}

static void make_pool(void)
{
    for (int i = 0; i < MAX_SLICES; i++) {
        pool[i].before = malloc(REGION);
        if (pool[i].before == NULL)
            abort();
        for (int j = 0; j < 2; j++)
            pool[i].region[j] = guarded_region();
    }
}

static uint32_t needed_words(const struct setting *s, enum kind kind)
{
    return kind == TABLE ? s->table_len : kind == SERIES ? s->length : kind == MAP ? s->map : s->work_len;
}

static size_t bytes(const struct slice *s)
{
    return (size_t)s->length * s->width;
}

/* Canaries are what of CANARY bytes before and after a slice lies in its region. */
static uint8_t *canary(const struct slice *s, int side, int after, size_t *size)
{
    uint8_t *from = s->side[side], *end = s->region[side] + REGION;
    if (after) {
        from += bytes(s);
        *size = (size_t)(end - from) < CANARY ? (size_t)(end - from) : CANARY;
        return from;
    }
    *size = (size_t)(from - s->region[side]) < CANARY ? (size_t)(from - s->region[side]) : CANARY;
    return from - *size;
}

static const uint8_t canary_bytes[CANARY] = { [0 ... CANARY - 1] = 0xc3 };

/* Puts the words in `before` in place for both sides. */
static void place_slice(struct slice *s)
{
    size_t size = bytes(s), same = (size_t)(s->needed < s->length ? s->needed : s->length) * s->width, around;
    uint32_t dice = below(3), shift = s->width * below(33);
    for (int side = 0; side < 2; side++) {
        uint8_t *region = s->region[side];
        s->side[side] = dice == 0 ? region : dice == 1 ? region + REGION - size : region + CANARY + shift;
        if (s->written)
            same = 0;
        /* Plain C has other words where the words must not matter. */
        if (size)
            memcpy(s->side[side], s->before, side == 0 ? size : same);
        if (side == 1)
            fill(s->side[side] + same, size - same);
        for (int after = 0; after < 2; after++) {
            uint8_t *at = canary(s, side, after, &around);
            memcpy(at, canary_bytes, around);
        }
    }
}

/* ---- one call ------------------------------------------------------------------------------------------------- */

struct call {
    enum operation op;
    const struct setting *s; /* that the words were made for, and while a call runs the one that it names */
    uint32_t n, v;           /* as the call names them */
    uint32_t number;         /* multiplier or variable */
    struct slice *slice[MAX_SLICES];
    uint32_t slices;
    int shared; /* the second input is the first one */
};

static struct slice *add_slice(struct call *c, enum kind kind, int written)
{
    struct slice *x = &pool[c->slices];
    x->kind = kind;
    x->written = written;
    x->width = kind == TABLE ? 2 : 4;
    x->needed = x->length = needed_words(c->s, kind);
    x->null = percent(50);
    if (written)
        fill(x->before, bytes(x));
    c->slice[c->slices++] = x;
    return x;
}

static uint32_t *words(struct slice *s)
{
    return (uint32_t *)(void *)s->before;
}

static uint32_t coefficient(void)
{
    static const uint32_t special[] = { 1, 2, 255, 256, 32760, 32761, P - 2, P - 1 };
    return percent(20) ? special[below(8)] : 1 + below(P - 1);
}

/* Packs coefficients by position into an image. */
static void pack(const struct setting *s, const uint32_t *by_position, uint32_t *w)
{
    uint32_t m = 0;
    for (uint32_t i = 1; i <= s->count; i++)
        if (by_position[i])
            w[++m] = i << 16 | by_position[i];
    w[0] = m;
    memset(w + m + 1, 0, (s->count - m) * sizeof *w);
}

/* Coefficients by position, from a first position on: none, few, some or all. */
static void random_coefficients(const struct setting *s, uint32_t first, uint32_t *by_position)
{
    uint32_t kind = below(8), chance;
    memset(by_position, 0, s->length * sizeof *by_position);
    if (kind == 0 || first > s->count)
        return;
    if (kind <= 3) {
        for (uint32_t i = 1 + below(4); i > 0; i--)
            by_position[first + below(s->count - first + 1)] = coefficient();
        return;
    }
    chance = kind == 4 ? 100 : 5 + below(90);
    for (uint32_t i = first; i <= s->count; i++)
        if (percent(chance))
            by_position[i] = kind == 4 && s->n % 2 ? P - 1 : coefficient();
}

static void random_series(const struct setting *s, uint32_t *w)
{
    static uint32_t by_position[MAX_COUNT + 1];
    random_coefficients(s, 1, by_position);
    pack(s, by_position, w);
}

/* Rows of a matrix, regular or singular modulo p as the dice fall. */
static void random_matrix(uint32_t v, uint32_t matrix[MAX_VARIABLES][MAX_VARIABLES])
{
    uint32_t kind = below(6), permuted[MAX_VARIABLES];
    memset(matrix, 0, MAX_VARIABLES * sizeof matrix[0]);
    for (uint32_t i = 0; i < v; i++) {
        uint32_t j = below(i + 1);
        permuted[i] = permuted[j];
        permuted[j] = i;
    }
    for (uint32_t i = 0; i < v; i++)
        for (uint32_t j = 0; j < v; j++)
            switch (kind) {
            case 0: /* dense */
                matrix[i][j] = coefficient();
                break;
            case 1: /* sparse */
                matrix[i][j] = percent(40) ? coefficient() : 0;
                break;
            case 2: /* triangular, its columns exchanged */
                matrix[i][permuted[j]] = j < i ? below(P) : j == i ? coefficient() : 0;
                break;
            default: /* one number in each row and column */
                matrix[i][permuted[j]] = i == j ? coefficient() : 0;
            }
    if (v >= 2 && percent(10)) { /* a row that is a sum of multiples of two others, or of one */
        uint32_t a = below(v), b = below(v), r = below(v), x = below(P), y = below(P);
        for (uint32_t j = 0; r != a && r != b && j < v; j++)
            matrix[r][j] = (uint32_t)(((uint64_t)x * matrix[a][j] + (uint64_t)y * matrix[b][j]) % P);
    }
    if (v >= 2 && percent(3)) { /* determinant 65,521 or 65,522, which is 1, times the others */
        uint32_t corner = 14 + below(2), a = below(v - 1);
        for (uint32_t i = 0; i < v; i++)
            for (uint32_t j = 0; j < v; j++)
                matrix[i][j] = i == j;
        matrix[a][a] = matrix[a + 1][a + 1] = 256;
        matrix[a][a + 1] = corner;
        matrix[a + 1][a] = 1;
    }
}

/* A map without constants unless they are allowed. In large settings its higher orders are few and high, so that what
 * is composed of them stays small. */
static void random_map(const struct setting *s, int constants, uint32_t *w)
{
    static uint32_t by_position[MAX_COUNT + 1];
    uint32_t matrix[MAX_VARIABLES][MAX_VARIABLES];
    int linear = percent(80), large = s->count > 220;
    random_matrix(s->v, matrix);
    for (uint32_t k = 0; k < s->v; k++, w += s->length) {
        if (large) {
            memset(by_position, 0, s->length * sizeof *by_position);
            for (uint32_t i = below(4); i > 0; i--) {
                uint32_t position = 1 + below(s->count);
                if (2 * s->order[position] > s->n + 1)
                    by_position[position] = coefficient();
            }
            if (constants && percent(30))
                by_position[1] = coefficient();
        } else
            random_coefficients(s, constants ? 1 : 2, by_position);
        if (linear || large)
            for (uint32_t j = 0; j < s->v; j++)
                by_position[s->variable[j]] = large && k != j ? 0 : matrix[k][j];
        pack(s, by_position, w);
    }
}

static int takes_table(enum operation op)
{
    return op == OP_check_table || (op >= OP_product && op <= OP_invert);
}

/* The slices of a call that all checks pass, or nearly so: v may be odd, a linear part singular. */
static void make_inputs(struct call *c)
{
    const struct setting *s = c->s;
    struct slice *a = NULL, *b = NULL, *made;
    int map_result = c->op == OP_compose || c->op == OP_invert;
    c->slices = 0;
    c->shared = 0;
    c->number = 0;
    if (takes_table(c->op)) {
        made = add_slice(c, TABLE, 0);
        memcpy(made->before, s->table, s->table_len * sizeof *s->table);
    }
    switch (c->op) {
    case OP_build_table:
        add_slice(c, TABLE, 1);
        return;
    case OP_check_table:
        return;
    case OP_sum: case OP_difference: case OP_product: case OP_bracket:
        a = add_slice(c, SERIES, 0);
        b = add_slice(c, SERIES, 0);
        random_series(s, words(a));
        random_series(s, words(b));
        if (percent(10)) { /* a once more, here and there negated */
            memcpy(words(b), words(a), s->length * sizeof(uint32_t));
            for (uint32_t i = 1; i <= words(b)[0]; i++)
                if (percent(70))
                    words(b)[i] = (words(b)[i] & 0xffff0000) + P - (words(b)[i] & 0xffff);
        }
        break;
    case OP_multiple:
        c->number = percent(10) ? 0 : coefficient();
        a = add_slice(c, SERIES, 0);
        random_series(s, words(a));
        break;
    case OP_derivative:
        c->number = 1 + below(s->v);
        a = add_slice(c, SERIES, 0);
        random_series(s, words(a));
        break;
    case OP_substitute:
        a = add_slice(c, SERIES, 0);
        b = add_slice(c, MAP, 0);
        random_map(s, 1, words(b)); /* its first component, few terms in large settings, is the series */
        memcpy(words(a), words(b), s->length * sizeof(uint32_t));
        random_map(s, 0, words(b));
        break;
    case OP_compose:
        a = add_slice(c, MAP, 0);
        b = add_slice(c, MAP, 0);
        random_map(s, percent(50), words(a));
        random_map(s, 0, words(b));
        break;
    case OP_invert:
        a = add_slice(c, MAP, 0);
        random_map(s, 0, words(a));
        break;
    default:
        return;
    }
    add_slice(c, map_result ? MAP : SERIES, 1);
    if (c->op == OP_product || c->op >= OP_bracket)
        add_slice(c, WORK, 1);
    if (b != NULL && a->needed == b->needed && percent(4)) {
        c->shared = 1;
        memcpy(b->before, a->before, bytes(a));
    }
}

/* ---- damage --------------------------------------------------------------------------------------------------- */

static uint32_t wild_number(void)
{
    static const uint32_t wild[] = { 0, 1, 7, 9, 10, 11, 256, 257, 65521, 65522, 65535, 65536, 65537,
                                     0x7fffffff, 0x80000000, 0xfffffffe, 0xffffffff };
    return percent(80) ? wild[below(sizeof wild / sizeof wild[0])] : (uint32_t)random_word();
}

static void damage_series(const struct setting *s, uint32_t *w)
{
    uint32_t m = w[0] <= s->count ? w[0] : s->count, i = m ? 1 + below(m) : 0, before, c = coefficient();
    switch (below(m ? 6 : 2)) {
    case 0:
        w[0] = percent(30) ? s->count + 1 : percent(50) ? below(s->count + 2) : wild_number();
        return;
    case 1:
        w[1 + below(s->count)] = percent(50) ? (1 + below(s->count)) << 16 | c : wild_number();
        return;
    }
    before = i > 1 ? w[i - 1] >> 16 : 0;
    switch (below(8)) {
    case 0: w[i] = before << 16 | c; break;
    case 1: w[i] = below(before + 1) << 16 | c; break;
    case 2: w[i] = (s->count + 1) << 16 | c; break;
    case 3: w[i] = 0xffff0000 | c; break;
    case 4: w[i] &= 0xffff0000; break;
    case 5: w[i] = (w[i] & 0xffff0000) | (P + below(65536 - P)); break;
    case 6: w[i] = 0; break;
    case 7: w[i] ^= 1u << below(32); break;
    }
}

static void damage_table(const struct setting *s, uint16_t *table)
{
    uint32_t i = below(s->table_len), j = below(s->table_len);
    uint16_t swap = table[i];
    switch (below(4)) {
    case 0: table[i] = table[j]; table[j] = swap; break;
    case 1: table[i] ^= (uint16_t)(1u << below(16)); break;
    case 2: table[i] = (uint16_t)random_word(); break;
    case 3: { /* another setting's table */
        const struct setting *other = choose_setting();
        uint32_t shorter = other->table_len < s->table_len ? other->table_len : s->table_len;
        memcpy(table, other->table, shorter * sizeof *table);
    }
    }
}

static void damage_once(struct call *c)
{
    const struct setting *s = c->s;
    struct slice *x = c->slice[below(c->slices)];
    switch (below(10)) {
    case 0: /* setting */
        if (percent(50))
            c->n = wild_number();
        else
            c->v = wild_number();
        if (percent(10))
            c->n = wild_number();
        return;
    case 1: /* length */
        x->length = percent(50) ? x->needed - 1 : percent(30) ? 0 : below(x->needed);
        return;
    case 2: /* multiplier or variable */
        c->number = wild_number();
        return;
    case 3: case 4:
        if (takes_table(c->op))
            damage_table(s, (uint16_t *)(void *)c->slice[0]->before);
        return;
    case 5: /* a constant in a map */
        if (c->op == OP_substitute || c->op == OP_compose || c->op == OP_invert) {
            x = c->slice[c->op == OP_invert ? 1 : 2];
            uint32_t *w = words(x) + s->length * below(s->v);
            if (w[0] <= s->count && (w[0] == 0 || w[1] >> 16 != 1)) {
                memmove(w + 2, w + 1, (s->count - 1) * sizeof *w);
                w[0]++;
                w[1] = 1 << 16 | coefficient();
            }
        }
        return;
    case 6: /* words without any sense */
        if (!x->written && percent(20)) {
            fill(x->before, bytes(x));
            return;
        }
        /* fall through */
    default:
        if (x->width == 4 && !x->written)
            damage_series(s, words(x) + s->length * below(x->needed / s->length));
    }
}

static void damage(struct call *c)
{
    uint32_t times = percent(55) ? 0 : percent(70) ? 1 : 2 + below(3);
    for (; times > 0; times--)
        damage_once(c);
    /* Some slices are longer than needed. */
    for (uint32_t i = 0; i < c->slices; i++) {
        struct slice *x = c->slice[i];
        if (x->length == x->needed && percent(30)) {
            x->length += 1 + below(6);
            fill(x->before + (size_t)x->needed * x->width, (size_t)(x->length - x->needed) * x->width);
        }
    }
}

/* ---- calling and comparing ------------------------------------------------------------------------------------ */

#define S(i) x[i], c->slice[i]->length
#define RUN(f, ...) (side == 0 ? yigtrav_##f(__VA_ARGS__) : plain_##f(__VA_ARGS__))

static uint64_t run(const struct call *c, int side)
{
    void *x[MAX_SLICES];
    uint32_t n = c->n, v = c->v;
    for (uint32_t i = 0; i < c->slices; i++)
        /* A slice of length 0 is null, or stands where nothing may be read. */
        x[i] = c->slice[i]->length == 0 && c->slice[i]->null ? NULL : c->slice[i]->side[side];
    if (c->shared)
        x[takes_table(c->op) + 1] = x[takes_table(c->op)];
    switch (c->op) {
    case OP_build_table: return RUN(build_table, n, v, S(0));
    case OP_check_table: return RUN(check_table, n, v, S(0));
    case OP_sum: return RUN(sum, n, v, S(0), S(1), S(2));
    case OP_difference: return RUN(difference, n, v, S(0), S(1), S(2));
    case OP_multiple: return RUN(multiple, n, v, c->number, S(0), S(1));
    case OP_product: return RUN(product, n, v, S(0), S(1), S(2), S(3), S(4));
    case OP_derivative: return RUN(derivative, n, v, c->number, S(0), S(1), S(2));
    case OP_bracket: return RUN(bracket, n, v, S(0), S(1), S(2), S(3), S(4));
    case OP_substitute: return RUN(substitute, n, v, S(0), S(1), S(2), S(3), S(4));
    case OP_compose: return RUN(compose, n, v, S(0), S(1), S(2), S(3), S(4));
    case OP_invert: return RUN(invert, n, v, S(0), S(1), S(2), S(3));
    case OP_count: return RUN(count, n, v);
    case OP_table_words: return RUN(table_words, n, v);
    case OP_work_words: return RUN(work_words, n, v);
    default: abort();
    }
}

static int is_image(const struct setting *s, const uint32_t *w)
{
    uint32_t last = 0;
    if (w[0] > s->count)
        return 0;
    for (uint32_t i = 1; i <= s->count; i++) {
        uint32_t position = w[i] >> 16, coefficient = w[i] & 0xffff;
        if (i > w[0] ? w[i] != 0
                     : position <= last || position > s->count || coefficient < 1 || coefficient >= P)
            return 0;
        last = position;
    }
    return 1;
}

static uint64_t seed, calls_done, failures, current;
static uint64_t seen[OPERATIONS][10];

static void fail(const struct call *c, const char *format, ...)
{
    va_list list;
    if (failures > 20)
        return;
    printf("FAILED call %" PRIu64 ", %s n %u v %u: ", current, names[c->op], c->n, c->v);
    va_start(list, format);
    vprintf(format, list);
    va_end(list);
    printf(" (again: --seed %" PRIu64 " --from %" PRIu64 " --calls 1)\n", seed, current);
}

/* All of a finished or refused call's slices are as they must be. */
static int slices_good(const struct call *c, int refused)
{
    for (uint32_t i = 0; i < c->slices; i++) {
        const struct slice *x = c->slice[i];
        size_t size = bytes(x), kept = 0, around;
        for (int after = 0; after < 2; after++) {
            const uint8_t *at = canary(x, 0, after, &around);
            if (memcmp(at, canary_bytes, around) != 0) {
                fail(c, "words %s slice %u were changed", after ? "after" : "before", i + 1);
                return 0;
            }
        }
        if (x->written && !refused)
            kept = (size_t)x->needed * x->width;
        if (memcmp(x->side[0] + kept, x->before + kept, size - kept) != 0) {
            fail(c, "slice %u: %s was changed", i + 1,
                 refused ? "a word of a refused call" : kept ? "a word beyond the needed length" : "an input");
            return 0;
        }
        if (memcmp(x->side[0], x->side[1], kept) != 0) {
            fail(c, "slice %u differs from plain C's", i + 1);
            return 0;
        }
        if (kept && x->kind == WORK)
            for (uint32_t j = 0; j < x->needed; j++)
                if (((const uint32_t *)(const void *)x->side[0])[j] != 0) {
                    fail(c, "work space is not zero at word %u", j);
                    return 0;
                }
        if (kept && (x->kind == SERIES || x->kind == MAP))
            for (uint32_t k = 0; k < x->needed / c->s->length; k++)
                if (!is_image(c->s, (const uint32_t *)(const void *)x->side[0] + k * c->s->length)) {
                    fail(c, "component %u of the result is not an image", k + 1);
                    return 0;
                }
    }
    return 1;
}

static enum operation choose_operation(void)
{
    static const uint8_t weights[OPERATIONS] = {
        [OP_build_table] = 3, [OP_check_table] = 8, [OP_sum] = 10, [OP_difference] = 10, [OP_multiple] = 8,
        [OP_product] = 16, [OP_derivative] = 9, [OP_bracket] = 12, [OP_substitute] = 10, [OP_compose] = 8,
        [OP_invert] = 10, [OP_count] = 1, [OP_table_words] = 1, [OP_work_words] = 1
    };
    for (;;) {
        uint32_t dice = below(107), op = 0;
        while (dice >= weights[op])
            dice -= weights[op++];
        if (present[op])
            return (enum operation)op;
    }
}

static void one_call(void)
{
    struct call c;
    uint64_t answer, expected;
    int good = 1;
    state = seed * 0xd1342543de82ef95 + current;
    random_word();
    c.op = choose_operation();
    do
        c.s = choose_setting();
    while (c.op == OP_bracket && c.s->v % 2 && !percent(10));
    c.n = c.s->n;
    c.v = c.s->v;
    make_inputs(&c);
    if (c.slices)
        damage(&c);
    else if (percent(80)) {
        c.n = percent(50) ? below(13) : wild_number();
        c.v = percent(50) ? below(11) : wild_number();
    }
    /* The setting that the call names decides what is needed; 0 where it is out of range. */
    c.s = find_setting(c.n, c.v);
    for (uint32_t i = 0; i < c.slices; i++)
        c.slice[i]->needed = c.s ? needed_words(c.s, c.slice[i]->kind) : 0;
    if (c.shared) {
        /* Damage may have come to either; both names mean the first. */
        struct slice *a = c.slice[takes_table(c.op)], *b = c.slice[takes_table(c.op) + 1];
        b->length = a->length < b->length ? a->length : b->length;
        memcpy(b->before, a->before, bytes(b));
    }
    for (uint32_t i = 0; i < c.slices; i++)
        place_slice(c.slice[i]);

    answer = run(&c, 0);
    expected = run(&c, 1);

    if (answer != expected) {
        fail(&c, "answer %" PRIu64 " at %" PRIu64 ", %" PRIu64 ", %" PRIu64 "; plain C says %" PRIu64
                 " at %" PRIu64 ", %" PRIu64 ", %" PRIu64,
             answer & 0xff, answer >> 8 & 0xff, answer >> 16 & 0xff, answer >> 24, expected & 0xff,
             expected >> 8 & 0xff, expected >> 16 & 0xff, expected >> 24);
        good = 0;
    }
    if (c.slices) {
        good = good && slices_good(&c, (answer & 0xff) != 0);
        seen[c.op][(answer & 0xff) < 10 ? answer & 0xff : 0]++;
    } else
        seen[c.op][answer == 0]++;
    calls_done++;
    failures += !good;
}

/* ---- the run -------------------------------------------------------------------------------------------------- */

static void write_text(const char *text)
{
    if (write(STDOUT_FILENO, text, strlen(text)) < 0)
        _exit(3);
}

static char *decimal(uint64_t x, char *end)
{
    *--end = 0;
    do
        *--end = (char)('0' + x % 10);
    while (x /= 10);
    return end;
}

/* A crash or a call without end: says which call, which printf could not do from here. */
static void on_signal(int number)
{
    char text[24];
    write_text(number == SIGALRM ? "\nFAILED no end of call " : "\nFAILED crash in call ");
    write_text(decimal(current, text + sizeof text));
    write_text(", signal ");
    write_text(decimal((uint64_t)number, text + sizeof text));
    write_text(" (again: --seed ");
    write_text(decimal(seed, text + sizeof text));
    write_text(" --from ");
    write_text(decimal(current, text + sizeof text));
    write_text(" --calls 1)\n");
    write_text(decimal(calls_done - failures, text + sizeof text));
    write_text(" passed, ");
    write_text(decimal(failures + 1, text + sizeof text));
    write_text(" failed\n");
    _exit(1);
}

static void catch_signals(void)
{
    static uint8_t stack[1 << 16];
    static const int numbers[] = { SIGSEGV, SIGBUS, SIGFPE, SIGILL, SIGABRT, SIGTRAP, SIGALRM };
    stack_t other = { .ss_sp = stack, .ss_size = sizeof stack };
    struct sigaction action = { .sa_handler = on_signal, .sa_flags = SA_ONSTACK };
    sigaltstack(&other, NULL);
    for (size_t i = 0; i < sizeof numbers / sizeof numbers[0]; i++)
        sigaction(numbers[i], &action, NULL);
}

static double now(void)
{
    struct timespec t;
    clock_gettime(CLOCK_MONOTONIC, &t);
    return (double)t.tv_sec + (double)t.tv_nsec / 1e9;
}

static uint64_t number_after(int argc, char **argv, int *i)
{
    char *end;
    uint64_t x;
    if (*i + 1 >= argc || argv[*i + 1][0] < '0' || argv[*i + 1][0] > '9') {
        fprintf(stderr, "fuzz: %s needs a number\n", argv[*i]);
        exit(2);
    }
    x = strtoull(argv[++*i], &end, 10);
    if (*end) {
        fprintf(stderr, "fuzz: %s is not a number\n", argv[*i]);
        exit(2);
    }
    return x;
}

int main(int argc, char **argv)
{
    uint64_t calls = 0, seconds = 0, from = 0;
    double start, last;
    int seeded = 0, terminal = isatty(STDERR_FILENO);
    for (int i = 1; i < argc; i++) {
        if (strcmp(argv[i], "--calls") == 0)
            calls = number_after(argc, argv, &i);
        else if (strcmp(argv[i], "--seconds") == 0)
            seconds = number_after(argc, argv, &i);
        else if (strcmp(argv[i], "--from") == 0)
            from = number_after(argc, argv, &i);
        else if (strcmp(argv[i], "--seed") == 0) {
            seed = number_after(argc, argv, &i);
            seeded = 1;
        } else {
            fprintf(stderr, "usage: fuzz [--calls N] [--seconds S] [--seed S] [--from I]\n");
            return 2;
        }
    }
    if (calls == 0 && seconds == 0) {
        calls = 1000000;
        seconds = 60;
    }
    if (calls == 0)
        calls = UINT64_MAX - from;
    if (!seeded)
        seed = ((uint64_t)time(NULL) << 16 ^ (uint64_t)getpid()) & 0xffffffffffff;

#define PRESENT(f) present[OP_##f] = yigtrav_##f != NULL;
    FUNCTIONS(PRESENT)
    for (int i = 0; i < OPERATIONS; i++)
        if (!present[i])
            printf("skipped, not in the library: %s\n", names[i]);
    printf("seed %" PRIu64 "\n", seed);
    fflush(stdout);
    make_settings();
    make_pool();
    catch_signals();

    start = last = now();
    for (current = from; current - from < calls; current++) {
        if ((current - from) % 64 == 0) {
            double t = now();
            if (seconds && t - start >= (double)seconds)
                break;
            if (t - last >= (terminal ? 0.5 : 5)) {
                last = t;
                fprintf(stderr, "%s%" PRIu64 " calls, %.0f s, %" PRIu64 " failed%s", terminal ? "\r" : "",
                        calls_done, t - start, failures, terminal ? " " : "\n");
            }
            alarm(30);
        }
        one_call();
    }
    alarm(0);
    if (terminal)
        fprintf(stderr, "\r%40s\r", "");

    printf("%-12s %9s", "", "finished");
    for (int r = 1; r <= 9; r++)
        printf("  refused %d", r);
    printf("\n");
    for (int i = 0; i < OPERATIONS; i++) {
        printf("%-12s %9" PRIu64, names[i], seen[i][0]);
        for (int r = 1; r <= 9; r++)
            if (seen[i][r])
                printf("  %9" PRIu64, seen[i][r]);
            else
                printf("  %9s", "");
        printf("\n");
    }
    printf("%" PRIu64 " calls in %.1f s\n", calls_done, now() - start);
    printf("%" PRIu64 " passed, %" PRIu64 " failed\n", calls_done - failures, failures);
    return failures != 0;
}
