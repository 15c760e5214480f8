/*
 * Yigtrav: truncated power-series maps modulo 65,521.
 *
 * A setting is an order n from 1 to 10 and a number of variables v from 1 to 8 for which N, the number of
 * monomials of order at most n, is at most 8,008. Coefficients are counted modulo p = 65,521.
 *
 * WHAT THE CALLER LENDS
 *
 * All memory is the caller's: no call allocates, keeps a pointer, reads a clock or a file, or needs more than a few
 * kilobytes of stack. Every slice is a pointer and then its length in elements, not bytes.
 *
 *   slice        elements  needed                                      in bytes at most
 *   table        uint16_t  T = yigtrav_table_words(n, v)                         51,984
 *   series       uint32_t  N + 1 = yigtrav_series_words(n, v)                    32,036
 *   map          uint32_t  v (N + 1) = yigtrav_map_words(n, v)                  205,952
 *   work space   uint32_t  W = yigtrav_work_words(n, v)                         833,224
 *
 * - A longer slice is allowed: its words beyond the needed length are neither read nor changed. A shorter one is
 *   refused. A pointer whose length is 0 may be null; any other must point to that many elements, aligned as
 *   their type asks.
 * - A slice that a call may write (not const here) must not overlap any other slice of the same call. Slices
 *   that are only read may overlap: both factors of a product may be one series. The library cannot test this.
 * - What stands in a result and in work space before a call does not matter.
 * - A finished call leaves an image (below) in each needed part of the result, and zeros in all W words of work
 *   space. A refused call changes no word at all, neither of the result nor of work space.
 * - Calls share nothing but the caller's buffers, so calls on different results and work spaces may run at the
 *   same time. A table and inputs may be passed to any number of them.
 *
 * A SERIES is N + 1 words. Word 0 is the number m of entries, at most N. Words 1 to m are entries, position x
 * 65,536 + coefficient, the positions strictly ascending from 1 to N, the coefficients 1 to 65,520. The words
 * after them, up to word N, are 0. Such words are called an image; each series has exactly one.
 *
 * A MAP is v series one after the other: component k begins at word (k - 1)(N + 1).
 *
 * THE TABLE says which monomial stands at which position. With h = v / 2 rounded up and E = (n + 1)^h it holds
 * C1 for positions 1 to N, C2 for positions 1 to N, D1 for codes 0 to E - 1 and D2 for codes 0 to E - 1. The
 * monomial with exponents i1 to iv has C1 = i1 + i2 (n + 1) + i3 (n + 1)^2 + .. over the first h variables and
 * C2 likewise over the rest, its first variable again with weight 1. If the exponents sum to at most n, its
 * position is D1 at its C1 plus D2 at its C2; test the sum first, codes of higher orders lead elsewhere. The
 * digits of C1 and C2 at a position, in base n + 1, are the exponents there. Position 1 is the constant.
 *
 * THE ANSWER is one number:
 *
 *   bits 0 to 7     0: finished; otherwise the number of the refusal         yigtrav_number
 *   bits 8 to 15    refusal 7: the argument; otherwise 0                     yigtrav_argument
 *   bits 16 to 23   refusal 7: the component; otherwise 0                    yigtrav_component
 *   bits 24 to 63   a refusal: its place                                     yigtrav_place
 *                   finished: pairs that a product multiplied; otherwise 0   yigtrav_reported
 *
 * THE REFUSALS are tested in ascending number, each only where the call has that input. The first that applies
 * is the answer:
 *
 *   1  n, v or N out of range                 place 0
 *   2  a slice is too short                   place: which slice, counted from 1 in the order of the arguments
 *   3  variable not 1 to v                    place 0 (derivative)
 *   4  odd v                                  place 0 (bracket)
 *   5  multiplier above 65,520                place 0 (multiple)
 *   6  a table word differs from the rule     place: the first such word, counted from 0
 *   7  a series or a component is no image    argument: which series or map of the call, from 1, the table not
 *                                             counted; component: from 1, for a series 1; place: the first
 *                                             faulty word inside the component, 0 where m is above N. So with
 *                                             a table the first input is slice 2 of refusal 2, but argument 1
 *   8  a constant in an inner or inverted map place: the first such component, from 1
 *   9  linear part singular modulo p          place 0 (inversion)
 *
 * Beside each function stand the refusals that it can give.
 *
 * THE VERSION is MAJOR.MINOR.PATCH. MAJOR numbers the interface: it is raised whenever a function takes other
 * arguments than before, is gone, or answers in another form, so that a program made for the old one would compute
 * garbage. It is the N of the shared library's name, libyigtrav.so.N, so that such a program is not loaded. MINOR is
 * raised where something is added, PATCH where the interface stays as it is. The three are stated here alone.
 */
#ifndef YIGTRAV_H
#define YIGTRAV_H

#include <stddef.h>
#include <stdint.h>

#define YIGTRAV_VERSION_MAJOR 1
#define YIGTRAV_VERSION_MINOR 0
#define YIGTRAV_VERSION_PATCH 0

/* The three as one number that grows with them: 1.2.3 is 10203. */
#define YIGTRAV_VERSION (YIGTRAV_VERSION_MAJOR * 10000 + YIGTRAV_VERSION_MINOR * 100 + YIGTRAV_VERSION_PATCH)

#ifdef __cplusplus
extern "C" {
#endif

enum {
    YIGTRAV_FINISHED = 0,
    YIGTRAV_SETTING_OUT_OF_RANGE = 1,
    YIGTRAV_SLICE_TOO_SHORT = 2,
    YIGTRAV_VARIABLE_OUT_OF_RANGE = 3,
    YIGTRAV_ODD_VARIABLES = 4,
    YIGTRAV_MULTIPLIER_OUT_OF_RANGE = 5,
    YIGTRAV_TABLE_DIFFERS = 6,
    YIGTRAV_NOT_AN_IMAGE = 7,
    YIGTRAV_HAS_CONSTANT = 8,
    YIGTRAV_SINGULAR = 9
};

enum {
    YIGTRAV_MODULUS = 65521,
    YIGTRAV_MAX_ORDER = 10,
    YIGTRAV_MAX_VARIABLES = 8,
    YIGTRAV_MAX_COUNT = 8008
};

/* ---- sizes ------------------------------------------------------------------------------------------------ */
/* Plain numbers, not answers: yigtrav_number and the like do not apply to them. */

/* N, the number of monomials; 0 where the setting is out of range. */
uint64_t yigtrav_count(uint32_t n, uint32_t v);

/* T, the 16-bit words of a table; 0 where the setting is out of range. */
uint64_t yigtrav_table_words(uint32_t n, uint32_t v);

/* W, the 32-bit words of work space; 0 where the setting is out of range. */
uint64_t yigtrav_work_words(uint32_t n, uint32_t v);

/* ---- the monomial table ----------------------------------------------------------------------------------- */

/*
 * Writes the table of the setting, all T words of it. One table serves every call of its setting.
 * Refusals 1, 2 (table 1).
 */
uint64_t yigtrav_build_table(uint32_t n, uint32_t v, uint16_t *table, size_t table_len);

/*
 * Compares a table with the rule. Every call that takes a table does this first, so a table needs no check of
 * its own before it is passed.
 * Refusals 1, 2 (table 1), 6.
 */
uint64_t yigtrav_check_table(uint32_t n, uint32_t v, const uint16_t *table, size_t table_len);

/* ---- series: no table, no work space ---------------------------------------------------------------------- */

/*
 * result := a + b.
 * Refusals 1, 2 (a 1, b 2, result 3), 7 (a 1, b 2).
 */
uint64_t yigtrav_sum(uint32_t n, uint32_t v,
                     const uint32_t *a, size_t a_len,
                     const uint32_t *b, size_t b_len,
                     uint32_t *result, size_t result_len);

/*
 * result := a - b.
 * Refusals 1, 2 (a 1, b 2, result 3), 7 (a 1, b 2).
 */
uint64_t yigtrav_difference(uint32_t n, uint32_t v,
                            const uint32_t *a, size_t a_len,
                            const uint32_t *b, size_t b_len,
                            uint32_t *result, size_t result_len);

/*
 * result := c a, c from 0 to 65,520. With c = 1 it is the way to check that words are an image, and to copy them.
 * Refusals 1, 2 (a 1, result 2), 5, 7 (a 1).
 */
uint64_t yigtrav_multiple(uint32_t n, uint32_t v, uint32_t c,
                          const uint32_t *a, size_t a_len,
                          uint32_t *result, size_t result_len);

/* ---- series: with a table --------------------------------------------------------------------------------- */

/*
 * result := a b, cut at order n. Reports the number of pairs of entries, one from each factor, whose orders add
 * to at most n.
 * Refusals 1, 2 (table 1, a 2, b 3, result 4, work 5), 6, 7 (a 1, b 2).
 */
uint64_t yigtrav_product(uint32_t n, uint32_t v,
                         const uint16_t *table, size_t table_len,
                         const uint32_t *a, size_t a_len,
                         const uint32_t *b, size_t b_len,
                         uint32_t *result, size_t result_len,
                         uint32_t *work, size_t work_len);

/*
 * result := the derivative of a in variable xk, k from 1 to v. Takes no work space.
 * Refusals 1, 2 (table 1, a 2, result 3), 3, 6, 7 (a 1).
 */
uint64_t yigtrav_derivative(uint32_t n, uint32_t v, uint32_t k,
                            const uint16_t *table, size_t table_len,
                            const uint32_t *a, size_t a_len,
                            uint32_t *result, size_t result_len);

/*
 * result := the bracket of a and b, v even: over the pairs (x1, x2), (x3, x4), .. the derivative of a in the odd
 * variable times that of b in the even one, less the two exchanged, each product cut at order n.
 * Refusals 1, 2 (table 1, a 2, b 3, result 4, work 5), 4, 6, 7 (a 1, b 2).
 */
uint64_t yigtrav_bracket(uint32_t n, uint32_t v,
                         const uint16_t *table, size_t table_len,
                         const uint32_t *a, size_t a_len,
                         const uint32_t *b, size_t b_len,
                         uint32_t *result, size_t result_len,
                         uint32_t *work, size_t work_len);

/* ---- maps ------------------------------------------------------------------------------------------------- */

/*
 * result := the series with component i of the map put in for xi, cut at order n. The result is a series. The
 * map must fix the origin, that is, no component of it may have a constant; the series may.
 * Refusals 1, 2 (table 1, series 2, map 3, result 4, work 5), 6, 7 (series 1, map 2), 8.
 */
uint64_t yigtrav_substitute(uint32_t n, uint32_t v,
                            const uint16_t *table, size_t table_len,
                            const uint32_t *series, size_t series_len,
                            const uint32_t *map, size_t map_len,
                            uint32_t *result, size_t result_len,
                            uint32_t *work, size_t work_len);

/*
 * result := the composition, the inner map substituted into each component of the outer one. The result is a
 * map. The inner map must fix the origin; the outer may have constants.
 * Refusals 1, 2 (table 1, outer 2, inner 3, result 4, work 5), 6, 7 (outer 1, inner 2), 8.
 */
uint64_t yigtrav_compose(uint32_t n, uint32_t v,
                         const uint16_t *table, size_t table_len,
                         const uint32_t *outer, size_t outer_len,
                         const uint32_t *inner, size_t inner_len,
                         uint32_t *result, size_t result_len,
                         uint32_t *work, size_t work_len);

/*
 * result := the map that undoes the given one, before it and after it. The map must fix the origin and its
 * linear part must not be singular modulo p.
 * Refusals 1, 2 (table 1, map 2, result 3, work 4), 6, 7 (map 1), 8, 9.
 */
uint64_t yigtrav_invert(uint32_t n, uint32_t v,
                        const uint16_t *table, size_t table_len,
                        const uint32_t *map, size_t map_len,
                        uint32_t *result, size_t result_len,
                        uint32_t *work, size_t work_len);

/* ---- inline: answers taken apart, sizes, entries ----------------------------------------------------------- */

/* 0 if the call finished, otherwise the number of the refusal. */
static inline uint32_t yigtrav_number(uint64_t answer)
{
    return answer & 0xff;
}

/* Refusal 7: which series or map of the call; otherwise 0. */
static inline uint32_t yigtrav_argument(uint64_t answer)
{
    return answer >> 8 & 0xff;
}

/* Refusal 7: which component of it; otherwise 0. */
static inline uint32_t yigtrav_component(uint64_t answer)
{
    return answer >> 16 & 0xff;
}

/* The place of a refusal, for 7 the word inside the component; 0 if the call finished. */
static inline uint64_t yigtrav_place(uint64_t answer)
{
    return yigtrav_number(answer) ? answer >> 24 : 0;
}

/* The number that a finished call reports, the product its pairs; 0 if it was refused. */
static inline uint64_t yigtrav_reported(uint64_t answer)
{
    return yigtrav_number(answer) ? 0 : answer >> 24;
}

/* N + 1, the words of a series; 0 where the setting is out of range. */
static inline uint64_t yigtrav_series_words(uint32_t n, uint32_t v)
{
    uint64_t count = yigtrav_count(n, v);
    return count ? count + 1 : 0;
}

/* v (N + 1), the words of a map; 0 where the setting is out of range. */
static inline uint64_t yigtrav_map_words(uint32_t n, uint32_t v)
{
    return v * yigtrav_series_words(n, v);
}

/* The entry of a coefficient from 1 to 65,520 at a position, and back. */
static inline uint32_t yigtrav_entry(uint32_t position, uint32_t coefficient)
{
    return position << 16 | coefficient;
}

static inline uint32_t yigtrav_entry_position(uint32_t entry)
{
    return entry >> 16;
}

static inline uint32_t yigtrav_entry_coefficient(uint32_t entry)
{
    return entry & 0xffff;
}

#ifdef __cplusplus
}
#endif

#endif
