/*
 * A thin wrapper of the kernel for C: a context owns the table and the work space of one setting, series and maps
 * know their setting, and every call that can go wrong returns a yt_error.
 *
 * The words of series and maps are written by the kernel and by yt_set only, so they are images at all times.
 * A context is for one call at a time; contexts of the same setting may share series and maps.
 */
#ifndef YT_H
#define YT_H

#include <stddef.h>
#include <stdint.h>

#ifdef __cplusplus
extern "C" {
#endif

typedef struct yt_context yt_context;
typedef struct yt_series yt_series;
typedef struct yt_map yt_map;

/* Errors of the wrapper itself. Numbers 1 to 9 are the kernel's refusals (yigtrav.h). */
enum {
    YT_NULL = 101,      /* a null pointer; place: which argument after the context, 0 the context itself */
    YT_OTHER_SETTING,   /* a series or map of another setting; place: which argument after the context */
    YT_OVERLAP,         /* the result is, or is part of, an input; place: which argument after the context */
    YT_NO_MONOMIAL,     /* exponents or position of no monomial of the setting */
    YT_COEFFICIENT,     /* a coefficient above 65,520 */
    YT_NO_MEMORY
};

typedef struct yt_error {
    uint32_t number;              /* 0: no error */
    uint32_t argument, component; /* refusal 7: which series or map, and which component of it */
    uint64_t place;               /* as the number says; refusal 7: the word inside the component */
} yt_error;

/* Writes what is wrong into text, at most size bytes with the ending 0; returns text. */
char *yt_message(yt_error error, char *text, size_t size);

/* ---- contexts ---- */

/* Makes a context of order n and v variables; closed by yt_close. */
yt_error yt_open(uint32_t n, uint32_t v, yt_context **context);
void yt_close(yt_context *context);

uint32_t yt_order(const yt_context *context);
uint32_t yt_variables(const yt_context *context);
uint32_t yt_count(const yt_context *context); /* N, the number of monomials */

/* Position of the monomial with v exponents, and back, by the table. */
yt_error yt_position(const yt_context *context, const uint32_t *exponents, uint32_t *position);
yt_error yt_exponents(const yt_context *context, uint32_t position, uint32_t *exponents);

/* ---- series and maps ---- */

/* New ones are zero; they are freed by the caller and may outlive the context. */
yt_error yt_new_series(const yt_context *context, yt_series **series);
yt_error yt_new_map(const yt_context *context, yt_map **map);
void yt_free_series(yt_series *series);
void yt_free_map(yt_map *map);

/* Component k, from 1, of a map: a series that stays the map's. Null where there is none. */
yt_series *yt_component(yt_map *map, uint32_t k);

/* Sets or gets the coefficient of one monomial; 0 is no entry. */
yt_error yt_set(const yt_context *context, yt_series *series, const uint32_t *exponents, uint32_t coefficient);
yt_error yt_get(const yt_context *context, const yt_series *series, const uint32_t *exponents,
                uint32_t *coefficient);

/* Takes words over as a series, if they are an image (refusals 2 and 7 if they are not). */
yt_error yt_read(const yt_context *context, const uint32_t *words, size_t length, yt_series *series);

/* The N + 1 words of a series, to look at: yigtrav.h says what they hold. */
const uint32_t *yt_words(const yt_series *series);

/* ---- operations: the result is unchanged where an error is returned ---- */

yt_error yt_sum(yt_context *context, const yt_series *a, const yt_series *b, yt_series *result);
yt_error yt_difference(yt_context *context, const yt_series *a, const yt_series *b, yt_series *result);
yt_error yt_multiple(yt_context *context, uint32_t c, const yt_series *a, yt_series *result);
/* pairs may be null. */
yt_error yt_product(yt_context *context, const yt_series *a, const yt_series *b, yt_series *result,
                    uint64_t *pairs);
yt_error yt_derivative(yt_context *context, uint32_t k, const yt_series *a, yt_series *result);
yt_error yt_bracket(yt_context *context, const yt_series *a, const yt_series *b, yt_series *result);
yt_error yt_substitute(yt_context *context, const yt_series *a, const yt_map *map, yt_series *result);
yt_error yt_compose(yt_context *context, const yt_map *outer, const yt_map *inner, yt_map *result);
yt_error yt_invert(yt_context *context, const yt_map *map, yt_map *result);

#ifdef __cplusplus
}
#endif

#endif
