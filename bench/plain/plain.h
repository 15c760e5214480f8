/*
 * Truncated power-series maps modulo 65,521 in plain C: the yardstick for speed, and a second
 * implementation to compare the kernel with. Same arguments, answers and buffers as yigtrav.h.
 *
 * Each buffer is a pointer and then its length in elements; a pointer whose length is 0 may be
 * null. A buffer that the call may write must not overlap any other buffer of that call. What
 * stands in work space and in the result at entry is free. No call allocates, keeps a pointer,
 * or touches words beyond the needed length, and a refused call changes nothing.
 *
 * The answer is one number: bits 0 to 7 are 0 (finished) or the number of the refusal; for
 * refusal 7 bits 8 to 15 are the argument and bits 16 to 23 the component; bits 24 to 63 are
 * the place of the refusal, or the pairs that a finished product multiplied.
 */
#ifndef PLAIN_H
#define PLAIN_H

#include <stddef.h>
#include <stdint.h>

#ifdef __cplusplus
extern "C" {
#endif

/* N, T (16-bit words) and W (32-bit words) of a setting, or 0 where it is refused. */
uint64_t plain_count(uint32_t n, uint32_t v);
uint64_t plain_table_words(uint32_t n, uint32_t v);
uint64_t plain_work_words(uint32_t n, uint32_t v);

uint64_t plain_build_table(uint32_t n, uint32_t v, uint16_t *table, size_t table_len);
uint64_t plain_check_table(uint32_t n, uint32_t v, const uint16_t *table, size_t table_len);

uint64_t plain_sum(uint32_t n, uint32_t v, const uint32_t *a, size_t a_len,
                   const uint32_t *b, size_t b_len, uint32_t *result, size_t result_len);
uint64_t plain_difference(uint32_t n, uint32_t v, const uint32_t *a, size_t a_len,
                          const uint32_t *b, size_t b_len, uint32_t *result, size_t result_len);
uint64_t plain_multiple(uint32_t n, uint32_t v, uint32_t c, const uint32_t *a, size_t a_len,
                        uint32_t *result, size_t result_len);
uint64_t plain_product(uint32_t n, uint32_t v, const uint16_t *table, size_t table_len,
                       const uint32_t *a, size_t a_len, const uint32_t *b, size_t b_len,
                       uint32_t *result, size_t result_len, uint32_t *work, size_t work_len);
uint64_t plain_derivative(uint32_t n, uint32_t v, uint32_t k, const uint16_t *table,
                          size_t table_len, const uint32_t *a, size_t a_len,
                          uint32_t *result, size_t result_len);
uint64_t plain_bracket(uint32_t n, uint32_t v, const uint16_t *table, size_t table_len,
                       const uint32_t *a, size_t a_len, const uint32_t *b, size_t b_len,
                       uint32_t *result, size_t result_len, uint32_t *work, size_t work_len);
uint64_t plain_substitute(uint32_t n, uint32_t v, const uint16_t *table, size_t table_len,
                          const uint32_t *series, size_t series_len,
                          const uint32_t *map, size_t map_len,
                          uint32_t *result, size_t result_len, uint32_t *work, size_t work_len);
uint64_t plain_compose(uint32_t n, uint32_t v, const uint16_t *table, size_t table_len,
                       const uint32_t *outer, size_t outer_len,
                       const uint32_t *inner, size_t inner_len,
                       uint32_t *result, size_t result_len, uint32_t *work, size_t work_len);
uint64_t plain_invert(uint32_t n, uint32_t v, const uint16_t *table, size_t table_len,
                      const uint32_t *map, size_t map_len,
                      uint32_t *result, size_t result_len, uint32_t *work, size_t work_len);

#ifdef __cplusplus
}
#endif

#endif
