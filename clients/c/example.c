/*
 * Inverts the map (x1 + 2 x2, x2 + 3 x1^2) to order 3, prints the inverse, composes the two, and shows what a
 * refusal looks like.
 */
#include "yt.h"

#include <stdio.h>
#include <stdlib.h>

/* Ends the program with a message where a call went wrong. */
static void need(yt_error e)
{
    char text[120];
    if (e.number == 0)
        return;
    fprintf(stderr, "%s\n", yt_message(e, text, sizeof text));
    exit(1);
}

int main(void)
{
    const uint32_t x1[] = { 1, 0 }, x2[] = { 0, 1 }, x1_squared[] = { 2, 0 };
    yt_context *c;
    yt_map *map, *inverse, *composed, *zero;
    yt_series *square;
    uint64_t pairs;
    char text[120];

    need(yt_open(3, 2, &c));
    printf("order %u, variables %u, monomials %u\n", yt_order(c), yt_variables(c), yt_count(c));
    need(yt_new_map(c, &map));
    need(yt_new_map(c, &inverse));
    need(yt_new_map(c, &composed));
    need(yt_new_map(c, &zero));
    need(yt_new_series(c, &square));

    need(yt_set(c, yt_component(map, 1), x1, 1));
    need(yt_set(c, yt_component(map, 1), x2, 2));
    need(yt_set(c, yt_component(map, 2), x2, 1));
    need(yt_set(c, yt_component(map, 2), x1_squared, 3));

    need(yt_invert(c, map, inverse));
    for (uint32_t k = 1; k <= yt_variables(c); k++)
        for (uint32_t position = 1; position <= yt_count(c); position++) {
            uint32_t e[2], coefficient;
            need(yt_exponents(c, position, e));
            need(yt_get(c, yt_component(inverse, k), e, &coefficient));
            if (coefficient)
                printf("inverse %u: exponents %u %u, coefficient %u\n", k, e[0], e[1], coefficient);
        }

    need(yt_compose(c, map, inverse, composed));
    for (uint32_t k = 1; k <= yt_variables(c); k++)
        printf("map after inverse, component %u: %u entry\n", k, yt_words(yt_component(composed, k))[0]);

    need(yt_product(c, yt_component(inverse, 1), yt_component(inverse, 1), square, &pairs));
    printf("inverse 1 squared: %llu pairs\n", (unsigned long long)pairs);

    yt_error e = yt_invert(c, zero, inverse);
    printf("zero map: number %u, place %llu\n", e.number, (unsigned long long)e.place);
    fprintf(stderr, "%s\n", yt_message(e, text, sizeof text));

    yt_free_series(square);
    yt_free_map(zero);
    yt_free_map(composed);
    yt_free_map(inverse);
    yt_free_map(map);
    yt_close(c);
    return 0;
}
