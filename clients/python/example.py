"""Inverts the map (x1 + 2 x2, x2 + 3 x1^2) to order 3, prints the inverse, composes the two, and shows what a refusal
looks like."""

import sys

from yigtrav import Context, Refusal

c = Context(3, 2)
print(f"order {c.n}, variables {c.v}, monomials {c.count}")
f = [{(1, 0): 1, (0, 1): 2}, {(0, 1): 1, (2, 0): 3}]

g = c.invert(f)
for k, component in enumerate(g, 1):
    for exponents, coefficient in component.items():
        print(f"inverse {k}: exponents {exponents[0]} {exponents[1]}, coefficient {coefficient}")

for k, component in enumerate(c.compose(f, g), 1):
    print(f"map after inverse, component {k}: {len(component)} entry")

square, pairs = c.product(g[0], g[0])
print(f"inverse 1 squared: {pairs} pairs")

try:
    c.invert([{}, {}])
except Refusal as refusal:
    print(f"zero map: number {refusal.number}, place {refusal.place}")
    print(refusal, file=sys.stderr)
