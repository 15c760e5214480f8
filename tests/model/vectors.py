#!/usr/bin/env python3
"""Writes vectors.json: random calls worked by PARI/GP (needs `gp`; the tests only read the file).

    vectors.py [SEED]

GP works them in its own way: polynomials with coefficients Mod(c, 65521), every variable xi
replaced by t xi, and power series in t up to order n. An inverse is the fixed point of
g = M (x - (f - L)(g)), M from GP's own matrix inverse.
A case has inputs and result as lists of series, a series as a list of [coefficient, exponents].
"""

import json
import os
import random
import subprocess
import sys
from itertools import product

P = 65521

GP = r"""
t; x1; x2; x3; x4; x5; x6; x7; x8;
xs = [x1, x2, x3, x4, x5, x6, x7, x8];
p = 65521;

\\ a polynomial from its terms; as a power series in t up to order n; and back
poly(f) = sum(i = 1, #f, Mod(f[i][1], p) * prod(j = 1, #f[i][2], xs[j]^f[i][2][j])) + Mod(0, p);
graded(f, n) = for (j = 1, 8, f = subst(f, xs[j], t * xs[j])); f + O(t^(n + 1));
flat(f) = subst(truncate(f), t, 1);
cut(f, n) = flat(graded(f, n));

\\ the terms of f with the power series g substituted for the variables
zero(n) = Mod(0, p) + O(t^(n + 1));
power(e, g, n) = prod(j = 1, #e, g[j]^e[j], 1 + zero(n));
put(f, g, n) = sum(i = 1, #f, Mod(f[i][1], p) * power(f[i][2], g, n), zero(n));
compose(f, g, n) = my(h = [graded(poly(y), n) | y <- g]); [flat(put(y, h, n)) | y <- f];

\\ the inverse map
entry(f, j) = Mod(vecsum([y[1] | y <- f, vecsum(y[2]) == 1 && y[2][j]]), p);
step(m, f, g, n) = {
  my(d = vector(#f, i, t * xs[i] - put(f[i], g, n)));
  vector(#f, i, sum(j = 1, #f, m[i, j] * d[j]))
};
invert(f, n) = {
  my(m = matrix(#f, #f, i, j, entry(f[i], j))^-1, g = vector(#f, i, zero(n)));
  my(higher = [[y | y <- k, vecsum(y[2]) > 1] | k <- f]);
  for (k = 1, n, g = step(m, higher, g, n));
  [flat(y) | y <- g]
};

\\ the bracket, each product cut at order n
half(f, g, i, j, n) = cut(deriv(f, xs[i]) * deriv(g, xs[j]), n);
part(f, g, i, n) = half(f, g, i, i + 1, n) - half(f, g, i + 1, i, n);
bracket(f, g, n, v) = sum(i = 1, v / 2, part(f, g, 2 * i - 1, n));

\\ prints the terms of each polynomial
terms(f, j, v, e) = {
  if (f == 0, return([]));
  if (j > v, return([[lift(simplify(f)), e]]));
  my(rest(d) = terms(polcoef(f, d, xs[j]), j + 1, v, concat(e, [d])));
  concat(vector(poldegree(f, xs[j]) + 1, d, rest(d - 1)))
};
show(f, v) = print([terms(y, 1, v, []) | y <- f]);
"""


def exponents(rng, n, v, least):
    order = rng.randint(least, n)
    e = [0] * v
    for _ in range(order):
        e[rng.randrange(v)] += 1
    return e


def series(rng, n, v, count, least=0):
    chosen = {}
    for _ in range(count):
        e = exponents(rng, n, v, least)
        chosen[tuple(e)] = rng.choice([1, P - 1, rng.randrange(1, P), rng.randrange(1, P)])
    return [[c, list(e)] for e, c in sorted(chosen.items())]


def fixing(rng, n, v, count):
    """An origin-fixing map whose linear part is not singular: triangular, rows exchanged."""
    rows = []
    for i in range(v):
        f = [term for term in series(rng, n, v, count, 1) if sum(term[1]) > 1]
        for j in range(i, v):
            if j == i or rng.random() < 0.5:
                f.append([rng.randrange(1, P), [int(k == j) for k in range(v)]])
        rows.append(f)
    rng.shuffle(rows)
    return rows


SETTINGS = [(1, 1), (2, 1), (5, 1), (10, 1), (1, 2), (2, 2), (3, 2), (5, 2), (7, 2), (10, 2),
            (2, 3), (3, 3), (4, 3), (6, 3), (8, 3), (2, 4), (3, 4), (4, 4), (5, 4), (8, 4),
            (1, 5), (2, 5), (3, 5), (4, 5), (1, 6), (2, 6), (3, 6), (4, 6), (2, 7), (3, 7),
            (1, 8), (2, 8)]


def monomials(n, v):
    return [e for e in product(range(n + 1), repeat=v) if sum(e) <= n] if v <= 3 else []


def dense(rng, n, v, least=0):
    return [[rng.randrange(1, P), list(e)] for e in monomials(n, v) if sum(e) >= least]


def calls(rng, n, v, f, g, outer, inner):
    yield "product", n, v, [[f], [g]], None, f"[cut(poly({f}) * poly({g}), {n})]"
    k = rng.randint(1, v)
    yield "derivative", n, v, [[f]], k, f"[deriv(poly({f}), x{k})]"
    if v % 2 == 0:
        yield "bracket", n, v, [[f], [g]], None, f"[bracket(poly({f}), poly({g}), {n}, {v})]"
    yield "substitute", n, v, [[f], inner], None, f"compose({[f]}, {inner}, {n})"
    yield "compose", n, v, [outer, inner], None, f"compose({outer}, {inner}, {n})"
    if n * v <= 20:
        yield "invert", n, v, [inner], None, f"invert({inner}, {n})"


def cases(rng):
    """Sparse ones at every setting; dense ones where there are few monomials."""
    for n, v in SETTINGS:
        f, g = (series(rng, n, v, 12) for _ in range(2))
        count = 6 if v <= 3 else 2
        outer = [series(rng, n, v, count) for _ in range(v)]
        yield from calls(rng, n, v, f[:6], g, outer, fixing(rng, n, v, count))
        if 0 < len(monomials(n, v)) <= 21:
            f, g, *outer = (dense(rng, n, v) for _ in range(2 + v))
            inner = [linear + dense(rng, n, v, 2) for linear in fixing(rng, 1, v, 0)]
            yield from calls(rng, n, v, f, g, outer, inner)


def main():
    rng = random.Random(int(sys.argv[1]) if len(sys.argv) > 1 else 65521)
    chosen = list(cases(rng))
    program = GP + "\n".join(f"show({expression}, {v});" for _, _, v, _, _, expression in chosen)
    done = subprocess.run(["gp", "-q", "-f", "-s", "512M"], input=program + "\nquit\n", text=True,
                          capture_output=True, check=True)
    lines = done.stdout.split("\n")[: len(chosen)]
    if done.stderr.strip() or len(lines) < len(chosen):
        sys.exit(done.stderr[:2000] or done.stdout[:2000])
    version = subprocess.run(["gp", "--version-short"], text=True, capture_output=True).stdout
    out = []
    for (name, n, v, inputs, number, _), line in zip(chosen, lines):
        case = {"operation": name, "n": n, "v": v, "inputs": inputs, "result": json.loads(line)}
        if number is not None:
            case["number"] = number
        out.append(case)
    path = os.path.join(os.path.dirname(os.path.abspath(__file__)), "vectors.json")
    with open(path, "w") as file:
        file.write('{"program": "PARI/GP ' + version.strip() + '", "cases": [\n')
        file.write(",\n".join(json.dumps(case, separators=(",", ":")) for case in out))
        file.write("\n]}\n")
    print(f"{len(out)} cases")


if __name__ == "__main__":
    main()
