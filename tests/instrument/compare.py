"""The instrument again, in exact fractions, from the formulas that the program prints.

Reads what the program wrote, composes the printed formulas as polynomials over the rationals, and
compares every printed coefficient: a fraction must be the exact one, a residue that of the exact one.
So no fraction shown is a mere coincidence modulo 65,521.
"""
import re
import sys
from fractions import Fraction

P, ORDER, NAMES = 65521, 3, "xaybd"


def multiply(f, g):
    out = {}
    for s, c in f.items():
        for t, d in g.items():
            m = tuple(i + j for i, j in zip(s, t))
            if sum(m) <= ORDER:
                out[m] = out.get(m, 0) + c * d
    return {m: c for m, c in out.items() if c}


def compose(outer, inner):
    def substitute(f):
        out = {}
        for m, c in f.items():
            term = {(0,) * 5: c}
            for part, exponent in zip(inner, m):
                for _ in range(exponent):
                    term = multiply(term, part)
            for t, d in term.items():
                out[t] = out.get(t, 0) + d
        return {m: c for m, c in out.items() if c}
    return [substitute(f) for f in outer]


def monomial(text):
    exponents = [0] * 5
    for letter, power in re.findall(r"([xaybd])(?:\^(\d))?", text):
        exponents[NAMES.index(letter)] += int(power or 1)
    return tuple(exponents)


IDENTITY = [{monomial(name): Fraction(1)} for name in NAMES]


def element(lines):
    """The map of lines such as 'x = x - 1/2 d'."""
    out = list(IDENTITY)
    for line in lines:
        name, text = line.split("=")
        f = {}
        for sign, number, letters in re.findall(r"([+-]?) *(\d+(?:/\d+)?)? *([xaybd][xaybd^\d ]*)", text):
            f[monomial(letters)] = Fraction(number or 1) * (-1 if sign == "-" else 1)
        out[NAMES.index(name.strip())] = f
    return out


def undo(face):
    """The inverse of a map whose terms beyond the identity undo themselves step by step."""
    back = IDENTITY
    for _ in range(2 * ORDER):
        image = compose(face, back)
        back = [{m: b.get(m, 0) - i.get(m, 0) + e.get(m, 0) for m in {*b, *i, *e}}
                for b, i, e in zip(back, image, IDENTITY)]
        back = [{m: c for m, c in f.items() if c} for f in back]
    assert compose(face, back) == IDENTITY and compose(back, face) == IDENTITY
    return back


def chain(elements):
    out = IDENTITY
    for each in elements:
        out = compose(each, out)
    return out


def same(shown, exact):
    if "/" not in shown and abs(int(shown)) > 500:
        return int(shown) == exact.numerator * pow(exact.denominator, -1, P) % P
    return Fraction(shown) == exact


def main():
    text = sys.stdin.read()
    formulas = [[]]
    for line in text.split("The instrument:")[0].splitlines():
        if " = " in line:
            formulas[-1].append(line)
        elif formulas[-1]:
            formulas.append([])
    drift, face, turn, corrector, filter_ = map(element, formulas[:5])
    magnet = chain([face, turn, undo(face)])
    plain = chain([drift, magnet, drift, drift, filter_, drift, drift])
    whole = chain([drift, magnet, drift, corrector, drift, filter_, drift, drift])
    blocks = re.findall(r"^([xa]) at the collector slit, with(out)? the corrector.*\n((?: .*\n)*)", text, re.M)
    passed = failed = 0
    for name, without, rows in blocks:
        exact = (plain if without else whole)[NAMES.index(name)]
        rows = rows.split("  gone")[0]
        shown = {monomial(m): c for c, m in re.findall(r"(-?\d+(?:/\d+)?)((?: [xaybd](?:\^\d)?)+)", rows)}
        for m in {*shown, *exact}:
            if m in shown and m in exact and same(shown[m], exact[m]):
                passed += 1
            else:
                failed += 1
                print(name, m, "shown", shown.get(m), "exact", exact.get(m))
    counts = "terms in all: " + ", ".join(f"{name} {len(f)}" for name, f in zip(NAMES, whole))
    if len(blocks) == 3 and counts in text:
        passed += 1
    else:
        failed += 1
        print(f"{len(blocks)} blocks; expected", counts)
    print(f"{passed} passed, {failed} failed")
    sys.exit(1 if failed else 0)


main()
