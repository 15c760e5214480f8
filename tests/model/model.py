"""The kernel's interface, written straight from 01: slow and obviously right.

A polynomial is a dict from exponents (a tuple of v numbers) to coefficients, none of them 0
modulo p. Slices are Python lists of words; a call changes them as the kernel would and returns
the answer as one number (the encoding of the C interface). A refused call changes nothing.
"""

from functools import lru_cache
from math import comb

P = 65521

# ---- settings and the monomial table --------------------------------------------------------


def valid(n, v):
    return 1 <= n <= 10 and 1 <= v <= 8 and comb(n + v, v) <= 8008


def settings():
    """All valid (n, v): 75 of them."""
    return [(n, v) for v in range(1, 9) for n in range(1, 11) if valid(n, v)]


def exponents_up_to(n, v):
    """All exponents of v variables whose sum is at most n."""
    if v == 0:
        yield ()
        return
    for i in range(n + 1):
        for rest in exponents_up_to(n - i, v - 1):
            yield (i,) + rest


class Setting:
    """Sizes, monomials by position, and the table of one n and v."""

    def __init__(self, n, v):
        self.n, self.v, self.h = n, v, (v + 1) // 2
        self.N = comb(n + v, v)
        self.E = (n + 1) ** self.h
        self.T = 2 * self.N + 2 * self.E
        self.W = (n + 2 * v + 4) * (self.N + 1) + 2 * v * v
        self.monomials = sorted(
            exponents_up_to(n, v), key=lambda e: (self.c2(e), sum(e), self.c1(e))
        )
        assert len(self.monomials) == self.N
        self.position = {e: i + 1 for i, e in enumerate(self.monomials)}
        self.table = self.build()

    def code(self, exponents):
        return sum(e * (self.n + 1) ** i for i, e in enumerate(exponents))

    def c1(self, e):
        return self.code(e[: self.h])

    def c2(self, e):
        return self.code(e[self.h :])

    def build(self):
        c1 = [self.c1(e) for e in self.monomials]
        c2 = [self.c2(e) for e in self.monomials]
        d1, d2 = [0] * self.E, [0] * self.E
        for position in range(self.N, 0, -1):  # downwards, so that the first one stays
            d1[c1[position - 1]] = position
            d2[c2[position - 1]] = position - 1
        return c1 + c2 + d1 + d2

    def variable(self, i):
        """Exponents of xi, i from 1."""
        return tuple(int(j == i) for j in range(1, self.v + 1))


@lru_cache(maxsize=None)
def setting(n, v):
    return Setting(n, v)


# ---- images ---------------------------------------------------------------------------------


def image(s, f):
    """The words of a polynomial: monomials of order above n are cut, zeros leave no entry."""
    entries = sorted(
        s.position[e] << 16 | c % P for e, c in f.items() if sum(e) <= s.n and c % P
    )
    return [len(entries)] + entries + [0] * (s.N - len(entries))


def polynomial(s, words):
    return {s.monomials[(w >> 16) - 1]: w & 0xFFFF for w in words[1 : words[0] + 1]}


def components(s, words):
    return [
        polynomial(s, words[k * (s.N + 1) : (k + 1) * (s.N + 1)]) for k in range(s.v)
    ]


def map_image(s, maps):
    return [w for f in maps for w in image(s, f)]


def first_fault(s, words):
    """First faulty word of a component in reading order, or None."""
    m = words[0]
    if m > s.N:
        return 0
    for i in range(1, m + 1):
        before = words[i - 1] >> 16 if i > 1 else 0
        if not before < words[i] >> 16 <= s.N or not 1 <= words[i] & 0xFFFF <= P - 1:
            return i
    for i in range(m + 1, s.N + 1):
        if words[i] != 0:
            return i
    return None


# ---- polynomials ----------------------------------------------------------------------------


def clean(f):
    return {e: c % P for e, c in f.items() if c % P}


def add(f, g, c=1):
    """f + c g."""
    r = dict(f)
    for e, x in g.items():
        r[e] = r.get(e, 0) + c * x
    return clean(r)


def multiply(n, f, g):
    """The product cut at order n, and the number of pairs whose orders add to at most n."""
    r, pairs = {}, 0
    second = [(e, sum(e), c) for e, c in g.items()]
    for e, c in f.items():
        room = n - sum(e)
        for k, order, x in second:
            if order <= room:
                m = tuple([i + j for i, j in zip(e, k)])
                r[m] = r.get(m, 0) + c * x
                pairs += 1
    return clean(r), pairs


def derivative(f, k):
    """In variable k, from 1."""
    r = {}
    for e, c in f.items():
        if e[k - 1]:
            r[e[: k - 1] + (e[k - 1] - 1,) + e[k:]] = c * e[k - 1]
    return clean(r)


def bracket(n, v, f, g):
    r = {}
    for k in range(1, v, 2):
        r = add(r, multiply(n, derivative(f, k), derivative(g, k + 1))[0])
        r = add(r, multiply(n, derivative(f, k + 1), derivative(g, k))[0], -1)
    return r


def substitute(n, v, outers, inner):
    """The inner map substituted into each of the outer polynomials."""
    one = {(0,) * v: 1}
    powers = []
    for component in inner:
        row = [one]
        for _ in range(n):
            row.append(multiply(n, row[-1], component)[0])
        powers.append(row)

    @lru_cache(maxsize=None)
    def monomial_power(e):
        r = one
        for i, exponent in enumerate(e):
            if exponent:
                r = multiply(n, r, powers[i][exponent])[0]
        return r

    results = []
    for f in outers:
        r = {}
        for e, c in f.items():
            for m, x in monomial_power(e).items():
                r[m] = r.get(m, 0) + c * x
        results.append(clean(r))
    return results


def identity(v):
    return [{tuple(int(i == j) for j in range(v)): 1} for i in range(v)]


# ---- linear parts ---------------------------------------------------------------------------


def linear_part(v, f):
    units = [tuple(int(i == j) for j in range(v)) for i in range(v)]
    return [[component.get(u, 0) for u in units] for component in f]


def determinant(rows):
    """One number from each row, no column twice, in every way, with a minus where an odd number
    of exchanges puts the columns in order. Modulo p."""

    @lru_cache(maxsize=None)
    def rest(i, used):
        if i == len(rows):
            return 1
        total = 0
        for c in range(len(rows)):
            if not used >> c & 1:
                # the earlier rows whose column is above c each cost one exchange
                exchanges = bin(used >> c).count("1")
                total += (-1) ** exchanges * rows[i][c] * rest(i + 1, used | 1 << c)
        return total % P

    return rest(0, 0)


def inverse_matrix(rows):
    """Cofactors over the determinant."""
    v = len(rows)
    scale = pow(determinant(rows), -1, P)

    def cofactor(i, j):
        minor = [[x for c, x in enumerate(r) if c != j] for k, r in enumerate(rows) if k != i]
        return (-1) ** (i + j) * determinant(minor)

    return [[cofactor(j, i) * scale % P for j in range(v)] for i in range(v)]


def matrix_product(a, b):
    return [
        [sum(x * y for x, y in zip(row, column)) % P for column in zip(*b)] for row in a
    ]


def apply(matrix, f):
    """The linear map `matrix` after the map f."""
    result = []
    for row in matrix:
        r = {}
        for c, component in zip(row, f):
            r = add(r, component, c)
        result.append(r)
    return result


def invert(n, v, f):
    """g with f o g = identity. With L the linear part of f and M its inverse,
    g = M (identity - (f - L) o g); each turn settles one more order."""
    matrix = inverse_matrix(linear_part(v, f))
    higher = [{e: c for e, c in component.items() if sum(e) > 1} for component in f]
    g = [{} for _ in range(v)]
    for _ in range(n):
        g = apply(matrix, [
            add(x, y, -1) for x, y in zip(identity(v), substitute(n, v, higher, g))
        ])
    return g


# ---- calls ----------------------------------------------------------------------------------


def refusal(number, place=0):
    return number | place << 24


class Refused(Exception):
    pass


def check_setting(n, v):
    if not valid(n, v):
        raise Refused(refusal(1))
    return setting(n, v)


def check_lengths(*slices):
    """(words, needed length) of each slice, in the order table, inputs, result, work."""
    for place, (words, needed) in enumerate(slices, 1):
        if len(words) < needed:
            raise Refused(refusal(2, place))


def check_table(s, table):
    for word, expected in enumerate(s.table):
        if table[word] != expected:
            raise Refused(refusal(6, word))


def check_images(s, *arguments):
    """(words, number of components) of each argument."""
    for argument, (words, parts) in enumerate(arguments, 1):
        for k in range(parts):
            fault = first_fault(s, words[k * (s.N + 1) : (k + 1) * (s.N + 1)])
            if fault is not None:
                raise Refused(refusal(7, fault) | argument << 8 | (k + 1) << 16)


def check_constants(s, words):
    for k, f in enumerate(components(s, words), 1):
        if (0,) * s.v in f:
            raise Refused(refusal(8, k))


def write(slice_, words):
    slice_[: len(words)] = words


def finish(s, result, words, work=None):
    write(result, words)
    if work is not None:
        write(work, [0] * s.W)


def count(n, v):
    return setting(n, v).N if valid(n, v) else 0


def table_words(n, v):
    return setting(n, v).T if valid(n, v) else 0


def work_words(n, v):
    return setting(n, v).W if valid(n, v) else 0


def call_build_table(n, v, table):
    s = check_setting(n, v)
    check_lengths((table, s.T))
    write(table, s.table)
    return 0


def call_check_table(n, v, table):
    s = check_setting(n, v)
    check_lengths((table, s.T))
    check_table(s, table)
    return 0


def call_sum(n, v, a, b, result, sign=1):
    s = check_setting(n, v)
    check_lengths((a, s.N + 1), (b, s.N + 1), (result, s.N + 1))
    check_images(s, (a, 1), (b, 1))
    finish(s, result, image(s, add(polynomial(s, a), polynomial(s, b), sign)))
    return 0


def call_difference(n, v, a, b, result):
    return call_sum(n, v, a, b, result, -1)


def call_multiple(n, v, c, a, result):
    s = check_setting(n, v)
    check_lengths((a, s.N + 1), (result, s.N + 1))
    if c > P - 1:
        raise Refused(refusal(5))
    check_images(s, (a, 1))
    finish(s, result, image(s, add({}, polynomial(s, a), c)))
    return 0


def call_product(n, v, table, a, b, result, work):
    s = check_setting(n, v)
    check_lengths((table, s.T), (a, s.N + 1), (b, s.N + 1), (result, s.N + 1), (work, s.W))
    check_table(s, table)
    check_images(s, (a, 1), (b, 1))
    f, pairs = multiply(n, polynomial(s, a), polynomial(s, b))
    finish(s, result, image(s, f), work)
    return pairs << 24


def call_derivative(n, v, k, table, a, result):
    s = check_setting(n, v)
    check_lengths((table, s.T), (a, s.N + 1), (result, s.N + 1))
    if not 1 <= k <= v:
        raise Refused(refusal(3))
    check_table(s, table)
    check_images(s, (a, 1))
    finish(s, result, image(s, derivative(polynomial(s, a), k)))
    return 0


def call_bracket(n, v, table, a, b, result, work):
    s = check_setting(n, v)
    check_lengths((table, s.T), (a, s.N + 1), (b, s.N + 1), (result, s.N + 1), (work, s.W))
    if v % 2:
        raise Refused(refusal(4))
    check_table(s, table)
    check_images(s, (a, 1), (b, 1))
    finish(s, result, image(s, bracket(n, v, polynomial(s, a), polynomial(s, b))), work)
    return 0


def call_substitute(n, v, table, series, map_, result, work):
    s = check_setting(n, v)
    whole = v * (s.N + 1)
    check_lengths((table, s.T), (series, s.N + 1), (map_, whole), (result, s.N + 1), (work, s.W))
    check_table(s, table)
    check_images(s, (series, 1), (map_, v))
    check_constants(s, map_)
    f = substitute(n, v, [polynomial(s, series)], components(s, map_))
    finish(s, result, map_image(s, f), work)
    return 0


def call_compose(n, v, table, outer, inner, result, work):
    s = check_setting(n, v)
    whole = v * (s.N + 1)
    check_lengths((table, s.T), (outer, whole), (inner, whole), (result, whole), (work, s.W))
    check_table(s, table)
    check_images(s, (outer, v), (inner, v))
    check_constants(s, inner)
    f = substitute(n, v, components(s, outer), components(s, inner))
    finish(s, result, map_image(s, f), work)
    return 0


def call_invert(n, v, table, map_, result, work):
    s = check_setting(n, v)
    whole = v * (s.N + 1)
    check_lengths((table, s.T), (map_, whole), (result, whole), (work, s.W))
    check_table(s, table)
    check_images(s, (map_, v))
    check_constants(s, map_)
    f = components(s, map_)
    if determinant(linear_part(v, f)) == 0:
        raise Refused(refusal(9))
    finish(s, result, map_image(s, invert(n, v, f)), work)
    return 0


def call(name, *arguments):
    """The answer of operation `name`; slices among the arguments change in place."""
    try:
        return globals()["call_" + name](*arguments)
    except Refused as refused:
        return refused.args[0]
