#!/usr/bin/env python3
"""Writes what the programs `vectors` and `runsamples` read and must print, or compares it with what is stored.

    cases.py write          writes crates/vectors/{stdin,stdout} and crates/runsamples/{stdin,stdout}
    cases.py compare        says whether the four files are what this script makes; the last line is
                            'N passed, M failed'

Nothing here comes from the kernel. `vectors` has the calls of tests/model/vectors.json, worked by PARI/GP, in words
whose positions are those of tests/model/model.py, and the model's own: calls of the operations that the file lacks,
tables, slices that are longer than needed, and damaged inputs for each of the refusals 1 to 9 with the place that 01
gives. `runsamples` has every sample of 01, starred or not, and the examples of its table of refusals, with the
results written out below as 01 says them.

The format is told at the top of crates/cases/src/lib.rt. Every call is also worked by the model, which must agree
with what is stated.
"""

import json
import os
import random
import sys

here = os.path.dirname(os.path.abspath(__file__))
root = os.path.dirname(os.path.dirname(here))
sys.path.insert(0, os.path.join(root, "tests", "model"))
import model  # noqa: E402

P = model.P

# The inputs of each operation: s is a series, m is a map. What it takes besides, and what it yields.
INPUTS = {"build_table": "", "check_table": "", "sum": "ss", "difference": "ss", "multiple": "s",
          "derivative": "s", "product": "ss", "bracket": "ss", "substitute": "sm", "compose": "mm",
          "invert": "m"}
TABLE = ("check_table", "derivative", "product", "bracket", "substitute", "compose", "invert")
WORK = ("product", "bracket", "substitute", "compose", "invert")
NUMBER = ("multiple", "derivative")


# ---- words as text --------------------------------------------------------------------------


def word_text(w):
    return f"{w & 0xFFFF}@{w >> 16}" if w >> 16 else str(w)


def slice_text(name, words, base=()):
    """The length and the words that differ from those of `base`, which goes on with zeros."""
    out, next_index = [], 0
    for i, w in enumerate(words):
        if w != (base[i] if i < len(base) else 0):
            if i != next_index:
                out.append(f"/{i}")
            out.append(word_text(w))
            next_index = i + 1
    return f"{name} {len(words)}" + (": " + " ".join(out) if out else "")


def outcome_text(answer):
    """From the answer of the model, in the encoding of the C interface."""
    number, rest = answer & 0xFF, answer >> 24
    if number == 0:
        return f"finished {rest}"
    if number == 7:
        return f"refused 7 at {answer >> 8 & 0xFF} {answer >> 16 & 0xFF} {rest}"
    return f"refused {number} at {rest}"


def result_text(name, v, words):
    """What `runsamples` prints of a result."""
    if name == "build_table":
        listed = " " + ", ".join(map(str, words)) if len(words) <= 64 else ""
        return [f"    {len(words)} words{listed}"]
    share = len(words) // v if name in ("compose", "invert") else len(words)
    lines = []
    for k in range(0, len(words), share):
        f = words[k : k + share]
        entries = [f"{w & 0xFFFF} at {w >> 16}" for w in f[1 : f[0] + 1]]
        lines.append("    " + (", ".join(entries) if entries else "zero"))
    return lines


# ---- cases ----------------------------------------------------------------------------------


class Slices:
    """The slices of a call with the lengths that it needs, to be damaged: table, inputs, result, work."""

    def __init__(self, name, n, v, inputs=(), number=None):
        self.name, self.n, self.v, self.number = name, n, v, number
        s = model.setting(n, v) if model.valid(n, v) else None
        self.needed = 0 if s is None else s.N + 1
        self.size = 0 if s is None else s.T
        self.space = 0 if s is None else s.W
        self.base = s.table if s else []
        parts = v if name in ("compose", "invert") else 1
        self.wanted = self.size if name == "build_table" else parts * self.needed
        self.table = list(self.base)
        self.inputs = [list(words) for words in inputs]
        self.result, self.work = self.wanted, self.space


class Text:
    """Cases as text, and what a program prints of them."""

    def __init__(self, show):
        self.show, self.input, self.output, self.cases = show, [], [], 0

    def title(self, text):
        self.input.append("# " + text)
        self.output.append("# " + text)

    def case(self, c, result=None, answer=None):
        """A call; its result and its answer are the model's, and what is given must agree with them."""
        name, n, v = c.name, c.n, c.v
        head = " ".join(map(str, [name, n, v] + ([c.number] if name in NUMBER else [])))
        out, space = [50000] * c.result, [50000] * c.work
        arguments = [n, v] + ([c.number] if name in NUMBER else [])
        if name in TABLE:
            arguments.append(c.table)
        arguments += [list(words) for words in c.inputs]
        if name != "check_table":
            arguments.append(out)
        if name in WORK:
            arguments.append(space)
        said = model.call(name, *arguments)
        finished = said & 0xFF == 0
        assert answer in (None, said), f"{head}: the model answers {outcome_text(said)}"
        assert result is None or out[: c.wanted] == result, f"{head}: the model has another result"
        assert finished or out == [50000] * c.result and space == [50000] * c.work
        fields = [head]
        if name in TABLE:
            fields.append(slice_text("table", c.table, c.base))
        fields += [slice_text(place, words) for place, words in zip(("first", "second"), c.inputs)]
        if name != "check_table":
            fields.append(f"result {c.result}")
        if name in WORK:
            fields.append(f"work {c.work}")
        fields.append(outcome_text(said))
        if finished and name != "check_table":
            fields.append(slice_text("result", out[: c.wanted]))
        if finished and name in WORK:
            fields.append(f"work {c.space}")
        self.input.append("; ".join(fields))
        self.cases += 1
        self.output.append(f"{self.cases} {head}: {outcome_text(said)}, right")
        if self.show and finished and name != "check_table":
            self.output += result_text(name, v, out[: c.wanted])

    def files(self):
        totals = f"{self.cases} cases, {self.cases} right"
        return "\n".join(self.input) + "\n", "\n".join(self.output + [totals]) + "\n"


# ---- vectors --------------------------------------------------------------------------------


def pari_cases(t):
    path = os.path.join(root, "tests", "model", "vectors.json")
    stored = json.load(open(path))
    t.title("worked by " + stored["program"])
    for case in stored["cases"]:
        name, n, v = case["operation"], case["n"], case["v"]
        s = model.setting(n, v)

        def words(maps):
            assert all(sum(e) <= n for f in maps for c, e in f), "a vector is not cut"
            return model.map_image(s, [{tuple(e): c for c, e in f} for f in maps])

        c = Slices(name, n, v, [words(m) for m in case["inputs"]], case.get("number"))
        t.case(c, words(case["result"]))


class Inputs:
    """Random images."""

    def __init__(self, seed):
        self.rng = random.Random(seed)

    def coefficient(self):
        return self.rng.choice([1, P - 1, self.rng.randrange(1, P)])

    def series(self, n, v, constant=True):
        s = model.setting(n, v)
        some = [e for e in s.monomials if (sum(e) or constant) and self.rng.random() < 0.6]
        return model.image(s, {e: self.coefficient() for e in some})

    def map(self, n, v, constant=False):
        """The linear part is triangular, so that it is not singular."""
        s = model.setting(n, v)
        words = []
        for i in range(1, v + 1):
            f = model.polynomial(s, self.series(n, v, constant))
            for j in range(1, v + 1):
                f.pop(s.variable(j), None)
                if j >= i:
                    f[s.variable(j)] = self.coefficient()
            words += model.image(s, f)
        return words

    def slices(self, name, n, v, number=1):
        """A call that is finished: inner and inverted maps are without constants."""
        kinds = INPUTS[name]
        inputs = [self.series(n, v) if k == "s" else self.map(n, v, name == "compose" and i == 0)
                  for i, k in enumerate(kinds)]
        return Slices(name, n, v, inputs, number)


SMALL = [(1, 1), (3, 1), (2, 2), (4, 2), (2, 3), (2, 4), (1, 8)]


def model_cases(t, x):
    t.title("worked by the model")
    for n, v in SMALL:
        t.case(Slices("build_table", n, v), answer=0)
        t.case(Slices("check_table", n, v), answer=0)
        for name in ("sum", "difference"):
            t.case(x.slices(name, n, v), answer=0)
        c = x.slices("difference", n, v)
        c.inputs[1] = list(c.inputs[0])
        t.case(c, [0] * c.needed, 0)
        for number in (0, 1, 2, P - 1, x.rng.randrange(P)):
            t.case(x.slices("multiple", n, v, number), answer=0)
    t.title("slices that are longer than needed, with words beyond that nothing reads")
    for name in INPUTS:
        c = x.slices(name, 2, 2)
        c.table += [7, 65535]
        for words in c.inputs:
            words += [3, 1 << 16]
        c.result, c.work = c.result + 3, c.work + 5
        t.case(c)


def short_slices(t, x):
    """Refusal 2: each slice one word short, in the order in which the call takes them."""
    for name in INPUTS:
        for n, v in ((2, 2), (1, 4)):
            places = 0
            for kind in (["table"] * (name in TABLE) + list(range(len(INPUTS[name])))
                         + ["result"] * (name != "check_table") + ["work"] * (name in WORK)):
                places += 1
                c = x.slices(name, n, v)
                if kind == "table":
                    c.table.pop()
                elif kind == "result":
                    c.result -= 1
                elif kind == "work":
                    c.work -= 1
                else:
                    c.inputs[kind].pop()
                t.case(c, answer=model.refusal(2, places))


def faults(n, v):
    """Words of a series that are no image, each with the place of its fault."""
    s = model.setting(n, v)
    count, rest = s.N, [0] * s.N
    yield [count + 1] + rest, 0
    yield [4294967295] + rest, 0
    yield [1] + rest, 1
    yield [1, 5] + rest[1:], 1
    yield [1, 1 << 16] + rest[1:], 1
    yield [1, 1 << 16 | P] + rest[1:], 1
    yield [1, 1 << 16 | 65535] + rest[1:], 1
    yield [1, (count + 1) << 16 | 1] + rest[1:], 1
    yield [0, 1 << 16 | 1] + rest[1:], 1
    yield [0] * count + [1], count
    yield [2, 2 << 16 | 1, 2 << 16 | 1] + rest[2:], 2
    yield [2, 2 << 16 | 1, 1 << 16 | 1] + rest[2:], 2
    yield [1, 2 << 16 | 1, 3 << 16 | 1] + rest[2:], 2


def no_images(t, x):
    """Refusal 7: in each argument and component."""
    for n, v in ((2, 2), (1, 3)):
        for name in INPUTS:
            if name == "bracket" and v % 2:
                continue
            for argument, kind in enumerate(INPUTS[name]):
                for k in range(v if kind == "m" else 1):
                    for words, place in x.rng.sample(list(faults(n, v)), 4 if kind == "s" else 2):
                        c = x.slices(name, n, v)
                        c.inputs[argument][k * c.needed : (k + 1) * c.needed] = words
                        t.case(c, answer=model.refusal(7, place) | argument + 1 << 8 | k + 1 << 16)


def refused_cases(t, x):
    t.title("refused 1")
    for name in INPUTS:
        for n, v in ((0, 1), (11, 1), (1, 0), (1, 9), (10, 7), (4294967295, 2), (2, 4294967295)):
            t.case(Slices(name, n, v, [[] for _ in INPUTS[name]], 1), answer=model.refusal(1))
    t.title("refused 2")
    short_slices(t, x)
    t.title("refused 3, 4, 5")
    for n, v in SMALL:
        for number in (0, v + 1, 4294967295):
            t.case(x.slices("derivative", n, v, number), answer=model.refusal(3))
        if v % 2:
            t.case(x.slices("bracket", n, v), answer=model.refusal(4))
        for number in (P, 65536, 4294967295):
            t.case(x.slices("multiple", n, v, number), answer=model.refusal(5))
    t.title("refused 6")
    for name in TABLE:
        for n, v in ((2, 2), (3, 2), (1, 4)):
            c = x.slices(name, n, v)
            for place in [0, c.size - 1] + sorted(x.rng.sample(range(1, c.size - 1), 2)):
                c = x.slices(name, n, v)
                c.table[place] += 1
                c.table[-1] += place < c.size - 1
                t.case(c, answer=model.refusal(6, place))
    t.title("refused 7")
    no_images(t, x)
    t.title("refused 8, 9")
    for n, v in ((2, 1), (2, 2), (1, 3), (2, 3)):
        for name in ("substitute", "compose", "invert"):
            for k in range(v):
                c = x.slices(name, n, v)
                c.inputs[-1][k * c.needed : (k + 1) * c.needed] = model.image(
                    model.setting(n, v), {(0,) * v: 1, (1,) + (0,) * (v - 1): 1})
                t.case(c, answer=model.refusal(8, k + 1))
        singular_cases(t, x, n, v)
    t.title("refused by the first check of several that fail")
    orders_of_checks(t, x)


def singular_cases(t, x, n, v):
    c = Slices("invert", n, v, [[0] * v * model.count(n, v) + [0] * v])
    t.case(c, answer=model.refusal(9))
    for k in range(v):
        c = x.slices("invert", n, v)
        other = (k + 1) % v if v > 1 else None
        part = [0] * c.needed if other is None else c.inputs[0][other * c.needed : (other + 1) * c.needed]
        c.inputs[0][k * c.needed : (k + 1) * c.needed] = part
        t.case(c, answer=model.refusal(9))


def orders_of_checks(t, x):
    """Of the checks that an operation has, all from a first one on fail: the first is the answer."""
    for first in range(2, 10):
        v = 3 if first <= 4 else 2
        s = model.setting(2, v)
        for name in ("sum", "multiple", "derivative", "bracket", "substitute", "compose", "invert"):
            c = x.slices(name, 2, v, 4294967295 if first <= 5 else 1)
            if first <= 2:
                c.result -= 1
            if first <= 6:
                c.table[5] += 1
            if first <= 7:
                c.inputs[0][0] = s.N + 1
            if first <= 8 and INPUTS[name].endswith("m"):
                c.inputs[-1][c.needed : 2 * c.needed] = model.image(s, {(0,) * v: 5})
            if name == "invert":
                c.inputs[0][: c.needed] = c.inputs[0][: 1] + [0] * s.N if first <= 7 else [0] * c.needed
            t.case(c)


# ---- samples --------------------------------------------------------------------------------


def series(n, v, *terms):
    """The image of a sum of (coefficient, exponents)."""
    return model.image(model.setting(n, v), {tuple(e): c for c, e in terms})


def map_words(n, v, *components):
    return [w for f in components for w in series(n, v, *f)]


def starred(t):
    one, x, xx = (0,), (1,), (2,)
    x1, x2, x11, x12, x22 = (1, 0), (0, 1), (2, 0), (1, 1), (0, 2)
    # Positions are seen in the words of the table and in results: a monomial is multiplied out of its variables, or
    # is the derivative of another one. The words of a table are C1, C2, D1, D2.
    t.title("* n 2, v 2: x1x2 is at position 5 (the table; x1 times x2)")
    t.case(Slices("build_table", 2, 2), answer=0)
    product(t, 2, 2, [(1, x1)], [(1, x2)], [(1, x12)], 1, [5])
    t.title("* n 2, v 4: x1x2 is at position 5, x2^2 at 6, x3 at 7 (the table; x1 times x2, x2 times x2, x1x3 in x1)")
    t.case(Slices("build_table", 2, 4), answer=0)
    a, b, c = (1, 0, 0, 0), (0, 1, 0, 0), (0, 0, 1, 0)
    product(t, 2, 4, [(1, a)], [(1, b)], [(1, (1, 1, 0, 0))], 1, [5])
    product(t, 2, 4, [(1, b)], [(1, b)], [(1, (0, 2, 0, 0))], 1, [6])
    derivative(t, 2, 4, 1, [(1, (1, 0, 1, 0))], [(1, c)], [7])
    t.title("* n 2, v 1: (1 + x)(1 + x) = 1 + 2x + x^2, 4 pairs")
    product(t, 2, 1, [(1, one), (1, x)], [(1, one), (1, x)], [(1, one), (2, x), (1, xx)], 4)
    t.title("* n 1, v 1: (1 + x)(1 + x) = 1 + 2x, 3 pairs")
    product(t, 1, 1, [(1, one), (1, x)], [(1, one), (1, x)], [(1, one), (2, x)], 3)
    t.title("* n 2, v 1: (1 + x)(1 + 65,520x) = 1 + 65,520x^2, with no entry for x")
    product(t, 2, 1, [(1, one), (1, x)], [(1, one), (65520, x)], [(1, one), (65520, xx)], 4)
    t.title("* n 2, v 2: the derivative of x1^2 in x1 is 2x1")
    derivative(t, 2, 2, 1, [(1, x11)], [(2, x1)])
    t.title("* n 2, v 2: the bracket of x1^2 and x2^2 is 4x1x2")
    f, g = series(2, 2, (1, x11)), series(2, 2, (1, x22))
    t.case(Slices("bracket", 2, 2, [f, g]), series(2, 2, (4, x12)), 0)
    t.title("* n 2, v 2: x1^2 with (x1 + x2, x2) substituted is x1^2 + 2x1x2 + x2^2")
    inner = map_words(2, 2, [(1, x1), (1, x2)], [(1, x2)])
    t.case(Slices("substitute", 2, 2, [f, inner]), series(2, 2, (1, x11), (2, x12), (1, x22)), 0)
    t.title("* n 2, v 1: 2x + 3x^2 inverts to 32,761x + 24,570x^2")
    inverse(t, 2, 1, [[(2, x), (3, xx)]], [[(32761, x), (24570, xx)]])
    t.title("* n 2, v 2: (x1 + x2^2, x2) inverts to (x1 + 65,520x2^2, x2)")
    inverse(t, 2, 2, [[(1, x1), (1, x22)], [(1, x2)]], [[(1, x1), (65520, x22)], [(1, x2)]])
    t.title("* n 2, v 2: (256x1 + 15x2, x1 + 256x2) is refused 9: its determinant is 65,521")
    f = map_words(2, 2, [(256, x1), (15, x2)], [(1, x1), (256, x2)])
    t.case(Slices("invert", 2, 2, [f]), answer=model.refusal(9))
    t.title("* n 2, v 2: (256x1 + 14x2, x1 + 256x2) is inverted: determinant 65,522, which is 1")
    inverse(t, 2, 2, [[(256, x1), (14, x2)], [(1, x1), (256, x2)]],
            [[(256, x1), (65507, x2)], [(65520, x1), (256, x2)]])


def product(t, n, v, f, g, h, pairs, positions=None):
    result = series(n, v, *h)
    assert positions is None or [w >> 16 for w in result[1 : result[0] + 1]] == positions
    t.case(Slices("product", n, v, [series(n, v, *f), series(n, v, *g)]), result, pairs << 24)


def derivative(t, n, v, k, f, h, positions=None):
    result = series(n, v, *h)
    assert positions is None or [w >> 16 for w in result[1 : result[0] + 1]] == positions
    t.case(Slices("derivative", n, v, [series(n, v, *f)], k), result, 0)


def inverse(t, n, v, f, g):
    t.case(Slices("invert", n, v, [map_words(n, v, *f)]), map_words(n, v, *g), 0)


def unstarred(t):
    t.title("n 1, v 1: x times x is zero, 0 pairs")
    product(t, 1, 1, [(1, (1,))], [(1, (1,))], [], 0)
    t.title("n 10, v 6 builds")
    t.case(Slices("build_table", 10, 6), answer=0)
    t.title("n 10, v 7 is refused 1")
    t.case(Slices("build_table", 10, 7), answer=model.refusal(1))


def refusal_examples(t):
    x1, x2 = (1, 0), (0, 1)
    f = series(2, 2, (1, x1))
    t.title("refusal 1: n 10, v 7 (N 19,448)")
    t.case(Slices("product", 10, 7, [[], []]), answer=model.refusal(1))
    t.title("refusal 2: n 2, v 2, table of 17 words (18 needed)")
    c = Slices("check_table", 2, 2)
    c.table = c.table[:17]
    t.case(c, answer=model.refusal(2, 1))
    t.title("refusal 3: derivative in x3, v 2")
    t.case(Slices("derivative", 2, 2, [f], 3), answer=model.refusal(3))
    t.title("refusal 4: bracket, v 3")
    g = series(2, 3, (1, (1, 0, 0)))
    t.case(Slices("bracket", 2, 3, [g, g]), answer=model.refusal(4))
    t.title("refusal 5: c = 65,521")
    t.case(Slices("multiple", 2, 2, [f], 65521), answer=model.refusal(5))
    t.title("refusal 6: n 2, v 2, words 13 and 14 exchanged: place 13")
    c = Slices("check_table", 2, 2)
    c.table[13], c.table[14] = c.table[14], c.table[13]
    t.case(c, answer=model.refusal(6, 13))
    t.title("refusal 7: n 2, v 2: 2, 196,609, 196,609, zeros: argument 1, component 1, word 2")
    wrong = [2, 196609, 196609, 0, 0, 0, 0]
    t.case(Slices("sum", 2, 2, [wrong, f]), answer=model.refusal(7, 2) | 1 << 8 | 1 << 16)
    t.title("refusal 8: (1 + x1, x2): component 1")
    t.case(Slices("invert", 2, 2, [map_words(2, 2, [(1, (0, 0)), (1, x1)], [(1, x2)])]),
           answer=model.refusal(8, 1))
    t.title("refusal 9: (256x1 + 15x2, x1 + 256x2)")
    t.case(Slices("invert", 2, 2, [map_words(2, 2, [(256, x1), (15, x2)], [(1, x1), (256, x2)])]),
           answer=model.refusal(9))


# ---- the files ------------------------------------------------------------------------------


def texts():
    vectors, samples, x = Text(False), Text(True), Inputs(65521)
    pari_cases(vectors)
    model_cases(vectors, x)
    refused_cases(vectors, x)
    starred(samples)
    unstarred(samples)
    refusal_examples(samples)
    for crate, t in (("vectors", vectors), ("runsamples", samples)):
        for name, text in zip(("stdin", "stdout"), t.files()):
            yield os.path.join(root, "crates", crate, name), text


def compare():
    passed = failed = 0
    for path, text in texts():
        stored = open(path).read() if os.path.exists(path) else ""
        if stored == text:
            passed += 1
            continue
        failed += 1
        at = next((i for i, (a, b) in enumerate(zip(stored, text)) if a != b), min(len(stored), len(text)))
        print(f"{os.path.relpath(path, root)} line {stored[:at].count(chr(10)) + 1} is not what cases.py makes")
    print(f"{passed} passed, {failed} failed")
    return 1 if failed else 0


def main():
    if sys.argv[1:] == ["compare"]:
        return compare()
    if sys.argv[1:] != ["write"]:
        sys.exit(__doc__)
    for path, text in texts():
        open(path, "w").write(text)
    return 0


if __name__ == "__main__":
    sys.exit(main())
