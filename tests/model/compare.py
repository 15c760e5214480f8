#!/usr/bin/env python3
"""Compares a library of the kernel's C interface with the model.

    compare.py LIBRARY PREFIX [--plain LIBRARY] [--only GROUP,GROUP] [--seed NUMBER]

LIBRARY is a shared library, PREFIX that of its functions (yigtrav_ or plain_). With --plain the
plain C implementation is the reference where Python would take too long. Functions that the
library does not export are skipped and listed. Every slice stands between canaries, at any
alignment its words allow, with random words in the result, in work space and beyond the needed
length. After each call the answer and every word are compared with the reference's.
The last line is 'N passed, M failed'; the status is 0 where nothing failed.
"""

import argparse
import ctypes
import json
import os
import random
import sys
import time
from array import array
from itertools import combinations

sys.path.insert(0, os.path.dirname(os.path.abspath(__file__)))
import model
from model import P, setting

# What each operation takes, in the order of its arguments: one number first where it says so,
# then slices. '!' marks those that it writes.
OPERATIONS = {
    "build_table": (None, ["table!"]),
    "check_table": (None, ["table"]),
    "sum": (None, ["series", "series", "series!"]),
    "difference": (None, ["series", "series", "series!"]),
    "multiple": ("c", ["series", "series!"]),
    "product": (None, ["table", "series", "series", "series!", "work!"]),
    "derivative": ("k", ["table", "series", "series!"]),
    "bracket": (None, ["table", "series", "series", "series!", "work!"]),
    "substitute": (None, ["table", "series", "map", "series!", "work!"]),
    "compose": (None, ["table", "map", "map", "map!", "work!"]),
    "invert": (None, ["table", "map", "map!", "work!"]),
}
SIZES = ["count", "table_words", "work_words"]
CANARY = 64  # bytes before and after each slice


# ---- the two sides of a comparison ----------------------------------------------------------


class Library:
    def __init__(self, path, prefix):
        self.loaded = ctypes.CDLL(os.path.abspath(path))
        self.functions = {}
        for name in SIZES + list(OPERATIONS):
            try:
                function = getattr(self.loaded, prefix + name)
            except AttributeError:
                continue
            types = [ctypes.c_uint32, ctypes.c_uint32]
            number, slices = OPERATIONS.get(name, (None, []))
            types += [ctypes.c_uint32] if number else []
            types += [ctypes.c_void_p, ctypes.c_size_t] * len(slices)
            function.argtypes, function.restype = types, ctypes.c_uint64
            self.functions[name] = function

    def size(self, name, n, v):
        return self.functions[name](n, v)

    def call(self, name, n, v, number, slices, rng=random):
        """The answer and the slices afterwards. An empty slice is passed as a null pointer."""
        arguments, buffers = [n, v] + ([] if number is None else [number]), []
        for words in slices:
            data = words.tobytes()
            lead = CANARY + words.itemsize * rng.randrange(8)
            buffer = bytearray(rng.randbytes(lead) + data + rng.randbytes(CANARY))
            address = ctypes.addressof(ctypes.c_char.from_buffer(buffer)) + lead
            buffers.append((buffer, bytes(buffer), lead, len(data), words.typecode))
            arguments += [address if data else None, len(words)]
        answer = self.functions[name](*arguments)
        after = []
        for buffer, before, lead, length, typecode in buffers:
            if buffer[:lead] != before[:lead] or buffer[lead + length :] != before[lead + length :]:
                raise AssertionError("a word outside the slices was changed")
            after.append(array(typecode, bytes(buffer[lead : lead + length])))
        return answer, after


class Model:
    @staticmethod
    def call(name, n, v, number, slices, rng=None):
        lists = [words.tolist() for words in slices]
        arguments = [n, v] + ([] if number is None else [number]) + lists
        answer = model.call(name, *arguments)
        return answer, [array(w.typecode, l) for w, l in zip(slices, lists)]


class Comparison:
    def __init__(self, library, plain, seed):
        self.library, self.plain = library, plain
        self.rng = random.Random(seed)
        self.passed = self.failed = 0
        self.skipped = set()

    def has(self, *names):
        missing = [name for name in names if name not in self.library.functions]
        self.skipped.update(missing)
        return not missing

    def record(self, good, label):
        if good:
            self.passed += 1
        else:
            self.failed += 1
            if self.failed <= 50:
                print("FAILED", label)
        return good

    # ---- slices ----

    def words(self, kind, n, v):
        s = setting(n, v)
        return {"table": s.T, "series": s.N + 1, "map": v * (s.N + 1), "work": s.W}[kind]

    def slices(self, name, n, v, inputs, beyond=True):
        """The slices of a call: the right table, the inputs given, random words elsewhere and,
        on a few of them, beyond the needed length."""
        rng, inputs, result = self.rng, list(inputs), []
        for kind in OPERATIONS[name][1]:
            needed = self.words(kind.rstrip("!"), n, v)
            typecode = "H" if kind.startswith("table") else "I"
            if kind == "table":
                words = array(typecode, setting(n, v).table)
            elif kind.endswith("!"):
                words = array(typecode, rng.randbytes(needed * array(typecode).itemsize))
            else:
                words = array(typecode, inputs.pop(0))
            if beyond and rng.random() < 0.3:
                extra = rng.randrange(1, 6)
                words.frombytes(rng.randbytes(extra * words.itemsize))
            result.append(words)
        return result

    # ---- comparing ----

    def compare(self, label, name, n, v, slices, number=None, expect=None, reference=Model):
        """One call against the reference, and against the answer `expect` where it is given.
        Returns the slices after the library's call."""
        if not self.has(name):
            return None
        label = f"{label}: {name} n {n} v {v}"
        try:
            answer, after = self.library.call(name, n, v, number, slices, self.rng)
        except AssertionError as error:
            self.record(False, f"{label}: {error}")
            return None
        wanted, expected = reference.call(name, n, v, number, slices, self.rng)
        if expect is not None and wanted != expect:
            self.record(False, f"{label}: the reference answers {describe(wanted)}, "
                               f"expected {describe(expect)}")
        if answer != wanted:
            self.record(False, f"{label}: {describe(answer)}, expected {describe(wanted)}")
            return after
        for i, (got, want) in enumerate(zip(after, expected), 1):
            if got != want:
                word = next(j for j in range(len(want)) if got[j] != want[j])
                self.record(False, f"{label}: slice {i} word {word} is {got[word]}, "
                                   f"expected {want[word]}")
                return after
        self.record(True, label)
        return after

    def run(self, name, n, v, *inputs, number=None):
        """A call that must finish; returns its answer and the needed words of its result."""
        slices = self.slices(name, n, v, inputs)
        answer, after = self.library.call(name, n, v, number, slices, self.rng)
        kinds = OPERATIONS[name][1]
        at = next(i for i, kind in enumerate(kinds) if kind in ("series!", "map!"))
        return answer, after[at][: self.words(kinds[at].rstrip("!"), n, v)].tolist()

    def value(self, name, n, v, *inputs, number=None):
        answer, words = self.run(name, n, v, *inputs, number=number)
        if answer & 0xFF:
            raise AssertionError(f"{name} n {n} v {v} is refused: {describe(answer)}")
        return words

    def same(self, label, left, right):
        return self.record(left == right, label)

    # ---- random series and maps, as words ----

    def coefficient(self):
        return self.rng.choice([1, 2, 255, 256, P - 1]) if self.rng.random() < 0.1 \
            else self.rng.randrange(1, P)

    def series(self, n, v, density, constant=True, most=None):
        """A density of at most 1, or a number of entries above it."""
        s, rng = setting(n, v), self.rng
        positions = range(1 if constant else 2, s.N + 1)
        number = round(density * len(positions)) if density <= 1 else density
        number = min(number, len(positions), most or s.N)
        chosen = sorted(rng.sample(positions, number))
        entries = [position << 16 | self.coefficient() for position in chosen]
        return [len(entries)] + entries + [0] * (s.N - len(entries))

    def map(self, n, v, density, constant=False, most=None, linear=None):
        """Components of a map, with the rows of `linear` for their linear part if given."""
        s, words = setting(n, v), []
        for i in range(v):
            series = self.series(n, v, density, constant, most)
            if linear is not None:
                series = with_linear(s, series, linear[i])
            words += series
        return words

    def matrix(self, rows, columns):
        return [[self.rng.randrange(P) for _ in range(columns)] for _ in range(rows)]

    def invertible(self, v):
        """Rows of a matrix that is not singular, some of its numbers 0."""
        while True:
            rows = self.matrix(v, v)
            for row in rows:
                for j in range(v):
                    if self.rng.random() < 0.3:
                        row[j] = 0
            if model.determinant(rows):
                return rows


def with_linear(s, words, row):
    f = {w >> 16: w & 0xFFFF for w in words[1 : words[0] + 1]}
    for i, c in enumerate(row, 1):
        position = s.position[s.variable(i)]
        f.pop(position, None)
        if c % P:
            f[position] = c % P
    entries = [position << 16 | c for position, c in sorted(f.items())]
    return [len(entries)] + entries + [0] * (s.N - len(entries))


def identity_words(n, v):
    return model.map_image(setting(n, v), model.identity(v))


def linear_words(n, v, rows):
    s = setting(n, v)
    return [w for row in rows for w in with_linear(s, [0] * (s.N + 1), row)]


def describe(answer):
    number, place = answer & 0xFF, answer >> 24
    if number == 7:
        return f"refusal 7 at {answer >> 8 & 0xFF}, {answer >> 16 & 0xFF}, {place}"
    return f"refusal {number} at {place}" if number else f"finished ({place})"


def refusal7(argument, component, word):
    return model.refusal(7, word) | argument << 8 | component << 16


# ---- groups of tests ------------------------------------------------------------------------

GROUPS = {}


def group(function):
    GROUPS[function.__name__] = function
    return function


OUT_OF_RANGE = [(0, 1), (1, 0), (0, 0), (11, 1), (1, 9), (10, 7), (9, 7), (8, 8), (10, 8),
                (2**32 - 1, 2), (2, 2**32 - 1), (2**32 - 1, 2**32 - 1), (2**31, 2**31),
                (65536, 65536), (257, 2), (2, 257), (1, 2**16 + 1)]


@group
def sizes(t):
    """N, T and W."""
    for name in SIZES:
        if t.has(name):
            for n in range(0, 13):
                for v in range(0, 11):
                    t.same(f"{name} {n} {v}", t.library.size(name, n, v),
                           getattr(model, name)(n, v))
            for n, v in OUT_OF_RANGE:
                t.same(f"{name} {n} {v}", t.library.size(name, n, v), 0)


@group
def tables(t):
    """All 75 tables, built and checked; damage to each section."""
    for n, v in model.settings():
        s, rng = setting(n, v), t.rng
        t.compare("built", "build_table", n, v, t.slices("build_table", n, v, []), expect=0)
        t.compare("right", "check_table", n, v, t.slices("check_table", n, v, []), expect=0)
        if not t.has("check_table"):
            continue

        def damaged(label, changes, expect):
            slices = t.slices("check_table", n, v, [])
            for word, value in changes:
                slices[0][word] = value
            t.compare(label, "check_table", n, v, slices, expect=expect)

        sections = [(0, s.N), (s.N, 2 * s.N), (2 * s.N, 2 * s.N + s.E), (2 * s.N + s.E, s.T)]
        for first, end in sections:
            for word in {first, end - 1, rng.randrange(first, end)}:
                value = s.table[word]
                for new in {(value + 1) % 65536, value ^ 0x8000, rng.randrange(65536)} - {value}:
                    damaged("one word", [(word, new)], model.refusal(6, word))
            for _ in range(20):
                i, j = rng.randrange(first, end), rng.randrange(first, end)
                if s.table[i] != s.table[j]:
                    damaged("two words exchanged", [(i, s.table[j]), (j, s.table[i])],
                            model.refusal(6, min(i, j)))
                    break
        # Damage in several sections: the first word decides.
        words = sorted(rng.sample(range(s.T), 3))
        damaged("three words", [(w, s.table[w] ^ 1) for w in words], model.refusal(6, words[0]))
        if s.T <= 160:
            for word in range(s.T):
                damaged("each word", [(word, s.table[word] ^ 1 << rng.randrange(16))],
                        model.refusal(6, word))
        # Words beyond the needed length are not read.
        slices = t.slices("check_table", n, v, [], beyond=False)
        slices[0].extend([65535, 0, 1])
        t.compare("beyond", "check_table", n, v, slices, expect=0)


@group
def samples(t):
    """01's samples, as numbers that do not come from the model."""
    def x(n, v, *terms):
        s = setting(n, v)
        return model.image(s, {e: c for e, c in terms})

    def row(label, name, n, v, inputs, result, answer=0, number=None):
        if t.has(name):
            got = t.run(name, n, v, *inputs, number=number)
            t.same(f"sample {label}", got, (answer, result))

    one, x1, x2 = ((0,), 1), ((1,), 1), ((2,), 1)
    row("(1 + x)(1 + x)", "product", 2, 1, [x(2, 1, one, x1)] * 2,
        [3, 65537, 131074, 196609], 4 << 24)
    row("(1 + x)(1 + x), n 1", "product", 1, 1, [x(1, 1, one, x1)] * 2, [2, 65537, 131074], 3 << 24)
    row("(1 + x)(1 - x)", "product", 2, 1, [x(2, 1, one, x1), x(2, 1, one, ((1,), 65520))],
        [2, 65537, 3 * 65536 + 65520, 0], 4 << 24)
    row("x x, n 1", "product", 1, 1, [x(1, 1, x1)] * 2, [0, 0, 0])
    row("derivative of x1^2", "derivative", 2, 2, [x(2, 2, ((2, 0), 1))],
        [1, 2 * 65536 + 2, 0, 0, 0, 0, 0], number=1)
    row("bracket of x1^2 and x2^2", "bracket", 2, 2, [x(2, 2, ((2, 0), 1)), x(2, 2, ((0, 2), 1))],
        [1, 5 * 65536 + 4, 0, 0, 0, 0, 0])
    row("x1^2 with (x1 + x2, x2)", "substitute", 2, 2,
        [x(2, 2, ((2, 0), 1)), x(2, 2, ((1, 0), 1), ((0, 1), 1)) + x(2, 2, ((0, 1), 1))],
        [3, 3 * 65536 + 1, 5 * 65536 + 2, 6 * 65536 + 1, 0, 0, 0])
    row("2x + 3x^2 inverted", "invert", 2, 1, [x(2, 1, ((1,), 2), ((2,), 3))],
        [2, 2 * 65536 + 32761, 3 * 65536 + 24570, 0])
    row("(x1 + x2^2, x2) inverted", "invert", 2, 2,
        [x(2, 2, ((1, 0), 1), ((0, 2), 1)) + x(2, 2, ((0, 1), 1))],
        [2, 2 * 65536 + 1, 6 * 65536 + 65520, 0, 0, 0, 0, 1, 4 * 65536 + 1, 0, 0, 0, 0, 0])
    for corner, answer in ((15, 9), (14, 0)):
        words = linear_words(2, 2, [[256, corner], [1, 256]])
        t.compare(f"determinant {65536 - corner}", "invert", 2, 2,
                  t.slices("invert", 2, 2, [words]), expect=answer)
    if t.has("build_table"):
        t.compare("builds", "build_table", 10, 6, t.slices("build_table", 10, 6, []), expect=0)
        t.compare("n 10, v 7", "build_table", 10, 7, [array("H", [7] * 30000)], expect=1)
        for n, v, e, position in ((2, 2, (1, 1), 5), (2, 4, (1, 1, 0, 0), 5),
                                  (2, 4, (0, 2, 0, 0), 6), (2, 4, (0, 0, 1, 0), 7)):
            _, (table,) = t.library.call("build_table", n, v, None,
                                         [array("H", [0] * setting(n, v).T)])
            s = setting(n, v)
            t.same(f"position of {e}",
                   table[2 * s.N + s.c1(e)] + table[2 * s.N + s.E + s.c2(e)], position)
    # The examples of the refusals.
    table = array("H", setting(2, 2).table)
    t.compare("table of 17 words", "check_table", 2, 2, [table[:17]], expect=2 | 1 << 24)
    table[13], table[14] = table[14], table[13]
    t.compare("words 13 and 14", "check_table", 2, 2, [table], expect=6 | 13 << 24)
    bad = [2, 196609, 196609, 0, 0, 0, 0]
    t.compare("not an image", "sum", 2, 2,
              t.slices("sum", 2, 2, [bad, [0] * 7]), expect=refusal7(1, 1, 2))
    shifted = x(2, 2, ((0, 0), 1), ((1, 0), 1)) + x(2, 2, ((0, 1), 1))
    t.compare("(1 + x1, x2)", "invert", 2, 2, t.slices("invert", 2, 2, [shifted]),
              expect=8 | 1 << 24)


def valid_inputs(t, name, n, v):
    """Inputs of a call that finishes."""
    kinds = [k for k in OPERATIONS[name][1] if k in ("series", "map")]
    inputs = []
    for kind in kinds:
        if kind == "series":
            inputs.append(t.series(n, v, t.rng.choice([0.3, 0.7, 1])))
        elif name == "invert":
            inputs.append(t.map(n, v, 0.5, linear=t.invertible(v)))
        else:
            inputs.append(t.map(n, v, 0.5, constant=len(inputs) == 0 and name == "compose"))
    return inputs


def number_of(name, v, rng):
    return {"c": rng.randrange(P), "k": rng.randrange(1, v + 1), None: None}[OPERATIONS[name][0]]


def image_fault(t, s, words):
    """Spoils one word of a component; returns that word. All words before it stay sound."""
    rng, m = t.rng, words[0]
    choices = ["m"] + ["entry"] * 3 * (m > 0) + ["zeros"] * (m < s.N)
    kind = rng.choice(choices)
    if kind == "m":
        words[0] = rng.choice([s.N + 1, 2**16, 2**32 - 1, rng.randrange(s.N + 1, 2**32)])
        return 0
    if kind == "zeros":
        i = rng.randrange(m + 1, s.N + 1)
        words[i] = rng.choice([1, 65536, 2**32 - 1, (s.N << 16) + 1, 2**31])
        return i
    i = rng.randrange(1, m + 1)
    spoil_entry(t, s, words, i)
    return i


def spoil_entry(t, s, words, i):
    rng = t.rng
    before = words[i - 1] >> 16 if i > 1 else 0
    position, coefficient = words[i] >> 16, words[i] & 0xFFFF
    words[i] = rng.choice([
        before << 16 | coefficient,
        rng.randrange(before + 1) << 16 | coefficient,
        coefficient,
        s.N + 1 << 16 | coefficient,
        65535 << 16 | coefficient,
        position << 16,
        position << 16 | P,
        position << 16 | 65535,
        0,
    ])


@group
def lengths(t):
    """Refusals 1 and 2 at each slice of each operation."""
    for name, (_, kinds) in OPERATIONS.items():
        if not t.has(name):
            continue
        for n, v in OUT_OF_RANGE:
            slices = t.slices(name, 2, 2, valid_inputs(t, name, 2, 2))
            t.compare("setting", name, n, v, slices, number_of(name, 2, t.rng), model.refusal(1))
            t.compare("setting, no slices", name, n, v,
                      [array(w.typecode) for w in slices], 0 if OPERATIONS[name][0] else None,
                      model.refusal(1))
        for n, v in [(2, 2), (3, 4), (2, 6), (1, 8)]:
            full = t.slices(name, n, v, valid_inputs(t, name, n, v), beyond=False)
            number = number_of(name, v, t.rng)
            for i in range(len(kinds)):
                for length in {0, 1, len(full[i]) // 2, len(full[i]) - 1}:
                    slices = list(full)
                    slices[i] = full[i][:length]
                    t.compare("short", name, n, v, slices, number, model.refusal(2, i + 1))
                    for j in range(i + 1, len(kinds)):
                        slices[j] = full[j][:-1]
                    t.compare("short from there on", name, n, v, slices, number,
                              model.refusal(2, i + 1))
            t.compare("exact", name, n, v, full, number)


@group
def images(t):
    """Refusal 7 at each argument, component and word; 6 before it."""
    for name, (number, kinds) in OPERATIONS.items():
        arguments = [k for k in kinds if k in ("series", "map")]
        if not arguments or not t.has(name):
            continue
        for n, v in [(2, 1), (2, 2), (1, 4)]:
            if name == "bracket" and v % 2:
                continue
            s = setting(n, v)
            L = s.N + 1
            for a, kind in enumerate(arguments, 1):
                for k in range(1, (v if kind == "map" else 1) + 1):
                    for word in range(L):
                        for _ in range(3):
                            inputs = valid_inputs(t, name, n, v)
                            part = inputs[a - 1][(k - 1) * L : k * L]
                            if word == 0:
                                part[0] = t.rng.choice([s.N + 1, 65536, 2**32 - 1])
                            elif word <= part[0]:
                                spoil_entry(t, s, part, word)
                            else:
                                part[word] = t.rng.choice([1, 1 << 16, word << 16 | 1, 2**32 - 1])
                            inputs[a - 1][(k - 1) * L : k * L] = part
                            # Later faults do not matter.
                            if a < len(arguments) and t.rng.random() < 0.5:
                                inputs[a][0] = s.N + 1
                            t.compare("fault", name, n, v, t.slices(name, n, v, inputs),
                                      number_of(name, v, t.rng), refusal7(a, k, word))
        # Larger series, where a check goes over many words at once.
        for n, v in [(5, 4), (10, 2), (10, 6), (7, 8)]:
            s = setting(n, v)
            L = s.N + 1
            if name == "bracket" and v % 2 or (s.N > 1000 and "map" in arguments):
                continue
            for _ in range(12 if s.N < 1000 else 6):
                inputs = valid_inputs(t, name, n, v) if s.N < 1000 else \
                    [t.series(n, v, t.rng.choice([0.01, 0.5, 1])) for _ in arguments]
                a = t.rng.randrange(len(inputs))
                k = t.rng.randrange(v) if arguments[a] == "map" else 0
                part = inputs[a][k * L : (k + 1) * L]
                word = image_fault(t, s, part)
                inputs[a][k * L : (k + 1) * L] = part
                t.compare("fault", name, n, v, t.slices(name, n, v, inputs),
                          number_of(name, v, t.rng), refusal7(a + 1, k + 1, word))


@group
def damage(t):
    """Refusal 6 in every operation that takes a table."""
    for name, (_, kinds) in OPERATIONS.items():
        if kinds[0] != "table" or name == "check_table" or not t.has(name):
            continue
        for n, v in [(2, 2), (3, 4), (2, 6)]:
            s = setting(n, v)
            for word in {0, s.N - 1, s.N, 2 * s.N - 1, 2 * s.N, 2 * s.N + s.E - 1,
                         2 * s.N + s.E, s.T - 1, t.rng.randrange(s.T)}:
                slices = t.slices(name, n, v, valid_inputs(t, name, n, v))
                slices[0][word] ^= 1 << t.rng.randrange(16)
                t.compare("damaged table", name, n, v, slices, number_of(name, v, t.rng),
                          model.refusal(6, word))


@group
def checks(t):
    """Every set of refusals that an operation has, all their conditions at once: the lowest
    number is returned."""
    for name, (number, kinds) in OPERATIONS.items():
        if not t.has(name):
            continue
        arguments = [k for k in kinds if k in ("series", "map")]
        faults = [1, 2]
        faults += [3] * (name == "derivative") + [4] * (name == "bracket")
        faults += [5] * (name == "multiple") + [6] * (kinds[0] == "table")
        faults += [7] * bool(arguments) + [8] * ("map" in arguments) + [9] * (name == "invert")
        for size in range(len(faults) + 1):
            for chosen in combinations(faults, size):
                for _ in range(2):
                    one_set_of_faults(t, name, chosen, arguments)


def one_set_of_faults(t, name, chosen, arguments):
    rng = t.rng
    n, v = rng.choice([(2, 2), (3, 2), (2, 4)])
    if 4 in chosen:
        v -= 1
    s = setting(n, v)
    L = s.N + 1
    inputs = valid_inputs(t, name, n, v)
    if 9 in chosen:
        rows = t.invertible(v)
        rows[rng.randrange(v)] = [0] * v if v == 1 or rng.random() < 0.3 else None
        if None in rows:
            at = rows.index(None)
            c = rng.randrange(P)
            rows[at] = [c * x % P for x in rows[at - 1]]
        inputs[0] = t.map(n, v, 0.5, linear=rows)
    if 8 in chosen:
        k = rng.randrange(v)
        part = inputs[-1][k * L : (k + 1) * L]
        f = {w >> 16: w & 0xFFFF for w in part[1 : part[0] + 1]}
        f[1] = t.coefficient()
        entries = [p << 16 | c for p, c in sorted(f.items())]
        inputs[-1][k * L : (k + 1) * L] = [len(entries)] + entries + [0] * (s.N - len(entries))
    if 7 in chosen:
        a = rng.randrange(len(inputs))
        k = rng.randrange(v) if arguments[a] == "map" else 0
        part = inputs[a][k * L : (k + 1) * L]
        image_fault(t, s, part)
        inputs[a][k * L : (k + 1) * L] = part
    slices = t.slices(name, n, v, inputs, beyond=2 not in chosen)
    if 6 in chosen:
        slices[0][rng.randrange(s.T - 1)] ^= 1 << rng.randrange(16)
    number = number_of(name, v, rng)
    if 3 in chosen:
        number = rng.choice([0, v + 1, 9, 256, 2**32 - 1, 65537])
    if 5 in chosen:
        number = rng.choice([P, P + 1, 65535, 65536, 65537, 2**32 - 1])
    if 2 in chosen:
        i = rng.randrange(len(slices))
        slices[i] = slices[i][:-1]
    if 1 in chosen:
        n, v = rng.choice(OUT_OF_RANGE)
    if not chosen:
        t.compare("no fault", name, n, v, slices, number)
        return
    got = t.compare(f"faults {chosen}", name, n, v, slices, number)
    if got is not None:
        answer, _ = t.library.call(name, n, v, number, slices, rng)
        t.same(f"faults {chosen}: {name} n {n} v {v}: {describe(answer)}", answer & 0xFF,
               min(chosen))


@group
def constants(t):
    """Refusal 8 at each component: the first one with a constant is the place."""
    for name in ("substitute", "compose", "invert"):
        if not t.has(name):
            continue
        for n, v in [(2, 1), (1, 1), (2, 2), (3, 2), (2, 3), (2, 4), (1, 5), (2, 7), (2, 8)]:
            s = setting(n, v)
            L = s.N + 1
            for k in range(v):
                inputs = valid_inputs(t, name, n, v)
                for j in [k] + [j for j in range(k + 1, v) if t.rng.random() < 0.5]:
                    f = model.polynomial(s, inputs[-1][j * L : (j + 1) * L])
                    f[(0,) * v] = t.coefficient()
                    inputs[-1][j * L : (j + 1) * L] = model.image(s, f)
                t.compare("constant", name, n, v, t.slices(name, n, v, inputs),
                          expect=model.refusal(8, k + 1))
            # 8 comes before 9.
            if name == "invert":
                words = model.map_image(s, [{(0,) * v: 1}] + [{}] * (v - 1))
                t.compare("8 before 9", name, n, v, t.slices(name, n, v, [words]),
                          expect=model.refusal(8, 1))


@group
def series(t):
    """Sum, difference and multiple at all settings."""
    for n, v in model.settings():
        s = setting(n, v)
        for density in (1, 0.5, 0.05, 0) if s.N < 1000 else (t.rng.choice([1, 0.5]), 0.05):
            a, b = t.series(n, v, density), t.series(n, v, t.rng.choice([1, 0.5, density]))
            negative = [a[0]] + [w - (w & 0xFFFF) + P - (w & 0xFFFF) if w else 0 for w in a[1:]]
            for name, x, y in (("sum", a, b), ("difference", a, b), ("sum", a, negative),
                               ("difference", a, a)):
                t.compare("random", name, n, v, t.slices(name, n, v, [x, y]), expect=0)
            for c in (0, 1, 2, P - 1, t.rng.randrange(P)):
                t.compare(f"{c} times", "multiple", n, v, t.slices("multiple", n, v, [a]), c, 0)
        for x in ([0] * (s.N + 1), a):
            for y in ([0] * (s.N + 1), b):
                for name in ("sum", "difference"):
                    t.compare("zero", name, n, v, t.slices(name, n, v, [x, y]), expect=0)
        for c in (P, P + 1, 65535, 65536, 2**32 - 1):
            t.compare(f"{c} times", "multiple", n, v, t.slices("multiple", n, v, [a]), c,
                      model.refusal(5))


@group
def product(t):
    """Products at all settings: dense where that is quick, sparse everywhere."""
    for n, v in model.settings() if t.has("product") else []:
        s = setting(n, v)
        pairs = [(1, 1), (0.5, 1), (1, 0.1)] if s.N <= 130 else []
        pairs += [(1, 1)] if 130 < s.N <= 260 else []
        pairs += [(min(40, s.N), min(60, s.N)), (1, 3), (0, 1), (1, 0)] if s.N > 1 else []
        for da, db in pairs:
            most = None if s.N <= 260 else 300
            a, b = t.series(n, v, da, most=most), t.series(n, v, db, most=most)
            t.compare("random", "product", n, v, t.slices("product", n, v, [a, b]))
        # A sum that cancels: (a + b)(a - b) in the variables' squares.
        a = [2, 1 << 16 | 1, 2 << 16 | 1] + [0] * (s.N - 2)
        b = [2, 1 << 16 | 1, 2 << 16 | P - 1] + [0] * (s.N - 2)
        t.compare("cancels", "product", n, v, t.slices("product", n, v, [a, b]))
        # Low orders with high ones, at the edge of the order.
        low = [s.position[e] for e in s.monomials if sum(e) <= 1]
        high = [s.position[e] for e in s.monomials if sum(e) >= n - 1]
        for first, second in ((low, high), (high, low), (high, high)):
            first = sorted(t.rng.sample(first, min(len(first), 30)))
            second = sorted(t.rng.sample(second, min(len(second), 60)))
            a, b = [[len(q)] + [p << 16 | t.coefficient() for p in q] + [0] * (s.N - len(q))
                    for q in (first, second)]
            t.compare("edge of the order", "product", n, v, t.slices("product", n, v, [a, b]))


@group
def shared(t):
    """Inputs may be one and the same buffer."""
    for name in ("sum", "difference", "product", "bracket", "compose"):
        for n, v in [(2, 2), (2, 4), (6, 2)] if t.has(name) else []:
            a = t.map(n, v, 0.7) if name == "compose" else t.series(n, v, 0.7)
            slices = t.slices(name, n, v, [a, a], beyond=False)
            wanted, expected = Model.call(name, n, v, None, slices)
            second = OPERATIONS[name][1].index("series!" if name != "compose" else "map!") - 1
            slices[second] = slices[second - 1]
            arguments = [n, v]
            for words in slices:
                arguments += [words.buffer_info()[0], len(words)]
            answer = t.library.functions[name](*arguments)
            t.same(f"with itself: {name} n {n} v {v}", (answer, slices), (wanted, expected))


@group
def largest(t):
    """All coefficients 65,520: the largest sums there are, at the largest settings too."""
    if not t.has("product"):
        return
    for n, v in [(10, 1), (10, 2), (3, 4), (10, 6), (8, 7), (7, 8), (9, 6)]:
        s = setting(n, v)
        a = [s.N] + [i << 16 | P - 1 for i in range(1, s.N + 1)]
        # (-1)^2 times the number of ways to part each monomial.
        expected = {}
        for e in s.monomials:
            ways = 1
            for i in e:
                ways *= i + 1
            expected[e] = ways
        pairs = sum(model.comb(n - o + v, v) * (model.comb(o + v - 1, v - 1)) for o in range(n + 1))
        got = t.run("product", n, v, a, a)
        t.same(f"largest sums n {n} v {v}", got, (pairs << 24, model.image(s, expected)))


@group
def derivative(t):
    """Derivatives in every variable at all settings."""
    for n, v in model.settings() if t.has("derivative") else []:
        s = setting(n, v)
        for k in range(1, v + 1):
            densities = (1, 0.1) if s.N <= 1000 else (1,) if k in (1, (v + 1) // 2, v) else (0.02,)
            for density in densities:
                a = t.series(n, v, density)
                t.compare(f"in x{k}", "derivative", n, v, t.slices("derivative", n, v, [a]), k, 0)
        a = t.series(n, v, 0.2)
        for k in (0, v + 1, 9, 2**16 + 1, 2**32 - 1):
            t.compare(f"in x{k}", "derivative", n, v, t.slices("derivative", n, v, [a]), k,
                      model.refusal(3))
        for a in ([0] * (s.N + 1), [1, 65537] + [0] * (s.N - 1)):
            t.compare("constant", "derivative", n, v, t.slices("derivative", n, v, [a]), v, 0)


@group
def bracket(t):
    """Brackets at all settings with even v, refused at the others."""
    for n, v in model.settings() if t.has("bracket") else []:
        s = setting(n, v)
        if v % 2:
            a, b = t.series(n, v, 0.1), t.series(n, v, 0.1)
            t.compare("odd", "bracket", n, v, t.slices("bracket", n, v, [a, b]),
                      expect=model.refusal(4))
            continue
        pairs = [(1, 1), (0.3, 1)] if s.N <= 90 else [(min(40, s.N), min(60, s.N))]
        for da, db in pairs + [(0, 1), (1, 0), (3, 5)]:
            a, b = t.series(n, v, da, most=300), t.series(n, v, db, most=60)
            t.compare("random", "bracket", n, v, t.slices("bracket", n, v, [a, b]))
        t.compare("with itself", "bracket", n, v, t.slices("bracket", n, v, [b, b]))


# n and v where the model composes and inverts dense maps quickly, and sparse ones.
DENSE = [(n, 1) for n in range(1, 11)] + [(n, 2) for n in range(1, 8)] + \
    [(1, v) for v in range(3, 9)] + [(2, 3), (3, 3), (4, 3), (2, 4), (3, 4), (2, 5), (2, 6)]
SPARSE = [(10, 2), (6, 3), (4, 4), (6, 4), (3, 5), (3, 6), (2, 7), (2, 8), (3, 8), (10, 3)]
VERY_SPARSE = [(10, 6), (8, 7), (7, 8), (9, 6), (10, 5)]


@group
def substitution(t):
    """Substitution and composition."""
    names = [name for name in ("substitute", "compose") if t.has(name)]
    for name in names:
        def one(label, n, v, outer, inner):
            first = t.map(n, v, outer, True) if name == "compose" else t.series(n, v, outer)
            t.compare(label, name, n, v, t.slices(name, n, v, [first, inner]), expect=0)

        for n, v in DENSE:
            for outer, inner in ((1, 1), (0.3, 1), (1, 0.3), (0, 1), (1, 0)):
                one("random", n, v, outer, t.map(n, v, inner))
        for n, v in SPARSE:
            for outer, inner in ((4, 3), (2, 6)):
                one("sparse", n, v, outer, t.map(n, v, inner))
        for n, v in VERY_SPARSE:
            unit = [[int(i == j) for j in range(v)] for i in range(v)]
            one("nearly the identity", n, v, 3, t.map(n, v, 1, most=1, linear=unit))
        for n, v in model.settings():
            # The identity on either side, and constants of the outer map.
            f = t.map(n, v, 0.3, name == "compose", most=200)
            unit = identity_words(n, v)
            if name == "compose":
                for outer, inner in ((f, unit), (unit, t.map(n, v, 0.3, most=200))):
                    slices = t.slices(name, n, v, [outer, inner])
                    answer, after = t.library.call(name, n, v, None, slices, t.rng)
                    result = after[3][: len(f)].tolist()
                    t.same(f"identity: {name} n {n} v {v}", (answer, result),
                           (0, inner if outer is unit else outer))
                    t.same(f"work space: {name} n {n} v {v}",
                           any(after[4][: setting(n, v).W]), False)
            else:
                a = t.series(n, v, 0.3, most=200)
                t.same(f"identity: {name} n {n} v {v}", t.run(name, n, v, a, unit), (0, a))
            L = setting(n, v).N + 1
            words = ([1, 65536 + 77] + [0] * (L - 2)) * (v if name == "compose" else 1)
            inner = t.map(n, v, 0.3, most=50)
            t.same(f"constant: {name} n {n} v {v}", t.run(name, n, v, words, inner), (0, words))


@group
def linear(t):
    """Linear maps: composition against the product of matrices, inversion against the inverse
    matrix, singular linear parts of every rank."""
    for v in range(1, 9):
        for n in (1, 2) + ((3,) if v < 7 else ()):
            if t.has("compose"):
                a, b = t.matrix(v, v), t.matrix(v, v)
                got = t.run("compose", n, v, linear_words(n, v, a), linear_words(n, v, b))
                t.same(f"matrix product n {n} v {v}", got,
                       (0, linear_words(n, v, model.matrix_product(a, b))))
            if t.has("invert"):
                a = t.invertible(v)
                got = t.run("invert", n, v, linear_words(n, v, a))
                t.same(f"inverse matrix n {n} v {v}", got,
                       (0, linear_words(n, v, model.inverse_matrix(a))))
        for rank in range(v + 1) if t.has("invert") else []:
            for trial in range(4):
                n = t.rng.choice([1, 2])
                if trial == 0:
                    # Ones in some places of a permutation.
                    columns = t.rng.sample(range(v), v)
                    rows = [[0] * v for _ in range(v)]
                    for i in t.rng.sample(range(v), rank):
                        rows[i][columns[i]] = t.coefficient()
                else:
                    rows = model.matrix_product(t.matrix(v, rank), t.matrix(rank, v)) if rank \
                        else [[0] * v for _ in range(v)]
                words = t.map(n, v, 0.3, linear=rows)
                t.compare(f"rank {rank}", "invert", n, v, t.slices("invert", n, v, [words]),
                          expect=0 if rank == v else model.refusal(9))
        # The whole-number determinant is not what counts: rows that differ from a singular
        # matrix by multiples of p cannot be written, but a determinant of exactly p can.
        if v >= 2 and t.has("invert"):
            for corner, answer in ((15, model.refusal(9)), (14, 0)):
                rows = [[int(i == j) for j in range(v)] for i in range(v)]
                rows[0][0], rows[0][1], rows[1][0], rows[1][1] = 256, corner, 1, 256
                order = t.rng.sample(range(v), v)
                words = linear_words(2, v, [rows[i] for i in order])
                t.compare(f"corner {corner}", "invert", 2, v, t.slices("invert", 2, v, [words]),
                          expect=answer)


@group
def inversion(t):
    """Inverses of random maps; the inverse of the inverse."""
    if not t.has("invert"):
        return
    for n, v in DENSE:
        for density in (1, 0.4):
            words = t.map(n, v, density, linear=t.invertible(v))
            t.compare("random", "invert", n, v, t.slices("invert", n, v, [words]), expect=0)
    for n, v in [(4, 3), (3, 4), (6, 2), (3, 5), (2, 6), (2, 7), (2, 8)]:
        words = t.map(n, v, 2, linear=t.invertible(v))
        t.compare("sparse", "invert", n, v, t.slices("invert", n, v, [words]), expect=0)
    for n, v in model.settings():
        unit = identity_words(n, v)
        t.same(f"identity inverted n {n} v {v}", t.run("invert", n, v, unit), (0, unit))
        most = 3 if setting(n, v).N > 400 else None
        rows = [[int(i == j) for j in range(v)] for i in range(v)] if most else t.invertible(v)
        if most and v > 5 and n > 6:
            most = 1
        words = t.map(n, v, 0.5, linear=rows, most=most)
        inverted = t.value("invert", n, v, words)
        t.same(f"inverse of the inverse n {n} v {v}", t.value("invert", n, v, inverted), words)


@group
def laws(t):
    """Laws between calls, at settings too large for the model."""
    for n, v in [(5, 6), (6, 4), (4, 6), (3, 8), (10, 2), (8, 3), (10, 4), (10, 6), (8, 7), (7, 8)]:
        s = setting(n, v)
        a, b, c = (t.series(n, v, d) for d in (0.3, 0.2, 0.25))
        if t.has("product"):
            pairs_ab, ab = t.run("product", n, v, a, b)
            pairs_ba, ba = t.run("product", n, v, b, a)
            t.same(f"a b = b a n {n} v {v}", (pairs_ab, ab), (pairs_ba, ba))
            orders = [[sum(s.monomials[(w >> 16) - 1]) for w in f[1 : f[0] + 1]] for f in (a, b)]
            pairs = sum(sum(1 for y in orders[1] if x + y <= n) for x in set(orders[0])
                        for _ in range(orders[0].count(x)))
            t.same(f"pairs n {n} v {v}", pairs_ab, pairs << 24)
            t.same(f"(a b) c = a (b c) n {n} v {v}", t.value("product", n, v, ab, c),
                   t.value("product", n, v, a, t.value("product", n, v, b, c)))
            if t.has("sum"):
                t.same(f"a (b + c) = a b + a c n {n} v {v}",
                       t.value("product", n, v, a, t.value("sum", n, v, b, c)),
                       t.value("sum", n, v, ab, t.value("product", n, v, a, c)))
        if v % 2 == 0 and t.has("bracket", "product", "derivative", "sum", "difference"):
            total = [0] * (s.N + 1)
            for k in range(1, v, 2):
                def d(f, i):
                    return t.value("derivative", n, v, f, number=i)
                total = t.value("sum", n, v, total, t.value("product", n, v, d(a, k), d(b, k + 1)))
                total = t.value("difference", n, v, total,
                                t.value("product", n, v, d(a, k + 1), d(b, k)))
            t.same(f"bracket from its parts n {n} v {v}", t.value("bracket", n, v, a, b), total)
        if s.N <= 500 and t.has("compose", "invert"):
            f = t.map(n, v, 0.2 if s.N > 200 else 1, linear=t.invertible(v))
            inverted = t.value("invert", n, v, f)
            for outer, inner in ((f, inverted), (inverted, f)):
                t.same(f"f with its inverse n {n} v {v}", t.value("compose", n, v, outer, inner),
                       identity_words(n, v))
        if s.N <= 500 and t.has("compose"):
            f, g, h = (t.map(n, v, 0.1, constant) for constant in (True, False, False))
            t.same(f"(f g) h = f (g h) n {n} v {v}",
                   t.value("compose", n, v, t.value("compose", n, v, f, g), h),
                   t.value("compose", n, v, f, t.value("compose", n, v, g, h)))
            if t.has("substitute", "product"):
                fa, fb = (t.value("substitute", n, v, x, g) for x in (a, b))
                t.same(f"substitution in a product n {n} v {v}",
                       t.value("substitute", n, v, t.value("product", n, v, a, b), g),
                       t.value("product", n, v, fa, fb))
                t.same(f"substitution in a component n {n} v {v}",
                       t.value("compose", n, v, f, g)[: s.N + 1],
                       t.value("substitute", n, v, f[: s.N + 1], g))


@group
def plain(t):
    """Against the plain C implementation, at large settings and densities."""
    if t.plain is None:
        return
    large = [(10, 6), (8, 7), (7, 8), (9, 6), (10, 5), (5, 6), (6, 4), (4, 6), (10, 2), (3, 8)]
    for n, v in large:
        s = setting(n, v)
        for density in (1, 0.1, 0.02):
            a, b = t.series(n, v, density), t.series(n, v, density)
            for name in ("sum", "difference", "product", "bracket"):
                t.compare("random", name, n, v, t.slices(name, n, v, [a, b]), reference=t.plain)
            t.compare("random", "multiple", n, v, t.slices("multiple", n, v, [a]), 4321,
                      reference=t.plain)
            for k in range(1, v + 1):
                t.compare(f"in x{k}", "derivative", n, v, t.slices("derivative", n, v, [a]), k,
                          reference=t.plain)
        densities = [1, 0.1, 4] if s.N < 300 else [0.1, 4] if s.N < 500 else [3]
        for density in densities:
            rows = t.invertible(v) if s.N < 500 else \
                [[int(i == j) for j in range(v)] for i in range(v)]
            most = None if s.N < 500 else 2
            f = t.map(n, v, density, linear=rows, most=most)
            g = t.map(n, v, density, True, most=most)
            t.compare("random", "compose", n, v, t.slices("compose", n, v, [g, f]),
                      reference=t.plain)
            t.compare("random", "substitute", n, v,
                      t.slices("substitute", n, v, [g[: s.N + 1], f]), reference=t.plain)
            t.compare("random", "invert", n, v, t.slices("invert", n, v, [f]), reference=t.plain)


@group
def vectors(t):
    """Maps worked by a separate computer algebra program (vectors.json)."""
    path = os.path.join(os.path.dirname(os.path.abspath(__file__)), "vectors.json")
    if not os.path.exists(path):
        return
    for case in json.load(open(path))["cases"]:
        name, n, v = case["operation"], case["n"], case["v"]
        s = setting(n, v)

        def words(maps):
            assert all(sum(e) <= n for f in maps for c, e in f), "a vector is not cut"
            return model.map_image(s, [{tuple(e): c for c, e in f} for f in maps])

        if t.has(name):
            answer, got = t.run(name, n, v, *[words(m) for m in case["inputs"]],
                                number=case.get("number"))
            t.same(f"vector {name} n {n} v {v}", (answer & 0xFF, got), (0, words(case["result"])))


def run_group(name, t):
    """Runs a group in a process of its own, so that a library that crashes fails that group only.
    Returns how many passed and failed, and what is not exported."""
    start = time.time()
    sys.stdout.flush()
    reader, writer = os.pipe()
    child = os.fork()
    if child == 0:
        os.close(reader)
        try:
            GROUPS[name](t)
        except Exception as error:
            t.record(False, f"{name}: {type(error).__name__}: {error}")
        sys.stdout.flush()
        os.write(writer, json.dumps([t.passed, t.failed, sorted(t.skipped)]).encode())
        os._exit(0)
    os.close(writer)
    with os.fdopen(reader, "rb") as pipe:
        report = pipe.read()
    _, status = os.waitpid(child, 0)
    if not report:
        print(f"FAILED {name}: the library ended the process (status {status})")
    good, bad, missing = json.loads(report) if report else (0, 1, [])
    print(f"{name}: {good} passed, {bad} failed, {time.time() - start:.1f} s", flush=True)
    return good, bad, missing


def main():
    parser = argparse.ArgumentParser(description=__doc__.split("\n\n")[0])
    parser.add_argument("library")
    parser.add_argument("prefix")
    parser.add_argument("--plain", help="shared library of the plain C implementation")
    parser.add_argument("--only", help="groups, parted by commas: " + ", ".join(GROUPS))
    parser.add_argument("--seed", type=int, default=65521)
    options = parser.parse_args()
    chosen = options.only.split(",") if options.only else list(GROUPS)
    library = Library(options.library, options.prefix)
    reference = Library(options.plain, "plain_") if options.plain else None
    for n, v in model.settings():
        setting(n, v)
    passed = failed = 0
    skipped = set()
    for name in chosen:
        t = Comparison(library, reference, f"{options.seed} {name}")
        good, bad, missing = run_group(name, t)
        passed, failed, skipped = passed + good, failed + bad, skipped | set(missing)
    for name in [name for name in SIZES + list(OPERATIONS) if name in skipped]:
        print(f"not exported: {options.prefix}{name}")
    print(f"{passed} passed, {failed} failed")
    return 1 if failed or not passed else 0


if __name__ == "__main__":
    sys.exit(main())
