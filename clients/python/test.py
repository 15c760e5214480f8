"""The samples of the rules through the wrapper, and bad use: every mistake must raise. The last line is 'N passed, M
failed'."""

import os
import pickle
import shutil
import subprocess
import sys
import tempfile
import threading
import unittest
from array import array

import yigtrav
from yigtrav import Context, Library, Refusal, Words


class Samples(unittest.TestCase):
    def test_positions(self):
        self.assertEqual(Context(2, 2).position((1, 1)), 5)
        c = Context(2, 4)
        self.assertEqual(c.position((1, 1, 0, 0)), 5)
        self.assertEqual(c.position((0, 2, 0, 0)), 6)
        self.assertEqual(c.position((0, 0, 1, 0)), 7)
        for position in range(1, c.count + 1):
            self.assertEqual(c.position(c.exponents(position)), position)

    def test_sheet(self):
        c = Context(2, 2)
        monomials = [c.exponents(p) for p in range(1, 7)]
        self.assertEqual(monomials, [(0, 0), (1, 0), (2, 0), (0, 1), (1, 1), (0, 2)])

    def test_d1_d2(self):
        table = Context(2, 4).table
        self.assertEqual(list(table[30:39]), [1, 2, 4, 3, 5, 0, 6, 0, 0])
        self.assertEqual(list(table[39:48]), [0, 6, 9, 10, 13, 0, 14, 0, 0])

    def test_largest(self):
        self.assertEqual(Context(10, 6).count, 8008)
        self.assertEqual(Context(8, 7).count, 6435)
        self.assertEqual(Context(7, 8).count, 6435)

    def test_square(self):
        a = {(0,): 1, (1,): 1}
        self.assertEqual(Context(2, 1).product(a, a), ({(0,): 1, (1,): 2, (2,): 1}, 4))
        self.assertEqual(Context(1, 1).product(a, a), ({(0,): 1, (1,): 2}, 3))

    def test_cancelled(self):
        a, b = {(0,): 1, (1,): 1}, {(0,): 1, (1,): 65520}
        self.assertEqual(Context(2, 1).product(a, b), ({(0,): 1, (2,): 65520}, 4))

    def test_cut(self):
        self.assertEqual(Context(1, 1).product({(1,): 1}, {(1,): 1}), ({}, 0))

    def test_sums(self):
        c = Context(2, 1)
        a, b = {(0,): 1, (1,): 1}, {(0,): 1, (1,): 65520}
        self.assertEqual(c.sum(a, b), {(0,): 2})
        self.assertEqual(c.difference(a, b), {(1,): 2})
        self.assertEqual(c.multiple(65520, a), {(0,): 65520, (1,): 65520})
        self.assertEqual(c.multiple(0, a), {})

    def test_derivative_and_bracket(self):
        c = Context(2, 2)
        self.assertEqual(c.derivative({(2, 0): 1}, 1), {(1, 0): 2})
        self.assertEqual(c.bracket({(2, 0): 1}, {(0, 2): 1}), {(1, 1): 4})

    def test_substitution(self):
        map = [{(1, 0): 1, (0, 1): 1}, {(0, 1): 1}]
        self.assertEqual(Context(2, 2).substitute({(2, 0): 1}, map), {(2, 0): 1, (1, 1): 2, (0, 2): 1})

    def test_inversion(self):
        self.assertEqual(Context(2, 1).invert([{(1,): 2, (2,): 3}]), [{(1,): 32761, (2,): 24570}])
        c = Context(2, 2)
        f = [{(1, 0): 1, (0, 2): 1}, {(0, 1): 1}]
        g = [{(1, 0): 1, (0, 2): 65520}, {(0, 1): 1}]
        self.assertEqual(c.invert(f), g)
        self.assertEqual(c.compose(f, g), c.identity())

    def test_determinants(self):
        c = Context(2, 2)
        with self.assertRaises(Refusal) as caught:
            c.invert([{(1, 0): 256, (0, 1): 15}, {(1, 0): 1, (0, 1): 256}])
        self.assertEqual((caught.exception.number, caught.exception.place), (9, 0))
        inverse = c.invert([{(1, 0): 256, (0, 1): 14}, {(1, 0): 1, (0, 1): 256}])
        self.assertEqual(inverse, [{(1, 0): 256, (0, 1): 65507}, {(1, 0): 65520, (0, 1): 256}])

    def test_words(self):
        c = Context(2, 2)
        a, f = {(0, 2): 7, (1, 0): 65520, (1, 1): 0}, [{(1, 0): 1, (0, 2): 1}, {}]
        self.assertEqual(list(c.series_words(a)), [2, 2 * 65536 + 65520, 6 * 65536 + 7, 0, 0, 0, 0])
        self.assertEqual(c.read_series(c.series_words(a)), {(1, 0): 65520, (0, 2): 7})
        self.assertEqual(c.read_map(c.map_words(f)), f)
        self.assertEqual(c.sum(c.series_words(a), a), {(1, 0): 65519, (0, 2): 14})

    def test_threads(self):
        c, seen = Context(4, 4), []
        a = {c.exponents(p): p for p in range(1, c.count + 1)}
        expected = c.product(a, a)
        work = lambda: seen.extend(c.product(a, a) == expected for _ in range(20))
        threads = [threading.Thread(target=work) for _ in range(4)]
        for thread in threads:
            thread.start()
        for thread in threads:
            thread.join()
        self.assertEqual(seen, [True] * 80)


class BadUse(unittest.TestCase):
    def refused(self, number, place, call, *arguments):
        with self.assertRaises(Refusal) as caught:
            call(*arguments)
        self.assertEqual((caught.exception.number, caught.exception.place), (number, place))
        self.assertIn(f"refusal {number} at", str(caught.exception))

    def setUp(self):
        self.c = Context(2, 2)
        self.x1 = {(1, 0): 1}

    def test_setting(self):
        for n, v in ((10, 7), (0, 1), (1, 0), (11, 1), (1, 9), (-1, 2), (2**32 + 2, 2), (2, 2**40)):
            self.refused(1, 0, Context, n, v)
        with self.assertRaises(TypeError):
            Context("2", 2)
        with self.assertRaises(TypeError):
            Context(2.0, 2)

    def test_table(self):
        table = array("H", self.c.table)
        self.refused(2, 1, Context, 2, 2, table[:17])
        self.refused(2, 1, Context, 2, 2, array("H"))
        table[13], table[14] = table[14], table[13]
        self.refused(6, 13, Context, 2, 2, table)
        with self.assertRaises(TypeError):
            Context(2, 2, array("I", table))
        self.assertEqual(Context(2, 2, self.c.table).count, 6)

    def test_lengths(self):
        words = self.c.series_words(self.x1)
        self.refused(2, 1, self.c.sum, words[:6], words)
        self.refused(2, 2, self.c.sum, words, array("I"))
        self.refused(2, 3, self.c.product, words, words[:1])
        self.refused(2, 3, self.c.substitute, words, self.c.map_words(self.c.identity())[:13])
        self.refused(2, 2, self.c.invert, array("I"))
        self.refused(2, 1, self.c.read_series, words[:6])
        self.refused(2, 1, self.c.read_map, words)
        with self.assertRaises(ValueError):
            self.c.invert([self.x1])
        with self.assertRaises(ValueError):
            self.c.compose(self.c.identity(), [self.x1] * 3)

    def test_null(self):
        for call in (lambda: self.c.sum(None, self.x1), lambda: self.c.sum(self.x1, None),
                     lambda: self.c.multiple(2, None), lambda: self.c.invert(None),
                     lambda: self.c.invert([None, None]), lambda: self.c.substitute(self.x1, None),
                     lambda: self.c.derivative(None, 1), lambda: self.c.read_series(None)):
            with self.assertRaises(TypeError):
                call()
        self.refused(2, 1, Library().call, "build_table", 2, 2, array("H"))
        with self.assertRaises(TypeError):
            Library().call("build_table", 2, 2, None)

    def test_other_setting(self):
        other = Context(3, 2)
        f = [{(1, 0): 1, (3, 0): 1}, {(0, 1): 1}]
        self.assertEqual(len(other.invert(f)), 2)
        with self.assertRaises(ValueError):
            self.c.invert(f)
        with self.assertRaises(ValueError):
            self.c.sum(self.x1, {(1,): 1})
        with self.assertRaises(ValueError):
            self.c.sum(self.x1, {(1, 0, 0): 1})
        # Plain arrays do not say their setting: what is refused is their length, or a word of them. Words of a larger
        # setting are long enough, but their second component begins elsewhere.
        self.refused(2, 2, self.c.invert, array("I", Context(2, 1).map_words([{(1,): 1}])))
        self.refused(7, (1, 2, 4), self.c.invert, array("I", other.map_words(f)))

    def test_words_of_another_setting(self):
        # The first has longer words, the second as many as (2, 3), the third fewer.
        for here, there in (((2, 2), (3, 2)), ((3, 2), (2, 3)), ((3, 4), (3, 2))):
            c, other = Context(*here), Context(*there)
            x1, f = c.series_words(c.variable(1)), c.map_words(c.identity())
            a, g = other.series_words(other.variable(1)), other.map_words(other.identity())
            calls = {
                "sum": (lambda: c.sum(a, x1), lambda: c.sum(x1, a), lambda: c.sum(c.variable(1), a)),
                "difference": (lambda: c.difference(a, x1), lambda: c.difference(x1, a)),
                "multiple": (lambda: c.multiple(2, a),),
                "product": (lambda: c.product(a, x1), lambda: c.product(x1, a)),
                "derivative": (lambda: c.derivative(a, 1),),
                "bracket": (lambda: c.bracket(a, x1), lambda: c.bracket(x1, a)),
                "substitute": (lambda: c.substitute(a, f), lambda: c.substitute(x1, g)),
                "compose": (lambda: c.compose(g, f), lambda: c.compose(f, g)),
                "invert": (lambda: c.invert(g), lambda: c.invert([a] * c.v)),
                "words": (lambda: c.series_words(a), lambda: c.map_words(g), lambda: c.map_words([a] * c.v)),
                "read": (lambda: c.read_series(a), lambda: c.read_map(g)),
                "library": (lambda: c.library.call("multiple", *here, 1, a, array("I", x1)),
                            lambda: c.library.call("multiple", *here, 1, x1, a)),
            }
            for name, kind in calls.items():
                for number, call in enumerate(kind):
                    with self.subTest(name=name, number=number, here=here, there=there):
                        with self.assertRaises(ValueError) as caught:
                            call()
                        self.assertNotIsInstance(caught.exception, Refusal)
                        self.assertEqual(
                            str(caught.exception),
                            "words of order {} in {} variables given to a call of order {} in {} variables".format(
                                *there, *here))

    def test_words_know_their_setting(self):
        words, f = self.c.series_words(self.x1), self.c.map_words(self.c.identity())
        self.assertEqual((words.setting, f.setting), ((2, 2), (2, 2)))
        same = Context(2, 2)
        self.assertEqual(same.sum(words, words), {(1, 0): 2})
        self.assertEqual(same.compose(f, f), same.identity())
        self.assertEqual(same.map_words([words, {(0, 1): 1}]), f)
        kept = pickle.loads(pickle.dumps(words))
        self.assertEqual((type(kept), kept, kept.setting), (Words, words, (2, 2)))
        # A slice is a plain array; a component of one that is longer than needed is cut, a shorter one is a mistake.
        self.assertIs(type(words[:]), array)
        self.assertEqual(self.c.map_words([words + words, {(0, 1): 1}]), f)
        with self.assertRaises(ValueError):
            self.c.map_words([words[:6], {(0, 1): 1}])

    def test_coefficients(self):
        for coefficient in (65521, -1, 2**16, 2**32, 2**70):
            with self.assertRaises(ValueError):
                self.c.sum({(1, 0): coefficient}, self.x1)
        with self.assertRaises(TypeError):
            self.c.sum({(1, 0): 1.5}, self.x1)
        words = self.c.series_words(self.x1)
        words[1] = 2 << 16 | 65521
        self.refused(7, (2, 1, 1), self.c.sum, self.x1, words)
        self.refused(7, (1, 1, 1), self.c.read_series, words)
        bad = array("I", [2, 196609, 196609, 0, 0, 0, 0])
        self.refused(7, (1, 1, 2), self.c.sum, bad, self.x1)
        self.refused(7, (1, 2, 2), self.c.read_map, self.c.series_words(self.x1) + bad)

    def test_monomials(self):
        for exponents in ((2, 1), (-1, 1), (3, 0), (1,), (), (0, 2**40)):
            with self.assertRaises(ValueError):
                self.c.position(exponents)
        for position in (0, 7, -1):
            with self.assertRaises(ValueError):
                self.c.exponents(position)

    def test_numbers(self):
        for k in (0, 3, -1, 2**32 + 1):
            self.refused(3, 0, self.c.derivative, self.x1, k)
        for c in (65521, -1, 2**32 + 1):
            self.refused(5, 0, self.c.multiple, c, self.x1)
        self.refused(4, 0, Context(2, 3).bracket, {}, {})

    def test_maps(self):
        shifted = [{(0, 0): 1, (1, 0): 1}, {(0, 1): 1}]
        self.refused(8, 1, self.c.invert, shifted)
        self.refused(8, 1, self.c.substitute, self.x1, shifted)
        self.refused(8, 1, self.c.compose, self.c.identity(), shifted)
        self.refused(8, 2, self.c.invert, shifted[::-1])
        self.assertEqual(self.c.compose(shifted, self.c.identity()), shifted)
        self.refused(9, 0, self.c.invert, [{}, {}])

    def test_library(self):
        with self.assertRaises(OSError):
            Library("/no/such/library.so")

    def test_another_interface(self):
        """A library of another interface is not taken, neither where it is named nor where it is found."""
        number = yigtrav.INTERFACE
        module, own, other = yigtrav.__file__, f"libyigtrav.so.{number}", f"libyigtrav.so.{number + 1}"
        with open(yigtrav.find_library(), "rb") as file:
            content = file.read()
        environment = {k: v for k, v in os.environ.items() if k not in ("YIGTRAV_LIBRARY", "PYTHONPATH")}

        def load(folder, **more):
            return subprocess.run([sys.executable, "-B", "-c", "import yigtrav; print(yigtrav.Context(2, 2).count)"],
                                  cwd=folder, env={**environment, **more}, capture_output=True, text=True)

        with tempfile.TemporaryDirectory() as top:
            top = os.path.realpath(top)
            folder = os.path.join(top, "clients", "python")
            os.makedirs(folder)
            shutil.copy(module, folder)
            self.assertIn(
                f"OSError: {own} is neither in {folder} nor in {top}/dist; "
                f"yigtrav.py is written for interface {number}\n",
                load(folder).stderr)
            path = os.path.join(folder, other)
            with open(path, "wb") as file:
                file.write(content.replace(own.encode(), other.encode()))
            self.assertIn(f" written for interface {number}, and of another one there is {path}\n", load(folder).stderr)
            said = load(folder, YIGTRAV_LIBRARY=path).stderr
            self.assertIn(f"OSError: {path} is not {own}; yigtrav.py is written for interface {number}, not", said)
            os.rename(path, os.path.join(folder, own))  # the name alone does not make it another library
            self.assertIn(f" is not {own}; yigtrav.py is written for interface {number}, not", load(folder).stderr)
            with open(os.path.join(folder, own), "wb") as file:
                file.write(content)
            self.assertEqual(load(folder).stdout, "6\n")


if __name__ == "__main__":
    tests = unittest.defaultTestLoader.loadTestsFromModule(sys.modules["__main__"])
    result = unittest.TextTestRunner(verbosity=0).run(tests)
    bad = len(result.failures) + len(result.errors)
    print(f"{result.testsRun - bad} passed, {bad} failed")
    sys.exit(bool(bad))
