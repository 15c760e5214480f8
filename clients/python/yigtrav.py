"""Truncated power-series maps modulo 65,521: the proved kernel from Python, standard library only.

    from yigtrav import Context
    c = Context(2, 1)                            # order 2, one variable
    c.product({(0,): 1, (1,): 1}, {(0,): 1, (1,): 1})
    # ({(0,): 1, (1,): 2, (2,): 1}, 4)

A series is a dict from exponents, a tuple of v numbers, to coefficients from 0 to 65,520; one of 0 is no entry. A map
is a list of v series. Where a series or a map is taken, its words may be given instead, in the kernel's layout:
`series_words` and `map_words` make them, as Words, and `read_series` and `read_map` read them. Words are an array('I')
that knows its setting, and a call of another setting does not take them. A plain array('I') is taken too, and so is a
slice or a copy of Words, which is one; it says nothing of its setting, so only its length and its layout are tested.

Where the kernel declines, Refusal is raised, which is a ValueError; what cannot be put into words at all (a monomial
that the setting does not have, a coefficient out of range, a map with the wrong number of components) and Words of
another setting are a plain ValueError or TypeError.

The library is libyigtrav.so.1, 1 being the number of the interface that this module is written for. It is looked for
beside this file, then in dist/ of the repository that this file stands in; the environment variable YIGTRAV_LIBRARY
names another file. One of another interface is not taken: OSError.
"""

import ctypes
import glob
import os
import threading
from array import array
from operator import index

MODULUS = 65521

# The interface that FUNCTIONS below describes: YIGTRAV_VERSION_MAJOR of its yigtrav.h.
INTERFACE = 1

REASONS = {
    1: "n, v or N out of range",
    2: "a slice is too short",
    3: "variable not 1 to v",
    4: "bracket with odd v",
    5: "multiplier above 65,520",
    6: "a table word differs from the rule",
    7: "an input series is not an image",
    8: "inner or inverted map has a constant",
    9: "linear part singular modulo 65,521",
}


class Refusal(ValueError):
    """The kernel declined. `number` is the refusal's; `place` is one number, for refusal 7 the tuple (argument,
    component, word)."""

    def __init__(self, number, place):
        super().__init__(number, place)
        self.number, self.place = number, place

    def __str__(self):
        return f"refusal {self.number} at {self.place}: {REASONS.get(self.number, 'unknown')}"


# ---- the library ------------------------------------------------------------------------------------------------

# What each function takes after n and v: '#' a number, 't' a slice of 16-bit words, 'w' one of 32-bit words.
FUNCTIONS = {
    "count": "",
    "table_words": "",
    "work_words": "",
    "build_table": "t",
    "check_table": "t",
    "sum": "www",
    "difference": "www",
    "multiple": "#ww",
    "product": "twwww",
    "derivative": "#tww",
    "bracket": "twwww",
    "substitute": "twwww",
    "compose": "twwww",
    "invert": "twww",
}

# array's type codes for words of exactly 16 and 32 bits.
CODES = {"t": "H", "w": "I"}
assert array("H").itemsize == 2 and array("I").itemsize == 4


NAME = f"libyigtrav.so.{INTERFACE}"


def find_library():
    given = os.environ.get("YIGTRAV_LIBRARY")
    if given:
        return given
    here = os.path.dirname(os.path.abspath(__file__))
    folders = [here, os.path.normpath(os.path.join(here, "..", "..", "dist"))]
    others = []
    for folder in folders:
        if os.path.exists(os.path.join(folder, NAME)):
            return os.path.join(folder, NAME)
        others += sorted(glob.glob(os.path.join(glob.escape(folder), "libyigtrav.so*")))
    raise OSError(
        f"{NAME} is neither in {' nor in '.join(folders)}; yigtrav.py is written for interface {INTERFACE}"
        + (f", and of another one there is {', '.join(others)}" if others else "")
    )


def check_interface(path):
    """ctypes loads any file. The name that a library was linked under, its soname, stands in it between zero bytes."""
    with open(path, "rb") as file:
        if b"\0" + NAME.encode() + b"\0" not in file.read():
            raise OSError(f"{path} is not {NAME}; yigtrav.py is written for interface {INTERFACE}, not for this one")


class Library:
    """The C interface. Slices are arrays; a call returns what it reports, or raises Refusal."""

    def __init__(self, path=None):
        path = os.path.abspath(path or find_library())
        check_interface(path)
        loaded = ctypes.CDLL(path)
        self.functions = {}
        for name, takes in FUNCTIONS.items():
            function = loaded["yigtrav_" + name]
            types = [ctypes.c_uint32, ctypes.c_uint32]
            for kind in takes:
                types += [ctypes.c_uint32] if kind == "#" else [ctypes.c_void_p, ctypes.c_size_t]
            function.argtypes, function.restype = types, ctypes.c_uint64
            self.functions[name] = function

    def size(self, name, n, v):
        return self.functions[name](number(n), number(v))

    def call(self, name, n, v, *arguments):
        flat = [number(n), number(v)]
        takes = FUNCTIONS[name]
        if len(arguments) != len(takes):
            raise TypeError(f"{name} takes {len(takes)} arguments after n and v")
        for kind, argument in zip(takes, arguments):
            if kind == "#":
                flat.append(number(argument))
                continue
            if not isinstance(argument, array) or argument.typecode != CODES[kind]:
                raise TypeError(f"{name}: a slice must be an array({CODES[kind]!r})")
            check_setting(argument, (n, v))
            address, length = argument.buffer_info()
            flat += [address if length else None, length]
        answer = self.functions[name](*flat)
        if answer & 0xFF == 7:
            raise Refusal(7, (answer >> 8 & 0xFF, answer >> 16 & 0xFF, answer >> 24))
        if answer & 0xFF:
            raise Refusal(answer & 0xFF, answer >> 24)
        return answer >> 24


def number(x):
    """x as the interface takes it. ctypes would cut it to 32 bits in silence; 2^32 - 1 is out of range everywhere."""
    x = index(x)
    return x if 0 <= x < 2**32 else 2**32 - 1


class Words(array):
    """The words of a series or a map, as array('I'), with their `setting`: order and number of variables."""

    def __new__(cls, setting, words):
        self = super().__new__(cls, "I", words)
        self.setting = setting
        return self


def check_setting(words, setting):
    """Words of another setting may have the right length and layout, and would be read as other monomials."""
    if isinstance(words, Words) and words.setting != setting:
        of, here = ("order {} in {} variables".format(*s) for s in (words.setting, setting))
        raise ValueError(f"words of {of} given to a call of {here}")


_shared = []


def shared_library():
    if not _shared:
        _shared.append(Library())
    return _shared[0]


# ---- contexts ---------------------------------------------------------------------------------------------------


class Context:
    """One setting: order n, v variables, their table and work space. Threads may share it."""

    def __init__(self, n, v, table=None, library=None):
        """`table` is one that was kept from before, as array('H'); without it the table is built."""
        self.library = library or shared_library()
        self.n, self.v = n, v = index(n), index(v)
        self.setting = n, v
        self.count = self.library.size("count", n, v)
        if self.count == 0:
            raise Refusal(1, 0)
        if table is None:
            table = array("H", bytes(2 * self.library.size("table_words", n, v)))
            self.library.call("build_table", n, v, table)
        else:
            self.library.call("check_table", n, v, table)
        self.table = table
        self._work = array("I", bytes(4 * self.library.size("work_words", n, v)))
        self._one_at_a_time = threading.Lock()  # over the work space: ctypes lets other threads run
        self._half = (v + 1) // 2
        self._codes = (n + 1) ** self._half
        self._length = self.count + 1
        self._exponents = [None] + [self._decode(p) for p in range(1, self.count + 1)]

    # ---- monomials ----

    def _decode(self, position):
        exponents = []
        first, second = self.table[position - 1], self.table[self.count + position - 1]
        for code, digits in ((first, self._half), (second, self.v - self._half)):
            for _ in range(digits):
                code, digit = divmod(code, self.n + 1)
                exponents.append(digit)
        return tuple(exponents)

    def exponents(self, position):
        """Exponents of the monomial at a position from 1 to N."""
        if not 1 <= index(position) <= self.count:
            raise ValueError(f"position {position} is not 1 to {self.count}")
        return self._exponents[position]

    def position(self, exponents):
        """Position of a monomial, by the table."""
        # The order is tested before the codes are used: beyond n they lead to other monomials.
        if len(exponents) != self.v or any(index(e) < 0 for e in exponents) or sum(exponents) > self.n:
            raise ValueError(f"{exponents} is no monomial of order at most {self.n} in {self.v} variables")
        first = second = 0
        for e in reversed(exponents[: self._half]):
            first = first * (self.n + 1) + e
        for e in reversed(exponents[self._half :]):
            second = second * (self.n + 1) + e
        d1 = 2 * self.count
        return self.table[d1 + first] + self.table[d1 + self._codes + second]

    def variable(self, k):
        """The series xk, k from 1."""
        if not 1 <= index(k) <= self.v:
            raise ValueError(f"variable {k} is not 1 to {self.v}")
        return {tuple(int(i == k) for i in range(1, self.v + 1)): 1}

    def identity(self):
        return [self.variable(k) for k in range(1, self.v + 1)]

    # ---- words ----

    def series_words(self, series):
        """The words of a series. Where these are given, they are what is returned."""
        if isinstance(series, array):
            check_setting(series, self.setting)
            return series
        if not hasattr(series, "items"):
            raise TypeError(f"a series is a dict from exponents to coefficients, not {type(series).__name__}")
        entries = []
        for exponents, coefficient in series.items():
            coefficient = index(coefficient)
            if not 0 <= coefficient < MODULUS:
                raise ValueError(f"coefficient {coefficient} of {exponents} is not 0 to {MODULUS - 1}")
            position = self.position(exponents)
            if coefficient:
                entries.append(position << 16 | coefficient)
        entries.sort()
        words = Words(self.setting, bytes(4 * self._length))
        words[: len(entries) + 1] = array("I", [len(entries), *entries])
        return words

    def map_words(self, map):
        """The words of a map. Where these are given, they are what is returned; a component may be given so too."""
        if isinstance(map, array):
            check_setting(map, self.setting)
            return map
        if not isinstance(map, (list, tuple)):
            raise TypeError(f"a map is a list of series, not {type(map).__name__}")
        if len(map) != self.v:
            raise ValueError(f"a map has {self.v} components here, not {len(map)}")
        words = Words(self.setting, [])
        for series in map:
            component = self.series_words(series)
            if len(component) < self._length:
                raise ValueError(f"a component has {self._length} words here, not {len(component)}")
            words += component[: self._length]
        return words

    def read_series(self, words):
        """The series that words hold; refused where they are not an image."""
        copy = self._zeros(self._length)
        self.library.call("multiple", self.n, self.v, 1, words, copy)
        return self._series(copy)

    def read_map(self, words):
        """The map that words hold; refused where a component is not an image."""
        check_setting(words, self.setting)
        if len(words) < self.v * self._length:
            raise Refusal(2, 1)
        map = []
        for k in range(self.v):
            try:
                map.append(self.read_series(words[k * self._length : (k + 1) * self._length]))
            except Refusal as refusal:
                raise Refusal(7, (1, k + 1, refusal.place[2])) from None
        return map

    def _series(self, words):
        return {self._exponents[w >> 16]: w & 0xFFFF for w in words[1 : words[0] + 1]}

    def _map(self, words):
        return [self._series(words[k * self._length : (k + 1) * self._length]) for k in range(self.v)]

    @staticmethod
    def _zeros(length):
        return array("I", bytes(4 * length))

    # ---- operations ----

    def _call(self, name, arguments, result):
        if name in ("sum", "difference", "multiple", "derivative"):
            return self.library.call(name, self.n, self.v, *arguments, result)
        with self._one_at_a_time:
            return self.library.call(name, self.n, self.v, self.table, *arguments, result, self._work)

    def _to_series(self, name, *arguments):
        result = self._zeros(self._length)
        self._call(name, arguments, result)
        return self._series(result)

    def _to_map(self, name, *arguments):
        result = self._zeros(self.v * self._length)
        self._call(name, arguments, result)
        return self._map(result)

    def sum(self, a, b):
        return self._to_series("sum", self.series_words(a), self.series_words(b))

    def difference(self, a, b):
        return self._to_series("difference", self.series_words(a), self.series_words(b))

    def multiple(self, c, a):
        return self._to_series("multiple", c, self.series_words(a))

    def product(self, a, b):
        """The product, and the number of pairs of entries that were multiplied."""
        result = self._zeros(self._length)
        pairs = self._call("product", (self.series_words(a), self.series_words(b)), result)
        return self._series(result), pairs

    def derivative(self, a, k):
        """In variable xk, k from 1."""
        return self._to_series("derivative", k, self.table, self.series_words(a))

    def bracket(self, a, b):
        return self._to_series("bracket", self.series_words(a), self.series_words(b))

    def substitute(self, a, map):
        """The series a with component i of the map put in for xi."""
        return self._to_series("substitute", self.series_words(a), self.map_words(map))

    def compose(self, outer, inner):
        """The inner map substituted into each component of the outer one."""
        return self._to_map("compose", self.map_words(outer), self.map_words(inner))

    def invert(self, map):
        return self._to_map("invert", self.map_words(map))
