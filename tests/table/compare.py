"""Compares maptab with the monomial table written straight from the rules: enumerate, sort, print.

    python3 tests/table/compare.py MAPTAB

Tries every order and number of variables from 0 to 12, malformed lines, and every byte at every place of a
well-formed line; the last line is 'N passed, M failed'.
"""

import re
import subprocess
import sys
from math import comb


def exponents(v, n):
    if v == 0:
        yield ()
        return
    for i in range(n + 1):
        for rest in exponents(v - 1, n - i):
            yield (i,) + rest


def table(n, v):
    half = (v + 1) // 2
    code = lambda digits: sum(d * (n + 1) ** i for i, d in enumerate(digits))
    rows = sorted((code(e[half:]), sum(e), code(e[:half]), e) for e in exponents(v, n))
    lines = ["n %d v %d count %d" % (n, v, len(rows))]
    for position, (c2, _, c1, e) in enumerate(rows, 1):
        lines.append(" ".join(map(str, [position, *e, c1, c2])))
    return ("\n".join(lines) + "\n").encode()


def expected(line):
    m = re.fullmatch(rb"([0-9]{1,2}) ([0-9]{1,2})\n", line)
    if not m:
        return b"refused 10\n"
    n, v = int(m[1]), int(m[2])
    if not (1 <= n <= 10 and 1 <= v <= 8 and comb(n + v, v) <= 8008):
        return b"refused 1\n"
    return table(n, v)


def inputs():
    for n in range(13):
        for v in range(13):
            yield b"%d %d\n" % (n, v)
    yield from [b"", b"\n", b" \n", b"2", b"2 2", b"2 2\n\n", b"2 2\n ", b"2 2\r\n", b"2\t2\n", b"2  2\n"]
    yield from [b" 2 2\n", b"2 2 \n", b"+2 2\n", b"-2 2\n", b"02 02\n", b"00 1\n", b"1 00\n", b"002 2\n"]
    yield from [b"2 002\n", b"99 99\n", b"2 2\n2 2\n", b"2 2\0", b"1000000000 2\n", b"2 2" * 100]
    for line in (b"2 2\n", b"10 3\n", b"10 10\n"):
        for at in range(len(line)):
            for byte in range(256):
                yield line[:at] + bytes([byte]) + line[at + 1 :]


def main():
    passed = failed = 0
    for line in inputs():
        got = subprocess.run([sys.argv[1]], input=line, capture_output=True).stdout
        if got == expected(line):
            passed += 1
        else:
            failed += 1
            print("differs: %r" % line)
    print("%d passed, %d failed" % (passed, failed))
    return 1 if failed else 0


if __name__ == "__main__":
    sys.exit(main())
