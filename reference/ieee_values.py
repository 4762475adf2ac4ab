#!/usr/bin/env python3
"""Writes IEEE 754 binary64 test values for the program `cases`, one a line: name, operands, expected result, as bit patterns.

Every expected value comes from exact whole-number arithmetic (Python integers and fractions); no float operation is used.
  add sub mul div  a b r    the result rounded once, ties to even; a NaN result is 7FF8000000000000
  cmp              a b r    1 a < b, 2 a == b, 4 a > b, 0 unordered
  flo              a r      the largest whole number not above a, with a's sign where that is 0
  hyp              a b r    the root of a^2 + b^2, correctly rounded; an infinite side gives infinity
  tot              a b r    totalOrder (IEEE 754-2019, 5.10): 1 a before b, 2 the same pattern, 4 b before a
"""
import random
from fractions import Fraction
from math import isqrt

INF, NAN = 0x7FF << 52, 0x7FF8 << 48
SIGN, TOP = 1 << 63, 1 << 64
LARGEST = INF - 1
ONE, TWO, THREE, HALF = 0x3FF << 52, 0x400 << 52, 0x4008 << 48, 0x3FE << 52


def fields(p):
    return p >> 63, p >> 52 & 0x7FF, p & (1 << 52) - 1


def is_nan(p):
    return p % SIGN > INF


def is_inf(p):
    return p % SIGN == INF


def grains(p):
    """The size of a finite pattern in units of 2^-1074."""
    s, e, f = fields(p)
    return f if e == 0 else (f + (1 << 52)) << (e - 1)


def signed(p):
    return -grains(p) if p >> 63 else grains(p)


def value(p):
    return Fraction(signed(p), 1 << 1074)


def pack(q, k):
    """q * 2^k grains, q < 2^53 or q = 2^53, as a pattern; infinity where it is too large."""
    if q == 1 << 53:
        q, k = q >> 1, k + 1
    if k == 0:
        return q
    p = (k << 52) + q
    return p if p < INF else INF


def nearest(num, den):
    """num / den grains, rounded to nearest, ties to even."""
    k = max(0, (num // den).bit_length() - 53)
    q, r = divmod(num, den << k)
    double = 2 * r - (den << k)
    if double > 0 or double == 0 and q % 2:
        q += 1
    return pack(q, k)


def rounded(x, zero_sign):
    if x == 0:
        return SIGN if zero_sign else 0
    s = x < 0
    x = abs(x) * (1 << 1074)
    return nearest(x.numerator, x.denominator) | (SIGN if s else 0)


def add(a, b):
    if is_nan(a) or is_nan(b):
        return NAN
    if is_inf(a) and is_inf(b):
        return a if a == b else NAN
    if is_inf(a) or is_inf(b):
        return a if is_inf(a) else b
    both = a >> 63 == 1 and b >> 63 == 1
    return rounded(value(a) + value(b), both)


def sub(a, b):
    return NAN if is_nan(b) else add(a, b ^ SIGN)


def mul(a, b):
    s = (a ^ b) & SIGN
    if is_nan(a) or is_nan(b):
        return NAN
    if is_inf(a) or is_inf(b):
        return NAN if grains_or(a) == 0 or grains_or(b) == 0 else INF | s
    return rounded(value(a) * value(b), s != 0)


def grains_or(p):
    return 1 if is_inf(p) else grains(p)


def div(a, b):
    s = (a ^ b) & SIGN
    if is_nan(a) or is_nan(b) or is_inf(a) and is_inf(b):
        return NAN
    if is_inf(a):
        return INF | s
    if is_inf(b):
        return s
    if grains(b) == 0:
        return NAN if grains(a) == 0 else INF | s
    return rounded(value(a) / value(b), s != 0)


def order(p):
    """A whole number that orders patterns that are no NaN's as numbers."""
    if is_inf(p):
        return -(1 << 3000) if p >> 63 else 1 << 3000
    return signed(p)


def cmp(a, b):
    if is_nan(a) or is_nan(b):
        return 0
    x, y = order(a), order(b)
    return 1 if x < y else 2 if x == y else 4


def flo(a):
    if is_nan(a):
        return NAN
    if is_inf(a):
        return a
    n = signed(a) >> 1074
    return rounded(Fraction(n), a >> 63)


def hyp(a, b):
    if is_inf(a) or is_inf(b):
        return INF
    if is_nan(a) or is_nan(b):
        return NAN
    n = grains(a) ** 2 + grains(b) ** 2
    k = max(0, isqrt(n).bit_length() - 53)
    q = isqrt(n) >> k
    half = (2 * q + 1) << k
    if 4 * n > half * half or 4 * n == half * half and q % 2:
        q += 1
    return pack(q, k)


def tot(a, b):
    """By the clauses of 5.10."""
    if a == b:
        return 2
    na, nb = is_nan(a), is_nan(b)
    if not na and not nb:
        x, y = order(a), order(b)
        if x != y:
            return 1 if x < y else 4
        return 1 if a >> 63 else 4
    if na and nb:
        sa, sb = a >> 63, b >> 63
        if sa != sb:
            return 1 if sa else 4
        lower = a % SIGN < b % SIGN
        return 1 if lower != (sa == 1) else 4
    if na:
        return 1 if a >> 63 else 4
    return 4 if b >> 63 else 1


def pattern(rng, kind):
    s = rng.getrandbits(1) << 63
    if kind == 0:
        return s | rng.getrandbits(63)
    if kind == 1:
        return s | rng.randrange(0x3F0, 0x410) << 52 | rng.getrandbits(52)
    if kind == 2:
        return s | rng.getrandbits(rng.randrange(1, 53))
    if kind == 3:
        return s | rng.randrange(0x7F0, 0x7FF) << 52 | rng.getrandbits(52)
    if kind == 4:
        return s | rng.randrange(0x3F0, 0x410) << 52 | rng.getrandbits(8) << 44
    return s | rng.randrange(0, 40) << 52 | rng.getrandbits(52)


SPECIAL = [0, SIGN, 1, SIGN | 1, (1 << 52) - 1, 1 << 52, LARGEST, SIGN | LARGEST, INF, SIGN | INF, NAN, SIGN | NAN, INF + 1, ONE, SIGN | ONE, TWO, THREE, HALF, SIGN | HALF]

# ties, results that become subnormal, overflow and its edge, by hand
BY_HAND = {
    'add': [(ONE, 0x3CA << 52), (ONE + 1, 0x3CA << 52), (ONE, (0x3CA << 52) + 1), (ONE, SIGN | 0x3C9 << 52), (LARGEST, 0x7C9 << 52), (LARGEST, (0x7C9 << 52) - 1), (LARGEST, 0x7CA << 52), ((1 << 52) - 1, 1), (1 << 52, SIGN | 1), (ONE, SIGN | ONE), (SIGN | ONE, ONE)],
    'sub': [(ONE, 0x3C9 << 52), (ONE, 0x3CA << 52), (ONE + 1, ONE), (1 << 52, 1), (SIGN | LARGEST, 0x7C9 << 52), (SIGN | LARGEST, (0x7C9 << 52) - 1), (1, 1), (0, 0), (SIGN, 0), (0, SIGN)],
    'mul': [(1, HALF), (3, HALF), (5, HALF), (1, HALF + 1), (1 << 52, HALF), ((1 << 52) + 1, HALF), (LARGEST, ONE + 1), (LARGEST, ONE), (0x5FE << 52, 0x600 << 52), (0x5FF << 52, 0x600 << 52), (ONE + 1, ONE + 1), (0x1FE << 52, 0x1CC << 52), (0x1FE << 52, 0x1CB << 52)],
    'div': [(1, TWO), (3, TWO), (5, TWO), ((1 << 52) + 1, TWO), (ONE, THREE), (TWO, THREE), (LARGEST, HALF), (LARGEST, ONE - 1), (ONE, LARGEST), (1, LARGEST), (ONE, 1), (0x0028 << 48, 0x3FF8 << 48)],
    'hyp': [(THREE, 0x4010 << 48), (ONE, ONE), (0x403B << 48, 0x4031 << 48), (1, 1), (1, 2), (3, 4), (LARGEST, LARGEST), (LARGEST, 0x7C9 << 52), (LARGEST, 0x7E2 << 52), (0x7FE << 52 | 0x6A09E667F3BCC, 0x7FE << 52 | 0x6A09E667F3BCC), (0x7FE6A09E667F3BCC, 0x7FE6A09E667F3BCC), (0x7FE6A09E667F3BCD, 0x7FE6A09E667F3BCC), (ONE, 0x3E4 << 52), (ONE, 0x3E5 << 52), (ONE + 1, 0x3E4 << 52), (ONE + 1, 0x3E5 << 52), (1 << 52, 1), ((1 << 52) - 1, (1 << 52) - 1)],
}


def pairs(rng, name):
    out = list(BY_HAND.get(name, []))
    for i in range(len(SPECIAL)):
        out.append((SPECIAL[i], SPECIAL[rng.randrange(len(SPECIAL))]))
    for i in range(50):
        kind = i % 6
        out.append((pattern(rng, kind), pattern(rng, kind)))
    if name in ('cmp', 'tot'):
        for i in range(12):
            a = pattern(rng, i % 6)
            out += [(a, a), (a, a ^ 1), (a, a ^ SIGN)]
        for a in (NAN, SIGN | NAN, INF + 1, SIGN | (INF + 1)):
            for b in (NAN, NAN + 1, SIGN | NAN, SIGN | (NAN + 1), INF + 1, INF, SIGN | INF, 0, ONE):
                out.append((a, b))
        out += [(0, SIGN), (SIGN, 0), (0, 0), (SIGN, SIGN)]
    return out


def main():
    rng = random.Random(754)
    lines = []
    for name, f in (('add', add), ('sub', sub), ('mul', mul), ('div', div), ('cmp', cmp), ('hyp', hyp), ('tot', tot)):
        for a, b in pairs(rng, name):
            lines.append('%s %016X %016X %016X' % (name, a, b, f(a, b)))
    singles = SPECIAL + [0x432 << 52, 0x433 << 52, 0x434 << 52, (0x433 << 52) - 1, (0x433 << 52) + 1, 0xC004 << 48, 0x4004 << 48, SIGN | (0x433 << 52) - 1, SIGN | (0x432 << 52) + 1, SIGN | (ONE - 1), ONE - 1]
    singles += [pattern(rng, (0, 1, 1, 4)[i % 4]) for i in range(40)]
    singles += [s | rng.randrange(0x425, 0x435) << 52 | rng.getrandbits(52) for i in range(10) for s in (0, SIGN)]
    for a in singles:
        lines.append('flo %016X %016X' % (a, flo(a)))
    print('\n'.join(lines))


if __name__ == '__main__':
    main()
