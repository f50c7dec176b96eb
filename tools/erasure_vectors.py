#!/usr/bin/env python3
"""Prints crates/erasure_test/stdin: each position's rate by request No. 12 in exact fractions, the orders of positions by their rates in
binary64, and calls that are refused, each with its number.

The exact rates come from Python's fractions, the orders from Python's floats, which are binary64 with each operation rounded once, and
Python's sort; the numbers from the request's tests in their order. Where a rate, an order or a number is plain from the request, the model
is compared with that, and every float with its fraction.
Run: python3 tools/erasure_vectors.py > crates/erasure_test/stdin

A line of the file is one of these, with numbers in hexadecimal digits; Z is the measured rate's bit pattern, of sixteen digits:
  # TEXT                   nothing
  rates Z RATES            a case for each position below 1024: its exact rate, rounded once to binary64, by its bit pattern
  floats Z RATES           the same with the rates in binary64, which must come out to the bit
  order N Z POSITIONS      a case for each K from 0 to N: the first N - K positions, of three digits each, are frozen
  call N K Z ROOM NUMBER   a case: the call with a mask buffer of so many bytes is refused with the number
  = NAME                   ends a group of cases"""
import math
import struct
from fractions import Fraction
from itertools import combinations

from model import ALLOWED, failed

LARGEST = 2 ** 64 - 1
LONGEST = 4112           # the longest mask buffer of erasure_test
BELOW_ONE = 1 - 2.0 ** -53
ABOVE_ONE = 1 + 2.0 ** -52


# ---- the request

def rate(n, z, i):
    """The rate of position i of 2 to the power n: a float from a float, a fraction from a fraction."""
    for bit in f'{i:0{n}b}':
        z = z * z if bit == '1' else 2 * z - z * z
    return z


def rate_order(n, z):
    """The positions of 2 to the power n: larger rate first, lower index first among equals."""
    rates = [rate(n, z, i) for i in range(2 ** n)]
    for i, value in enumerate(rates):
        assert abs(Fraction(value) - exact_rates(n, z)[i]) <= Fraction(1, 2 ** 40)
    return sorted(range(2 ** n), key=lambda i: (-rates[i], i))


EXACT = {}


def exact_rates(n, z):
    """Numerators and denominators double their digits with each bit, up to 2 to the power 10 times those of z: about a minute for all."""
    if (n, z) not in EXACT:
        EXACT[n, z] = [rate(n, Fraction(z), i) for i in range(2 ** n)]
    return EXACT[n, z]


def faults(n, k, z, room):
    return failed([(1, n in ALLOWED), (16, k <= n), (20, 0 < z < 1), (11, room >= n)])


# ---- the file

def pattern(z):
    return f'{struct.unpack("<Q", struct.pack("<d", z))[0]:016x}'


def rates():
    assert exact_rates(2, 0.5) == [Fraction(15, 16), Fraction(9, 16), Fraction(7, 16), Fraction(1, 16)]
    for name, z in [('1/2', 0.5), ('1/10', 0.1), ('3/4', 0.75), ('63/64', 63 / 64)]:
        yield f'rates {pattern(z)} ' + ''.join(pattern(float(x)) for x in exact_rates(10, z))
        yield f'= rates from {name}'
    z = 0.7
    yield f'floats {pattern(z)} ' + ''.join(pattern(rate(10, z, i)) for i in range(1024))
    yield '= floats from 0.7'


def orders():
    assert rate_order(3, 0.5) == [0, 1, 2, 4, 3, 5, 6, 7]
    every = [('1/2', 0.5, 10), ('0.32', 0.32, 7), ('0.9', 0.9, 7), ('2^-1074', 2.0 ** -1074, 8), ('2^-537', 2.0 ** -537, 6),
             ('1 - 2^-53', BELOW_ONE, 8)]
    for name, z, largest in every:
        for n in range(1, largest + 1):
            yield f'order {2 ** n:x} {pattern(z)} ' + ''.join(f'{i:03x}' for i in rate_order(n, z))
        yield f'= masks from {name}'


def calls():
    """Calls with K, rates and buffers at their limits and beyond; a number stands once in a list."""
    for n in [2, 1024, 0, 1, 3, 1025, 2 ** 32 + 2, LARGEST]:
        for k in sorted({0, n, n + 1, LARGEST}):
            for room in sorted({0, n - 1, n, LONGEST}):
                if k <= LARGEST and 0 <= room <= LONGEST:
                    yield from ((n, k, z, room) for z in (2.0 ** -1074, 0.0, -0.0, 1.0, math.nan))
    yield from ((4, 2, z, 4) for z in (BELOW_ONE, ABOVE_ONE, -0.5, -2.0 ** -1074, math.inf, -math.inf, -math.nan))


def refusals():
    """A group for each set of faults. The first of them has the number."""
    plain = {(3, 1, 0.5, 3): (1,), (4, 5, 0.5, 4): (16,), (4, 4, 1.0, 4): (20,), (4, 4, math.nan, 4): (20,), (4, 4, 0.5, 3): (11,),
             (4, 5, 0.0, 3): (16, 20, 11), (5, 6, -0.0, 4): (1, 16, 20, 11), (4, 4, BELOW_ONE, 4): (), (4, 0, 2.0 ** -1074, 4): ()}
    assert all(faults(*call) == expected for call, expected in plain.items())
    for group in [group for count in range(1, 5) for group in combinations((1, 16, 20, 11), count)]:
        for n, k, z, room in calls():
            if faults(n, k, z, room) == group:
                yield f'call {n:x} {k:x} {pattern(z)} {room:x} {group[0]:x}'
        yield '= refused for ' + ', '.join(map(str, group))


def main():
    print('# Written by tools/erasure_vectors.py, which says what the lines mean.')
    print('\n'.join([*rates(), *orders(), *refusals()]))


main()
