#!/usr/bin/env python3
"""Prints crates/samples_test/stdin: samples, marks and variances with the LLRs that document 01 gives, and refused calls with their numbers.

A vector's line is VARIANCE SAMPLE MARK LLR, a refused call's VARIANCE SAMPLE MARK NUMBER SAMPLES MARKS PLACE ROOM: how many samples and marks
there are, the place of the sample and the mark, and how many LLRs there is room for. Numbers are hexadecimal, floats IEEE bit patterns.

The expected LLRs are worked out with whole-number fractions only; no float arithmetic takes part.
Run: python3 tools/samples_vectors.py > crates/samples_test/stdin"""
import random
from fractions import Fraction

INFINITY = 'infinity'
TOP = Fraction(2) ** 128          # a rounded size from here on is an infinity
ROW = 64                          # vectors that share a variance
random.seed(20)


def value(bits):
    """The number of a finite f32 pattern."""
    field, digits = bits >> 23 & 255, bits & 0x7FFFFF
    size = Fraction(digits + (field > 0) * 2 ** 23) * Fraction(2) ** (max(field, 1) - 150)
    return -size if bits >> 31 else size


def pattern(x):
    """The f32 pattern nearest to a fraction, ties to even; an infinity's where it overflows."""
    sign, size = (x < 0) << 31, abs(x)
    quantum = Fraction(1, 2 ** 149)
    while size >= quantum * 2 ** 24:
        quantum *= 2
    count = round(size / quantum)     # Fraction rounds halves to even
    if count * quantum >= TOP:
        return sign | 0x7F800000
    field = 0
    while quantum > Fraction(2) ** (field - 149):
        field += 1
    return sign | (field << 23) + count   # a leading digit adds one to the field


def rounded(x):
    """A fraction rounded once to f32: its number, or an infinity."""
    bits = pattern(x)
    return (INFINITY, bits >> 31) if bits & 0x7F800000 == 0x7F800000 else value(bits)


def llr(sample, variance):
    """A sent sample's LLR: the quotient rounded once, doubled, the nearest whole number with halves away from zero, clamped."""
    quotient = rounded(value(sample) / value(variance))
    double = quotient if isinstance(quotient, tuple) else rounded(2 * quotient)
    if isinstance(double, tuple):
        seen.add('infinite quotient' if isinstance(quotient, tuple) else 'infinite double')
        return -32767 if double[1] else 32767
    size = abs(double)
    whole = (2 * size.numerator + size.denominator) // (2 * size.denominator)
    if size.denominator == 2:
        seen.add('half')
    if whole > 32767:
        seen.add('clamped')
    if 0 < size < Fraction(1, 2 ** 126):
        seen.add('denormal')
    return min(whole, 32767) * (-1 if double < 0 else 1)


def finite(bits):
    return bits & 0x7F800000 != 0x7F800000


def sample(variance):
    """A finite sample: by its doubled quotient, where that tests the rounding, or by its own size."""
    kind = random.randrange(10)
    if kind < 3:        # at and beside a half, small
        double = Fraction(2 * random.randrange(0, 40) + 1, 2)
    elif kind < 5:      # at and beside a half, any size
        double = Fraction(2 * random.randrange(0, 33000) + 1, 2)
    elif kind == 5:     # about 32767
        double = 32767 + Fraction(random.randrange(-8, 9), 4)
    elif kind == 6:
        double = Fraction(random.randrange(0, 1 << 20), 1 << 12)
    else:
        extreme = [0, 1, 2, 3, 0x7FFFFF, 0x800000, 0x7F7FFFFF, 0x7F7FFFFE, 0x7F000000, random.randrange(1 << 23)]
        bits = random.choice(extreme) if kind == 7 else random.randrange(0x7F800000)
        return bits | random.getrandbits(1) << 31
    bits = pattern(double * value(variance) / 2)
    bits = max(bits + random.choice([-1, 0, 0, 1]), 0)
    return (bits if finite(bits) else 0x7F7FFFFF) | random.getrandbits(1) << 31


def number(faults):
    """Document 01's number of a call with these faults: the lowest; bits 0 to 4 are 1, 3, 8, 9, 11."""
    return next((n for bit, n in enumerate([1, 3, 8, 9, 11]) if faults >> bit & 1), 0)


def line(variance, sample, mark, x):
    return f'{variance:08x} {sample:08x} {mark:02x} {"-" if x < 0 else "+"}{abs(x):04x}'


def fewer(n, variant):
    """One less than n, or 0, by the variant."""
    return max(n - 1, 0) if variant % 2 == 0 else 0


def refusal(faults, variant):
    """The line of a call with these faults."""
    n = (BAD_LENGTHS if faults & 1 else GOOD_LENGTHS)[variant]
    marks = n if not faults & 2 else n + 1 if variant < 4 else fewer(n, variant)
    variance = BAD_VARIANCES[variant] if faults & 4 else variances[4 * variant]
    mark, sample = (BAD_MARKS[variant], BAD_SAMPLES[variant]) if faults & 8 else (0, 0x3F800000)
    place = fewer(n, variant)
    room = place if faults & 16 else n
    return f'{line(variance, sample, mark, number(faults))} {n:03x} {marks:03x} {place:03x} {room:03x}'


# Refused calls come in eight variants. Their numbers of samples, without that fault and with it:
GOOD_LENGTHS = [2, 4, 8, 16, 64, 256, 512, 1024]
BAD_LENGTHS = [0, 1, 3, 6, 7, 9, 1023, 2048]
# two zeros, -1, two infinities, a NaN, and the ends of the negative range
BAD_VARIANCES = [0, 0x80000000, 0xBF800000, 0x7F800000, 0xFF800000, 0x7FC00000, 0x80000001, 0xFF7FFFFF]
# a mark above 2 with any sample, or a sent sample that is not finite
BAD_MARKS = [3, 255, 0, 0, 0, 128, 4, 0]
BAD_SAMPLES = [0, 0x3F800000, 0x7FC00000, 0x7F800000, 0xFF800000, 0x7FC00000, 0x7F800000, 0x7FC00000]

seen = set()
# 16 rows at one variance, for calls up to N = 1024; then 12 variances for N up to 64, and 4 rows at v = 1, all sent, for the rounding by itself
several = [Fraction(v) for v in (
    Fraction(1, 2), 2, Fraction(7071, 10000), 1000003, 1 + Fraction(1, 2 ** 23), Fraction(1, 10 ** 10), 10 ** 20,
    Fraction(1, 2 ** 126), Fraction(3, 2 ** 149), Fraction(1, 2 ** 149), 2 ** 127, TOP - 2 ** 104)]
variances = [pattern(v) for v in [Fraction(3, 10)] * 16 + several + [Fraction(1)] * 4]
assert len(variances) == 32 and all(map(finite, variances))

# document 01's samples come first where v = 1; what is not sent may be a NaN or an infinity, and is not read
given = {28 * ROW + k: pattern(Fraction(x)) for k, x in enumerate(('1/8', '1/4', '-1/4', '3/4', '16383.5', '16384', '-16383.5', '-16384'))}
unread = [0x7FC00000, 0x7F800000, 0xFF800000]
samples, marks, llrs = [], [], []
for i in range(32 * ROW):
    v = variances[i // ROW]
    y = given.get(i, sample(v))
    mark = random.choice([0] * 8 + [1, 2]) if i < 28 * ROW else 0
    if mark and random.getrandbits(1):
        y = random.choice(unread)
    samples.append(y)
    marks.append(mark)
    llrs.append([llr(y, v) if mark == 0 else 0, 0, 32767][mark])
assert llrs[28 * ROW:28 * ROW + 8] == [0, 1, -1, 2, 32767, 32767, -32767, -32767]
assert seen == {'infinite quotient', 'infinite double', 'half', 'clamped', 'denormal'}
assert set(zip(marks, samples)) >= {(m, y) for m in (1, 2) for y in unread}
assert len(set(zip(marks[::2], marks[1::2]))) == 9

# the rounding by itself also meets a NaN and infinities
variances.append(pattern(Fraction(1)))
samples += [0x7FC00000, 0x7F800000, 0xFF800000]
marks += [0, 0, 0]
llrs += [0, 32767, -32767]

print('# Written by tools/samples_vectors.py: vectors and refused calls')
for i, (y, mark, x) in enumerate(zip(samples, marks, llrs)):
    print(line(variances[i // ROW], y, mark, x))
for faults in range(1, 32):
    for variant in range(8):
        print(refusal(faults, variant))
