#!/usr/bin/env python3
"""Prints crates/masks_test/stdin: the rank orders of request No. 6, the least row weights of request No. 7, and calls that they refuse, each
with its number.

The orders come from Python's sort with a key that is written from the request alone, the least row weights from Python's min over the first
positions of an order, and the numbers from the requests' tests in their order. Where an order, a weight or a number is plain from a request,
the model is compared with that.
Run: python3 tools/mask_vectors.py > crates/masks_test/stdin

A line of the file is one of these, with numbers in hexadecimal digits, three for a position and one for an exponent:
  # TEXT                        nothing
  order N POSITIONS             a case for each K from 0 to N: the first K positions are unfrozen
  weights N POSITIONS           a case for each two neighbours: the second has no larger row weight
  call N K ROOM NUMBER          a case: the call with a mask buffer of so many bytes is refused with the number
  edges N EXPONENTS             a case for each K from 1 to N: 2 to the power of the exponent is the largest distance that has a mask
  distance N K D ROOM NUMBER    a case: the call for distance D with a mask buffer of so many bytes is refused with the number
  all N                         a case for each mask of N positions that are not all frozen, N at most 16
  = NAME                        ends a group of cases"""
from itertools import combinations

from model import ALLOWED, failed

LARGEST = 2 ** 64 - 1
NOT_ALLOWED = [0, 1, 3, 5, 6, 7, 9, 1000, 1023, 1025, 2048, 65536, 2 ** 32 + 2, 2 ** 63, LARGEST]
LONGEST = 4112           # the longest mask buffer of masks_test


# ---- the requests

def ones(i):
    return bin(i).count('1')


def rank_order(n):
    """The positions below N: most ones in the binary index first, larger index first among equals."""
    return sorted(range(n), key=lambda i: (-ones(i), -i))


def least_exponents(n):
    """For each K from 1 to N the exponent of the least row weight, 2 to the power of the index's ones, over the first K positions."""
    order = rank_order(n)
    return [min(ones(i) for i in order[:k]) for k in range(1, n + 1)]


def faults(n, k, room):
    return failed([(1, n in ALLOWED), (16, k <= n), (11, room >= n)])


def distance_faults(n, k, d, room):
    return failed([(1, n in ALLOWED), (16, k <= n), (17, k != 0 and d != 0), (11, room >= n)])


# ---- the file

def order_line(word, n):
    return f'{word} {n:03x} ' + ''.join(f'{i:03x}' for i in rank_order(n))


def orders():
    assert rank_order(8) == [7, 6, 5, 3, 4, 2, 1, 0]
    for n in ALLOWED:
        assert rank_order(n) == [i for i in rank_order(1024) if i < n]
        yield order_line('order', n)
        yield f'= N {n}'


def calls():
    """Calls with K and buffers below, at and above N; a number stands once in a list."""
    for n in ALLOWED + NOT_ALLOWED:
        for k in sorted({0, 1, n, n + 1, n + 2, 2 ** 32, LARGEST}):
            for room in sorted({0, 1, n - 1, n, n + 9, LONGEST}):
                if k <= LARGEST and 0 <= room <= LONGEST:
                    yield n, k, room


def refusals():
    """A group for each set of faults. The first of them has the number."""
    plain = {(3, 0, 3): (1,), (4, 5, 4): (16,), (4, 4, 3): (11,), (0, 1, 0): (1, 16), (LARGEST, 0, 8): (1, 11), (8, LARGEST, 0): (16, 11),
             (5, 6, 4): (1, 16, 11), (4, 4, 4): ()}
    assert all(faults(*call) == expected for call, expected in plain.items())
    for group in [(1,), (16,), (11,), (1, 16), (1, 11), (16, 11), (1, 16, 11)]:
        for n, k, room in calls():
            if faults(n, k, room) == group:
                yield f'call {n:x} {k:x} {room:x} {group[0]:x}'
        yield '= refused for ' + ', '.join(map(str, group))


def edges():
    assert least_exponents(8) == [3, 2, 2, 2, 1, 1, 1, 0]
    for n in ALLOWED:
        yield f'edges {n:x} ' + ''.join(f'{e:x}' for e in least_exponents(n))
        yield f'= edges of N {n}'


def distance_calls():
    """Calls with K and buffers below, at and above N, for no distance, one that every mask has and one that none has."""
    for n in [2, 8, 1024, 0, 1, 3, 1025, 2 ** 32 + 2, LARGEST]:
        for k in sorted({0, 1, n, n + 1, 2 ** 32, LARGEST}):
            for room in sorted({0, n - 1, n, n + 9, LONGEST}):
                if k <= LARGEST and 0 <= room <= LONGEST:
                    yield from ((n, k, d, room) for d in (0, 1, LARGEST))


def distance_refusals():
    """A group for each set of faults. The first of them has the number."""
    plain = {(3, 1, 1, 3): (1,), (4, 5, 1, 4): (16,), (4, 0, 1, 4): (17,), (4, 4, 0, 4): (17,), (4, 0, 0, 4): (17,), (4, 4, 1, 3): (11,),
             (4, 5, 0, 4): (16, 17), (5, 6, 0, 4): (1, 16, 17, 11), (4, 4, LARGEST, 4): ()}
    assert all(distance_faults(*call) == expected for call, expected in plain.items())
    for group in [group for count in range(1, 5) for group in combinations((1, 16, 17, 11), count)]:
        for n, k, d, room in distance_calls():
            if distance_faults(n, k, d, room) == group:
                yield f'distance {n:x} {k:x} {d:x} {room:x} {group[0]:x}'
        yield '= distance, refused for ' + ', '.join(map(str, group))


def all_masks():
    for n in (2, 4, 8, 16):
        yield f'all {n:x}'
        yield f'= all masks of N {n}'


def main():
    print('# Written by tools/mask_vectors.py, which says what the lines mean.')
    along = [order_line('weights', 1024), '= weights along the order']
    print('\n'.join([*orders(), *refusals(), *edges(), *distance_refusals(), *all_masks(), *along]))


main()
