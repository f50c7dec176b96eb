#!/usr/bin/env python3
"""Prints crates/flip_test/stdin: calls of request No. 11's flip attempts, each with the answer that the request gives.

The answers come from the model here and in model.py, which is written from documents 01 and 02 alone: SCAN walked to the last leaf, the
values with which its last sweep visits the leaves, ranks by Python's sort, and the CRC by polynomial long division. Where an answer is plain
from them or computed in crates/model/proofs/FlipExamples.antt, the model is compared with that.
Run: python3 tools/flip_vectors.py > crates/flip_test/stdin

A line of the file is one of these, with numbers in hexadecimal digits, four for an LLR, modulo 65536, and one for a mask byte or a bit:
  # TEXT        nothing
  ANSWER NUMBER MASK SWEEPS ATTEMPTS LLRS ROOM WORDS PAYLOAD NAME
                a case: the answer is `matched`, `unmatched` or `refused`; payload buffer and workspace are as long as ROOM and WORDS say,
                and an accepted call needs all of both; a refused one has no payload
  = NAME        ends a group of cases"""
import random
from collections import namedtuple
from itertools import combinations

from model import ALLOWED, LARGEST_LLR, MOST_MASK, MOST_SWEEPS, digits_of, drawn_mask, failed, payload_of, placed, transform, walked, with_ones

random.seed(11)
GENERATOR = [int(power in (8, 7, 6, 4, 2, 0)) for power in range(8, -1, -1)]
LEAST_K = 9
MOST_ATTEMPTS = 31
LARGEST = 2 ** 64 - 1

Call = namedtuple('Call', 'mask sweeps attempts llrs room words')
Answer = namedtuple('Answer', 'kind number payload')


# ---- the request

def remainder(bits):
    """What polynomial long division by the generator leaves, as eight bits; the first bit is the highest power's."""
    rest = list(bits)
    for i in range(len(rest) - 8):
        if rest[i]:
            rest[i:i + 9] = [a ^ b for a, b in zip(rest[i:], GENERATOR)]
    return rest[-8:]


def matches(payload):
    return not any(remainder(payload))


def run_pass(mask, sweeps, llrs):
    """The incoming leaf values of the last sweep, and the leaf bits."""
    _, values = walked(mask, llrs, sweeps)
    return values, [int(byte == 2) if byte else int(x < 0) for byte, x in zip(mask, values)]


def by_size(values, i):
    return abs(values[i]), i


def flipped_mask(mask, bits, leaf):
    """Pass one's bits as frozen before a leaf, the opposite bit at it, and the mask after it."""
    return [1 + bit for bit in bits[:leaf]] + [1 + (1 - bits[leaf])] + mask[leaf + 1:]


def flip_decoded(mask, sweeps, attempts, llrs, rank=by_size, mask_of=flipped_mask):
    values, bits = run_pass(mask, sweeps, llrs)
    first = payload_of(mask, bits)
    if matches(first):
        return Answer('matched', 0, first)
    ranked = sorted((i for i, byte in enumerate(mask) if not byte), key=lambda i: rank(values, i))[:attempts]
    for t, leaf in enumerate(ranked, 1):
        payload = payload_of(mask, run_pass(mask_of(mask, bits, leaf), sweeps, llrs)[1])
        if matches(payload):
            return Answer('matched', t, payload)
    return Answer('unmatched', len(ranked), first)


def words_for(n):
    return n * (n.bit_length() - 1 + 3)


def faults(call):
    n, k = len(call.mask), call.mask.count(0)
    return failed([(1, n in ALLOWED), (2, all(byte <= MOST_MASK for byte in call.mask)), (3, len(call.llrs) == n),
                   (4, 1 <= call.sweeps <= MOST_SWEEPS), (18, k >= LEAST_K), (19, call.attempts <= MOST_ATTEMPTS),
                   (7, all(abs(x) <= LARGEST_LLR for x in call.llrs)), (11, call.room >= k), (12, call.words >= words_for(n))])


def answer(call):
    found = faults(call)
    return Answer('refused', found[0], []) if found else flip_decoded(*call[:4])


# ---- the file

def call_of(mask, sweeps, attempts, llrs):
    """A call with as much room as it needs."""
    return Call(mask, sweeps, attempts, llrs, mask.count(0), words_for(len(mask)))


class File:
    """The lines of the file."""

    def __init__(self):
        self.lines = []

    def case(self, name, call, expected=None):
        """A case. Where its answer and number, or these and its payload, are known, the model is compared with that."""
        found = answer(call)
        assert expected is None or found[:len(expected)] == expected, (name, call, found, expected)
        assert found.kind == 'refused' or (call.room, call.words) == call_of(*call[:4])[4:]
        fields = [found.kind, f'{found.number:x}', ''.join(f'{byte:x}' for byte in call.mask), f'{call.sweeps:x}', f'{call.attempts:x}',
                  ''.join(f'{x % 65536:04x}' for x in call.llrs), f'{call.room:x}', f'{call.words:x}', digits_of(found.payload), name]
        self.lines.append(' '.join(fields))

    def group(self, name):
        self.lines.append('= ' + name)


# ---- drawn calls

def drawn_until(fits, draw):
    while True:
        drawn = draw()
        if fits(drawn):
            return drawn


def mask_with(n, k=None, ones=.3):
    """A drawn mask, of K at least 9 or of a given K, with some positions frozen to 1."""
    if k is None:
        mask = drawn_until(lambda mask: mask.count(0) >= LEAST_K, lambda: drawn_mask(n, random.randrange(7)))
    else:
        frozen = sorted(range(n), key=lambda i: i + n // 4 * bin(i).count('1') + random.randint(0, n // 4))[:n - k]
        mask = [int(i in frozen) for i in range(n)]
    return with_ones(mask, ones)


def drawn_llrs(mask, noise, size):
    """The LLRs of an encoded word whose payload matches, with Gaussian noise; a size of 1 or 2 leaves many of equal size, and zeros."""
    bits = [random.getrandbits(1) for _ in range(mask.count(0) - 8)]
    word = transform(placed(mask, bits + remainder(bits + [0] * 8)))
    drawn = (round(size * ((-1 if bit else 1) + noise * random.gauss(0, 1))) for bit in word)
    return [max(-LARGEST_LLR, min(LARGEST_LLR, x)) for x in drawn]


def drawn_call(n, sweeps, attempts, **kind):
    mask = mask_with(n, **kind)
    noise = random.uniform(.3, 1) * (n / mask.count(0)) ** .5
    return call_of(mask, sweeps, attempts, drawn_llrs(mask, noise, random.choice([1, 2, 9, 200, 9000])))


# ---- the cases

EXAMPLE = [1, 1, 1, 0, 2, 0, 0, 0, 1, 0, 0, 0, 0, 0, 0, 0]
FIRST_MATCHES = [-2, 2, -10, -9, 7, 2, -1, 4, -9, -6, -4, -9, -10, 0, -10, -7]
FOURTH_MATCHES = [-6, -8, 9, -10, 2, -3, -2, 9, -2, 0, 1, 2, 10, 3, -2, 1]
NONE_MATCHES = [-2, -1, -7, 0, 10, 6, -3, 8, -1, 2, -8, -9, -3, -6, 0, -1]


def worked(file):
    multiple = [1, 1, 0, 1, 0, 0, 0, 0, 0, 0, 1]
    of_pass_one = [0, 0, 1, 1, 1, 0, 0, 0, 0, 0, 1]
    for name, llrs, attempts, expected in [
            ('pass one matches', FIRST_MATCHES, 5, ('matched', 0, multiple)),
            ('pass one matches, 0 attempts allowed', FIRST_MATCHES, 0, ('matched', 0, multiple)),
            ('attempt 4 matches', FOURTH_MATCHES, 5, ('matched', 4, multiple)),
            ('attempt 4 matches, 4 allowed', FOURTH_MATCHES, 4, ('matched', 4, multiple)),
            ('attempt 4 would match, 3 allowed', FOURTH_MATCHES, 3, ('unmatched', 3)),
            ('attempt 4 would match, 0 allowed', FOURTH_MATCHES, 0, ('unmatched', 0)),
            ('none of five matches', NONE_MATCHES, 5, ('unmatched', 5, of_pass_one)),
            ('0 attempts allowed', NONE_MATCHES, 0, ('unmatched', 0, of_pass_one))]:
        file.case(name, call_of(EXAMPLE, 2, attempts, llrs), expected)
    file.group('worked cases')


def many_attempts(file):
    """A match in pass one and in many an attempt, and the same call with one attempt fewer."""
    wanted = {0, 1, 2, 3, 4, 5, 6, 7, 8, 9, 15, 16, 23, 30, 31}
    while wanted:
        call = drawn_call(64, 1, MOST_ATTEMPTS, k=random.randint(MOST_ATTEMPTS, 48))
        found = answer(call)
        if found.kind == 'unmatched' or found.number not in wanted:
            continue
        t = found.number
        wanted.remove(t)
        file.case(f'attempt {t} matches', call)
        if t:
            file.case(f'attempt {t} would match', call._replace(attempts=t - 1), ('unmatched', t - 1))
    file.group('attempts 0 to 31')


def runs_out(file):
    """None matches: the number of attempts made is that of the allowed ones, or of the ranked leaves."""
    for n, k in [(16, 9), (16, 16), (32, 9), (32, 30), (32, 31), (32, 32), (128, 9)]:
        call = drawn_until(lambda c: answer(c).kind == 'unmatched', lambda: drawn_call(n, 1, MOST_ATTEMPTS, k=k))
        for attempts in sorted({8, 9, 10, k - 1, k, k + 1, MOST_ATTEMPTS}):
            if attempts <= MOST_ATTEMPTS:
                file.case(f'K {k}, {attempts} allowed', call._replace(attempts=attempts), ('unmatched', min(attempts, k)))
    file.group('ranked leaves run out')


def slips(file):
    """Calls whose answer another rule would change."""
    other_rules = {
        'larger index first among equals': dict(rank=lambda values, i: (abs(values[i]), -i)),
        'largest size first': dict(rank=lambda values, i: (-abs(values[i]), i)),
        'by value': dict(rank=lambda values, i: (values[i], i)),
        'by index': dict(rank=lambda values, i: i),
        'the mask before the leaf': dict(mask_of=lambda mask, bits, leaf: mask[:leaf] + [2 - bits[leaf]] + mask[leaf + 1:]),
        'bits after the leaf': dict(mask_of=lambda mask, bits, leaf: [1 + (bit ^ (i == leaf)) for i, bit in enumerate(bits)]),
        'the same bit at the leaf': dict(mask_of=lambda mask, bits, leaf: [1 + bit for bit in bits[:leaf + 1]] + mask[leaf + 1:]),
        'zeros before the leaf': dict(mask_of=lambda mask, bits, leaf: [1] * leaf + [2 - bits[leaf]] + mask[leaf + 1:])}
    for name, rule in other_rules.items():
        for k in range(4):
            call = drawn_until(lambda c: answer(c) != flip_decoded(*c[:4], **rule), lambda: drawn_call((16, 32)[k % 2], k + 1, MOST_ATTEMPTS))
            file.case(f'not {name}', call)
    file.group('other rules')


def equal_sizes(file):
    """LLRs of one size, and zeros."""
    for n in (16, 32, 64):
        mask = mask_with(n)
        for name, values in [('0', [0]), ('1', [1, -1]), ('0 and 1', [-1, 0, 1]), ('32767', [LARGEST_LLR, -LARGEST_LLR])]:
            for attempts in (4, MOST_ATTEMPTS):
                file.case(f'N {n}, sizes {name}', call_of(mask, random.randint(1, 8), attempts, [random.choice(values) for _ in mask]))
        file.case(f'N {n}, all -1', call_of(mask, 1, 9, [-1] * n))
        file.case(f'N {n}, all -32767', call_of(mask, 8, 9, [-LARGEST_LLR] * n))
        file.case(f'N {n}, nothing frozen', call_of([0] * n, 2, 9, [random.randint(-2, 2) for _ in mask]))
    file.group('equal sizes')


def every_sweep(file):
    """Calls whose answer is another one with one sweep fewer, or with two in place of one."""
    for sweeps in range(1, MOST_SWEEPS + 1):
        for n in (16, 32):
            call = drawn_until(lambda c: answer(c) != answer(c._replace(sweeps=sweeps - 1 or 2)), lambda: drawn_call(n, sweeps, MOST_ATTEMPTS))
            file.case(f'{sweeps} sweeps', call)
    file.group('sweeps 1 to 8')


def known_ones(file):
    """Calls whose answer is another one where the positions frozen to 1 are frozen to 0."""
    def differs(call):
        return answer(call) != answer(call._replace(mask=[min(byte, 1) for byte in call.mask]))

    for k in range(12):
        call = drawn_until(differs, lambda: drawn_call((16, 32)[k % 2], k % 8 + 1, 4 + k, ones=(.3, 1)[k // 6]))
        file.case('frozen to 1', call)
    file.group('positions frozen to 1')


def drawn(file):
    """Of four calls one matches in pass one, one in an attempt, one in none, and one is as it comes."""
    for n, count in [(16, 16), (32, 16), (64, 12), (128, 6), (256, 4), (512, 3), (1024, 3)]:
        for k in range(count):
            sweeps, attempts = (k * 3 + n.bit_length()) % 8 + 1, random.choice([5, 12, MOST_ATTEMPTS] if n <= 128 else [5, 8])
            fits = [lambda a: a.kind == 'matched' and a.number, lambda a: a.kind == 'unmatched', lambda a: a.kind == 'matched' and not a.number,
                    lambda a: True][k % 4]
            file.case(f'N {n} drawn {k}', drawn_until(lambda c: fits(answer(c)), lambda: drawn_call(n, sweeps, attempts)))
        file.group(f'N {n} drawn')
    mask = mask_with(1024, ones=.5)
    file.case('N 1024, LLRs of the largest size', call_of(mask, 8, 3, [random.choice([LARGEST_LLR, -LARGEST_LLR]) for _ in mask]))
    file.group('N 1024, LLRs of the largest size')


def faulty_call(way, found):
    """A call with these faults, each in one of two ways; an LLR of -32768 is the first or the last."""
    def pick(number, good, *bad):
        return bad[way] if number in found else good[way]
    n = pick(1, (16, 32), 17, 31)
    k = pick(18, (LEAST_K, LEAST_K), LEAST_K - 1, 0)
    mask = [0] * k + [1 + way] * (n - k)
    mask[-1] = pick(2, (1, 2), 3, 15)
    llrs = [(-LARGEST_LLR, LARGEST_LLR)[way]] * (n + pick(3, (0, 0), -1, 1))
    llrs[-way] = pick(7, llrs[:2], -LARGEST_LLR - 1, -LARGEST_LLR - 1)
    words = words_for(n)
    return Call(mask, pick(4, (MOST_SWEEPS, 1), MOST_SWEEPS + 1, 0), pick(19, (MOST_ATTEMPTS, 0), MOST_ATTEMPTS + 1, LARGEST), llrs,
                pick(11, (k, k), k - 1, 0), pick(12, (words, words), words - 1, 0))


def refusals(file):
    """No fault, each fault and each two, and all of them. Where K is 0, no payload buffer is too short."""
    order = (1, 2, 3, 4, 18, 19, 7, 11, 12)
    sets = [(), *combinations(order, 1), *combinations(order, 2), order]
    for way, found in [(way, found) for way in (0, 1) for found in sets]:
        call = faulty_call(way, found)
        if way == 0 or not {18, 11} <= set(found):
            assert faults(call) == found
            file.case(f'faults {found}', call)
    file.group('faults alone and in pairs')


def edges(file):
    plain = call_of(EXAMPLE, 2, 5, NONE_MATCHES)

    def tried(name, number, **changes):
        """The plain call with some inputs changed; number 0 stands for an accepted one."""
        call = plain._replace(**changes)
        assert (faults(call) or (0,))[0] == number, (name, faults(call))
        file.case(name, call)

    def replaced(values, place, value):
        return values[:place] + [value] + values[place + 1:]

    for mask in ([0] * 8 + [1] * 8, [1] * 7 + [0] * 9, [2] * 16):
        tried(f'K {mask.count(0)}', 0 if mask.count(0) >= 9 else 18, mask=mask, room=mask.count(0))
    for attempts in (0, 30, 31, 32, 33, 255, 256, 2 ** 32, 2 ** 32 + 5, 2 ** 63, LARGEST):
        tried(f'{attempts} attempts', 19 if attempts > 31 else 0, attempts=attempts)
    for sweeps in (0, 1, 8, 9, 256 + 1, 2 ** 32 + 1, LARGEST):
        tried(f'{sweeps} sweeps', 0 if 1 <= sweeps <= 8 else 4, sweeps=sweeps)
    for room in (0, 1, 10, 11):
        tried(f'payload buffer of {room} bytes', 11 if room < 11 else 0, room=room)
    for words in (0, 1, 111, 112):
        tried(f'workspace of {words} words', 12 if words < 112 else 0, words=words)
    for place in (0, 7, 15):
        for llr in (-32768, -32767, 32767):
            tried(f'LLR {place} is {llr}', 7 if llr == -32768 else 0, llrs=replaced(NONE_MATCHES, place, llr))
        for byte in (3, 15):
            tried(f'byte {place} is {byte}', 2, mask=replaced(EXAMPLE, place, byte))
    for count in (0, 1, 15, 17, 32):
        tried(f'{count} LLRs', 3, llrs=(NONE_MATCHES * 2)[:count])
    for n in (0, 1, 2, 3, 4, 7, 8, 9, 12, 15, 17, 31, 33, 1025):
        tried(f'N {n}', 18 if n in ALLOWED else 1, mask=[0] * n, llrs=[1] * n, room=n, words=words_for(n))
    file.group('edges')


def main():
    file = File()
    for part in (worked, many_attempts, runs_out, slips, equal_sizes, every_sweep, known_ones, refusals, edges, drawn):
        part(file)
    print('# Written by tools/flip_vectors.py, which says what the lines mean.')
    print('\n'.join(file.lines))


main()
