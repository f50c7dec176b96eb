#!/usr/bin/env python3
"""Prints crates/replay_test/stdin: captures of request No. 5, each with the text that the request gives.

The texts come from the model here and in model.py, which is written from documents 01 and 02 alone: the layout, the refusals in their order,
and the totals of the frames decoded one by one. Where a text or a number is plain from them, the model is compared with that.
Run: python3 tools/capture_vectors.py > crates/replay_test/stdin
With the name of a case it prints that case's capture instead; crates/polar_replay/stdin is the one named `several drains`.
With --run PROGRAM it runs the program, crates/polar_replay/out/polar_replay, on each case's capture as a file, on a capture for each answer through a pipe
that is filled bit by bit, on lengths about the largest and on an input without an end, and compares what it prints with the model's text.

A line of the file is one of these:
  # TEXT               nothing
  NAME|CAPTURE|TEXT    a case; the capture's bytes in hexadecimal digits, (COUNT)DIGITS; so many times; a comma is a line feed of the text
  = NAME               ends a group of cases"""
import functools
import itertools
import random
import re
import struct
import subprocess
import sys
import tempfile
import time

from model import (ALLOWED, LARGEST_LLR, MOST_MASK, MOST_SWEEPS, cut_kinds, cycles, decoded, drawn_mask, placed, some_of_each, transform,
                   with_ones)

random.seed(5)
SIGNATURE = bytes.fromhex('44524E31')
TRAILER = 16
LONGEST = 65536
MOST_DRAIN = 63
LEAST_16 = -32768


# ---- captures

def layout(data):
    """The mask and the frames, as bytes; None where trailer or lengths do not fit."""
    if not TRAILER <= len(data) <= LONGEST:
        return None
    body, trailer = data[:-TRAILER], data[-TRAILER:]
    mask_at, first_at, count = struct.unpack('<III', trailer[4:])
    size = 4 + 2 * (len(body) - mask_at)
    if trailer[:4] != SIGNATURE or first_at != 0 or mask_at > len(body) or count * size != mask_at:
        return None
    return body[mask_at:], [body[k * size:(k + 1) * size] for k in range(count)]


def fields(frame):
    """Drain, sweeps and LLRs of a frame."""
    drain, sweeps, *llrs = struct.unpack(f'<HH{len(frame) // 2 - 2}h', frame)
    return drain, sweeps, llrs


def first_failed(tests):
    return next((number for number, passed in tests if not passed), 0)


def frame_number(frame):
    drain, sweeps, llrs = fields(frame)
    return first_failed([(15, drain <= MOST_DRAIN), (4, 1 <= sweeps <= MOST_SWEEPS), (7, LEAST_16 not in llrs)])


def capture_number(data):
    """The first refusal of a capture."""
    found = layout(data)
    if not found:
        return 14
    mask, frames = found
    number = first_failed([(1, len(mask) in ALLOWED), (2, all(byte <= MOST_MASK for byte in mask))])
    return number or next(filter(None, map(frame_number, frames)), 0)


@functools.lru_cache(None)
def counted(mask, frame):
    """What a frame adds to its drain's totals: frames, checks of 1, hard bits that differ from the LLR's sign, as undecided ones do, cycles."""
    _, sweeps, llrs = fields(frame)
    _, hard, _, check, _ = decoded(mask, sweeps, llrs)
    return 1, check, sum(bit != int(llr < 0) for bit, llr in zip(hard, llrs)), sweeps * cycles(list(mask))


def answer(data):
    number = capture_number(data)
    if number:
        return f'no {number}\n'
    mask, frames = layout(data)
    totals = {}
    for frame in frames:
        drain = fields(frame)[0]
        totals[drain] = [a + b for a, b in zip(totals.get(drain, [0] * 4), counted(mask, frame))]
    return ''.join(' '.join(map(str, [drain, *totals[drain]])) + '\n' for drain in sorted(totals))


# ---- the file

def frame(drain, sweeps, llrs):
    return struct.pack(f'<HH{len(llrs)}h', drain, sweeps, *llrs)


def capture(mask, frames, signature=SIGNATURE, mask_at=None, first_at=0, count=None):
    """A capture; its trailer is the right one where nothing else is said."""
    body = b''.join(frames)
    numbers = [len(body) if mask_at is None else mask_at, first_at, len(frames) if count is None else count]
    return body + bytes(mask) + signature + struct.pack('<III', *numbers)


def spelled(data):
    """Bytes as the file has them; what stands there 8 times or more in a row is written once."""
    def part(match):
        text, unit = match.group(), match.group(1)
        return f'({len(text) // len(unit):x}){unit.hex()};' if unit else text.hex()
    return ''.join(part(match) for match in re.finditer(rb'(.{1,16}?)\1{7,}|.', data, re.S))


class File:
    """The lines of the file, and the capture of each case."""

    def __init__(self):
        self.lines, self.captures = [], {}

    def case(self, name, data, expected=None):
        """A case. Where its number or its text is known, the model is compared with that."""
        text = answer(data)
        if expected is not None:
            wanted = f'no {expected}\n' if isinstance(expected, int) else expected
            assert text == wanted, (name, data[:100], text, wanted)
        assert '|' not in name and name[0] not in '#=' and name not in self.captures, name
        self.lines.append(f'{name}|{spelled(data)}|' + text.replace('\n', ','))
        self.captures[name] = data

    def group(self, name):
        self.lines.append('= ' + name)


# ---- the cases

GOOD = frame(0, 1, [7, -4])      # for a mask of two positions
MASK_8, LLRS_8 = (1, 1, 1, 0, 1, 0, 0, 0), [3, -2, 5, 1, 4, -6, 2, -1]
MASK_4, LLRS_4 = (1, 0, 1, 1), [5, -3, 2, 1]


def totals(file):
    """Captures whose totals are plain from document 01's frames or from the rules."""
    def frame_4(drain, sweeps):
        return frame(drain, sweeps, LLRS_4)
    for name, mask, frames, expected in [
            ('no frames', (1, 0), [], ''),
            ('no frames, N 1024', [1, 0] * 512, [], ''),
            ('one frame', MASK_8, [frame(7, 1, LLRS_8)], '7 1 1 1 10\n'),
            ('one frame, 2 sweeps', MASK_8, [frame(7, 2, LLRS_8)], '7 1 1 1 20\n'),
            ('frozen check 0', MASK_4, [frame_4(5, 1)], '5 1 0 0 6\n'),
            ('frozen check 0 and 1', MASK_4, [frame_4(5, 1), frame_4(5, 2)], '5 2 1 1 18\n'),
            ('two drains', MASK_4, [frame_4(5, 1), frame_4(6, 2)], '5 1 0 0 6\n6 1 1 1 12\n'),
            ('two drains, the larger first', MASK_4, [frame_4(6, 2), frame_4(5, 1)], '5 1 0 0 6\n6 1 1 1 12\n'),
            ('first and last drain', MASK_4, [frame_4(63, 1), frame_4(0, 8), frame_4(63, 1)], '0 1 1 1 48\n63 2 0 0 12\n'),
            ('a drain between others', MASK_4, [frame_4(9, 1), frame_4(2, 1), frame_4(9, 2), frame_4(2, 2)], '2 2 1 1 18\n9 2 1 1 18\n'),
            ('LLR 0 with hard bit 1', (1, 0), [frame(0, 1, [0, -5])], '0 1 1 1 2\n'),
            ('LLR 0 with hard bit 0', (1, 0), [frame(0, 1, [0, 5])], '0 1 1 0 2\n'),
            ('K 0, hard bits differ', (1, 1), [frame(63, 8, [-7, -4])], '63 1 1 2 0\n'),
            ('K N, hard bits are the signs', (0, 0), [frame(63, 8, [7, -4])], '63 1 1 0 0\n'),
            ('LLRs at both ends', (1, 1), [frame(1, 1, [LARGEST_LLR, -LARGEST_LLR])], '1 1 1 1 0\n'),
            ('sweeps 1 to 8', MASK_8, [frame(s, s, LLRS_8) for s in range(8, 0, -1)], ''.join(f'{s} 1 1 1 {10 * s}\n' for s in range(1, 9))),
            ('every drain', (1, 0), [frame(d, 1, [1, 2]) for d in range(64)], ''.join(f'{d} 1 1 0 2\n' for d in range(64))),
            ('300 frames of a drain', (1, 0), [frame(40, 8, [1, -2])] * 300, '40 300 300 300 4800\n')]:
        file.case(name, capture(mask, frames), expected)
    file.case('several drains', drawn_capture(16, 3, 12))
    file.group('totals')


def undecided(file):
    """Frames with undecided bits, whose totals are plain from the rules: such a frame's check is 0, and each of these bits differs."""
    tied, decided = frame(9, 1, [5, -5]), frame(9, 1, [5, -4])      # for a mask of two positions, the first frozen
    for name, mask, frames, expected in [
            ('LLRs 0', (0, 0), [frame(1, 3, [0, 0])], '1 1 0 2 0\n'),
            ('LLRs 0, one certain value', (0, 1), [frame(1, 1, [0, 0])], '1 1 0 1 2\n'),
            ('LLRs 0, K 0', (1, 1), [frame(1, 1, [0, 0])], '1 1 1 0 0\n'),
            ('LLRs 0, N 1024', [0] * 1024, [frame(2, 8, [0] * 1024)] * 3, '2 3 0 3072 0\n'),
            ('one LLR 0', (0, 0), [frame(1, 1, [0, -5]), frame(1, 1, [5, 0])], '1 2 0 2 0\n'),
            ('LLR and soft value add up to 0', (1, 0), [tied], '9 1 0 2 2\n'),
            ('both ends add up to 0', (1, 0), [frame(1, 1, [LARGEST_LLR, -LARGEST_LLR])], '1 1 0 2 2\n'),
            ('two of four bits', (1, 0, 0, 0), [frame(4, 1, [3, -1, 1, 5])], '4 1 0 2 2\n'),
            ('undecided and decided frames', (1, 0), [tied, decided, tied, decided, decided], '9 5 3 7 10\n'),
            ('undecided in the first sweep', MASK_4, [frame(1, s, [5, 3, -3, 4]) for s in (1, 2)], '1 2 1 3 18\n')]:
        file.case(name, capture(mask, frames), expected)
    file.group('undecided bits')


def known_ones(file):
    """Positions frozen to 1. The hard bits that they fix differ from an LLR of the other sign, and the check compares with them."""
    for name, mask, frames, expected in [
            ('no frames, all frozen to 1', (2, 2), [], ''),
            ('bits fixed to 1', (1, 2), [frame(3, 1, [7, -4]), frame(3, 8, [-7, -4])], '3 2 2 1 0\n'),
            ('bits fixed to 0 and to 1', (2, 2), [frame(3, 1, [7, -4]), frame(3, 8, [-7, 4])], '3 2 2 2 0\n'),
            ('bits fixed to 1, LLRs 0', (1, 2), [frame(3, 1, [0, 0])], '3 1 1 2 0\n'),
            ('bits fixed to 1, LLRs at both ends', (1, 2), [frame(3, 1, [LARGEST_LLR, -LARGEST_LLR])], '3 1 1 1 0\n'),
            ('an SPC node', (2, 0), [frame(3, 1, [7, -4]), frame(3, 1, [7, 4])], '3 2 2 1 4\n'),
            ('an SPC node with undecided bits', (2, 0), [frame(3, 1, [5, 5])], '3 1 0 2 2\n'),
            ('an SPC node and a rate-0 node', (1, 0, 1, 2), [frame(s, s, LLRS_4) for s in (1, 2)], '1 1 0 2 6\n2 1 1 3 12\n'),
            ('a REP node and an SPC node', (2, 1, 2, 0, 1, 0, 0, 0), [frame(7, 1, LLRS_8)], '7 1 1 2 10\n'),
            ('all of N 1024, K 0', [2] * 1024, [frame(5, 1, [1] * 1024)] * 3, '5 3 3 3 0\n'),
            ('the last of N 1024, K 0', [1] * 1023 + [2], [frame(5, 1, [1] * 1024)] * 3, '5 3 3 3072 0\n')]:
        file.case(name, capture(mask, frames), expected)
    file.group('positions frozen to 1')


def full(file):
    """The longest captures of some N. No capture of an allowed N has 65536 bytes."""
    assert not any((LONGEST - TRAILER - n) % (4 + 2 * n) == 0 for n in ALLOWED)
    frames_1024 = []
    for k in range(31):
        front = [random.choice([0, 1, -1, 9, -9, LARGEST_LLR, -LARGEST_LLR]) for _ in range(24)]
        frames_1024.append(frame(k * 7 % 10, k % 8 + 1, front + [random.randint(20 if k % 2 else -20, 40) for _ in range(8)] * 125))
    long_1024 = capture(drawn_mask(1024, 0), frames_1024)
    assert len(long_1024) + 2052 > LONGEST
    file.case('31 frames of N 1024', long_1024)
    blocks = [[frame(d, random.randint(1, 8), [random.randint(-9, 9) for _ in range(2)])] * 128 for d in random.sample(range(64), 64)]
    long_2 = capture((1, 0), list(itertools.chain(*blocks))[:8189])
    assert len(long_2) + 8 > LONGEST
    file.case('8189 frames of N 2', long_2)
    for frames, expected in ((31, '0 31 31 0 0\n'), (32, 14)):
        file.case(f'{frames} like frames of N 1024', capture([0] * 1024, [frame(0, 8, [LARGEST_LLR] * 1024)] * frames), expected)
    for frames, expected in ((8189, '0 8189 8189 8189 16378\n'), (8190, 14)):
        file.case(f'{frames} like frames of N 2', capture((1, 0), [GOOD] * frames), expected)
    file.group('full captures')


def lengths(file):
    """A capture of every length from none, and those about the largest, whose mask takes what there is."""
    data = capture((1, 0), [GOOD, GOOD])
    for k in range(len(data)):
        file.case(f'first {k} bytes', data[:k], 14)
    for k in range(1, len(data)):
        file.case(f'without its first {k} bytes', data[k:], 14)
    file.case('a byte behind the trailer', data + b'\0', 14)
    file.case('a byte before the frames', b'\0' + data, 14)
    file.case('twice', data + data, 14)
    for length, expected in ((65535, 1), (65536, 1), (65537, 14), (65538, 14)):
        file.case(f'{length} bytes of mask and trailer', capture([0] * (length - TRAILER), []), expected)
    long_360 = capture([0] * 360, [frame(0, 1, [1] * 360)] * 90)
    assert len(long_360) == LONGEST
    file.case('65536 bytes, 90 frames of N 360', long_360, 1)
    file.case('65537 bytes, zeros', bytes(65537), 14)
    file.case('16 bytes, zeros', bytes(16), 14)
    file.group('lengths')


def trailers(file):
    """Trailers with another byte or number."""
    frames, size = [GOOD, GOOD, GOOD], len(GOOD)
    end = 3 * size
    good = capture((1, 0), frames)
    file.case('as it should be', good, '0 3 3 3 6\n')
    for k in range(TRAILER):
        for change in (1, 128, 255):
            at = len(good) - TRAILER + k
            file.case(f'trailer byte {k} changed by {change}', good[:at] + bytes([good[at] ^ change]) + good[at + 1:], 14)
    for name, changes in [
            ('other case', {'signature': b'drn1'}), ('last byte 2', {'signature': b'DRN2'}), ('turned round', {'signature': SIGNATURE[::-1]}),
            ('zeros', {'signature': bytes(4)}),
            ('mask at 0', {'mask_at': 0}), ('mask a frame earlier', {'mask_at': end - size}), ('mask a byte later', {'mask_at': end + 1}),
            ('mask a byte earlier', {'mask_at': end - 1}), ('mask a frame later', {'mask_at': end + size}),
            ('mask behind the trailer', {'mask_at': end + 2 + TRAILER}), ('mask at the largest number', {'mask_at': 2 ** 32 - 1}),
            ('mask at 2 to the power 31', {'mask_at': 2 ** 31}), ('mask 65536 later', {'mask_at': end + 65536}),
            ('first frame at 1', {'first_at': 1}), ('first frame at the second', {'first_at': size}),
            ('first frame at the largest number', {'first_at': 2 ** 32 - 1}), ('first frame at 65536', {'first_at': 65536}),
            ('no frames counted', {'count': 0}), ('one frame too few', {'count': 2}), ('one frame too many', {'count': 4}),
            ('largest number of frames', {'count': 2 ** 32 - 1}), ('65536 frames more', {'count': 3 + 65536})]:
        file.case('trailer: ' + name, capture((1, 0), frames, **changes), 14)
    for k in (1, 2, 4, 7):
        file.case(f'trailer: {k} times 2 to the power 29 frames more', capture((1, 0), frames, count=3 + k * 2 ** 29), 14)
    file.case('trailer: frames of 12 bytes, 2 to the power 30 more', capture((1, 0, 1, 1), [frame(0, 1, LLRS_4)], count=1 + 2 ** 30), 14)
    file.case('trailer: mask from its byte 1 on, frames of 2 bytes', capture((1, 0, 0), frames, mask_at=28, count=14), 14)
    file.case('trailer: mask from its byte 2 on, frames of 4 bytes', capture((1, 0), frames, mask_at=28, count=7), 14)
    numbers = good[-12:]
    turned = b''.join(numbers[k:k + 4][::-1] for k in (0, 4, 8))
    file.case('trailer: high byte first', good[:-12] + turned, 14)
    file.case('trailer before the mask', b''.join(frames) + good[-16:] + bytes((1, 0)), 14)
    file.case('trailer first', good[-16:] + good[:-16], 14)
    file.case('trailer alone', capture([], []), 1)
    file.case('trailer alone, one frame', capture([], [], count=1), 14)
    file.case('no mask, frames without LLRs', capture([], [frame(0, 1, [])] * 3), 1)
    file.group('trailers')


def masks(file):
    """Numbers 1 and 2, with and without frames."""
    for n in (1, 2, 3, 4, 5, 7, 8, 12, 16, 1000, 1023, 1024, 1025, 2048, 4096):
        number = 0 if n in ALLOWED else 1
        file.case(f'mask of {n}', capture([1] * n, []), number or '')
        file.case(f'mask of {n}, one frame', capture([1] * n, [frame(3, 1, [1] * n)]), number or '3 1 1 0 0\n')
        file.case(f'mask of {n}, last byte 2', capture([1] * (n - 1) + [2], []), number or '')
        file.case(f'mask of {n}, last byte 3', capture([1] * (n - 1) + [3], []), number or 2)
        file.case(f'mask of {n}, first byte 255, one frame', capture([255] + [1] * (n - 1), [frame(3, 1, [1] * n)]), number or 2)
    for byte in (3, 4, 48, 49, 50, 128, 255):
        file.case(f'mask byte {byte}', capture((1, byte), []), 2)
        file.case(f'mask byte {byte}, one frame', capture((byte, 0), [GOOD]), 2)
    file.group('masks')


def frame_faults(file):
    """A frame's numbers, in the first, a middle and the last frame."""
    for name, bad, number in [
            ('drain 64', frame(64, 1, [7, -4]), 15), ('drain 65', frame(65, 1, [7, -4]), 15), ('drain 256', frame(256, 1, [7, -4]), 15),
            ('drain 32768', frame(32768, 1, [7, -4]), 15), ('drain 65535', frame(65535, 1, [7, -4]), 15),
            ('sweeps 0', frame(0, 0, [7, -4]), 4), ('sweeps 9', frame(0, 9, [7, -4]), 4), ('sweeps 16', frame(0, 16, [7, -4]), 4),
            ('sweeps 256', frame(0, 256, [7, -4]), 4), ('sweeps 257', frame(0, 257, [7, -4]), 4), ('sweeps 65535', frame(0, 65535, [7, -4]), 4),
            ('first LLR -32768', frame(0, 1, [LEAST_16, -4]), 7), ('last LLR -32768', frame(0, 1, [7, LEAST_16]), 7),
            ('drain 64, sweeps 0', frame(64, 0, [7, -4]), 15), ('drain 64, LLR -32768', frame(64, 1, [7, LEAST_16]), 15),
            ('sweeps 9, LLR -32768', frame(0, 9, [LEAST_16, -4]), 4), ('drain 64, sweeps 9, LLR -32768', frame(64, 9, [LEAST_16, -4]), 15)]:
        file.case(f'{name}, alone', capture((1, 0), [bad]), number)
        file.case(f'{name}, first', capture((1, 0), [bad, GOOD, GOOD]), number)
        file.case(f'{name}, second', capture((1, 0), [GOOD, bad, GOOD]), number)
        file.case(f'{name}, last', capture((1, 0), [GOOD, GOOD, bad]), number)
    one_each = {15: frame(64, 1, [7, -4]), 4: frame(0, 0, [7, -4]), 7: frame(0, 1, [7, LEAST_16])}
    for order in itertools.permutations(one_each):
        file.case('frames refused with ' + ' '.join(map(str, order)), capture((1, 0), [GOOD, *map(one_each.get, order), GOOD]), order[0])
    for n in (16, 1024):
        for name, last, number in [('drain 64', frame(64, 1, [1] * n), 15), ('sweeps 9', frame(1, 9, [1] * n), 4),
                                   ('LLR -32768', frame(1, 1, [1] * (n - 1) + [LEAST_16]), 7)]:
            file.case(f'N {n}, {name}, last of 4', capture([1, 0] * (n // 2), [frame(1, 8, [-1] * n)] * 3 + [last]), number)
    file.group('frames refused')


def sets_of_faults(file):
    """Every set of faults; the number is the first of them in this order."""
    order = [14, 1, 2, 15, 4, 7]
    for n, count in ((2, 1), (4, 3), (16, 2)):
        for set_of in range(64):
            faults = [f for k, f in enumerate(order) if set_of >> k & 1]
            m = n + 1 if 1 in faults else n
            mask = [1] * (m - 2) + [2, 3 if 2 in faults else 0]
            llrs = [1] * (m - 1) + [LEAST_16 if 7 in faults else -1]
            bad = frame(64 if 15 in faults else 63, 9 if 4 in faults else 8, llrs)
            data = capture(mask, [frame(1, 1, [1] * m)] * (count - 1) + [bad], first_at=int(14 in faults))
            file.case(f'N {n}, ' + ('faults ' + ' '.join(map(str, faults)) if faults else 'no fault'), data, faults[0] if faults else None)
    file.group('sets of faults')


def drawn_llrs(n):
    """Even signs, or those of the zero word with noise; now and then a 0 or an LLR at an end."""
    size, negative = random.choice([1, 3, 9, 200, LARGEST_LLR]), random.choice([.5, .1])
    def llr():
        return random.choice([0, LARGEST_LLR]) if random.random() < .05 else random.randint(0, size)
    return [llr() * (-1 if random.random() < negative else 1) for _ in range(n)]


def word_llrs(mask):
    """The signs of a drawn word, one in a hundred of them wrong: few of these frames have undecided bits."""
    word = transform(placed(mask, [random.getrandbits(1) for _ in mask]))
    return [random.randint(1, 200) * (-1 if bit ^ (random.random() < .01) else 1) for bit in word]


def drawn_capture(n, style, count, words=0):
    """So many frames, and so many more with the signs of words. Of three captures two have positions frozen to 1, by chance."""
    drains, mask = random.sample(range(MOST_DRAIN + 1), max(1, count // 2)), with_ones(drawn_mask(n, style), (.5, .1, 0)[style % 3])
    draws = [lambda: drawn_llrs(n)] * count + [lambda: word_llrs(mask)] * words
    return capture(mask, [frame(random.choice(drains), random.randint(1, MOST_SWEEPS), llrs()) for llrs in draws])


def drawn(file):
    kinds, kinds_of_ones, ends = set(), set(), {}
    for n in ALLOWED:
        most = min(12, 2048 // n)
        for k in range(10 if n < 64 else 3):
            data = drawn_capture(n, k, random.randint(min(2, most), most), 1)
            file.case(f'N {n} drawn {k}', data)
            assert not answer(data).startswith('no')
            mask, frames = layout(data)
            all_kinds, of_ones = cut_kinds(mask)
            kinds.update(all_kinds)
            kinds_of_ones.update(of_ones)
            ends.setdefault(n, set()).update(decoded(mask, *fields(f)[1:])[3:] for f in frames)
        file.group(f'N {n} drawn')
    assert len(kinds) == 8 and len(kinds_of_ones) == 7, (kinds, kinds_of_ones)
    for found in ends.values():
        assert (1, 0) in found and any(undecided for _, undecided in found), ends
    assert (0, 0) in set().union(*ends.values())


def changed(data):
    """A capture with one change."""
    place = random.randrange(len(data))
    byte = bytes([random.choice([0, 1, 2, 3, 8, 9, 63, 64, 128, 255])])
    return random.choice([
        lambda: data[:place] + byte + data[place + 1:],
        lambda: data[:place] + byte + data[place:],
        lambda: data[:place] + data[place + 1:],
        lambda: data[:place & ~1] + struct.pack('<h', LEAST_16) + data[(place & ~1) + 2:]])()


def changed_capture():
    data = drawn_capture(random.choice([2, 4, 8]), random.randrange(7), random.randint(0, 3))
    for _ in range(random.randint(1, 2)):
        data = changed(data)
    return data


def changed_captures(file):
    """Drawn captures with one or two changes, 20 for each number."""
    for k, data in enumerate(some_of_each([0, 1, 2, 4, 7, 14, 15], 20, changed_capture, capture_number), 1):
        file.case(f'changed capture {k}', data)
    file.group('changed captures')


# ---- the program

def by_file(program, data):
    with tempfile.TemporaryFile() as given:
        given.write(data)
        given.seek(0)
        return subprocess.run([program], stdin=given, capture_output=True, check=True).stdout


def by_pipe(program, data, part):
    """The program's output where its input comes in parts, with pauses, and its end after them."""
    with subprocess.Popen([program], stdin=subprocess.PIPE, stdout=subprocess.PIPE, bufsize=0) as running:
        try:
            for k in range(0, len(data), part):
                running.stdin.write(data[k:k + part])
                time.sleep(.001)
        except BrokenPipeError:
            pass
        running.stdin.close()
        output = running.stdout.read()
    assert running.returncode == 0, running.returncode
    return output


def run(program, captures):
    """Stops at the first output that is not the model's text."""
    count = 0
    def compare(name, output, data):
        nonlocal count
        assert output == answer(data).encode(), (name, output, answer(data))
        count += 1
    one_of_each = {}
    for name, data in captures.items():
        compare(name, by_file(program, data), data)
        one_of_each.setdefault(capture_number(data), data)
    for number, data in one_of_each.items():
        compare(f'by pipe, number {number}', by_pipe(program, data, 1 + len(data) // 50), data)
        compare(f'by pipe, one byte at a time, number {number}', by_pipe(program, data[-100:], 1), data[-100:])
    longest = capture([0] * (LONGEST - TRAILER), [])
    for data in (b'', longest, b'\0' + longest, longest + longest):
        compare(f'by pipe, {len(data)} bytes', by_pipe(program, data, 997), data)
    with open('/dev/zero', 'rb') as endless:
        compare('endless', subprocess.run([program], stdin=endless, capture_output=True, check=True).stdout, bytes(LONGEST + 1))
    print(f'{count} runs as they should be; numbers {sorted(one_of_each)}')


def main():
    file = File()
    for part in (totals, undecided, known_ones, lengths, trailers, masks, frame_faults, sets_of_faults, full, changed_captures, drawn):
        part(file)
    if sys.argv[1:2] == ['--run']:
        run(sys.argv[2], file.captures)
    elif len(sys.argv) > 1:
        sys.stdout.buffer.write(file.captures[sys.argv[1]])
    else:
        print('# Written by tools/capture_vectors.py, which says what the lines mean.')
        print('\n'.join(file.lines))


main()
