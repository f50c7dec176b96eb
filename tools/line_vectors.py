#!/usr/bin/env python3
"""Prints crates/line_test/stdin: inputs of the line program, each with the answer that document 01 gives.

The answers come from the model here and in model.py, which is written from documents 01 and 02 alone: SCAN walked to the last leaf, the
planner and its cycles, the line's grammar, its refusals and its output. Where an answer or a number is plain from them, the model is
compared with that.
Run: python3 tools/line_vectors.py > crates/line_test/stdin
With the number of a case it prints that case's input instead, for crates/polar_line/out/polar_line.

A line of the file is one of these:
  # TEXT               nothing
  NAME|INPUT|ANSWER    a case; \\n is a line feed, \\xHH a byte, \\(COUNT)TEXT; the text so many times (hexadecimal)
  = NAME               ends a group of cases"""
import random
import re
import sys

from model import (ALLOWED, LARGEST_LLR, MOST_MASK, MOST_SWEEPS, cut_kinds, cycles, decoded, digits_of, drawn_mask, placed, some_of_each, transform,
                   with_ones)

random.seed(13)
LONGEST = 16384


# ---- the line

def value(field):
    """A number's value. One of more than 20 digits is cut to 20, which is outside 32 bits too."""
    size = int(field.lstrip(b'-').lstrip(b'0')[:20] or b'0')
    return -size if field.startswith(b'-') else size


def read(data):
    """The number of an input, and its mask, sweeps and LLRs."""
    line, feed, _ = data.partition(b'\n')
    if not feed or len(line) + 1 > LONGEST or not re.fullmatch(rb'[0-9]+ -?[0-9]+( -?[0-9]+)*', line):
        return 13, [], 0, []
    digits, *numbers = line.split(b' ')
    mask = [digit - ord('0') for digit in digits]
    sweeps, *llrs = map(value, numbers)
    tests = [(13, all(-2 ** 31 <= x < 2 ** 31 for x in [sweeps, *llrs])), (1, len(mask) in ALLOWED), (2, max(mask) <= MOST_MASK),
             (3, len(llrs) == len(mask)), (4, 1 <= sweeps <= MOST_SWEEPS), (7, all(abs(x) <= LARGEST_LLR for x in llrs))]
    return next((number for number, passed in tests if not passed), 0), mask, sweeps, llrs


def answer(data):
    """Python writes the certain values as they are to be printed, inf and -inf."""
    number, mask, sweeps, llrs = read(data)
    if number:
        return b'no %d\n' % number
    soft, hard, payload, check, undecided = decoded(mask, sweeps, llrs)
    fields = ['ok', sweeps * cycles(mask), *soft, digits_of(hard), digits_of(payload) or '-', check, undecided]
    return ' '.join(map(str, fields)).encode() + b'\n'


# ---- the file

def line_of(mask, sweeps, llrs):
    return ' '.join(map(str, [digits_of(mask), sweeps, *llrs])).encode() + b'\n'


def spelled(byte):
    if byte == ord('\n'):
        return '\\n'
    return chr(byte) if 32 <= byte < 127 and chr(byte) not in '|\\' else f'\\x{byte:02x}'


def escaped(data):
    """A text as the file has it; what stands there 16 times or more in a row is written once."""
    def part(match):
        text, unit = match.group(), match.group(1)
        if not unit:
            return ''.join(map(spelled, text))
        assert re.fullmatch(rb'[ 0-9a-z-]+', unit)
        return f'\\({len(text) // len(unit):x}){unit.decode()};'
    return ''.join(part(match) for match in re.finditer(rb'(.{1,16}?)\1{15,}|.', data, re.S))


class File:
    """The lines of the file, and the input of each case."""

    def __init__(self):
        self.lines, self.inputs = [], []

    def case(self, name, data, expected=None):
        """A case. Where its number, or how its answer begins, is known, the model is compared with that."""
        text = answer(data)
        if expected is not None:
            begin = b'no %d\n' % expected if isinstance(expected, int) else expected.encode()
            assert text.startswith(begin), (name, data[:100], text, begin)
        assert '|' not in name and name[0] not in '#='
        self.lines.append(f'{name}|{escaped(data)}|{escaped(text)}')
        self.inputs.append(data)

    def group(self, name):
        self.lines.append('= ' + name)


# ---- the cases

def frames(file):
    for name, line, expected in [
            ('frame 1', b'11101000 1 3 -2 5 1 4 -6 2 -1\n', 'ok 10 3 -4 2 -7 3 -2 4 -5 01010101 0011 1 0\n'),
            ('frame 2', b'11101000 2 3 -2 5 1 4 -6 2 -1\n', 'ok 20 3 -4 2 -7 3 -2 4 -5 01010101 0011 1 0\n'),
            ('frame 3', b'1011 1 5 -3 2 1\n', 'ok 6 -1 2 inf inf '),
            ('frame 4', b'1011 2 5 -3 2 1\n', 'ok 12 -3 5 inf inf '),
            ('frame 5', b'10 1 7 -4\n', 'ok 2 -4 7 '),
            ('frame 6', b'1100 1 1 2 3 4\n', 'ok 2 3 4 1 2 '),
            ('frame 7', b'11 1 7 -4\n', 'ok 0 inf inf 00 - 1 0\n'),
            ('frame 8', b'00 1 7 -4\n', 'ok 0 0 0 01 ')]:
        file.case(name, line, expected)
    file.group('frames')


def answers(file):
    for name, line, expected in [
            ('K 0', b'11 3 -7 -4\n', 'ok 0 inf inf 00 - 1 0\n'),
            ('K 0, N 4', b'1111 8 -1 -2 -3 -4\n', 'ok 0 inf inf inf inf 0000 - 1 0\n'),
            ('K 0, N 8', b'11111111 1 0 0 0 0 0 0 0 0\n', 'ok 0 inf inf inf inf inf inf inf inf 00000000 - 1 0\n'),
            ('K N, N 4', b'0000 1 1 -2 3 -4\n', 'ok 0 0 0 0 0 0101 '),
            ('K N, N 8', b'00000000 2 -1 -1 -1 -1 -1 -1 -1 -1\n', 'ok 0 0 0 0 0 0 0 0 0 11111111 00000001 1 0\n'),
            ('certain and finite values', b'1101 1 1 -2 3 -4\n', None),
            ('certain and finite values, 3 sweeps', b'11011111 3 1 -2 3 -4 5 -6 7 -8\n', None),
            ('second position frozen', b'01 1 -3 5\n', None),
            ('second position frozen, two negative values', b'01 1 -3 -5\n', None),
            ('REP of 8', b'11111110 1 1 2 3 4 5 6 7 8\n', 'ok 2 35 34 33 32 31 30 29 28 00000000 0 1 0\n'),
            ('SPC of 8', b'10000000 1 1 -2 3 -4 5 -6 7 -8\n', 'ok 2 2 -1 1 -1 1 -1 1 -1 '),
            ('type I of 8', b'11111100 1 1 2 3 4 5 6 7 8\n', 'ok 2 15 18 13 16 11 14 9 12 '),
            ('type III of 8', b'11000000 1 1 -2 3 -4 5 -6 7 -8\n', 'ok 2 3 -4 1 -2 1 -2 1 -2 '),
            ('type II of 8', b'11111000 1 1 -2 3 -4 5 -6 7 -8\n', 'ok 4 13 -12 13 -14 9 -8 9 -10 '),
            ('type IV of 8', b'11100000 1 1 -2 3 -4 5 -6 7 -8\n', 'ok 4 5 -6 7 -6 1 -2 3 -4 '),
            ('type II of 8, a class of sum 0', b'11111000 3 1 -2 3 -4 -1 -6 7 -8\n', 'ok 12 7 -6 7 -8 9 -2 3 -4 '),
            ('type IV of 8, boxes that add up to 0', b'11100000 3 9 1 2 -3 9 6 5 8\n', 'ok 12 0 6 5 8 0 1 2 -3 '),
            ('largest sum', b'11111110 1' + b' 32767' * 8 + b'\n', 'ok 2' + ' 229369' * 8),
            ('least sum', b'11111110 1' + b' -32767' * 8 + b'\n', 'ok 2' + ' -229369' * 8 + ' 11111111 1 1 0\n')]:
        file.case(name, line, expected)
    file.group('answers')


def undecided(file):
    for name, line, expected in [
            ('all LLRs 0', b'1000 1 0 0 0 0\n', 'ok 2 0 0 0 0 2222 222 0 4\n'),
            ('all LLRs 0, 8 sweeps', b'11101000 8 0 0 0 0 0 0 0 0\n', 'ok 80 0 0 0 0 0 0 0 0 22222222 2222 0 8\n'),
            ('all LLRs 0, K N', b'00 1 0 0\n', 'ok 0 0 0 22 22 0 2\n'),
            ('all LLRs 0, one certain value', b'01 1 0 0\n', 'ok 2 0 inf 20 2 0 1\n'),
            ('first LLR 0', b'00 1 0 -5\n', 'ok 0 0 0 21 22 0 1\n'),
            ('last LLR 0', b'0000 1 1 -1 1 0\n', 'ok 0 0 0 0 0 0102 2222 0 1\n'),
            ('LLR 0 and a soft value', b'10 1 0 -5\n', 'ok 2 -5 0 11 1 1 0\n'),
            ('LLR and soft value add up to 0', b'10 1 5 -5\n', 'ok 2 -5 5 22 2 0 2\n'),
            ('LLR and soft value add up to 0, both ends', b'10 1 -32767 32767\n', 'ok 2 32767 -32767 22 2 0 2\n'),
            ('LLR and soft value add up to 1', b'10 1 5 -4\n', 'ok 2 -4 5 00 0 1 0\n'),
            ('REP of 4, sum 0', b'1110 1 1 -2 3 -2\n', 'ok 2 -1 2 -3 2 2222 2 0 4\n'),
            ('SPC of 4, two of the least size', b'1000 1 3 -1 1 5\n', 'ok 2 -1 1 -1 -1 0220 222 0 2\n'),
            ('type III of 4, one class of sum 0', b'1100 1 4 0 -4 3\n', 'ok 2 -4 3 4 0 2020 22 0 2\n'),
            ('in the first sweep, 1 sweep', b'1011 1 5 3 -3 4\n', 'ok 6 3 -3 inf inf 0200 2 0 1\n'),
            ('in the first sweep, 2 sweeps', b'1011 2 5 3 -3 4\n', 'ok 12 3 5 inf inf 0000 0 1 0\n'),
            ('in the second sweep, 1 sweep', b'1010 1 -1 5 3 -5\n', 'ok 10 3 1 -5 3 0011 11 1 0\n'),
            ('in the second sweep, 2 sweeps', b'1010 2 -1 5 3 -5\n', 'ok 20 1 -1 -3 5 2022 22 0 3\n')]:
        file.case(name, line, expected)
    file.group('undecided bits')


def known_ones(file):
    """Positions frozen to 1. Where all are frozen, the last alone to 1, every bit of the word is 1; where all are frozen to 1, its last bit
    alone is."""
    for name, line, expected in [
            ('REP and SPC', b'21201000 1 3 -2 5 1 4 -6 2 -1\n', 'ok 10 -1 0 -2 1 -1 0 -4 3 01000110 0110 1 0\n'),
            ('type IV of 8', b'21200000 1 3 -2 5 1 4 -6 2 -1\n', 'ok 4 -1 0 -2 -1 -1 0 -4 1 01020112 22222 0 2\n'),
            ('type II of 8', b'12112000 1 3 -2 5 1 4 -6 2 -1\n', 'ok 4 -4 6 2 0 -3 2 5 2 10000100 100 1 0\n'),
            ('type I of 8', b'21121100 1 3 -2 5 1 4 -6 2 -1\n', 'ok 2 1 8 -9 5 0 0 2 -5 00100101 11 1 0\n'),
            ('type III of 4', b'1200 1 1 2 3 4\n', 'ok 2 -3 -4 -1 -2 1100 00 1 0\n'),
            ('REP of 4', b'2110 1 5 -3 2 1\n', 'ok 2 0 -2 -7 -6 0111 1 1 0\n'),
            ('SPC of 4', b'2000 1 5 -3 2 1\n', 'ok 2 1 -1 1 2 0100 100 1 0\n'),
            ('SPC of 2', b'20 1 7 -4\n', 'ok 2 4 -7 01 1 1 0\n'),
            ('SPC and rate-0', b'1012 1 5 -3 2 1\n', 'ok 6 1 -2 -inf -inf 0111 0 0 0\n'),
            ('SPC and rate-0, 2 sweeps', b'1012 2 5 -3 2 1\n', 'ok 12 -3 5 -inf -inf 0011 1 1 0\n'),
            ('first of 2', b'21 1 7 -4\n', 'ok 0 -inf inf 10 - 1 0\n'),
            ('last of 2', b'12 8 7 -4\n', 'ok 0 -inf -inf 11 - 1 0\n'),
            ('both of 2', b'22 1 7 -4\n', 'ok 0 inf -inf 01 - 1 0\n'),
            ('both of 2, LLRs 0', b'22 1 0 0\n', 'ok 0 inf -inf 01 - 1 0\n'),
            ('both of 2, LLRs at both ends', b'22 1 -32767 32767\n', 'ok 0 inf -inf 01 - 1 0\n'),
            ('all of 4', b'2222 1 1 2 3 4\n', 'ok 0 inf inf inf -inf 0001 - 1 0\n'),
            ('last of 4', b'1112 1 1 2 3 4\n', 'ok 0 -inf -inf -inf -inf 1111 - 1 0\n'),
            ('second alone', b'02 1 7 -4\n', 'ok 2 0 -inf 01 1 1 0\n'),
            ('second alone, one bit undecided', b'02 1 0 -4\n', 'ok 2 0 -inf 21 2 0 1\n'),
            ('certain of 0, certain of 1, and finite values', b'12021121 3 1 -2 3 -4 5 -6 7 -8\n', 'ok 30 -3 inf -1 -inf -inf inf -inf inf '),
            ('largest and least sum', b'21111110 1 -32767' + b' 32767' * 7 + b'\n', 'ok 2 -229369' + ' 229369' * 7 + ' 10000000 0 1 0\n'),
            ('LLR and soft value add up to 0', b'20 1 5 5\n', 'ok 2 -5 -5 22 2 0 2\n')]:
        file.case(name, line, expected)
    file.group('positions frozen to 1')


def line_ends(file):
    for name, data, expected in [
            ('empty input', b'', 13),
            ('only a line feed', b'\n', 13),
            ('two line feeds', b'\n\n', 13),
            ('a line behind an empty one', b'\n10 1 7 -4\n', 13),
            ('no line feed', b'10 1 7 -4', 13),
            ('no line feed, a 0 byte', b'10 1 7 -4\0', 13),
            ('ended by a carriage return', b'10 1 7 -4\r', 13),
            ('a carriage return before the line feed', b'10 1 7 -4\r\n', 13),
            ('a carriage return first', b'\r10 1 7 -4\n', 13),
            ('line feed in the mask', b'1\n0 1 7 -4\n', 13),
            ('line feed behind the mask', b'10\n1 7 -4\n', 13),
            ('line feed behind the sweeps', b'10 1\n 7 -4\n', 3),
            ('line feed behind an LLR', b'10 1 7\n-4\n', 3),
            ('line feed in an LLR', b'10 1 7 -\n4\n', 13),
            ('a second line', b'10 1 7 -4\n00 1 7 -4\n', 'ok 2 -4 7 '),
            ('an empty second line', b'10 1 7 -4\n\n', 'ok 2 -4 7 '),
            ('more without a line feed', b'10 1 7 -4\n5', 'ok 2 -4 7 '),
            ('rubbish behind the line', b'10 1 7 -4\n\0\xff x|\\\r\n-', 'ok 2 -4 7 '),
            ('rubbish behind a refused line', b'10 9 7 -4\n\0\xff x\n', 4),
            ('a line behind a malformed one', b'10 1 7 x\n10 1 7 -4\n', 13)]:
        file.case(name, data, expected)
    file.group('ends of the line')


def characters(file):
    for name, line, expected in [
            ('leading space', b' 10 1 7 -4\n', 13),
            ('trailing space', b'10 1 7 -4 \n', 13),
            ('two spaces behind the mask', b'10  1 7 -4\n', 13),
            ('two spaces behind the sweeps', b'10 1  7 -4\n', 13),
            ('two spaces between LLRs', b'10 1 7  -4\n', 13),
            ('two trailing spaces', b'10 1 7 -4  \n', 13),
            ('only a space', b' \n', 13),
            ('only two spaces', b'  \n', 13),
            ('tab behind the mask', b'10\t1 7 -4\n', 13),
            ('tab between LLRs', b'10 1 7\t-4\n', 13),
            ('tab behind a space', b'10 1 \t7 -4\n', 13),
            ('trailing tab', b'10 1 7 -4\t\n', 13),
            ('comma between LLRs', b'10 1 7,-4\n', 13),
            ('plus in the mask', b'+10 1 7 -4\n', 13),
            ('plus before the sweeps', b'10 +1 7 -4\n', 13),
            ('plus before an LLR', b'10 1 +7 -4\n', 13),
            ('minus before the mask', b'-10 1 7 -4\n', 13),
            ('minus in the mask', b'1-0 1 7 -4\n', 13),
            ('minus behind the mask', b'10- 1 7 -4\n', 13),
            ('minus as the mask', b'- 1 7 -4\n', 13),
            ('minus as the sweeps', b'10 - 7 -4\n', 13),
            ('minus as the first LLR', b'10 1 - -4\n', 13),
            ('minus as the last LLR', b'10 1 7 -\n', 13),
            ('two minuses', b'10 1 7 --4\n', 13),
            ('minus in an LLR', b'10 1 7 4-4\n', 13),
            ('minus behind an LLR', b'10 1 7 4-\n', 13),
            ('minus and a space', b'10 1 7 - 4\n', 13),
            ('letter in the mask', b'1o 1 7 -4\n', 13),
            ('letter as the mask', b'a 1 7 -4\n', 13),
            ('letter as the sweeps', b'10 x 7 -4\n', 13),
            ('letter behind the sweeps', b'10 1s 7 -4\n', 13),
            ('letter in an LLR', b'10 1 7 -4e1\n', 13),
            ('inf as an LLR', b'10 1 inf -4\n', 13),
            ('hexadecimal LLR', b'10 1 0x7 -4\n', 13),
            ('decimal point', b'10 1 7 -4.0\n', 13),
            ('byte below the digits', b'10 1 7 -/\n', 13),
            ('byte above the digits', b'10 1 7 -:\n', 13),
            ('byte below the digits in the mask', b'1/ 1 7 -4\n', 13),
            ('byte above the digits in the mask', b'1: 1 7 -4\n', 13),
            ('byte 0', b'10 1 7 \0\n', 13),
            ('byte 0 behind the line', b'10 1 7 -4\0\n', 13),
            ('byte 128 and a digit', b'10 1 7 \xb4\n', 13),
            ('byte 255 in the mask', b'1\xff 1 7 -4\n', 13),
            ('mask in two fields', b'1 0 1 7 -4\n', 1),
            ('only a mask', b'10\n', 13),
            ('mask and a space', b'10 \n', 13),
            ('mask and sweeps', b'10 1\n', 3),
            ('mask, sweeps and a space', b'10 1 \n', 13),
            ('no mask', b' 1 7 -4\n', 13)]:
        file.case(name, line, expected)
    file.group('characters and separators')


def numbers(file):
    ok = 'ok 2 -4 7 '
    for name, line, expected in [
            ('leading zeros', b'10 01 007 -004\n', ok),
            ('100 leading zeros', b'10 1 7 -' + b'0' * 100 + b'4\n', ok),
            ('100 leading zeros in the sweeps', b'10 ' + b'0' * 100 + b'1 7 -4\n', ok),
            ('100 zeros', b'10 1 ' + b'0' * 100 + b' 0\n', 'ok 2 0 0 '),
            ('zero with a minus', b'10 1 -0 0\n', 'ok 2 0 0 22 2 0 2\n'),
            ('many zeros with a minus', b'10 1 -0000 -' + b'0' * 60 + b'\n', 'ok 2 0 0 22 2 0 2\n'),
            ('-00007', b'10 1 -00007 4\n', 'ok 2 4 -7 '),
            ('LLR 32767', b'10 1 32767 1\n', 'ok 2 1 32767 '),
            ('LLR -32767', b'10 1 -32767 1\n', 'ok 2 1 -32767 '),
            ('LLR 32768', b'10 1 32768 1\n', 7),
            ('LLR -32768', b'10 1 -32768 1\n', 7),
            ('last LLR 32767', b'10 1 1 32767\n', 'ok 2 32767 1 '),
            ('last LLR -32767', b'10 1 1 -32767\n', 'ok 2 -32767 1 '),
            ('last LLR 32768', b'10 1 1 32768\n', 7),
            ('last LLR -32768', b'10 1 1 -32768\n', 7),
            ('LLR 32768 with leading zeros', b'10 1 1 000000000000032768\n', 7),
            ('LLR 65536', b'10 1 65536 1\n', 7),
            ('LLR -65537', b'10 1 -65537 1\n', 7),
            ('LLR 2147483647', b'10 1 2147483647 1\n', 7),
            ('LLR 2147483648', b'10 1 2147483648 1\n', 13),
            ('LLR -2147483648', b'10 1 1 -2147483648\n', 7),
            ('LLR -2147483649', b'10 1 1 -2147483649\n', 13),
            ('LLR 4294967296', b'10 1 4294967296 1\n', 13),
            ('LLR 4294967303', b'10 1 4294967303 1\n', 13),
            ('LLR 18446744073709551616', b'10 1 18446744073709551616 1\n', 13),
            ('LLR 18446744073709551623', b'10 1 1 18446744073709551623\n', 13),
            ('LLR of 40 nines', b'10 1 1 ' + b'9' * 40 + b'\n', 13),
            ('LLR 2147483647 with leading zeros', b'10 1 1 ' + b'0' * 30 + b'2147483647\n', 7),
            ('LLR 2147483648 with leading zeros', b'10 1 1 ' + b'0' * 30 + b'2147483648\n', 13),
            ('LLR -2147483648 with leading zeros', b'10 1 1 -' + b'0' * 30 + b'2147483648\n', 7),
            ('LLR -2147483649 with leading zeros', b'10 1 1 -' + b'0' * 30 + b'2147483649\n', 13),
            ('sweeps 0', b'10 0 7 -4\n', 4),
            ('sweeps -0', b'10 -0 7 -4\n', 4),
            ('sweeps 1', b'10 1 7 -4\n', ok),
            ('sweeps 2', b'10 2 7 -4\n', 'ok 4 -4 7 '),
            ('sweeps 7', b'1011 7 5 -3 2 1\n', 'ok 42 '),
            ('sweeps 8', b'1011 8 5 -3 2 1\n', 'ok 48 '),
            ('sweeps 8 with leading zeros', b'1011 008 5 -3 2 1\n', 'ok 48 '),
            ('sweeps 9', b'1011 9 5 -3 2 1\n', 4),
            ('sweeps 16', b'1011 16 5 -3 2 1\n', 4),
            ('sweeps -1', b'10 -1 7 -4\n', 4),
            ('sweeps -8', b'10 -8 7 -4\n', 4),
            ('sweeps 256', b'10 256 7 -4\n', 4),
            ('sweeps 257', b'10 257 7 -4\n', 4),
            ('sweeps 65537', b'10 65537 7 -4\n', 4),
            ('sweeps 2147483647', b'10 2147483647 7 -4\n', 4),
            ('sweeps 2147483648', b'10 2147483648 7 -4\n', 13),
            ('sweeps -2147483648', b'10 -2147483648 7 -4\n', 4),
            ('sweeps -2147483649', b'10 -2147483649 7 -4\n', 13),
            ('sweeps 4294967297', b'10 4294967297 7 -4\n', 13),
            ('sweeps -4294967295', b'10 -4294967295 7 -4\n', 13),
            ('sweeps 18446744073709551617', b'10 18446744073709551617 7 -4\n', 13)]:
        file.case(name, line, expected)
    file.group('numbers')


def masks(file):
    def llrs(n):
        return b' 1' + b' 1' * n + b'\n'
    for name, line, expected in [
            ('digit 2', b'12 1 7 -4\n', 'ok 0 '),
            ('digit 3', b'13 1 7 -4\n', 2),
            ('digit 3 first', b'30 1 7 -4\n', 2),
            ('digit 3 among 2s', b'2232' + llrs(4), 2),
            ('digit 9', b'1091 1 5 -3 2 1\n', 2),
            ('digit 9 last', b'1119' + llrs(4), 2),
            ('digits 2 to 9', b'23456789' + llrs(8), 2),
            ('1 digit', b'1 1 7\n', 1),
            ('1 digit, a 0', b'0 1 7\n', 1),
            ('3 digits', b'101 1 7 -4 1\n', 1),
            ('3 digits, 2 LLRs', b'101 1 7 -4\n', 1),
            ('3 digits, 4 LLRs', b'101 1 7 -4 1 2\n', 1),
            ('5 digits', b'10101' + llrs(5), 1),
            ('6 digits', b'101010' + llrs(6), 1),
            ('7 digits', b'1010101' + llrs(7), 1),
            ('9 digits', b'101010101' + llrs(9), 1),
            ('12 digits', b'101010101010' + llrs(12), 1),
            ('2048 digits', b'0' * 2048 + b' 1 1\n', 1),
            ('4096 digits', b'1' * 4096 + b' 1 1\n', 1),
            ('1024 digits, 1 LLR', b'0' * 1024 + b' 1 1\n', 3),
            ('1024 digits 2, 1 LLR', b'2' * 1024 + b' 1 1\n', 3),
            ('1024 digits, the last a 3, 1 LLR', b'2' * 1023 + b'3 1 1\n', 2),
            ('1023 digits, 1 LLR', b'0' * 1023 + b' 1 1\n', 1),
            ('1025 digits, 1 LLR', b'0' * 1025 + b' 1 1\n', 1),
            ('no LLR', b'10 1\n', 3),
            ('1 LLR fewer', b'10 1 7\n', 3),
            ('1 LLR more', b'10 1 7 -4 1\n', 3),
            ('2 LLRs more', b'10 1 7 -4 1 2\n', 3),
            ('N + 1 LLRs for N 8', b'11101000' + llrs(9), 3),
            ('N - 1 LLRs for N 8', b'11101000' + llrs(7), 3)]:
        file.case(name, line, expected)
    file.group('masks and counts')


def long_lines(file):
    def padded(length, data, place):
        """The line with zeros put in at a place, so many that it has that length with its line feed."""
        return data[:place] + b'0' * (length - len(data)) + data[place:]
    line = b'10 1 7 -4\n'
    sweeps, first, last = 3, 5, 8
    for name, data, expected in [
            ('16383 bytes', padded(16383, line, last), 'ok 2 -4 7 '),
            ('16384 bytes', padded(16384, line, last), 'ok 2 -4 7 '),
            ('16385 bytes', padded(16385, line, last), 13),
            ('16386 bytes', padded(16386, line, last), 13),
            ('16384 bytes, sweeps', padded(16384, line, sweeps), 'ok 2 -4 7 '),
            ('16385 bytes, sweeps', padded(16385, line, sweeps), 13),
            ('16384 bytes, first LLR', padded(16384, line, first), 'ok 2 -4 7 '),
            ('16385 bytes, first LLR', padded(16385, line, first), 13),
            ('16384 bytes and more', padded(16384, line, last) + b'10 1\n', 'ok 2 -4 7 '),
            ('16384 bytes and a 0 byte', padded(16384, line, last) + b'\0', 'ok 2 -4 7 '),
            ('16385 bytes and more', padded(16385, line, last) + line, 13),
            ('16384 bytes, no line feed', padded(16385, line, last)[:-1], 13),
            ('16383 bytes, no line feed', padded(16384, line, last)[:-1], 13),
            ('20000 bytes, no line feed', b'1' * 20000, 13),
            ('20000 bytes', padded(20000, line, last), 13),
            ('16384 bytes of mask', b'1' * 16379 + b' 1 1\n', 1),
            ('16384 bytes of mask alone', b'1' * 16383 + b'\n', 13),
            ('16384 bytes of spaces', b' ' * 16383 + b'\n', 13),
            ('16384 bytes, sweeps too large', padded(16384, b'10 9 7 -4\n', sweeps), 4),
            ('16385 bytes, sweeps too large', padded(16385, b'10 9 7 -4\n', sweeps), 13),
            ('16384 bytes, LLR too large', padded(16384, b'10 1 7 32768\n', 7), 7),
            ('16384 bytes, number too large', padded(16384, b'10 1 7 2147483648\n', 7), 13),
            ('16384 bytes, 2 to the power 64', padded(16384, b'10 1 7 18446744073709551616\n', 7), 13)]:
        file.case(name, data, expected)
    file.group('long lines')


def large_lines(file):
    """Lines of 256 to 1024 positions whose parts repeat."""
    for n in (256, 512, 1024):
        m = n - 1
        for name, mask, sweeps, llrs, expected in [
                ('K 0', '1' * n, 8, [-7] * n, 'ok 0' + ' inf' * n + ' ' + '0' * n + ' - 1 0\n'),
                ('K 0, LLRs 0', '1' * n, 1, [0] * n, 'ok 0' + ' inf' * n + ' ' + '0' * n + ' - 1 0\n'),
                ('K 0, last frozen to 1', '1' * m + '2', 8, [7] * n, 'ok 0' + ' -inf' * n + ' ' + '1' * n + ' - 1 0\n'),
                ('K 0, all frozen to 1', '2' * n, 1, [0] * n, 'ok 0' + ' inf' * m + ' -inf ' + '0' * m + '1 - 1 0\n'),
                ('K N', '0' * n, 8, [-7] * n, 'ok 0' + ' 0' * n + ' ' + '1' * n + ' ' + '0' * m + '1 1 0\n'),
                ('K N, LLRs 0', '0' * n, 8, [0] * n, 'ok 0' + ' 0' * n + ' ' + '2' * n + ' ' + '2' * n + f' 0 {n}\n'),
                ('K N, last LLR 0', '0' * n, 1, [-7] * m + [0], 'ok 0' + ' 0' * n + ' ' + '1' * m + '2 ' + '2' * n + ' 0 1\n'),
                ('K N, every third LLR 0', '0' * n, 1, [int(k % 3 > 0) for k in range(n)], 'ok 0' + ' 0' * n + ' 200200'),
                ('REP', '1' * m + '0', 1, [-32767] * n, 'ok 2' + f' {-32767 * m}' * n + ' ' + '1' * n + ' 1 1 0\n'),
                ('REP, 8 sweeps', '1' * m + '0', 8, [32767] * n, 'ok 16' + f' {32767 * m}' * n + ' ' + '0' * n + ' 0 1 0\n'),
                ('REP, sum 0', '1' * m + '0', 8, [-3, 3] * (n // 2), 'ok 16' + ' 3 -3' * (n // 2) + ' ' + '2' * n + f' 2 0 {n}\n'),
                ('REP, first frozen to 1', '2' + '1' * (n - 2) + '0', 1, [-7] + [7] * m, 'ok 2' + f' {-7 * m}' + f' {7 * m}' * m + ' 1' + '0' * m + ' 0 1 0\n'),
                ('SPC', '1' + '0' * m, 1, [5] * n, 'ok 2' + ' 5' * n),
                ('SPC, one negative', '1' + '0' * m, 3, [5] * m + [-1], 'ok 6' + ' -1' * m + ' 5 '),
                ('SPC, frozen to 1', '2' + '0' * m, 1, [5] * n, 'ok 2' + ' -5' * n + ' ' + '2' * n + ' ' + '2' * m + f' 0 {n}\n'),
                ('type I', '1' * (n - 2) + '00', 2, [2, -3] * (n // 2), 'ok 4' + f' {2 * (n // 2 - 1)} {-3 * (n // 2 - 1)}' * (n // 2)),
                ('type III', '11' + '0' * (n - 2), 8, [2, -3] * (n // 2), 'ok 16' + ' 2 -3' * (n // 2)),
                ('type II', '1' * (n - 3) + '000', 2, [1, 2, -1, 1] * (n // 4), 'ok 8' + f' -1 {n // 4 - 2} 1 -1' * (n // 4)),
                ('type IV', '111' + '0' * (n - 3), 8, [20, -3, 5, -7] * (n // 4), 'ok 32' + ' 15 -3 5 -7' * (n // 4)),
                ('alternating mask', '10' * (n // 2), 1, [1, -2, 3, 4] * (n // 4), f'ok {4 * n - 6} '),
                ('alternating mask, half of it frozen to 1', '2010' * (n // 4), 1, [1, -2, 3, 4] * (n // 4), f'ok {4 * n - 6} '),
                ('other half frozen', '0' * (n // 2) + '1' * (n // 2), 8, [1, -2, 3, 4] * (n // 4), 'ok 16 '),
                ('1 LLR fewer', '10' * (n // 2), 1, [1] * m, 3),
                ('1 LLR more', '10' * (n // 2), 1, [1] * (n + 1), 3),
                ('sweeps 9', '10' * (n // 2), 9, [1] * n, 4),
                ('last digit 3', '10' * (n // 2 - 1) + '13', 1, [1] * n, 2),
                ('last LLR 32768', '10' * (n // 2), 1, [1] * m + [32768], 7),
                ('first LLR -32768', '10' * (n // 2), 1, [-32768] + [1] * m, 7),
                ('N - 1', '10' * (n // 2 - 1) + '1', 1, [1] * m, 1),
                ('N + 1', '10' * (n // 2) + '1', 1, [1] * (n + 1), 1)]:
            file.case(f'N {n}, {name}', line_of(mask, sweeps, llrs), expected)
    file.case('N 2048', line_of('10' * 1024, 1, [1] * 2048), 1)
    for length, expected in ((16384, 'ok 4090 '), (16385, 13)):
        line = line_of('10' * 512, 1, ['00000000000001'] * 1020 + ['0000000000001'] * (16387 - length) + ['00000000000001'] * (length - 16383))
        assert len(line) == length
        file.case(f'N 1024, {length} bytes', line, expected)
    file.group('large lines')


def faulty(file):
    """Every set of faults: 1 the mask's length, 2 its digits, 3 the count of LLRs, 4 the sweeps, 7 an LLR's size, and ways to be malformed. The
    number is the lowest, but 13 comes before all."""
    ways = {'letter in the mask': lambda t: t[:1] + b'x' + t[2:], 'letter at the end': lambda t: t[:-1] + b'x\n', 'no line feed': lambda t: t[:-1],
            'two spaces': lambda t: t.replace(b' ', b'  ', 1), 'LLR beyond 32 bits': lambda t: t[:-1] + b'99999999999\n'}
    for variant, (mask, bad_length, digit, sweeps, bad_sweeps, llr, bad_llr) in enumerate([
            (b'1011', b'101', b'3', b'1', b'0', b'1', b'32768'),
            (b'20', b'2', b'9', b'8', b'9', b'-32767', b'-32768'),
            (b'11202000', b'112020001', b'4', b'2', b'-1', b'0', b'-2147483648')]):
        for set_of in range(32):
            faults = [f for k, f in enumerate([1, 2, 3, 4, 7]) if set_of >> k & 1]
            digits = bad_length if 1 in faults else mask
            llrs = [llr] * (len(digits) + (3 in faults) * (1 if variant else -1))
            if 2 in faults:
                digits = digits[:-1] + digit
            if 7 in faults:
                llrs[-1] = bad_llr
            line = b' '.join([digits, bad_sweeps if 4 in faults else sweeps, *llrs]) + b'\n'
            name = 'faults ' + ' '.join(map(str, faults)) if faults else 'no fault'
            file.case(name, line, min(faults) if faults else 'ok ')
            if variant == 0:
                for way, change in ways.items():
                    file.case(f'{name}, {way}', change(line), 13)
    file.group('sets of faults')


def drawn_line(n, style):
    """Even signs and sizes from 0, with which most large lines have undecided bits, or the signs of a drawn word, a few of them wrong.
    Of four lines three have positions frozen to 1, by chance. Sizes are small in large lines, which keeps the file small."""
    size = random.choice([1, 3, 9, 200, LARGEST_LLR] if n <= 128 else [1, 3, 9])
    least, wrong, ones = [(0, .5, .5), (1, .01, .5), (0, .5, 0), (1, .1, .2)][style % 4]
    mask, sweeps = with_ones(drawn_mask(n, style), ones), random.randint(1, MOST_SWEEPS)
    word = transform(placed(mask, [random.getrandbits(1) for _ in mask]))
    return line_of(mask, sweeps, [random.randint(least, size) * (-1 if bit ^ (random.random() < wrong) else 1) for bit in word])


def end_of(line):
    """What the answer to an accepted line ends with."""
    check, undecided = map(int, answer(line).split()[-2:])
    return 'undecided' if undecided else f'check {check}'


def drawn(file):
    """Of four lines one has undecided bits, one has none and check 1, one has none and check 0, at the N where these are not too rare or
    too long, and one is as it comes."""
    kinds, kinds_of_ones, ends = {}, {}, set()
    for n in ALLOWED:
        for k in range(max(4, 16 - n // 16)):
            wanted = ['undecided', 'check 1', 'check 0' if 16 <= n <= 128 else None, None][k % 4]
            line = drawn_line(n, k)
            while wanted and end_of(line) != wanted:
                line = drawn_line(n, k)
            file.case(f'N {n} drawn {k}', line, 'ok ')
            all_kinds, of_ones = cut_kinds(read(line)[1])
            kinds.setdefault(n, set()).update(all_kinds)
            kinds_of_ones.setdefault(n, set()).update(of_ones)
            ends.add(end_of(line))
        file.group(f'N {n} drawn')
    assert all(len(kinds[n]) == 8 and len(kinds_of_ones[n]) == 7 for n in ALLOWED if n >= 64), (kinds, kinds_of_ones)
    assert ends == {'undecided', 'check 0', 'check 1'}


def changed(line):
    """A line with one change."""
    place = random.randrange(len(line))
    fields = line[:-1].split(b' ')
    k = random.randrange(len(fields))
    byte = bytes([random.choice(b'0123456789 -\n\r+\t') if random.getrandbits(2) else random.randrange(256)])
    number = str(random.choice([0, 1, 2, 8, 9, -1, 32767, 32768, -32768, 2 ** 31 - 1, 2 ** 31, -2 ** 31, -2 ** 31 - 1])).encode()
    return random.choice([
        lambda: line[:place] + byte + line[place + 1:],
        lambda: line[:place] + byte + line[place:],
        lambda: line[:place] + line[place + 1:],
        lambda: b' '.join(fields[:k] + fields[k + 1:]) + b'\n',
        lambda: b' '.join(fields[:k] + [number] + fields[k:]) + b'\n',
        lambda: b' '.join(fields[:k] + [number] + fields[k + 1:]) + b'\n',
        lambda: b' '.join(fields[:k] + [b'0' * random.randrange(4) + fields[k]] + fields[k + 1:]) + b'\n',
        lambda: bytes([random.choice(b'01239')]) + line[1:]])()


def changed_line():
    line = drawn_line(random.choice([2, 4, 8]), random.randrange(7))
    for _ in range(random.randint(1, 2)):
        line = changed(line) if line else line
    return line


def changed_lines(file):
    """Drawn lines with one or two changes, 30 for each number."""
    for k, line in enumerate(some_of_each([0, 1, 2, 3, 4, 7, 13], 30, changed_line, lambda line: read(line)[0]), 1):
        file.case(f'changed line {k}', line)
    file.group('changed lines')


def main():
    file = File()
    for part in (frames, answers, undecided, known_ones, line_ends, characters, numbers, masks, faulty, long_lines, large_lines, changed_lines, drawn):
        part(file)
    if len(sys.argv) > 1:
        sys.stdout.buffer.write(file.inputs[int(sys.argv[1]) - 1])
    else:
        print('# Written by tools/line_vectors.py, which says what the lines mean.')
        print('\n'.join(file.lines))


main()
