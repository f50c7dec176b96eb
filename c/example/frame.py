#!/usr/bin/env python3
"""One frame through the shared object, drawn: its LLRs, its soft values, and the sums that decide the bits.

    python3 c/example/frame.py PATH-TO-libruznavo.so OUT.svg

A payload is encoded, sent over a noisy channel, converted to LLRs and decoded. The last four bits of the word are fixed
by frozen positions, two to 0 and two to 1, and are not sent (shortened); the first four are not sent either
(punctured).
Exit status 1 if a payload bit is wrong or undecided. It needs the standard library only.
"""
import collections
import ctypes
import math
import random
import sys

EXPONENT = 6
N, K, SWEEPS = 2**EXPONENT, 28, 4
NOT_SENT = 4  # punctured positions at the start, and as many shortened ones at the end
VARIANCE = 0.6
SCALE = 256  # LLRs are 256 times as large, so that rounding to whole numbers loses less
SEED = 26
SENT, PUNCTURED, SHORTENED = 0, 1, 2  # marks, as in ruznavo.h
UNFROZEN, FROZEN_ZERO, FROZEN_ONE = 0, 1, 2  # mask bytes
LARGEST, CERTAIN, UNDECIDED = 32767, 2**31 - 1, 2  # LLR, soft value, bit; certain of a 1 is -CERTAIN
KINDS = 8

Frame = collections.namedtuple("Frame", "word llrs soft hard check undecided right")

# ---- the library


def load(path):
    """The shared object with the types of its calls, as ruznavo.h declares them."""
    library = ctypes.CDLL(path)
    pointers = (ctypes.POINTER(getattr(ctypes, "c_" + name)) for name in ("uint8", "int16", "int32", "uint32", "float"))
    bits, shorts, words, counts, floats = pointers
    size = ctypes.c_size_t
    types = {
        "samples": [floats, size, bits, size, ctypes.c_float, shorts, size],
        "encode": [bits, size, bits, size, bits, size],
        "plan": [bits, size, bits, size, counts],
        "decode": [bits, size, bits, size, size, shorts, size, words, size, bits, size, bits, size, words, size],
    }
    for name, arguments in types.items():
        call = getattr(library, "ruznavo_" + name)
        call.argtypes, call.restype = arguments, ctypes.c_uint64
    return library


def accepted(name, answer):
    """The answer of a call; a refused call ends the program."""
    if answer & 255:
        sys.exit(f"{name}: refused with number {answer & 255}")
    return answer


def octets(values):
    return (ctypes.c_uint8 * len(values))(*values)


# ---- the frame


def choose_mask():
    """Frozen are the last positions, which fixes the word's last bits, and others with the largest erasure rates: one
    of the last to 1, all others to 0."""
    rates = [0.4]
    while len(rates) < N:
        rates = [rate for z in rates for rate in (2 * z - z * z, z * z)]
    shortened = range(N - NOT_SENT, N)
    others = sorted(range(N - NOT_SENT), key=lambda i: -rates[i])
    frozen = set(shortened) | set(others[: N - K - NOT_SENT])
    mask = [FROZEN_ZERO if i in frozen else UNFROZEN for i in range(N)]
    mask[N - 2] = FROZEN_ONE
    return octets(mask)


def noise(drawn):
    """A Gaussian value of variance VARIANCE."""
    size = math.sqrt(-2 * VARIANCE * math.log(1 - drawn.random()))
    return size * math.cos(2 * math.pi * drawn.random())


def receive(word, drawn):
    """Samples and marks: bit 0 is sent as +1, bit 1 as -1. The sample of a position not sent has no influence."""
    samples = [(-1 if bit else 1) + noise(drawn) for bit in word]
    marks = [PUNCTURED] * NOT_SENT + [SENT] * (N - 2 * NOT_SENT) + [SHORTENED] * NOT_SENT
    return (ctypes.c_float * N)(*samples), octets(marks)


def turn_fixed(llrs, word):
    """Shortened gives the LLR of a bit that is 0. A bit that is 1 in every word of the code has the other sign."""
    for position in range(N - NOT_SENT, N):
        if word[position]:
            llrs[position] = -LARGEST


def decode_frame(library):
    """What the picture shows of the frame, and whether the payload is right."""
    drawn = random.Random(SEED)
    mask, word, plan, counts = choose_mask(), octets([0] * N), octets([0] * 2 * N), (ctypes.c_uint32 * KINDS)()
    payload = octets([drawn.random() < 0.5 for _ in range(K)])
    accepted("encode", library.ruznavo_encode(mask, N, payload, K, word, N))
    samples, marks = receive(word, drawn)
    llrs = (ctypes.c_int16 * N)()
    accepted("samples", library.ruznavo_samples(samples, N, marks, N, VARIANCE / SCALE, llrs, N))
    turn_fixed(llrs, word)
    accepted("plan", library.ruznavo_plan(mask, N, plan, len(plan), counts))
    soft, hard, decoded = (ctypes.c_int32 * N)(), octets([0] * N), octets([0] * K)
    work = (ctypes.c_int32 * (N * (EXPONENT + 3)))()
    answer = accepted(
        "decode",
        library.ruznavo_decode(
            mask, N, plan, len(plan), SWEEPS, llrs, N, soft, N, hard, N, decoded, K, work, len(work)
        ),
    )
    right = list(decoded) == list(payload)
    return Frame(list(word), list(llrs), list(soft), list(hard), answer >> 40 & 1, answer >> 41, right)


# ---- the picture

LEFT, RIGHT, STEP = 96, 18, 13  # margins, and the width of a position
HEAD, HEIGHT, GAP = 106, 150, 34  # title and legend; a panel, and what lies between two
ROW = 19  # height of a row of bits
WIDTH = LEFT + N * STEP + RIGHT
# Colours of Okabe and Ito, which colour-blind readers can tell apart.
RIGHT_BIT, WRONG_BIT, FIXED, NOTHING = "#0072B2", "#D55E00", "#009E73", "#777777"


def text(x, y, words, size=12, anchor="middle", extra=""):
    return f'<text x="{x:.1f}" y="{y:.1f}" font-size="{size}" text-anchor="{anchor}"{extra}>{words}</text>'


def line(x1, y1, x2, y2, colour):
    return f'<line x1="{x1:.1f}" y1="{y1:.1f}" x2="{x2:.1f}" y2="{y2:.1f}" stroke="{colour}"/>'


def box(x, y, width, height, style):
    return f'<rect x="{x:.1f}" y="{y:.1f}" width="{width:.1f}" height="{height:.1f}" {style}/>'


def bar(x, zero, length, colour):
    """From the zero line up, or down where the length is negative; a short one is drawn long enough to be seen."""
    height = max(abs(length), 1.5)
    return box(x - 4, zero - (height if length > 0 else 0), 8, height, f'fill="{colour}"')


def dot(x, y):
    return f'<circle cx="{x:.1f}" cy="{y:.1f}" r="3" fill="white" stroke="{NOTHING}" stroke-width="1.4"/>'


def triangle(x, tip, height):
    """It points up, or down where the height is negative."""
    base = tip + height
    return f'<polygon points="{x:.1f},{tip:.1f} {x + 5:.1f},{base:.1f} {x - 5:.1f},{base:.1f}" fill="{FIXED}"/>'


def at(position):
    return LEFT + (position + 0.5) * STEP


def tick_step(largest):
    """1, 2 or 5 times a power of ten: at least two ticks on each side, and at most five."""
    power = 10 ** math.floor(math.log10(largest))
    return next(power * part for part in (0.2, 0.5, 1, 2) if largest <= 5 * power * part)


def axes(name, top, largest, unit):
    """The frame of a panel with its ticks; the scale is the same above and below zero."""
    middle = top + HEIGHT / 2
    parts = [box(LEFT, top, N * STEP, HEIGHT, 'fill="none" stroke="#333333"')]
    step = tick_step(largest)
    for tick in range(-int(largest / step), int(largest / step) + 1):
        y = middle - tick * step * unit
        parts.append(line(LEFT, y, LEFT + N * STEP, y, "#333333" if tick == 0 else "#dddddd"))
        parts.append(text(LEFT - 8, y + 4, f"{tick * step:g}".replace("-", "\u2212"), 11, "end"))
    for position in range(0, N, 8):
        parts.append(line(at(position), top + HEIGHT, at(position), top + HEIGHT + 5, "#333333"))
        parts.append(text(at(position), top + HEIGHT + 18, position, 11))
    x = LEFT - 60
    parts.append(text(x, middle, name, 13, extra=f' transform="rotate(-90 {x} {middle:.1f})"'))
    return parts


def panel(name, top, values, word):
    """A bar for each value, coloured by whether its sign speaks for the bit that was sent; a triangle where it is
    infinite."""
    largest = max((abs(value) for value in values if not math.isinf(value)), default=0) or 1
    middle, unit = top + HEIGHT / 2, (HEIGHT / 2 - 14) / largest
    parts = axes(name, top, largest, unit)
    for position, value in enumerate(values):
        x = at(position)
        if math.isinf(value):
            parts.append(triangle(x, top + 2, 10) if value > 0 else triangle(x, top + HEIGHT - 2, -10))
        elif value == 0:
            parts.append(dot(x, middle))
        else:
            parts.append(bar(x, middle, value * unit, RIGHT_BIT if (value < 0) == word[position] else WRONG_BIT))
    return parts


def bit_row(name, top, bits, word):
    """Wrong bits and undecided ones on a ground of their own colour; an undecided bit is a question mark."""
    parts = [text(LEFT - 8, top + 13, name, 12, "end")]
    for position, (bit, sent) in enumerate(zip(bits, word)):
        if bit != sent:
            colour = NOTHING if bit == UNDECIDED else WRONG_BIT
            parts.append(box(at(position) - STEP / 2, top, STEP, ROW - 2, f'fill="{colour}"'))
        style = ' fill="white" font-weight="bold"' if bit != sent else ""
        parts.append(text(at(position), top + 13, "?" if bit == UNDECIDED else bit, 11, extra=style))
    return parts


def legend(y):
    """One row: where each mark stands, the mark, and its words."""
    marks = [
        (6, lambda x: bar(x, y, 10, RIGHT_BIT), "speaks for the bit that was sent"),
        (242, lambda x: bar(x, y, 10, WRONG_BIT), "for the other bit"),
        (388, lambda x: dot(x, y - 5), "0: for neither (?)"),
        (534, lambda x: triangle(x, y - 10, 10), "fixed to 0 (up) or 1 (down): not sent, certain"),
    ]
    return [part for x, mark, words in marks for part in (mark(LEFT + x), text(LEFT + x + 12, y, words, 12, "start"))]


def faults(bits, word):
    """How many bits are wrong and how many undecided, in words."""
    undecided = bits.count(UNDECIDED)
    wrong = sum(a != b for a, b in zip(bits, word)) - undecided
    return f"{wrong} wrong" + (f" and {undecided} undecided" if undecided else "")


def title(frame, alone):
    payload = "undecided" if frame.undecided else "right" if frame.right else "wrong"
    first = f"One frame: N = {N}, K = {K}, noise variance v = {VARIANCE}, LLRs {SCALE} &#215; 2y / v, {SWEEPS} sweeps"
    second = (
        f"Bits of the word: {faults(alone, frame.word)} by the LLRs alone, {faults(frame.hard, frame.word)} after "
        f"decoding; payload {payload}, frozen check {frame.check}"
    )
    return [text(LEFT, 26, first, 16, "start"), text(LEFT, 50, second, 13, "start")]


def decide(value):
    return UNDECIDED if value == 0 else int(value < 0)


def unbounded(value, largest):
    """The value, infinite where its size is the largest there is."""
    return math.copysign(math.inf, value) if abs(value) == largest else value


def draw(frame):
    alone = [decide(llr) for llr in frame.llrs]
    soft = [unbounded(value, CERTAIN) for value in frame.soft]
    shown = {
        "LLR": [unbounded(llr, LARGEST) for llr in frame.llrs],
        "soft": soft,
        "LLR + soft": [llr + value for llr, value in zip(frame.llrs, soft)],
    }
    parts, top = title(frame, alone) + legend(80), HEAD
    for name, values in shown.items():
        parts += panel(name, top, values, frame.word)
        top += HEIGHT + GAP
    for name, bits in (("sent", frame.word), ("LLR alone", alone), ("decoded", frame.hard)):
        parts += bit_row(name, top, bits, frame.word)
        top += ROW
    parts.append(text(LEFT + N * STEP / 2, top + 18, "position in the word", 13))
    size = f'width="{WIDTH}" height="{top + 30}"'
    head = f'<svg xmlns="http://www.w3.org/2000/svg" {size} font-family="sans-serif"><rect {size} fill="white"/>'
    return "\n".join([head] + parts + ["</svg>", ""])


def main():
    if len(sys.argv) != 3:
        sys.exit("usage: frame.py PATH-TO-libruznavo.so OUT.svg")
    frame = decode_frame(load(sys.argv[1]))
    with open(sys.argv[2], "w", encoding="utf-8") as file:
        file.write(draw(frame))
    sys.exit(0 if frame.right else 1)


main()
