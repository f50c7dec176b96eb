#!/usr/bin/env python3
"""plot.py errors OUT.svg RULE IN.csv: block and bit error rates that simulate wrote, of the masks of one rule.
plot.py scale OUT.svg IN.csv: block error rates by the scale of the LLRs that scale wrote.
plot.py flips OUT.svg IN.csv: block error rates of SCAN and of flip attempts that flip wrote.
plot.py square OUT.svg IN.csv: bit and block error rates of square frames by half-iterations that square wrote.

The first has a row for each code, with the block errors and their 95% confidence ranges on the left and the bit errors
on the right. The second has a panel for each rule that occurs, the third one for each code. The fourth has a row for
each mask, with the bit errors on the left and the block errors on the right. A mask is named RULE-N-K.
"""
import csv
import math
import sys

# Colours of Okabe and Ito, which colour-blind readers can tell apart; each curve has its own marker too.
BLACK, BLUE, ORANGE, GREEN, RED, PURPLE = "#000000", "#0072B2", "#E69F00", "#009E73", "#D55E00", "#CC79A7"
SKY = "#56B4E9"
COLOURS = {0: BLACK, 1: BLUE, 2: ORANGE, 4: GREEN, 8: RED}  # by sweeps; SC has 0
MARKERS = {0: "cross", 1: "circle", 2: "square", 4: "triangle", 8: "diamond"}
DASH = ' stroke-dasharray="6 4"'
RULES = {"erasure": "erasure rates", "polarization": "polarization weight", "rows": "row weight"}
WIDTH, HEIGHT = 440, 330  # of a panel
LEFT, RIGHT, TOP, BOTTOM = 64, 14, 34, 46  # margins inside a panel
HEAD = 84


def read_rows(path):
    with open(path, newline="") as file:
        return list(csv.DictReader(file))


def rule_of(row):
    return row["mask"].split("-")[0]


def name_of(row):
    return f'({row["n"]}, {row["k"]})'


class Panel:
    """Places a point of one panel on the page: x from `low_x` to `high_x`, rates from 10**low to 1."""

    def __init__(self, x, y, xs, rates):
        self.x, self.y = x, y
        margin = 0.03 * (max(xs) - min(xs))
        self.low_x, self.high_x = min(xs) - margin, max(xs) + margin
        least = math.log10(min(rate for rate in rates if rate > 0)) - 0.1
        decade = math.floor(least)
        self.low = max(decade + math.log10(step) for step in (1, 2, 5) if decade + math.log10(step) <= least)
        self.left, self.right = x + LEFT, x + WIDTH - RIGHT
        self.top, self.bottom = y + TOP, y + HEIGHT - BOTTOM

    def at_x(self, value):
        return self.left + (value - self.low_x) / (self.high_x - self.low_x) * (self.right - self.left)

    def at_rate(self, rate):
        return self.top + math.log10(max(rate, 10.0**self.low)) / self.low * (self.bottom - self.top)


def text(x, y, words, size=12, anchor="middle", extra=""):
    return f'<text x="{x:.1f}" y="{y:.1f}" font-size="{size}" text-anchor="{anchor}"{extra}>{words}</text>'


def line(x1, y1, x2, y2, colour, extra=""):
    return f'<line x1="{x1:.1f}" y1="{y1:.1f}" x2="{x2:.1f}" y2="{y2:.1f}" stroke="{colour}"{extra}/>'


def marker(x, y, shape, colour, filled=True):
    style = f'fill="{colour if filled else "white"}" stroke="{colour}" stroke-width="1.3"'
    if shape == "circle":
        return f'<circle cx="{x:.1f}" cy="{y:.1f}" r="2.8" {style}/>'
    if shape == "cross":
        path = f"M{x - 3:.1f},{y - 3:.1f} l6,6 m0,-6 l-6,6"
        return f'<path d="{path}" fill="none" stroke="{colour}" stroke-width="1.5"/>'
    corners = {
        "square": ((-2.5, -2.5), (2.5, -2.5), (2.5, 2.5), (-2.5, 2.5)),
        "triangle": ((0, -3.3), (3.1, 2.5), (-3.1, 2.5)),
        "diamond": ((0, -3.6), (3.6, 0), (0, 3.6), (-3.6, 0)),
    }[shape]
    return f'<polygon points="{" ".join(f"{x + a:.1f},{y + b:.1f}" for a, b in corners)}" {style}/>'


def axes(panel, title, x_label, y_label, ticks):
    """The frame of a panel; ticks are pairs of a value of x and its words."""
    middle = (panel.left + panel.right) / 2
    parts = [text(middle, panel.y + 20, title, 13)]
    for exponent in range(math.ceil(panel.low), 1):
        y = panel.at_rate(10.0**exponent)
        parts.append(line(panel.left, y, panel.right, y, "#cccccc"))
        power = f'10<tspan dy="-5" font-size="9">{exponent}</tspan>' if exponent else "1"
        parts.append(text(panel.left - 7, y + 4, power, 12, "end"))
    for value, words in ticks:
        x = panel.at_x(value)
        parts.append(line(x, panel.top, x, panel.bottom, "#e6e6e6"))
        parts.append(text(x, panel.bottom + 17, words))
    size = f'width="{panel.right - panel.left}" height="{panel.bottom - panel.top}"'
    parts.append(f'<rect x="{panel.left}" y="{panel.top}" {size} fill="none" stroke="#333333"/>')
    parts.append(text(middle, panel.bottom + 36, x_label))
    x, y = panel.x + 16, (panel.top + panel.bottom) / 2
    return parts + [text(x, y, y_label, extra=f' transform="rotate(-90 {x:.1f} {y:.1f})"')]


def draw_curve(panel, points, shape, colour, dashed=False):
    """A curve through pairs of x and rate; a rate of 0 has no place on it."""
    places = [(panel.at_x(x), panel.at_rate(rate)) for x, rate in sorted(points) if rate > 0]
    path = " ".join(f"{x:.1f},{y:.1f}" for x, y in places)
    style = f'fill="none" stroke="{colour}" stroke-width="1.5"{DASH if dashed else ""}'
    parts = [f'<polyline points="{path}" {style}/>']
    return parts + [marker(x, y, shape, colour, not dashed) for x, y in places]


def page(width, height, parts):
    size = f'width="{width}" height="{height}"'
    head = f'<svg xmlns="http://www.w3.org/2000/svg" {size} viewBox="0 0 {width} {height}" font-family="sans-serif">'
    return "\n".join([head, f'<rect {size} fill="white"/>'] + parts + ["</svg>", ""])


# ---- Error rates by Eb/N0


def block_rate(row):
    return float(row["block_error_rate"])


def bit_rate(row):
    return int(row["bit_errors"]) / int(row["bits"])


def is_drawn(row):
    """At v only the least and the largest number of sweeps are drawn."""
    return row["decoder"] != "v" or row["sweeps"] in ("1", "8")


def confidence_bars(panel, rows, colour):
    parts = []
    for row in rows:
        x = panel.at_x(float(row["ebn0_db"]))
        low, high = panel.at_rate(float(row["low_95"])), panel.at_rate(float(row["high_95"]))
        if block_rate(row) > 0:
            parts.append(line(x, low, x, high, colour, ' stroke-width="1"'))
    return parts


def error_panel(x, y, title, rows, rate, y_label):
    dbs = sorted({float(row["ebn0_db"]) for row in rows})
    panel = Panel(x, y, dbs, [rate(row) for row in rows])
    parts = axes(panel, title, "Eb/N0 (dB)", y_label, [(db, f"{db:g}") for db in dbs])
    curves = {}
    for row in rows:
        curves.setdefault((row["decoder"], int(row["sweeps"])), []).append(row)
    for (decoder, sweeps), points in curves.items():
        colour = COLOURS[sweeps]
        if rate is block_rate:
            parts += confidence_bars(panel, points, colour)
        pairs = [(float(row["ebn0_db"]), rate(row)) for row in points]
        parts += draw_curve(panel, pairs, MARKERS[sweeps], colour, decoder == "v")
    return parts


def error_legend():
    parts, x = [], LEFT
    names = {0: "successive cancellation (float)", 1: "SCAN, 1 sweep", 2: "2 sweeps", 4: "4 sweeps", 8: "8 sweeps"}
    for sweeps, name in names.items():
        parts += [line(x, 44, x + 34, 44, COLOURS[sweeps], ' stroke-width="1.6"')]
        parts += [marker(x + 17, 44, MARKERS[sweeps], COLOURS[sweeps]), text(x + 42, 48, name, 12, "start")]
        x += 250 if sweeps == 0 else 150 if sweeps == 1 else 120
    for x, name, extra in ((LEFT, "SCAN with LLRs at v / 256", ""), (LEFT + 250, "at v, 1 and 8 sweeps", DASH)):
        parts.append(line(x, 66, x + 34, 66, "#333333", f' stroke-width="1.6"{extra}'))
        parts.append(text(x + 42, 70, name, 12, "start"))
    return parts


def draw_errors(rows):
    codes = {}
    for row in rows:
        codes.setdefault(row["mask"], []).append(row)
    title = "Block error rate with its 95% range (left), payload bit error rate (right); BPSK with Gaussian noise"
    parts = [text(LEFT, 22, title, 14, "start")] + error_legend()
    for index, code_rows in enumerate(codes.values()):
        code_rows = [row for row in code_rows if is_drawn(row)]
        first, y = code_rows[0], HEAD + index * HEIGHT
        name = f"{name_of(first)}, mask by {RULES.get(rule_of(first), rule_of(first))}"
        parts += error_panel(0, y, f"{name}: blocks", code_rows, block_rate, "block error rate")
        parts += error_panel(WIDTH, y, f"{name}: bits", code_rows, bit_rate, "bit error rate")
    return page(2 * WIDTH, HEAD + len(codes) * HEIGHT, parts)


# ---- Block errors by scale

# By K; all codes have N = 1024.
CODE_STYLES = {
    "1": ("cross", PURPLE),
    "64": ("circle", BLUE),
    "128": ("square", ORANGE),
    "512": ("triangle", GREEN),
    "896": ("diamond", RED),
}
LINES = 22  # height of a line of the scale's legend


def scale_rate(row):
    return int(row["block_errors"]) / int(row["frames"])


def scale_panel(x, y, rule, rows):
    codes = {}
    for row in rows:
        codes.setdefault(row["mask"], []).append(row)
    exponents = sorted({math.log2(int(row["scale"])) for row in rows if row["scale"] != "0"})
    panel = Panel(x, y, exponents, [scale_rate(row) for row in rows])
    ticks = [(e, str(2 ** int(e))) for e in exponents]
    parts = axes(panel, f"Masks by {RULES[rule]}", "the noise variance v is divided by", "block error rate", ticks)
    for index, code_rows in enumerate(codes.values()):
        shape, colour = CODE_STYLES[code_rows[0]["k"]]
        scaled = [(math.log2(int(row["scale"])), scale_rate(row)) for row in code_rows if row["scale"] != "0"]
        level = panel.at_rate(next(scale_rate(row) for row in code_rows if row["scale"] == "0"))
        parts.append(line(panel.left, level, panel.right, level, colour, DASH))
        parts += draw_curve(panel, scaled, shape, colour)
        below, first = y + HEIGHT + 6 + index * LINES, code_rows[0]
        parts += draw_key(panel.left, below, shape, colour, f'{name_of(first)} at {float(first["ebn0_db"]):g} dB')
    return parts


def draw_key(x, y, shape, colour, words):
    parts = [line(x, y, x + 34, y, colour, ' stroke-width="1.6"'), marker(x + 17, y, shape, colour)]
    return parts + [text(x + 42, y + 4, words, 12, "start")]


def draw_scales(rows):
    title = "Block error rate by the scale of the LLRs, 1 sweep; dashed: floating-point SCAN, LLRs not rounded"
    parts = [text(LEFT, 22, title, 14, "start")]
    rules = [rule for rule in RULES if any(rule_of(row) == rule for row in rows)]
    for index, rule in enumerate(rules):
        parts += scale_panel(index * WIDTH, 36, rule, [row for row in rows if rule_of(row) == rule])
    return page(len(rules) * WIDTH, 36 + HEIGHT + len(CODE_STYLES) * LINES + 10, parts)


# ---- Flip attempts

# By decoder, attempts allowed and sweeps; others are not drawn.
FLIP_STYLES = {
    ("SCAN", "0", "1"): ("circle", BLUE, False, "SCAN, 1 sweep"),
    ("SCAN", "0", "4"): ("triangle", GREEN, False, "SCAN, 4 sweeps"),
    ("flip", "0", "1"): ("cross", BLACK, False, "first pass, 1 sweep"),
    ("flip", "8", "1"): ("square", ORANGE, False, "8 attempts"),
    ("flip", "31", "1"): ("diamond", RED, False, "31 attempts"),
    ("flip", "31", "4"): ("diamond", RED, True, "31 attempts, 4 sweeps"),
}


def flip_panel(x, y, rows):
    dbs = sorted({float(row["ebn0_db"]) for row in rows})
    panel = Panel(x, y, dbs, [block_rate(row) for row in rows])
    title = f"{name_of(rows[0])}, mask by {RULES[rule_of(rows[0])]}"
    parts = axes(panel, title, "Eb/N0 (dB)", "block error rate", [(db, f"{db:g}") for db in dbs])
    for key, (shape, colour, dashed, _) in FLIP_STYLES.items():
        points = [row for row in rows if (row["decoder"], row["attempts"], row["sweeps"]) == key]
        parts += confidence_bars(panel, points, colour)
        parts += draw_curve(panel, [(float(row["ebn0_db"]), block_rate(row)) for row in points], shape, colour, dashed)
    return parts


def draw_flips(rows):
    title = "Block error rate with its 95% range: SCAN, and flip attempts with 8 of the bits sent as a CRC"
    parts = [text(LEFT, 22, title, 14, "start")]
    for index, (shape, colour, dashed, words) in enumerate(FLIP_STYLES.values()):
        x, y = LEFT + index * 210, 48
        parts.append(line(x, y, x + 34, y, colour, f' stroke-width="1.6"{DASH if dashed else ""}'))
        parts += [marker(x + 17, y, shape, colour, not dashed), text(x + 42, y + 4, words, 12, "start")]
    codes = {}
    for row in rows:
        codes.setdefault(row["mask"], []).append(row)
    for index, code_rows in enumerate(codes.values()):
        parts += flip_panel(index * WIDTH, 62, code_rows)
    return page(len(codes) * WIDTH, 62 + HEIGHT, parts)


# ---- Square frames

# By half-iterations; others are not drawn.
SQUARE_STYLES = {
    "1": ("cross", BLACK),
    "2": ("circle", BLUE),
    "3": ("square", SKY),
    "4": ("triangle", GREEN),
    "6": ("square", ORANGE),
    "8": ("diamond", RED),
    "16": ("circle", PURPLE),
}


def square_block_rate(row):
    return int(row["block_errors"]) / int(row["frames"])


def square_bit_rate(row):
    _, n, _ = row["mask"].split("-")
    return int(row["bit_errors"]) / (int(row["frames"]) * int(n) ** 2)


def square_panel(x, y, title, rows, rate, y_label):
    dbs = sorted({float(row["ebn0_db"]) for row in rows})
    panel = Panel(x, y, dbs, [rate(row) for row in rows])
    parts = axes(panel, title, "Eb/N0 (dB)", y_label, [(db, f"{db:g}") for db in dbs])
    for half_iterations, (shape, colour) in SQUARE_STYLES.items():
        points = [row for row in rows if row["half_iterations"] == half_iterations]
        parts += draw_curve(panel, [(float(row["ebn0_db"]), rate(row)) for row in points], shape, colour)
    return parts


def draw_squares(rows):
    title = "Square frames by half-iterations: bit error rate of the word (left), block error rate (right)"
    parts = [text(LEFT, 22, title, 14, "start")]
    for index, (half_iterations, (shape, colour)) in enumerate(SQUARE_STYLES.items()):
        words = f"{half_iterations} half-iteration" if half_iterations == "1" else half_iterations
        parts += draw_key(LEFT + (index and 60 + index * 90), 48, shape, colour, words)
    masks = {}
    for row in rows:
        masks.setdefault(row["mask"], []).append(row)
    for index, (mask, mask_rows) in enumerate(masks.items()):
        rule, n, k = mask.split("-")
        name, y = f"({n}, {k}), mask by {RULES[rule]}", 62 + index * HEIGHT
        parts += square_panel(0, y, f"{name}: bits", mask_rows, square_bit_rate, "bit error rate")
        parts += square_panel(WIDTH, y, f"{name}: blocks", mask_rows, square_block_rate, "block error rate")
    return page(2 * WIDTH, 62 + len(masks) * HEIGHT, parts)


def main():
    words = sys.argv[1:]
    if len(words) == 4 and words[0] == "errors":
        picture = draw_errors([row for row in read_rows(words[3]) if rule_of(row) == words[2]])
    elif len(words) == 3 and words[0] == "scale":
        picture = draw_scales(read_rows(words[2]))
    elif len(words) == 3 and words[0] == "flips":
        picture = draw_flips(read_rows(words[2]))
    elif len(words) == 3 and words[0] == "square":
        picture = draw_squares(read_rows(words[2]))
    else:
        sys.exit("usage: plot.py errors OUT.svg RULE IN.csv | plot.py scale|flips|square OUT.svg IN.csv")
    with open(words[1], "w") as file:
        file.write(picture)


main()
