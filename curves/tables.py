#!/usr/bin/env python3
"""tables.py CURVES.csv SCALE.csv FLIPS.csv SQUARE.csv: prints the measured tables of docs/CURVES.md in Markdown, from
what simulate, scale, flip and square wrote. tables.py SQUARE.csv: those of square frames alone."""
import csv
import math
import sys

SWEEPS = (1, 2, 4, 8)
CURVES = [("SC", 0)] + [(decoder, sweeps) for decoder in ("v/256", "v") for sweeps in SWEEPS]
RATES = (0.1, 0.01, 0.001)
SHOWN_SCALES = (1, 4, 16, 256, 1024, 4096, 16384)


def read_masks(path):
    """The rows of a file by mask."""
    masks = {}
    with open(path, newline="") as file:
        for row in csv.DictReader(file):
            masks.setdefault(row["mask"], []).append(row)
    return masks


def name(mask):
    rule, n, k = mask.split("-")
    return f"({n}, {k}) | {rule}"


def print_table(title, columns, rows):
    print(f"\n{title}\n\n| {' | '.join(columns)} |\n|{'---|' * ' | '.join(columns).count('|')}---|")
    for row in rows:
        print(f"| {' | '.join(row)} |")


def of_curve(rows, curve):
    return [row for row in rows if (row["decoder"], int(row["sweeps"])) == curve]


def crossing_of(points, rate):
    """Eb/N0 at which a curve of pairs of Eb/N0 and rate crosses a rate, on straight lines between points with the
    logarithm of the rate; None if it does not."""
    for (left, above), (right, below) in zip(points, points[1:]):
        if above >= rate > below > 0:
            return left + math.log(above / rate) / math.log(above / below) * (right - left)
    return None


def crossing(rows, rate):
    db = crossing_of([(float(row["ebn0_db"]), float(row["block_error_rate"])) for row in rows], rate)
    return "-" if db is None else f"{db:.2f}"


def crossings(masks):
    columns = ["code | mask", "rate", "SC"] + [f"{decoder}: {sweeps}" for decoder, sweeps in CURVES[1:]]
    rows = [
        [name(mask), f"{rate:g}"] + [crossing(of_curve(rows, curve), rate) for curve in CURVES]
        for mask, rows in masks.items()
        for rate in RATES
    ]
    print_table("Eb/N0 in dB at which a curve crosses a block error rate", columns, rows)


def nearest_point(rows, rate):
    """The Eb/N0 at which SCAN at v/256 and 1 sweep has a block error rate nearest to the rate."""
    points = [row for row in of_curve(rows, ("v/256", 1)) if float(row["block_error_rate"]) > 0]
    return min(points, key=lambda row: abs(math.log(float(row["block_error_rate"]) / rate)))["ebn0_db"]


def checks(masks):
    """Wrong blocks that pass the frozen check, and right blocks that fail it."""
    columns = ["code | mask", "Eb/N0"] + [f"wrong, passed: {s}" for s in SWEEPS]
    columns += [f"right, failed: {s}" for s in SWEEPS]
    table = []
    for mask, rows in masks.items():
        db = nearest_point(rows, 0.01)
        points = [row for s in SWEEPS for row in of_curve(rows, ("v/256", s)) if row["ebn0_db"] == db]
        passed = [f'{row["wrong_passed"]} of {row["block_errors"]}' for row in points]
        failed = [f'{row["right_failed"]} of {int(row["frames"]) - int(row["block_errors"])}' for row in points]
        table.append([name(mask), f"{float(db):g}"] + passed + failed)
    print_table("Frozen check at v/256, at the point nearest to a block error rate of 0.01", columns, table)


def percent(part, whole):
    share = 100 * part / whole
    return f"{share:.2g}%" if share >= 0.01 else "below 0.01%"


def largest(row):
    """The largest size of an LLR, with the share of LLRs that are clamped where any is."""
    clamped = int(row["clamped"])
    return row["largest"] + (f' ({percent(clamped, int(row["llrs"]))})' if clamped else "")


def scale_name(scale):
    return f"v/{scale}" if scale > 1 else "v"


def scale_heads(masks):
    """The first cells of each mask's line, and its rows by scale."""
    for mask, rows in masks.items():
        yield [name(mask), f'{float(rows[0]["ebn0_db"]):g}'], {int(row["scale"]): row for row in rows}


def scales(masks):
    names = [scale_name(scale) for scale in SHOWN_SCALES]
    errors, clamps = [], []
    for head, of in scale_heads(masks):
        errors.append(head + [of[0]["frames"], of[0]["block_errors"]] + [of[s]["block_errors"] for s in SHOWN_SCALES])
        clamps.append(head + [largest(of[s]) for s in SHOWN_SCALES])
    print_table("Block errors by scale, 1 sweep", ["code | mask", "Eb/N0", "frames", "not rounded"] + names, errors)
    print_table("Largest LLR and share of LLRs clamped", ["code | mask", "Eb/N0"] + names, clamps)


def undecided_by_scale(masks):
    """Blocks with an undecided bit, and how many blocks are in error."""
    names = ["not rounded"] + [scale_name(scale) for scale in SHOWN_SCALES]
    table = []
    for head, of in scale_heads(masks):
        cells = [f'{of[s]["undecided"]} of {of[s]["block_errors"]}' for s in (0,) + SHOWN_SCALES]
        table.append(head + [of[0]["frames"]] + cells)
    title = "Blocks with an undecided bit, of the blocks in error, by scale, 1 sweep"
    print_table(title, ["code | mask", "Eb/N0", "frames"] + names, table)


def undecided_by_sweeps(masks):
    """The same by sweeps, at v/256 and v."""
    columns = ["code | mask", "Eb/N0", "frames"] + [f"{decoder}: {sweeps}" for decoder, sweeps in CURVES[1:]]
    table = []
    for mask, rows in masks.items():
        db = nearest_point(rows, 0.01)
        points = [row for curve in CURVES[1:] for row in of_curve(rows, curve) if row["ebn0_db"] == db]
        cells = [f'{row["undecided"]} of {row["block_errors"]}' for row in points]
        table.append([name(mask), f"{float(db):g}", points[0]["frames"]] + cells)
    title = "The same by sweeps, at the point where v/256 at 1 sweep is nearest to a block error rate of 0.01"
    print_table(title, columns, table)


FLIP_CURVES = [("SCAN", "0"), ("flip", "0"), ("flip", "8"), ("flip", "31")]


def of_flips(rows, curve, sweeps):
    return [row for row in rows if (row["decoder"], row["attempts"]) == curve and row["sweeps"] == str(sweeps)]


def flips(masks):
    """Where SCAN and flip attempts cross a block error rate."""
    names = ["SCAN", "first pass", "8 attempts", "31 attempts"]
    table = [
        [name(mask), str(sweeps), f"{rate:g}"] + [crossing(of_flips(rows, curve, sweeps), rate) for curve in FLIP_CURVES]
        for mask, rows in masks.items()
        for sweeps in (1, 4)
        for rate in RATES
    ]
    print_table("Eb/N0 in dB at which SCAN and flip attempts cross a block error rate", ["code | mask", "sweeps", "rate"] + names, table)


def flip_costs(masks):
    """Passes of a frame, and wrong blocks that matched, at the point where SCAN at 1 sweep is nearest to 0.01."""
    columns = ["code | mask", "Eb/N0", "sweeps", "attempts", "frames", "block errors", "wrong and matched", "passes a frame"]
    table = []
    for mask, rows in masks.items():
        points = [row for row in of_flips(rows, FLIP_CURVES[0], 1) if float(row["block_error_rate"]) > 0]
        db = min(points, key=lambda row: abs(math.log(float(row["block_error_rate"]) / 0.01)))["ebn0_db"]
        for curve in FLIP_CURVES[2:]:
            for sweeps in (1, 4):
                row = next(row for row in of_flips(rows, curve, sweeps) if row["ebn0_db"] == db)
                cells = [row["frames"], row["block_errors"], row["wrong_matched"], f'{float(row["passes"]):.2f}']
                table.append([name(mask), f"{float(db):g}", str(sweeps), curve[1]] + cells)
    print_table("Flip attempts at the point where SCAN at 1 sweep is nearest to a block error rate of 0.01", columns, table)


HALF_ITERATIONS = ("1", "2", "3", "4", "5", "6", "7", "8", "12", "16")
GAIN_RATE = 0.001


def square_rate(row):
    """The bit error rate of square frames of N times N bits."""
    _, n, _ = row["mask"].split("-")
    return int(row["bit_errors"]) / (int(row["frames"]) * int(n) ** 2)


def squares(masks):
    """Bit error rates by half-iterations."""
    table = []
    for mask, rows in masks.items():
        for db in sorted({row["ebn0_db"] for row in rows}, key=float):
            of = {row["half_iterations"]: row for row in rows if row["ebn0_db"] == db}
            rates = [square_rate(of[h]) for h in HALF_ITERATIONS]
            cells = [f"{rate:.1e}" if rate > 0 else "0" for rate in rates]
            table.append([name(mask), f"{float(db):g}", of["1"]["frames"]] + cells)
    columns = ["code | mask", "Eb/N0", "frames"] + list(HALF_ITERATIONS)
    print_table("Bit error rate of square frames by half-iterations", columns, table)


def square_gains(masks):
    """Eb/N0 at which a bit error rate is reached after each number of half-iterations, and how much less that is than
    after the number before."""
    table = []
    for mask, rows in masks.items():
        found = []
        for h in HALF_ITERATIONS:
            points = [(float(row["ebn0_db"]), square_rate(row)) for row in rows if row["half_iterations"] == h]
            found.append(crossing_of(points, GAIN_RATE))
        gains = ["-" if None in (a, b) else f"{round(a - b, 2) + 0.0:.2f}" for a, b in zip(found, found[1:])]
        table.append([name(mask), "Eb/N0"] + ["-" if db is None else f"{db:.2f}" for db in found])
        table.append([name(mask), "gain", ""] + gains)
    title = f"Eb/N0 in dB at a bit error rate of {GAIN_RATE:g} by half-iterations, and the gain over the column before"
    print_table(title, ["code | mask", ""] + list(HALF_ITERATIONS), table)


def print_squares(path):
    masks = read_masks(path)
    squares(masks)
    square_gains(masks)


def main():
    if len(sys.argv) == 2:
        print_squares(sys.argv[1])
        return
    curves, by_scale = read_masks(sys.argv[1]), read_masks(sys.argv[2])
    points = [row for rows in curves.values() for row in of_curve(rows, CURVES[0])]
    frames, compared = (sum(int(row[key]) for row in points) for key in ("frames", "compared"))
    print(f"{frames} frames, compared with SCAN in {compared}")
    crossings(curves)
    scales(by_scale)
    undecided_by_scale(by_scale)
    undecided_by_sweeps(curves)
    checks(curves)
    of_attempts = read_masks(sys.argv[3])
    flips(of_attempts)
    flip_costs(of_attempts)
    print_squares(sys.argv[4])


main()
