"""The published worked examples for steel-reinforced bearings, judged here.

    published.py            prints the tables of docs/PUBLISHED_EXAMPLES.md
    published.py --check    fails where that document does not hold them

Two things are done with each example.  The formulas are evaluated at the
source's own dimensions, off our grid and in its own units, beside the numbers
that the source prints.  Then the example is entered in table fields, on the
grid values on either side, and judged.
"""

import sys
from fractions import Fraction
from pathlib import Path
from typing import NamedTuple

import judge
from articles import (Case, RectangularBearing, buckling, compression, live_stress,
                      rotation, rubber_height, shape_factor, steel, total_stress,
                      uplift)

DOCUMENT = Path(__file__).resolve().parent.parent / "docs" / "PUBLISHED_EXAMPLES.md"

GUIDE = "Guide"
NEVADA = "Nevada"
TEXAS = "Texas"


# --------------------------------------------------------------------------
# The formulas at the sources' own dimensions.
# --------------------------------------------------------------------------

MILLIMETRES_PER_INCH = Fraction("25.4")
NEWTONS_PER_POUND = Fraction("4.4482216152605")
MEGAPASCALS_PER_PSI = NEWTONS_PER_POUND / MILLIMETRES_PER_INCH ** 2


def off_grid_bearing(length, width, layers, layer, cover, steel_thickness,
                     shear_modulus, yield_strength):
    """A bearing in inches and psi whose fields are fractions.

    The formulas take any fraction; only the limits ask for whole numbers.
    """
    return RectangularBearing(
        Fraction(length) * 2, Fraction(width) * 2, layers, Fraction(layer) * 16,
        Fraction(cover) * 16, Fraction(steel_thickness) * 64,
        Fraction(shear_modulus), Fraction(yield_strength) / 1_000)


def metric_bearing(length, width, layers, layer, shear_modulus):
    """The Guide's bearing, from millimetres and MPa, covers not counted."""
    return off_grid_bearing(
        length / MILLIMETRES_PER_INCH, width / MILLIMETRES_PER_INCH, layers,
        layer / MILLIMETRES_PER_INCH, 0, 2 / MILLIMETRES_PER_INCH,
        Fraction(shear_modulus) / MEGAPASCALS_PER_PSI,
        250 / MEGAPASCALS_PER_PSI)


def in_megapascals(stress):
    return stress * MEGAPASCALS_PER_PSI


def in_millimetres(inches):
    return inches * MILLIMETRES_PER_INCH


def rounded(value, places):
    return f"{float(round(Fraction(value), places)):.{places}f}"


def reproduced():
    """Rows (source, quantity, what it prints, what the formula gives)."""
    rows = []

    def row(source, quantity, printed, value, places, unit):
        # Where the source prints no number there is a word in its place.
        shown = f"{printed} {unit}".strip() if printed[0].isdigit() else printed
        rows.append((source, quantity, shown, f"{rounded(value, places)} {unit}".strip()))

    dead = Fraction(2_400_000) / NEWTONS_PER_POUND
    live = Fraction(1_200_000) / NEWTONS_PER_POUND
    case = Case(dead, live, 0, 150, 0, 0, 1)
    soft = metric_bearing(475, 725, 14, 15, "0.7")
    hard = metric_bearing(475, 725, 14, 15, "0.91")
    tall = soft._replace(layers=20)
    row(GUIDE, "S", "9.57", shape_factor(soft), 2, "")
    row(GUIDE, "T", "10.45", in_megapascals(total_stress(soft, case)), 2, "MPa")
    row(GUIDE, "V", "3.48", in_megapascals(live_stress(soft, case)), 2, "MPa")
    row(GUIDE, "1.66GS, G 0.7 MPa", "11.1",
        in_megapascals(compression(soft, case)[1][1]), 1, "MPa")
    row(GUIDE, "0.66GS, G 0.7 MPa", "4.42",
        in_megapascals(compression(soft, case)[2][1]), 2, "MPa")
    row(GUIDE, "GSq, 14 layers, G 0.91 MPa", "9.36",
        in_megapascals(uplift(hard, case)[0][0]), 2, "MPa")
    row(GUIDE, "1.875GS(1 − 0.20q), 14 layers", "9.86",
        in_megapascals(rotation(soft, case)[0][1]), 2, "MPa")
    row(GUIDE, "1.875GS(1 − 0.20q), 20 layers", "satisfied",
        in_megapascals(rotation(tall, case)[0][1]), 2, "MPa")
    left, right = buckling(tall, case)[0]
    row(GUIDE, "greatest T by buckling along the bridge, 20 layers", "11.17",
        in_megapascals(right / (left / total_stress(tall, case))), 2, "MPa")
    row(GUIDE, "3hT/F", "1.88", in_millimetres(steel(soft, case)[0][0]), 2, "mm")
    row(GUIDE, "2hV/24,000 (the Guide has 165 MPa)", "0.63",
        in_millimetres(steel(soft, case)[1][0]), 2, "mm")
    sliding = soft._replace(layers=7)
    row(GUIDE, "1.875GS(1 − 0.20q), 7 layers, 0.005 rad", "10.76",
        in_megapascals(rotation(sliding, case._replace(rotation_x=50))[0][1]), 2, "MPa")

    nevada = off_grid_bearing(15, 15, 8, "0.419", "0.25", "0.0747", 95, 36_000)
    nevada_case = Case(78_400, 92_000, 75, 121, 0, 1, 1)
    row(NEVADA, "S", "8.95", shape_factor(nevada), 2, "")
    row(NEVADA, "T", "0.76", total_stress(nevada, nevada_case) / 1_000, 2, "ksi")
    row(NEVADA, "V", "0.41", live_stress(nevada, nevada_case) / 1_000, 2, "ksi")
    row(NEVADA, "H", "3.85", rubber_height(nevada), 2, "in")
    row(NEVADA, "3hT/F", "0.0265", steel(nevada, nevada_case)[0][0], 4, "in")
    row(NEVADA, "2hV/24,000", "0.0143", steel(nevada, nevada_case)[1][0], 4, "in")
    # Its rotation article has 0.5 for our 1 and counts the covers as one layer.
    ours = uplift(nevada, nevada_case)[0][0]
    row(NEVADA, "0.5GS(L/h)²θ/9 (ours times 0.5 · 8/9)", "0.73",
        ours * Fraction(1, 2) * Fraction(8, 9) / 1_000, 2, "ksi")
    row(NEVADA, "GSq, n 8 (ours)", "none", ours / 1_000, 2, "ksi")

    def texas(length, width, layer):
        # Shape factors from its millimetres, stresses from its inches.
        return off_grid_bearing(length / MILLIMETRES_PER_INCH, width / MILLIMETRES_PER_INCH,
                                1, layer / MILLIMETRES_PER_INCH, 0, 1, 90, 40_000)

    def dead_stress(length, width):
        return total_stress(off_grid_bearing(length, width, 1, 1, 0, 1, 90, 40_000),
                            Case(120_000, 0, 0, 0, 0, 1, 1))

    row(TEXAS, "T under dead load, Example 1", "741", dead_stress(9, 18), 0, "psi")
    row(TEXAS, "T with 100 psi of live load, Example 1", "841",
        dead_stress(9, 18) + 100, 0, "psi")
    row(TEXAS, "S, Example 1", "9.96",
        shape_factor(texas(229, 458, Fraction(46, 6))), 2, "")
    row(TEXAS, "S, Example 2, first trial", "10.2",
        shape_factor(texas(229, 457, Fraction(60, 8))), 1, "")
    row(TEXAS, "T under dead load, Example 2, second trial", "667",
        dead_stress(10, 18), 0, "psi")
    row(TEXAS, "S, Example 2, second trial", "9.86",
        shape_factor(texas(254, 458, Fraction(58, 7))), 2, "")
    row(TEXAS, "T under dead load, Example 2, final", "706", dead_stress(10, 17), 0, "psi")
    row(TEXAS, "S, Example 2, final", "9.49",
        shape_factor(texas(254, 432, Fraction(59, 7))), 2, "")
    return rows


# --------------------------------------------------------------------------
# The examples in table fields.
# --------------------------------------------------------------------------

class Entry(NamedTuple):
    example: str
    choice: str        # which grid values and marks were taken
    line: str          # as typed into the program
    source_says: str
    why: str           # letter of the note in the document, or "" where alike


ENTRIES = [
    # Guide: 19 in by 29 in, layers of 15 mm, no covers given, 0.08 in steel.
    Entry("Guide, 14 layers", "h 9/16, G 100, deck 0",
          "R 38 58 14 9 1 5 100 36 540000 270000 400 150 0 0 1",
          "rotation not good, others good", ""),
    Entry("Guide, 14 layers", "h 10/16, G 100, deck 0",
          "R 38 58 14 10 1 5 100 36 540000 270000 400 150 0 0 1",
          "rotation not good, others good", ""),
    Entry("Guide, 14 layers", "h 9/16, G 130, deck 0",
          "R 38 58 14 9 1 5 130 36 540000 270000 400 150 0 0 1",
          "uplift good (G 130 is for that only)", "a"),
    Entry("Guide, 14 layers", "h 10/16, G 130, deck 0",
          "R 38 58 14 10 1 5 130 36 540000 270000 400 150 0 0 1",
          "uplift good (G 130 is for that only)", ""),
    Entry("Guide, 20 layers", "h 9/16, G 100, deck 0",
          "R 38 58 20 9 1 5 100 36 540000 270000 400 150 0 0 1",
          "all good", ""),
    Entry("Guide, 20 layers", "h 10/16, G 100, deck 0",
          "R 38 58 20 10 1 5 100 36 540000 270000 400 150 0 0 1",
          "all good", "b"),
    Entry("Guide, 20 layers", "h 10/16, G 100, deck 0, 3 mm steel",
          "R 38 58 20 10 1 8 100 36 540000 270000 400 150 0 0 1",
          "all good", "b"),
    Entry("Guide, 20 layers", "h 9/16, G 130, deck 0",
          "R 38 58 20 9 1 5 130 36 540000 270000 400 150 0 0 1",
          "all good", ""),
    Entry("Guide, 20 layers", "h 9/16, G 100, deck 1",
          "R 38 58 20 9 1 5 100 36 540000 270000 400 150 0 1 1",
          "all good, free only across the bridge", "c"),
    Entry("Guide, sliding, 7 layers", "h 9/16, G 100, deck 0",
          "R 38 58 7 9 1 5 100 36 540000 270000 200 50 0 0 1",
          "7 layers adequate", ""),
    Entry("Guide, sliding, 7 layers", "h 10/16, G 100, deck 0",
          "R 38 58 7 10 1 5 100 36 540000 270000 200 50 0 0 1",
          "7 layers adequate", ""),
    # Nevada: 15 in square, 8 layers of 0.419 in, covers 0.25 in.
    Entry("Nevada", "h 6/16, s 4/64, deck 1",
          "R 30 30 8 6 4 4 95 36 78400 92000 75 121 0 1 1",
          "all good", "d"),
    Entry("Nevada", "h 7/16, s 4/64, deck 1",
          "R 30 30 8 7 4 4 95 36 78400 92000 75 121 0 1 1",
          "all good", "d"),
    Entry("Nevada", "h 7/16, s 5/64, deck 0",
          "R 30 30 8 7 4 5 95 36 78400 92000 75 121 0 0 1",
          "all good", "d"),
    Entry("Nevada", "h 7/16, s 5/64, deck 1, rotation reduced to 0.0063",
          "R 30 30 8 7 4 5 95 36 78400 92000 75 63 0 1 1",
          "(not in the source)", ""),
    Entry("Nevada", "the same, 0.0064",
          "R 30 30 8 7 4 5 95 36 78400 92000 75 64 0 1 1",
          "(not in the source)", ""),
    # Texas: dead load 120 kips; live load 100 psi as in its comparison.
    Entry("Texas 1", "as drawn: n 4, h 5/16, covers 5/16",
          "R 18 36 4 5 5 6 90 40 120000 16200 90 30 0 1 1",
          "all good", "e"),
    Entry("Texas 1", "covers cut to 3/16",
          "R 18 36 4 5 3 6 90 40 120000 16200 90 30 0 1 1",
          "all good", "e"),
    Entry("Texas 1", "covers 3/16, one layer more",
          "R 18 36 5 5 3 6 90 40 120000 16200 90 30 0 1 1",
          "all good", ""),
    Entry("Texas 1 by AASHTO 1992", "as drawn: n 5, h 4/16, covers 4/16",
          "R 18 36 5 4 4 6 90 40 120000 16200 90 30 0 1 1",
          "all good", "e"),
    Entry("Texas 1 by AASHTO 1992", "n 5, h 5/16, covers 3/16, its rotation limits",
          "R 18 36 5 5 3 6 90 40 120000 16200 90 74 37 1 1",
          "rotations 0.0074 and 0.0037 just allowed", "f"),
    Entry("Texas 2, first trial", "flat, n 6, h 5/16, covers 3/16",
          "R 18 36 6 5 3 6 90 40 120000 16200 117 130 0 1 1",
          "higher than L/3, not good", "g"),
    Entry("Texas 2, second trial", "flat, n 5, h 5/16, covers 3/16",
          "R 20 36 5 5 3 6 90 40 120000 18000 114 130 0 1 1",
          "all good", "h"),
    Entry("Texas 2, second trial", "flat, n 5, h 6/16, covers 4/16",
          "R 20 36 5 6 4 6 90 40 120000 18000 114 130 0 1 1",
          "all good", "h"),
    Entry("Texas 2, final", "flat, n 5, h 5/16, covers 3/16",
          "R 20 34 5 5 3 6 90 40 120000 17000 116 130 0 1 1",
          "all good", "h"),
    Entry("Texas 2, final", "flat, n 5, h 6/16, covers 4/16",
          "R 20 34 5 6 4 6 90 40 120000 17000 116 130 0 1 1",
          "all good", "h"),
    Entry("Texas 2, final", "the same, mismatch of its own taper only",
          "R 20 34 5 6 4 6 90 40 120000 17000 116 55 0 1 1",
          "all good", ""),
]


def lines():
    return [entry.line for entry in ENTRIES]


def verdict_in_words(line):
    given = judge.answer(line.encode())
    if not given.startswith("verdict"):
        return given.split(":")[0] + " (field " + given.split("field ")[1].split()[0] + ")"
    number = given.split(":")[0].split()[1]
    failed = [part.split()[0] for part in given.split(": ")[1].split(", ")
              if part.endswith("violated")]
    return f"{number}: " + (", ".join(failed) + " violated" if failed else "all held")


def table(head, rows):
    out = ["| " + " | ".join(head) + " |", "|" + "---|" * len(head)]
    out += ["| " + " | ".join(row) + " |" for row in rows]
    return "\n".join(out) + "\n"


def tables():
    numbers = table(("source", "quantity", "printed", "by our formula"), reproduced())
    verdicts = table(
        ("example", "entered with", "line", "our verdict", "the source says", "note"),
        [(entry.example, entry.choice, f"`{entry.line}`", verdict_in_words(entry.line),
          entry.source_says, entry.why) for entry in ENTRIES])
    return numbers, verdicts


def main(arguments):
    if arguments not in ([], ["--check"]):
        print(__doc__, file=sys.stderr)
        return 2
    if not arguments:
        print("\n".join(tables()))
        return 0
    text = DOCUMENT.read_text(encoding="utf-8") if DOCUMENT.is_file() else ""
    faulty = False
    for name, wanted in zip(("numbers", "verdicts"), tables()):
        if wanted not in text:
            print(f"docs/PUBLISHED_EXAMPLES.md does not hold the table of {name}")
            for line in wanted.splitlines():
                if line not in text:
                    print("  " + line)
            faulty = True
    return 1 if faulty else 0


if __name__ == "__main__":
    sys.exit(main(sys.argv[1:]))
