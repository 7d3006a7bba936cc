"""Checks the second program against itself and against set answers.

- The worked cases give the verdicts that hold by the formulas.
- Short inputs of `shelfday` give set outputs, among them those that the stored
  input cannot hold, as they are about its beginning.
- Over thousands of bearings and cases within the limits, drawn from a fixed
  seed and brought near the edge of buckling: where the whole-number article
  holds the exact one does; where the exact one holds with 1.02 X the
  whole-number one does.
"""

import random
import sys
from fractions import Fraction

import articles
import shelfday
from articles import Case, CircularBearing, PlainPad, RectangularBearing
from judge import answers
from worked_cases import WORKED_CASES

SEED = 14_2000
DRAWS = 4_000


def check_worked_cases():
    for line, expected in WORKED_CASES:
        found = answers(line.encode())
        if not found.startswith(f"verdict {expected}:".encode()):
            raise AssertionError((line, expected, found))
    bearing = RectangularBearing(20, 40, 5, 8, 4, 8, 100, 36)
    case = Case(100_000, 88_000, 150, 155, 0, 1, 1)
    assert articles.slenderness_whole(bearing, case) == 122_207
    assert articles.stiffening_whole(bearing) == 41_076
    assert articles.height_in_sixty_fourths(bearing) == 4 * (5 * 8 + 2 * 4) + 6 * 8
    assert articles.plan_number(bearing) == 452 * 20 * 40
    circle = CircularBearing(32, 5, 8, 4, 8, 100, 36)
    assert articles.plan_number(circle) == 355 * 32 * 32
    assert articles.height_in_sixty_fourths(PlainPad(20, 40, 8, 100)) == 32


SHELF_DAYS = [
    (b"", b""),
    (b"\n", b"no shelf: line 1, word 1 is missing\n"),
    (b"pad 7", b"no shelf: line 1, word 1 is no kind\n"),
    # Lines in front of the first opening, readable or not.
    (b"places\nplace x\nP 20 40 8 100", b"no shelf: line 1 is out of order\n"),
    (b"place x\nplaces", b"no shelf: line 1, word 2 is not a number\n"),
    (b"pads x\nplaces\npads 7\nP 20 40 8 100\nplaces",
     b"no shelf: line 1, word 2 is not a number\n"
     b"opened: shelf 7, 1 places\nplaces: 1, shelf 7\n"),
    (b"\n\nrange 0", b"no shelf: line 1, word 1 is missing\n"
                       b"refused 3: the shelf number is 0\n"),
    # The two bearings of equal height, with the circle in front.
    (b"bearings 7\nC 32 5 8 4 8 100 36\nR 20 40 5 8 4 8 100 36\n"
     b"receive 0 1\nreceive 1 1\n" + b"pick 80000 40000 100 0 0 1 1\n" * 3,
     b"opened: shelf 7, 2 places\ndone\ndone\nslip: shelf 7, place 1\n"
     b"slip: shelf 7, place 0\nrefused 8: no item on hand passes\n"),
]


def check_shelf_days():
    for given, expected in SHELF_DAYS:
        found = shelfday.answers(given)
        if found != expected:
            raise AssertionError((given, expected, found))


def random_bearing(draw):
    layer = draw.randint(4, 16)
    rest = (draw.randint(1, 20), layer,
            draw.randint(1, 7 * layer // 10), draw.randint(1, 32),
            draw.randint(80, 180), draw.randint(30, 100))
    if draw.random() < 0.3:
        return CircularBearing(draw.randint(8, 80), *rest)
    return RectangularBearing(draw.randint(8, 80), draw.randint(8, 80), *rest)


def check_buckling():
    """Counts the cases in which each side of the two claims was met."""
    draw = random.Random(SEED)
    counts = {"whole holds": 0, "whole fails": 0, "exact holds with 1.02 X": 0,
              "between": 0}
    for _ in range(DRAWS):
        bearing = random_bearing(draw)
        deck = draw.randint(0, 1)
        probe = Case(1, 0, 0, 0, 0, deck, draw.randint(0, 1))
        (left, right), = articles.buckling(bearing, probe)
        edge = right / left if left > 0 else Fraction(2_000_000)
        loads = {draw.randint(0, articles.LOAD_LIMIT)}
        # Around the edge, within some per cent, is where the two may differ.
        for share in (Fraction(draw.randint(960, 1040), 1000), Fraction(1)):
            load = int(edge * share) + draw.randint(0, 1)
            if load <= articles.LOAD_LIMIT:
                loads.add(load)
        for load in sorted(loads):
            case = probe._replace(dead_load=load)
            (left, right), = articles.buckling(bearing, case)
            whole = left <= right
            exact = articles.exact_buckling(bearing, case)
            strict = articles.exact_buckling(bearing, case, Fraction("1.02"))
            if whole and not exact:
                raise AssertionError(("passes whole, fails exact", bearing, case))
            if strict and not whole:
                raise AssertionError(("passes with 1.02 X, fails whole", bearing, case))
            counts["whole holds" if whole else "whole fails"] += 1
            counts["exact holds with 1.02 X"] += strict
            counts["between"] += exact and not strict
    return counts


if __name__ == "__main__":
    check_worked_cases()
    print("worked cases: all as set")
    check_shelf_days()
    print("short inputs of shelfday: all as set")
    print("buckling:", ", ".join(f"{name} {count}"
                                 for name, count in check_buckling().items()))
    sys.exit(0)
