"""Makes the stored input and output of the program `judge`.

    make_judge_cases.py --write    writes crates/judge/stdin and stdout
    make_judge_cases.py --check    exits 0 only if both are what it makes
    make_judge_cases.py --count    prints how many lines there are of each kind

The lines come from a fixed seed.  Most are found by exact search: a bearing
and case on the edge of one inequality of one article (equality where whole
numbers allow it, else the last whole number that holds), then the same with
one field one step off, so that the inequality just fails.
"""

import random
import sys
from fractions import Fraction
from pathlib import Path

import judge
import page_examples
import published
import stored
from articles import (CASE_RANGES, LOAD_LIMIT, Case, CircularBearing, PlainPad,
                      RectangularBearing, area, articles, item_ranges,
                      item_within, kind_letter, refusal, rubber_height,
                      shape_factor, slenderness_whole, stiffening_whole)
from worked_cases import WORKED_CASES

SEED = 20_00_04
FOLDER = Path(__file__).resolve().parent.parent / "crates" / "judge"

LOADS = ("dead_load", "live_load")
ROTATIONS = ("rotation_x", "rotation_z")


# --------------------------------------------------------------------------
# Fields and lines.
# --------------------------------------------------------------------------

def line_of(item, case):
    return " ".join([kind_letter(item)] + [str(v) for v in item]
                    + [str(v) for v in case]).encode()


def value_of(item, case, field):
    return getattr(item if field in item._fields else case, field)


def with_field(item, case, field, value):
    if field in item._fields:
        return item._replace(**{field: value}), case
    return item, case._replace(**{field: value})


def range_of(item, case, field):
    if field in item._fields:
        return item_ranges(item)[field]
    if field == "dead_load":
        return 0, LOAD_LIMIT - case.live_load
    if field == "live_load":
        return 0, LOAD_LIMIT - case.dead_load
    return CASE_RANGES[field]


def judged(item, case):
    return refusal(item, case) is None


# --------------------------------------------------------------------------
# Inequalities and their edges.
# --------------------------------------------------------------------------

def sides(item, case, article, part):
    _, formula = articles(item)[article - 1]
    return formula(item, case)[part]


def holds(item, case, article, part):
    left, right = sides(item, case, article, part)
    return left <= right


def faults(item, case):
    """Every inequality that does not hold, as (article, part)."""
    found = []
    for number, (_, formula) in enumerate(articles(item), start=1):
        for part, (left, right) in enumerate(formula(item, case)):
            if left > right:
                found.append((number, part))
    return found


def edge_on(item, case, field, article, part):
    """Bisects for the value of a field that holds beside one that does not.

    Used for loads, movement and rotations, in each of which every inequality
    is monotone.  None where the whole range is on one side.
    """
    def at(value):
        return holds(*with_field(item, case, field, value), article, part)
    low, high = range_of(item, case, field)
    if high < low:
        return None
    low_holds = at(low)
    if low_holds == at(high):
        return None
    while high - low > 1:
        middle = (low + high) // 2
        if at(middle) == low_holds:
            low = middle
        else:
            high = middle
    return (low, high) if low_holds else (high, low)


def edges_by_scan(item, case, field, article, part):
    """Every value of an item's field that holds beside one that does not."""
    low, high = range_of(item, case, field)
    state = {}
    for value in range(low, high + 1):
        changed = with_field(item, case, field, value)
        if judged(*changed):
            state[value] = holds(*changed, article, part)
    found = []
    for value, held in state.items():
        for other in (value - 1, value + 1):
            if held and state.get(other) is False:
                found.append((value, other))
    return found


def equality_on(item, case, field, article, part):
    """The whole value of a load, movement or rotation that gives equality."""
    def margin(value):
        left, right = sides(*with_field(item, case, field, value), article, part)
        return right - left
    at_nought, at_one = margin(0), margin(1)
    if at_nought == at_one:
        return None
    root = at_nought / (at_nought - at_one)
    low, high = range_of(item, case, field)
    if root.denominator != 1 or not low <= root <= high or margin(int(root)) != 0:
        return None
    return int(root)


# --------------------------------------------------------------------------
# Draws.
# --------------------------------------------------------------------------

PARTS = {
    "R": {1: 3, 2: 1, 3: 2, 4: 2, 5: 1, 6: 2},
    "C": {1: 3, 2: 1, 3: 1, 4: 1, 5: 1, 6: 2},
    "P": {1: 2, 2: 1, 3: 2, 4: 2},
}


def draw_sides(draw, low, high, order):
    first, second = sorted((draw.randint(low, high), draw.randint(low, high)))
    if order == "L<W" and first == second:
        first -= 1 if first > 8 else 0
        second += 1 if first == second else 0
    if order == "L>W":
        return second + (first == second and second < 80), first
    if order == "L=W":
        return second, second
    return first, second


def draw_item(draw, form, article, part, order, round_numbers):
    """An item such that the wanted inequality can be reached alone."""
    shear_modulus = draw.randint(80, 180)
    yield_strength = draw.randint(40, 100)
    steel = draw.randint(8, 32)
    layer = draw.randint(4, 16)
    layers = draw.randint(1, 8)
    low, high = 16, 70
    if form == "P":
        layer = draw.randint(4, 24)
        if article == 1 and part == 0:
            layer, low = draw.randint(4, 8), 40
        if article == 4:
            low, high, layer = 8, 24, draw.randint(18, 48)
    elif article == 1 and part == 0:
        layer, low, high = draw.randint(4, 6), 36, 64
        shear_modulus = draw.randint(130, 180)
    elif article == 5:
        low, high, layers = 8, 44, draw.randint(6, 20)
    elif article == 6:
        layer, steel = draw.randint(6, 16), draw.randint(1, 6)
        yield_strength = draw.randint(30, 45) if part == 0 else draw.randint(80, 100)
        low = 24
    if round_numbers:
        shear_modulus = (113 if form == "C" else
                         draw.choice((80, 90, 100, 110, 120, 125, 140, 150, 160, 175, 180)))
        layer = draw.choice([h for h in (4, 5, 8, 10, 12, 16, 20, 24, 32, 40, 48)
                             if abs(h - layer) <= 4 and (form == "P" or h <= 16)])
        low, high = (low + 3) // 4, high // 4
        length, width = (4 * side for side in draw_sides(draw, low, high, order))
        length, width = min(length, 80), min(width, 80)
    else:
        length, width = draw_sides(draw, low, high, order)
    if form == "P":
        return PlainPad(length, width, layer, shear_modulus)
    cover = draw.randint(1, min(11, 7 * layer // 10))
    rest = (layers, layer, cover, steel, shear_modulus, yield_strength)
    if form == "C":
        return CircularBearing(width, *rest)
    return RectangularBearing(length, width, *rest)


def draw_case(draw, item, article, part, shear, calm):
    """A case under which the item meets most articles.

    `calm` leaves rotation and movement out more often.
    """
    pad = type(item) is PlainPad
    most = min(Fraction(800 if pad else 1600),
               Fraction(100 if pad else 166, 100) * item.shear_modulus * shape_factor(item))
    share = Fraction(draw.randint(100, 1000), 1000)
    if article == 4 and not pad:
        share = Fraction(draw.randint(850, 1000), 1000)
    total = min(int(most * share * area(item)), LOAD_LIMIT)
    live_share = Fraction(draw.randint(0, 39), 100)
    if (article, part) in ((1, 2), (6, 1)) and not pad:
        live_share = Fraction(draw.randint(60, 95), 100)
    live = int(total * live_share)
    # Movement and rotation well inside their own articles.
    rubber = Fraction(item.layer_thickness, 16) if pad else rubber_height(item)
    movement = min(2000, int(rubber * 50 * Fraction(draw.randint(0, 100), 100)))
    angles = []
    bases = ([item.diameter] * 2 if kind_letter(item) == "C"
             else [item.length, item.width])
    layers = 1 if pad else item.layers
    for base in bases:
        slope = (Fraction(base, 2) * 16 / item.layer_thickness) ** 2
        relative = share * Fraction(draw.randint(0, 40 if calm else 100), 100)
        angles.append(min(500, int(relative * layers / slope * 10_000)))
    if calm and draw.random() < 0.5:
        angles[draw.randint(0, 1)] = 0
    if calm and draw.random() < 0.3:
        movement = 0
    if article == 5:
        angles = [0, 0] if draw.random() < 0.8 else [draw.randint(0, 2), draw.randint(0, 2)]
    return Case(total - live, live, movement, *angles, draw.randint(0, 1), shear)


def draw_wild(draw, form, shear):
    """Any item and case within the limits."""
    layer = draw.randint(4, 48 if form == "P" else 16)
    if form == "P":
        item = PlainPad(draw.randint(8, 80), draw.randint(8, 80), layer,
                        draw.randint(80, 180))
    else:
        rest = (draw.randint(1, 20), layer, draw.randint(1, min(11, 7 * layer // 10)),
                draw.randint(1, 32), draw.randint(80, 180), draw.randint(30, 100))
        if form == "C":
            item = CircularBearing(draw.randint(8, 80), *rest)
        else:
            item = RectangularBearing(draw.randint(8, 80), draw.randint(8, 80), *rest)
    total = draw.randint(0, draw.choice((20_000, 200_000, LOAD_LIMIT)))
    live = draw.randint(0, total)
    return item, Case(total - live, live, draw.randint(0, draw.choice((20, 200, 2000))),
                      draw.randint(0, draw.choice((5, 60, 500))),
                      draw.randint(0, draw.choice((5, 60, 500))),
                      draw.randint(0, 1), shear)


# --------------------------------------------------------------------------
# The edges of every inequality.
# --------------------------------------------------------------------------

def first_fields(draw, form, article, part):
    """The fields on which an edge of this inequality is looked for first."""
    if form == "P" and article == 4:
        return ["layer_thickness", ("length", "width")[part]]
    if article == 2:
        return ["movement"]
    if article in (3, 4):
        axes = list(ROTATIONS) if form == "C" else [ROTATIONS[part]]
        return [draw.choice(axes), "dead_load", draw.choice(axes), "live_load"]
    if (article, part) in ((1, 2), (6, 1)):
        return ["live_load"]
    return ["dead_load", "live_load"]


def find_edge(draw, item, case, field, article, part):
    if field in item._fields:
        found = edges_by_scan(item, case, field, article, part)
        return draw.choice(found) if found else None
    return edge_on(item, case, field, article, part)


class Edges:
    """The lines of one inequality, and what they are."""

    def __init__(self, draw, form, shear, article, part):
        self.draw = draw
        self.form, self.shear, self.article, self.part = form, shear, article, part
        self.lines = {}
        self.counts = {"alone": 0, "among several": 0, "equal": 0}

    def keep(self, item, case):
        self.lines.setdefault(line_of(item, case))

    def base_on_edge(self, item, case, field):
        """The item and case moved to the last value that holds."""
        found = find_edge(self.draw, item, case, field, self.article, self.part)
        if found is None:
            return None
        held, failed = found
        return (with_field(item, case, field, held),
                with_field(item, case, field, failed))

    def steps_off(self, item, case, most):
        """One step of one field, each so that this inequality just fails."""
        found = []
        for field in item._fields + case._fields:
            for step in (-1, 1):
                changed = with_field(item, case, field,
                                     value_of(item, case, field) + step)
                if (min(changed[1]) >= 0 and judged(*changed)
                        and not holds(*changed, self.article, self.part)):
                    found.append(changed)
        self.draw.shuffle(found)
        return found[:most]

    def add(self, base, failed, most):
        item, case = base
        assert holds(item, case, self.article, self.part)
        self.keep(item, case)
        if failed is not None:
            assert not holds(*failed, self.article, self.part)
            self.keep(*failed)
        for changed in self.steps_off(item, case, most):
            self.keep(*changed)

    def is_alone(self, base, failed):
        """Nothing else fails, so this article gives the verdict."""
        if not (judged(*base) and judged(*failed)):
            return False
        return faults(*base) == [] and faults(*failed) == [(self.article, self.part)]

    def search_alone(self, wanted, tries, most):
        orders = ["L<W", "L>W", "L<W", "L>W", "L=W"]
        for attempt in range(tries):
            if self.counts["alone"] >= wanted:
                return
            order = orders[attempt % len(orders)]
            if self.article == 5:
                # Buckling goes by the lesser side, so all orders are wanted.
                order = orders[self.counts["alone"] % len(orders)]
            item = draw_item(self.draw, self.form, self.article, self.part, order, False)
            if not item_within(item):
                continue
            case = draw_case(self.draw, item, self.article, self.part, self.shear,
                             self.draw.random() < 0.7)
            fields = first_fields(self.draw, self.form, self.article, self.part)
            field = fields[self.counts["alone"] % len(fields)]
            found = self.base_on_edge(item, case, field)
            if found is None or not self.is_alone(*found):
                continue
            self.add(*found, most)
            self.counts["alone"] += 1

    def search_among_several(self, wanted, tries, most):
        for attempt in range(tries):
            if self.counts["among several"] >= wanted:
                return
            item, case = draw_wild(self.draw, self.form, self.shear)
            # Here any field at all may lead to the edge.
            field = self.draw.choice(item._fields + case._fields[:5])
            found = self.base_on_edge(item, case, field)
            if found is None or self.is_alone(*found) or not faults(*found[0]):
                continue
            self.add(*found, most)
            self.counts["among several"] += 1

    def search_equal(self, wanted, tries, most):
        for attempt in range(tries):
            if self.counts["equal"] >= wanted:
                return
            order = self.draw.choice(("L<W", "L>W", "L=W"))
            item = draw_item(self.draw, self.form, self.article, self.part, order, True)
            if not item_within(item):
                continue
            case = draw_case(self.draw, item, self.article, self.part, self.shear, True)
            fields = first_fields(self.draw, self.form, self.article, self.part)
            field = self.draw.choice(fields)
            if field in item._fields:
                found = self.base_on_edge(item, case, field)
                if found is None:
                    continue
                base = found[0]
                left, right = sides(*base, self.article, self.part)
                if left != right:
                    continue
            else:
                value = equality_on(item, case, field, self.article, self.part)
                if value is None:
                    continue
                base = with_field(item, case, field, value)
            if not judged(*base):
                continue
            # They are wanted with nothing else at fault; at the end of the
            # search any will do.
            if faults(*base) and attempt < tries * 2 // 3:
                continue
            self.add(base, None, most)
            self.counts["equal"] += 1


# Equality in buckling is rare: X' - Y' must divide 1,000,000 G A.  These were
# found by going through bearings in turn: item, deck and the whole load.
EQUAL_IN_BUCKLING = {
    "R": [(RectangularBearing(17, 33, 17, 12, 4, 32, 151, 60), 0, 46_875),
          (RectangularBearing(46, 57, 20, 13, 3, 32, 138, 60), 1, 475_000),
          (RectangularBearing(17, 54, 12, 9, 6, 32, 129, 60), 0, 168_750),
          (RectangularBearing(48, 26, 20, 10, 7, 32, 98, 60), 0, 187_500),
          (RectangularBearing(16, 14, 8, 6, 1, 32, 113, 60), 1, 43_750),
          (RectangularBearing(38, 26, 12, 13, 9, 32, 97, 60), 1, 65_000)],
    "C": [(CircularBearing(31, 10, 10, 5, 16, 113, 50), 1, 136_462),
          (CircularBearing(36, 9, 11, 6, 16, 113, 50), 1, 230_040),
          (CircularBearing(36, 20, 11, 1, 16, 113, 50), 0, 230_040),
          (CircularBearing(38, 13, 16, 1, 32, 113, 50), 0, 237_500),
          (CircularBearing(42, 9, 16, 2, 32, 113, 50), 1, 221_875)],
}


def equal_in_buckling(form, shear):
    for item, deck, load in EQUAL_IN_BUCKLING[form]:
        case = Case(load - load // 4, load // 4, 0, 0, 0, deck, shear)
        left, right = sides(item, case, 5, 0)
        assert left == right and faults(item, case) == []
        yield item, case


def equality_is_possible(form, article, part):
    """A circle's area has 113 under it, which only G can take away."""
    return not (form == "C" and (article, part) in ((1, 0), (6, 0), (6, 1)))


def edge_lines(draw):
    lines, table = [], []
    for form, parts in PARTS.items():
        for shear in (1, 0):
            for article, count in parts.items():
                for part in range(count):
                    edges = Edges(draw, form, shear, article, part)
                    buckling = form != "P" and article == 5
                    # On a circle articles 1 and 3 together imply article 4, so
                    # it can only fail among several.
                    implied = form == "C" and article == 4
                    if not implied:
                        edges.search_alone(10 if buckling else 5, 400, 6)
                    edges.search_among_several(6 if implied else 3, 150, 4)
                    if buckling:
                        for base in equal_in_buckling(form, shear):
                            edges.add(base, None, 10)
                            edges.counts["equal"] += 1
                    elif equality_is_possible(form, article, part):
                        edges.search_equal(2, 2_500, 10)
                    lines.extend(edges.lines)
                    table.append((form, shear, article, part, len(edges.lines),
                                  dict(edges.counts)))
    return lines, table


# --------------------------------------------------------------------------
# Corners of the articles that edges alone do not reach.
# --------------------------------------------------------------------------

def corner_lines(draw):
    lines = []
    # X' below, at and just above Y': flat bearings under the heaviest loads.
    below = at_or_near = 0
    for _ in range(3_000):
        form = draw.choice("RC")
        item, case = draw_wild(draw, form, draw.randint(0, 1))
        item = item._replace(layers=draw.randint(1, 6))
        difference = slenderness_whole(item, case) - stiffening_whole(item)
        if difference < 0 and below < 24:
            below += 1
        elif abs(difference) < 120 and at_or_near < 24:
            at_or_near += 1
        else:
            continue
        for load in (LOAD_LIMIT, 0):
            lines.append(line_of(item, case._replace(dead_load=load, live_load=0)))
        # One layer more may carry it over.
        more = item._replace(layers=item.layers + 1)
        lines.append(line_of(more, case._replace(dead_load=0, live_load=LOAD_LIMIT)))
    # No load at all: uplift holds only without rotation.
    for form in "RCP":
        for shear in (0, 1):
            item, case = draw_wild(draw, form, shear)
            still = case._replace(dead_load=0, live_load=0, movement=0,
                                  rotation_x=0, rotation_z=0)
            lines.append(line_of(item, still))
            for field in ROTATIONS + ("movement", "dead_load", "live_load"):
                lines.append(line_of(item, still._replace(**{field: 1})))
    # Loads with no rotation, and rotation on one axis only.
    for form in "RCP":
        for shear in (0, 1):
            for _ in range(3):
                item = draw_item(draw, form, 3, 0, "L<W", False)
                case = draw_case(draw, item, 3, 0, shear, False)
                for rotations in ((0, 0), (case.rotation_x, 0), (0, case.rotation_z),
                                  (case.rotation_z, case.rotation_x)):
                    lines.append(line_of(item, case._replace(
                        rotation_x=rotations[0], rotation_z=rotations[1])))
    # A circle goes by the greater rotation, wherever it stands.
    for shear in (0, 1):
        for _ in range(12):
            item = draw_item(draw, "C", 3, 0, "L<W", False)
            case = draw_case(draw, item, 3, 0, shear, False)
            still = case._replace(rotation_x=0, rotation_z=0)
            found = edge_on(item, still, "rotation_x", 3, 0)
            if found is None:
                continue
            held, failed = found
            for pair in ((held, held), (held, held // 2), (held // 2, held),
                         (failed, held), (held, failed), (failed, 0), (0, failed)):
                lines.append(line_of(item, still._replace(
                    rotation_x=pair[0], rotation_z=pair[1])))
    # Relative rotation so great that the right side of article 4 is negative,
    # with load and with none.
    for form in "RC":
        for shear in (0, 1):
            item = draw_item(draw, form, 4, 0, "L<W", False)._replace(layers=1)
            for load in (0, 1, 50_000):
                lines.append(line_of(item, Case(load, 0, 0, 500, 500, 1, shear)))
    # On a circle fixed against shear, compression, uplift and rotation meet in
    # one point, T = 2 GS with q = 8/3: all three are equalities there.
    for diameter, layers, layer in triple_points():
        item = CircularBearing(diameter, layers, layer, 1, 32, 113, 100)
        load = area(item) * 2 * item.shear_modulus * shape_factor(item)
        slope = (Fraction(diameter, 2) / Fraction(layer, 16)) ** 2
        angle = Fraction(8, 3) * layers / slope * 10_000
        case = Case(int(load), 0, 0, int(angle), 0, 0, 0)
        assert load == case.dead_load and angle == case.rotation_x
        for stepped in (case, case._replace(dead_load=case.dead_load + 1),
                        case._replace(dead_load=case.dead_load - 1),
                        case._replace(rotation_x=case.rotation_x + 1),
                        case._replace(rotation_z=case.rotation_x + 1),
                        case._replace(rotation_x=case.rotation_x - 1)):
            lines.append(line_of(item, stepped))
    return lines


def triple_points():
    """Circles for which load and angle of that point are whole numbers."""
    found = []
    for diameter in range(8, 81):
        for layer in range(4, 17):
            for layers in range(1, 21):
                slope = (Fraction(diameter, 2) / Fraction(layer, 16)) ** 2
                angle = Fraction(8, 3) * layers / slope * 10_000
                item = CircularBearing(diameter, layers, layer, 1, 32, 113, 100)
                if angle.denominator != 1 or angle > 499:
                    continue
                load = area(item) * 2 * 113 * shape_factor(item)
                if (load.denominator == 1 and load < LOAD_LIMIT
                        and load <= 1_750 * area(item)):
                    found.append((diameter, layers, layer))
    return found[:: max(1, len(found) // 6)][:6]


# --------------------------------------------------------------------------
# Limits and refusals.
# --------------------------------------------------------------------------

GOOD_ITEMS = [
    RectangularBearing(20, 40, 5, 8, 4, 8, 100, 36),
    CircularBearing(32, 5, 8, 4, 8, 100, 36),
    PlainPad(20, 40, 8, 100),
]
GOOD_CASES = [
    Case(100_000, 50_000, 25, 10, 10, 1, 1),
    Case(60_000, 40_000, 25, 20, 0, 0, 0),
]


def limit_lines(draw):
    lines = []
    for item in GOOD_ITEMS:
        case = GOOD_CASES[0]
        for field in item._fields:
            low, high = item_ranges(item)[field]
            for value in (0, low - 1, low, low + 1, high - 1, high, high + 1, 255):
                lines.append(line_of(item._replace(**{field: value}), case))
        if type(item) is not PlainPad:
            # The thickest cover that each layer allows, and one more.
            for layer in range(3, 18):
                for cover in (7 * layer // 10, 7 * layer // 10 + 1):
                    lines.append(line_of(item._replace(
                        layer_thickness=layer, cover_thickness=cover), case))
            for layer, cover in ((9, 7), (10, 7), (10, 8), (11, 7), (20, 14), (0, 0),
                                 (255, 255), (255, 11), (4, 255), (16, 11), (16, 12),
                                 (15, 11), (15, 10)):
                lines.append(line_of(item._replace(
                    layer_thickness=layer, cover_thickness=cover), case))
        for dead, live in ((LOAD_LIMIT, 0), (0, LOAD_LIMIT), (LOAD_LIMIT + 1, 0),
                           (0, LOAD_LIMIT + 1), (1_000_000, 1_000_000),
                           (1_000_000, 1_000_001), (1_000_001, 1_000_000),
                           (1_999_999, 1), (1_999_999, 2), (1, 1_999_999),
                           (2, 1_999_999),
                           # Sums that 32 bits would wrap to a small number.
                           (4_294_967_295, 1), (1, 4_294_967_295),
                           (2_147_483_648, 2_147_483_648),
                           (4_294_967_295, 2_000_001), (4_294_967_295, 2_000_002),
                           (4_294_967_295, 4_294_967_295),
                           (4_294_767_296, 300_000), (4_294_967_295, 0),
                           (0, 4_294_967_295), (2_147_483_647, 1),
                           (2_147_483_648, 0), (0, 0)):
            lines.append(line_of(item, case._replace(dead_load=dead, live_load=live)))
        for field, (low, high) in CASE_RANGES.items():
            for value in (low, low + 1, high - 1, high, high + 1,
                          255 if high == 1 else 65_535):
                lines.append(line_of(item, case._replace(**{field: value})))
        lines.append(line_of(item, case._replace(movement=65_535, rotation_x=65_535,
                                                 rotation_z=65_535, deck=255, shear=255)))
    return lines


def several_refusals(draw):
    """Several faults at once: the item before the loads before the rest."""
    lines = []
    for item in GOOD_ITEMS:
        for bad_item in (False, True):
            for bad_loads in (False, True):
                for bad_rest in CASE_RANGES:
                    case = GOOD_CASES[1]
                    changed = item
                    if bad_item:
                        field = draw.choice(item._fields)
                        low, high = item_ranges(item)[field]
                        changed = item._replace(**{field: draw.choice((low - 1, high + 1))})
                    if bad_loads:
                        case = case._replace(live_load=draw.choice(
                            (LOAD_LIMIT, 4_294_967_295 - 50_000)))
                    case = case._replace(**{bad_rest: CASE_RANGES[bad_rest][1] + 1})
                    lines.append(line_of(changed, case))
        # Item and loads at fault, the rest right.
        for field in item._fields:
            low, high = item_ranges(item)[field]
            lines.append(line_of(item._replace(**{field: high + 1}),
                                 GOOD_CASES[0]._replace(dead_load=3_000_000)))
        # Two fields of the item at fault: the first counts.
        for first in range(len(item)):
            for second in range(first + 1, len(item)):
                changed = item
                for place in (first, second):
                    field = item._fields[place]
                    low, high = item_ranges(item)[field]
                    changed = changed._replace(**{field: draw.choice((low - 1, high + 1))})
                lines.append(line_of(changed, GOOD_CASES[0]))
        lines.append(line_of(type(item)(*[0] * len(item)), GOOD_CASES[0]))
        lines.append(line_of(type(item)(*[255] * len(item)), Case(
            4_294_967_295, 4_294_967_295, 65_535, 65_535, 65_535, 255, 255)))
    return lines


# --------------------------------------------------------------------------
# Text.
# --------------------------------------------------------------------------

GREATEST = {"R": [255] * 8, "C": [255] * 7, "P": [255] * 4}
CASE_GREATEST = [4_294_967_295] * 2 + [65_535] * 3 + [255] * 2

NOT_NUMBERS = [b"x", b"-5", b"+5", b"1.0", b"0x10", b"1e3", b"1,000", b"1_000",
               b"\xd9\xa1", b"\xff", b"\x00", b"20\x0b", b"20\x0c", b"\xc2\xa020",
               b"\xa020", b"20\x85", b"--", b"-0", b"0-", b"2/", b":", b"9:", b"/0",
               b"12a", b"a12", b"'20'", b"\"20\"", b"R", b"\x7f", b"\x1b[0m", b"0b1",
               b"NaN", b"\xef\xbc\x91", b"20;", b"#", b"1" * 60 + b"z", b"z" + b"1" * 60]

NOT_KINDS = [b"r", b"c", b"p", b"RR", b"X", b"0", b"20", b"R:", b"\xefR", b"RC",
             b"\xef\xbb\xbfR", b"\x00R", b"R\x00", b"R\x0b", b"\xc3\x87", b"\xff\xfe",
             b"S", b"Q", b"D", b"B", b"O", b"#R", b"-R", b"R,", b"PP", b"Rectangle",
             b"\x80", b"C\xa0"]


def text_lines(draw):
    lines = []
    samples = {kind_letter(item): line_of(item, GOOD_CASES[1]).split(b" ")
               for item in GOOD_ITEMS}
    for letter, words in samples.items():
        greatest = GREATEST[letter] + CASE_GREATEST
        for kept in range(1, len(words)):
            lines.append(b" ".join(words[:kept]))
        lines.append(b" ".join(words + [b"0"]))
        lines.append(b" ".join(words + [b"x"]))
        lines.append(b" ".join(words + [b"9" * 40, b"x", b"1"]))
        lines.append(b" ".join(words + words))
        for place in range(1, len(words)):
            def put(word, others=words, place=place):
                changed = list(others)
                changed[place] = word
                return changed
            room = greatest[place - 1]
            lines.append(b" ".join(put(str(room).encode())))
            lines.append(b" ".join(put(str(room + 1).encode())))
            lines.append(b" ".join(put(draw.choice(
                (b"9" * 40, b"1" + b"0" * 39, b"18446744073709551616",
                 b"18446744073709551636", b"340282366920938463463374607431768211456",
                 str(2 ** 32 + 20).encode(), str(2 ** 64 + 20).encode(),
                 b"0" * 20 + b"9" * 20)))))
            lines.append(b" ".join(put(draw.choice(NOT_NUMBERS))))
            lines.append(b" ".join(put(b"0" * draw.choice((1, 2, 30)) + words[place])))
        # The first word at fault decides, whatever comes after it.
        for _ in range(14):
            changed = list(words)
            for place in sorted(draw.sample(range(1, len(words)), 3)):
                changed[place] = draw.choice((b"x", b"-1", b"9" * 12, b"1000000000000"))
            cut = draw.choice((0, 0, 1, 3))
            if cut:
                changed = changed[:-cut]
            elif draw.random() < 0.4:
                changed.append(b"7")
            lines.append(b" ".join(changed))
        # Outside its limits and at fault in the text: the text comes first.
        lines.append(b" ".join([words[0], b"7"] + words[2:-1] + [b"256"]))
        lines.append(b" ".join([words[0], b"7"] + words[2:-1] + [b"y"]))
        lines.append(b" ".join([words[0], b"7"] + words[2:-1]))
        lines.append(b" ".join([words[0], b"7"] + words[2:] + [b"1"]))
        for word in NOT_KINDS:
            lines.append(b" ".join([word] + words[1:]))
        # Blanks of every kind, anywhere between words and at both ends.
        for blank in (b"\t", b"  ", b"\r", b" \t ", b"\t\t", b"\r ", b" " * 40):
            lines.append(blank.join(words))
        lines.append(b" " + b" ".join(words))
        lines.append(b"\t" + b" ".join(words))
        lines.append(b" ".join(words) + b" ")
        lines.append(b" ".join(words) + b"\r")
        lines.append(b" ".join(words) + b" \t\r")
        lines.append(b"\r" + b" ".join(words) + b"\r\r")
        for separator in (b",", b";", b"\x0b", b"\x0c", b"\xc2\xa0", b"\x00", b"\xa0"):
            lines.append(separator.join(words))
            lines.append(words[0] + b" " + separator.join(words[1:]))
        lines.append(b" ".join([words[0]] + [b"0" * 30 + word for word in words[1:]]))
        lines.append(b" ".join([words[0]] + [b"0" * 25] * (len(words) - 1)))
        lines.append(b" ".join([words[0], b"0" * 3_000 + words[1]] + words[2:]))
        lines.append(b" ".join([words[0], b"7" * 3_000] + words[2:]))
        lines.append(b" ".join(words[:-1]) + b" " * 2_000 + words[-1])
        lines.append(b" ".join([words[0]] + [b"1"] * 1_000))
        lines.append(words[0] + b"".join(words[1:]))
    for word in NOT_NUMBERS:
        lines.append(b" ".join(samples["R"][:4] + [word] + samples["R"][5:]))
    lines += [b"", b" ", b"\t", b"\r", b" \t\r \r\t ", b"", b"", b"R", b"C", b"P",
              b"R ", b" C", b"\tP\t", b"\x00", b"\xff", b"\xff\xff\xff \xfe", b"x",
              b"bearing A", b"# a comment", b"R\x0020 40", b"?" * 300, b"\x0b", b"\x0c",
              b" \x0b ", b"1 2 3", b"r 20 40", b"RCP", b"R C P", b"P P P",
              bytes(range(128, 256)), bytes(n for n in range(256) if n != 10)]
    return lines


# --------------------------------------------------------------------------
# Random judgements.
# --------------------------------------------------------------------------

def random_lines(draw):
    lines = []
    for number in range(240):
        form = "RCP"[number % 3]
        lines.append(line_of(*draw_wild(draw, form, draw.randint(0, 1))))
    for number in range(180):
        form = "RCP"[number % 3]
        article = draw.randint(1, 4 if form == "P" else 6)
        item = draw_item(draw, form, article, 0, draw.choice(("L<W", "L>W", "L=W")),
                         draw.random() < 0.3)
        case = draw_case(draw, item, article, 0, draw.randint(0, 1), True)
        lines.append(line_of(item, case))
    # Any values at all that the fields can hold.
    for number in range(60):
        kind = type(GOOD_ITEMS[number % 3])
        item = kind(*(draw.randint(0, 255) for _ in kind._fields))
        case = Case(draw.randint(0, 2 ** 32 - 1), draw.randint(0, 2 ** 32 - 1),
                    *(draw.randint(0, 65_535) for _ in range(3)),
                    draw.randint(0, 255), draw.randint(0, 255))
        lines.append(line_of(item, case))
    return lines


# --------------------------------------------------------------------------
# All of it.
# --------------------------------------------------------------------------

def sections():
    draw = random.Random(SEED)
    edges, table = edge_lines(draw)
    made = {
        "worked cases": [line.encode() for line, _ in WORKED_CASES],
        "published examples": [line.encode() for line in published.lines()],
        "examples of the page, samples": [line.encode() for line in page_examples.lines()],
        "edges of articles": edges,
        "corners of articles": corner_lines(draw),
        "limits": limit_lines(draw),
        "several refusals at once": several_refusals(draw),
        "text": text_lines(draw),
        "random judgements": random_lines(draw),
        # Stands last, with no newline after it.
        "last line": [b"R 20 40 5 8 4 8 100 36 100000 88000 150 155 0 1 1"],
    }
    for lines in made.values():
        for line in lines:
            assert b"\n" not in line
    return made, table


def make():
    made, table = sections()
    data = b"\n".join(line for lines in made.values() for line in lines)
    return made, table, data, judge.answers(data)


def print_counts(made, table, data):
    print(f"{'form':5}{'shear':6}{'article':8}{'part':5}{'lines':>6}"
          f"{'alone':>7}{'several':>9}{'equal':>7}")
    for form, shear, article, part, lines, counts in table:
        print(f"{form:5}{shear:<6}{article:<8}{part + 1:<5}{lines:>6}"
              f"{counts['alone']:>7}{counts['among several']:>9}{counts['equal']:>7}")
    verdicts = {}
    for name, lines in made.items():
        print(f"{len(lines):6} {name}")
    for line, given in zip(judge.lines_of(data), judge.answers(data).split(b"\n")):
        kind = given.split(b":")[0].decode()
        if kind.startswith("verdict"):
            words = judge.words_of(line)
            kind = f"{words[0].decode()} shear {int(words[-1])} {kind}"
        elif kind == "no judgement":
            kind += " " + " ".join(given.decode().split()[4:])
        verdicts[kind] = verdicts.get(kind, 0) + 1
    for kind in sorted(verdicts):
        print(f"{verdicts[kind]:6} {kind}")
    print(f"{len(judge.lines_of(data)):6} lines, {len(data)} bytes")


def main(arguments):
    if arguments not in (["--write"], ["--check"], ["--count"]):
        print(__doc__, file=sys.stderr)
        return 2
    made, table, data, expected = make()
    files = {"stdin": data, "stdout": expected}
    if arguments == ["--count"]:
        print_counts(made, table, data)
        return 0
    if arguments == ["--write"]:
        stored.write(FOLDER, files)
        return 0
    found = stored.differences(FOLDER, files)
    for text in found:
        print(text)
    return 1 if found else 0


if __name__ == "__main__":
    sys.exit(main(sys.argv[1:]))
