"""The limits and the articles, straight from the formulas.

Everything here is computed with exact fractions in inches, pounds, psi and
radians.  No formula is rearranged or cleared of fractions: each field is first
turned into its engineering unit, then the published formula is written down.
That is slow, and it is the point: a reader can lay it beside the formulas, and
it shares no derivation with the proved program that it checks.
"""

from fractions import Fraction
from functools import lru_cache
from typing import NamedTuple


# --------------------------------------------------------------------------
# Items and cases, in table fields (whole numbers, as a user enters them).
# --------------------------------------------------------------------------

class RectangularBearing(NamedTuple):
    length: int            # L, half inches, along the bridge
    width: int             # W, half inches
    layers: int            # n, interior rubber layers
    layer_thickness: int   # h, sixteenths of an inch
    cover_thickness: int   # c, sixteenths of an inch, each of two covers
    steel_thickness: int   # s, sixty-fourths of an inch, each of n+1 laminates
    shear_modulus: int     # G, psi
    yield_strength: int    # F, ksi


class CircularBearing(NamedTuple):
    diameter: int          # D, half inches
    layers: int
    layer_thickness: int
    cover_thickness: int
    steel_thickness: int
    shear_modulus: int
    yield_strength: int


class PlainPad(NamedTuple):
    length: int
    width: int
    layer_thickness: int   # h, sixteenths of an inch: the whole pad
    shear_modulus: int


class Case(NamedTuple):
    dead_load: int         # PD, pounds
    live_load: int         # PL, pounds
    movement: int          # M, hundredths of an inch
    rotation_x: int        # thetax, ten-thousandths of a radian
    rotation_z: int        # thetaz, ten-thousandths of a radian
    deck: int              # 1 where the deck is free to translate
    shear: int             # 1 where the bearing deforms in shear


KINDS = {"R": RectangularBearing, "C": CircularBearing, "P": PlainPad}


def kind_letter(item):
    for letter, kind in KINDS.items():
        if type(item) is kind:
            return letter
    raise TypeError(item)


# --------------------------------------------------------------------------
# Limits.
# --------------------------------------------------------------------------

BEARING_RANGES = {
    "length": (8, 80),
    "width": (8, 80),
    "diameter": (8, 80),
    "layers": (1, 20),
    "layer_thickness": (4, 16),
    "cover_thickness": (1, 11),
    "steel_thickness": (1, 32),
    "shear_modulus": (80, 180),
    "yield_strength": (30, 100),
}

PAD_RANGES = {
    "length": (8, 80),
    "width": (8, 80),
    "layer_thickness": (4, 48),
    "shear_modulus": (80, 180),
}

LOAD_LIMIT = 2_000_000

CASE_RANGES = {
    "movement": (0, 2_000),
    "rotation_x": (0, 500),
    "rotation_z": (0, 500),
    "deck": (0, 1),
    "shear": (0, 1),
}


def item_ranges(item):
    return PAD_RANGES if type(item) is PlainPad else BEARING_RANGES


def first_field_outside(item):
    """Place, from 1, of the first field outside its limits; None if none is."""
    ranges = item_ranges(item)
    for place, name in enumerate(item._fields, start=1):
        low, high = ranges[name]
        value = getattr(item, name)
        if not low <= value <= high:
            return place
        # A cover may be at most seven tenths as thick as an interior layer.
        if name == "cover_thickness":
            if Fraction(value, 16) > Fraction(7, 10) * Fraction(item.layer_thickness, 16):
                return place
    return None


def item_within(item):
    return first_field_outside(item) is None


def loads_within(case):
    return case.dead_load + case.live_load <= LOAD_LIMIT


def rest_of_case_within(case):
    return all(low <= getattr(case, name) <= high
               for name, (low, high) in CASE_RANGES.items())


def refusal(item, case):
    """Number of the refusal, or None where the book judges."""
    if not item_within(item):
        return 2
    if not loads_within(case):
        return 6
    if not rest_of_case_within(case):
        return 7
    return None


# --------------------------------------------------------------------------
# From table fields to inches, pounds, psi and radians.
# --------------------------------------------------------------------------

PI = Fraction(355, 113)


def length(item):
    return Fraction(item.length, 2)


def width(item):
    return Fraction(item.width, 2)


def diameter(item):
    return Fraction(item.diameter, 2)


def layer_thickness(item):
    return Fraction(item.layer_thickness, 16)


def cover_thickness(item):
    return Fraction(item.cover_thickness, 16)


def steel_thickness(item):
    return Fraction(item.steel_thickness, 64)


def shear_modulus(item):
    return Fraction(item.shear_modulus)


def yield_strength(item):
    return Fraction(item.yield_strength) * 1_000


def movement(case):
    return Fraction(case.movement, 100)


def rotation_x(case):
    return Fraction(case.rotation_x, 10_000)


def rotation_z(case):
    return Fraction(case.rotation_z, 10_000)


def is_circle(item):
    return type(item) is CircularBearing


def area(item):
    """A = LW, or pi D^2/4"""
    if is_circle(item):
        return PI * diameter(item) ** 2 / 4
    return length(item) * width(item)


def shape_factor(item):
    """S = LW/(2h(L+W)), or D/(4h)"""
    thickness = layer_thickness(item)
    if is_circle(item):
        return diameter(item) / (4 * thickness)
    return (length(item) * width(item)
            / (2 * thickness * (length(item) + width(item))))


def total_stress(item, case):
    """T = (PD+PL)/A"""
    return (Fraction(case.dead_load) + Fraction(case.live_load)) / area(item)


def live_stress(item, case):
    """V = PL/A"""
    return Fraction(case.live_load) / area(item)


def rubber_height(item):
    """H = nh + 2c: the interior layers and both covers"""
    return item.layers * layer_thickness(item) + 2 * cover_thickness(item)


def rotation_axes(item, case):
    """Base and angle of each axis on which rotation is checked."""
    if is_circle(item):
        return [(diameter(item), max(rotation_x(case), rotation_z(case)))]
    return [(length(item), rotation_x(case)), (width(item), rotation_z(case))]


# --------------------------------------------------------------------------
# The Section 14 book.
#
# Each article is given as its separate inequalities, a list of pairs
# (left, right), each to be read "left <= right".  The article holds where all
# of them do.
# --------------------------------------------------------------------------

# (is a circle, shear mark): coefficients u, k, v.
ROTATION_COEFFICIENTS = {
    (False, 1): (Fraction(1), Fraction("1.875"), Fraction("0.20")),
    (False, 0): (Fraction(1), Fraction("2.25"), Fraction(1, 6)),
    (True, 1): (Fraction("0.75"), Fraction("2.5"), Fraction("0.15")),
    (True, 0): (Fraction("0.75"), Fraction("3.0"), Fraction("0.125")),
}


def compression(item, case):
    """T <= 1,600, T <= 1.66GS, V <= 0.66GS; fixed: 1,750, 2.00GS, 1.00GS"""
    total = total_stress(item, case)
    live = live_stress(item, case)
    modulus = shear_modulus(item)
    shape = shape_factor(item)
    if case.shear == 1:
        return [(total, Fraction(1_600)),
                (total, Fraction("1.66") * modulus * shape),
                (live, Fraction("0.66") * modulus * shape)]
    return [(total, Fraction(1_750)),
            (total, Fraction("2.00") * modulus * shape),
            (live, Fraction("1.00") * modulus * shape)]


def shear_deformation(item, case):
    """H >= 2M"""
    return [(2 * movement(case), rubber_height(item))]


def relative_rotation(item, base, angle):
    """q = (theta/n)(B/h)^2"""
    return (angle / item.layers) * (base / layer_thickness(item)) ** 2


def uplift(item, case):
    """T >= uGSq"""
    total = total_stress(item, case)
    modulus = shear_modulus(item)
    shape = shape_factor(item)
    uplift_factor, _, _ = ROTATION_COEFFICIENTS[is_circle(item), case.shear]
    return [(uplift_factor * modulus * shape * relative_rotation(item, base, angle), total)
            for base, angle in rotation_axes(item, case)]


def rotation(item, case):
    """T <= kGS(1 - vq)"""
    total = total_stress(item, case)
    modulus = shear_modulus(item)
    shape = shape_factor(item)
    _, stress_factor, rotation_factor = ROTATION_COEFFICIENTS[is_circle(item), case.shear]
    # The right side may be negative; it is compared as it stands.
    return [(total, stress_factor * modulus * shape
             * (1 - rotation_factor * relative_rotation(item, base, angle)))
            for base, angle in rotation_axes(item, case)]


def buckling_sides(item):
    """l, the lesser side, and m, the greater; a circle has 0.8 D for both."""
    if is_circle(item):
        side = Fraction("0.8") * diameter(item)
        return side, side
    return min(length(item), width(item)), max(length(item), width(item))


def sway_coefficient(case):
    return Fraction("3.84") if case.deck == 1 else Fraction("1.92")


# Searched for once for each bearing, since many cases are judged on the same one.
@lru_cache(maxsize=None, typed=True)
def thousandfold_root(item):
    """r, the greatest whole number with r^2 m <= 1,000,000 (m + 2l)."""
    lesser, greater = buckling_sides(item)
    holds, fails = 0, 1
    while fails ** 2 * greater <= 1_000_000 * (greater + 2 * lesser):
        fails *= 2
    while fails - holds > 1:
        middle = (holds + fails) // 2
        if middle ** 2 * greater <= 1_000_000 * (greater + 2 * lesser):
            holds = middle
        else:
            fails = middle
    return holds


def rounded_down(value):
    return value.numerator // value.denominator


def rounded_up(value):
    return -((-value.numerator) // value.denominator)


def slenderness_whole(item, case):
    """X': 1,000,000 X with r/1,000 in the place of the root, rounded up."""
    lesser, _ = buckling_sides(item)
    root = Fraction(thousandfold_root(item), 1_000)
    slenderness = (sway_coefficient(case) * (rubber_height(item) / lesser)
                   / (shape_factor(item) * root))
    return rounded_up(1_000_000 * slenderness)


def stiffening(item):
    """Y = 2.67 / (S (S+2) (1 + l/(4m)))"""
    lesser, greater = buckling_sides(item)
    shape = shape_factor(item)
    return Fraction("2.67") / (shape * (shape + 2) * (1 + lesser / (4 * greater)))


def stiffening_whole(item):
    """Y': 1,000,000 Y rounded down."""
    return rounded_down(1_000_000 * stiffening(item))


def buckling(item, case):
    """T(X' - Y') <= 1,000,000 G"""
    # Where X' is below Y' the left side is negative or nought and it holds.
    total = total_stress(item, case)
    difference = slenderness_whole(item, case) - stiffening_whole(item)
    return [(total * difference, 1_000_000 * shear_modulus(item))]


def exact_buckling(item, case, factor=Fraction(1)):
    """T (factor X - Y) <= G with the root exact, by squares.

    Both T factor X and G + T Y are at least nought, so the comparison of the
    squares is the comparison of the sides, and X squared is rational.
    """
    total = total_stress(item, case)
    modulus = shear_modulus(item)
    lesser, greater = buckling_sides(item)
    sway = sway_coefficient(case)
    slenderness_squared = ((sway * (rubber_height(item) / lesser)) ** 2
                           / (shape_factor(item) ** 2 * (1 + 2 * lesser / greater)))
    return (total ** 2 * factor ** 2 * slenderness_squared
            <= (modulus + total * stiffening(item)) ** 2)


def steel(item, case):
    """s >= 3hT/F and s >= 2hV/24,000"""
    total = total_stress(item, case)
    live = live_stress(item, case)
    thickness = layer_thickness(item)
    laminate = steel_thickness(item)
    return [(3 * thickness * total / yield_strength(item), laminate),
            (2 * thickness * live / 24_000, laminate)]


BEARING_ARTICLES = [
    ("compression", compression),
    ("shear", shear_deformation),
    ("uplift", uplift),
    ("rotation", rotation),
    ("buckling", buckling),
    ("steel", steel),
]


# --------------------------------------------------------------------------
# The pad book.  The marks play no part in its articles.
# --------------------------------------------------------------------------

def pad_compression(item, case):
    """T <= 800 and T <= 1.00GS"""
    total = total_stress(item, case)
    return [(total, Fraction(800)),
            (total, Fraction("1.00") * shear_modulus(item) * shape_factor(item))]


def pad_shear_deformation(item, case):
    """h >= 2M"""
    return [(2 * movement(case), layer_thickness(item))]


def pad_uplift(item, case):
    """T >= 0.5GS(L/h)^2 thetax and T >= 0.5GS(W/h)^2 thetaz"""
    total = total_stress(item, case)
    modulus = shear_modulus(item)
    shape = shape_factor(item)
    thickness = layer_thickness(item)
    return [(Fraction("0.5") * modulus * shape * (base / thickness) ** 2 * angle, total)
            for base, angle in rotation_axes(item, case)]


def pad_stability(item, case):
    """h <= L/3 and h <= W/3"""
    thickness = layer_thickness(item)
    return [(thickness, length(item) / 3), (thickness, width(item) / 3)]


PAD_ARTICLES = [
    ("compression", pad_compression),
    ("shear", pad_shear_deformation),
    ("uplift", pad_uplift),
    ("stability", pad_stability),
]


# --------------------------------------------------------------------------
# Verdicts.
# --------------------------------------------------------------------------

def articles(item):
    return PAD_ARTICLES if type(item) is PlainPad else BEARING_ARTICLES


def held_articles(item, case):
    """For each article in turn, whether it holds."""
    return [all(left <= right for left, right in article(item, case))
            for _, article in articles(item)]


def verdict(held):
    """0 where every article holds, else the number of the first that doesn't."""
    for number, holds in enumerate(held, start=1):
        if not holds:
            return number
    return 0


def height_in_sixty_fourths(item):
    """Height of the whole item: rubber and, in a bearing, n+1 laminates."""
    if type(item) is PlainPad:
        return layer_thickness(item) * 64
    return (rubber_height(item) + (item.layers + 1) * steel_thickness(item)) * 64


def plan_number(item):
    """Plan areas on one scale, so that the shapes can be compared.

    Half inches squared times 452 for a rectangle; 452 pi/4 = 355 for a circle.
    """
    return area(item) * 4 * 452
