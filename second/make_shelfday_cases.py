"""Makes the stored input and output of the program `shelfday`.

    make_shelfday_cases.py --write    writes crates/shelfday/stdin and stdout
    make_shelfday_cases.py --check    exits 0 only if both are what it makes
    make_shelfday_cases.py --count    prints how often each thing is reached

The sections come from a fixed seed.  While one is drawn its shelf is run, so
that later calls can go by earlier answers.  What they reach is then counted
from the finished text (shelfday_counts.py), and it is an error where anything
that must be reached is not.
"""

import random
import sys
from dataclasses import astuple
from functools import lru_cache
from math import isqrt
from pathlib import Path

import page_examples
import shelfday
import stored
from articles import (CASE_RANGES, LOAD_LIMIT, Case, CircularBearing, PlainPad,
                      RectangularBearing, height_in_sixty_fourths, item_ranges,
                      item_within, kind_letter)
from judge import FOUR_BYTES, lines_of, words_of
from make_judge_cases import (NOT_KINDS, NOT_NUMBERS, PARTS, Edges, draw_case,
                              draw_item, edge_on, first_fields)
from shelf import (MOST_AT_A_PLACE, AskPlace, AskPlaces, Opening, Order, Pick, Receive,
                   Refused, Return, Shelf, Slip, on_hand, out, passes, pick_order,
                   verdict_on)
from shelfday import TAKEN, item_text
from shelfday_counts import call_word, count_all, shortfalls

SEED = 60_000_14
FOLDER = Path(__file__).resolve().parent.parent / "crates" / "shelfday"

BEARING = RectangularBearing(20, 40, 5, 8, 4, 8, 100, 36)
CIRCLE = CircularBearing(32, 5, 8, 4, 8, 100, 36)
PAD = PlainPad(20, 40, 8, 100)
GOOD_ITEMS = {"R": BEARING, "C": CIRCLE, "P": PAD}
GOOD_CASE = Case(80_000, 40_000, 100, 0, 0, 1, 1)
PAD_CASE = Case(60_000, 40_000, 25, 37, 0, 1, 1)


# --------------------------------------------------------------------------
# Lines.
# --------------------------------------------------------------------------

def call_text(call):
    numbers = call.case if type(call) is Pick else astuple(call)
    return " ".join([call_word(call)] + [str(number) for number in numbers])


def opening_lines(kind, number, items):
    return [f"{kind} {number}"] + [item_text(item) for item in items]


def as_bytes(lines):
    return [line if type(line) is bytes else line.encode() for line in lines]


class Day:
    """The lines of a section whose shelf is opened, and the shelf itself."""

    def __init__(self, draw, kind, number, items):
        self.draw = draw
        self.lines = opening_lines(kind, number, items)
        self.shelf = Shelf(Opening(kind, number, tuple(items)))
        self.places = range(len(self.shelf.items))
        self.slips = []
        self.spent = []

    def ask(self, call):
        self.lines.append(call_text(call))
        answer = self.shelf.ask(call)
        if type(answer) is Slip:
            self.slips.append(answer)
        return answer

    def receive(self, place, count):
        return self.ask(Receive(place, count))

    def pick(self, case):
        return self.ask(Pick(case))

    def end(self, kind, slip):
        if slip in self.slips:
            self.slips.remove(slip)
        self.spent.append(slip)
        return self.ask(kind(slip.number, slip.place))

    def any_place(self):
        return self.draw.choice(self.places)

    def place_off(self):
        """A place off the shelf, often one that a byte or two would cut to a place on it."""
        count = len(self.places)
        return self.draw.choice((count, count, count + 1, FOUR_BYTES, 1 << 31,
                                 256 + self.any_place(), 65_536 + self.any_place(),
                                 max(count, self.shelf.number)))

    def other_number(self):
        """The number of another shelf."""
        number = self.shelf.number
        others = [other for other in (number + 1, number - 1, 0, number ^ 256,
                                      number + 65_536, FOUR_BYTES - number,
                                      self.any_place(), 10 * number)
                  if other != number and 0 <= other <= FOUR_BYTES]
        return self.draw.choice(others)

    def question(self, place=None):
        """A question, about the place that the call before was about where it has one."""
        if self.draw.random() < 0.25:
            return self.ask(AskPlaces())
        if place is None or place not in self.places:
            place = self.any_place()
        return self.ask(AskPlace(place))


# --------------------------------------------------------------------------
# Items much like each other, and cases that some of them pass.
# --------------------------------------------------------------------------

ORDERS = ("L<W", "L>W", "L=W")

# The most by which a field is changed from one item to the next.
STEPS = {"length": 6, "width": 6, "diameter": 6, "layers": 2, "layer_thickness": 2,
         "cover_thickness": 2, "steel_thickness": 5, "shear_modulus": 20,
         "yield_strength": 15}


def draw_base(draw, form):
    """An item, a case that it passes, and an article that it is likely to fail first."""
    while True:
        article = draw.choice(list(PARTS[form]))
        item = draw_item(draw, form, article, 0, draw.choice(ORDERS), False)
        if not item_within(item):
            continue
        case = draw_case(draw, item, article, 0, draw.randint(0, 1), draw.random() < 0.7)
        if passes(item, case):
            return item, case, article


def stepped(draw, item):
    for field in draw.sample(item._fields, draw.randint(1, 3)):
        step = draw.randint(1, STEPS[field]) * draw.choice((-1, 1))
        item = item._replace(**{field: getattr(item, field) + step})
    return item


def other_plan(draw, item):
    """The same layers and thicknesses, so the same height, on a plan of near size."""
    if type(item) is CircularBearing:
        side = isqrt(355 * item.diameter ** 2 // 452)
        length = side + draw.randint(-6, 6)
        width = side * side // max(length, 1) + draw.randint(-1, 2)
        return RectangularBearing(length, width, *item[1:])
    if type(item) is RectangularBearing and draw.random() < 0.6:
        diameter = isqrt(452 * item.length * item.width // 355) + draw.randint(-1, 2)
        return CircularBearing(diameter, *item[2:])
    return item._replace(length=item.length + draw.randint(-3, 3),
                         width=item.width + draw.randint(-3, 3))


def same_plan_number(draw, item):
    """Sides exchanged, or other sides of the same product."""
    if type(item) is CircularBearing:
        return item
    product = item.length * item.width
    lengths = [length for length in range(8, 81)
               if product % length == 0 and 8 <= product // length <= 80]
    length = draw.choice(lengths)
    return item._replace(length=length, width=product // length)


@lru_cache(maxsize=None)
def builds_of_height(height):
    """Every n, h, c, s within the limits that gives a bearing this height."""
    found = []
    for layers in range(1, 21):
        for layer in range(4, 17):
            for cover in range(1, min(11, 7 * layer // 10) + 1):
                steel, rest = divmod(height - 4 * (layers * layer + 2 * cover), layers + 1)
                if rest == 0 and 1 <= steel <= 32:
                    found.append((layers, layer, cover, steel))
    return found


def same_height(draw, item):
    """Another build of the same height; for a pad, which has one only, another modulus."""
    modulus = draw.randint(80, 180)
    if type(item) is PlainPad:
        return item._replace(shear_modulus=modulus)
    near = [build for build in builds_of_height(height_in_sixty_fourths(item))
            if abs(build[0] - item.layers) <= 2 and abs(build[1] - item.layer_thickness) <= 2]
    layers, layer, cover, steel = draw.choice(near)
    return item._replace(layers=layers, layer_thickness=layer, cover_thickness=cover,
                         steel_thickness=steel, shear_modulus=modulus)


def relative(draw, item):
    """An item within its limits, much like the given one."""
    while True:
        change = draw.choices((stepped, other_plan, same_plan_number, same_height),
                              (6, 3, 1, 2))[0]
        changed = change(draw, item)
        if item_within(changed):
            return changed


def case_on_edge(draw, item, case, articles):
    """The case moved to the edge of an article that then decides, or one step over it."""
    form = kind_letter(item)
    for article in articles:
        part = draw.randrange(PARTS[form][article])
        field = draw.choice(first_fields(draw, form, article, part))
        if field not in Case._fields:
            continue
        found = edge_on(item, case, field, article, part)
        if found is None:
            continue
        held, failed = (case._replace(**{field: value}) for value in found)
        if verdict_on(item, failed) == article:
            return draw.choices((held, failed), (1, 3))[0]
    return None


def changed_case(draw, item, case):
    """A case like the given one, often one that the item just fails."""
    roll = draw.random()
    if roll < 0.7:
        articles = draw.sample(list(PARTS[kind_letter(item)]), 3)
        found = case_on_edge(draw, item, case, articles)
        if found is not None:
            return found
    if roll < 0.85:
        share = draw.uniform(0.2, 2.5)
        dead, live = int(case.dead_load * share), int(case.live_load * share)
        if dead + live <= LOAD_LIMIT:
            return case._replace(dead_load=dead, live_load=live)
    field = draw.choice(("movement", "rotation_x", "rotation_z", "deck", "shear"))
    if field in ("deck", "shear"):
        return case._replace(**{field: 1 - getattr(case, field)})
    _, greatest = CASE_RANGES[field]
    value = int(getattr(case, field) * draw.uniform(0.5, 2.5)) + draw.randint(0, 3)
    return case._replace(**{field: min(value, greatest)})


def cases_about(draw, items, base, case, article):
    """The case, one that the base item just fails, and cases further and further away."""
    # Twice the same article, since it may have several inequalities.
    cases = [case, case_on_edge(draw, base, case, [article, article]) or case]
    for _ in range(3):
        case = changed_case(draw, draw.choice(items), case)
        cases.append(case)
    return cases


def family(draw, forms, count):
    """Items of a list, and the cases that are asked of it, the first of them passed."""
    base, case, article = draw_base(draw, draw.choice(forms))
    items = [base]
    while len(items) < count:
        items.append(relative(draw, draw.choice(items)))
    draw.shuffle(items)
    return items, cases_about(draw, items, base, case, article)


def outside_loads(draw, case):
    total = case.dead_load + case.live_load
    return draw.choice((
        case._replace(dead_load=LOAD_LIMIT + 1 - case.live_load),
        case._replace(live_load=LOAD_LIMIT + 1 - case.dead_load),
        case._replace(dead_load=FOUR_BYTES, live_load=FOUR_BYTES),
        # In 32 bits these would wrap to what the case had before.
        case._replace(dead_load=FOUR_BYTES, live_load=total + 1),
        case._replace(dead_load=1 << 31, live_load=(1 << 31) + total)))


def outside_rest(draw, case):
    field = draw.choice(list(CASE_RANGES))
    _, greatest = CASE_RANGES[field]
    most = 255 if greatest == 1 else 65_535
    return case._replace(**{field: draw.choice((greatest + 1, greatest + 1, most))})


# --------------------------------------------------------------------------
# Days with calls of every kind.
# --------------------------------------------------------------------------

def draw_number(draw):
    return draw.choice((1, 2, 7, 255, 256, 65_536, FOUR_BYTES, draw.randint(1, FOUR_BYTES))
                       + tuple(draw.randint(1, 999) for _ in range(8)))


def random_call(day, cases):
    """One call; the place that it was about, or None."""
    draw = day.draw
    what = draw.choices(
        ("pick", "end", "receive", "question", "made up", "spent", "other shelf",
         "slip off the shelf", "receipt off the shelf", "receipt refused",
         "loads outside", "rest outside", "place off the shelf"),
        (34, 20, 9, 12, 4, 5, 3, 3, 2, 2, 2, 2, 2))[0]
    end = draw.choice((Order, Return))
    if what == "end" and day.slips:
        slip = draw.choice(day.slips)
        day.end(end, slip)
        return slip.place
    if what == "spent" and day.spent:
        slip = draw.choice(day.spent)
        day.ask(end(slip.number, slip.place))
        return slip.place
    if what == "receive":
        place = day.any_place()
        day.receive(place, draw.choice((1, 1, 2, 3, 40)))
        return place
    if what == "question":
        day.question()
        return None
    if what == "made up":
        place = day.any_place()
        day.ask(end(day.shelf.number, place))
        return place
    if what == "other shelf":
        place = draw.choice(day.slips).place if day.slips else day.any_place()
        day.ask(end(day.other_number(), place))
        return place
    if what == "slip off the shelf":
        day.ask(end(day.shelf.number, day.place_off()))
        return None
    if what == "receipt off the shelf":
        day.receive(day.place_off(), draw.choice((0, 1, 1, 60_001)))
        return None
    if what == "receipt refused":
        place = day.any_place()
        day.receive(place, draw.choice((0, 0, 60_001, 65_536, 65_537, FOUR_BYTES)))
        return place
    if what == "loads outside":
        case = outside_loads(draw, cases[0])
        day.pick(case if draw.random() < 0.8 else outside_rest(draw, case))
        return None
    if what == "rest outside":
        day.pick(outside_rest(draw, cases[0]))
        return None
    if what == "place off the shelf":
        day.ask(AskPlace(day.place_off()))
        return None
    answer = day.pick(draw.choice(cases))
    return answer.place if type(answer) is Slip else None


def stock(day, share):
    """Receipts at some of the places."""
    places = [place for place in day.places if day.draw.random() < share]
    day.draw.shuffle(places)
    for place in places:
        day.receive(place, day.draw.choice((1, 1, 1, 2, 3)))


def calls_at_random(day, cases, count):
    asked = 0
    while asked < count:
        place = random_call(day, cases)
        asked += 1
        if day.draw.random() < 0.22:
            day.question(place)
            asked += 1


def list_day(draw, kind):
    count = draw.choice((1, 2, 2, 3, 3, 4, 4, 5, 6, 7))
    items, cases = family(draw, TAKEN[kind], count)
    day = Day(draw, kind, draw_number(draw), items)
    stock(day, draw.choice((0.6, 0.85, 1)))
    calls_at_random(day, cases, draw.randint(4, 14))
    return day.lines


def range_day(draw):
    """Movement, rotation and buckling set the layers from below and above."""
    bearing, case, article = draw_base(draw, "R")
    if draw.random() < 0.8:
        bearing = bearing._replace(layers=draw.randint(bearing.layers, 20))
    day = Day(draw, "range", draw_number(draw), [bearing])
    items = day.shelf.items
    passing = [place for place in day.places if passes(items[place], case)]
    about = draw.choice(passing)
    cases = cases_about(draw, [items[about]], items[about], case, article)
    near = [place for place in day.places if abs(place - about) <= 3]
    for place in draw.sample(near, min(len(near), draw.randint(2, 5))):
        day.receive(place, draw.choice((1, 1, 1, 2)))
    calls_at_random(day, cases, draw.randint(4, 13))
    return day.lines


# --------------------------------------------------------------------------
# Ties, edges, limits and slips.
# --------------------------------------------------------------------------

def tie_day(draw, kind, change):
    """Items of equal height that pass the same case, picked one after the other."""
    while True:
        base, case, _ = draw_base(draw, draw.choice(TAKEN[kind]))
        items = [base]
        for _ in range(12):
            item = change(draw, draw.choice(items))
            if item_within(item) and passes(item, case) and len(items) < 4:
                items.append(item)
        if len(items) > 1:
            break
    # Another in front, behind or between, which may be lower or higher.
    if draw.random() < 0.6:
        items.append(relative(draw, base))
    draw.shuffle(items)
    day = Day(draw, kind, draw_number(draw), items)
    for place in draw.sample(day.places, len(items)):
        day.receive(place, draw.choice((1, 1, 1, 2)))
    hard = changed_case(draw, base, case)
    for asked in [case, hard, case, hard, case][:len(items) + 1]:
        answer = day.pick(asked)
        place = answer.place if type(answer) is Slip else None
        if place is not None and draw.random() < 0.35:
            day.end(draw.choice((Order, Order, Return)), answer)
        if draw.random() < 0.2:
            day.question(place)
    return day.lines


class EdgePairs(Edges):
    """Keeps the pairs (last that holds, first that does not) that are found."""

    def __init__(self, *arguments):
        super().__init__(*arguments)
        self.pairs = []

    def add(self, base, failed, most):
        self.pairs.append((base, failed))


def edge_day(draw, held, failed):
    """An item that passes one case and fails the next, and perhaps one that passes both."""
    (item, case), (failed_item, failed_case) = held, failed
    if item == failed_item:
        others = [relative(draw, item) for _ in range(10)]
        items = [item] + [other for other in others if passes(other, case)
                          and passes(other, failed_case)][:draw.randint(0, 2)]
    else:
        items = [item, failed_item]
    draw.shuffle(items)
    kind = "pads" if type(item) is PlainPad else "bearings"
    day = Day(draw, kind, draw_number(draw), items)
    for place in draw.sample(day.places, len(items)):
        day.receive(place, draw.choice((1, 1, 2)))
    cases = [case, failed_case]
    if draw.random() < 0.5:
        cases.reverse()
    for asked in cases + cases:
        answer = day.pick(asked)
        if type(answer) is Slip and draw.random() < 0.4:
            day.end(draw.choice((Order, Return)), answer)
        if draw.random() < 0.3:
            day.question(answer.place if type(answer) is Slip else None)
    return day.lines


def edge_days(draw):
    found = []
    for form, parts in PARTS.items():
        for shear in (1, 0):
            for article, count in parts.items():
                # On a circle articles 1 and 3 together imply article 4.
                if form == "C" and article == 4:
                    continue
                for part in range(count):
                    edges = EdgePairs(draw, form, shear, article, part)
                    edges.search_alone(4, 200, 0)
                    found += [edge_day(draw, *pair) for pair in edges.pairs]
    return found


def limit_day(draw, kind):
    """Receipts that fill a place, with some of it out."""
    items, cases = family(draw, TAKEN[kind], 1 if kind == "range" else draw.randint(1, 3))
    day = Day(draw, kind, draw_number(draw), items)
    case = cases[0]
    passing = [place for place in day.places if passes(day.shelf.items[place], case)]
    # The lowest that passes, so that picks name it.
    place = min(passing, key=lambda place: pick_order(day.shelf, place))
    day.receive(place, draw.choice((1, 2, 3, 30_000, 59_990, 59_998, 59_999, 60_000)))
    for _ in range(draw.randint(0, 3)):
        answer = day.pick(case)
        if type(answer) is Slip and draw.random() < 0.3:
            day.end(draw.choice((Order, Return)), answer)
    account = day.shelf.account
    for _ in range(draw.randint(1, 2)):
        room = MOST_AT_A_PLACE - on_hand(account, place) - out(account, place)
        over = draw.choice((room + 1, room + 1, room + 1, room + 2, 60_001, FOUR_BYTES,
                            FOUR_BYTES - 59_999, 65_536, (1 << 31) + 1, 0))
        steps = [over, room, 1]
        if room > 1 and draw.random() < 0.5:
            part = draw.randint(1, room - 1)
            steps = [over, part, room - part + 1, room - part, 1]
        for count in steps:
            day.receive(place, count)
            if draw.random() < 0.3:
                day.question(place)
        answer = day.pick(case)
        # Out is counted in: it is an order that makes room, and no return does.
        day.receive(place, 1)
        if type(answer) is Slip:
            day.end(draw.choice((Order, Order, Return)), answer)
            day.receive(place, draw.choice((1, 1, 2)))
    day.question(place)
    return day.lines


def slip_day(draw, kind):
    """Slips made up, of another shelf, off the shelf, and ended again."""
    items, cases = family(draw, TAKEN[kind], 1 if kind == "range" else draw.randint(1, 4))
    day = Day(draw, kind, draw_number(draw), items)
    case, number = cases[0], day.shelf.number

    def hand_in(number, place):
        day.ask(draw.choice((Order, Return))(number, place))
        if draw.random() < 0.3:
            day.question(place)

    passing = [place for place in day.places if passes(day.shelf.items[place], case)]
    for place in draw.sample(passing, min(len(passing), 3)):
        day.receive(place, draw.choice((1, 1, 2)))
    if draw.random() < 0.6:
        # The slip of the pick to come, made up in front of it.
        hand_in(number, day.shelf.answer_to(Pick(case)).place)
    slip = day.pick(case)
    wrong = [(day.other_number(), slip.place), (number, day.place_off()),
             (slip.place, number), (number, day.any_place())]
    for pair in draw.sample(wrong, draw.randint(1, 3)):
        hand_in(*pair)
    if draw.random() < 0.5:
        day.pick(case)
    for _ in range(draw.randint(2, 3)):
        hand_in(number, slip.place)
    again = day.pick(case)
    if type(again) is Slip:
        hand_in(number, again.place)
        hand_in(number, slip.place)
    return day.lines


def long_days(draw):
    """Shelves of 199, 200 and 201 items."""
    found = []
    for kind in ("bearings", "pads"):
        for count in (200, 200, 200, 199):
            items, cases = family(draw, TAKEN[kind], count)
            day = Day(draw, kind, draw_number(draw), items)
            day.ask(AskPlaces())
            places = {0, count - 1} | set(draw.sample(day.places, draw.randint(10, 24)))
            for place in draw.sample(sorted(places), len(places)):
                day.receive(place, draw.choice((1, 1, 2)))
            for place in (count - 1, count, 199, 200, 201):
                day.ask(draw.choice((AskPlace(place), Receive(place, 1))))
            for case in cases * 4:
                answer = day.pick(case)
                if type(answer) is Slip:
                    day.question(answer.place)
            for slip in day.slips[:6]:
                day.end(draw.choice((Order, Return)), slip)
            day.ask(Order(day.shelf.number, 200))
            found.append(day.lines)
        for count in (201, 201, 202, 256):
            items, cases = family(draw, TAKEN[kind], count)
            if count == 202:
                # More than 200 comes before an item outside its limits.
                items[0] = items[0]._replace(shear_modulus=0)
            found.append(opening_lines(kind, draw_number(draw), items)
                         + ["receive 0 1", "places"])
    # A full shelf of one bearing at every place: the front decides throughout.
    day = Day(draw, "bearings", 200, [BEARING] * 200)
    for place in range(199, -1, -1):
        day.receive(place, 1)
    for _ in range(6):
        day.pick(GOOD_CASE)
    day.ask(Return(200, 3))
    day.pick(GOOD_CASE)
    found.append(day.lines)
    return found


# --------------------------------------------------------------------------
# Openings that are refused.
# --------------------------------------------------------------------------

def some_calls(draw, kind):
    """Calls that a refused or faulty section has and that are never run."""
    calls = [Receive(0, 1), Pick(PAD_CASE if kind == "pads" else GOOD_CASE), AskPlace(0),
             AskPlaces(), Order(7, 0), Return(7, 0), Receive(1, 2)]
    return [call_text(call) for call in draw.sample(calls, draw.randint(0, 6))]


def outside_values(item, field):
    low, high = item_ranges(item)[field]
    return [low - 1, high + 1, 255] + ([0] if low > 1 else [])


def refused_openings(draw):
    found = []

    def add(kind, number, items):
        found.append(opening_lines(kind, number, items) + some_calls(draw, kind))

    for kind in TAKEN:
        good = [GOOD_ITEMS[letter] for letter in TAKEN[kind]]
        for _ in range(4):
            add(kind, draw_number(draw), [])
            add(kind, 0, [])
            add(kind, 0, good)
            # The shelf number comes before the items.
            add(kind, 0, [good[0]._replace(shear_modulus=79)])
    add("bearings", 0, [BEARING] * 201)
    for letter, item in GOOD_ITEMS.items():
        kinds = [kind for kind in TAKEN if letter in TAKEN[kind]]
        for field in item._fields:
            for value in outside_values(item, field):
                for kind in kinds:
                    bad = item._replace(**{field: value})
                    before = after = 0
                    if kind != "range":
                        before, after = draw.randint(0, 3), draw.randint(0, 2)
                    add(kind, draw_number(draw), [item] * before + [bad] + [item] * after)
        # The covers too thick for their layers.
        if letter != "P":
            for layer, cover in ((8, 6), (10, 8), (4, 3), (15, 11), (16, 12)):
                for kind in kinds:
                    add(kind, draw_number(draw), [item._replace(layer_thickness=layer,
                                                                cover_thickness=cover)])
    # Several outside: the first of them, and its first field.
    for _ in range(40):
        kind = draw.choice(("bearings", "pads"))
        items = [relative(draw, GOOD_ITEMS[draw.choice(TAKEN[kind])]) for _ in range(6)]
        for place in draw.sample(range(6), draw.randint(2, 3)):
            for field in draw.sample(items[place]._fields, draw.randint(1, 3)):
                value = draw.choice(outside_values(items[place], field))
                items[place] = items[place]._replace(**{field: value})
        add(kind, draw_number(draw), items)
    add("bearings", 5, [BEARING] * 199 + [BEARING._replace(yield_strength=29)])
    add("pads", 5, [PAD] * 199 + [PAD._replace(length=81)])
    return found


def limits_of_items(draw):
    """Shelves of items at both ends of their ranges, which are opened."""
    found = []
    for letter, item in GOOD_ITEMS.items():
        kinds = [kind for kind in TAKEN if letter in TAKEN[kind]]
        for field in item._fields:
            for value in item_ranges(item)[field]:
                changed = item._replace(**{field: value})
                if field == "cover_thickness" and value == 11:
                    changed = changed._replace(layer_thickness=16)
                if field == "layer_thickness" and value == 4 and letter != "P":
                    changed = changed._replace(cover_thickness=2)
                for kind in kinds:
                    day = Day(draw, kind, draw_number(draw), [changed])
                    day.receive(len(day.places) - 1, 1)
                    day.pick(PAD_CASE if letter == "P" else GOOD_CASE)
                    day.ask(AskPlaces())
                    day.ask(AskPlace(len(day.places) - 1))
                    day.ask(AskPlace(len(day.places)))
                    found.append(day.lines)
    # And shelves of which nothing is asked.
    for kind, taken in TAKEN.items():
        found.append(opening_lines(kind, draw_number(draw), [GOOD_ITEMS[taken[0]]]))
    return found


# --------------------------------------------------------------------------
# Faults and blanks.
# --------------------------------------------------------------------------

GOOD_LINES = {
    "bearings": "bearings 7", "pads": "pads 7", "range": "range 7",
    "R": item_text(BEARING), "C": item_text(CIRCLE), "P": item_text(PAD),
    "receive": "receive 0 1", "pick": call_text(Pick(GOOD_CASE)), "order": "order 7 0",
    "return": "return 7 0", "place": "place 0", "places": "places",
}
CALLS = ("receive", "pick", "order", "return", "place", "places")


def greatest_values(first_word):
    room, _ = shelfday.ENTRIES[first_word.encode()]
    return room


def faulty_lines(draw):
    """Pairs of the kind of entry and a line of it that cannot be read."""
    found = []
    for word, good in GOOD_LINES.items():
        words = good.encode().split(b" ")
        for place, greatest in enumerate(greatest_values(word), start=1):
            found.append((word, b" ".join(words[:place])))
            for wrong in (draw.choice(NOT_NUMBERS), str(greatest + 1).encode(),
                          draw.choice((b"9" * 40, b"1" + b"0" * 30, b"4294967303",
                                       b"18446744073709551623", b"0" * 9 + b"5" * 11))):
                found.append((word, b" ".join(words[:place] + [wrong] + words[place + 1:])))
            # Behind a faulty word others may be at fault as well.
            if place < len(words) - 1:
                found.append((word, b" ".join(words[:place] + [b"-1", b"x"])))
        for more in (b"0", b"x", b"9" * 20):
            found.append((word, good.encode() + b" " + more))
    for word in NOT_KINDS + [b"Bearings", b"bearing", b"bearings:", b"picks", b"Pick",
                             b"received", b"placess", b"PLACES", b"orders", b"returns",
                             b"ranges", b"pad", b"shelf", b"judge", b"place\x00", b"#"]:
        found.append(("no kind", word + draw.choice((b" 7", b" 0 1", b"", b" 20 40 8 100"))))
    for blank in (b"", b" ", b"\t", b"\r", b" \r\t ", b"", b""):
        found.append(("blank", blank))
    return found


def short_day(draw, kind):
    """A section that is right, with room for a fault."""
    items, _ = family(draw, TAKEN[kind], 1 if kind == "range" else draw.randint(1, 3))
    return opening_lines(kind, draw_number(draw), items), some_calls(draw, kind)


def insert(draw, lines, calls, line, word):
    """Puts a line among the items or among the calls, wherever such a line belongs."""
    top, rest = list(lines), list(calls)
    if word in GOOD_ITEMS or (word not in CALLS and draw.random() < 0.4):
        top.insert(draw.randint(1, len(top)), line)
    else:
        rest.insert(draw.randint(0, len(rest)), line)
    return top + rest


def faults(draw):
    found = []
    for word, line in faulty_lines(draw):
        kinds = [kind for kind in TAKEN if word not in GOOD_ITEMS or word in TAKEN[kind]]
        kind = draw.choice(kinds)
        found.append(insert(draw, *short_day(draw, kind), line, word))
    # Items that a shelf does not take, in front of those that it does and behind.
    for kind, taken in TAKEN.items():
        for letter, item in GOOD_ITEMS.items():
            if letter in taken and kind != "range":
                continue
            for position in (1, 2):
                lines, calls = short_day(draw, kind)
                lines.insert(position, item_text(item))
                found.append(lines + calls)
    # Items behind a call of each kind.
    for kind, taken in TAKEN.items():
        for word in CALLS:
            lines, calls = short_day(draw, kind)
            item = GOOD_ITEMS[draw.choice(taken)]
            if kind == "range":
                lines = lines[:1]
            found.append(lines + [GOOD_LINES[word], item_text(item)] + calls)
    # Two faults of different kinds, in either order.
    unreadable = [line for _, line in faulty_lines(draw)]
    for _ in range(40):
        kind = draw.choice(list(TAKEN))
        lines, calls = short_day(draw, kind)
        misplaced = "P 20 40 8 100" if kind != "pads" else "C 32 5 8 4 8 100 36"
        for line in (misplaced, draw.choice(unreadable), draw.choice(unreadable)):
            lines.insert(draw.randint(1, len(lines)), line)
        found.append(lines + calls)
    # At fault and refused: the fault comes first, whatever would be refused.
    for kind, taken in TAKEN.items():
        bad = GOOD_ITEMS[taken[0]]._replace(shear_modulus=0)
        for line in (b"receive 0", b"", b"places 1", b"place -1", b"order 7 4294967296"):
            found.append([f"{kind} 0", item_text(bad), line])
            found.append([f"{kind} 7", line])
            found.append([f"{kind} 7", item_text(bad), "receive 0 1", line, "places"])
    found.append(opening_lines("pads", 7, [PAD] * 201) + ["receive 0 x"])
    # An opening that cannot be read begins no section, and what follows it
    # belongs to the section in front.
    for line in (b"bearings", b"pads x", b"range 7 8", b"bearings 4294967296", b"range -1",
                 b"Pads 8", b"pads 8 P", b"range\x0b7"):
        day = Day(draw, "bearings", 7, [BEARING])
        day.receive(0, 1)
        found.append(day.lines + [line, item_text(PAD), "receive 0 1", "place 0"])
        found.append(["pads 9", line, item_text(PAD)])
    return found


def respaced(draw, line):
    """The same words with other blanks and with zeros in front of numbers."""
    words = words_of(line)
    changed = [b"0" * draw.choice((0, 0, 1, 3, 20)) + word if word.isdigit() else word
               for word in words]
    blanks = (b" ", b"\t", b"  ", b"\r", b" \t ", b"\r ", b" " * 9)
    text = draw.choice((b"", b"", b" ", b"\t", b"\r")) + changed[0]
    for word in changed[1:]:
        text += draw.choice(blanks) + word
    return text + draw.choice((b"", b"", b" ", b"\r", b"\t \r"))


def blank_days(draw):
    found = []
    for number in range(40):
        kind = list(TAKEN)[number % 3]
        lines = range_day(draw) if kind == "range" else list_day(draw, kind)
        if number < 10:
            found.append([line.encode() + b"\r" for line in lines])
        else:
            found.append([respaced(draw, line.encode()) for line in lines])
    # The greatest values that the fields can hold.
    top = FOUR_BYTES
    found.append([f"pads {top}", item_text(PAD), f"receive {top} {top}", f"receive 0 {top}",
                  f"order {top} {top}", f"return {top} 0", f"place {top}", "places",
                  f"pick {top} {top} 65535 65535 65535 255 255",
                  "pick 0 0 65535 65535 65535 255 255", "pick 0 0 0 0 0 255 0",
                  "pick 0 0 0 0 0 0 0", "receive 0 1", "pick 0 0 0 0 0 0 0",
                  f"order {top} 0", "place 0"])
    for first in ("R", "C", "P"):
        kind = "pads" if first == "P" else "bearings"
        count = len(GOOD_ITEMS[first])
        found.append([f"{kind} {top}", " ".join([first] + ["255"] * count), "places"])
        found.append([f"{kind} {top}", " ".join([first] + ["0"] * count), "places"])
    found.append([b"bearings " + b"0" * 2_000 + b"7", item_text(BEARING), "places"])
    found.append(["bearings 7", item_text(BEARING), b"place " + b"7" * 2_000])
    found.append(["bearings 7", item_text(BEARING), b"places" + b" " * 2_000, "place 0"])
    found.append(["bearings 7", item_text(BEARING), bytes(n for n in range(256) if n != 10)])
    return found


# --------------------------------------------------------------------------
# All sections.
# --------------------------------------------------------------------------

def the_example():
    """Two bearings of equal height, of which the plan number decides."""
    day = Day(None, "bearings", 7, [BEARING, CIRCLE])
    day.receive(0, 1)
    day.receive(1, 1)
    for place in (0, 1):
        slip = day.pick(GOOD_CASE)
        assert slip == Slip(7, place)
        day.ask(Order(7, place))
    assert day.pick(GOOD_CASE) == Refused(8)
    return day.lines


def page_sections():
    """The inputs of the page and the sample that begin with an opening."""
    # Lines in front of the first opening can only stand at the very beginning.
    return [lines_of(data) for data in page_examples.shelf_inputs()
            if shelfday.fault_of(shelfday.sections_of(data)[0]) is None]


def families():
    draw = random.Random(SEED)
    made = {
        "the example": [the_example()],
        "examples of the page, sample": page_sections(),
        "days of bearings": [list_day(draw, "bearings") for _ in range(780)],
        "days of pads": [list_day(draw, "pads") for _ in range(430)],
        "days of ranges": [range_day(draw) for _ in range(420)],
        "ties": ([tie_day(draw, "bearings", other_plan) for _ in range(110)]
                 + [tie_day(draw, "bearings", same_height) for _ in range(50)]
                 + [tie_day(draw, "bearings", same_plan_number) for _ in range(50)]
                 + [tie_day(draw, "pads", other_plan) for _ in range(40)]
                 + [tie_day(draw, "pads", same_plan_number) for _ in range(30)]),
        "edges of articles": edge_days(draw),
        "receipts on the limit": [limit_day(draw, kind)
                                  for kind in TAKEN for _ in range(40)],
        "slips": [slip_day(draw, kind) for kind in TAKEN for _ in range(60)],
        "long shelves": long_days(draw),
        "limits of items": limits_of_items(draw),
        "openings refused": refused_openings(draw),
        "faults": faults(draw),
        "blanks and zeros": blank_days(draw),
    }
    mixed = [as_bytes(lines) for name, found in made.items() for lines in found]
    # All but the example are mixed, so that faulty sections stand among right ones.
    front, rest = mixed[:1], mixed[1:]
    draw.shuffle(rest)
    # The last line has no newline behind it.
    last = as_bytes(["pads 8", item_text(PAD), "receive 0 1", call_text(Pick(PAD_CASE)),
                     "return 8 0", "place 0"])
    return made, front + rest + [last]


def print_counts(made, counts, data, printed):
    for name, found in made.items():
        print(f"{len(found):6} {name}")
    for name in sorted(counts):
        print(f"{counts[name]:6} {name}")
    print(f"{len(lines_of(data)):6} lines in, {len(data)} bytes")
    print(f"{len(lines_of(printed)):6} lines out, {len(printed)} bytes")


def main(arguments):
    if arguments not in (["--write"], ["--check"], ["--count"]):
        print(__doc__, file=sys.stderr)
        return 2
    made, sections = families()
    data = b"\n".join(line for lines in sections for line in lines)
    printed = shelfday.answers(data)
    files = {"stdin": data, "stdout": printed}
    counts = count_all(data)
    found = shortfalls(counts)
    if arguments == ["--count"]:
        print_counts(made, counts, data, printed)
    elif arguments == ["--write"] and not found:
        stored.write(FOLDER, files)
    elif arguments == ["--check"]:
        found += stored.differences(FOLDER, files)
    for text in found:
        print(text)
    return 1 if found else 0


if __name__ == "__main__":
    sys.exit(main(sys.argv[1:]))
