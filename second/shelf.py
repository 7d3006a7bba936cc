"""Shelves, picks and slips, by the account of answers.

No count is kept.  A shelf is its opening and its account, the list of the calls
made so far, each with its answer.  What is on hand and what is out at a place
is reckoned from that list whenever a call asks for it.
"""

from dataclasses import dataclass
from functools import lru_cache

from articles import (Case, first_field_outside, height_in_sixty_fourths,
                      held_articles, loads_within, plan_number,
                      rest_of_case_within, verdict)

MOST_ITEMS = 200
MOST_AT_A_PLACE = 60_000


# --------------------------------------------------------------------------
# Openings, calls and answers.  They are dataclasses and no named tuples, since
# tuples of equal numbers are equal, whatever they are named.
# --------------------------------------------------------------------------

@dataclass(frozen=True)
class Opening:
    kind: str              # "bearings", "pads" or "range"
    number: int
    items: tuple           # as listed; of a range, its one bearing


@dataclass(frozen=True)
class Receive:
    place: int
    count: int


@dataclass(frozen=True)
class Pick:
    case: Case


@dataclass(frozen=True)
class Order:
    number: int
    place: int


@dataclass(frozen=True)
class Return:
    number: int
    place: int


@dataclass(frozen=True)
class AskPlace:
    place: int


@dataclass(frozen=True)
class AskPlaces:
    pass


@dataclass(frozen=True)
class Done:
    pass


@dataclass(frozen=True)
class Slip:
    number: int
    place: int


@dataclass(frozen=True)
class Place:
    item: tuple
    on_hand: int
    out: int


@dataclass(frozen=True)
class Places:
    places: int
    number: int


@dataclass(frozen=True)
class Refused:
    refusal: int


@dataclass(frozen=True)
class ItemRefused:
    """Refusal 2 of an opening."""
    place: int
    field: int


# --------------------------------------------------------------------------
# Opening.
# --------------------------------------------------------------------------

def opening_refusal(opening):
    """Why the shelf is not opened; None where it is."""
    if opening.number == 0:
        return Refused(3)
    if not 1 <= len(opening.items) <= MOST_ITEMS:
        return Refused(1)
    for place, item in enumerate(opening.items):
        field = first_field_outside(item)
        if field is not None:
            return ItemRefused(place, field)
    return None


def items_on(opening):
    """The item at each place."""
    if opening.kind == "range":
        bearing, = opening.items
        return [bearing._replace(layers=place + 1) for place in range(bearing.layers)]
    return list(opening.items)


# --------------------------------------------------------------------------
# The account: a list of pairs (call, answer).
# --------------------------------------------------------------------------

def received(account, place):
    return sum(call.count for call, answer in account
               if type(call) is Receive and answer == Done() and call.place == place)


def picked(account, place):
    return sum(1 for call, answer in account
               if type(call) is Pick and type(answer) is Slip and answer.place == place)


def ended_by(kind, account, place):
    return sum(1 for call, answer in account
               if type(call) is kind and answer == Done() and call.place == place)


def returned(account, place):
    return ended_by(Return, account, place)


def ordered(account, place):
    return ended_by(Order, account, place)


def on_hand(account, place):
    return received(account, place) - picked(account, place) + returned(account, place)


def out(account, place):
    return picked(account, place) - returned(account, place) - ordered(account, place)


# --------------------------------------------------------------------------
# Calls.
# --------------------------------------------------------------------------

# Many picks ask about the same item and case, and fractions are slow.  Items are
# tuples, so the cache is told to heed their kinds.
@lru_cache(maxsize=None, typed=True)
def verdict_on(item, case):
    return verdict(held_articles(item, case))


def passes(item, case):
    return verdict_on(item, case) == 0


def pick_order(shelf, place):
    """The pick names the place for which this is least."""
    item = shelf.items[place]
    return height_in_sixty_fourths(item), plan_number(item), place


class Shelf:
    def __init__(self, opening):
        assert opening_refusal(opening) is None
        self.number = opening.number
        self.items = items_on(opening)
        self.account = []

    def ask(self, call):
        answer = self.answer_to(call)
        self.account.append((call, answer))
        return answer

    def has(self, place):
        return place < len(self.items)

    def answer_to(self, call):
        if type(call) is Receive:
            return self.answer_to_receipt(call)
        if type(call) is Pick:
            return self.answer_to_pick(call.case)
        if type(call) in (Order, Return):
            return self.answer_to_end(call)
        if type(call) is AskPlace:
            return self.answer_to_place(call.place)
        return Places(len(self.items), self.number)

    def answer_to_receipt(self, call):
        if not self.has(call.place):
            return Refused(4)
        there = on_hand(self.account, call.place) + out(self.account, call.place)
        if call.count == 0 or there + call.count > MOST_AT_A_PLACE:
            return Refused(5)
        return Done()

    def passing_places(self, case):
        return [place for place, item in enumerate(self.items)
                if on_hand(self.account, place) > 0 and passes(item, case)]

    def answer_to_pick(self, case):
        if not loads_within(case):
            return Refused(6)
        if not rest_of_case_within(case):
            return Refused(7)
        places = self.passing_places(case)
        if not places:
            return Refused(8)
        return Slip(self.number, min(places, key=lambda place: pick_order(self, place)))

    def answer_to_end(self, call):
        """A slip is ended by an order or by a return."""
        if call.number != self.number:
            return Refused(9)
        if not self.has(call.place) or out(self.account, call.place) == 0:
            return Refused(10)
        return Done()

    def answer_to_place(self, place):
        if not self.has(place):
            return Refused(4)
        return Place(self.items[place], on_hand(self.account, place),
                     out(self.account, place))
