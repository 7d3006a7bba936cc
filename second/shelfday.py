"""Days of shelves: openings and calls from standard input, answers to standard output.

The layout is that of docs/SHELFDAY.md.  The input is cut into sections, one for
each opening, and each section is read whole before any of it is run.
"""

import sys
from dataclasses import dataclass

from articles import KINDS, Case, kind_letter
from judge import (FOUR_BYTES, FaultyWord, case_room, item_room, lines_of,
                   read_by_kind)
from shelf import (AskPlace, AskPlaces, Done, ItemRefused, Opening, Order, Pick,
                   Place, Places, Receive, Refused, Return, Shelf, Slip,
                   opening_refusal)


@dataclass(frozen=True)
class OpeningLine:
    kind: str
    number: int


# For each kind of shelf, the letters of the items that it takes.
TAKEN = {"bearings": "RC", "pads": "P", "range": "R"}


def opening_lines_of(kind):
    return lambda number: OpeningLine(kind, number)


# For each first word, the greatest value of each number and what they make.
ENTRIES = {
    **{kind.encode(): ([FOUR_BYTES], opening_lines_of(kind)) for kind in TAKEN},
    **{letter.encode(): (item_room(kind), kind) for letter, kind in KINDS.items()},
    b"receive": ([FOUR_BYTES] * 2, Receive),
    b"pick": (case_room(), lambda *numbers: Pick(Case(*numbers))),
    b"order": ([FOUR_BYTES] * 2, Order),
    b"return": ([FOUR_BYTES] * 2, Return),
    b"place": ([FOUR_BYTES], AskPlace),
    b"places": ([], AskPlaces),
}


def entry_in(line):
    """What a line reads as: an opening line, an item, a call or a fault."""
    try:
        return read_by_kind(line, ENTRIES)
    except FaultyWord as fault:
        return fault


def sections_of(data):
    """Lists of (line number, entry); an opening line begins each but perhaps the first."""
    sections = []
    for number, line in enumerate(lines_of(data), start=1):
        entry = entry_in(line)
        if type(entry) is OpeningLine or not sections:
            sections.append([])
        sections[-1].append((number, entry))
    return sections


def is_item(entry):
    return type(entry) in KINDS.values()


def out_of_order(entry, earlier):
    """Whether a readable entry may not stand behind the earlier ones of its section."""
    if not earlier:
        return type(entry) is not OpeningLine
    if not is_item(entry):
        return False
    kind = earlier[0].kind
    # The first item behind a call is at fault, so it is enough to look at the last.
    behind_call = len(earlier) > 1 and not is_item(earlier[-1])
    second_of_range = kind == "range" and len(earlier) > 1
    return kind_letter(entry) not in TAKEN[kind] or behind_call or second_of_range


def fault_of(section):
    """The section's first fault; None where it has none."""
    earlier = []
    for number, entry in section:
        if type(entry) is FaultyWord:
            return f"line {number}, {entry}"
        if out_of_order(entry, earlier):
            return f"line {number} is out of order"
        earlier.append(entry)
    return None


def parts_of(section):
    """Opening and calls of a section that is not at fault."""
    first, *others = (entry for _, entry in section)
    items = tuple(entry for entry in others if is_item(entry))
    calls = [entry for entry in others if not is_item(entry)]
    return Opening(first.kind, first.number, items), calls


REFUSALS = {
    1: "no item, or more than 200",
    3: "the shelf number is 0",
    4: "the place is off the shelf",
    5: "a receipt of 0, or one above 60000 at its place",
    6: "the loads are outside their limit",
    7: "movement, rotation or mark is outside its range",
    8: "no item on hand passes",
    9: "the slip is of another shelf",
    10: "the place is off the shelf or has none out",
}


def item_text(item):
    return " ".join([kind_letter(item)] + [str(value) for value in item])


def answer_text(answer):
    if type(answer) is Done:
        return "done"
    if type(answer) is Slip:
        return f"slip: shelf {answer.number}, place {answer.place}"
    if type(answer) is Place:
        return (f"place: {item_text(answer.item)}, "
                f"on hand {answer.on_hand}, out {answer.out}")
    if type(answer) is Places:
        return f"places: {answer.places}, shelf {answer.number}"
    if type(answer) is ItemRefused:
        return (f"refused 2: field {answer.field} of the item at place "
                f"{answer.place} is outside its limits")
    assert type(answer) is Refused
    return f"refused {answer.refusal}: {REFUSALS[answer.refusal]}"


def section_lines(section):
    """The lines that are printed for a section."""
    fault = fault_of(section)
    if fault is not None:
        return [f"no shelf: {fault}"]
    opening, calls = parts_of(section)
    refusal = opening_refusal(opening)
    if refusal is not None:
        return [answer_text(refusal)]
    shelf = Shelf(opening)
    opened = f"opened: shelf {shelf.number}, {len(shelf.items)} places"
    return [opened] + [answer_text(shelf.ask(call)) for call in calls]


def answers(data):
    return b"".join(line.encode() + b"\n"
                    for section in sections_of(data) for line in section_lines(section))


if __name__ == "__main__":
    sys.stdout.buffer.write(answers(sys.stdin.buffer.read()))
