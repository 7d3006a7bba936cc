"""Judges bearings and pads, one judgement a line, from standard input.

The layout is that of docs/JUDGE.md (one output line for each input line).  Input is
taken as bytes, since a user's file may hold any.
"""

import sys

from articles import (KINDS, Case, articles, first_field_outside, held_articles,
                      loads_within, rest_of_case_within, verdict)

BYTE = 255
TWO_BYTES = 65_535
FOUR_BYTES = 4_294_967_295

# The greatest value that each field of a case can hold.
CASE_ROOM = {
    "dead_load": FOUR_BYTES,
    "live_load": FOUR_BYTES,
    "movement": TWO_BYTES,
    "rotation_x": TWO_BYTES,
    "rotation_z": TWO_BYTES,
    "deck": BYTE,
    "shear": BYTE,
}

DIGITS = frozenset(b"0123456789")


def lines_of(data):
    pieces = data.split(b"\n")
    # A final newline makes no further line, nor does empty input.
    if pieces[-1] == b"":
        pieces.pop()
    return pieces


def words_of(line):
    # Only space, tab and carriage return part words; bytes.split() with no
    # argument would also cut at vertical tabs and form feeds.
    for blank in (b"\t", b"\r"):
        line = line.replace(blank, b" ")
    return [word for word in line.split(b" ") if word]


class FaultyWord(Exception):
    """Says which word of a line is at fault, and how."""


def number_in(word, place, greatest):
    if not all(byte in DIGITS for byte in word):
        raise FaultyWord(f"word {place} is not a number")
    significant = word.lstrip(b"0")
    # Length first: a user may type any number of digits.
    if len(significant) > len(str(greatest)) or int(significant or b"0") > greatest:
        raise FaultyWord(f"word {place} is too large")
    return int(significant or b"0")


def numbers_in(words, room):
    """The numbers in words 2 on; `room` is the greatest value of each."""
    numbers = []
    for place, greatest in enumerate(room, start=2):
        if place > len(words):
            raise FaultyWord(f"word {place} is missing")
        numbers.append(number_in(words[place - 1], place, greatest))
    wanted = 1 + len(room)
    if len(words) > wanted:
        raise FaultyWord(f"word {wanted + 1} is one too many")
    return numbers


def read_by_kind(line, kinds):
    """What a line holds: `kinds` has, for each first word, the room of its
    numbers and what is made of them."""
    words = words_of(line)
    if not words:
        raise FaultyWord("word 1 is missing")
    if words[0] not in kinds:
        raise FaultyWord("word 1 is no kind")
    room, made = kinds[words[0]]
    return made(*numbers_in(words, room))


def item_room(kind):
    return [BYTE] * len(kind._fields)


def case_room():
    return [CASE_ROOM[name] for name in Case._fields]


def judgement_of(kind):
    fields = len(kind._fields)
    return lambda *numbers: (kind(*numbers[:fields]), Case(*numbers[fields:]))


JUDGEMENTS = {letter.encode(): (item_room(kind) + case_room(), judgement_of(kind))
              for letter, kind in KINDS.items()}


def read_judgement(line):
    """The item and case that a line holds."""
    return read_by_kind(line, JUDGEMENTS)


def answer_for(item, case):
    place = first_field_outside(item)
    if place is not None:
        return f"refused 2: field {place} of the item is outside its limits"
    if not loads_within(case):
        return "refused 6: the loads are outside their limit"
    if not rest_of_case_within(case):
        return "refused 7: movement, rotation or mark is outside its range"
    held = held_articles(item, case)
    names = [name for name, _ in articles(item)]
    why = ", ".join(f"{name} {'held' if holds else 'violated'}"
                    for name, holds in zip(names, held))
    return f"verdict {verdict(held)}: {why}"


def answer(line):
    try:
        item, case = read_judgement(line)
    except FaultyWord as fault:
        return f"no judgement: {fault}"
    return answer_for(item, case)


def answers(data):
    return b"".join(answer(line).encode() + b"\n" for line in lines_of(data))


if __name__ == "__main__":
    sys.stdout.buffer.write(answers(sys.stdin.buffer.read()))
