"""What the sections of an input of `shelfday` reach, counted from its text.

`LEAST` says how often the stored input must reach each thing.
"""

from collections import Counter

import shelfday
from articles import KINDS, item_within, kind_letter
from judge import FaultyWord, lines_of, words_of
from make_judge_cases import PARTS
from shelf import (MOST_AT_A_PLACE, AskPlace, AskPlaces, Done, ItemRefused, Order,
                   Pick, Receive, Refused, Return, Shelf, Slip, on_hand,
                   opening_refusal, out, passes, pick_order, picked, verdict_on)
from shelfday import ENTRIES, TAKEN

CALL_WORDS = {Receive: "receive", Pick: "pick", Order: "order", Return: "return",
              AskPlace: "place", AskPlaces: "places"}


def call_word(call):
    return CALL_WORDS[type(call)]


def is_end(call):
    return type(call) in (Order, Return)


def outcome(call, answer):
    if type(answer) is Refused:
        return f"{call_word(call)} refused by {answer.refusal}"
    return f"{call_word(call)} granted"


def place_of(call, answer):
    """The place that a call was about, or None."""
    return answer.place if type(answer) is Slip else getattr(call, "place", None)


# --------------------------------------------------------------------------
# Calls.  The shelf's account ends in front of the call that is counted.
# --------------------------------------------------------------------------

def count_question(counts, shelf, call, answer):
    """A question that is answered right behind another call, about the same place."""
    if not shelf.account or type(answer) is Refused:
        return
    before = shelf.account[-1]
    about = place_of(*before)
    if type(call) is AskPlace and about is not None and shelf.has(about):
        if call.place != about:
            return
    counts[f"{call_word(call)} asked after {outcome(*before)}"] += 1


def count_receipt(counts, shelf, call):
    if not shelf.has(call.place):
        return
    is_out = out(shelf.account, call.place)
    total = on_hand(shelf.account, call.place) + is_out + call.count
    some = ", some of it out" if is_out else ""
    if call.count == 0:
        counts["receipt of 0"] += 1
    elif total == MOST_AT_A_PLACE:
        counts[f"receipt to 60,000{some}"] += 1
    elif total == MOST_AT_A_PLACE + 1:
        counts[f"receipt to 60,001{some}"] += 1
    elif total > MOST_AT_A_PLACE:
        counts["receipt further above 60,000"] += 1


def count_pick(counts, shelf, kind, case, answer):
    if answer in (Refused(6), Refused(7)):
        return
    places = range(len(shelf.items))
    held = [place for place in places if on_hand(shelf.account, place) > 0]
    verdicts = {place: verdict_on(shelf.items[place], case) for place in held}
    if type(answer) is Refused:
        counts["refused by 8: " + ("items on hand fail" if held else "nothing on hand")] += 1
        for place in held:
            counts[f"refused by 8: {kind_letter(shelf.items[place])} "
                   f"fails article {verdicts[place]}"] += 1
        if any(picked(shelf.account, place) > 0 and passes(shelf.items[place], case)
               for place in places):
            counts["refused by 8: what passes is out or ordered"] += 1
        return
    named = answer.place
    counts[f"pick granted on a shelf of {kind}"] += 1
    rank = {place: pick_order(shelf, place) for place in places}
    passing = [place for place in held if verdicts[place] == 0]
    assert named in passing and all(rank[named] <= rank[place] for place in passing)
    for place in held:
        if verdicts[place] != 0 and rank[place] < rank[named]:
            counts[f"pick passes over {kind_letter(shelf.items[place])} "
                   f"that fails article {verdicts[place]}"] += 1
    # Verdicts are slow, so long shelves are left out here.
    if len(places) <= 20 and any(
            rank[place] < rank[named] and place not in held
            and passes(shelf.items[place], case) for place in places):
        counts["pick: a lower one passes and is not on hand"] += 1
    if rank[passing[0]][0] > rank[named][0]:
        counts["pick: the first that passes is not the lowest"] += 1
    count_ties(counts, shelf, named, passing, rank)
    count_after(counts, shelf, named, held, case)


def count_ties(counts, shelf, named, passing, rank):
    level = [place for place in passing if rank[place][0] == rank[named][0]]
    if any(rank[place][1] > rank[named][1] for place in level):
        counts["pick: plan number decides"] += 1
        if level[0] != named:
            counts["pick: plan number decides against the front"] += 1
        if len({kind_letter(shelf.items[place]) for place in level}) == 2:
            counts["pick: plan number decides between R and C for "
                   f"{kind_letter(shelf.items[named])}"] += 1
    equal = [place for place in level if rank[place][1] == rank[named][1]]
    if len(equal) > 1:
        counts["pick: the front decides"] += 1
        if len({shelf.items[place] for place in equal}) > 1:
            counts["pick: the front decides between different items"] += 1


def count_after(counts, shelf, named, held, case):
    """What went before a granted pick."""
    account = shelf.account
    named_before = [answer.place for call, answer in account
                    if call == Pick(case) and type(answer) is Slip]
    if named_before and named_before[-1] != named and named_before[-1] not in held:
        counts["pick: the place named before is empty, the next is named"] += 1
    if on_hand(account, named) == 1:
        counts["pick: takes the last"] += 1
        brought = [call for call, answer in account
                   if type(call) in (Receive, Return) and answer == Done()
                   and call.place == named]
        if type(brought[-1]) is Return:
            counts["pick: names the place again after a return"] += 1


def count_end(counts, shelf, call, answer):
    account, place = shelf.account, call.place
    if call.number != shelf.number:
        some = shelf.has(place) and out(account, place) > 0
        counts[f"refused by 9: {'one' if some else 'none'} out at the place"] += 1
        return
    if not shelf.has(place):
        counts["refused by 10: off the shelf"] += 1
        return
    earlier = [(other, given) for other, given in account
               if is_end(other) and other.place == place and other.number == shelf.number]
    ended = [call_word(other) for other, given in earlier if given == Done()]
    if type(answer) is Refused:
        counts["refused by 10: none out"] += 1
        if ended:
            counts[f"slip spent by {ended[-1]}, then {call_word(call)}: refused"] += 1
        else:
            counts["slip made up, never handed over: refused"] += 1
        return
    # Nothing was ended before, so what was refused was made up.
    if earlier and not ended:
        counts["slip made up and refused, granted after a pick"] += 1
    if ended:
        counts["slip with the numbers of a spent one: granted"] += 1
    if out(account, place) > 1:
        counts["slip ended while more are out at its place"] += 1


def count_call(counts, shelf, kind, call, answer):
    counts[outcome(call, answer)] += 1
    if type(call) is Receive:
        count_receipt(counts, shelf, call)
    elif type(call) is Pick:
        count_pick(counts, shelf, kind, call.case, answer)
    elif is_end(call):
        count_end(counts, shelf, call, answer)
    else:
        count_question(counts, shelf, call, answer)


# --------------------------------------------------------------------------
# Openings and faults.
# --------------------------------------------------------------------------

def count_opening(counts, opening, refusal):
    kind, size = opening.kind, len(opening.items)
    if kind == "range" and size == 1:
        counts[f"range with n = {opening.items[0].layers}"] += 1
    elif size in (0, 1, 199, 200, 201):
        counts[f"shelf of {size} items"] += 1
    if refusal is None:
        counts["section opened"] += 1
        counts[f"section opened: {kind}"] += 1
    elif type(refusal) is ItemRefused:
        counts["opening refused by 2"] += 1
        counts[f"opening of {kind} refused by 2: "
               f"{kind_letter(opening.items[refusal.place])} field {refusal.field}"] += 1
        if sum(not item_within(item) for item in opening.items) > 1:
            counts["opening refused by 2: several items outside"] += 1
    else:
        counts[f"opening refused by {refusal.refusal}"] += 1
        counts[f"opening of {kind} refused by {refusal.refusal}"] += 1
        if refusal == Refused(1):
            counts["opening refused by 1: " + ("more than 200" if size else "no item")] += 1


def first_word(line):
    """The first word of a line where it is that of an entry, else None."""
    words = words_of(line)
    return words[0].decode() if words and words[0] in ENTRIES else None


def count_fault(counts, section, lines):
    """The first fault of a section, and the reason where it is out of order."""
    counts["section at fault"] += 1
    earlier = []
    for number, entry in section:
        if type(entry) is FaultyWord:
            word = first_word(lines[number - 1])
            counts[f"fault: {word}, {entry}" if word else f"fault: {entry}"] += 1
            break
        if shelfday.out_of_order(entry, earlier):
            counts[f"fault: {reason_out_of_order(entry, earlier)}"] += 1
            break
        earlier.append(entry)
    if any(type(entry) is FaultyWord and first_word(lines[number - 1]) in TAKEN
           for number, entry in section):
        counts["section with an opening line that cannot be read"] += 1


def reason_out_of_order(entry, earlier):
    if not earlier:
        return "first and no opening"
    kind, last = earlier[0].kind, earlier[-1]
    if kind_letter(entry) not in TAKEN[kind]:
        return f"{kind_letter(entry)} on a shelf of {kind}"
    if type(last) in CALL_WORDS:
        return f"item behind {call_word(last)}"
    return "second item of a range"


def count_all(data):
    counts = Counter()
    lines = lines_of(data)
    for section in shelfday.sections_of(data):
        counts["section"] += 1
        if shelfday.fault_of(section) is not None:
            count_fault(counts, section, lines)
            continue
        opening, calls = shelfday.parts_of(section)
        refusal = opening_refusal(opening)
        count_opening(counts, opening, refusal)
        if refusal is not None:
            continue
        shelf = Shelf(opening)
        for call in calls:
            answer = shelf.answer_to(call)
            count_call(counts, shelf, opening.kind, call, answer)
            shelf.account.append((call, answer))
        counts["call run"] += len(calls)
        for place in range(len(shelf.items)):
            held, is_out = on_hand(shelf.account, place), out(shelf.account, place)
            assert held >= 0 and is_out >= 0 and held + is_out <= MOST_AT_A_PLACE
    return counts


# --------------------------------------------------------------------------
# How often each thing must be reached.
# --------------------------------------------------------------------------

OUTCOMES = (["receive granted", "receive refused by 4", "receive refused by 5",
             "pick granted", "pick refused by 6", "pick refused by 7", "pick refused by 8"]
            + [f"{word} {what}" for word in ("order", "return")
               for what in ("granted", "refused by 9", "refused by 10")]
            + ["place granted", "place refused by 4", "places granted"])

LEAST = {
    "section": 2_900,
    "section opened: bearings": 900,
    "section opened: pads": 500,
    "section opened: range": 450,
    "section at fault": 250,
    "opening refused by 1": 20,
    "opening refused by 1: no item": 9,
    "opening refused by 1: more than 200": 6,
    "opening refused by 2": 100,
    "opening refused by 2: several items outside": 20,
    "opening refused by 3": 20,
    "shelf of 1 items": 100,
    "shelf of 200 items": 6,
    "shelf of 201 items": 4,
    "range with n = 0": 1,
    "range with n = 1": 2,
    "range with n = 20": 10,
    "range with n = 21": 1,
    "receipt of 0": 30,
    "receipt to 60,000": 40,
    "receipt to 60,001": 40,
    "receipt to 60,000, some of it out": 20,
    "receipt to 60,001, some of it out": 20,
    "receipt further above 60,000": 40,
    "pick granted on a shelf of bearings": 1_000,
    "pick granted on a shelf of pads": 500,
    "pick granted on a shelf of range": 400,
    "pick: the first that passes is not the lowest": 200,
    "pick: a lower one passes and is not on hand": 200,
    "pick: plan number decides": 200,
    "pick: plan number decides against the front": 100,
    "pick: plan number decides between R and C for R": 40,
    "pick: plan number decides between R and C for C": 40,
    "pick: the front decides": 80,
    "pick: the front decides between different items": 50,
    "pick: the place named before is empty, the next is named": 200,
    "pick: names the place again after a return": 80,
    "pick: takes the last": 300,
    "refused by 8: nothing on hand": 50,
    "refused by 8: items on hand fail": 500,
    "refused by 8: what passes is out or ordered": 50,
    "refused by 9: one out at the place": 50,
    "refused by 9: none out at the place": 30,
    "refused by 10: off the shelf": 80,
    "refused by 10: none out": 300,
    "slip made up, never handed over: refused": 80,
    "slip made up and refused, granted after a pick": 40,
    "slip with the numbers of a spent one: granted": 80,
    "slip ended while more are out at its place": 40,
    "section with an opening line that cannot be read": 15,
    "fault: word 1 is missing": 5,
    "fault: word 1 is no kind": 30,
    "fault: second item of a range": 2,
    **{name: 80 for name in OUTCOMES},
    **{f"{question} asked after {name}": 5
       for name in OUTCOMES for question in ("place", "places")},
    **{f"slip spent by {first}, then {second}: refused": 40
       for first in ("order", "return") for second in ("order", "return")},
    **{f"opening of {kind} refused by {refusal}": 3 for kind in TAKEN for refusal in (1, 3)},
    **{f"opening of {kind} refused by 2: {letter} field {field}": 1
       for kind, taken in TAKEN.items() for letter in taken
       for field in range(1, len(KINDS[letter]._fields) + 1)},
    **{f"fault: {letter} on a shelf of {kind}": 2
       for kind, taken in TAKEN.items() for letter in KINDS if letter not in taken},
    **{f"fault: item behind {word}": 3 for word in CALL_WORDS.values()},
    **{f"fault: {word.decode()}, word {place} is {what}": 1
       for word, (room, _) in ENTRIES.items() for place in range(2, len(room) + 2)
       for what in ("missing", "not a number", "too large")},
    **{f"fault: {word.decode()}, word {len(room) + 2} is one too many": 1
       for word, (room, _) in ENTRIES.items()},
    # On a circle articles 1 and 3 together imply article 4.
    **{name: 15 for letter, parts in PARTS.items() for article in parts
       if (letter, article) != ("C", 4)
       for name in (f"pick passes over {letter} that fails article {article}",
                    f"refused by 8: {letter} fails article {article}")},
}


def shortfalls(counts):
    """What is reached too seldom, in words."""
    found = [f"{name}: {counts[name]}, and not at least {least}"
             for name, least in LEAST.items() if counts[name] < least]
    picks = sum(counts[name] for name in OUTCOMES if name.startswith("pick"))
    if not 0.4 <= counts["pick granted"] / picks <= 0.6:
        found.append(f"{counts['pick granted']} of {picks} picks are granted")
    if not 8 <= counts["call run"] / counts["section opened"] <= 14:
        found.append(f"{counts['call run']} calls in {counts['section opened']} sections")
    return found
