"""The examples of docs/JUDGE.md and docs/SHELFDAY.md, and the samples.

In JUDGE.md an example is an input line followed by the line that is printed
for it, in a block between fences; a blank line stands between examples.  In
SHELFDAY.md it is a block behind the line "Input:" and a block behind the line
"Output:".
"""

import re
import sys
from pathlib import Path

import judge
import shelfday

ROOT = Path(__file__).resolve().parent.parent
PAGE = ROOT / "docs" / "JUDGE.md"
SAMPLES = ROOT / "samples" / "judgements.txt"
ANSWERS = ("verdict ", "refused ", "no judgement:")

SHELF_PAGE = ROOT / "docs" / "SHELFDAY.md"
SHELF_SAMPLES = ROOT / "samples" / "shelfday.txt"
SHELF_EXAMPLE = re.compile(r"^Input:\n\n```\n(.*?)^```\n\nOutput:\n\n```\n(.*?)^```\n",
                           re.MULTILINE | re.DOTALL)


def examples():
    """Pairs of an input line and the answer printed under it."""
    found = []
    for block in PAGE.read_text().split("```")[1::2]:
        for pair in block.strip("\n").split("\n\n"):
            lines = pair.split("\n")
            if len(lines) == 2 and lines[1].startswith(ANSWERS):
                found.append((lines[0], lines[1]))
    return found


def lines():
    """The input lines of the page and of the samples."""
    return [line for line, _ in examples()] + SAMPLES.read_text().splitlines()


def shelf_examples():
    """Pairs of a whole input and the whole output for it."""
    text = SHELF_PAGE.read_text()
    found = SHELF_EXAMPLE.findall(text)
    # A block that the pattern does not fit would go unchecked.
    fences = len(re.findall("^```", text, re.MULTILINE))
    if fences != 4 * len(found):
        raise AssertionError(f"{SHELF_PAGE.name}: {fences} fences, {len(found)} examples")
    return found


def shelf_inputs():
    """The inputs of the page and the sample, as bytes."""
    return ([given.encode() for given, _ in shelf_examples()]
            + [SHELF_SAMPLES.read_bytes()])


def report(page, found, wrong):
    """Prints the wrong examples of a page; how many things are amiss."""
    for given, answer in wrong:
        print(f"{page.name}: {given}\n  has {answer}")
    print(f"examples in {page.name}: {len(found)}, wrong: {len(wrong)}")
    if not found:
        print(f"{page.name}: no example found")
    return len(wrong) + (not found)


def main():
    found = examples()
    wrong = [(line, answer) for line, answer in found
             if judge.answers(line.encode()) != answer.encode() + b"\n"]
    amiss = report(PAGE, found, wrong)
    found = shelf_examples()
    wrong = [(given, printed) for given, printed in found
             if shelfday.answers(given.encode()) != printed.encode()]
    amiss += report(SHELF_PAGE, found, wrong)
    return 1 if amiss else 0


if __name__ == "__main__":
    sys.exit(main())
