#!/usr/bin/env python3
"""Respells the names that the crates' specs/ and proofs/ define: words in snake case, types in upper camel case.

usage: python3 tools/respell.py [--list]      at the top of the repository

A definition, lemma, field or constructor such as `planNumber` or `shape-factor` becomes `plan_number` or `shape_factor`, and one that
answers a type, such as `refusesOpening`, becomes `RefusesOpening`. Names of functions in src/, goals' names and text between quotes stay.
The same names in must-fail edits and, between backquotes or in blocks, in docs/ and README.md go with them. --list prints each name with
its new spelling and writes nothing. Two names that would become one stop the script; a new spelling that another crate's or module's
definition has already is told.
"""
import glob
import re
import sys

# formula symbols keep their letters
SYMBOLS = {"GS", "T", "V", "X'", "X₀", "Y", "Y'"}
# two that would fall together with another name, and one that cites a word that is gone
OWN = {"onHand": "on_hand_by", "behind-line": "fault_behind", "getD-nth": "get_or_nth"}
DELIMITERS = r"\s(){}\[\];,.«»⌜⌝`\""
TOKEN = re.compile(r"[^" + DELIMITERS + r"]+")
HEAD = re.compile(r"^( *)((?:abbrev |unfoldable |pub |opaque )*)([^" + DELIMITERS + r":]+)((?:\s+\{[^}]*\})*)\s+:(?!=)\s?(.*)$")
BOUND = re.compile(r"\blet ([^\s(){}:=]+) [:=]|[({]([^(){}:,;=]+) :|λ ([^.(){}]+)\.|^ *[^\s:=]+ ([^:=;→.]*) =$|\| (?:inl|inr|Ok|Err|Some) ([^↦.]*) ↦")
KIND = re.compile(r"^(?:pub )?(?:record|data) (\S+)")
CONSTRUCTOR = re.compile(r"^  \| (\S+) :")


def sources(*endings):
    for ending in endings:
        yield from sorted(glob.glob("crates/*/**/*" + ending, recursive=True))


def snake(name):
    if name in SYMBOLS:
        return name
    name = name.replace("-", "_")
    return re.sub(r"(?<=[a-z0-9])([A-Z])(?=[a-z])", lambda m: "_" + m.group(1).lower(), name)


def camel(name):
    return "".join(w[:1].upper() + w[1:] for w in snake(name).split("_"))


def respelled(name, answers_a_type):
    if name in OWN:
        return OWN[name]
    if name.startswith("◌") or name.endswith("◌"):
        return snake(name)
    if answers_a_type and name[:1].islower():
        return camel(name)
    if name[:1].isupper():
        return name.replace("-", "_")
    return snake(name)


def definitions():
    """Each name that a file of specs/ or proofs/ defines, with its new spelling."""
    found = {}
    for path in sources(".antt"):
        for line in open(path, encoding="utf-8"):
            line = line.rstrip("\n")
            named = KIND.match(line) or CONSTRUCTOR.match(line)
            if named:
                found[named.group(1)] = respelled(named.group(1), False)
                continue
            named = HEAD.match(line)
            if not named or re.match(r"(goal|given|need)\.", named.group(5)):
                continue
            if named.group(3) in ("let", "use", "in", "--"):
                continue
            found[named.group(3)] = respelled(named.group(3), line.endswith("Type 0"))
    return found


def locals_of(names):
    """What a `let`, a `λ` or a signature of specs/ or proofs/ binds."""
    imported = set()
    bound = set()
    for path in sources(".antt"):
        for line in open(path, encoding="utf-8"):
            if line.startswith("use "):
                imported.update(TOKEN.findall(line))
                continue
            for match in BOUND.finditer(line):
                for name in re.split(r"[\s(){},]+", " ".join(part for part in match.groups() if part)):
                    if "-" in name and name != "-" and not name.startswith("-"):
                        bound.add(name)
    for name in bound - imported - set(names):
        names[name] = snake(name)


def infix(names):
    for old, new in list(names.items()):
        if old.startswith("◌") and old.endswith("◌"):
            names[old.strip("◌")] = new.strip("◌")


def outside_quotes(text, change):
    parts = re.split(r'("(?:[^"\\\n]|\\.)*")', text)
    return "".join(p if i % 2 else change(p) for i, p in enumerate(parts))


def swap(names):
    return lambda text: TOKEN.sub(lambda m: names.get(m.group(0), m.group(0)), text)


def in_code(text, change):
    """Blocks and what stands between backquotes."""
    parts = re.split(r"(```.*?```|`[^`\n]+`)", text, flags=re.S)
    return "".join(change(p) if i % 2 else p for i, p in enumerate(parts))


def main():
    names = definitions()
    locals_of(names)
    infix(names)
    changed = {old: new for old, new in names.items() if old != new}
    if "--list" in sys.argv[1:]:
        for old in sorted(changed):
            print(old, "→", changed[old])
        return 0
    texts = {path: open(path, encoding="utf-8").read() for path in sources(".antt", ".rt")}
    clashes = 0
    for new in sorted(set(changed.values())):
        olds = sorted(old for old in changed if changed[old] == new)
        if len(olds) > 1:
            print(f"{', '.join(olds)} would all become {new}")
            clashes += 1
    for old, new in sorted(changed.items()):
        if new in names and names[new] == new:
            print(f"{old} would fall together with {new}")
    if clashes:
        return 1
    for path, text in texts.items():
        new = outside_quotes(text, swap(changed))
        if new != text:
            open(path, "w", encoding="utf-8").write(new)
    # what edits and pages call by an older spelling, also one that another script has turned
    defined = set(names.values())
    class Older(dict):
        def get(self, word, other):
            if word in changed:
                return changed[word]
            bare = snake(word)
            return bare if bare != word and bare in defined and not word[:1].isupper() else other
    for path in sources(".edit"):
        text = open(path, encoding="utf-8").read()
        new = outside_quotes(text, swap(Older()))
        if new != text:
            open(path, "w", encoding="utf-8").write(new)
    for path in sorted(glob.glob("docs/*.md")) + ["README.md"]:
        text = open(path, encoding="utf-8").read()
        new = in_code(text, lambda part: TOKEN.sub(lambda m: Older().get(m.group(0), m.group(0)), part))
        if new != text:
            open(path, "w", encoding="utf-8").write(new)
    return 0


if __name__ == "__main__":
    sys.exit(main())
