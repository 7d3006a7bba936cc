#!/usr/bin/env python3
"""Lists the places in src/ where an older form of code may stand, a section for each of eight points.

Usage, at the top of a checkout: python3 tools/places.py [FOLDER]
FOLDER is another checkout's top. A row is a place to look at, not yet a verdict; the last line of each section counts its rows.
docs/DESIGN-PASS.md says what became of each.
"""
import difflib
import glob
import os
import re
import sys

top = sys.argv[1] if len(sys.argv) > 1 else "."
files = {}
for path in sorted(glob.glob(os.path.join(top, "crates/*/src/**/*.rt"), recursive=True)):
    name = os.path.relpath(path, os.path.join(top, "crates")).replace("/src", "")
    with open(path) as f:
        text = f.read()
    if not name.endswith("tests.rt"):
        text = text.split("#[cfg(test)]")[0]
        files[name] = text


def code_of(text):
    """The text without comments and clauses."""
    text = re.sub(r"//[^\n]*", "", text)
    return re.sub(r"(?m)^\s*(ensures|requires|ghost)\b[^\n]*\n", "", text)


def functions():
    """(file, name, header, body) of each function with a body."""
    for name, text in files.items():
        lines = text.split("\n")
        for start, line in enumerate(lines):
            m = re.match(r"( *)(?:pub(?:\(crate\))? )?fn (\w+)", line)
            if not m:
                continue
            cut = start
            while not (lines[cut].rstrip().endswith(";") or re.search(r"(^ *|[^}] )\{$", lines[cut])):
                cut += 1
            if lines[cut].rstrip().endswith(";"):
                continue
            stop = cut + 1
            while lines[stop] != m.group(1) + "}":
                stop += 1
            yield name, m.group(2), "\n".join(lines[start:cut + 1]), "\n".join(lines[cut:stop + 1]) + "\n"


FUNCTIONS = list(functions())


def section(number, title, rows):
    print("## %d. %s" % (number, title))
    for row in rows:
        print("  " + row)
    print("places: %d\n" % len(rows))


def blocks(keyword):
    """(file, name, inside) of each item of this kind."""
    for name, text in files.items():
        for m in re.finditer(r"(?ms)^(?:pub(?:\(crate\))? )?%s (\w+)[^{;]*\{\n(.*?)^\}" % keyword, text):
            yield name, m.group(1), re.sub(r"(?m)^\s*(//|ghost)[^\n]*\n", "", m.group(2))


def point_1():
    rows = []
    for name, enum, inside in blocks("enum"):
        variants = re.findall(r"(?m)^    (\w+)(.*)", inside)
        held = [v for v in variants if v[1].strip() != ","]
        if len(variants) == 2 and len(held) == 1:
            rows.append("%s: enum %s has the shape of Option" % (name, enum))
        elif any(re.search(r"\((\w*Refusal|\w*Fault)\)", v[1]) for v in variants) and any(
            not re.search(r"\((\w*Refusal|\w*Fault)\)", v[1]) and not enum.endswith("Fault") for v in variants
        ):
            rows.append("%s: enum %s has a refusal or a fault among its cases" % (name, enum))
        for v in variants:
            for code in re.findall(r"\b(field|article|kind|code|mark): u\d+", v[1]):
                rows.append("%s: %s::%s holds the number `%s`" % (name, enum, v[0], code))
    for name, struct, inside in blocks("struct"):
        for flag in re.findall(r"(?m)^    (?:pub(?:\(crate\))? )?(\w+): bool", inside):
            rows.append("%s: struct %s has the flag `%s`" % (name, struct, flag))
        for code in re.findall(r"(?m)^    (?:pub(?:\(crate\))? )?(deck|shear|kind|sort): u\d+", inside):
            rows.append("%s: struct %s holds the number `%s`" % (name, struct, code))
    for name, fn, header, body in FUNCTIONS:
        for flag in re.findall(r"(\w+): bool[,)]", code_of(header)):
            rows.append("%s: fn %s takes the flag `%s`" % (name, fn, flag))
        for m in re.finditer(r"(?ms)^( *)[^\n]*?match ([^\n]*) \{\n(.*?)^\1\}", code_of(body)):
            arms = re.findall(r"(?m)^%s    (\S[^\n]*?) =>" % m.group(1), m.group(3))
            if arms and all(re.match(r"(Some|None|Ok|Err)\b", a) for a in arms) and len(arms) < 5:
                rows.append("%s: fn %s matches %s by %s" % (name, fn, m.group(2), ", ".join(arms)))
        for m in re.finditer(r"let (Ok|Some)\((\w+)\) = [^\n]* else \{", code_of(body)):
            rows.append("%s: fn %s has `let %s(%s) .. else`" % (name, fn, m.group(1), m.group(2)))
    section(1, "Enums of the shape of Option or Result, flags, numbers for kinds, matches that a method or `?` does", rows)


def shape(text):
    tokens = re.findall(r"\w+|[^\w\s]", code_of(text))
    keep = {"fn", "self", "let", "mut", "if", "else", "match", "for", "in", "while", "return", "Ok", "Err", "Some", "None", "Result", "Option", "ensures"}
    return [t if t in keep or not re.match(r"\w", t) else "1" if t[0].isdigit() else "x" for t in tokens]


def point_2():
    shapes = [(n, f, shape(h + b)) for n, f, h, b in FUNCTIONS if f != "fmt"]
    rows = []
    for i, (n1, f1, s1) in enumerate(shapes):
        for n2, f2, s2 in shapes[i + 1:]:
            if min(len(s1), len(s2)) < 45 or max(len(s1), len(s2)) > 1.3 * min(len(s1), len(s2)):
                continue
            match = difflib.SequenceMatcher(None, s1, s2, autojunk=False)
            if match.quick_ratio() >= 0.9 and match.ratio() >= 0.9:
                rows.append("%s: fn %s is like %s: fn %s" % (n1, f1, n2, f2))
    bodies = list(blocks("struct"))
    for i, (n1, t1, b1) in enumerate(bodies):
        for n2, t2, b2 in bodies[i + 1:]:
            fields = [set(re.findall(r"(?m)^    (?:pub(?:\(crate\))? )?(\w+): ", b)) for b in (b1, b2)]
            if len(fields[0] & fields[1]) >= 2 and len(fields[0] ^ fields[1]) <= 2:
                rows.append("%s: struct %s has the fields of %s: struct %s" % (n1, t1, n2, t2))
    section(2, "Functions of one shape, structs with the same fields", rows)


def point_3():
    rows = []
    for name, fn, header, body in FUNCTIONS:
        for m in re.finditer(r"(?m)^\s*(while [^\n]*|for [^\n]*(?:\.\.|enumerate\(\))[^\n]*) \{$", code_of(body)):
            rows.append("%s: fn %s: %s" % (name, fn, m.group(1)))
    section(3, "Loops that count an index or cut a slice", rows)


def point_4():
    rows = []
    for name, fn, header, body in FUNCTIONS:
        code = code_of(body)
        if "-> &'static str" in header:
            rows.append("%s: fn %s gives a text" % (name, fn))
        args = re.findall(r"\w+: &?(\w+)", header)
        if "-> bool" in header and len(args) == 2 and args[0] == args[1] and args[0][0].isupper():
            rows.append("%s: fn %s compares two %s" % (name, fn, args[0]))
        m = re.match(r"[^\n]*\{\n( *)match (?:self|\*self|self\.0|\w+) \{\n(.*?)^\1\}\n *\}\n*$", code, re.S | re.M)
        if m and fn != "fmt":
            arms = re.findall(r"(?m)^%s    \S[^\n]* => ([^\n]*)" % m.group(1), m.group(2))
            if len(arms) > 1 and all(re.match(r"(\w+::\w+|Ok\(|Err\(|Some\(|\d+|\*\w+|None|\w+,|true|false)", a) for a in arms):
                rows.append("%s: fn %s converts by a match" % (name, fn))
        if re.match(r"(as|to|into|from)_", fn) or fn in ("in_line", "eq", "cmp", "partial_cmp"):
            rows.append("%s: fn %s converts or compares" % (name, fn))
        if fn == "clone":
            rows.append("%s: fn clone copies" % name)
    section(4, "Equality, order, copying, conversion and printing by hand", rows)


def point_5():
    rows = []
    facts = {}
    for name, fn, header, body in FUNCTIONS:
        for label, fact in re.findall(r"(?:requires|ensures)( \w+)? \{ (.*) \}", header):
            if fact.startswith("result ≡") or "IfOk result" in fact:
                continue
            facts.setdefault(re.sub(r"\d+", "n", fact), []).append("%s: fn %s" % (name, fn))
    for fact, where in sorted(facts.items()):
        if len(where) >= 3:
            rows.append("%d contracts say `%s`" % (len(where), fact))
    groups = {}
    for name, fn, header, body in FUNCTIONS:
        plain = re.sub(r"fn \w+<[^(]*>\(", "fn f(", code_of(header))
        params = re.findall(r"(\w+: [&\w<>:\[\], ']+?)(?:,\n|, (?=\w+:)|\)|$)", plain)
        for i, a in enumerate(params):
            for b in params[i + 1:]:
                groups.setdefault((a, b), []).append("%s: fn %s" % (name, fn))
    for (a, b), where in sorted(groups.items()):
        if len(where) >= 3:
            rows.append("%d functions take `%s, %s`" % (len(where), a, b))
    section(5, "Facts in three or more contracts, parameters that travel together in three or more functions", rows)


def point_6():
    rows = []
    for name, struct, inside in blocks("struct"):
        for field in re.findall(r"(?m)^    (?:pub(?:\(crate\))? )?(\w+: (?:\[[^\]]*\]|Vec<[^\n]*|&'a mut \[[^\]]*\]))", inside):
            rows.append("%s: struct %s has `%s`" % (name, struct, field))
    for name, text in files.items():
        for m in re.finditer(r"(?m)^(?:pub(?:\(crate\))? )?const (\w+): \[", text):
            rows.append("%s: the table %s" % (name, m.group(1)))
    section(6, "Arrays and tables: buffers with a length, parallel arrays, arenas", rows)


def point_7():
    rows = []
    for name, fn, header, body in FUNCTIONS:
        for m in re.finditer(r"(?ms)^( *)[^\n]*?match ([^\n]*) \{\n(.*?)^\1\}", code_of(body)):
            arms = re.findall(r"(?m)^%s    (\S[^\n]*?) =>" % m.group(1), m.group(3))
            if re.match(r"\s*(Display|Debug)", header) or fn == "fmt":
                continue
            if len(arms) > 1 and all("::" in a for a in arms) and len(re.findall(r"\w+\(", m.group(3))) >= len(arms):
                rows.append("%s: fn %s chooses by %s" % (name, fn, m.group(2)))
        if re.search(r"\bfn\(|dyn ", header):
            rows.append("%s: fn %s takes a function pointer or a dyn value" % (name, fn))
    section(7, "Switches on which step to run, tables of functions", rows)


def point_8():
    rows = []
    for path in sorted(glob.glob(os.path.join(top, "crates/*"))):
        answers = lines = 0
        for proof in glob.glob(os.path.join(path, "proofs/**/*.antt"), recursive=True):
            with open(proof) as f:
                text = f.read()
            lines += text.count("\n")
            answers += len(re.findall(r"(?m)^(?:abbrev )?pub \S+ : goal\.", text))
        if lines:
            rows.append("%s: %d answers, %d lines of proofs/" % (os.path.basename(path), answers, lines))
    print("## 8. Answers and lines of proofs")
    for row in rows:
        print("  " + row)
    print("answers: %d, lines: %d" % (sum(int(r.split(": ")[1].split()[0]) for r in rows), sum(int(r.split(", ")[1].split()[0]) for r in rows)))


for point in (point_1, point_2, point_3, point_4, point_5, point_6, point_7, point_8):
    point()
