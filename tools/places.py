#!/usr/bin/env python3
"""Lists the places in src/ that older forms could stand at, by the points of docs/DESIGN-PASS.md.

usage: python3 tools/places.py [--commit COMMIT] [POINT ..]

Without --commit it reads the files as they stand. Each row is a place to look at, and no verdict: which of them are
places, and what became of them, says docs/DESIGN-PASS.md.

1  enums, flags that stand as fields, and functions that answer a number for an enum
2  functions whose bodies are the same but for names and numbers, three lines or more
3  loops that are no `for`: with a variable that the last line raises by one, and the others
4  lesser, greater and difference by hand, a bool or a number for an enum by hand, matches that hand on each case
5  parameters that stand together in three functions or more, by name and type
6  an array or a slice beside its length, and searches by hand
7  calls that are made between the same lines
8  answers in proof files, by crate
"""
import argparse
import collections
import re
import subprocess
import sys

ap = argparse.ArgumentParser(usage=__doc__)
ap.add_argument("--commit")
ap.add_argument("points", nargs="*", type=int)
a = ap.parse_args()


def text_of(path):
    if a.commit:
        return subprocess.run(["git", "show", f"{a.commit}:{path}"], capture_output=True, text=True, check=True).stdout
    return open(path, encoding="utf-8").read()


def paths(pattern):
    cmd = ["git", "ls-tree", "-r", "--name-only", a.commit] if a.commit else ["git", "ls-files"]
    names = subprocess.run(cmd, capture_output=True, text=True, check=True).stdout.split("\n")
    return [n for n in names if re.match(pattern, n)]


def code(text):
    """The text with comments, clauses and imports blanked, line for line."""
    out = []
    for line in text.split("\n"):
        bare = re.sub(r"//.*$", "", line)
        if re.match(r"^\s*(ghost )?(use|requires|ensures)\b", bare):
            bare = ""
        out.append(bare)
    return out


SOURCES = {p: code(text_of(p)) for p in paths(r"crates/\w+/src/.*\.rt$")}


def functions():
    """path, line, name, signature, body lines"""
    for p, lines in SOURCES.items():
        i = 0
        while i < len(lines):
            m = re.match(r"^(\s*)(?:pub )?(?:extern \"C\" )?fn (\w+)", lines[i])
            if m:
                ind = m.group(1)
                j = i
                while j < len(lines) and not re.match(rf"^{ind}\{{$|.*\{{$", lines[j]):
                    j += 1
                k = j
                while k < len(lines) and lines[k] != ind + "}":
                    k += 1
                yield p, i + 1, m.group(2), " ".join(x.strip() for x in lines[i:j + 1]), [x for x in lines[j + 1:k] if x.strip()]
                i = k
            i += 1


FUNCTIONS = list(functions())


def show(point, title, rows):
    print(f"\n{point}  {title}: {len(rows)}")
    for r in rows:
        print("   ", r)


def one():
    rows = []
    for p, lines in SOURCES.items():
        for i, l in enumerate(lines):
            m = re.match(r"^\s*(?:pub )?enum (\w+)", l)
            if m:
                j = i + 1
                names = []
                while not re.match(r"^\s*\}$", lines[j]):
                    v = re.match(r"^    (\w+)(\(.*\)| \{.*)?,?", lines[j])
                    if v and len(lines[j]) - len(lines[j].lstrip()) == 4:
                        names.append(v.group(1) + ("(..)" if v.group(2) else ""))
                    j += 1
                rows.append(f"{p}:{i + 1} {m.group(1)}: {', '.join(names[:6])}{' ..' if len(names) > 6 else ''}")
    show(1, "enums", rows)
    rows = []
    for p, lines in SOURCES.items():
        for i, l in enumerate(lines):
            m = re.match(r"^\s*(?:pub )?struct (\w+)", l)
            if m:
                j = i + 1
                while j < len(lines) and not re.match(r"^\s*\}$", lines[j]):
                    f = re.match(r"^\s*(?:pub )?(\w+): (bool|Reply|\w*Reply|Written|\w+Line|Result<.*>),$", lines[j])
                    if f:
                        rows.append(f"{p}:{j + 1} {m.group(1)}.{f.group(1)}: {f.group(2)}")
                    j += 1
    show(1, "flags and verdicts beside values", rows)
    rows = [f"{p}:{n} {name}" for p, n, name, sig, body in FUNCTIONS if re.search(r"-> u(8|16|32|64|size) \{$", sig + " {") and any(re.search(r"=> \d+,", l) for l in body)]
    show(1, "numbers for kinds", rows)


def two():
    groups = collections.defaultdict(list)
    for p, n, name, sig, body in FUNCTIONS:
        if len(body) >= 3:
            shape = "\n".join(re.sub(r"\b\w+\b", lambda m: m.group(0) if m.group(0) in ("let", "mut", "if", "else", "while", "for", "in", "match", "return", "self") else "x", l) for l in body)
            groups[shape].append(f"{p}:{n} {name}")
    rows = [" = ".join(g) for g in groups.values() if len(g) > 1]
    show(2, "bodies of one shape", rows)


def three():
    counted, other = [], []
    for p, lines in SOURCES.items():
        for i, l in enumerate(lines):
            m = re.match(r"^(\s*)(?:.*= )?(?:'\w+: )?(while .*|loop) \{$", l)
            if not m:
                continue
            e = next(j for j in range(i + 1, len(lines)) if re.match(rf"^{m.group(1)}\}};?$", lines[j]))
            body = lines[i + 1:e]
            by_one = any(re.match(r"^\s*(\w+) (?:[+-]= 1|= \1 [+-] 1);$", b) for b in body)
            (counted if by_one and m.group(2) != "loop" else other).append(f"{p}:{i + 1} {l.strip()}")
    show(3, "loops that count by hand", counted)
    show(3, "other loops that are no for", other)


def four():
    rows = []
    for p, lines in SOURCES.items():
        for i, l in enumerate(lines):
            if re.search(r"if [\w.]+ <=? [\w:.]+ \{ [\w:. -]+ \} else \{ [\w:. -]+ \}", l):
                rows.append(f"{p}:{i + 1} {l.strip()}")
            elif re.match(r"^\s*if [\w.]+ <=? [\w:.]+ \{$", l) and i + 4 < len(lines) and re.match(r"^\s*[\w:.]+( as \w+)?$", lines[i + 1]) and lines[i + 2].strip() == "} else {" and re.match(r"^\s*[\w:.]+( as \w+)?$", lines[i + 3]):
                rows.append(f"{p}:{i + 1} {l.strip()} {lines[i + 1].strip()} else {lines[i + 3].strip()}")
            elif re.search(r"=> (true|false),", l) or re.search(r"\{ (1|true) \} else \{ (0|false) \}", l):
                rows.append(f"{p}:{i + 1} {l.strip()}")
            elif re.match(r"^\s*(\w+::)*\w+(\((\w+|_)\))? => ((\w+::)*\w+(\(\3\))?),$", l) and re.match(r"^\s*(\S+) => (\S+),$", l):
                left, right = re.match(r"^\s*(\S+) => (\S+),$", l).groups()
                if re.sub(r"\w+::", "", left) == re.sub(r"\w+::", "", right):
                    rows.append(f"{p}:{i + 1} {l.strip()}")
            elif re.search(r"=> \{\},?$", l):
                rows.append(f"{p}:{i + 1} {l.strip()}")
    show(4, "by hand what the library or a derive has", rows)


def five():
    together = collections.defaultdict(list)
    for p, n, name, sig, body in FUNCTIONS:
        args = re.findall(r"(?:mut )?(\w+): (&?(?:'\w+ )?(?:mut )?(?:\[[^\]]*\]|[\w:<>]+))", sig.split("->")[0])
        args = [(x, re.sub(r"'\w+ ", "", t)) for x, t in args]
        for i in range(len(args)):
            for j in range(i + 1, len(args)):
                together[tuple(sorted((args[i], args[j])))].append(f"{p.split('/')[1]}::{name}")
    rows = [f"{len(v)}  {x[0]}: {x[1]} with {y[0]}: {y[1]}" for (x, y), v in sorted(together.items(), key=lambda kv: -len(kv[1])) if len(v) >= 3]
    show(5, "pairs of parameters in three functions or more", rows)


def six():
    rows = []
    for p, lines in SOURCES.items():
        for i, l in enumerate(lines):
            m = re.match(r"^\s*(?:pub )?(\w+): \[(\w+); (.*)\],$", l)
            if m:
                rows.append(f"{p}:{i + 1} {l.strip()}")
    show(6, "arrays as fields", rows)


def seven():
    groups = collections.defaultdict(list)
    for p, n, name, sig, body in FUNCTIONS:
        if len(body) >= 3:
            key = "\n".join(re.sub(r"\b[a-z_0-9]+(::[a-z_0-9]+)*\(.*\)", "call()", l).strip() for l in body)
            groups[key].append(f"{p}:{n} {name}")
    rows = [" = ".join(g) for g in groups.values() if len(g) > 1]
    show(7, "the same lines around a call", rows)


def eight():
    count = collections.Counter()
    for p in paths(r"crates/\w+/proofs/[^/]+/(Answers|Invariants|Proof)\.antt$"):
        count[p.split("/")[1]] += len(re.findall(r"(?m)^(?:abbrev )?pub ", text_of(p)))
    print(f"\n8  answers and invariants: {sum(count.values())}")
    print("    " + ", ".join(f"{c} {n}" for c, n in sorted(count.items())))


POINTS = {1: one, 2: two, 3: three, 4: four, 5: five, 6: six, 7: seven, 8: eight}
for n in a.points or sorted(POINTS):
    if n not in POINTS:
        sys.exit(__doc__)
    POINTS[n]()
