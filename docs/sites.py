#!/usr/bin/env python3
"""sites.py [TREE]: what a new field of the state would move.

Prints every place below TREE/crates (default: the working folder) where a record of the state of a cabinet (the struct
with its lists, the head, the model) or of an open change (a slot, an open change of the model) is written out field by
field: its declaration (marked 'declared'), and each literal with all of its fields, in code, definitions and proofs.
'positional': each use of a definition that makes a cabinet of six or more of its lists, given one by one. One that takes
the old record too is not counted: a new field is taken from there, and no use of it changes.
The fields are read from the declarations themselves. Then the counts."""
import glob
import os
import re
import sys

tree = sys.argv[1] if len(sys.argv) > 1 else "."
files = sorted(f for d in ("src", "specs", "proofs") for f in glob.glob(os.path.join(tree, "crates/*", d, "**/*"), recursive=True) if f.endswith((".rt", ".antt")))
texts = {f: re.sub(r"(--|//)[^\n]*", lambda m: " " * len(m.group(0)), open(f, encoding="utf-8").read()) for f in files}


def line(text, at):
    return text.count("\n", 0, at) + 1


def braces(text, at):
    """What stands between the brace at `at` and the one that closes it."""
    depth = 0
    for i in range(at, len(text)):
        depth += {"{": 1, "}": -1}.get(text[i], 0)
        if depth == 0:
            return text[at + 1 : i]
    return ""


def fields(body, sign, ends):
    """The names that stand before `sign` at the top of a body whose fields end with one of `ends`."""
    names, depth, start = set(), 0, True
    for m in re.finditer(r"[(\[{]|[)\]}]|[" + ends + r"]|(?:pub\s+)?([\w'-]+)\s*" + sign + r"(?![=:])", body):
        if m.group(0) in "([{":
            depth += 1
        elif m.group(0) in ")]}":
            depth -= 1
        elif m.group(0) in ends:
            start = start or depth == 0
        elif depth == 0 and start:
            names.add(m.group(1))
            start = False
        elif re.search(r"[(\[{]", m.group(0)):
            depth += 1
    return frozenset(names)


def declared(name):
    """Where a struct or a record of that name is declared, and its fields."""
    for f, t in texts.items():
        m = re.search(r"\bpub struct " + name + r"\s*\{", t) if f.endswith(".rt") else None
        if m:
            return f, line(t, m.start()), frozenset(re.findall(r"^\s+pub (\w+):", braces(t, m.end() - 1), re.M))
        m = re.search(r"^pub record " + name + r" : Type 0 where\n((?:[ \t]+[^\n]*\n|\s*\n)+)", t, re.M) if f.endswith(".antt") else None
        if m:
            return f, line(t, m.start()), frozenset(re.findall(r"^\s+pub ([\w-]+) :", m.group(1), re.M))
    return None


def written(name, wanted):
    """Every literal of that record."""
    for f, t in texts.items():
        if f.endswith(".rt"):
            for m in re.finditer(r"(?<!struct )(?<!impl )(?<!-> )\b" + name + r"\s*\{", t):
                if re.search(r"\b\w+:", braces(t, m.end() - 1)):
                    yield f, line(t, m.start())
        else:
            for m in re.finditer(r"\brecord\s*\{", t):
                if fields(braces(t, m.end() - 1), "=", ";") == wanted:
                    yield f, line(t, m.start())


def positional(wanted):
    """Every use of a definition that takes six or more of these fields one by one."""
    for f, t in texts.items():
        if not f.endswith(".antt"):
            continue
        for m in re.finditer(r"^(?:abbrev |unfoldable )?(?:pub )?([\w'-]+) : ([^\n]*)$", t, re.M):
            groups = re.findall(r"\(([\w '-]+) :", m.group(2))
            if len(wanted & {n for g in groups for n in g.split()}) < 6 or re.match(r"(Core|Model) →", m.group(2)):
                continue
            for g, u in texts.items():
                for use in re.finditer(r"(?<![\w'.-])" + re.escape(m.group(1)) + r"(?![\w'-])", u):
                    row = u[u.rfind("\n", 0, use.start()) + 1 : use.start()]
                    if not re.match(r"\s*(ghost )?use ", row) and not re.match(r"(abbrev |unfoldable )?(pub )?$", row):
                        yield g, line(u, use.start())


def show(kind, found):
    rows = sorted(set(found))
    for f, n in rows:
        print(f"  {os.path.relpath(f, tree)}:{n}  {kind}")
    return len(rows)


totals = []
state = "Core" if declared("Core") else "Cabinet"
for title, names in (("cabinet", [state, "Model"]), ("head", ["Head"]), ("open change", ["Slot", "OpenChange"])):
    print(title)
    sites = 0
    for name in names:
        f, n, wanted = declared(name)
        print(f"  {os.path.relpath(f, tree)}:{n}  {name} declared: {' '.join(sorted(wanted))}")
        sites += 1 + show(name, written(name, wanted))
    totals.append(f"{title}: {sites} sites")
    if title == "cabinet":
        totals[-1] += f", {show('positional', positional(declared(state)[2]))} positional uses"
print("; ".join(totals))
