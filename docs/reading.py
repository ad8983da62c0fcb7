#!/usr/bin/env python3
"""Makes docs/READING.md: the definitions that a reader must believe, found from the claims downwards, in order of dependence.

    python3 docs/reading.py

It goes by the `use` lines of the files below crates/*/specs: a name that a definition's text has is that of its own file or
of the file that a `use` line brings it from. The line beside a name is the comment above it, to its first full stop."""
import glob
import os
import re
import sys

sys.setrecursionlimit(10000)
ROOT = os.path.join(os.path.dirname(os.path.abspath(__file__)), "..")
CLAIMS = [
    ("demands_whole", "Demand1", "Demand1"),
    ("demands_whole", "Texts", "RunsLists"),
    ("theory_protocol", "Agreement", "SafeAgreesWithFix"),
    ("demands_lists", "Claims", "SafeAgreesWithFix16"),
    ("theory_protocol", "Demands", "NamesLowest"),
    ("sheet_round", "Claims", "AlteredReadoutRefused"),
    ("sheet_round", "Claims", "FewerReadoutRefused"),
    ("sheet_round", "Claims", "StopsWhereDue"),
    ("sheet_round", "Claims", "FramesStand"),
    ("sheet_round", "Claims", "CarriedFrameRefused"),
    ("sheet_round", "Claims", "OtherSessionRefused"),
    ("sheet_round", "Claims", "FrameForHeaderRefused"),
    ("sheet_round", "Claims", "OlderReadoutRefused"),
    ("demands_valid", "Restart", "RefusedReadouts"),
    ("theory_protocol", "Writes", "RefusedWhileWriting"),
    ("theory_protocol", "Writes", "Unhindered"),
    ("theory_codec", "Claims", "SheetsUnseen"),
    ("demands_lists", "Claims", "Unhindered16"),
]
HEAD = re.compile(r"^(?:(?:abbrev|unfoldable) )?(?:pub )?(?:(record|data) )?([^\s:(]+)(?= [:(])")
TOKEN = re.compile(r"[^\s(){};,.\[\]]+")


def parse(path):
    """The definitions of a file (name: comment, text) and where its other names come from."""
    defs, names, aliases, order = {}, {}, {}, []
    comment, current = [], None
    for line in open(path, encoding="utf-8").read().split("\n"):
        m = re.match(r"^(?:unfoldable )?(?:pub )?use Rattle\.(\w+)\.specs\.(declared\.)?([\w.-]+?)(?:\.\{(.*)\}| as ([\w-]+))?$", line)
        if m:
            crate, declared, module, group, alias = m.groups()
            module = (declared or "") + module
            for n in (group or "").split(","):
                n = n.strip()
                if " as " in n:
                    real, _, other = n.partition(" as ")
                    names[other] = (crate, module, real)
                elif n:
                    names[n] = (crate, module, n)
            if alias:
                aliases[alias] = (crate, module)
            continue
        if line.startswith("use ") or line.startswith("infix"):
            continue
        if line.startswith("--"):
            comment.append(line[2:].strip())
            current = None
            continue
        if line and not line.startswith(" "):
            h = HEAD.match(line)
            name = h.group(2) if h else line.split(" ")[0]
            if name in defs:
                current = name
            elif h and (line.startswith(("abbrev", "unfoldable", "pub", "record", "data"))):
                defs[name] = [" ".join(c for c in comment if not c.startswith("----")), ""]
                order.append(name)
                current = name
            comment = []
        elif not line:
            comment = []
        if current:
            defs[current][1] += re.sub(r"--.*", "", line) + "\n"
    # constructors stand for their type
    inner = {}
    for n in order:
        if re.match(r"pub data|data", defs[n][1]):
            for c in re.findall(r"^  ([^\s:]+(?: [^\s:]+)*) :", defs[n][1], flags=re.M):
                for k in c.split():
                    inner[k] = n
    return defs, names, aliases, inner


# which files a file stands on
ON = {}
FILES = {}
for f in glob.glob(os.path.join(ROOT, "crates/*/specs/*.antt")):
    crate = f.split(os.sep)[-3]
    FILES[(crate, os.path.basename(f)[:-5])] = parse(f)

done, declared = set(), set()


def visit(crate, module, name, by=None):
    if module.startswith("declared"):
        declared.add((crate, module.split(".")[-1] if "TheVariants" not in module else module.split(".")[-2]))
        return
    key = (crate, module)
    if key not in FILES:
        return
    defs, names, aliases, inner = FILES[key]
    name = inner.get(name, name)
    if name not in defs:
        if name in names:
            visit(*names[name], by)
        return
    if by and by != key:
        ON.setdefault(by, set()).add(key)
    if (crate, module, name) in done:
        return
    done.add((crate, module, name))
    text = defs[name][1]
    for m in re.finditer(r"([\w-]+)\.([\w'-]+)", text):
        if m.group(1) in aliases:
            visit(*aliases[m.group(1)], m.group(2), key)
    for t in TOKEN.findall(text):
        t = inner.get(t, t)
        if t == name:
            continue
        if t in defs:
            visit(crate, module, t, key)
        elif t in names:
            visit(*names[t], key)


for c in CLAIMS:
    visit(*c)
ordered = []


def place(key):
    if key not in ordered:
        for k in sorted(ON.get(key, ())):
            place(k)
        ordered.append(key)


for c in CLAIMS:
    place(c[:2])
out = []
for key in ordered:
    for name, (comment, text) in FILES[key][0].items():
        if (*key, name) in done:
            said = re.split(r"(?<=[^.]\.) ", comment)[0]
            out.append((*key, name, said, text.rstrip("\n").count("\n") + 1))
lines = [
    "# Reading",
    "",
    "The definitions that the claims are made of, file by file, each file after those it stands on; the claims come last. Made by `python3 docs/reading.py` from the files below `crates/*/specs`. Whoever believes these, and the checker, need believe nothing else.",
    "",
    f"{len(out)} definitions, {sum(o[4] for o in out)} lines. Structs and enums of the code that they name, by crate: "
    + "; ".join(f"`{c}` " + ", ".join(f"`{n}`" for d, n in sorted(declared) if d == c) for c in sorted({c for c, _ in declared}))
    + ".",
]
last = None
for crate, module, name, said, _ in out:
    if (crate, module) != last:
        lines += ["", f"## {crate}/specs/{module}.antt", ""]
        last = (crate, module)
    lines.append(f"- `{name}`" + (f": {said}" if said else ""))
with open(os.path.join(ROOT, "docs", "READING.md"), "w", encoding="utf-8") as f:
    f.write("\n".join(lines) + "\n")
print(f"{len(out)} definitions, {sum(o[4] for o in out)} lines")
