#!/usr/bin/env python3
"""Brings the repository's own definitions and lemmas to snake case, after the move to the new spelling of the library.

usage: python3 tools/spelling.py [--table FILE] [--show] [FOLDER]

Names declared in specs/ and in the files of lemmas in proofs/ that begin with a small letter are respelled, wherever
they stand: hyphens and capitals inside a name become '_'. Where two names would fall together, the definition keeps the
plain one and the lemma gets '_lem'. Types, modules, functions of src/ and words of strings stay. --show writes nothing
and lists what falls together; --table writes the names, old and new.
"""
import collections
import os
import re
import sys

TOKEN = re.compile(r"--[^\n]*|//[^\n]*|\"(?:[^\"\\]|\\.)*\"|«[^»]*»|\.?[^\s(){}.;,@\"«»\[\]\\]+")
DECLARED = re.compile(r"^\s*(?:(?:pub|abbrev|unfoldable|opaque) )*([^\s(){}.;,@\"«»\[\]\\:]+(?: [^\s(){}.;,@\"«»\[\]\\:]+)*) :(?= |$)")
# what a function's own folder holds: its walk, its invariants and its answers
WALK = re.compile(r"/proofs/.+/(?:Proof|Answers|Invariants)\.antt$")
IMPORTED = re.compile(r"^(?:ghost )?use ([^\s{;]+?)\.?\{([^}]*)\}", re.M | re.S)
# variables of definitions and lemmas that stand in more than one file
BOUND = ("listNow", "recordsNow", "cardPlaces", "lostPlaces")
TICKED = re.compile(r"`[^`\n]*`")


def files(root, ends):
    for folder, dirs, names in os.walk(os.path.join(root, "crates")):
        dirs[:] = sorted(d for d in dirs if d != "out")
        for name in sorted(names):
            if name.endswith(ends):
                yield os.path.join(folder, name)


def declared(root):
    """The names that the files of definitions and lemmas declare, and whether a file of specs/ does."""
    found = collections.defaultdict(bool)
    for path in files(root, ".antt"):
        if WALK.search(path):
            continue
        in_specs = "/specs/" in path
        with open(path, encoding="utf-8") as it:
            for line in it:
                if line.startswith("use") or line.lstrip().startswith("--"):
                    continue
                m = DECLARED.match(line)
                if m:
                    for name in m.group(1).split(" "):
                        found[name] = found[name] or in_specs
    return found


def snake(name):
    name = re.sub(r"([a-z0-9])([A-Z])", lambda m: m.group(1) + "_" + m.group(2).lower(), name)
    return re.sub(r"(?<=.)-(?=.)", "_", name)


def table(root):
    found = declared(root)
    own = {n: snake(n) for n in found if n[0].islower() and snake(n) != n}
    own.update((n, snake(n)) for n in BOUND)
    groups = collections.defaultdict(list)
    for name in found:
        groups[own.get(name, name)].append(name)
    # fields of two records
    groups["no_entry"] = groups["no_entry"][:1]
    clash = {k: v for k, v in groups.items() if len(v) > 1}
    for new, names in clash.items():
        # the definition keeps the plain name: one of specs/ before one of proofs/, and one in capitals before one in hyphens
        names.sort(key=lambda n: (not found[n], re.search(r"[a-z0-9][A-Z]", n) is None, n))
        for other in names[1:]:
            own[other] = new + "_lem"
    return own, clash


def beside(path, text, own):
    """In a file of lemmas, its own small words that would fall together with a definition that is respelled there."""
    if "/proofs/" not in path or WALK.search(path):
        return {}
    tokens = {t for t in TOKEN.findall(text)}
    return {own[n]: own[n] + "_lem" for n in tokens & own.keys() if own[n] in tokens and own[n] not in own}


def of_library(root, text):
    """What a file imports from a library: such a name stays, also where one of the repository's own is spelled so."""
    crates = set(os.listdir(os.path.join(root, "crates")))
    found = set()
    for module, names in IMPORTED.findall(text):
        parts = module.split(".")
        if not (parts[0] == "Rattle" and len(parts) > 1 and parts[1] in crates):
            found |= set(re.split(r"[,\s]+", names))
    return found


def respelled(text, own, steps):
    """The text in the new spelling; steps are the names that have another meaning behind a dot, as steps of a walk."""

    def turn(m):
        t = m.group(0)
        if t.startswith(("--", "//")):
            return TICKED.sub(lambda k: "`" + respelled(k.group(0)[1:-1], own, steps) + "`", t)
        if t[0] in "\"«":
            return t
        field = t.startswith(".")
        name = t[1:] if field else t
        if name not in own:
            return t
        new = own[name]
        if field and name in steps:
            new = snake(name)
        return ("." if field else "") + new

    return TOKEN.sub(turn, text)


def main(argv):
    show = "--show" in argv
    out = None
    if "--table" in argv:
        i = argv.index("--table")
        out = argv[i + 1]
        del argv[i : i + 2]
    rest = [a for a in argv if not a.startswith("--")]
    root = rest[0] if rest else "."
    own, clash = table(root)
    lemmas = {n for names in clash.values() for n in names[1:]}
    if out:
        with open(out, "w", encoding="utf-8") as it:
            it.writelines(f"{a}\t{b}\n" for a, b in sorted(own.items()))
    if show:
        for k, v in sorted(clash.items()):
            print(k, v)
        for path in files(root, (".antt", ".rt")):
            with open(path, encoding="utf-8") as it:
                tokens = {t.lstrip(".") for t in TOKEN.findall(it.read())}
            for name in sorted(tokens & own.keys()):
                if own[name] in tokens:
                    print("both:", os.path.relpath(path, root), name, own[name])
        print(len(own), "names,", len(clash), "fell together")
        return 0
    n = 0
    for path in files(root, (".antt", ".rt")):
        with open(path, encoding="utf-8") as it:
            text = it.read()
        steps = lemmas if WALK.search(path) else set()
        stay = of_library(root, text)
        here = {a: b for a, b in {**own, **beside(path, text, own)}.items() if a not in stay}
        new = respelled(text, here, steps)
        if new != text:
            n += 1
            with open(path, "w", encoding="utf-8") as it:
                it.write(new)
    print(len(own), "names respelled in", n, "files")
    return 0


if __name__ == "__main__":
    raise SystemExit(main(sys.argv[1:]))
