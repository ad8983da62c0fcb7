#!/usr/bin/env python3
"""Checks the files, names and edits that docs/PROMISES.md and docs/DECISIONS.md point to. Run from the repository's root:

    python3 docs/names.py

A path below crates/ must be there; a name that follows a path in the same cell or sentence must stand in that file.
In a chapter of the first page that has a line `Files: ..` a name of a table without a path must stand in one of those files.
In a last column a crate's name is followed by edits of its must-fail folder. What is missing is printed, a line each, and so is
a row of more than 470 characters."""
import os
import re
import sys

TOKEN = re.compile(r"`([^`]+)`")
PATH = re.compile(r"^[a-z_0-9]+/[A-Za-z_0-9/.]+$")
NAME = re.compile(r"^[A-Za-z][A-Za-z0-9_:'-]*$")
# words of the language and of the text of lists, not names of a file
PLAIN = {"requires", "ensures", "none"}
missing = 0


def say(where, what):
    global missing
    missing += 1
    print(f"{where}: {what}")


def words(path):
    if os.path.isdir(path):
        return " ".join(words(os.path.join(path, f)) for f in os.listdir(path))
    with open(path, encoding="utf-8") as f:
        return f.read()


def stands(name, text):
    last = name.split("::")[-1]
    return re.search(r"(?<![\w'-])" + re.escape(last) + r"(?![\w'-])", text) is not None


def is_path(t):
    return PATH.match(t) and not t.startswith(("docs/", "second/", "bench/", "bindings/", "must-fail/"))


def names_of(where, piece, files=()):
    path = None
    for t in TOKEN.findall(piece):
        if is_path(t):
            path = "crates/" + t
            if not os.path.exists(path):
                say(where, f"no file {t}")
                path = None
        elif not NAME.match(t) or t in PLAIN:
            continue
        elif path:
            if not stands(t, words(path)):
                say(where, f"{path[7:]} has no {t}")
        elif files and not os.path.isdir("crates/" + t) and not any(stands(t, words("crates/" + f)) for f in files):
            say(where, f"no file of its chapter has {t}")


def files_of(where, line):
    files = [t for t in TOKEN.findall(line) if is_path(t)]
    for f in files:
        if not os.path.exists("crates/" + f):
            say(where, f"no file {f}")
    return [f for f in files if os.path.exists("crates/" + f)]


def edits_of(where, cell):
    crate = None
    for t in TOKEN.findall(cell):
        if os.path.isdir(f"crates/{t}") and not (crate and os.path.exists(f"crates/{crate}/must-fail/{t}.edit")):
            crate = t
        elif crate and re.match(r"^[a-z_0-9]+$", t):
            if not os.path.exists(f"crates/{crate}/must-fail/{t}.edit"):
                say(where, f"{crate} has no edit {t}")


for page in ("docs/PROMISES.md", "docs/DECISIONS.md"):
    files = []
    for number, line in enumerate(open(page, encoding="utf-8"), 1):
        where = f"{page}:{number}"
        if line.startswith("## "):
            files = []
        elif line.startswith("Files: "):
            files = files_of(where, line)
        elif line.startswith("|") and page.endswith("PROMISES.md"):
            if len(line) > 470:
                say(where, f"a row of {len(line)} characters")
            cells = line.strip().strip("|").split(" | ")
            for c in cells[1:-1]:
                for piece in re.split(r"[;.:] ", c):
                    names_of(where, piece, files)
            edits_of(where, cells[-1])
        else:
            for piece in re.split(r"[;.:] ", line):
                names_of(where, piece)
print(f"{missing} missing")
sys.exit(1 if missing else 0)
