#!/usr/bin/env python3
"""Brings this repository's own definitions, lemmas, fields and constructors to today's spelling: snake case, where they were in lower camel case or had dashes.

usage: python3 tools/respell.py [--dry]      at the top of the repository, once, after the toolchain's port.py

Only names that the crates themselves define are turned, in specs/, proofs/ and the clauses of src/. A name that a file takes from a library is left in that file.
Names that would fall together in one file are said and get the spelling that APART gives them.
"""

import collections
import glob
import os
import re
import sys

TOKEN = re.compile(r"[^\s(){}\[\],;.\"«»\\:∷]+")
DEF = re.compile(r"^(?:(?:abbrev|unfoldable|pub) +)*([^\s:(){}]+) +:(?:\s|$)", re.M)
INNER = re.compile(r"^[ \t]+(?:(?:abbrev|unfoldable|pub) +)*([^\s:(){}|=]+) +:(?:\s|$)", re.M)
USE = re.compile(r"^(?:pub |ghost )*use ([^\s{}]+?)(?:\.\{([^}]*)\})?;?(?: as \S+)?\s*$", re.M)
# Names that would fall together otherwise.
APART = {
    n: n.replace("-", "_") + "_lem"
    for n in "block-byte head-byte vertex-byte cells-most how-many mark-of mark-room table-rows vertex-at target_at word_byte".split()
}
# Local names that more than one file passes on, spelled alike.
LOCALS = {n: n.replace("-", "_") for n in "old-winners old-moves old-mark old-move".split()}
LOCALS["isAnew"] = "is_anew"
# A private name that port.py turned into one that another crate has.
HERE = {("crates/lines/proofs/Alike.antt", "line_of"): "vertex_line_lem"}
# Crates whose names a library of the toolchain has now.
CRATES = {"either": "one_round"}


def snake(name):
    name = re.sub(r"(?<=[a-z0-9])([A-Z])(?![A-Z])", lambda m: "_" + m[1].lower(), name)
    name = re.sub(r"(?<=[a-z0-9])([A-Z])", lambda m: "_" + m[1].lower(), name)
    return name.replace("-", "_")


def wants(name):
    return (name[0].islower() or name[0] == "n") and ("-" in name or re.search(r"[a-z0-9][A-Z]", name)) is not None and not re.search(r"[+*/<>≤≡→≢∷]", name)


def rename(a, b):
    """A crate's name: its folder, its line and others' in crates.txt, paths in clauses and proofs, use lines of the code."""
    os.rename(f"crates/{a}", f"crates/{b}")
    t = open("crates.txt", encoding="utf-8").read()
    open("crates.txt", "w", encoding="utf-8").write(re.sub(rf"(?m)(?<![\w#]){a}(?=[ :\n])", b, t))
    for f in glob.glob("crates/*/*/**/*.*", recursive=True):
        if f.endswith((".rt", ".antt", ".edit")):
            t = open(f, encoding="utf-8").read()
            new = re.sub(rf"\bRattle\.{a}\.", f"Rattle.{b}.", t)
            new = re.sub(rf"(?m)^((?:pub )?use ){a}::", rf"\g<1>{b}::", new)
            if new != t:
                open(f, "w", encoding="utf-8").write(new)


def main():
    dry = "--dry" in sys.argv
    files = sorted(glob.glob("crates/*/src/**/*.rt", recursive=True) + glob.glob("crates/*/specs/**/*.antt", recursive=True) + glob.glob("crates/*/proofs/**/*.antt", recursive=True))
    texts = {f: open(f, encoding="utf-8").read() for f in files}
    crates = {f.split("/")[1] for f in files}
    own = collections.defaultdict(set)
    for f, t in texts.items():
        if f.endswith(".antt"):
            for m in list(DEF.finditer(t)) + list(INNER.finditer(t)):
                own[m[1]].add(f)
    turn = {n: APART.get(n, snake(n)) for n in own if wants(n) or n in APART}
    said = collections.defaultdict(set)
    for f, t in texts.items():
        taken = set()
        for m in USE.finditer(t):
            head = m[1].split(".")
            if not (head[0] == "Rattle" and len(head) > 1 and head[1] in crates) and m[2]:
                for n in m[2].split(","):
                    taken.add(n.split(" as ")[0].strip())
        words = set(TOKEN.findall(t))
        here = collections.defaultdict(set)
        for w in words:
            n = turn.get(w, w) if w not in taken else w
            here[n].add(w)
        for n, ws in here.items():
            if len(ws) > 1:
                said[n, tuple(sorted(ws))].add(f)
        for n in taken & set(turn):
            said["library", n].add(f)

        antt = f.endswith(".antt")

        def one(m):
            w = m[0]
            if w in taken or (w in APART and not antt):
                return w
            return HERE.get((f, w)) or turn.get(w) or LOCALS.get(w) or w

        out = []
        for line in t.split("\n"):
            # comments keep their words, but for names in them
            out.append(TOKEN.sub(one, line))
        new = "\n".join(out)
        if new != t and not dry:
            open(f, "w", encoding="utf-8").write(new)
    for k, v in sorted(said.items()):
        print("together:", *k, "in", *sorted(v)[:4])
    left = collections.Counter()
    for f, t in texts.items():
        if f.endswith(".antt"):
            for w in TOKEN.findall(t):
                if wants(w) and w not in turn:
                    left[w] += 1
    # must-fail edits of specs/ and proofs/
    for f in glob.glob("crates/*/must-fail/*.edit"):
        t = open(f, encoding="utf-8").read()
        if re.search(r"(?m)^file: (specs|proofs)/", t) and not dry:
            new = TOKEN.sub(lambda m: turn.get(m[0], m[0]), t)
            if new != t:
                open(f, "w", encoding="utf-8").write(new)
    if not dry:
        for a, b in CRATES.items():
            rename(a, b)
    if dry:
        print(len(turn), "names")
        print("left:", " ".join(f"{w}:{n}" for w, n in left.most_common(400)))


main()
