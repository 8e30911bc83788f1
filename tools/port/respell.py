#!/usr/bin/env python3
"""Respells the repository's own definitions and lemmas as today's Rattle spells names, after port.py of the kit has run.

usage: tools/port/respell.py [--list]         at the top of the repository, once

A name is in snake case: upTo becomes up_to, and every-both every_both. Types and modules keep their capitals. What the kit makes of
the source (goals, steps, functions, fields of structs) keeps its name, and so do functions of src/, strings, and what the libraries of
the kit declare. Where two names would fall together, the one that has a dash keeps it. --list prints old and new and writes nothing.
"""

import glob
import os
import re
import sys

WORD = re.compile(r"[^\s(){}.;,@\"«»\[\]\\:|`]+")
DECLARED = re.compile(r"^(\s*)((?:pub |abbrev |unfoldable |record |data )*)([^\s(){}.;,\"\[\]:=]+) :(?=\s|$)", re.M)
LET = re.compile(r"\blet ([^\s(){}.;,\"\[\]:=]+)\s*[:=]")
HUMP = re.compile(r"([a-z0-9'])([A-Z])")


def read(path):
    with open(path, encoding="utf-8") as it:
        return it.read()


def bare(text):
    """The text of an .antt file without comments and strings."""
    return re.sub(r"--[^\n]*|\"[^\"\n]*\"", "", text)


def snake(word):
    return HUMP.sub(lambda m: m[1] + "_" + m[2].lower(), word) if word[:1].islower() else word


def parts(name):
    return [snake(it) for it in name.split("-")]


def imported(texts):
    """Names that the files take from the kit's libraries."""
    out = set()
    own = {it.split("/")[1] for it in glob.glob("crates/*/src")}
    for text in texts:
        for line in re.findall(r"^\s*(?:ghost )?use ([^\n]+)", text, re.M):
            where = line.split(".")
            if where[0] == "Rattle" and where[1] in own:
                continue
            found = re.search(r"\{([^}]*)\}", line)
            out |= {it.split(" as ")[0].strip() for it in (found[1].split(",") if found else [])}
    return out


def table():
    """Old and new spelling of each name that changes."""
    files = {p: read(p) for p in sorted(glob.glob("crates/*/specs/**/*.antt", recursive=True) + glob.glob("crates/*/proofs/**/*.antt", recursive=True))}
    laws = {p: bare(t) for p, t in files.items() if not p.endswith("/Proof.antt")}
    goals = {p: bare(t) for p, t in files.items() if p.endswith("/Proof.antt")}
    kit = imported(files.values()) | imported(read(p) for p in glob.glob("crates/*/src/**/*.rt", recursive=True))
    declared = {m[3] for t in laws.values() for m in DECLARED.finditer(t)}
    local = {m[1] for t in laws.values() for m in LET.finditer(t)}
    every = {w for t in files.values() for w in WORD.findall(bare(t))}
    words = {w for w in every if re.fullmatch(r"[a-z][A-Za-z0-9]*'*", w) and HUMP.search(w)}
    def joined(name):
        return "_".join(parts(name))

    new = {}
    for name in sorted((declared | local | words) - kit):
        if name in words or "-" in name:
            new[name] = joined(name)
    # a name of an operator is left alone, and so is one that is spelled by other letters than words are
    new = {o: n for o, n in new.items() if o != n and re.fullmatch(r"[A-Za-z][A-Za-z0-9_'-]*", o)}
    taken = {}
    for name in every | declared:
        taken.setdefault(new.get(name, name), set()).add(name)
    for name, of in taken.items():
        for it in sorted(of) if len(of) > 1 else []:
            if "-" in it and it in new:
                new[it] = "-".join(parts(it))
    return {o: n for o, n in new.items() if o != n}, goals


def respelled(text, new, skip):
    """The text with its names in their new spelling. A name after a dot is a step of the code where skip says so."""

    def one(m):
        word = m[0]
        if word not in new:
            return word
        if skip and text[: m.start()].endswith(".") and "-" in word:
            return word
        return new[word]

    return WORD.sub(one, text)


def main():
    new, goals = table()
    if "--list" in sys.argv[1:]:
        for old, it in sorted(new.items()):
            print(old, it)
        return
    asked = set()
    for text in goals.values():
        asked |= set(re.findall(r"^([^\s:]+) : tie\.Need", text, re.M))
    for path in sorted(glob.glob("crates/*/specs/**/*.antt", recursive=True) + glob.glob("crates/*/proofs/**/*.antt", recursive=True)):
        text = read(path)
        proof = path.endswith("/Proof.antt")
        here = {o: n for o, n in new.items() if not (proof and o in asked)}
        put(path, respelled(text, here, proof))
    for path in sorted(glob.glob("crates/*/src/**/*.rt", recursive=True)):
        put(path, respelled(read(path), new, False))


def put(path, text):
    if read(path) != text:
        with open(path, "w", encoding="utf-8") as it:
            it.write(text)


if __name__ == "__main__":
    os.chdir(os.path.join(os.path.dirname(os.path.realpath(__file__)), "..", ".."))
    main()
