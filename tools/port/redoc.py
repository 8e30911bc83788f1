#!/usr/bin/env python3
"""Respells the definitions and lemmas that the pages cite, as the port has respelled them in the crates.

usage: tools/port/redoc.py [--list] [PAGE..]   at the top of the repository, once; PAGE: all pages but docs/PORT.md

What is respelled is a word in `back quotes`, or in a block of code, that is no part of a path. Old and new spelling come from the declarations of each .antt file as it
stood before the port and after respell.py, in their order: the same files with the same declarations, which is looked at. --list prints them.
"""

import glob
import io
import os
import re
import subprocess
import sys
import tarfile

BEFORE, AFTER = "20c3c5ce", "32cc5de"
DECLARED = re.compile(r"^\s*(?:(?:pub|abbrev|unfoldable|record|data) )*([^\s(){}.;,\"\[\]:=]+) :(?=\s|$)", re.M)
NAMED = re.compile(r"^\s*(?:(?:pub|abbrev|unfoldable) )*(?:record|data|ruleset) ([^\s(){}:=]+)", re.M)
WORD = re.compile(r"[^\s(){}.;,\"«»\[\]\\:|`]+")


def texts(commit):
    """The .antt files of a commit, but the proofs of functions, by their path, without comments and strings."""
    packed = subprocess.run(["git", "archive", commit, "crates"], stdout=subprocess.PIPE, check=True).stdout
    found = {}
    with tarfile.open(fileobj=io.BytesIO(packed)) as files:
        for it in files.getmembers():
            if it.name.endswith(".antt") and not it.name.endswith("/Proof.antt"):
                found[it.name] = re.sub(r"--[^\n]*|\"[^\"\n]*\"", "", files.extractfile(it).read().decode())
    return found


def declared(text):
    return DECLARED.findall(text) + NAMED.findall(text)


def table():
    """Old and new spelling of each name that has changed."""
    before, after = texts(BEFORE), texts(AFTER)
    new = {}
    for path, text in before.items():
        olds, news = declared(text), declared(after[path])
        if len(olds) != len(news):
            sys.exit(f"{path}: {len(olds)} declarations, and {len(news)} after the port")
        for old, it in zip(olds, news):
            if new.setdefault(old, it) != it:
                sys.exit(f"{path}: {old} became {it}, and elsewhere {new[old]}")
    return {old: it for old, it in new.items() if old != it}


def respelled(text, new):
    def cited(found):
        inside = found[1]
        if "/" in inside.split(" ")[0]:
            return found[0]
        return "`" + WORD.sub(lambda m: new.get(m[0], m[0]), inside) + "`"

    parts = re.split(r"(?m)^(```[^`\n]*\n.*?^```$)", text, flags=re.S)
    for at, part in enumerate(parts):
        parts[at] = WORD.sub(lambda m: new.get(m[0], m[0]), part) if at % 2 else re.sub(r"`([^`\n]+)`", cited, part)
    return "".join(parts)


def main(words):
    new = table()
    if "--list" in words:
        print("\n".join(f"{old} {it}" for old, it in sorted(new.items())))
        return
    for path in words or sorted({"README.md", "ARCHITECTURE.md", *glob.glob("docs/*.md"), *glob.glob("examples/*.md")} - {"docs/PORT.md"}):
        with open(path, encoding="utf-8") as it:
            text = it.read()
        with open(path, "w", encoding="utf-8") as it:
            it.write(respelled(text, new))


if __name__ == "__main__":
    os.chdir(os.path.join(os.path.dirname(os.path.realpath(__file__)), "..", ".."))
    main(sys.argv[1:])
