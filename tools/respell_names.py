#!/usr/bin/env python3
"""Brings the repository's own definitions and lemmas to today's spelling: words in snake case, types in camel case.

usage: python3 tools/respell_names.py    once, at the top, right behind the kit's port.py

It renames what specs/ and proofs/ declare in lower camel case (`entriesOf` to `entries_of`), and the two definitions
that are types but began with a small letter. Source names of src/, generated names, strings, inputs and outputs stay.
It prints each name that would fall together with one that stands already.
"""

import os
import re
import sys

WORD = r"A-Za-z0-9_'"
TOKEN = re.compile(rf"[A-Za-z_][{WORD}]*")
DECLARED = re.compile(r"\s*(?:(?:abbrev|unfoldable)\s+)*(?:pub\s+)?(?:(?:abbrev|unfoldable)\s+)*([^\s:{}()=]+)\s*:\s")
CAMEL = re.compile(r"(?<=[a-z0-9])([A-Z])")
# Two definitions that are types, each named in one file alone.
TYPES = {"crates/package/proofs/Answering.antt": {"below": "Below", "whole": "IsWhole"}}


def texts():
    for folder, dirs, files in os.walk("crates"):
        dirs[:] = sorted(d for d in dirs if d != "out")
        for name in sorted(files):
            if name.endswith((".rt", ".antt")):
                yield os.path.join(folder, name)


def snake(name):
    return CAMEL.sub(lambda m: "_" + m.group(1).lower(), name)


def declared(text):
    """The words in lower camel case of the names that a file of antt declares: a dash joins the words of a name."""
    names = (m.group(1) for m in map(DECLARED.match, text.split("\n")) if m)
    return {w for n in names for w in TOKEN.findall(n) if w[0].islower() and CAMEL.search(w)}


def respelled(path, text, names):
    names = names | TYPES.get(path, {})
    return TOKEN.sub(lambda m: names.get(m.group(0), m.group(0)), text)


def main():
    old = {p: open(p, encoding="utf-8").read() for p in texts()}
    antt = {p for p in old if p.endswith(".antt")}
    names = {n: snake(n) for p in antt for n in declared(old[p])}
    for n in sorted(names):
        # A function of src/ may have the name of its definition; two names of specs/ and proofs/ may not fall together.
        other = [p for p in antt if re.search(rf"(?<![{WORD}./]){names[n]}(?![{WORD}./])", old[p])]
        if other:
            print(f"{n} -> {names[n]}: stands already in {', '.join(sorted(other))}")
    if any(re.search(rf"(?<![{WORD}]){n}(?![{WORD}])", old[p]) for p, t in TYPES.items() for n in t.values()):
        sys.exit("respell_names: a type has its new name already")
    for p, text in old.items():
        new = respelled(p, text, names)
        if new != text:
            with open(p, "w", encoding="utf-8") as f:
                f.write(new)
    print(f"{len(names)} names respelled")
    left = {w for p in antt for w in TOKEN.findall(open(p, encoding='utf-8').read()) if w[0].islower() and CAMEL.search(w)}
    print("still in camel case:", " ".join(sorted(left)) or "none")


if __name__ == "__main__":
    main()
