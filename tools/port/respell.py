#!/usr/bin/env python3
"""Respells the repository's own definitions and lemmas in snake case, as today's Rattle spells words.

usage: python3 tools/port/respell.py [--list]     at the top of the repository, once, after the kit's port.py

A name is one of ours if a file of some specs/ or proofs/ declares it ('name : type'), but not if that type is a goal of the
check's: those names are the check's own. `a-b` becomes `a_b` in every .antt file and in the clauses and ghost items of every
.rt file. Strings and comments of src/ keep their words. Behind a dot a name is respelled too, as it may be a field, a
constructor or a member of a module of ours, but not directly behind `c`, where the check's names of steps stand.
Two names that would fall together stop the script before it writes anything.
"""
import collections
import os
import re
import sys

WORD = re.compile(r"[^\s(){}\[\].;,:⌜⌝\"]+")
DECLARED = re.compile(r"(?m)^\s*(?:abbrev |unfoldable )*(?:pub )?(?:record |data )?([^\s(){}\[\].;,:⌜⌝\"]+)\s*(?:\([^\n]*?\)|\{[^\n]*?\})*\s*:(?!:)(.*)$")
GOAL = re.compile(r"\b(?:goal|need|given)\.")


def texts(ending):
    for folder, dirs, files in os.walk("crates"):
        dirs[:] = sorted(d for d in dirs if d != "out")
        for f in sorted(files):
            if f.endswith(ending):
                yield os.path.join(folder, f)


def read(path):
    with open(path, encoding="utf-8") as f:
        return f.read()


def plain(text):
    """The text of a .rt file with strings and comments blanked, of the same length."""
    return re.sub(r'//[^\n]*|"(?:\\.|[^"\\])*"', lambda m: " " * len(m[0]), text)


def declared():
    names, words = set(), set()
    for path in texts(".antt"):
        text = read(path)
        for m in DECLARED.finditer(text):
            words.add(m[1])
            if "-" in m[1] and not GOAL.search(m[2]):
                names.add(m[1])
    return names, words


def main():
    names, words = declared()
    together = collections.defaultdict(set)
    for n in names:
        together[n.replace("-", "_")].add(n)
    bad = [sorted(ns) for ns in together.values() if len(ns) > 1]
    bad += [[n, n.replace("-", "_")] for n in sorted(names) if n.replace("-", "_") in words]
    if bad:
        print("these names fall together:", bad, file=sys.stderr)
        return 1
    if "--list" in sys.argv[1:]:
        for n in sorted(names):
            print(n, n.replace("-", "_"))
        return 0
    changed = 0
    for ending in (".antt", ".rt"):
        for path in texts(ending):
            text = read(path)
            seen = plain(text) if ending == ".rt" else text
            out, last = [], 0
            for m in WORD.finditer(seen):
                if m[0] not in names or seen[max(0, m.start() - 2) : m.start()] == "c.":
                    continue
                out += [text[last : m.start()], m[0].replace("-", "_")]
                last = m.end()
            if out:
                with open(path, "w", encoding="utf-8") as f:
                    f.write("".join(out) + text[last:])
                changed += 1
    print(f"{len(names)} names respelled in {changed} files")
    return 0


if __name__ == "__main__":
    sys.exit(main())
