#!/usr/bin/env python3
"""Gives the repository's own definitions and lemmas the spelling of today's Rattle: words joined by `_` in place of `-`.

usage: python3 tools/spell_names.py [--list] [ROOT]     at the top of a checkout that port.py has turned, or with its path

Own names are those that a file of specs/ or proofs/ defines (a definition, a lemma, a field, a constructor, a binder of a
module). Names that Rattle makes (goals, steps of a proof) and those of the libraries stay. Of source files only clauses and
`ghost use` lines can hold such a name: Rust has none with a hyphen. With --list it prints the names and what they become,
and changes nothing.
"""
import os
import re
import sys

TOKEN = re.compile(r"[A-Za-z][A-Za-z0-9_'₀-₉]*(?:-[A-Za-z0-9_'₀-₉]+)+")
DEFINED = re.compile(r"\s*(?:abbrev |unfoldable )?(?:pub )?(?:abbrev |unfoldable |record |data )?(?:pub )?([A-Za-z][\w'-]*)\s*(?::|\{|\()")
# names of today's library that an own name was called after, and a type that had no upper camel case
BY_HAND = {"getD-filled": "get_or_filled", "Ended-try": "EndedTry"}


def files(root):
    for folder, dirs, names in os.walk(os.path.join(root, "crates")):
        dirs[:] = sorted(d for d in dirs if d != "out")
        for name in sorted(names):
            yield os.path.join(folder, name)


def read(path):
    with open(path, encoding="utf-8") as f:
        return f.read()


def own_names(root):
    own = set()
    for path in files(root):
        answers = "/proofs/" in path and os.path.basename(path) in ("Answers.antt", "Invariants.antt")
        if path.endswith(".antt") and not answers:
            for line in read(path).splitlines():
                m = DEFINED.match(line)
                if m and TOKEN.fullmatch(m[1]):
                    own.add(m[1])
    return own


def imported(root):
    """Names that some file takes from a library, or that Rattle makes."""
    taken = set()
    for path in files(root):
        if path.endswith((".antt", ".rt")):
            for m in re.finditer(r"use ([\w.]+)\.\{([^}]*)\}", read(path)):
                own = m[1].startswith("Rattle.") and m[1].split(".")[1] in os.listdir(os.path.join(root, "crates"))
                if not own or m[1].endswith((".Goals", ".Given")):
                    taken.update(w.split(" ")[0] for w in m[2].split(", "))
    return taken


def main():
    args = [a for a in sys.argv[1:] if a != "--list"]
    root = args[0] if args else "."
    own = own_names(root)
    both = own & imported(root)
    if both:
        print("left, since a library has the name too: " + ", ".join(sorted(both)), file=sys.stderr)
    new = {n: BY_HAND.get(n, n.replace("-", "_")) for n in own - both}
    if "--list" in sys.argv:
        for n in sorted(new):
            print(n, new[n])
        return
    changed = 0
    for path in files(root):
        if path.endswith((".antt", ".rt", ".edit")):
            text = read(path)
            turned = TOKEN.sub(lambda m: new.get(m[0], m[0]), text)
            if turned != text:
                changed += 1
                with open(path, "w", encoding="utf-8") as f:
                    f.write(turned)
    print(f"{len(new)} names, {changed} files")


main()
