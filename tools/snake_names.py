#!/usr/bin/env python3
"""Spells the repository's own definitions and lemmas as the kit spells its own: words in snake case.

usage: python3 tools/snake_names.py [--check] [FOLDER]

    firstRefusal -> first_refusal, lineAt-cellAt -> line_at-cell_at, floatText -> float_text

It goes over specs/, proofs/, must-fail/ and the clauses of src/ of every crate below FOLDER/crates, in place, once, after
/opt/rattle/port/port.py. Names that begin with a capital letter, which are types and facts, stay, and so do texts in quotes. A lemma
that the new spelling of another name would fall together with gets `_lem` at its end, as the kit does it.
--check writes nothing and prints the names that fall together.
"""
import collections
import os
import re
import sys

HUMP = re.compile(r"(?<=[a-z0-9])[A-Z]")
# A name as antt reads it: letters, digits, '_', '-', primes and marks, ended by a space, a bracket or a dot.
NAME = re.compile(r"[^\s(){}.;,@\"«»\[\]\\∷×→≡≤<]+")
RUST = re.compile(r"\"(?:[^\"\\\n]|\\.)*\"|[A-Za-z_][A-Za-z0-9_]*")
# Lemmas whose name a definition takes.
LEMMAS = {
    "crates/evaluation/proofs": {"no_place": "no_place_lem"},
    "crates/map_spline/proofs": {"in_use": "in_use_lem"},
}
# Words of their own: the kit's name for what ours were named after, and a definition beside a field of its new name.
OWN = {"getD": "get_or", "scratchAfter": "scratch_after_axes"}


def snake(word):
    if word in OWN:
        return OWN[word]
    return HUMP.sub(lambda m: "_" + m[0].lower(), word) if word[:1].islower() else word


def respell(name):
    return "-".join(snake(part) for part in name.split("-"))


def turn(path, text):
    if path.endswith(".antt"):
        out = []
        for line in text.split("\n"):
            out.append(NAME.sub(lambda m: respell(lemma(path, m[0])), line))
        return "\n".join(out)
    return RUST.sub(lambda m: m[0] if m[0].startswith('"') else snake(m[0]), text)


def lemma(path, name):
    for folder, names in LEMMAS.items():
        if "/" + folder + "/" in path.replace(os.sep, "/") and name in names:
            return names[name]
    return name


def files(top):
    for folder, dirs, names in os.walk(os.path.join(top, "crates")):
        dirs[:] = sorted(d for d in dirs if d != "out")
        for name in sorted(names):
            if name.endswith((".antt", ".rt", ".edit")):
                yield os.path.join(folder, name)


def names_of(path, text):
    if path.endswith(".antt"):
        return {m[0] for line in text.split("\n") for m in NAME.finditer(re.sub(r"--.*", "", line))}
    return {m[0] for m in RUST.finditer(re.sub(r"//.*", "", text)) if not m[0].startswith('"')}


def main():
    check = "--check" in sys.argv[1:]
    given = [a for a in sys.argv[1:] if a != "--check"]
    top = os.path.abspath(given[0] if given else ".")
    changed = 0
    for path in files(top):
        with open(path, encoding="utf-8") as f:
            text = f.read()
        if check:
            spelled = collections.defaultdict(set)
            for name in names_of(path, text):
                spelled[respell(name)].add(name)
            for new, old in sorted(spelled.items()):
                if len(old) > 1:
                    print(os.path.relpath(path, top), new, sorted(old))
            continue
        new = turn(path, text)
        if new != text:
            with open(path, "w", encoding="utf-8") as f:
                f.write(new)
            changed += 1
    print("%d files respelled" % changed if not check else "checked")


if __name__ == "__main__":
    main()
