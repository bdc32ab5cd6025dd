#!/usr/bin/env python3
"""definitions.py [--names]: how many lines of definitions a buyer of the library has to read, to know what is promised.

It starts from the contracts of the entry points (docs/DECISIONS.md says which they are) and of the map program,
and from the theorems that docs/PROMISES.md links, follows each name to the definition in crates/*/specs that it is imported
from, and so on. Prints Markdown tables: the definitions reached from the contracts, those with the theorems besides, and those
that neither reaches, which only inner functions or proofs need. With --names it prints each definition with its lines.

The lines of a definition are its signature and its clauses, without comments and blank lines, since a comment is read but need
not be believed; the head of a `module _ (..) where` counts once. Of a theorem the statement is followed, not the proof; its own
lines do not count, and definitions of proofs/ that it mentions are only named. The library is counted apart from the map program,
which a buyer who links the library need not read.

Approximations: scopes are told by regular expressions, so that a name that is bound somewhere in a clause is taken for bound
in all of it; a record is reached by its name and not by its fields; types that the code declares (src/, seen in specs/ as
`declared`) and the kit's own definitions are not counted."""
import argparse
import collections
import functools
import re
import sys

import house
import promises

ROOT = house.ROOT
RECORDS = {"Shape", "MultiBsplineRegular", "MultiBsplineRectilinear"}
FUNCTIONS = {
    ("regular_lines", "solve_line"), ("regular", "coefficients"), ("rectilinear_lines", "solve_line"),
    ("rectilinear", "coefficients"), ("map_work", "work_on"), ("map_run", "answer"),
} | {("stepwise", name.format(grid)) for grid in ("regular", "rectilinear") for name in
     ("begin_{}", "begin_{}_by_len", "solve_{}_line", "fit_{}_by_list")}

# Where a definition stands: crate, folder (specs or proofs), file without its suffix, name.
Key = collections.namedtuple("Key", "crate folder file name")
# kind: what it is, among them `module`; head: its signature, with those of the modules around it; heads: their keys.
Definition = collections.namedtuple("Definition", "key kind line head clauses lines heads")
Scope = collections.namedtuple("Scope", "names files")

NAME = r"[^\s(){}\[\];:.,=«»⌜⌝λ]+"
START = re.compile(rf"^( *)(?:(?:abbrev|unfoldable) )?(?:pub )?(?:(record|data) ({NAME})(?= )|({NAME}) :(?= |$))")
MODULE = re.compile(r"^( *)module _")
USE = re.compile(r"^(?:ghost )?use Rattle\.(\w+)\.(specs|proofs)\.(\w+)(?:\.\{(.*)\}| as (\w+))?;?$")
# a list of imported names may go over several lines
IN_BRACES = re.compile(r"\.\{[^{}]*\}")
COMMENT = re.compile(r"(?:^|(?<= ))--(?: .*)?$", flags=re.M)


# ---- scopes: what the lines that import say

def scope_of(text):
    names, files = {}, {}
    for line in IN_BRACES.sub(lambda braces: " ".join(braces[0].split()), text).splitlines():
        found = USE.match(line)
        if not found:
            continue
        crate, folder, file, listed, alias = found.groups()
        if alias:
            files[alias] = (crate, folder, file)
        for item in (listed or "").split(","):
            name, _, other = item.strip().partition(" as ")
            names[other or name] = Key(crate, folder, file, name)
    return Scope(names, files)


# ---- definitions: a file of them, by indentation

def indent(line):
    return len(line) - len(line.lstrip(" "))


def is_text(line):
    return bool(line.strip()) and not line.lstrip().startswith("--")


def goes_on(line, depth, name):
    """Is this line, at the depth of the definition, one of its clauses, or what a clause ends with?"""
    words = line.split()
    return indent(line) > depth or (indent(line) == depth and (words[0] in (name, "unfolding") or words[0][0] in ")}]"))


def end_of(lines, start, depth, name):
    end = at = start + 1
    while at < len(lines):
        if is_text(lines[at]):
            if not goes_on(lines[at], depth, name):
                break
            end = at + 1
        at += 1
    return end


def end_of_head(lines, start):
    while not COMMENT.sub("", lines[start]).rstrip().endswith("where"):
        start += 1
    return start + 1


def split_clauses(lines, depth, name, kind):
    """The signature, and each clause; a record and a data type are all signature."""
    starts = [i for i, line in enumerate(lines) if i and indent(line) == depth and line.split()[:1] == [name]]
    if kind or not starts:
        return "\n".join(lines), []
    return "\n".join(lines[:starts[0]]), ["\n".join(lines[i:j]) for i, j in zip(starts, starts[1:] + [len(lines)])]


def definition(lines, start, found, place, around):
    depth, kind, name = len(found[1]), found[2], found[3] or found[4]
    end = end_of(lines, start, depth, name)
    own = [COMMENT.sub("", line) for line in lines[start:end]]
    head, clauses = split_clauses(own, depth, name, kind)
    head = re.split(r"^ *unfolding ", head, flags=re.M)[0]
    written = sum(1 for line in lines[start:end] if is_text(line))
    return Definition(Key(*place, name), kind or "", start + 1, head, clauses, written, around), end


def module(lines, start, place, around):
    end = end_of_head(lines, start)
    head = COMMENT.sub("", "\n".join(lines[start:end]))
    written = sum(1 for line in lines[start:end] if is_text(line))
    return Definition(Key(*place, f"module at line {start + 1}"), "module", start + 1, head, [], written, around), end


def definitions_in(path):
    lines, place = path.read_text().splitlines(), (path.parts[-3], path.parts[-2], path.stem)
    found, around, at = {}, [], 0
    while at < len(lines):
        start = at
        if is_text(lines[at]):
            around = [(depth, key) for depth, key in around if depth < indent(lines[at])]
        keys = tuple(key for _, key in around)
        if MODULE.match(lines[start]):
            one, at = module(lines, start, place, keys)
            around.append((indent(lines[start]), one.key))
        elif START.match(lines[start]):
            one, at = definition(lines, start, START.match(lines[start]), place, keys)
        else:
            at += 1
            continue
        found[one.key] = one
    return found


@functools.lru_cache(maxsize=None)
def every():
    """All definitions in specs/, and what stands right in proofs/, which a statement may name."""
    paths = [path for folder in ("specs", "proofs") for path in sorted(ROOT.glob(f"crates/*/{folder}/*.antt"))]
    return {key: one for path in paths for key, one in definitions_in(path).items()}


@functools.lru_cache(maxsize=None)
def constructors():
    return {Key(*key[:3], name): key for key, one in every().items() if one.kind == "data"
            for name in re.findall(rf"^ +({NAME}) :", one.head, flags=re.M)}


@functools.lru_cache(maxsize=None)
def scope_at(crate, folder, file):
    return scope_of((ROOT / "crates" / crate / folder / f"{file}.antt").read_text())


# ---- names: those that a piece of text mentions and does not bind

def bound(text):
    """Names bound in brackets, by lambda and by let."""
    names = " ".join(re.findall(rf"[({{]\s*((?:{NAME}\s+)+):\s", text)).split()
    for binders in re.findall(r"λ\s*((?:[^.()]|\([^()]*\))*)\.", text):
        names += re.sub(r"\([^()]*\)", " ", binders).split()
    return set(names + re.findall(rf"\blet\s+({NAME})", text))


def mentions(text):
    """Every name but for fields: `record { a = a }` mentions a once, `.a` nothing, and `s.a` s, or a of the file s."""
    words = re.findall(r"[^\s(){}\[\];,«»⌜⌝λ]+", re.sub(rf"({NAME})\s+=(?=\s)", " ", text))
    return {name for word in words if not word.startswith(".") for name in (word.rstrip("."), word.split(".")[0])}


def resolve(word, place, scope):
    alias, dot, name = word.rpartition(".")
    if dot:
        return Key(*scope.files[alias], name) if alias in scope.files else None
    key = scope.names.get(word, Key(*place, word) if place else None)
    key = constructors().get(key, key)
    return key if key in every() else None


def resolved(text, taken, place, scope):
    found = {resolve(word, place, scope) for word in mentions(text) - taken}
    return found - {None}


def pieces(one):
    """The signature, of a record up to its fields, and then each field: its name, which is bound after it, and its type."""
    parts = re.split(rf"^ +pub ({NAME}) :", one.head, flags=re.M) if one.kind == "record" else [one.head]
    return parts[0], list(zip(parts[1::2], parts[2::2]))


def bound_around(one):
    """What the heads of the modules around it bind."""
    return set().union(*(bound(every()[key].head) for key in one.heads))


def head_names(one):
    """What the statement mentions, and the modules around it."""
    place, scope = one.key[:3], scope_at(*one.key[:3])
    head, fields = pieces(one)
    taken = bound_around(one) | bound(head)
    found = resolved(head, taken, place, scope)
    for name, kind in fields:
        found |= resolved(kind, taken | bound(kind), place, scope)
        taken.add(name)
    return found | set(one.heads)


def clause_names(one, clause):
    """Patterns bind, but for constructors."""
    place, scope = one.key[:3], scope_at(*one.key[:3])
    left, right = (re.split(r"\s=(?=\s|$)", clause, maxsplit=1) + [""])[:2]
    built = {word for word in mentions(left) if scope.names.get(word, Key(*place, word)) in constructors()}
    taken = bound_around(one) | (mentions(left) - built - {one.key.name}) | bound(right)
    return resolved(" ".join(built), set(), place, scope) | resolved(right, taken, place, scope)


def names_in(one):
    return set().union(head_names(one), *(clause_names(one, clause) for clause in one.clauses))


# ---- the two starts, and what they reach

def is_entry(function):
    return function.exported or function.owner in RECORDS or (function.crate, function.name) in FUNCTIONS


def from_contracts():
    found = set()
    for function in filter(is_entry, house.functions()):
        parameters = {p.split(":")[0].replace("mut ", "").strip() for p in function.parameters}
        scope = scope_of((ROOT / function.path).read_text())
        found |= resolved(function.contract, bound(function.contract) | parameters, None, scope)
    return found


def linked():
    """The definitions that the document links, in specs/ and in proofs/."""
    for names, path in (link for line in promises.document() for link in promises.links(line)):
        for key in (Key(*path.parts[-3:-1], path.stem, name) for name in names):
            if path.suffix == ".antt" and key in every():
                yield every()[key]


def statement(one):
    """What a theorem's statement mentions, with the heads of the modules around it."""
    found = head_names(one).union(*(head_names(every()[key]) for key in one.heads))
    return {key for key in found if every()[key].kind != "module"} - {one.key}


def from_theorems():
    """What the theorems mention: all that is linked in proofs/, and in specs/ the types with nothing left open."""
    found = set()
    for one in linked():
        if one.key.folder == "proofs":
            found |= statement(one)
        elif re.search(rf"{re.escape(one.key.name)} : Type \d$", one.head.strip()):
            found.add(one.key)
    return found


def reached(start):
    seen, waiting = set(), [key for key in start if key.folder == "specs"]
    while waiting:
        key = waiting.pop()
        if key not in seen:
            seen.add(key)
            waiting += names_in(every()[key])
    return seen


# ---- the tables

def size(keys):
    """How many definitions, and how many lines."""
    return [sum(1 for key in keys if every()[key].kind != "module"), sum(every()[key].lines for key in keys)]


def rows_by(part, keys, more):
    for group in sorted({part(key) for key in more}):
        yield [group] + size({k for k in keys if part(k) == group}) + size({k for k in more if part(k) == group})


def part_of(key):
    return "the map program" if key.crate == "float_text" or key.crate.startswith("map_") else "the library"


def path_of(key):
    return f"{key.crate}/{key.folder}/{key.file}.antt"


def listed(keys):
    ordered = sorted((every()[key] for key in keys if every()[key].kind != "module"), key=lambda one: (path_of(one.key), one.line))
    return [[path_of(one.key), f"`{one.key.name}`", one.lines] for one in ordered]


def by_file(keys):
    groups = collections.defaultdict(list)
    for path, name, _ in listed(keys):
        groups[path].append(name)
    for path, names in sorted(groups.items()):
        yield [path, len(names), size({key for key in keys if path_of(key) == path})[1], ", ".join(names)]


def print_reached(contracts, both, names):
    heads = ["definitions from contracts", "lines", "with theorems", "lines"]
    crates = list(rows_by(lambda key: key.crate, contracts, both))
    parts = list(rows_by(part_of, contracts, both))
    house.table("Definitions to read, by crate", ["crate"] + heads, crates + parts + [["all"] + size(contracts) + size(both)])
    house.table("By file", ["file"] + heads, list(rows_by(path_of, contracts, both)))
    if names:
        house.table("From contracts", ["file", "definition", "lines"], listed(contracts))
        house.table("From theorems besides", ["file", "definition", "lines"], listed(both - contracts))


def print_rest(both, theorems):
    aside = [f"`{key.name}` ({path_of(key)})" for key in sorted(theorems) if key.folder == "proofs"]
    print(f"Of proofs/ the theorems mention besides: {', '.join(aside) or 'nothing'}.\n")
    rest = {key for key, one in every().items() if key.folder == "specs" and one.kind != "module"} - both
    title = "Not reached: {} definitions, {} lines".format(*size(rest))
    house.table(title, ["file", "definitions", "lines", "names"], list(by_file(rest)))


def main():
    parser = argparse.ArgumentParser(description=__doc__, formatter_class=argparse.RawDescriptionHelpFormatter)
    parser.add_argument("--names", action="store_true", help="print each definition, with its lines")
    names = parser.parse_args().names
    contracts, theorems = reached(from_contracts()), from_theorems()
    both = contracts | reached(theorems)
    print_reached(contracts, both, names)
    print_rest(both, theorems)
    return 0


if __name__ == "__main__":
    sys.exit(main())
