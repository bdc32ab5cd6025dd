#!/usr/bin/env python3
"""The places in crates/*/src that docs/DESIGN-PASS.md counts, by its points.

    python3 tools/forms.py            how many there are of each kind, in the working tree
    python3 tools/forms.py --list     and where
    python3 tools/forms.py COMMIT     the same at a commit

It goes by text: each kind is a pattern, which the page reads with the eye as well.
"""
import collections
import pathlib
import re
import subprocess
import sys

NAMES = [a for a in sys.argv[1:] if not a.startswith("-")]
LIST = "--list" in sys.argv
ROOT = pathlib.Path(__file__).resolve().parent.parent


def git(*args):
    return subprocess.run(["git", "-C", str(ROOT), *args], capture_output=True, text=True, check=True).stdout


def files(folder, suffix):
    if NAMES:
        names = git("ls-tree", "-r", "--name-only", NAMES[0], "crates").split("\n")
        wanted = [n for n in names if re.match(r"crates/\w+/%s/.*%s$" % (folder, suffix), n)]
        return {n: git("show", "%s:%s" % (NAMES[0], n)) for n in wanted}
    found = sorted(ROOT.glob("crates/*/%s/**/*%s" % (folder, suffix)))
    return {str(p.relative_to(ROOT)): p.read_text() for p in found}


SOURCES = files("src", ".rt")
FUNCTION = re.compile(r"^ *(?:pub )?(?:unsafe )?(?:extern \"C\" )?fn (\w+)(<[^(]*>)?\(((?:[^()]|\([^()]*\))*)\)", re.M)
INSTANCE = re.compile(r"^(?:pub )?(?:trait \w+|impl(?:<[^>]*>)? [^{\n]* for )[^{]*\{\n.*?^\}", re.M | re.S)
Function = collections.namedtuple("Function", "file name params clauses body of_trait")


def functions():
    out = []
    for name, text in SOURCES.items():
        bare = re.sub(r"//[^\n]*", "", text)
        instances = [m.span() for m in INSTANCE.finditer(bare)]
        for m in FUNCTION.finditer(bare):
            rest = bare[m.end():]
            start = re.search(r"^ *\{\n|\{ *\}|^ *\{$| \{\n", rest, re.M)
            clauses = rest[:start.start()] if start else ""
            depth, end = 0, len(rest)
            for i in range(start.start() if start else 0, len(rest)):
                depth += {"{": 1, "}": -1}.get(rest[i], 0)
                if depth == 0 and rest[i] == "}":
                    end = i
                    break
            body = rest[start.start():end] if start else ""
            params = [p.strip() for p in m.group(3).replace("\n", " ").split(",") if ":" in p]
            of_trait = any(a <= m.start() < b for a, b in instances)
            out.append(Function(name, m.group(1), params, clauses, body, of_trait))
    return out


ALL = functions()


def line(name, text, at):
    return "%s:%d" % (name, text.count("\n", 0, at) + 1)


def matches(pattern, flags=re.M):
    out = []
    for name, text in SOURCES.items():
        for m in re.finditer(pattern, text, flags):
            out.append(line(name, text, m.start()) + " " + " ".join(m.group(0).split())[:90])
    return out


def enums():
    """Enums of two or three variants of which one is 'none' or a refusal, and structs that hold an answer or a flag beside values."""
    out = []
    for name, text in SOURCES.items():
        for m in re.finditer(r"enum (\w+) \{(.*?)^\}", text, re.S | re.M):
            body = re.sub(r"//[^\n]*", "", m.group(2))
            variants = re.findall(r"^    (\w+)", body, re.M)
            if len(variants) <= 3 and re.search(r"[({]", body):
                out.append(line(name, text, m.start()) + " enum " + m.group(1))
        for m in re.finditer(r"struct (\w+)(<[^>]*>)? \{(.*?)^\}", text, re.S | re.M):
            body = re.sub(r"//[^\n]*", "", m.group(3))
            if re.search(r"\b(answer: |number: u64|is_\w+: bool|placed: bool|ok: bool|good: bool)", body) and body.count(":") > 1:
                out.append(line(name, text, m.start()) + " struct " + m.group(1))
    return out


def codes():
    out = matches(r"^ +(\d+|0x\w+) => .*$")
    out += ["%s %s(kind)" % (f.file, f.name) for f in ALL if any(re.match(r"(kind|number|code): u(64|8|size)", p) for p in f.params)]
    return out


def twins(functions=ALL):
    """Functions of one name in two crates or two files, slab and bundle, and families that end in a digit."""
    where = collections.defaultdict(set)
    for f in functions:
        stem = re.sub(r"(^|_)(regular|rectilinear|slab|bundle|even|uneven|low|high|value|gradient|values|gradients|weights|slopes)(?=_|$)", r"\1*", f.name)
        stem = re.sub(r"_?\d$", "_#", stem)
        where[stem].add((f.file, f.name))
    out = []
    for stem, places in sorted(where.items()):
        if len(places) > 1:
            out += ["%s %s" % p for p in sorted(places)]
    return out


def facts():
    """Parts of `requires` that stand in three functions or more."""
    seen = collections.defaultdict(set)
    for f in ALL:
        for m in re.finditer(r"requires\s*\w*\s*\{(.*?)\}\s*(?=\n|$)", f.clauses, re.S):
            for part in re.split(r" × ", " ".join(m.group(1).split())):
                seen[part.strip("() ")].add((f.file, f.name))
    return ["%d %s" % (len(w), p) for p, w in sorted(seen.items(), key=lambda x: -len(x[1])) if len(w) >= 3]


def groups():
    """Three parameters in a row that travel together through three functions or more; the longest such rows."""
    seen = collections.defaultdict(set)
    for f in ALL:
        for n in range(3, 7):
            for i in range(len(f.params) - n + 1):
                seen[tuple(f.params[i:i + n])].add((f.file, f.name))
    rows = {k: v for k, v in seen.items() if len(v) >= 3}
    keep = [k for k in rows if not any(k != o and len(o) > len(k) and str(k)[1:-1] in str(o) and rows[o] >= rows[k] for o in rows)]
    return ["%d %s" % (len(rows[k]), ", ".join(k)) for k in sorted(keep, key=lambda k: -len(rows[k]))]


def offsets():
    """Functions that are handed a slice and a place or a length in it as a number beside it."""
    out = []
    for f in ALL:
        slices = [p for p in f.params if re.search(r": &(mut )?\[", p)]
        numbers = [p for p in f.params if re.match(r"(at|from|into|row|to|cap|n|m|o|base|stride|place|start|len|count|done|next): usize", p)]
        if slices and numbers:
            out.append("%s %s(%s)" % (f.file, f.name, ", ".join(p.split(":")[0] for p in numbers)))
    return out


def by_hand():
    names = r"(same\w*|is_same\w*|equal\w*|copy\w*|number|sat_number|sat_of|\w+_number|print\w*|write_\w+|put_text|put_decimal|put_digits|digit|letter|letter_of)"
    return ["%s %s" % (f.file, f.name) for f in ALL if re.fullmatch(names, f.name)]


def switches():
    return matches(r"match (kind|step|number|code|call)\b.*$") + matches(r"if (kind|step|call|code) == .*$")


def answers():
    proofs = files("proofs", ".antt")
    out = []
    for name, text in proofs.items():
        if name.endswith("/Answers.antt"):
            out += ["%s %s" % (name, a) for a in re.findall(r"^pub ([^ ]+) : goal\.", text, re.M)]
    return out


POINTS = [
    ("1a", "own enums and structs of the shape of Option or Result", enums),
    ("1b", "numbers for kinds", codes),
    ("2", "functions that have a twin", twins),
    ("2b", "the same among functions of no trait and no instance of one", lambda: twins([f for f in ALL if not f.of_trait])),
    ("3a", "while loops", lambda: matches(r"^ *while .*$")),
    ("3b", "for loops over a range of indices", lambda: matches(r"^ *for \w+ in .*\.\..*$")),
    ("4", "equality, copying, conversion and printing by hand", by_hand),
    ("5a", "facts in the contracts of three functions or more", facts),
    ("5b", "rows of parameters in three functions or more", groups),
    ("6", "functions with a slice and a place or length beside it", offsets),
    ("7", "switches on a step", switches),
    ("8", "proof answers", answers),
]

for point, what, find in POINTS:
    found = find()
    print("%-3s %-62s %5d" % (point, what, len(found)))
    if LIST:
        for f in found:
            print("      " + f)
print("    functions %d, lines of source %d" % (len(ALL), sum(t.count("\n") for t in SOURCES.values())))
