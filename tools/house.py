#!/usr/bin/env python3
"""house.py [--check]: the sizes of the functions in crates/*/src, against the limits that the house has set itself: ten
parameters, four `&mut` slices (seven in the map program), 40 lines of body, source lines of 240 characters.

Prints Markdown tables. With --check it prints the places over a limit instead, each on a line of its own, and fails where
there is one. `self` is a parameter; `&mut [T]` and `&mut [T; N]` are slices; a body is the lines between its braces, so that
contracts do not count. The functions that `capi` exports have the parameters that C has, and are listed but not held to a
limit on them. Lines are counted as they stand, with comments and blank ones."""
import argparse
import collections
import pathlib
import re
import sys

ROOT = pathlib.Path(__file__).resolve().parent.parent
MOST_PARAMETERS = 10
MOST_SLICES = 4
MOST_SLICES_IN_MAP = 7
MOST_BODY = 40
MOST_COLUMNS = 240
LONGEST_SHOWN = 12

Function = collections.namedtuple("Function", "crate path line name owner exported parameters contract body")
OPENING = {"(": ")", "[": "]", "{": "}"}
# What a clause of a contract begins with, before its brace.
CLAUSE = r"\b(?:requires|ensures)\b(?:\s+\w+)?\s*"


# ---- reading

def blanked(text):
    """The text with comments and literals replaced by spaces, so that each brace that is left is one of the code."""
    pattern = r"//[^\n]*|\"(?:\\.|[^\"\\])*\"|'(?:\\.|[^'\\\n])'"
    return re.sub(pattern, lambda found: re.sub(r"[^\n]", " ", found[0]), text)


def closing(text, start):
    """The place of the bracket that closes the one at `start`."""
    opened, closed = text[start], OPENING[text[start]]
    depth = 0
    for found in re.finditer("[" + re.escape(opened + closed) + "]", text[start:]):
        depth += 1 if found[0] == opened else -1
        if depth == 0:
            return start + found.start()
    raise ValueError(f"nothing closes {opened} at character {start}")


def split(inside):
    """The parts between the commas that stand in no bracket."""
    parts, depth, part = [], 0, ""
    for character in inside:
        depth += (character in "([{") - (character in ")]}")
        if character == "," and depth == 0:
            parts.append(part)
            part = ""
        else:
            part += character
    return [p.strip() for p in parts + [part] if p.strip()]


def past_generics(code, start):
    """The place after the generic parameters that may begin at `start`: `<R: Read>`, also with a `->` in a bound."""
    depth = 0
    for found in re.finditer(r"->|[<>]|\S", code[start:]):
        depth += {"<": 1, ">": -1}.get(found[0], 0)
        if depth == 0:
            return start + (found.end() if found[0] == ">" else found.start())
    raise ValueError(f"nothing closes < at character {start}")


def body_start(code, after):
    """The place of the body's brace, past the result and the clauses, each of which may have a name; None where a trait's function
    has no body."""
    while True:
        if re.match(r"[^{]*?;(?!\s*\d+\])", re.sub(CLAUSE + r"\{", "{", code[after:])):
            return None
        found = re.compile(rf"({CLAUSE})?\{{").search(code, after)
        brace = found.end() - 1
        if not found[1]:
            return brace
        after = closing(code, brace) + 1


def owner_at(code, place):
    """The type whose methods stand around a place, if any."""
    for found in re.finditer(r"^impl\b(?:<[^{]*?>)?\s+(?:[^{]*?\sfor\s+)?(\w+)[^{;]*\{", code, flags=re.M):
        if found.start() < place < closing(code, found.end() - 1):
            return found[1]
    return None


def contract(between):
    """What stands between the parameters and the body, without the result, `where` and the names of clauses."""
    found = re.search(rf"{CLAUSE}\{{", between)
    return re.sub(rf"{CLAUSE}(?=\{{)", "", between[found.start():]) if found else ""


def functions_in(path):
    text = path.read_text()
    code = blanked(text)
    for found in re.finditer(r"^[ \t]*(?:pub )?(extern\b.*)?\bfn (\w+)\s*(?=[(<])", code, flags=re.M):
        start = past_generics(code, found.end())
        end = closing(code, start)
        brace = body_start(code, end)
        if brace is None:
            continue
        body = text[brace + 1:closing(code, brace)]
        yield Function(path.parts[-3], path.relative_to(ROOT), code.count("\n", 0, found.start(2)) + 1, found[2],
                       owner_at(code, found.start()), bool(found[1]), split(code[start + 1:end]),
                       contract(text[end + 1:brace]), len(body.strip().splitlines()))


def functions():
    return [f for path in sorted(ROOT.glob("crates/*/src/*.rt")) for f in functions_in(path)]


def long_lines():
    for path in sorted(ROOT.glob("crates/*/src/*.rt")):
        for number, line in enumerate(path.read_text().splitlines(), 1):
            if len(line) > MOST_COLUMNS:
                yield path.relative_to(ROOT), number, len(line)


# ---- the limits

def slices(function):
    return sum(1 for p in function.parameters if re.search(r":\s*&mut\s*\[", p))


def in_map(function):
    return function.crate == "map" or function.crate.startswith("map_")


def most_slices(function):
    return MOST_SLICES_IN_MAP if in_map(function) else MOST_SLICES


def too_wide(function):
    return len(function.parameters) > MOST_PARAMETERS or slices(function) > most_slices(function)


def broken(found):
    for f in found:
        place = f"{f.path}:{f.line}: {f.name}"
        if len(f.parameters) > MOST_PARAMETERS and not f.exported:
            yield f"{place}: {len(f.parameters)} parameters, at most {MOST_PARAMETERS}"
        if slices(f) > most_slices(f) and not f.exported:
            yield f"{place}: {slices(f)} `&mut` slices, at most {most_slices(f)}"
        if f.body > MOST_BODY:
            yield f"{place}: {f.body} lines of body, at most {MOST_BODY}"
    for path, number, width in long_lines():
        yield f"{path}:{number}: {width} characters, at most {MOST_COLUMNS}"


# ---- the tables

def table(title, heads, rows):
    print(f"### {title}\n")
    if not rows:
        print("None.\n")
        return
    for row in [heads, ["---"] * len(heads)] + rows:
        print("| " + " | ".join(str(cell) for cell in row) + " |")
    print()


def counts(found):
    pairs = collections.Counter((len(f.parameters), slices(f)) for f in found)
    across = range(max(s for _, s in pairs) + 1)
    rows = [[n] + [pairs[n, s] or "" for s in across] + [sum(pairs[n, s] for s in across)]
            for n in sorted({n for n, _ in pairs})]
    rows.append(["all"] + [sum(pairs[n, s] for n, t in pairs if t == s) for s in across] + [len(found)])
    table("Functions by parameters (down) and `&mut` slices (across)", ["parameters"] + list(across) + ["all"], rows)


def wide(title, found):
    rows = sorted(((f.crate, f.path.name, f"`{f.name}`", len(f.parameters), slices(f)) for f in found if too_wide(f)),
                  key=lambda row: (-row[3], -row[4], row))
    table(f"{title}: {len(rows)} of {len(found)}", ["crate", "file", "function", "parameters", "`&mut` slices"], rows)


def all_wide(found):
    beyond = f"more than {MOST_PARAMETERS} parameters or"
    wide(f"Functions with {beyond} {MOST_SLICES} `&mut` slices", [f for f in found if not f.exported and not in_map(f)])
    wide(f"Of the map program: {beyond} {MOST_SLICES_IN_MAP} `&mut` slices", [f for f in found if in_map(f)])
    wide(f"Exported to C: {beyond} {MOST_SLICES} `&mut` slices", [f for f in found if f.exported])


def bodies(found):
    ordered = sorted(found, key=lambda f: (-f.body, f.path, f.line))
    over = sum(1 for f in found if f.body > MOST_BODY)
    rows = [(f.crate, f.path.name, f"`{f.name}`", f.body) for f in ordered[:max(over, LONGEST_SHOWN)]]
    table(f"Longest bodies: {over} over {MOST_BODY} lines", ["crate", "file", "function", "lines"], rows)


def wide_lines():
    rows = [(path.parts[1], path.name, number, width) for path, number, width in long_lines()]
    table(f"Source lines over {MOST_COLUMNS} characters: {len(rows)}", ["crate", "file", "line", "characters"], rows)


def lines_under(crate, folder):
    return sum(len(path.read_text().splitlines()) for path in (crate / folder).rglob("*") if path.suffix in (".rt", ".antt"))


def crates(found):
    number = collections.Counter(f.crate for f in found)
    rows = []
    for crate in sorted((ROOT / "crates").iterdir()):
        lines = [lines_under(crate, folder) for folder in ("src", "specs", "proofs")]
        rows.append([crate.name, number[crate.name]] + lines + [len(list(crate.glob("must-fail/*.edit")))])
    rows.append(["all"] + [sum(row[k] for row in rows) for k in range(1, 6)])
    table("Crates", ["crate", "functions", "src/", "specs/", "proofs/", "must-fail edits"], rows)


def main():
    parser = argparse.ArgumentParser(description=__doc__, formatter_class=argparse.RawDescriptionHelpFormatter)
    parser.add_argument("--check", action="store_true", help="print the places over a limit, and fail where there is one")
    found = functions()
    if parser.parse_args().check:
        places = list(broken(found))
        print("\n".join(places + [f"house: {len(found)} functions, {len(places)} places over a limit"]))
        return 1 if places else 0
    counts(found)
    all_wide(found)
    bodies(found)
    wide_lines()
    crates(found)
    return 0


if __name__ == "__main__":
    sys.exit(main())
