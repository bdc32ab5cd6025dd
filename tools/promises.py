#!/usr/bin/env python3
"""promises.py [--check]: holds docs/PROMISES.md to the repository. Prints what does not agree, each on a line of its own; with
--check it fails where something does not.

Every link leads to a file, a folder or a heading that is there, and what stands in backquotes in its text stands in that file
too, elsewhere than in a line that only imports it (of `Agrees .value` both words, of `Shape::stride` the last). Every path in
backquotes is there. Must-fail edits are written `crate/name`: each that is named is there, and each that is there is named."""
import argparse
import pathlib
import re
import sys

ROOT = pathlib.Path(__file__).resolve().parent.parent
PROMISES = ROOT / "docs/PROMISES.md"
LINK = re.compile(r"\[([^\]]*)\]\(([^)\s]+)\)")
QUOTED = re.compile(r"`([^`]+)`")
IMPORT = re.compile(r"^\s*(ghost )?use .*$", flags=re.M)
IN_NAME = r"[\w′'-]"
PLACEHOLDERS = {"CRATE", "NAME", "FILE"}


def document():
    return PROMISES.read_text().splitlines()


def links(line):
    """The links of a line that lead to files of the repository: the names in the text, and the path."""
    for text, target in LINK.findall(line):
        if not re.match(r"https?:|#", target):
            yield QUOTED.findall(text), (PROMISES.parent / target.split("#")[0]).resolve()


def headings():
    """As links within the document name them."""
    found = (re.match(r"#+ (.*)", line) for line in document())
    return {re.sub(r"[^\w -]", "", heading[1].lower()).replace(" ", "-") for heading in found if heading}


def bad_places(line):
    for _, target in LINK.findall(line):
        if target.startswith("#") and target[1:] not in headings():
            yield f"no such heading: {target}"


# ---- names

def text_of(path):
    files = sorted(p for p in path.rglob("*") if p.is_file()) if path.is_dir() else [path]
    return "\n".join(IMPORT.sub("", file.read_text()) for file in files)


def stands(word, text):
    return re.search(f"(?<!{IN_NAME}){re.escape(word)}(?!{IN_NAME})", text) is not None


def words(name):
    return [] if "/" in name else [word.lstrip(".").split("::")[-1] for word in name.split()]


def bad_links(line):
    for names, path in links(line):
        if not path.exists():
            yield f"no such path: {path.relative_to(ROOT)}"
            continue
        for name in names:
            if not all(stands(word, text_of(path)) for word in words(name)):
                yield f"`{name}` does not stand in {path.relative_to(ROOT)}"


# ---- edits and other paths

def edits():
    return {f"{path.parts[-3]}/{path.stem}" for path in ROOT.glob("crates/*/must-fail/*.edit")}


def is_edit(word):
    crate, slash, name = word.partition("/")
    return bool(slash) and re.fullmatch(r"\w+", name) is not None and (ROOT / "crates" / crate / "must-fail").is_dir()


def is_path(word):
    parts = pathlib.PurePath(word).parts
    return (re.fullmatch(r"[\w.-]+(/[\w.-]+)+/?", word) is not None and parts[0] != "target"
            and not any(pathlib.PurePath(part).stem in PLACEHOLDERS for part in parts))


def is_there(word):
    return any((folder / word).exists() for folder in (ROOT, ROOT / "crates", ROOT / "docs"))


def bad_quotes(line, known):
    outside = LINK.sub(" ", line)
    for word in (word for quoted in QUOTED.findall(outside) for word in quoted.split()):
        if word in known or not is_path(word) or is_there(word):
            continue
        yield f"no such {'edit' if is_edit(word) else 'path'}: {word}"


def misses():
    known, named = edits(), set()
    for number, line in enumerate(document(), 1):
        named |= known.intersection(QUOTED.findall(line))
        for miss in [*bad_places(line), *bad_links(line), *bad_quotes(line, known)]:
            yield f"docs/PROMISES.md:{number}: {miss}"
    for edit in sorted(known - named):
        yield f"docs/PROMISES.md: names no {edit}"


def main():
    parser = argparse.ArgumentParser(description=__doc__, formatter_class=argparse.RawDescriptionHelpFormatter)
    parser.add_argument("--check", action="store_true", help="fail where something does not agree")
    check = parser.parse_args().check
    found = list(misses())
    leads = sum(1 for line in document() for _ in links(line))
    print("\n".join(found + [f"promises: {leads} links, {len(edits())} edits, {len(found)} misses"]))
    return 1 if check and found else 0


if __name__ == "__main__":
    sys.exit(main())
