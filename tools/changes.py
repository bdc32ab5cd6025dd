#!/usr/bin/env python3
"""What the working tree says otherwise than a commit: for docs/DESIGN-PASS.md, in its form.

    python3 tools/changes.py COMMIT          old and new under each other, by crate: public functions and methods with their
                                             clauses, types and ghost items, definitions of specs/, statements of proofs/
    python3 tools/changes.py COMMIT --gone   what stood then and stands nowhere now and is not named in the page's table of
                                             what is gone; fails where there is such
    python3 tools/changes.py COMMIT --moved  what is taken to have moved to another crate, to be read by the eye

It goes by text: line breaks and comments don't count, names do. An item is found again in its file, else in its crate, else in
another crate. How a function is read comes from the kit's comparison of contracts, /opt/rattle/port/contracts.py."""
import collections
import difflib
import io
import pathlib
import re
import subprocess
import sys
import tarfile
import tempfile

sys.path.insert(0, "/opt/rattle/port")
sys.dont_write_bytecode = True
import contracts  # noqa: E402

ROOT = pathlib.Path(__file__).resolve().parent.parent
PAGE = ROOT / "docs/DESIGN-PASS.md"
TABLE = "## What is gone, and what states its promise now"
Item = collections.namedtuple("Item", "crate file kind name public parts")
LIKENESS = 0.5
MODIFIERS = r"(?:(?:abbrev|opaque|unfoldable|pub|instance)\s+)*"
BEGINS = re.compile(r" *%s(?:record |data )?([^\s:(){},.=|]+)(?: +[^=:]*)? *:(\s|$)" % MODIFIERS)
BARE = re.compile(r" *%s([^\s:(){},.=|]+)$" % MODIFIERS)
NOT_NAMES = {"use", "mod", "open", "module", "infixl", "infixr", "infix", "prefix", "unfolding", "where"}


# ---- functions, types and ghost items of src/

def one_line(signature):
    """As it stands where it has room for one line."""
    return re.sub(r",? \)", ")", re.sub(r"\( ", "(", signature))


def function_items(crate, path, raw):
    found, ghosts = collections.defaultdict(list), collections.defaultdict(list)
    contracts.functions(path, crate, raw, found, ghosts)
    for (_, _, place, name), texts in found.items():
        for f in texts:
            if f["test"] or f["in tests"]:
                continue
            parts = {"fn": "fn %s%s" % (name, one_line(f["sign"]))}
            for word, label, text in f["requires"] + f["ensures"]:
                key = " ".join([word, label]).strip()
                while key in parts:
                    key += "′"
                parts[key] = "%s { %s }" % (key.rstrip("′"), text)
            yield Item(crate, path, "fn", "%s::%s" % (place, name) if place else name, f["pub"] or bool(place), parts)
    for (_, place, name), texts in ghosts.items():
        if name != "const" and place != "const":
            yield Item(crate, path, "ghost", "%s.%s" % (place, name), True, {"ghost": "ghost %s: %s" % (name, " | ".join(texts))})


def type_items(crate, path, raw):
    bare = contracts.blank(raw)
    for m in re.finditer(r"^(pub )?(struct|enum) (\w+)[^{;]*([{;])", bare, re.M):
        end = contracts.closing(bare, m.end() - 1) if m[4] == "{" else m.end()
        text = re.sub(r"//[^\n]*", "", raw[m.start():end])
        yield Item(crate, path, "type", m[3], bool(m[1]), {"type": contracts.squeeze(text)})


# ---- definitions of specs/ and statements of proofs/

def declarations(raw):
    """(name, modules around it, text) of each declaration that is no local one."""
    lines = [re.sub(r"(^|\s)--(\s.*|$)", "", line).rstrip() for line in raw.split("\n")]
    around, out = [], []
    for i, line in enumerate(lines):
        indent = len(line) - len(line.lstrip())
        if not line.strip():
            continue
        while around and around[-1][0] >= indent:
            around.pop()
        module = re.match(r" *module\b(.*)", line)
        if module:
            around.append((indent, contracts.squeeze(module[1])))
            continue
        here = around[-1][1] if around else ""
        if indent != len(around) * 2:
            if out and out[-1][3] < indent:
                out[-1][2].append(line)
            continue
        start = BEGINS.match(line)
        if not start and i + 1 < len(lines) and lines[i + 1].lstrip().startswith(":"):
            start = BARE.match(line)
        if start and start[1] not in NOT_NAMES:
            out.append((start[1], " ".join(a[1] for a in around), [line], indent))
        elif out and not re.match(r" *(pub )?(use|mod)\b", line):
            out[-1][2].append(line)
    return out


def statement(name, lines):
    """The lines before the first that gives the answer."""
    kept = []
    for line in lines:
        if re.match(r" *%s(?![^\s:=]).*=" % re.escape(name), line) and kept and ":" in " ".join(kept):
            break
        if line.strip().startswith("unfolding"):
            break
        kept.append(line)
    return kept


def logic_items(crate, path, raw, kind):
    for name, around, lines, _ in declarations(raw):
        if kind == "lemma":
            lines = statement(name, lines)
        text = contracts.squeeze(" ".join(lines))
        around = contracts.squeeze(re.sub(r"\bwhere\b", "", around))
        whole = "module %s · %s" % (around, text) if around else text
        yield Item(crate, path, kind, name, True, {kind: whole})


# ---- a tree

def items(root):
    out = []
    for path in sorted((root / "crates").glob("*/*/**/*")):
        crate, folder = path.relative_to(root / "crates").parts[:2]
        inside = str(path.relative_to(root / "crates" / crate))
        if folder == "src" and path.suffix == ".rt":
            raw = path.read_text()
            out += [*function_items(crate, inside, raw), *type_items(crate, inside, raw)]
        elif folder == "specs" and path.suffix == ".antt":
            out += logic_items(crate, inside, path.read_text(), "definition")
        elif folder == "proofs" and path.suffix == ".antt" and path.name not in ("Answers.antt", "Invariants.antt"):
            out += logic_items(crate, inside, path.read_text(), "lemma")
    return out


def at_commit(commit):
    archive = subprocess.run(["git", "-C", str(ROOT), "archive", commit, "crates"], capture_output=True, check=True).stdout
    with tempfile.TemporaryDirectory() as folder:
        tarfile.open(fileobj=io.BytesIO(archive)).extractall(folder, filter="data")
        return items(pathlib.Path(folder))


def last(name):
    return re.split(r"::|\.(?=\w+$)", name)[-1]


def group(kind):
    return "logic" if kind in ("definition", "lemma") else kind


def words(item):
    return re.findall(r"[\w′'-]+|[^\w\s]", " ".join(item.parts.values()))


def alike(old, new):
    return difflib.SequenceMatcher(None, words(old), words(new), autojunk=False).ratio()


def is_library(crate):
    return (ROOT / "crates" / crate / "src/lib.rt").exists()


def place(item):
    return item.crate, item.file, item.name


def partner(old, by_name, stood):
    """Where an item stands now: in its file, else in its crate, else in the crate where its text is most alike; not where
    another stood already."""
    named_so = by_name[group(old.kind), last(old.name)]
    others = [n for n in named_so if place(n) == place(old) or place(n) not in stood]
    tests = [
        lambda n: place(n) == place(old),
        lambda n: (n.crate, n.name) == (old.crate, old.name),
        lambda n: n.crate == old.crate,
        lambda n: is_library(n.crate) and alike(old, n) >= LIKENESS,
    ]
    for test in tests:
        found = [n for n in others if test(n)]
        if found:
            return max(found, key=lambda n: (n.parts == old.parts, alike(old, n)))
    return None


def named():
    """(crate, name) of what the page's table of what is gone names: crate in its first column, names in its second. Where a name
    stands twice in a crate, the page says FILE::NAME."""
    text = PAGE.read_text() if PAGE.exists() else ""
    table = text.split(TABLE)[1].split("\n## ")[0] if TABLE in text else ""
    rows = [row.split(" | ") for row in table.splitlines() if row.startswith("| ")]
    return {(row[0].strip("| `"), name) for row in rows if len(row) > 2 for name in re.findall(r"`([^`]+)`", row[1])}


def spellings(item):
    return {(item.crate, item.name), (item.crate, "%s::%s" % (pathlib.PurePath(item.file).stem, item.name))}


def is_named(item, gone):
    return bool(spellings(item) & gone)


def pairs(commit):
    by_name = collections.defaultdict(list)
    for item in items(ROOT):
        by_name[group(item.kind), last(item.name)].append(item)
    gone, olds = named(), at_commit(commit)
    stood = {place(old) for old in olds}
    return [(old, None if is_named(old, gone) else partner(old, by_name, stood)) for old in olds]


# ---- what is printed

def changed(old, new):
    order = {"requires": 1, "ensures": 2}
    keys = sorted(dict.fromkeys([*old.parts, *new.parts]), key=lambda key: order.get(key.split(" ")[0].rstrip("′"), 0))
    lines = []
    for key in keys:
        was, now = old.parts.get(key), new.parts.get(key)
        if was != now:
            lines += ["  - was: `%s`" % was] if was else []
            lines += ["  - is: `%s`" % now] if now else []
    if old.public and not new.public:
        lines.append("  - is no longer public")
    return lines


def print_changes(found):
    count, crate = 0, None
    for old, new in found:
        if new is None or not old.public:
            continue
        lines = changed(old, new)
        if not lines:
            continue
        if old.crate != crate:
            crate = old.crate
            print("\n### %s\n" % crate)
        to = "" if (old.crate, old.file) == (new.crate, new.file) else ", now `%s/%s`" % (new.crate, new.file)
        print("- `%s/%s`%s **%s**" % (old.crate, old.file, to, old.name))
        print("\n".join(lines))
        count += 1
    print("\n%d items changed." % count)




def has_promise(item):
    return item.kind != "fn" or len(item.parts) > 1


def print_gone(found):
    known = named()
    gone = [old for old, new in found if new is None and has_promise(old)]
    missing = [g for g in gone if not is_named(g, known)]
    for g in missing:
        print("%s %s/%s %s" % (g.kind, g.crate, g.file, g.name))
    unknown = known - {name for old, _ in found for name in spellings(old)}
    for name in sorted(unknown):
        print("named, but never stood: %s %s" % name)
    print("%d gone, %d of them not named in %s" % (len(gone), len(missing), PAGE.name))
    return 1 if missing or unknown else 0


def print_moved(found):
    for old, new in found:
        if new is not None and old.crate != new.crate:
            same = " same" if old.parts == new.parts else ""
            print("%s %s -> %s%s" % (old.kind, "%s/%s %s" % place(old), "%s/%s %s" % place(new), same))


def main():
    commits = [a for a in sys.argv[1:] if not a.startswith("-")]
    if len(commits) != 1:
        print(__doc__)
        return 2
    found = pairs(commits[0])
    if "--gone" in sys.argv:
        return print_gone(found)
    if "--moved" in sys.argv:
        return print_moved(found)
    return print_changes(found)


if __name__ == "__main__":
    sys.exit(main())
