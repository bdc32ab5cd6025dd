#!/usr/bin/env python3
"""costs.py CRATE [N]: what the prover spends on a crate, the N dearest functions and laws first (30 without N).

Checks the crate over an empty incremental folder, once the crates below it are proved (`rt check` in its folder does that too),
and reads the times at which the folder's files appear: a module's seconds are those since the one before it.
`walk` is what the kit writes of a function's proof, which grows as the square of the function's length and of what the function
holds; `proof` is what stands in proofs/, a function's Invariants and Answers among it. Run it alone on the machine, or the
seconds say little."""
import collections
import os
import pathlib
import re
import shutil
import subprocess
import sys
import tempfile

ROOT = pathlib.Path(__file__).resolve().parent.parent
# What the kit writes for a function, beside the files and the laws that stand in the repository.
WRITTEN = {"Lts", "Tie", "Code", "Mir", "Kinds", "Layout", "Symbol", "Statement", "Reads", "Key", "Met", "Given", "Goals", "View",
           "TheLink", "TheLinks", "contracts", "declared"}
OURS = {"Invariants", "Answers"}


def kit():
    return pathlib.Path(shutil.which("rt")).resolve().parent.parent


def listed(crate):
    """Of crates.txt: whether it is a static library, and the crates that it is built on."""
    found = re.search(rf"^{crate}( staticlib)?:(.*)$", (ROOT / "crates.txt").read_text(), flags=re.M)
    if not found:
        sys.exit(f"crates.txt has no {crate}")
    return bool(found[1]), found[2].split()


def below(crate):
    """The crates below it, in the order in which they are met."""
    found = {}
    for dep in listed(crate)[1]:
        found |= {dep: None} | below(dep)
    return found


def rlib(crate):
    return ROOT / "crates" / crate / "out/rlib" / f"{crate}.rlib"


def words(crate, folder):
    """As `rt` calls the prover, with an incremental folder of its own."""
    home = kit()
    main = ROOT / "crates" / crate / "src/main.rt"
    is_static, deps = listed(crate)
    return ([home / "bin/rattle", "check", "--crate-name", crate, "src/main.rt" if main.exists() else "src/lib.rt",
             "--extern", f"std={home / 'rlibs/std.rlib'}", "-L", f"dependency={home / 'rlibs'}"]
            + [word for dep in deps for word in ("--extern", f"{dep}={rlib(dep)}")]
            + [word for dep in below(crate) for word in ("-L", f"dependency={rlib(dep).parent}")]
            + ["--antt-project", home / "rattle/logic/antt-project.json", "--logic-built", home / "logic_built", "--jobs", "1"]
            + (["--crate-type", "staticlib"] if is_static else []) + ["--incremental", folder])


def part(module):
    """Of a module's name: what it belongs to, and whether it is the walk or a proof."""
    names = re.sub(r"^Rattle-\w+(-\w+)?(\.|$)", "", re.sub(r"\.(decls\.)?oantt$", "", module)).split(".")
    kept = [name for name in names if name not in WRITTEN | OURS | {"Proof", "proofs", "specs"}]
    if "TheLinks" in names:
        # a module names its functions whole there: CRATE-FILE-FUNCTION
        kept = [word for name in kept for word in name.split("-")[1:]]
    walk = set(names) & (WRITTEN | {"Proof"}) and not set(names) & OURS
    return ".".join(kept) or module, "walk" if walk else "proof"


def seconds(folder):
    times = sorted((path.stat().st_mtime, path.name) for path in folder.rglob("*.oantt"))
    spent = collections.defaultdict(collections.Counter)
    for (before, _), (at, name) in zip(times, times[1:]):
        what, kind = part(name)
        spent[what][kind] += at - before
    return spent


def main():
    if len(sys.argv) < 2:
        sys.exit(__doc__)
    with tempfile.TemporaryDirectory() as folder:
        ended = subprocess.run(words(sys.argv[1], folder), cwd=ROOT / "crates" / sys.argv[1], stdin=subprocess.DEVNULL,
                               stdout=subprocess.PIPE, stderr=subprocess.STDOUT, text=True)
        if ended.returncode:
            sys.exit(f"{sys.argv[1]} is not proved: {ended.stdout[-400:]}")
        spent = seconds(pathlib.Path(folder))
    shown = sorted(spent, key=lambda what: -sum(spent[what].values()))[:int(sys.argv[2]) if len(sys.argv) > 2 else 30]
    print(f"{sum(sum(kinds.values()) for kinds in spent.values()):8.1f} s in all\n    walk   proof")
    for what in shown:
        print(f"{spent[what]['walk']:8.2f}{spent[what]['proof']:8.2f}  {what}")


if __name__ == "__main__":
    main()
