#!/usr/bin/env python3
"""declarations.py [--names]: holds include/corvezan.h to the functions of crates/capi, result by result and parameter by
parameter, names too. A slice is a pointer and a length in C; the length of `dims` is called `axes`, that of any other slice
NAME_len. With --names, prints the names that the header declares."""
import pathlib
import re
import sys

ROOT = pathlib.Path(__file__).resolve().parent.parent
NUMBERS = {"usize": "size_t", "f64": "double", "u32": "uint32_t", "u8": "uint8_t"}


def declared():
    text = re.sub(r"/\*.*?\*/", " ", (ROOT / "include/corvezan.h").read_text(), flags=re.S)
    text = re.sub(r"^\s*#.*$", " ", text, flags=re.M)
    found = re.findall(r"([\w ]+?)\s+(corvezan_\w+)\s*\(([^)]*)\)\s*;", text)
    return {name: (result.split("}")[-1].strip(), words(inside)) for result, name, inside in found}


def words(inside):
    return [re.sub(r"\s*\*\s*", " *", " ".join(p.split())) for p in inside.split(",")]


def in_c(parameter):
    name, kind = (part.strip() for part in parameter.split(":"))
    slice_of = re.fullmatch(r"&(mut )?\[(\w+)\]", kind)
    if slice_of:
        const = "" if slice_of[1] else "const "
        length = "axes" if name == "dims" else name + "_len"
        return [f"{const}{NUMBERS[slice_of[2]]} *{name}", f"size_t {length}"]
    lent = re.fullmatch(r"&mut (\w+)", kind)
    return [f"{NUMBERS[lent[1]]} *{name}"] if lent else [f"{NUMBERS[kind]} {name}"]


def exported():
    found = {}
    for path in sorted((ROOT / "crates/capi/src").glob("*.rt")):
        pattern = r'#\[unsafe\(no_mangle\)\]\npub extern "C" fn (\w+)\(([^)]*)\)\s*->\s*(\w+)'
        for name, inside, result in re.findall(pattern, path.read_text()):
            parameters = [p for p in inside.replace("\n", " ").split(",") if p.strip()]
            found[name] = (NUMBERS[result], [c for p in parameters for c in in_c(p)])
    return found


def main():
    header, source = declared(), exported()
    if sys.argv[1:] == ["--names"]:
        print("\n".join(sorted(header)))
        return 0
    wrong = [name for name in sorted(header.keys() | source.keys()) if header.get(name) != source.get(name)]
    for name in wrong:
        print(f"declarations: {name}\n  header: {header.get(name)}\n  source: {source.get(name)}", file=sys.stderr)
    return 1 if wrong or not header else 0


if __name__ == "__main__":
    sys.exit(main())
