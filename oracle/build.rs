// Writes the Rust's root into OUT_DIR: the text of its lib.rs, with the places of its modules, and the two items that the
// listed lib.rs lacks. Nothing of the Rust is kept in this repository.
use std::path::{Path, PathBuf};
use std::{env, fs};

const INTERP_MATH: &str = "pub(crate) mod interp_math;";

// What the listed lib.rs lacks. `index_arr_fixed_dims` is the element at the sum of place times stride over the axes.
const MISSING: &str = "
pub(crate) fn index_arr_fixed_dims<T: Copy, const N: usize>(loc: [usize; N], dimprod: [usize; N], data: &[T]) -> T {
    let mut place = 0;
    for axis in 0..N {
        place += loc[axis] * dimprod[axis];
    }
    data[place]
}
";

// With the feature `doors`: lines at the end of the two files of the grids, by which the test of docs/DIFFERENCES.md reaches
// what they keep to themselves. Their own text stays as it is.
const DOORS: [(&str, &str); 3] = [
    ("mod.rs", ""),
    (
        "regular.rs",
        "
pub mod doors {
    pub fn solve_line(
        base: usize, stride: usize, n: usize, coeffs: &mut [f64], upper: &mut [f64], rhs: &mut [f64],
    ) -> Result<(), &'static str> {
        super::solve_line(base, stride, n, coeffs, upper, rhs)
    }
}
",
    ),
    (
        "rectilinear.rs",
        "
pub mod doors {
    pub fn span_samples(grid: &[f64], span: usize) -> [f64; 4] {
        super::span_samples(grid, span)
    }
}
",
    ),
];

fn main() {
    let src = source_folder();
    let lib = src.join("lib.rs");
    let text = fs::read_to_string(&lib).unwrap_or_else(|e| panic!("{}: {e}; set INTERPN_SRC", lib.display()));
    let root = root(&text, &src);
    let out = PathBuf::from(env::var("OUT_DIR").unwrap()).join("root.rs");
    fs::write(out, root).unwrap();

    println!("cargo::rerun-if-env-changed=INTERPN_SRC");
    println!("cargo::rerun-if-changed=build.rs");
    println!("cargo::rerun-if-changed={}", src.display());
}

// The folder that holds lib.rs. A relative INTERPN_SRC starts at the repository's root.
fn source_folder() -> PathBuf {
    let given = env::var("INTERPN_SRC").unwrap_or_else(|_| "../shared/docs/src".to_string());
    let repository = Path::new(&env::var("CARGO_MANIFEST_DIR").unwrap()).join("..");
    let folder = repository.join(given).join("src");
    folder.canonicalize().unwrap_or_else(|e| panic!("{}: {e}; set INTERPN_SRC", folder.display()))
}

// lib.rs without its inner comments and attributes, which an included text cannot have, and with the modules' places.
fn root(text: &str, src: &Path) -> String {
    assert_eq!(text.matches(INTERP_MATH).count(), 1, "lib.rs has another form");
    let mut out = String::new();
    for line in text.lines() {
        if line.starts_with("//!") || line.starts_with("#![") {
            continue;
        }
        if line == INTERP_MATH {
            out += &place_of(src, "interp_math.rs");
        }
        out += line;
        out += "\n";
    }
    out += &place_of(&maps(src), "mod.rs");
    out += "pub mod multibspline;\n";
    out += MISSING;
    out
}

// The folder of the files of the grids: the Rust's own, or copies with doors.
fn maps(src: &Path) -> PathBuf {
    let own = src.join("multibspline");
    if env::var_os("CARGO_FEATURE_DOORS").is_none() {
        return own;
    }
    let copies = PathBuf::from(env::var("OUT_DIR").unwrap()).join("multibspline");
    fs::create_dir_all(&copies).unwrap();
    for (file, door) in DOORS {
        let text = fs::read_to_string(own.join(file)).unwrap();
        fs::write(copies.join(file), text + door).unwrap();
    }
    copies
}

fn place_of(src: &Path, file: &str) -> String {
    format!("#[path = {:?}]\n", src.join(file))
}
