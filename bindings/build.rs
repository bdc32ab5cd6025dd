// Links the archive of the library: the file that CORVEZAN_ARCHIVE names, target/staticlib/libcapi.a without it. A relative
// path starts at the repository's root.
use std::env;
use std::path::Path;

fn main() {
    let given = env::var("CORVEZAN_ARCHIVE").unwrap_or_else(|_| "target/staticlib/libcapi.a".to_string());
    let archive = Path::new(&env::var("CARGO_MANIFEST_DIR").unwrap()).join("..").join(given);
    println!("cargo::rerun-if-env-changed=CORVEZAN_ARCHIVE");
    println!("cargo::rerun-if-changed=build.rs");
    println!("cargo::rerun-if-changed={}", archive.display());

    if !archive.is_file() {
        println!("cargo::warning={}: no such archive; set CORVEZAN_ARCHIVE", archive.display());
    }
    let file = archive.file_name().unwrap().to_str().expect("the archive's name is no text");
    let name = file.strip_prefix("lib").and_then(|rest| rest.strip_suffix(".a"));
    let name = name.unwrap_or_else(|| panic!("{file}: an archive is named lib*.a"));
    println!("cargo::rustc-link-search=native={}", archive.parent().unwrap().display());
    println!("cargo::rustc-link-lib=static={name}");
}
