//! Finds libcorvezan.a: where CORVEZAN_LIB_DIR says, else where pkg-config knows it, else where `make` puts it.

use std::path::{Path, PathBuf};
use std::process::Command;

/// The folder of an installed library, where pkg-config is there and knows one.
fn installed() -> Option<PathBuf> {
    let said = Command::new("pkg-config").args(["--variable=libdir", "corvezan"]).output().ok()?;
    let text = String::from_utf8(said.stdout).ok()?;
    (said.status.success() && !text.trim().is_empty()).then(|| PathBuf::from(text.trim()))
}

fn main() {
    println!("cargo:rerun-if-env-changed=CORVEZAN_LIB_DIR");
    println!("cargo:rerun-if-env-changed=PKG_CONFIG_PATH");
    let made = Path::new(env!("CARGO_MANIFEST_DIR")).join("../../target/make");
    let given = std::env::var_os("CORVEZAN_LIB_DIR").map(PathBuf::from);
    let folder = given.or_else(installed).unwrap_or(made);
    let archive = folder.join("libcorvezan.a");
    println!("cargo:rerun-if-changed={}", archive.display());
    if !archive.exists() {
        println!("cargo:warning={} is missing. Run `make` in the repository's root first.", archive.display());
    }
    println!("cargo:rustc-link-search=native={}", folder.display());
    println!("cargo:rustc-link-lib=static=corvezan");
}
