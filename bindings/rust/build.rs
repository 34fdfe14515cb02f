//! Links the proved library: `libluppaneth.a` in target/staticlib of the repository's root, or in the folder that LUPPANETH_LIB names. It has to
//! be of this crate's version.

use std::env;
use std::fs;
use std::path::{Path, PathBuf};

/// The folder that `tools/build` writes to; the root is two folders above this crate's.
fn built() -> PathBuf {
    let root = Path::new(env!("CARGO_MANIFEST_DIR")).ancestors().nth(2);
    root.expect("bindings/rust is below the root")
        .join("target/staticlib")
}

/// The function whose name has the version's number: a library of another version has another.
fn versioned() -> String {
    let part = |name: &str| -> u32 {
        let digits = env::var(name).expect("cargo tells the version");
        digits.parse().expect("a number")
    };
    let (major, minor) = (
        part("CARGO_PKG_VERSION_MAJOR"),
        part("CARGO_PKG_VERSION_MINOR"),
    );
    let number = major * 10_000 + minor * 100 + part("CARGO_PKG_VERSION_PATCH");
    format!("luppaneth_version_{number}\0")
}

/// What keeps the crate from being built on this archive.
fn fault(archive: &Path) -> Option<&'static str> {
    let Ok(bytes) = fs::read(archive) else {
        return Some("is missing: run `tools/build luppaneth` at the root first");
    };
    let name = versioned();
    let has = bytes.windows(name.len()).any(|at| at == name.as_bytes());
    (!has).then_some("is of another version than this crate: build both from one")
}

fn main() {
    println!("cargo::rerun-if-env-changed=LUPPANETH_LIB");
    let folder = env::var_os("LUPPANETH_LIB").map_or_else(built, PathBuf::from);
    let archive = folder.join("libluppaneth.a");
    println!("cargo::rerun-if-changed={}", archive.display());
    if let Some(fault) = fault(&archive) {
        println!(
            "cargo::error=the proved library {} {fault}",
            archive.display()
        );
        return;
    }
    println!("cargo::rustc-link-search=native={}", folder.display());
    println!("cargo::rustc-link-lib=static=luppaneth");
}
