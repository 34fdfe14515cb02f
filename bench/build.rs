//! Links the proved library where LUPPANETH_LIB names a folder with its archive.

use std::path::Path;

fn main() {
    println!("cargo::rustc-check-cfg=cfg(proved)");
    println!("cargo::rerun-if-env-changed=LUPPANETH_LIB");
    println!("cargo::rerun-if-changed=build.rs");
    let Ok(folder) = std::env::var("LUPPANETH_LIB") else {
        return;
    };
    let archive = Path::new(&folder).join("libluppaneth.a");
    println!("cargo::rerun-if-changed={}", archive.display());
    println!("cargo::rustc-link-search=native={folder}");
    println!("cargo::rustc-link-lib=static=luppaneth");
    println!("cargo::rustc-cfg=proved");
}
