//! Links what stands between the guest and some system calls: the variables WRAP, an object file, and WRAP_FLAG, for the linker, name it. Without them
//! the guest is a plain program.

use std::env;

fn main() {
    println!("cargo::rerun-if-env-changed=WRAP");
    println!("cargo::rerun-if-env-changed=WRAP_FLAG");
    let (Ok(object), Ok(flag)) = (env::var("WRAP"), env::var("WRAP_FLAG")) else {
        return;
    };
    println!("cargo::rerun-if-changed={object}");
    println!("cargo::rustc-link-arg={object}");
    println!("cargo::rustc-link-arg={flag}");
}
