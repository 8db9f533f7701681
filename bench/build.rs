//! Links the static library of the proved code, and the allocator functions of its kit.

use std::env;
use std::path::PathBuf;

fn main() {
    let here = PathBuf::from(env::var_os("CARGO_MANIFEST_DIR").expect("cargo sets it"));
    let kit = PathBuf::from(env::var_os("RATTLE_KIT").expect("RATTLE_KIT is the kit's folder"));
    let archives = [
        here.join("../crates/measured/out/libmeasured.a"),
        kit.join("c/liblibc_c.a"),
    ];
    for archive in archives {
        println!("cargo:rustc-link-arg={}", archive.display());
        println!("cargo:rerun-if-changed={}", archive.display());
    }
    println!("cargo:rerun-if-env-changed=RATTLE_KIT");
}
