//! Links the static library: the one that the repository's build leaves in `target/staticlib`, or that of the folder which
//! `CARTFLOOR_LIBRARY` names.

use std::env;

fn main() {
    let here = env::var("CARGO_MANIFEST_DIR").expect("cargo says where the manifest is");
    let folder = env::var("CARTFLOOR_LIBRARY").unwrap_or(format!("{here}/../target/staticlib"));
    println!("cargo:rustc-link-search=native={folder}");
    println!("cargo:rustc-link-lib=static=cartfloor");
    println!("cargo:rerun-if-changed={folder}/libcartfloor.a");
    println!("cargo:rerun-if-changed=build.rs");
    println!("cargo:rerun-if-env-changed=CARTFLOOR_LIBRARY");
}
