//! Links `libvorphiel.a` from the folder named by `VORPHIEL_LIB_DIR`, unless the library is left out.

use std::env;
use std::path::Path;

fn main() {
    println!("cargo:rerun-if-changed=build.rs");
    println!("cargo:rerun-if-env-changed=VORPHIEL_LIB_DIR");
    if env::var_os("CARGO_FEATURE_LIBRARY").is_none() {
        return;
    }
    let Ok(folder) = env::var("VORPHIEL_LIB_DIR") else {
        panic!("VORPHIEL_LIB_DIR must name the folder that holds libvorphiel.a (or build with --no-default-features)");
    };
    println!("cargo:rerun-if-changed={}", Path::new(&folder).join("libvorphiel.a").display());
    println!("cargo:rustc-link-search=native={folder}");
    println!("cargo:rustc-link-lib=static=vorphiel");
}
