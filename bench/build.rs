//! Links libengine.a, the elimination on its own, which `bench/run` builds from the crate engine_c.

use std::path::PathBuf;

fn main() {
    let here = PathBuf::from(std::env::var_os("CARGO_MANIFEST_DIR").unwrap_or_default());
    let folder = here.join("../target/staticlib");
    println!("cargo:rerun-if-changed={}", folder.join("libengine.a").display());
    println!("cargo:rustc-link-search=native={}", folder.display());
    println!("cargo:rustc-link-lib=static=engine");
}
