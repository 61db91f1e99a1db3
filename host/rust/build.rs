//! Links libdayunglipo.a. DAYUNGLIPO_LIBS names its folder; without it the folder is dist/ at the root.

use std::path::PathBuf;

fn main() {
    println!("cargo:rerun-if-env-changed=DAYUNGLIPO_LIBS");
    let here = PathBuf::from(std::env::var_os("CARGO_MANIFEST_DIR").unwrap_or_default());
    let folder = match std::env::var_os("DAYUNGLIPO_LIBS") {
        Some(named) => PathBuf::from(named),
        None => here.join("../../dist"),
    };
    let archive = folder.join("libdayunglipo.a");
    println!("cargo:rerun-if-changed={}", archive.display());
    println!("cargo:rustc-link-search=native={}", folder.display());
    println!("cargo:rustc-link-lib=static=dayunglipo");
    if !archive.exists() {
        println!("cargo:warning=there is no libdayunglipo.a; ./build makes it, or DAYUNGLIPO_LIBS names its folder");
    }
}
