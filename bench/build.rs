//! Links the proved library (`command/build exports`). It is for x86-64: elsewhere the bench is built without it and
//! times the plain finder alone. `PJ_LIB_DIR` names another folder for the archive.

use std::env;
use std::path::PathBuf;

fn main() {
    println!("cargo:rustc-check-cfg=cfg(linked)");
    println!("cargo:rerun-if-env-changed=PJ_LIB_DIR");
    let named = env::var("PJ_LIB_DIR").ok().map(PathBuf::from);
    if named.is_none() && env::var("CARGO_CFG_TARGET_ARCH").unwrap() != "x86_64" {
        return;
    }
    let here = PathBuf::from(env::var("CARGO_MANIFEST_DIR").unwrap());
    let folder = named.unwrap_or_else(|| here.join("../target/staticlib"));
    let archive = folder.join("libexports.a");
    println!("cargo:rerun-if-changed={}", archive.display());
    if !archive.is_file() {
        panic!("{} is not there: run `command/build exports` first", archive.display());
    }
    println!("cargo:rustc-link-search=native={}", folder.display());
    println!("cargo:rustc-link-lib=static=exports");
    println!("cargo:rustc-cfg=linked");
}
