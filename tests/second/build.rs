//! Brings the proved library (`command/build exports`) to the test program, by one of two routes.
//!
//! * linked: the archive is linked into the test program. Archives are for x86-64, so this is the route there.
//! * hosted: elsewhere `host/host.c` is linked with the archive into a small x86-64 program, which the kit's
//!   emulator runs, and the test program calls the library through two pipes.
//!
//! `PJ_LIB_DIR` names another folder for the archive and `PJ_ROUTE` another route (to try faulty stand-ins).

use std::env;
use std::fs;
use std::path::{Path, PathBuf};
use std::process::Command;

const ARCHIVE: &str = "libexports.a";

fn main() {
    println!("cargo:rustc-check-cfg=cfg(hosted)");
    println!("cargo:rerun-if-env-changed=PJ_LIB_DIR");
    println!("cargo:rerun-if-env-changed=PJ_ROUTE");

    let second = PathBuf::from(env::var("CARGO_MANIFEST_DIR").unwrap());
    let folder = match env::var("PJ_LIB_DIR") {
        Ok(folder) => PathBuf::from(folder),
        Err(_) => second.join("../../target/staticlib"),
    };
    let archive = folder.join(ARCHIVE);
    println!("cargo:rerun-if-changed={}", archive.display());
    if !archive.is_file() {
        panic!("{} is not there: run `command/build exports` first", archive.display());
    }

    println!("cargo:rustc-env=PJ_FUNCTIONS={}", functions(&archive).join(" "));

    let processor = env::var("CARGO_CFG_TARGET_ARCH").unwrap();
    let route = env::var("PJ_ROUTE").unwrap_or_else(|_| match processor.as_str() {
        "x86_64" => "linked".to_string(),
        _ => "hosted".to_string(),
    });
    match route.as_str() {
        "linked" => {
            println!("cargo:rustc-link-search=native={}", folder.display());
            println!("cargo:rustc-link-lib=static=exports");
        }
        "hosted" => build_host(&second, &archive),
        other => panic!("PJ_ROUTE is {other}: it is linked or hosted"),
    }
}

/// The names in the archive's index, its first member: after a header of 60 bytes a count and so many places, each of
/// 32 bits with the high byte first, then the names, each with a zero byte after it.
fn functions(archive: &Path) -> Vec<String> {
    let bytes = fs::read(archive).unwrap_or_else(|error| panic!("{}: {error}", archive.display()));
    let (header, index) = bytes.split_at_checked(68).unwrap_or_else(|| panic!("{} is no archive", archive.display()));
    assert!(header.starts_with(b"!<arch>\n/ "), "{} has no index", archive.display());
    let count = u32::from_be_bytes(index[..4].try_into().unwrap()) as usize;
    let names = index[4 + 4 * count..].split(|&byte| byte == 0).take(count);
    names.map(|name| String::from_utf8(name.to_vec()).unwrap()).collect()
}

fn build_host(second: &Path, archive: &Path) {
    let source = second.join("host/host.c");
    let kit = second.join("../x86");
    let host = PathBuf::from(env::var("OUT_DIR").unwrap()).join("host");
    println!("cargo:rerun-if-changed={}", source.display());
    println!("cargo:rerun-if-changed={}", kit.display());
    let build = Command::new(kit.join("build")).arg(&host).arg(&source).arg(archive).output();
    let build = build.unwrap_or_else(|error| panic!("tests/x86/build did not start: {error}"));
    if !build.status.success() {
        panic!("tests/x86/build failed:\n{}", String::from_utf8_lossy(&build.stderr));
    }
    println!("cargo:rustc-cfg=hosted");
    println!("cargo:rustc-env=PJ_HOST={}", host.display());
    println!("cargo:rustc-env=PJ_START={}", kit.join("start").display());
}
