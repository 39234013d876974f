//! Links the verified library, `libpciv_c.a`.
//!
//! Its folder is that of the environment variable `PCIV_LIB_DIR` (from the repository's root unless
//! absolute), else `crates/pciv_c/out`.

use std::{env, path::Path};

const DEFAULT_LIB_DIR: &str = "crates/pciv_c/out";

fn main() {
    println!("cargo::rerun-if-env-changed=PCIV_LIB_DIR");
    let package = env::var("CARGO_MANIFEST_DIR").expect("set by Cargo");
    let root = Path::new(&package).ancestors().nth(2).expect("rust/pciv");
    let folder = root.join(env::var("PCIV_LIB_DIR").unwrap_or(DEFAULT_LIB_DIR.into()));
    let archive = folder.join("libpciv_c.a");
    if !archive.is_file() {
        println!(
            "cargo::error={} is missing: build the library first, or set PCIV_LIB_DIR",
            archive.display()
        );
        return;
    }
    println!("cargo::rerun-if-changed={}", archive.display());
    println!("cargo::rustc-link-search=native={}", folder.display());
    println!("cargo::rustc-link-lib=static=pciv_c");
}
