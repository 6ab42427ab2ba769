//! Links the proved library that `.ci/library host` writes, or the one in the folder that PINUGLAW_LIB_DIR names.

use std::env;
use std::path::{Path, PathBuf};

fn main() {
    println!("cargo::rerun-if-env-changed=PINUGLAW_LIB_DIR");
    let folder = env::var_os("PINUGLAW_LIB_DIR").map_or_else(built, PathBuf::from);
    println!(
        "cargo::rerun-if-changed={}",
        folder.join("libhost.a").display()
    );
    println!("cargo::rustc-link-search=native={}", folder.display());
    println!("cargo::rustc-link-lib=static=host");
}

fn built() -> PathBuf {
    let here = env::var_os("CARGO_MANIFEST_DIR").expect("cargo sets it");
    Path::new(&here).join("../../target/staticlib")
}
