//! Links the proved library under the feature `proved`.

use std::env;
use std::path::Path;

fn main() {
    println!("cargo::rerun-if-changed=build.rs");
    if env::var_os("CARGO_FEATURE_PROVED").is_none() {
        return;
    }
    let folder = Path::new(env!("CARGO_MANIFEST_DIR")).join("../target/staticlib");
    let archive = folder.join("libwethertide.a");
    println!("cargo::rerun-if-changed={}", archive.display());
    if !archive.exists() {
        println!("cargo::error=../target/staticlib/libwethertide.a is missing: run tools/build first");
    }
    println!("cargo::rustc-link-search=native={}", folder.display());
    println!("cargo::rustc-link-lib=static=wethertide");
}
